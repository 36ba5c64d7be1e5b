"""Finds the functions of a file: their owners, visibility, parameters, clauses, results and bodies."""
CLAUSES = ("requires", "ensures", "decreases")


class Function:
    """A function of a file, as the places of its tokens."""

    def __init__(self, source, fn_token, owner, kind):
        """Reads the signature of the `fn` at `fn_token`. `kind` is the kind of block that it is in."""
        self.source, self.fn_token, self.owner = source, fn_token, owner
        self.is_of_trait = kind in ("trait", "public trait", "impl of a trait")
        self.is_of_public_trait = kind == "public trait"
        self.name = source.at(source.after(fn_token))
        self.open = source.after_generics(source.after(fn_token, 2))
        if source.at(self.open) != "(":
            source.refuse(fn_token, "a function of an unknown form")
        self.close = source.partner[self.open]
        self.first = self._first_word()
        self._read_result()
        self._read_body()

    def _first_word(self):
        """Returns the first token of the signature: `pub`, `const`, `unsafe`, `extern` or `fn`."""
        source, first = self.source, self.fn_token
        while True:
            before = source.before(first)
            if source.at(before) in ("const", "unsafe", "extern", "pub") or source.at(before) == '"C"':
                first = before
            elif source.at(before) == ")" and source.at(source.before(source.partner[before])) == "pub":
                return source.before(source.partner[before])
            else:
                return first

    def _read_result(self):
        """Finds the arrow and the tokens of the type after it."""
        source = self.source
        self.arrow, self.type = None, []
        at = source.after(self.close)
        if source.at(at) == "->":
            self.arrow, at = at, source.after(at)
            first = at
            while source.at(at) not in ("{", ";", "where") + CLAUSES:
                at = source.skip(at)
            self.type = source.between(first, at)
        self.after_type = at

    def _read_body(self):
        """Finds the clauses, and the braces of the body, if there is one."""
        source, at = self.source, self.after_type
        self.clauses, self.body = [], None
        while source.at(at) not in ("{", ";"):
            if source.at(at) not in CLAUSES:
                at = source.skip(at)
                continue
            first, at = at, source.after(at)
            if source.is_name(at):
                at = source.after(at)
            if source.at(at) != "{":
                source.refuse(first, "a clause of an unknown form")
            self.clauses.append((first, source.partner[at]))
            at = source.skip(at)
        if source.at(at) == "{":
            self.body = (at, source.partner[at])

    @property
    def is_public(self):
        """Returns true if other packages can call the function by itself."""
        return self.source.at(self.first) == "pub" and self.source.at(self.source.after(self.first)) != "("

    @property
    def has_condition(self):
        """Returns true if it has a precondition."""
        return any(self.source.at(first) == "requires" for first, _ in self.clauses)

    @property
    def is_plain(self):
        """Returns true if its only error is that memory is refused."""
        words = self.type_words()
        return words[:2] == ["Result", "<"] and words[-3:] == [",", "AllocError", ">"]

    @property
    def returns_unit(self):
        """Returns true if the result, or the value of a `Result`, is `()`."""
        words = self.type_words()
        at = words.index("<") + 1 if "<" in words else 0
        return words[at:at + 2] == ["(", ")"]

    @property
    def path(self):
        """Returns the name with that of its type or trait, if there is one."""
        return f"{self.owner}::{self.name}" if self.owner else self.name

    def parameter_words(self):
        """Returns the texts of the parameters."""
        return self.source.words(self.open, self.close)[1:]

    def type_words(self):
        """Returns the texts of the result's type."""
        return [self.source.text[i] for i in self.type]


def functions_of(source):
    """Returns the functions of a file, in order."""
    owners = _owners(source)
    found = []
    for i in source.code:
        if source.text[i] == "fn" and source.is_name(source.after(i)):
            owner, kind = owners.get(i, (None, "file"))
            found.append(Function(source, i, owner, kind))
    return found


def _owners(source):
    """Returns for each `fn` in a block the name of the block's type or trait, and the kind of block."""
    owners = {}
    for i in source.code:
        is_in_type = source.at(source.before(i)) in ("(", ":", "->", "<", "&", ",")
        if source.text[i] in ("impl", "trait") and not is_in_type:
            brace, owner, kind = _block(source, i)
            inside = source.between(brace, source.partner[brace])
            owners.update({k: (owner, kind) for k in inside if source.text[k] == "fn"})
    return owners


def _block(source, i):
    """Returns the brace of the `impl` or `trait` at `i`, the name of its type or trait, and its kind."""
    at = source.after_generics(source.after(i))
    owner, kind = source.at(at), source.text[i]
    if kind == "trait" and source.at(source.before(i)) == "pub":
        kind = "public trait"
    while source.text[at] != "{":
        if source.text[at] == "for":
            owner, kind = source.at(source.after(at)), "impl of a trait"
        at = source.after(at)
    return at, owner, kind
