"""Edits the values that a function returns, when its refusals of memory go: `Ok(x)` becomes `x`, and the like."""
BLOCKS = ("if", "match", "for", "while", "loop", "unsafe")


class Values:
    """The values that one function returns, in its branches and by `return`."""

    def __init__(self, source, function, calls):
        """Prepares the edit of the values of `function`, whose calls are found by `calls`."""
        self.source, self.function, self.calls = source, function, calls
        self.settled = set()

    def edit(self):
        """Edits all values, and returns the last tokens of the calls among them."""
        self._block(*self.function.body)
        self._returns()
        return self.settled

    def _block(self, opening, closing):
        """Edits the value of the block between two braces."""
        source = self.source
        i = source.after(opening)
        while i != closing:
            first = i
            if source.kind[i] == "lifetime":
                i = source.after(i, 2)
            if source.text[i] in BLOCKS or source.text[i] == "{":
                end = self._block_end(i)
                if source.after(end) == closing:
                    self._value(first, end)
                    return
                if source.at(source.after(end)) not in (".", "?"):
                    i = source.after(end)
                    i = source.after(i) if source.at(i) == ";" else i
                    continue
            end = i
            while end != closing and source.text[end] != ";":
                end = source.skip(end)
            if end == closing:
                self._value(first, source.before(closing))
                return
            i = source.after(end)

    def _brace(self, i):
        """Returns the brace of the `if`, `match` or loop at `i`. A brace in a pattern is skipped."""
        source = self.source
        while source.text[i] != "{":
            if source.text[i] == "let":
                i = source.find(i, "=")
            elif source.text[i] == "for":
                i = source.find(i, "in")
            i = source.skip(i)
        return i

    def _block_end(self, i):
        """Returns the last brace of the `if`, `match`, loop or block that begins at `i`."""
        source = self.source
        while True:
            end = source.partner[self._brace(i)]
            if source.at(source.after(end)) != "else":
                return end
            i = source.after(end, 2)

    def _value(self, first, last):
        """Edits the value from `first` to `last`, which the function returns."""
        source = self.source
        if source.text[first] == "if":
            self._if_value(first, last)
        elif source.text[first] == "match" and source.partner[self._brace(first)] == last:
            self._arms(self._brace(first), last)
        elif source.text[first] == "{":
            self._block(first, last)
        else:
            self._expression(first, last, is_return=False)

    def _if_value(self, first, last):
        """Edits the values of all branches of an `if`."""
        source = self.source
        while True:
            brace = self._brace(first)
            self._block(brace, source.partner[brace])
            if source.partner[brace] == last:
                return
            first = source.after(source.partner[brace], 2)

    def _arms(self, opening, closing):
        """Edits the values of all arms of a `match`."""
        source = self.source
        i = source.after(opening)
        while i != closing:
            first = source.after(source.find(i, "=>"))
            if source.text[first] == "{":
                self._block(first, source.partner[first])
                i = source.skip(first)
            else:
                i = first
                while i != closing and source.text[i] != ",":
                    i = source.skip(i)
                self._value(first, source.before(i))
            if source.at(i) == ",":
                i = source.after(i)

    def _returns(self):
        """Edits the values of `return`."""
        source = self.source
        for i in source.between(*self.function.body):
            if source.text[i] != "return" or source.at(source.after(i)) == ";":
                continue
            first = end = source.after(i)
            while source.text[end] not in (";", ",", "}"):
                end = source.skip(end)
            self._expression(first, source.before(end), is_return=True)

    def _expression(self, first, last, is_return):
        """Edits a value that is neither a block nor a branch."""
        source, opening = self.source, self.source.after(first)
        if source.text[first] == "Ok" and source.at(opening) == "(" and source.partner[opening] == last:
            if source.words(opening, last)[1:] == ["(", ")"]:
                self._drop_unit(first, last, is_return)
            else:
                source.drop(first, opening)
                source.is_dropped[last] = True
        elif self.calls.is_plain(source, last, self.function):
            self.settled.add(last)
            if self.function.returns_unit and not is_return and source.at(source.before(first)) != "=>":
                source.new[last] += ";"
        elif source.text[first] != "return":
            source.refuse(first, f"`{self.function.name}` returns neither `Ok` nor a call that always succeeds")

    def _drop_unit(self, first, last, is_return):
        """Drops the value `Ok(())`, with an `else` of which it is all."""
        source = self.source
        source.drop(first, last)
        before, after = source.before(first), source.after(last)
        is_all = source.at(before) == "{" and source.at(after) == "}"
        if source.at(before) == "=>":
            source.replace(first, last, "{}")
        elif is_all and source.at(source.before(before)) == "else":
            source.drop(source.before(before), after)
        elif is_return and source.kind[first - 1] == "space":
            source.is_dropped[first - 1] = True
