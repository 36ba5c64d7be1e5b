"""Matches the brackets of a source file, and writes it back with edits of its tokens."""
from rust_tokens import BLANK, CLOSING, tokens_of

OPENING = {close: opening for opening, close in CLOSING.items()}


class Refused(Exception):
    """The eraser met something that it does not know."""


class Source:
    """The tokens of one file, each of which can be dropped or replaced."""

    def __init__(self, text, name):
        """Splits `text`, the content of the file `name`."""
        self.name = name
        tokens = tokens_of(text)
        self.kind = [token.kind for token in tokens]
        self.text = [token.text for token in tokens]
        self._refuse_nested_comments()
        self.new = list(self.text)
        self.is_dropped = [False] * len(self.text)
        self.partner = self._matched_brackets()
        self.code = [i for i, kind in enumerate(self.kind) if kind not in BLANK]
        self.rank = {i: rank for rank, i in enumerate(self.code)}

    def _refuse_nested_comments(self):
        """Refuses a block comment that another one begins in."""
        for i, kind in enumerate(self.kind):
            if kind == "block" and "/*" in self.text[i][2:]:
                self.refuse(i, "a block comment in another one")

    def _matched_brackets(self):
        """Returns the partner of every bracket."""
        partner, waiting = {}, []
        for i, kind in enumerate(self.kind):
            if kind != "mark":
                continue
            if self.text[i] in CLOSING:
                waiting.append(i)
            elif self.text[i] in OPENING:
                if not waiting or self.text[waiting[-1]] != OPENING[self.text[i]]:
                    self.refuse(i, "unbalanced bracket")
                partner[i] = waiting.pop()
                partner[partner[i]] = i
        if waiting:
            self.refuse(waiting[-1], "unclosed bracket")
        return partner

    def refuse(self, i, reason):
        """Stops the eraser, with the place of token `i`."""
        line = 1 + "".join(self.text[:i]).count("\n")
        raise Refused(f"{self.name}:{line}: {reason}")

    def after(self, i, count=1):
        """Returns the code token `count` places after `i`, or None."""
        rank = self.rank[i] + count
        return self.code[rank] if 0 <= rank < len(self.code) else None

    def before(self, i, count=1):
        """Returns the code token `count` places before `i`, or None."""
        return self.after(i, -count)

    def at(self, i):
        """Returns the text of token `i`, or an empty text for None."""
        return "" if i is None else self.text[i]

    def is_name(self, i):
        """Returns true if token `i` is a name or a keyword."""
        return i is not None and self.kind[i] == "name"

    def reads(self, i, *words):
        """Returns true if the code tokens from `i` on are `words`."""
        for word in words:
            if self.at(i) != word:
                return False
            i = self.after(i)
        return True

    def between(self, first, last):
        """Returns the code tokens from `first` up to and without `last`."""
        return self.code[self.rank[first]:self.rank[last]]

    def words(self, first, last):
        """Returns the texts of the code tokens from `first` up to and without `last`."""
        return [self.text[i] for i in self.between(first, last)]

    def skip(self, i):
        """Returns the code token after `i`, or after the group that `i` opens."""
        if i is None:
            raise Refused(f"{self.name}: the file ends in the middle of an item")
        return self.after(self.partner[i] if self.text[i] in CLOSING else i)

    def find(self, i, *words):
        """Returns the first of `words` at or after `i`, outside of brackets that open before it."""
        while i is not None and self.text[i] not in words:
            i = self.skip(i)
        return i

    def closing_angle(self, i):
        """Returns the `>` that closes the `<` at `i`."""
        depth, at = 0, i
        while at is not None:
            if self.text[at] == "<":
                depth += 1
            elif self.text[at] == ">":
                depth -= 1
                if depth == 0:
                    return at
            at = self.skip(at)
        return self.refuse(i, "an unclosed `<`")

    def after_generics(self, i):
        """Returns the token after the generic parameters at `i`, or `i` if there are none."""
        return self.after(self.closing_angle(i)) if self.at(i) == "<" else i

    def drop(self, first, last):
        """Drops all tokens from `first` to `last`."""
        for i in range(first, last + 1):
            self.is_dropped[i] = True

    def replace(self, first, last, text):
        """Puts `text` in place of all tokens from `first` to `last`."""
        self.drop(first, last)
        self.is_dropped[first] = False
        self.new[first] = text

    def drop_argument(self, first, last):
        """Drops a parameter or an argument, with the comma and the space next to it."""
        if self.at(self.after(last)) == ",":
            last = self.after(last)
        elif self.at(self.before(first)) == ",":
            first = self.before(first)
        self.drop(first, last)
        if self.kind[last + 1] == "space":
            if "\n" not in self.text[last + 1]:
                self.is_dropped[last + 1] = True
            elif "\n" in self.text[first - 1]:
                self.is_dropped[first - 1] = True

    def drop_line(self, first, last):
        """Drops the tokens from `first` to `last`, and the line break after them."""
        self.drop(first, last)
        if last + 1 < len(self.text) and self.text[last + 1].count("\n") == 1:
            self.is_dropped[last + 1] = True

    def drop_item(self, first, last):
        """Drops an item or a statement, with the comments and attributes above it."""
        start = self.item_start(first)
        self.drop_line(start, last)

    def item_start(self, first):
        """Returns the first comment or attribute of the item whose code begins at `first`."""
        start = i = first
        while i > 0:
            i -= 1
            if self.kind[i] == "space":
                if self.text[i].count("\n") > 1:
                    break
            elif self.kind[i] == "comment":
                if not self._begins_line(i) or self.text[i].startswith("//!"):
                    break
                start = i
            elif self.text[i] == "]" and self.at(self.before(self.partner[i])) == "#":
                i = start = self.before(self.partner[i])
            else:
                break
        return start

    def first_of_item(self, i):
        """Returns the first token of the declaration at `i`: its visibility, or `i`."""
        before = self.before(i)
        if self.at(before) == "pub":
            return before
        if self.at(before) == ")" and self.at(self.before(self.partner[before])) == "pub":
            return self.before(self.partner[before])
        return i

    def _begins_line(self, i):
        """Returns true if no other token is before `i` on its line."""
        return i == 0 or (self.kind[i - 1] == "space" and "\n" in self.text[i - 1])

    def result(self):
        """Returns the text with all edits."""
        return "".join(new for new, dropped in zip(self.new, self.is_dropped) if not dropped)
