"""The items of a module, as lists of tokens without spaces and comments."""

from dataclasses import dataclass

from rust_tokens import CLOSING, code_of

ENDS_WITH_SEMICOLON = {"const", "static", "type", "use", "extern"}


class NotUnderstood(Exception):
    """The text is not what the scanner expects."""


@dataclass
class Item:
    """An item of a module: attributes, the keyword and the name that it begins with, and tokens."""

    attributes: list
    keyword: str
    name: str
    tokens: list


def group_end(tokens, first):
    """Returns the index of the bracket that closes the one at an index."""
    open_brackets = []
    for index in range(first, len(tokens)):
        mark = tokens[index].text if tokens[index].kind == "mark" else ""
        if mark in CLOSING:
            open_brackets.append(CLOSING[mark])
        elif open_brackets and mark == open_brackets[-1]:
            open_brackets.pop()
            if not open_brackets:
                return index
    raise NotUnderstood(f"a bracket at offset {tokens[first].start} is not closed")


def end_of_item(tokens, first):
    """Returns the index of the last token of the item that begins, without attributes, at an index."""
    index, needs_semicolon = first, tokens[first].text in ENDS_WITH_SEMICOLON
    while index < len(tokens):
        text = tokens[index].text
        if text == ";":
            return index
        if text in CLOSING:
            index = group_end(tokens, index)
            if text == "{" and not needs_semicolon:
                return index
        index += 1
    raise NotUnderstood(f"an item at offset {tokens[first].start} does not end")


def name_in(tokens, first):
    """Returns the keyword and the name of the item that begins, without attributes, at an index."""
    keyword = tokens[first].text
    if keyword in ("fn", "struct", "enum", "const", "static", "type", "mod"):
        return keyword, tokens[first + 1].text
    if keyword in ("use", "impl"):
        return keyword, ""
    raise NotUnderstood(f"the item at offset {tokens[first].start} begins with {keyword}")


def attributes_at(tokens, index):
    """Returns the attributes that begin at an index, and the index after them."""
    found = []
    while index < len(tokens) and tokens[index].text == "#":
        index += tokens[index + 1].text == "!"
        end = group_end(tokens, index + 1)
        found.append(tokens[index + 2:end])
        index = end + 1
    return found, index


def items_of(tokens):
    """Returns the items of a module's body."""
    items, index = [], 0
    while index < len(tokens):
        attributes, index = attributes_at(tokens, index)
        end = end_of_item(tokens, index)
        items.append(Item(attributes, *name_in(tokens, index), tokens[index:end + 1]))
        index = end + 1
    return items


def test_modules(text):
    """Yields the bodies of the modules with the attribute `cfg(test)`, as tokens."""
    tokens = code_of(text)
    attribute = ["#", "[", "cfg", "(", "test", ")", "]", "mod"]
    for index in range(len(tokens) - len(attribute) - 1):
        if [token.text for token in tokens[index:index + len(attribute)]] == attribute:
            first = index + len(attribute) + 1
            yield tokens[first + 1:group_end(tokens, first)]
