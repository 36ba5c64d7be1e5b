"""Test functions: which can be run over the crate, and the Rust text that runs them."""

import re
from dataclasses import dataclass, field

from upstream.scanner import NotUnderstood, group_end, items_of, test_modules

# What the layer does not have, and why. An item that names one of these is left out.
ABSENT = {
    "OutputLoadDecider": "it tests nextest's recorder, which is not part of the layer",
    "OutputEventKind": "it tests nextest's recorder, which is not part of the layer",
    "RecordingSpec": "it tests nextest's recorder, which is not part of the layer",
    "Arbitrary": "it is a generator of values",
}


@dataclass
class Selection:
    """The text of the tests that can be run, their names, and what is left out with the reasons."""

    text: str = ""
    taken: list = field(default_factory=list)
    left_out: dict = field(default_factory=dict)


def source(text, tokens):
    """Returns the text from the first to the last of some tokens."""
    return text[tokens[0].start:tokens[-1].end]


def first_named(item, table):
    """Returns the first word of an item that a table has, or None."""
    inside = (token for tokens in [*item.attributes, item.tokens] for token in tokens)
    return next((token.text for token in inside if token.kind == "name" and token.text in table), None)


def is_property(item):
    """Whether an item is a property, which `test_strategy` runs on values of its parameters' types."""
    return any(attribute[0].text == "proptest" for attribute in item.attributes)


def is_test(item):
    """Whether an item is a test function."""
    return is_property(item) or any([token.text for token in words] == ["test"] for words in item.attributes)


def split_at_commas(tokens):
    """Returns the parts of a list between its commas, except those inside brackets or `<` and `>`."""
    parts, depth = [[]], 0
    for token in tokens:
        depth += {"(": 1, "[": 1, "{": 1, "<": 1, ")": -1, "]": -1, "}": -1, ">": -1}.get(token.text, 0)
        if token.text == "," and depth == 0:
            parts.append([])
        else:
            parts[-1].append(token)
    return [part for part in parts if part]


def parameters_of(text, tokens):
    """Yields the filter, the name and the type of each parameter of a property; the filter may be empty."""
    first = next(index for index, token in enumerate(tokens) if token.text == "(")
    rest = tokens[first + 1:group_end(tokens, first)]
    while rest:
        condition = ""
        if rest[0].text == "#":
            end = group_end(rest, 1)
            if rest[2].text != "filter":
                raise NotUnderstood(f"a parameter has the attribute {rest[2].text}")
            condition = source(text, rest[4:end - 1]).replace("#", "")
            rest = rest[end + 1:]
        parameter = split_at_commas(rest)[0]
        if parameter[1].text != ":":
            raise NotUnderstood(f"the parameter {parameter[0].text} has no type")
        yield condition, parameter[0].text, source(text, parameter[2:])
        rest = rest[len(parameter) + 1:]


def loops_over(text, item):
    """Returns a test function that runs a property on all values of its parameters' types."""
    loops, body = "", next(index for index, token in enumerate(item.tokens) if token.text == "{")
    count = 0
    for condition, name, kind in parameters_of(text, item.tokens):
        loops += f"for {name} in <{kind} as All>::all() {{\n"
        loops += f"if !({condition}) {{ continue; }}\n" if condition else ""
        count += 1
    return f"#[test]\nfn {item.name}() {{\n{loops}{source(text, item.tokens[body:])}\n{'}' * count}}}\n"


def text_of(text, item):
    """Returns the text of an item as it goes into the package."""
    if is_property(item):
        return loops_over(text, item)
    attributes = "".join(f"#[{source(text, attribute)}]\n" for attribute in item.attributes)
    return f"{attributes}{source(text, item.tokens)}\n"


def with_paths(text):
    """Returns a text whose paths from upstream's root are paths of the crate."""
    return re.sub(r"\bcrate::", "deodarsieve::", text)


def select_item(text, module, item, selection):
    """Adds an item of a module to a selection if it can be run, and returns whether it is a test function."""
    absent, name = first_named(item, ABSENT), f"{module}::{item.name}"
    if item.keyword == "use":
        return False
    if not absent:
        selection.text += with_paths(text_of(text, item))
    if is_test(item) and absent:
        selection.left_out[name] = ABSENT[absent]
    elif is_test(item):
        selection.taken.append(name)
    return is_test(item)


def select_from(text, name, selection):
    """Adds what can be run of a file to a selection, as modules that begin with a name.

    Returns the number of test functions that the file has.
    """
    found = 0
    for number, body in enumerate(test_modules(text), 1):
        module = f"{name}_{number}"
        selection.text += f"mod {module} {{\n#[allow(unused_imports)]\nuse super::adapters::*;\n"
        found += sum(select_item(text, module, item, selection) for item in items_of(body))
        selection.text += "}\n"
    return found
