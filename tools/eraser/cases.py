"""Drops the case `OutOfMemory` of enums."""
import re

from .scanner import Refused, Source

CASE = "OutOfMemory"
# The texts that name the case, in the layout of the sources.
FORMS = (
    rf"^ *//[/!] - \[`\w+::{CASE}`\].*\n",  # an entry of a list in a doc comment
    rf"\n(\n *///.*)*\n *{CASE},$",  # its declaration, with its documentation
    rf"^ *\w+::{CASE} => .*,\n",  # an arm of a `match`
    rf" \| \w+::{CASE}\b",  # an alternative of a pattern
)


def without_memory_cases(text, name):
    """Returns the text of the file `name` without the cases `OutOfMemory`, and without conversions to them."""
    source = Source(text, name)
    for i in source.code:
        if source.text[i] == "impl":
            brace = source.find(source.after_generics(source.after(i)), "{")
            words = source.words(i, brace)
            if "From" in words and ("AllocError" in words or "AllocFailed" in words):
                source.drop_item(i, source.partner[brace])
    text = source.result()
    for form in FORMS:
        text = re.sub(form, "", text, flags=re.M)
    if CASE in text:
        raise Refused(f"{name}: `{CASE}` in a place that the eraser does not know")
    return text
