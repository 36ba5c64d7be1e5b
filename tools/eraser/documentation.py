"""Gives doc comments the paths, the examples and the sections that they have in Rust."""
import re

from .entries import entries
from .scanner import Source
from .table import ERRORS, PATH_OF, WORDS_OF_PROOFS

DOCS = ("///", "//!")


def _lines(source):
    """Returns the lines of doc comments."""
    return [i for i, kind in enumerate(source.kind) if kind == "comment" and source.text[i].startswith(DOCS)]


def with_links(text, name):
    """Returns the text of the file `name`, whose doc comments link to the modules of its package."""
    path = "::".join(["crate", *PATH_OF[name.split("/")[0]], ""])
    return re.sub(r"^ *//[/!].*", lambda line: re.sub(r"\bcrate::", path, line[0]), text, flags=re.M)


def without_examples(text, name):
    """Returns the text of the file `name` without the example in Rattle, and without the paragraph before it."""
    source = Source(text, name)
    lines = _lines(source)
    fences = [i for i in lines if source.text[i][3:].startswith(" ```")]
    if fences:
        blanks = [i for i in lines if i < fences[0] and len(source.text[i]) == 3]
        if len(fences) != 2 or len(blanks) < 2:
            source.refuse(fences[0], "an example that is not after two paragraphs")
        source.drop_line(blanks[-2], fences[1])
    return source.result()


def with_examples(text, name, examples=entries("examples.txt")):
    """Returns the text of the file `name` with the examples of the table, each after its item's documentation."""
    source = Source(text, name)
    for file, words, code in ((*head.split(" | "), code) for head, code in examples):
        if file == name:
            item = next(i for i in source.code if source.reads(i, *words.split()))
            last = max(i for i in _lines(source) if i < item)
            source.new[last] += "".join(f"\n/// {line}".rstrip() for line in ("", "```", *code.splitlines(), "```"))
    return source.result()


def with_errors(text, name):
    """Returns the text of the file `name` with the section `Errors`: the paragraphs that say when errors come."""
    source = Source(text, name)
    for i in _lines(source):
        if source.text[i][3:].strip().startswith(ERRORS):
            source.new[i] = f"/// # Errors\n///\n{source.text[i]}"
    return source.result()


def refuse_words_of_proofs(text, name):
    """Returns the text of the file `name`. Refuses a doc comment that speaks of contracts, proofs or memory."""
    source = Source(text, name)
    for i in _lines(source):
        found = re.search(WORDS_OF_PROOFS, source.text[i])
        if found:
            source.refuse(i, f"a doc comment with `{found.group()}`")
    return text
