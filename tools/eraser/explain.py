"""Tells which rule of the eraser wrote each line of an erased file that is no line of its source."""
import difflib

from .layout import RULES, TOP, formatted, sources, target_of
from .scanner import Refused


def explanation(path):
    """Returns a line for each line of an erased file that is no line of its source, and one with their number.

    `path` is that of the file in the repository.
    """
    texts = sources()
    name = next((name for name in texts if TOP / "rust" / target_of(name) == path), None)
    if name is None:
        raise Refused(f"{path} is no file that tools/erase writes")
    lines, writers = written_lines(texts, name)
    found = [f"{at}: {writer}: {line}" for at, (line, writer) in enumerate(zip(lines, writers), 1) if writer]
    return [*found, f"{len(found)} of {len(lines)} lines are no lines of crates/{name}"]


def written_lines(texts, name):
    """Returns the lines of the erased text of the file `name`, and for each the rule that wrote it.

    The rule is None for a line of the source, apart from its indentation. `texts` has the texts of all source files.
    """
    lines = _lines(texts[name])
    writers = [None] * len(lines)
    for step, rule in enumerate(RULES):
        before, texts = texts[name], rule(texts)
        if step == 0:  # the text before it is none of Rust, and so not laid out by `rustfmt`
            lines, writers = _compared(lines, writers, _lines(texts[name]), _title(rule))
            lines, writers = _compared(lines, writers, _lines(formatted(texts[name])), "rustfmt")
        elif texts[name] != before:
            lines, writers = _compared(lines, writers, _lines(formatted(texts[name])), _title(rule))
    return lines, writers


def _title(rule):
    """Returns the name of a rule, and its file in tools/eraser."""
    return f"{rule.__name__} ({rule.__module__.rpartition('.')[2]}.py)"


def _lines(text):
    """Returns the lines of a text without their indentation."""
    return [line.strip() for line in text.splitlines()]


def _compared(old, writers, new, writer):
    """Returns the lines `new` and the writer of each: `writer` for a line that is not in `old`."""
    found = []
    for kind, start, end, first, last in difflib.SequenceMatcher(None, old, new, autojunk=False).get_opcodes():
        found += writers[start:end] if kind == "equal" else [writer] * (last - first)
    return new, found
