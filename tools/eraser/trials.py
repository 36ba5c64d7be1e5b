"""Tests of the eraser: for each rule a sample with its result, texts that it must refuse, and one explanation.

`samples.txt` has the samples: a line `=== RULE | FILE`, the text, a line `---`, and what it must become.
`refusals.txt` has the others: a line `=== PART OF THE MESSAGE`, and the text.
"""
import sys

from rust_tokens import tokens_of

from .attributes import refuse_unused_rows
from .entries import entries
from .explain import written_lines
from .layout import RULES, erased_texts
from .places import Place, place_of, refuse_missing_places, with_checks, with_places, without_items
from .scanner import Refused

FILE = "program_io/src/sample.rt"
# The places for the samples of the rules that apply them.
PLACES = [
    place_of(f"{FILE} | drop", "pub fn dropped"),
    place_of(FILE, "g(1); }\n---\nh(2); }"),
    place_of(f"{FILE} | panics checked", "Panics if `x` is 0.\ng(1);\n---\nassert!(x > 0); g(1);"),
]
RULES_OF_PLACES = (without_items, with_places, with_checks)
# Texts that do not have what a table names.
WRONG_TABLES = {
    "a place that is not there": lambda: with_places({FILE: "fn f() {}"}, PLACES),
    "a place that is there twice": lambda: with_places({FILE: "fn f() { g(1); } fn h() { g(1); }"}, PLACES),
    "an item that is not there": lambda: without_items({FILE: "fn f() {}"}, PLACES),
    "a check of a function that is not there": lambda: with_checks({FILE: "fn f() {}"}, PLACES),
    "a place of a file that is not there": lambda: refuse_missing_places({}, PLACES),
    "a row of a function that is not there": lambda: refuse_missing_places({FILE: "fn f() {}"}, PLACES),
    "a row of an unknown kind": lambda: refuse_missing_places(
        {FILE: "fn f() {}"}, [Place(FILE, "panic", "f", "", "", "")]
    ),
    "a row for a type that is not there": lambda: refuse_unused_rows({FILE: "pub struct A;"}, ("A", "B")),
}
EXPLAINED = "use crate::a::B;\n/// F.\npub fn f(alloc: Global, b: B) -> u8\n    ensures { a }\n{\n    1\n}\n"
WRITERS = [
    "with_first_line (layout.py)", "with_paths (paths.py)", None, "without_allocators (memory.py)", None, None,
]


def run():
    """Runs all tests, and returns the exit status."""
    samples, refusals = entries("samples.txt"), entries("refusals.txt")
    without_sample = {rule.__name__ for rule in RULES} - {head.split(" | ")[0] for head, _ in samples}
    failures = [f"{name} has no sample" for name in sorted(without_sample)]
    failures += [failure for head, body in samples for failure in _sample_failures(head, body)]
    failures += [failure for message, text in refusals for failure in _refusal_failures(message, text)]
    failures += [f"{what} is let through" for what, step in WRONG_TABLES.items() if not _is_refused(step)]
    writers = written_lines({FILE: EXPLAINED}, FILE)[1]
    failures += [] if writers == WRITERS else [f"the explanation: {writers}"]
    for line in failures:
        print(f"erase: {line}", file=sys.stderr)
    print(f"erase: {len(samples)} samples, {len(refusals) + len(WRONG_TABLES)} refusals, {len(failures)} failed")
    return 1 if failures else 0


def _tokens(text):
    """Returns the tokens of a text without white space."""
    return [token.text for token in tokens_of(text) if token.kind != "space"]


def _sample_failures(head, body):
    """Returns a line for a sample whose result is another one."""
    rule_name, name = head.split(" | ")
    text, wanted = body.split("\n---\n")
    rule = next(rule for rule in RULES if rule.__name__ == rule_name)
    try:
        found = (rule({name: text}, PLACES) if rule in RULES_OF_PLACES else rule({name: text}))[name]
    except Refused as refusal:
        found = f"refused, {refusal}"
    return [] if _tokens(found) == _tokens(wanted) else [f"sample of {rule_name}: {' '.join(found.split())}"]


def _refusal_failures(message, text):
    """Returns a line for a text that is let through, or refused for another reason."""
    try:
        refuse_missing_places({FILE: text}, ())
        found = erased_texts({FILE: text})[FILE]
    except Refused as refusal:
        found = "" if message in str(refusal) else str(refusal)
    return [f"not refused for `{message}`: {' '.join(found.split())}"] if found else []


def _is_refused(step):
    """Returns true if a step is refused."""
    try:
        step()
    except Refused:
        return True
    return False
