"""Faults that `tools/documents` must find, each in a page or a source that has no other one."""

import sys

from . import sources

TOOLCHAIN = "kit logic aaaaaaaaaaaaaaaa"
THEOREMS = "docs/THEOREMS.md"
RUN = "../crates/run_events_stats/src/stats/run.rt"
# A part of the fault, and the page.
PAGES = (
    ("`echo one` prints\none", "```console tested\n$ echo one\ntwo\n```"),
    ("` prints", "```console tested\n$ printf 'a\\nc\\n'\na\nb\n[...]\n```"),
    ("`echo one` prints", "A line is missing.\n\n```console tested\n$ echo one\n```"),
    ("` prints\ntwo", "```console tested\n$ true\n$ echo two >&2; false\n```"),
    ("`echo $?` prints\n1", "```console tested\n$ false\n$ echo $?\n0\n```"),
    ("the block has no line that begins with `$ `", "```console tested\none\n```"),
    ("nothing reads the words `console test`", "```console test\n$ echo one\n```"),
    ("nothing reads the words `sh cargo`", '```sh cargo\nexec cargo "$@"\n```'),
    ("there is no file for the link docs/ABSENT.md", "See [the page](docs/ABSENT.md)."),
    ("there is no file for the link ABSENT.md", "See [the page][absent].\n\n[absent]: ABSENT.md"),
    ("there is no heading for the link README.md#absent", "See [`the` page](README.md#absent)."),
    ("there is no heading for the link #other", "# One\n\nSee [below](#other), and [above](#one)."),
    ("there is no heading for the link #one-1", "# One\n\nSee [the second](#one-1)."),
    ("the link /README.md is not relative", "See [the page](/README.md)."),
    ("the number 3 is 2 by `echo 2`", "There are 3<!-- count: echo 2 --> of them."),
    ("the number 1,234 is 1235", "There are **1,234**<!-- count: echo 1235 --> of them."),
    ("the number 1.95 is 1.96", "It needs Rust 1.95<!-- count: echo 1.96 -->."),
    ("the number 94 is 100", "About 94<!-- about: echo 100 -->, and 95<!-- about: echo 100 -->."),
    ("the number 106 is 100", "About 106<!-- about: echo 100 -->, and 105<!-- about: echo 100 -->."),
    ("the number many is 2", "There are many<!-- about: echo 2 --> of them."),
    ("by `echo 3; false`, status 1", "There are 3<!-- count: echo 3; false --> of them."),
    ("status 1", "There are 3<!-- count: false | echo 3 --> of them."),
    ("1 comments are not of the form", "There are 3<!-- count 3 --> of them."),
    ("the toolchain is not `logic 0123456789abcdef`", "It is proved with `logic 0123456789abcdef`."),
    ("the excerpt is not in tools/cargo", '```sh tools/cargo\nexec cargo  "$@"\n```'),
    ("the excerpt is not in tools/absent", '```sh tools/absent\nexec cargo "$@"\n```'),
)
# The same for pages of which more is compared.
NAMED_PAGES = (
    ("its caller is not that in of_output_slice.rt", "crates/output_slice/CALLING.md", "```rust\nlet a = 1;\n```"),
    ("its caller is not that in of_output_slice.rt", "crates/output_slice/CALLING.md", "It has none."),
    ("it has no row", THEOREMS, sources.THEOREMS_HEAD),
    ("run.rt has no call Stats::of_run", THEOREMS, f"| It counts | [`Stats::of_run`]({RUN}) `counts` |"),
    ("RunStats::of_run has no clause sums", THEOREMS, f"| It counts | [`RunStats::of_run`]({RUN}) `counts`, `sums` |"),
    ("calls and clauses that are not read", THEOREMS, "| It counts | `RunStats::of_run` `counts` |"),
    ("calls and clauses that are not read", THEOREMS, f"| It counts | [`RunStats::of_run`]({RUN}) |"),
    ("it has 111 lines", "README.md", "logic aaaaaaaaaaaaaaaa" + "\n" * 111),
    ("it has 902 words", "README.md", "logic aaaaaaaaaaaaaaaa" + " word" * 900),
    ("it does not name the logic", "README.md", "It names none."),
)
PROVED = ["fn one() {\n    let a = 1;\n    let b = 2;\n    a + b\n}\n"]
# The fault, or nothing, and what the first page of a library shows.
FIRST_PAGES = (
    ("", "```rust\nlet a = 1;\n    let b = 2;\na + b\n}\n```"),
    ("its example is not proved", "```rust\nlet a = 1;\na + b\nlet b = 2;\n}\n```"),
    ("its example is not proved", "```rust\nlet a = 1;\nlet b = 2;\na + c\n}\n```"),
    ("its example is not proved", "```rust\na = 1;\nlet b = 2;\na + b\n}\n```"),
    ("its example is too short or too long", "```rust\nlet a = 1;\nlet b = 2;\na + b\n```"),
    ("its first page has no example", "```text\nlet a = 1;\nlet b = 2;\na + b\n}\n```"),
)
# The same for the name of an edit of the crate `run_events_stats`.
EDITS = (
    ("", "RunStats.of_run.wrong.edit"),
    ("no such public function", "RunStats.of_runs.wrong.edit"),
    ("no such public function", "RunStats.count_units.wrong.edit"),
    ("no such public function", "of_run.wrong.edit"),
    ("no such public function", "Stats.of_run.wrong.edit"),
)
# The same for a line of a definition.
LINES = (
    ("", "x" * 160),
    ("", f"pub use {'x' * 160}"),
    ("line 2 is longer", f"one\n{'≡' * 161}"),
    ("line 1 is longer", f" use {'x' * 160}"),
)


def first_page_faults(shown):
    """Returns the faults of a source whose first page shows a text."""
    comment = "".join(f"//! {line}".rstrip() + "\n" for line in shown.split("\n"))
    return sources.first_page_faults(f"{comment}\nfn own() {{}}\n", PROVED)


def run(faults_of_page):
    """Tries all faults, and returns the exit status. `faults_of_page` takes the name and the text of a page."""
    results = [(wanted, text, faults_of_page("page.md", text)) for wanted, text in PAGES]
    results += [(wanted, text, faults_of_page(name, text)) for wanted, name, text in NAMED_PAGES]
    results += [(wanted, text, first_page_faults(text)) for wanted, text in FIRST_PAGES]
    results += [(wanted, text, sources.edit_faults("run_events_stats", [text])) for wanted, text in EDITS]
    results += [(wanted, text, sources.line_faults(text)) for wanted, text in LINES]
    failed = 0
    for wanted, text, found in results:
        if len(found) != bool(wanted) or wanted not in "".join(found):
            print(f"documents: not refused for `{wanted}`, but for {found}:\n{text}", file=sys.stderr)
            failed += 1
    print(f"documents: {len(results)} trials, {failed} failed")
    return 1 if failed else 0
