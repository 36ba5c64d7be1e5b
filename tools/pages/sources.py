"""What pages say of files and sources: links, excerpts, callers, theorems, first pages and the names of edits."""

import re
from pathlib import Path

from contract_items import items_of, public_types, sources

from .page import Page

LONGEST_LINE = 160
SHORTEST_EXAMPLE, LONGEST_EXAMPLE = 4, 15
# The crates of proved sources that pages show.
PROVED = ("uses", "report_uses")
THEOREMS_HEAD = "| theorem | contract |"
CALL = re.compile(r"\[`([^`]+)`\]\(([^)]+)\)")
GROUP = re.compile(rf"({CALL.pattern}(?:, {CALL.pattern})*) (`[^`]+`(?:, `[^`]+`)*)")


def link_fault(page, target, top):
    """Returns what is wrong with a link, or None."""
    name, _, anchor = target.partition("#")
    if re.match(r"[a-z]+:", target):
        return None
    if name.startswith("/"):
        return f"the link {target} is not relative"
    file = Path(top, page.name).parent / name
    if not file.exists():
        return f"there is no file for the link {target}"
    if not anchor:
        return None
    to = Page(name, file.read_text(encoding="utf-8")) if name else page
    return None if anchor in to.anchors() else f"there is no heading for the link {target}"


def link_faults(page, top):
    """Returns the number of links of a page, and the faults."""
    faults = [(line, link_fault(page, target, top)) for line, target in page.links()]
    return len(faults), [f"line {line}: {fault}" for line, fault in faults if fault]


def excerpt_faults(page, top):
    """Returns the number of excerpts of a page, and the faults: excerpts that are not in their files."""
    shown = [(block, Path(top, block.words[1])) for block in page.blocks if block.is_excerpt()]
    return len(shown), [
        f"line {block.line}: the excerpt is not in {block.words[1]}"
        for block, path in shown
        if not path.is_file() or block.text not in path.read_text(encoding="utf-8")
    ]


def caller_faults(page, top):
    """Returns 1, and a fault if the blocks `rust` of a page CALLING.md are not the proved caller of its library.

    The first two lines of the proved caller describe it, and are left out.
    """
    library = Path(page.name).parent.name
    paths = [Path(top, "crates", crate, "src", f"of_{library}.rt") for crate in PROVED]
    callers = [path.read_text(encoding="utf-8").split("\n", 2)[2] for path in paths if path.exists()]
    shown = "".join(block.text for block in page.blocks if block.words == ["rust"])
    return 1, [] if shown in callers else [f"its caller is not that in of_{library}.rt"]


def theorem_faults(page, top):
    """Returns the number of rows of docs/THEOREMS.md, and their faults.

    The second cell of a row is one or more groups, with `; ` between them. A group is calls that link to their files,
    then the clauses that each of them has. A call is a function, or `Display of TYPE` for what an impl states in its
    ghost members.
    """
    rows = [line for line in page.text.split("\n") if line.startswith("| ") and line != THEOREMS_HEAD]
    found = [] if rows else ["it has no row"]
    for row in rows:
        for group in row.removesuffix(" |").rpartition(" | ")[2].split("; "):
            read = GROUP.fullmatch(group)
            clauses = re.findall(r"`([^`]+)`", group[read.end(1) :]) if read else []
            found += [] if read else [f"calls and clauses that are not read: {group}"]
            for call, target in CALL.findall(group) if read else []:
                path = Path(top, page.name).parent.joinpath(target).resolve()
                found += clause_faults(path, call, clauses)
    return len(rows), found


def clause_faults(path, call, clauses):
    """Returns the faults of a call in a source: it is not there, or lacks clauses."""
    items = [item for item in items_of(path) if item.name == call] if path.is_file() else []
    if not items:
        return [f"{path.name} has no call {call}"]
    own = {clause for item in items for clause in item.clauses}
    return [f"{call} has no clause {clause}" for clause in clauses if clause not in own]


def first_page_faults(source, proved):
    """Returns the faults of the examples in the comment at the head of a source.

    The lines of an example must be together and in order in a proved source, apart from how far they are indented.
    """
    comment = re.match(r"(?://!.*\n)*", source)[0]
    page = Page("lib.rt", re.sub(r"^//! ?", "", comment, flags=re.M))
    examples = [unindented(block.text) for block in page.blocks if block.words == ["rust"]]
    found = [] if examples else ["its first page has no example"]
    for example in examples:
        if not SHORTEST_EXAMPLE <= example.count("\n") <= LONGEST_EXAMPLE:
            found.append("its example is too short or too long")
        if not any(f"\n{example}" in f"\n{unindented(text)}" for text in proved):
            found.append("its example is not proved")
    return found


def unindented(text):
    """Returns a text without the spaces at the start and the end of its lines."""
    return "".join(f"{line.strip()}\n" for line in text.splitlines())


def proved_texts(top):
    """Returns the texts of the proved sources."""
    paths = [path for crate in PROVED for path in Path(top, "crates", crate, "src").rglob("*.rt")]
    return [path.read_text(encoding="utf-8") for path in paths]


def edit_faults(crate, names):
    """Returns the faults of must-fail edits of a crate: FUNCTION.what.edit or TYPE.FUNCTION.what.edit, both public."""
    items = [item for path in sources(crate) for item in items_of(path)]
    calls, types = {item.name for item in items}, public_types(crate)
    traits = [item.name for item in items if any(line.startswith("pub trait") for line in item.lines)]
    found = []
    for name in names:
        owner, _, function = name.rsplit(".", 2)[0].rpartition(".")
        # A type also has the functions of the crate's traits.
        of_trait = owner in types and any(f"{trait}::{function}" in calls for trait in traits)
        if not of_trait and (f"{owner}::{function}" if owner else function) not in calls:
            found.append(f"{name}: the crate has no such public function")
    return found


def line_faults(text):
    """Returns the faults of the lines of definitions and proofs, which are too long. Imports may be longer."""
    return [
        f"line {number} is longer than {LONGEST_LINE} characters"
        for number, line in enumerate(text.splitlines(), 1)
        if len(line) > LONGEST_LINE and not line.startswith(("use ", "pub use "))
    ]
