"""Reads the public items of a Rattle source: types, traits, functions and impls, each with its contract.

`tools/contracts` prints them, and `tools/documents` compares docs/THEOREMS.md with them.
"""

import dataclasses
import functools
import re
from pathlib import Path

CRATES = Path(__file__).resolve().parent.parent / "crates"
TYPE = re.compile(r"^pub (struct|enum|trait|const|type) (\w+)", re.M)
BLOCK = re.compile(r"impl\b|pub trait ")
FUNCTION = re.compile(r'(?:pub )?(?:const |unsafe |extern "C" )*fn (\w+)')
GHOST = re.compile(r"ghost (?!use\b)(\w+)")
CLAUSE = re.compile(r"ensures (?:(\w+) )?\{")
CONTRACT = re.compile(r"requires\b|ensures\b|ghost (?!use\b)")


@dataclasses.dataclass
class Item:
    """A public item: its file, its name, its lines, and the names of its clauses, `·` for one without a name."""

    path: Path
    name: str
    lines: list[str]
    clauses: list[str]


def sources(crate):
    """Returns the sources of a crate."""
    return sorted((CRATES / crate / "src").rglob("*.rt"))


@functools.cache
def public_types(crate):
    """Returns the names of the types, traits and constants that a crate declares as public."""
    return {name for path in sources(crate) for _, name in TYPE.findall(path.read_text(encoding="utf-8"))}


def head_end(lines, at):
    """Returns the index after the signature and the contract of the function at `at`. Its body comes after them."""
    indent = re.match(" *", lines[at])[0]
    has_contract, text = False, ""
    for end in range(at, len(lines)):
        line = lines[end]
        if end > at and line.startswith(f"{indent}{{"):
            return end
        has_contract, text = has_contract or bool(CONTRACT.match(line.strip())), text + line
        ends = ";" if has_contract else (";", "{", "}")
        if line.endswith(ends) and (line.endswith("{") or text.count("{") == text.count("}")):
            return end + 1
    return len(lines)


def item_end(lines, at):
    """Returns the index after the item at `at`, which is no function: that of the line that closes its brackets. The
    value of a constant in lines of its own is left out."""
    if lines[at].endswith("=") or 'r#"' in lines[at]:
        return at + 1
    text = ""
    for end in range(at, len(lines)):
        text += lines[end].split("//")[0].rstrip()
        if text.endswith((";", "}")) and all(text.count(a) == text.count(b) for a, b in ("{}", "()", "[]")):
            return end + 1
    return len(lines)


def function_item(path, name, lines, more):
    """Returns the item of a function with these lines. `more` has the head of its block and its description."""
    return Item(path, name, [*more, *lines], [clause or "·" for clause in CLAUSE.findall("\n".join(lines))])


def short_name(text):
    """Returns the last part of the name of a type or a trait, without its parameters."""
    return re.sub(r"<.*|(?<!:):(?!:).*|^&?('\w+ )?(mut )?", "", text.strip()).split("::")[-1]


def block_names(head):
    """Returns the type and the trait of the head of a block. The trait is empty if there is none."""
    head = re.sub(r"^(impl|pub trait) ?(<.*?>(?= ))? ?", "", head).split(" where ")[0].rstrip(" {}")
    trait, _, owner = head.rpartition(" for ")
    return short_name(owner), short_name(trait)


def members(path, block, head):
    """Returns the items in the lines of a block: its functions that are public or add clauses to those of a trait, and
    what its ghost members state. A method of a trait has no lines of its own, because the trait has them."""
    (owner, trait), is_trait = block_names(head), head.startswith("pub trait")
    found, ghosts, names, docs, at = [], [], [], [], 0
    while at < len(block):
        line, start, at = block[at], at, at + 1
        if GHOST.match(line.strip()):
            at = item_end(block, start)
            ghosts += [*docs, *block[start:at]]
            names.append(GHOST.match(line.strip())[1])
        elif re.match(r"    \S", line) and FUNCTION.match(line.strip()):
            at = head_end(block, start)
            item = function_item(path, f"{owner}::{FUNCTION.match(line.strip())[1]}", block[start:at], [head, *docs])
            if is_trait or line.startswith("    pub fn ") or (trait and item.clauses):
                item.lines = [] if is_trait else [*item.lines, "}"]
                found.append(item)
        elif line.strip().startswith(("//", "#[")):
            docs += [line] if "//" in line else []
            continue
        docs = []
    states = [Item(path, f"{trait} of {owner}", [head, *ghosts, "}"], names)] if trait and names else []
    return states + found


def items_of(path):
    """Returns the public items of a source, in its order."""
    return items_in(path, path.read_text(encoding="utf-8"), public_types(path.relative_to(CRATES).parts[0]))


def items_in(path, text, types):
    """Returns the public items of a text, given the public types of its crate."""
    lines, found, docs, at = text.split("\n"), [], [], 0
    while at < len(lines):
        line, start, at = lines[at], at, at + 1
        if line.startswith(("///", "#[")):
            docs += [line] if line.startswith(("///", "#[derive(")) else []
            continue
        if BLOCK.match(line):
            while not lines[at - 1].endswith(("{", "}")):
                at += 1
            head, body = re.sub(" +", " ", " ".join(lines[start:at])), at
            at = at if head.endswith("}") else lines.index("}", at) + 1
            if line.startswith("pub trait"):
                found.append(Item(path, block_names(head)[0], [*docs, *lines[start:at]], []))
            found += members(path, lines[body : at - 1], head) if block_names(head)[0] in types else []
        elif re.match(r'pub (extern "C" )?fn ', line):
            at = head_end(lines, start)
            found.append(function_item(path, FUNCTION.match(line)[1], lines[start:at], docs))
        elif TYPE.match(line):
            at = item_end(lines, start)
            found.append(Item(path, TYPE.match(line)[2], [*docs, *lines[start:at]], []))
        docs = []
    return found
