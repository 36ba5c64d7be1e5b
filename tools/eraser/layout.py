"""Reads crates/, applies the rules of the eraser, and writes or compares the erased files in rust/."""
import functools
import subprocess
from concurrent.futures import ThreadPoolExecutor
from pathlib import Path

from .attributes import refuse_unused_rows, with_derives, with_must_use, with_serde
from .cases import without_memory_cases
from .contracts import without_contracts
from .documentation import refuse_words_of_proofs, with_errors, with_examples, with_links, without_examples
from .exports import with_pointers
from .memory import without_allocators, without_refusals
from .names import with_names
from .paths import with_imports_of_alloc, with_paths
from .places import refuse_missing_places, with_checks, with_places, without_items
from .scanner import Refused
from .table import BY_HAND, FOLDERS, NOT_IN_PLAIN_RUST, PACKAGE_OF, PATH_OF
from .writes import with_push_str

TOP = Path(__file__).resolve().parent.parent.parent
RUST = TOP / "rust"


def each(rule):
    """Returns a rule for the texts of all files, given one for the text and the name of one file."""
    return functools.update_wrapper(lambda texts: {name: rule(text, name) for name, text in texts.items()}, rule)


def with_first_line(text, name):
    """Returns the text of the file `name` with the line that says what it was made from."""
    return f"// Made by tools/erase from crates/{name}. Do not edit.\n{text}"


# The rules in their order, each from the texts of all files, by their names, to their texts after it.
OF_ALL_FILES = (without_items, with_places, with_checks, without_refusals)
RULES = tuple(rule if rule in OF_ALL_FILES else each(rule) for rule in (
    without_contracts, without_items, with_places, with_checks, without_memory_cases, with_push_str, without_refusals,
    without_allocators, with_derives, with_serde, with_must_use, with_links, without_examples, with_examples,
    with_errors, refuse_words_of_proofs, with_paths, with_names, with_imports_of_alloc, with_pointers, with_first_line,
))


def erased_texts(texts):
    """Returns the erased texts of source files, by their names, not formatted yet."""
    return functools.reduce(lambda found, rule: rule(found), RULES, texts)


def erase_all():
    """Returns the erased text of every file, by its path under rust/."""
    texts = sources()
    refuse_missing_places(texts)
    erased = erased_texts(texts)
    refuse_unused_rows(erased)
    with ThreadPoolExecutor() as pool:
        return dict(zip(map(target_of, erased), pool.map(formatted, erased.values())))


def sources():
    """Returns the texts of all source files that are erased, by their paths under crates/."""
    crates = TOP / "crates"
    paths = [path for crate in PACKAGE_OF for path in sorted((crates / crate / "src").rglob("*.rt"))]
    names = [path.relative_to(crates).as_posix() for path in paths]
    return {name: (crates / name).read_text(encoding="utf-8") for name in names if _is_erased(name)}


def _is_erased(name):
    """Returns true if the source file of this name is erased."""
    modules = Path(name).with_suffix("").parts[2:]
    return not set(modules) & set(NOT_IN_PLAIN_RUST) and name not in BY_HAND


def target_of(name):
    """Returns the path under rust/ of the erased file of a source."""
    crate, _, *folders, file = name.split("/")
    stem = file[: -len(".rt")]
    if not folders and stem == "lib":
        stem = "mod"
    return "/".join([FOLDERS[PACKAGE_OF[crate]], *PATH_OF[crate], *folders, stem + ".rs"])


def formatted(text):
    """Returns the text of a file as `rustfmt` lays it out."""
    try:
        done = subprocess.run(["rustfmt", "--edition", "2024"], input=text, capture_output=True, text=True)
    except OSError as error:
        raise Refused("install rustfmt, which comes with Rust") from error
    if done.returncode:
        raise Refused("rustfmt: " + done.stderr.strip())
    return done.stdout


def _present():
    """Returns the paths under rust/ of all files in the folders that hold erased files alone."""
    folders = [RUST / FOLDERS[package] / module for crate, package in PACKAGE_OF.items() for module in PATH_OF[crate]]
    paths = [path for folder in folders for path in folder.rglob("*") if path.is_file()]
    return sorted(path.relative_to(RUST).as_posix() for path in paths)


def write():
    """Writes all erased files, and removes those in their folders that are no longer made."""
    files = erase_all()
    for path in set(_present()) - set(files):
        (RUST / path).unlink()
    for path, text in files.items():
        target = RUST / path
        target.parent.mkdir(parents=True, exist_ok=True)
        if not target.exists() or target.read_text(encoding="utf-8") != text:
            target.write_text(text, encoding="utf-8")
    return len(files)


def differences():
    """Returns a line for each file in rust/ that is not what the eraser makes."""
    files = erase_all()
    lines = []
    for path, text in files.items():
        if not (RUST / path).exists():
            lines.append(f"rust/{path} is missing")
        elif (RUST / path).read_text(encoding="utf-8") != text:
            lines.append(f"rust/{path} differs from what tools/erase makes")
    return lines + [f"rust/{path} is not made by tools/erase" for path in _present() if path not in files]
