"""Puts the paths of the packages in rust/ in place of those of crates/, and drops imports that nothing reads."""
import re

from . import table
from .scanner import Source


def with_paths(text, name):
    """Returns the text of the file `name` with the paths of its package, without imports that nothing reads."""
    source, paths = Source(text, name), Paths(name)
    imports = [(i, source.find(i, ";")) for i in source.code if source.text[i] == "use"]
    in_imports = {k for first, end in imports for k in source.between(first, end)}
    others = [i for i in source.code if i not in in_imports]
    used = _used_names(source, others)
    for first, end in imports:
        _edit_import(source, first, end, used, paths)
    for i in others:
        if source.is_name(i) and source.at(source.before(i)) not in ("::", ".") and source.at(source.after(i)) == "::":
            last = i
            while source.at(source.after(last)) == "::" and source.is_name(source.after(last, 2)):
                last = source.after(last, 2)
            words = [word for word in source.words(i, last) if word != "::"] + [source.text[last]]
            if paths.moved(words) != words:
                source.replace(i, last, "::".join(paths.moved(words)))
    return source.result()


def _used_names(source, code):
    """Returns all names in the code outside of imports, those in format strings among them."""
    names = {source.text[i] for i in code}
    for i in code:
        if source.kind[i] == "string":
            names.update(re.findall(r"\{(\w+)", source.text[i]))
    return names


def _edit_import(source, first, end, used, paths):
    """Edits the `use` from `first` to `end`."""
    is_public = source.at(source.before(first)) in ("pub", ")")
    head = source.at(source.after(first))
    if is_public and head in table.PACKAGE_OF and source.name.endswith("/src/lib.rt"):
        source.drop_line(source.before(first), end)  # an export of another crate: in Rust the package's root has it
        return
    groups = {}
    for leaf in _leaves(source, first, end):
        path = table.IMPORTS.get("::".join(leaf), leaf)
        if path and (is_public or path[-1] in used or path[-1] in table.TRAITS):
            *folder, last = paths.moved(list(path))
            groups.setdefault("::".join(folder), []).append(last)
    lines = [_use_line(folder, names) for folder, names in groups.items()]
    if lines:
        source.replace(first, end, "\n".join(lines))
    else:
        source.drop_line(first, end)


def _leaves(source, first, end):
    """Returns the paths that the `use` from `first` to `end` imports, as lists of words."""
    words = [word for word in source.words(source.after(first), end) if word != "::"]
    if "as" in words or "*" in words or words.count("{") > 1:
        source.refuse(first, "a `use` of an unknown form")
    if "{" not in words:
        return [words]
    at = words.index("{")
    return [words[:at] + [name] for name in words[at + 1:-1] if name != ","]


def _use_line(folder, names):
    """Returns a `use` of names under a path."""
    path = names[0] if len(names) == 1 else f"{{{', '.join(names)}}}"
    return f"use {folder}::{path};" if folder else f"use {path};"


class Paths:
    """Where the modules and the names of crates/ are in the packages, seen from one file."""

    def __init__(self, name):
        """`name` is that of the file."""
        self.crate = name.split("/")[0]
        self.package = table.PACKAGE_OF[self.crate]

    def moved(self, words):
        """Returns the words of a path as the package has it."""
        path = self._from_root(words)
        renamed = table.RENAMED_PATHS.get("::".join(path))
        return renamed.split("::") if renamed else path

    def _from_root(self, words):
        """Returns the words of a path, from the package's root or from that of the layer."""
        head, rest = words[0], words[1:]
        package = table.PACKAGE_OF.get(self.crate if head == "crate" else head)
        if head == "std" and self.package == table.LAYER:
            return ["alloc" if rest[0] in table.ALLOC_MODULES else "core", *rest]
        if package is None:
            return words
        if package == self.package:
            return ["crate", *table.PATH_OF[self.crate if head == "crate" else head], *rest]
        # All names of the layer are in its root. Their paths begin with modules, which have small letters.
        at = next((at for at, word in enumerate(words) if word[0].isupper()), len(words) - 1)
        return [table.LAYER, *(["counted"] if words[at] in table.COUNTED else []), *words[at:]]


def with_imports_of_alloc(text, name):
    """Returns the text of the file `name`, which in the layer imports what only the prelude of `std` has."""
    source = Source(text, name)
    names = [i for i in source.code if source.at(source.before(i)) != "::"]
    read = {source.text[i] + ("!" if source.at(source.after(i)) == "!" else "") for i in names}
    lines = [f"use {path};\n" for key, path in table.ALLOC_NAMES.items() if key in read]
    if lines and table.PACKAGE_OF[name.split("/")[0]] == table.LAYER:
        first = source.item_start(source.code[0])
        source.new[first] = "".join(lines) + ("" if source.reads(first, "use") else "\n") + source.new[first]
    return source.result()
