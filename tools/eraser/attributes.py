"""Gives types and functions the attributes that they have in Rust: derives, `serde`, `non_exhaustive`, `must_use`."""
from . import serde_table as serde
from . import type_table as types
from .functions import functions_of
from .scanner import Refused, Source
from .table import LAYER, PACKAGE_OF

# The types that have a row in a table.
NAMED = (*serde.SERDE, *types.ADDED_DERIVES, *types.REMOVED_DERIVES, *types.NON_EXHAUSTIVE, *types.MUST_USE)
ORDER = ("Clone", "Copy", "Debug", "Default", "PartialEq", "Eq", "PartialOrd", "Ord", "Hash")


def with_derives(text, name):
    """Returns the text of the file `name` with the derives, `non_exhaustive` and `must_use` of its types."""
    source = Source(text, name)
    for i, first in _types(source):
        old = source.before(first)
        is_derive = source.at(old) == "]" and source.at(source.after(source.partner[old])) == "derive"
        words = source.words(source.partner[old], old) if is_derive else []
        lines = _attributes(source, i, first, [word for word in words[3:-1] if word != ","])
        if is_derive:
            source.drop_line(source.before(source.partner[old]), old)
        source.new[first] = "".join(f"{line}\n" for line in lines) + source.new[first]
    return source.result()


def _types(source):
    """Yields the `struct` or `enum` and the first token of each declaration of a type."""
    for i in source.code:
        if source.text[i] in ("struct", "enum") and source.is_name(source.after(i)):
            yield i, source.first_of_item(i)


def _is_of_layer(source):
    """Returns true if a file is of the layer."""
    return PACKAGE_OF[source.name.split("/")[0]] == LAYER


def _attributes(source, i, first, derived):
    """Returns the attributes of the type that is declared at `i`, which derives `derived` in the sources."""
    name, of_all = source.at(source.after(i)), types.DERIVES_OF_ALL.get(source.name.split("/")[0], ())
    words = {*derived, *of_all, *types.ADDED_DERIVES.get(name, ())}
    if not _is_generic(source, i):
        words.add("Clone")
        is_public = source.reads(first, "pub") and not source.reads(source.after(first), "(")
        is_by_hand = any(source.reads(k, "Debug", "for", name) for k in source.code)
        if _is_of_layer(source) and is_public and not is_by_hand:
            words.add("Debug")
    words -= {"Drop", *types.REMOVED_DERIVES.get(name, ())}
    lines = [f"#[derive({', '.join(sorted(words, key=ORDER.index))})]"] if words else []
    lines += [types.NON_EXHAUSTIVE[name]] if name in types.NON_EXHAUSTIVE else []
    return lines + (["#[must_use]"] if name in types.MUST_USE else [])


def _is_generic(source, i):
    """Returns true if the type that is declared at `i` has a type parameter."""
    angle = source.after(i, 2)
    inner = source.between(angle, source.closing_angle(angle)) if source.at(angle) == "<" else []
    return any(source.kind[k] == "name" for k in inner)


def with_serde(text, name):
    """Returns the text of the file `name` with the attributes of `serde`, if it is of the layer."""
    source = Source(text, name)
    if not _is_of_layer(source):
        return text
    for i, first in _types(source):
        declared = source.at(source.after(i))
        if declared in serde.SERDE:
            source.new[first] = f"{serde.attribute_of(declared)}\n{source.new[first]}"
    return source.result()


def refuse_unused_rows(texts, rows=NAMED):
    """Refuses a row of a table for a type that no file declares. `texts` are the erased texts."""
    sources = [Source(text, name) for name, text in texts.items()]
    declared = {source.at(source.after(i)) for source in sources for i, _ in _types(source)}
    for row in rows:
        if row not in declared:
            raise Refused(f"a table has a row for a type that is not there: {row}")


def with_must_use(text, name):
    """Returns the text of the file `name` with `must_use` on each public function that only returns a value."""
    source = Source(text, name)
    for function in functions_of(source):
        words = function.type_words()
        if not (_is_of_layer(source) and function.is_public and words) or function.is_of_trait:
            continue
        returned = function.owner if words[0] == "Self" else words[0]
        is_used = returned in types.MUST_USE_BY_THEMSELVES + types.MUST_USE
        if not is_used and not _borrows_mutably(function.parameter_words()):
            source.new[function.first] = "#[must_use]\n" + source.new[function.first]
    return source.result()


def _borrows_mutably(words):
    """Returns true if a parameter is a `&mut`. One that only is `mut` in the function, such as `mut self`, is none."""
    return any(word == "mut" and before != "," for before, word in zip(words, words[1:]))
