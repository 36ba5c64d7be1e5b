"""Applies `places.txt`: items that are dropped, texts that no rule decides, and the check of each `requires`."""
import re
import textwrap
from typing import NamedTuple

from .entries import entries
from .functions import functions_of
from .scanner import Refused, Source

TRACKED = "#[track_caller]"  # a panic then names the place of the call


class Place(NamedTuple):
    """An entry of the file."""

    file: str
    kind: str
    function: str
    panics: str
    old: str
    new: str


def place_of(head, body):
    """Returns the entry with this head and these lines."""
    file, _, rest = head.partition(" | ")
    kind, _, function = rest.partition(" ")
    panics, _, body = body.partition("\n") if kind == "panics" else ("", "", body)
    old, _, new = f"\n{body}".partition("\n---")
    return Place(file, kind, function, panics, old, new.strip("\n"))


PLACES = [place_of(head, body) for head, body in entries("places.txt")]


def without_items(texts, places=PLACES):
    """Returns the texts of all files without the items that the table drops, each of which must be there once."""
    return _applied(texts, places, "drop", _without_item)


def with_places(texts, places=PLACES):
    """Returns the texts of all files with the places of the table, each of which must be there once."""
    return _applied(texts, places, "", lambda text, place: _replaced(text, place))


def with_checks(texts, places=PLACES):
    """Returns the texts of all files in which the functions of the table check their conditions."""
    return _applied(texts, places, "panics", _checked)


def _applied(texts, places, kind, edit):
    """Returns the texts of all files with the places of one kind."""
    texts = dict(texts)
    for place in places:
        if place.kind == kind and place.file in texts:
            texts[place.file] = edit(texts[place.file], place)
    return texts


def refuse_missing_places(texts, places=PLACES):
    """Refuses a public `requires` without a place, and a place without its file or function. `texts` have contracts."""
    for place in places:
        if place.kind not in ("", "drop", "panics", "unchecked"):
            raise Refused(f"{place.file}: the table has no kind `{place.kind}`")
        if place.file not in texts:
            raise Refused(f"{place.file}: the table has a place of a file that is not there")
    rows = {(place.file, place.function) for place in places if place.kind in ("panics", "unchecked")}
    left = set(rows)
    for name, text in texts.items():
        source = Source(text, name)
        for function in functions_of(source):
            left.discard((name, function.path))
            is_public = function.is_public or function.is_of_public_trait
            if is_public and function.has_condition and (name, function.path) not in rows:
                source.refuse(function.fn_token, f"`{function.path}` has a `requires` and no place in the table")
    for name, path in left:
        raise Refused(f"{name}: the table has a function that is not there: {path}")


def _without_item(text, place):
    """Returns a text without the item that begins with the words of a place."""
    source = Source(text, place.file)
    words = [word for word in Source(place.old, place.file).text if word.strip()]
    found = [i for i in source.code if source.reads(i, *words)]
    if len(found) != 1:
        raise Refused(f"{place.file}: the table drops an item that is there {len(found)} times: {place.old.strip()}")
    end = source.find(found[0], ";", "{")
    source.drop_item(found[0], source.partner.get(end, end))
    return source.result()


def _replaced(text, place):
    """Returns a text with the new text of a place for the old one, whose white space may be other."""
    pattern = r"\s+".join(re.escape(word) for word in place.old.split())
    if not place.new:
        pattern = r"[ ]*" + pattern + r"\n?"
    found = re.findall(pattern, text)
    if len(found) != 1:
        first = place.old.strip().split("\n")[0]
        raise Refused(f"{place.file}: the table has a place that is there {len(found)} times: {first}")
    return text.replace(found[0], place.new)


def _checked(text, place):
    """Returns a text in which a function checks its condition, and says when it panics."""
    source = Source(text, place.file)
    function = next((f for f in functions_of(source) if f.path == place.function), None)
    if function is None:
        raise Refused(f"{place.file}: the table has a function that is not there: {place.function}")
    lines = [i for i in range(source.item_start(function.first), function.first) if source.text[i].startswith("///")]
    section = ["", "# Panics", "", *textwrap.wrap(place.panics, 92)]
    source.new[lines[-1]] += "".join(f"\n/// {line}".rstrip() for line in section) + f"\n{TRACKED}"
    first, last = function.body
    if place.old.strip():
        source.replace(first, last, _replaced("".join(source.text[first:last + 1]), place))
    return source.result()
