"""Finds the functions that a call can be of, by its form and its names."""
import functools

import crate_list

from .table import PLAIN_CALLS


@functools.cache
def reach():
    """Returns for each crate the crates whose methods it can call, itself among them, by crates.txt."""
    reached = {name: {name, *used} for name, used in crate_list.used().items()}
    for _ in reached:
        for seen in reached.values():
            seen.update(*(reached.get(used, ()) for used in list(seen)))
    return reached


def called_name(source, close):
    """Returns the name of the call that ends at `close`, with and without its type, or (None, None)."""
    if source.at(close) not in (")", "]"):
        return None, None
    name = source.before(source.partner[close])
    if source.at(name) == "!":
        return source.at(source.before(name)) + "!", None
    if not source.is_name(name):
        return None, None
    plain = source.at(name)
    if source.at(source.before(name)) == "::":
        return source.at(source.before(name, 2)) + "::" + plain, plain
    return plain, plain


class Calls:
    """The functions of all files, by their names."""

    def __init__(self, functions):
        """`functions` has the functions of each file."""
        self.named = {}
        for found in functions.values():
            for function in found:
                self.named.setdefault(function.name, []).append(function)

    def is_plain(self, source, close, caller):
        """Returns true if the call that ends at `close`, in `caller`, always succeeds in Rust."""
        qualified, plain = called_name(source, close)
        if qualified in ("format!", "vec!"):
            return True
        if plain is None:
            return False
        own = self._candidates(source, close, caller)
        if any(function.is_plain for function in own):
            if not all(function.is_plain for function in own):
                source.refuse(close, f"`{plain}` may or may not return an AllocError")
            return True
        return not own and (qualified in PLAIN_CALLS or (qualified == plain and plain in PLAIN_CALLS))

    def _candidates(self, source, close, caller):
        """Returns the functions of these sources that the call which ends at `close` can be of."""
        qualified, plain = called_name(source, close)
        before = source.at(source.before(source.partner[close], 2))
        named = [f for f in self.named.get(plain, []) if _is_visible(f, source)]
        if before == "::":
            owner = qualified.split("::")[0]
            owner = caller.owner if owner == "Self" else owner
            of_type = [f for f in named if f.owner == owner]
            return of_type or [f for f in named if f.owner is None and f.source.name.endswith(f"/{owner}.rt")]
        if before == ".":
            return [f for f in named if "self" in f.parameter_words()]
        free = [f for f in named if f.owner is None]
        return [f for f in free if f.source is source] or free


def _is_visible(function, source):
    """Returns true if a function can be called from a file: it is of its crate, or public in a used one."""
    crate, own = function.source.name.split("/")[0], source.name.split("/")[0]
    return crate == own or (crate in reach()[own] and (function.is_public or function.is_of_trait))
