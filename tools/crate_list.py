"""The crates of this repository and the libraries that they use, as crates.txt lists them.

`python3 tools/crate_list.py` prints a line for each crate: its name, and those of the crates below it.
"""

import graphlib
import re
from pathlib import Path

FILE = Path(__file__).resolve().parent.parent / "crates.txt"
LINE = re.compile(r"^(\w+)(?: staticlib)?:(.*)$", re.M)


def _text():
    return FILE.read_text(encoding="utf-8")


def used():
    """Returns the libraries that each crate uses, among them those of the toolchain."""
    return {name: words.split() for name, words in LINE.findall(_text())}


def used_crates():
    """Returns the crates of this repository that each crate uses."""
    uses = used()
    return {name: [word for word in words if word in uses] for name, words in uses.items()}


def below(crate):
    """Returns a crate and all crates below it, each with the crates that it uses."""
    uses, graph, left = used_crates(), {}, [crate]
    while left:
        name = left.pop()
        graph[name] = uses[name]
        left += [word for word in uses[name] if word not in graph]
    return graph


def heaviest_chains(weights):
    """Returns for each crate the heaviest list of crates that ends with it, of which each one uses the one before it.

    `weights` has the weight of each crate.
    """
    uses, found = used_crates(), {}
    for crate in graphlib.TopologicalSorter(uses).static_order():
        below = max((found[name] for name in uses[crate]), key=lambda chain: weight_of(chain, weights), default=[])
        found[crate] = [*below, crate]
    return found


def weight_of(chain, weights):
    """Returns the weight of a list of crates."""
    return sum(weights[crate] for crate in chain)


def is_static(crate):
    """Returns true if a crate is a static library."""
    return re.search(rf"^{crate} staticlib:", _text(), re.M) is not None


def libraries():
    """Returns the crates of the group of libraries, except the static library."""
    group = re.search(r"^# Libraries\n((?:\w.*\n)+)", _text(), re.M)
    return re.findall(r"^(\w+):", group[1], re.M)


if __name__ == "__main__":
    for name in used():
        print(*below(name))
