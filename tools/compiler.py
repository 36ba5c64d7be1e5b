"""How the toolchain's compiler is called on the crates of this repository.

`rt` calls it in the same way, but builds one library after another.
"""

import os
import shutil

import crate_list

TOP = os.path.dirname(os.path.dirname(os.path.realpath(__file__)))
MEMORY_OF_A_PROOF = 4_000_000  # kB
# The folder in a crate's out/ with the library that `tools/prove` built.
PROVED = "proved"


def kit():
    """Returns the toolchain's folder, or None if there is no `rt` on the path."""
    found = shutil.which("rt")
    return found and os.path.dirname(os.path.dirname(os.path.realpath(found)))


def lanes():
    """Returns how many proofs run at the same time: one for each processor, as far as the memory suffices."""
    with open("/proc/meminfo", encoding="utf-8") as file:
        memory = next(int(line.split()[1]) for line in file if line.startswith("MemAvailable:"))
    return max(1, min(len(os.sched_getaffinity(0)), memory // MEMORY_OF_A_PROOF))


def root_of(crate):
    """Returns the source file of a crate that names its other files, by its path in the crate's folder."""
    return "src/main.rt" if os.path.exists(f"{TOP}/crates/{crate}/src/main.rt") else "src/lib.rt"


def proved(crate):
    """Returns the file of a library of this repository that `tools/prove` built."""
    return f"{TOP}/crates/{crate}/out/{PROVED}/{crate}.rlib"


def kept(crate):
    """Returns the folder in which `rt` and the tools keep what they proved of a crate, for the next check of it."""
    return f"{TOP}/crates/{crate}/out/incremental"


def words(toolchain, crate, built):
    """Returns the arguments that name a crate and all that it uses, for a call in the crate's folder.

    `built` has the files of this repository's libraries below it.
    """
    arguments = ["--crate-name", crate, root_of(crate), "-L", f"dependency={toolchain}/rlibs"]
    for name in ("std", *crate_list.used()[crate]):
        arguments += ["--extern", f"{name}={built.get(name, f'{toolchain}/rlibs/{name}.rlib')}"]
    for folder in dict.fromkeys(map(os.path.dirname, built.values())):
        arguments += ["-L", f"dependency={folder}"]
    arguments += ["--antt-project", f"{toolchain}/rattle/logic/antt-project.json"]
    return [*arguments, "--logic-built", f"{toolchain}/logic_built", "--links", f"{crate}="]
