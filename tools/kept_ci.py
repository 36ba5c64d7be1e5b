"""Runs `rt ci` in the current folder, and keeps what it proves: `python3 tools/kept_ci.py ORIGIN [--anew]`.

The current folder is a copy of the repository ORIGIN without what was built there, and has this tool. `rt ci` proves a
crate from nothing and keeps no proof, and tries each must-fail edit by a check of its own. Here each crate except
programs has a new folder, out/incremental, in which the prover keeps what it proves. So the crate is proved from nothing
as well. A library is built with its proofs, and a verdict may say that it was reached over such a folder. The edits of a
crate are tried by tools/must-fail over that folder, while other crates are proved. As many crates are proved at the same
time as there are processors and memory. One process proves a crate. The largest crate, and each crate that waits for
it, has as many processes as crates can be proved at the same time. A crate yields to the others if it does not wait for the
largest, and the largest does not wait for it. Edits yield, too. All else is as in `rt ci`: the words that it refuses,
contracts that no call can meet, both compilers, and the runs of programs.

There are two forms of `rt`. One of them has a store of what earlier runs passed, and takes `--anew`. What this tool passes
is then kept there for later runs of this tool, and not for a plain `rt ci`. With the other form each run proves all.
"""

import contextlib
import hashlib
import importlib.machinery
import importlib.util
import os
import shutil
import signal
import sys
from concurrent.futures import ThreadPoolExecutor
from pathlib import Path

import compiler
import crate_list

# What the prover adds to a verdict over such a folder.
KEPT = " incremental=trusted"
# The tools that decide what becomes of an edit.
TOOLS = ("kept_ci.py", "must-fail", "compiler.py", "crate_list.py")


def loaded(path):
    """Returns a command as a module. Nothing is written beside it."""
    sys.dont_write_bytecode = True
    loader = importlib.machinery.SourceFileLoader(os.path.basename(path).replace("-", "_"), path)
    module = importlib.util.module_from_spec(importlib.util.spec_from_loader(loader.name, loader))
    loader.exec_module(module)
    return module


class Verdict:
    """What a verdict must look like, apart from `KEPT`."""

    def __init__(self, whole):
        self.whole = whole

    def search(self, printed):
        """Looks for a verdict in what the prover prints."""
        return self.whole.search(printed.replace(KEPT, ""))


class Edits:
    """The must-fail edits of a crate, and what became of them."""

    def __init__(self, rt, must_fail, kept, crate, names):
        self.rt, self.must_fail, self.kept, self.crate, self.names = rt, must_fail, kept, crate, names
        self.earlier, self.results = {}, {}

    def name_of(self, name):
        """Returns the name under which the result of an edit is kept: a sum of all that the result depends on."""
        made_from = hashlib.sha256(self.kept.key(self.crate).encode())
        for tool in TOOLS:
            made_from.update(Path(compiler.TOP, "tools", tool).read_bytes())
        return self.kept.of_edit(f"{self.crate.folder}/must-fail/{name}", made_from.hexdigest())

    def try_all(self, origin):
        """Tries the edits that no earlier run has tried."""
        for name in self.names:
            # One that cannot be read is tried below, which says why it cannot be.
            with contextlib.suppress(OSError):
                if found := self.kept.tried(self.name_of(name)):
                    self.earlier[name] = found
        left = [name for name in self.names if name not in self.earlier]
        kept = compiler.kept(self.crate.name)
        if left and not os.path.isdir(kept) and os.path.isdir(f"{origin}/crates/{self.crate.name}/out/incremental"):
            # An earlier run has proved the crate, and the prover takes what is still so.
            shutil.copytree(f"{origin}/crates/{self.crate.name}/out/incremental", kept)
        self.results = dict(self.earlier)
        for name, is_refused, line in self.must_fail.results_of(self.crate.name, left):
            self.results[name] = (self.rt.REFUSED if is_refused else self.rt.MISSED, line)
            if is_refused and self.kept.is_untouched(self.crate):
                self.kept.keep_tried(self.name_of(name), *self.results[name])


def with_jobs(command, jobs):
    """Returns a command of the prover with another number of processes."""
    place = command.index("--jobs") + 1
    return [*command[:place], str(jobs), *command[place + 1 :]]


def yielding(call, *arguments):
    """Calls a function in a thread that yields to other work, as do the processes that it starts. Returns its result."""
    # On Linux, each thread has a priority of its own. The work of cargo beside the proofs has a lower one: see `check`.
    with ThreadPoolExecutor(1, initializer=os.nice, initargs=(5,)) as pool:
        return pool.submit(call, *arguments).result()


def end_checks_on_signals(must_fail):
    """Has a signal that ends this process first end the checks of edits."""

    def end(number, _frame):
        must_fail.interrupt(number, None)
        signal.signal(number, signal.SIG_DFL)
        os.kill(os.getpid(), number)

    for number in (signal.SIGINT, signal.SIGTERM, signal.SIGHUP):
        signal.signal(number, end)


def main(origin, *words):
    """Runs `rt ci` and returns its exit status."""
    # By its own estimate of memory, `rt` leaves processors idle, or gives several to any crate. Four processes took 1.6 times
    # the processor time of one for a crate of 55 functions, and 0.76 times the time. For the largest crate, four took 1.3
    # times the processor time, and 0.46 times the time. Crates wait for it, and little else is left when these are proved.
    lanes = int(os.environ.setdefault("RT_JOBS", str(compiler.lanes())))
    compiler.PROVED = "rlib"
    rt, must_fail = loaded(f"{compiler.kit()}/bin/rt"), loaded(f"{compiler.TOP}/tools/must-fail")
    prove = rt.Crate.prove
    rt.rtlib.VERDICT = Verdict(rt.rtlib.VERDICT)
    # `rt` takes no file with another name for an edit, and that fails nothing.
    rt.edits_of = lambda crate: (must_fail.paths_of(crate.name), [])
    largest = max(crate_list.used(), key=must_fail.size_of)

    def prove_by_priority(crate, *commands):
        if crate.name in crate_list.below(largest) or largest in crate_list.below(crate.name):
            return prove(crate, *commands)
        return yielding(prove, crate, *commands)

    def prove_and_keep(crate, *commands):
        if crate.is_program:
            return prove_by_priority(crate, *commands)
        # A check that was killed is made once more.
        shutil.rmtree(compiler.kept(crate.name), ignore_errors=True)
        # A library that holds only its statements cannot be built over such a folder.
        plain = [[word for word in command if word != "--statements"] for command in commands]
        jobs = lanes if largest in crate_list.below(crate.name) else 1
        kept = ["--incremental", compiler.kept(crate.name)]
        return prove_by_priority(crate, *([*with_jobs(command, jobs), *kept] for command in plain))

    def add_edits(tasks, crate, paths, _first, waits, is_well, kept):
        edits = Edits(rt, must_fail, kept, crate, [os.path.basename(path) for path in paths])

        def try_all(given, _jobs):
            if paths and is_well(given):
                yielding(edits.try_all, origin)

        # `rt` begins such a task when no proof waits for a processor.
        tasks[crate.name, "edits"] = (waits, 0, rt.OVER * rt.need(crate), try_all)
        return lambda _given: [edits.results[name] for name in edits.names], lambda: edits.earlier

    def try_each(crate, paths, _flags):
        tried = must_fail.results_of(crate.name, map(os.path.basename, paths))
        results = {name: result for name, *result in yielding(list, tried)}
        return [results[os.path.basename(path)] for path in paths]

    end_checks_on_signals(must_fail)
    rt.Crate.prove = prove_and_keep
    if not hasattr(rt, "own_sum"):
        rt.must_fail_all = try_each
        return rt.main(["ci"])
    # A plain `rt ci` takes no library that was built here, and none that it built is taken here.
    own_sum = rt.own_sum
    rt.own_sum = lambda crate: own_sum(crate) + KEPT
    rt.add_edits = add_edits
    return rt.main(["ci", *words])


if __name__ == "__main__":
    sys.exit(main(*sys.argv[1:]))
