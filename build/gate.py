"""The gate: every crate of the product proved from nothing, the program as both compilers build it, and
wrong bodies, each of which the prover has to refuse.

    python3 build/gate.py prove                    the gate; with BASE=REV more of what differs from REV
    python3 build/gate.py tests [CRATE..]          proves the crates of tests, and runs them
    python3 build/gate.py must-fail [CRATE..]      every wrong body of these crates, or of all

It works on a copy of the crates below `.git`, and takes nothing from what checks in `crates/*/out` have
kept. What it has proved stays there: a later run proves what has changed, and what stands on it. Tests
are no part of the product, nor are the crates that end in `_tests`: `make test` runs them, and `tests`
proves them. `rt ci` with no words does all of this too, more slowly: it tries each wrong body by itself.

The gate tries one wrong body of each file that has any. With BASE it tries more of a crate that differs
from that revision, in its own files or in a definition that it cites. These are one of each function that
another crate may call, and one of each file that has no such function. A crate's wrong bodies are tried
together (build/refusals.py).

Each crate has a line with its seconds, and a log. The last line is 'N passed, M failed'."""

import copy
import functools
import json
import os
import pathlib
import re
import resource
import secrets
import shutil
import sys
import threading
import time
from concurrent.futures import ThreadPoolExecutor

import changed
import lanes
import prove
import toolchain
from refusals import refused
from wrong_bodies import of_the_gate, one_of_each_file

TOP = pathlib.Path(__file__).resolve().parent.parent
MODES = "prove", "tests", "must-fail"
FILES = "src", "specs", "proofs", "must-fail", "stdin", "stdout", "args", "status", "data"


def copy_crates(names, to):
    """Has the folder hold these crates as they are, each with what the gate has made of it before."""
    for gone in {it.name for it in (to / "crates").glob("*")} - {*names}:
        shutil.rmtree(to / "crates" / gone)
    for name in names:
        own, made = TOP / "crates" / name, to / "crates" / name
        made.mkdir(parents=True, exist_ok=True)
        for part in FILES:
            if (made / part).is_dir():
                shutil.rmtree(made / part)
            (made / part).unlink(missing_ok=True)
            if (own / part).is_dir():
                shutil.copytree(own / part, made / part)
            elif (own / part).exists():
                shutil.copy2(own / part, made / part)
    for file in "crates.txt", "HANDLES":
        shutil.copy2(TOP / file, to / file)


class Copied:
    """Mixed into `Crate` of `rt`: a crate of the copy, whose files no one changes. Its sum is taken once, and
    the compilers build a program side by side."""

    @functools.cache
    def stamp(self):
        return super().stamp()

    def compile_by(self, backend, words, to):
        if backend == "rattle":
            return self.other.result()
        with ThreadPoolExecutor() as pool:
            self.other = pool.submit(super().compile_by, "rattle", words, to)
            return super().compile_by(backend, words, to)


class Gate:
    """What was proved and refused before, and what this run has found."""

    def __init__(self, rt, names, to):
        self.rt, self.to, self.passed, self.failed, self.lock = rt, to, 0, [], threading.Lock()
        self.kept_file = to / "kept.json"
        self.kept = json.loads(self.kept_file.read_text()) if self.kept_file.exists() else {}
        os.chdir(to)
        rt.Crate.allowed, rt.Crate.cuts_libraries = rt.handles_of(str(to)), True
        rt.rtlib.Crate = type("Crate", (Copied, rt.Crate), {})
        found = sorted(rt.rtlib.crates_below(str(to)), key=lambda it: len(it.below()))
        self.all = {it.name: it for it in found}
        needed = {dep.name for name in names for dep in self.all[name].below()}
        self.crates = [it for it in found if it.name in {*names, *needed}]
        self.left = [it for it in self.crates if not self.is_kept(f"proof {it.name}", self.over(it))]
        self.passed += len(self.crates) - len(self.left)

    def keep(self, key, value):
        """Notes that this was done, or with None that it has to be done anew."""
        with self.lock:
            self.kept[key] = value
            if value is None:
                del self.kept[key]
            self.kept_file.write_text(json.dumps(self.kept, indent=1) + "\n")

    def over(self, crate):
        """What a proof of the crate rests on: its files, and each library below as it was built."""
        return repr([crate.stamp(), *[self.kept.get(f"proof {it.name}", [])[1:] for it in crate.deps]])

    def is_kept(self, key, over):
        return self.kept.get(key, [None])[0] == over

    def waits(self, *crates):
        """The keys of these crates' proofs that this run has to do."""
        return [f"proof {it.name}" for it in crates if it in self.left]

    def refuses_text(self, crate):
        """Whether the crate's text is refused before any proof, as `rt ci` does."""
        rt, lib = self.rt, self.rt.rtlib
        lib.stop_on_links(crate.folder)
        lib.stop_on_unread(crate.folder, [*self.all.values()])
        lib.stop_on_text(crate, "verdict")
        rt.stop_on_words(crate)
        code = lib.code_of(crate.folder)
        reaches = [it for it, words in rt.REACHES.items() if it not in crate.allowed]
        words = [*[rt.REACHES[it] for it in reaches], rt.RENAMES, rt.IGNORED]
        found = next(filter(None, (re.search(it, code) for it in words)), None)
        if found:
            rt.say(f"{crate.name}: `{found[0]}` is refused, as `rt ci` refuses it", crate.out)
        return bool(found) or bool(lib.fmt(crate.folder, "--check", crate.out))

    def log(self, key):
        (self.to / "logs").mkdir(exist_ok=True)
        return open(self.to / "logs" / f"{key}.log", "w")

    def prove(self, crate, jobs, tests=False):
        """Proves a crate, or its tests, from nothing, unless that was done."""
        key, over = f"{'tests' if tests else 'proof'} {crate.name}", self.over(crate)
        if self.is_kept(key, over):
            return True
        self.keep(key, None)
        crate = copy.copy(crate)
        pathlib.Path(crate.folder, "out").mkdir(exist_ok=True)
        with self.log(key.replace(" ", "-")) as crate.out:
            is_well = not self.refuses_text(crate) and not crate.ci(["--jobs", str(jobs)], tests)
        if is_well:
            self.keep(key, [over, secrets.token_hex(8)])
        return is_well

    def run(self, crate, tests):
        """Runs a program as each compiler has built it, or the tests."""
        ends = [""] if tests else self.rt.BACKENDS.values()
        made = f"{crate.folder}/out/{crate.name}"
        return all(self.rt.run(crate, tests, it) for it in ends if tests or os.path.isfile(made + it))

    def try_edits(self, crate, paths):
        """Tries wrong bodies, less those that were refused before over the same files."""
        over = self.over(crate)
        text = lambda it: over + pathlib.Path(it).read_text()
        left = [it for it in paths if not self.is_kept(f"edit {it}", text(it))]
        self.passed += len(paths) - len(left)
        with self.log(f"must-fail-{crate.name}") as log:
            for path, is_refused, said in refused(self.rt, crate, left):
                print(said, file=log, flush=True)
                if is_refused:
                    self.keep(f"edit {path}", [text(path)])
                    self.passed += 1
                else:
                    print(said, flush=True)
                    self.failed.append(f"{crate.name}/{os.path.basename(path)}")
        return True

    def tell(self, task):
        """Counts a crate that is done, and prints its line. Wrong bodies are counted one by one."""
        kind, name = task.key.split(" ", 1)
        if kind != "edits":
            self.passed += task.is_well
            self.failed += [] if task.is_well else [name if kind == "proof" else task.key]
        how = "done" if task.is_well else f"FAILED: {self.to}/logs/{kind}-{name}.log"
        took = f", {task.seconds:.0f} s" if task.seconds is not None else ""
        print(f"{task.key}: {how}{took}", flush=True)

    def do(self, tasks):
        """Does all of it, and says how many passed."""
        begun = time.time()
        if len(self.left) < len(self.crates):
            print(f"{len(self.crates) - len(self.left)} crates were proved before", flush=True)
        for task in lanes.done(tasks, lanes.lanes()):
            self.tell(task)
        used = resource.getrusage(resource.RUSAGE_CHILDREN)
        print(f"{(time.time() - begun) / 60:.0f} minutes by the clock, "
              f"{(used.ru_utime + used.ru_stime) / 60:.0f} of the processor")
        if self.failed:
            print(f"FAILED: {' '.join(self.failed)}")
        print(f"{self.passed} passed, {len(self.failed)} failed", flush=True)
        return 1 if self.failed else 0


def proofs(gate):
    """A task for each crate that is not proved: its proof."""
    return [lanes.Task(f"proof {it.name}", gate.waits(*it.deps), it.count(rb"\n"),
                       lambda jobs, it=it: gate.prove(it, jobs)) for it in gate.left]


def edits(gate, names, chosen):
    """A task for each of these crates that has wrong bodies: those that are chosen of it."""
    found = []
    for it in filter(lambda it: it.name in names, gate.crates):
        good, bad = gate.rt.edits_of(it)
        gate.failed += [os.path.relpath(path, gate.to) for path in bad]
        paths = chosen(it, good)
        if paths:
            found.append(lanes.Task(f"edits {it.name}", gate.waits(it), len(paths),
                                    lambda jobs, it=it, paths=paths: gate.try_edits(it, paths)))
    return found


def programs(gate):
    """A task for each program: it runs, and what it writes is compared."""
    return [lanes.Task(f"run {it.name}", gate.waits(it), 0, lambda jobs, it=it: gate.run(it, False))
            for it in gate.crates if it.is_program]


def tests(gate, names):
    """Two tasks for each crate of tests: their proofs, and the run."""
    found = []
    for it in filter(lambda it: it.name in names, gate.crates):
        prove, run = (lambda jobs, it=it: gate.prove(it, jobs, True)), (lambda jobs, it=it: gate.run(it, True))
        found += [lanes.Task(f"tests {it.name}", gate.waits(it), it.count(rb"\n"), prove),
                  lanes.Task(f"run {it.name}", [f"tests {it.name}"], 0, run)]
    return found


def leave_program(gate):
    """Leaves the program where `make run` leaves it, and notes what it was built of."""
    for it in filter(lambda it: it.is_program, gate.crates):
        build = prove.Build(gate.rt, it.name)
        build.program.parent.mkdir(exist_ok=True)
        shutil.copy2(f"{it.folder}/out/{it.name}", build.program)
        build.note()


def main(words):
    mode, *asked = words or [""]
    if mode not in MODES:
        sys.exit(__doc__)
    rt = toolchain.rt()
    rt.rtlib.stop = rt.stop
    os.chdir(TOP)
    found = {it.name: it for it in rt.rtlib.crates_below(str(TOP / "crates"))}
    of_tests = [name for name, it in found.items() if it.has_tests()]
    product = [name for name in found if not name.endswith("_tests")]
    rt.rtlib.stop_on_unread(str(TOP / "crates"), [*found.values()])
    to = toolchain.room("gate")
    copy_crates(found, to)
    if mode == "tests":
        gate = Gate(rt, asked or of_tests, to)
        return gate.do([*proofs(gate), *tests(gate, asked or of_tests)])
    if mode == "must-fail":
        gate = Gate(rt, asked or product, to)
        return gate.do([*proofs(gate), *edits(gate, asked or product, lambda crate, good: good)])
    gate = Gate(rt, product, to)
    differ = changed.crates(os.environ["BASE"], found) if os.environ.get("BASE") else ()
    chosen = lambda it, good: (of_the_gate if it.name in differ else one_of_each_file)(it, good)
    status = gate.do([*proofs(gate), *edits(gate, product, chosen), *programs(gate)])
    if not status:
        leave_program(gate)
    return status


if __name__ == "__main__":
    sys.exit(main(sys.argv[1:]))
