"""Proves and builds a program and all that it stands on, with a line for each crate.

    python3 build/prove.py [CRATE]

CRATE is `ledgerd` if left out. Crates are proved side by side (build/lanes.py), each once those below it
are. What was proved before stays: a run that was broken off goes on where it was, and a change proves
anew what stands on it. The log of a crate is out/prove/CRATE.log. The last line says how long the longest
chain of crates took."""

import hashlib
import json
import os
import pathlib
import signal
import subprocess
import sys

import lanes
import toolchain

TOP = pathlib.Path(__file__).resolve().parent.parent
KEPT = TOP / "out/prove"
SECONDS, SUM = KEPT / "seconds.json", KEPT / "sum"
BODY = TOP / "examples/first-path/transfers.json"


def sum_of(crates, program):
    """A sum of the toolchain's name, of all sources and of the program."""
    files = [TOP / "crates.txt", program]
    for it in crates:
        for part in ("src", "specs", "proofs"):
            files += sorted((pathlib.Path(it.folder) / part).rglob("*"))
    whole = hashlib.sha256(subprocess.check_output(["rt", "version"]))
    for it in files:
        if it.is_file():
            whole.update(f"{it.relative_to(TOP)} {it.stat().st_size}\n".encode())
            whole.update(it.read_bytes())
    return whole.hexdigest()


class Build:
    """The crates of a program, the lowest first, and how long each took when it was proved."""

    def __init__(self, rt, name):
        self.rtlib = rt.rtlib
        self.top = rt.rtlib.Crate(str(TOP / "crates" / name), str(TOP), {})
        self.crates = [*self.top.below(), self.top]
        self.program = pathlib.Path(self.top.folder) / "out" / name
        self.seconds = json.loads(SECONDS.read_text()) if SECONDS.exists() else {}
        self.old, self.held = set(), []

    def is_done(self):
        """Whether the program is there, built of the sources as they are."""
        is_there = self.program.exists() and SUM.exists()
        return is_there and SUM.read_text() == sum_of(self.crates, self.program)

    def note(self):
        """Notes of what the program was built."""
        KEPT.mkdir(parents=True, exist_ok=True)
        SUM.write_text(sum_of(self.crates, self.program))

    def lock(self):
        """Keeps every other `rt` out of the libraries' folders until they are built."""
        self.held = self.rtlib.lock([it for it in self.crates if not it.is_program])

    def unlock(self):
        while self.held:
            os.close(self.held.pop())

    def library(self, crate, jobs):
        """Builds a crate's library, and returns whether it is proved."""
        with open(KEPT / f"{crate.name}.log", "w") as crate.out:
            if crate.is_built():
                self.old.add(crate.name)
                return True
            return not crate.build_rlib(["--jobs", str(jobs)], anew=False)

    def run(self, crate, jobs):
        """Proves and builds the program over its libraries, and lets it answer a body."""
        self.unlock()
        words = ["rt", "run", "--jobs", str(jobs)]
        with open(KEPT / f"{crate.name}.log", "w") as log, open(BODY, "rb") as body:
            return not subprocess.run(words, cwd=crate.folder, stdin=body, stdout=log, stderr=log).returncode

    def tasks(self):
        for it in self.crates:
            call = self.run if it.is_program else self.library
            yield lanes.Task(it.name, [dep.name for dep in it.deps], it.count(rb"\n"),
                             lambda jobs, it=it, call=call: call(it, jobs))

    def tell(self, number, task):
        """Prints the line of a crate that is proved."""
        if task.key not in self.old:
            self.seconds[task.key] = round(task.seconds)
            SECONDS.write_text(json.dumps(self.seconds, indent=1) + "\n")
        how = "was proved before" if task.key in self.old else f"proved, {task.seconds:.0f} s"
        print(f"[{number}/{len(self.crates)}] {task.key} {how}", flush=True)

    def tell_chain(self):
        """Prints the chain of crates that takes longest."""
        longest = {}
        for it in self.crates:
            under = max((longest[dep.name] for dep in it.deps), key=lambda had: had[1],
                        default=([], 0))
            longest[it.name] = ([*under[0], it.name], under[1] + self.seconds.get(it.name, 0))
        names, whole = longest[self.crates[-1].name]
        each = ", ".join(f"{it} {self.seconds.get(it, 0)}" for it in names)
        print(f"The longest chain of crates took {whole} s: {each}")


def main():
    signal.signal(signal.SIGTERM, signal.default_int_handler)
    name = sys.argv[1] if len(sys.argv) > 1 else "ledgerd"
    KEPT.mkdir(parents=True, exist_ok=True)
    build = Build(toolchain.rt(), name)
    if build.is_done():
        return print(f"{name} is proved and built, and nothing has changed since")
    build.lock()
    try:
        for number, task in enumerate(lanes.done([*build.tasks()], lanes.lanes()), 1):
            if not task.is_well:
                log = (KEPT / f"{task.key}.log").relative_to(TOP)
                sys.exit(f"{task.key} is not proved: {log} has what the toolchain said")
            build.tell(number, task)
    except KeyboardInterrupt:
        sys.exit("broken off; the next run goes on with what is proved")
    build.unlock()
    build.tell_chain()
    if build.top.is_program:
        build.note()


if __name__ == "__main__":
    main()
