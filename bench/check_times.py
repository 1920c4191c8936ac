#!/usr/bin/env python3
"""Which functions a crate's check takes longest at, told by when the prover wrote what it had checked.

    rm -r crates/NAME/out; (cd crates/NAME; rt check --jobs 1)
    python3 bench/check_times.py NAME [HOW_MANY]

A function has several files: `Lts` is what its statements do to what is owned and lent, `Tie` and `Code`
are what it computes, `Answers` and `Proof` are the proof of its contract. Seconds are the clock's."""

import collections
import pathlib
import re
import sys

ENDS = re.compile(r"(\.decls)?\.oantt$")
PARTS = re.compile(r"\.(Lts|Tie|Code|Proof|Answers|Invariants|Statement|Met|Goals|[A-Z]\w*-[\w-]+)\b.*$")


def written(folder):
    """The files below a folder that tell what was checked, each with how long after the one before it."""
    times = sorted((it.stat().st_mtime, it.name) for it in folder.rglob("*.oantt"))
    for (before, _), (at, name) in zip(times, times[1:]):
        yield ENDS.sub("", name), at - before


def main(name, many=20):
    functions, parts = collections.Counter(), collections.Counter()
    for module, seconds in written(pathlib.Path("crates", name, "out", "incremental")):
        part = PARTS.search(module)
        functions[PARTS.sub("", module)] += seconds
        parts[part[1] if part else "the rest"] += seconds
    whole = sum(functions.values())
    if not whole:
        sys.exit(f"nothing is kept of a check of {name}")
    for told in parts.most_common(6), functions.most_common(int(many)):
        for what, seconds in told:
            print(f"{seconds:8.1f} s  {100 * seconds / whole:5.1f} %  {what}")
        print()
    print(f"{whole:8.1f} s in all")


if __name__ == "__main__":
    if len(sys.argv) not in (2, 3):
        sys.exit(__doc__)
    main(*sys.argv[1:])
