"""Runs cases by several programs in turn, round after round, and prints for each case the median
microseconds of each program, and how many times another's the first one takes.

    compare.py DATA ROUNDS NAME=PROGRAM.. [-- CASE..]

A case is the words behind the file, as `write 10000 0`. A program prints lines of a name, its
microseconds, and numbers whose product is how often that was done in them. One that has no such
case prints nothing. Behind the table stands what the first program's opening of a file and its
parts take of the port's own opening of that file."""

import glob
import math
import os
import statistics
import subprocess
import sys

CASES = [
    "write 10000 0",
    "write 10000 100000",
    "write 100 0",
    "write 100 100000",
    "due 10000 100000",
    "read 100 10000",
    "read 100 100000",
]


def figures(program, data, case):
    """The microseconds of each name that the program prints."""
    path = os.path.join(data, "ledger.db")
    for old in glob.glob(path + "*"):
        os.remove(old)
    done = subprocess.run([program, path, *case.split()], stdout=subprocess.PIPE, check=True)
    found = {}
    for line in done.stdout.decode().splitlines():
        name, micros, *times = line.split()
        found[name] = float(micros) / math.prod(map(int, times))
    return found


def measured(programs, data, rounds, cases):
    """For each name what each program took, round by round."""
    told = {}
    for _ in range(rounds):
        for case in cases:
            for name, program in programs:
                for what, micros in figures(program, data, case).items():
                    told.setdefault(what, {}).setdefault(name, []).append(micros)
    return told


def shares(told, program):
    """A line for each part of an opening."""
    for what, by_name in told.items():
        part, _, length = what.partition("/")
        port = told.get(f"port_opening/{length}", {}).get(program)
        if part in ("opening", "reading", "check") and port:
            share = statistics.median(by_name[program]) / statistics.median(port)
            yield f"{what:26} {share:10.2f}"


def main():
    data, rounds, *words = sys.argv[1:]
    split = words.index("--") if "--" in words else len(words)
    programs = [word.split("=", 1) for word in words[:split]]
    told = measured(programs, data, int(rounds), words[split + 1:] or CASES)
    load = " ".join(f"{part:.1f}" for part in os.getloadavg())
    print(f"medians of {rounds}, microseconds; load {load}")
    print(f"{'case':26}" + "".join(f" {name:>10} {'':6}" for name, _ in programs))
    first = programs[0][0]
    for what, by_name in told.items():
        line = f"{what:26}"
        for name, _ in programs:
            micros = statistics.median(by_name.get(name, [math.nan]))
            ours = statistics.median(by_name.get(first, [math.nan]))
            ratio = "" if name == first else f"{ours / micros:.2f}"
            line += f" {micros:10.1f} {ratio:6}"
        print(line)
    lines = list(shares(told, first))
    if lines:
        print("of the port's own opening", *lines, sep="\n")


main()
