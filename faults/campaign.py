"""Tries on purpose what may go wrong with a served ledger, and ends with 1 at the first surprise.

    python3 faults/campaign.py LEDGERD [--long [--minutes N]] [--seed N] [--only TRIAL..]
        [--folder FOLDER] [--jobs N]

LEDGERD is the program. Without `--long` it samples, in a few minutes; with it each case is tried.
With `--minutes` a command whose calls are refused one by one has no more than so many for them: it
is told how many of how many were tried. The seed is told, and can be given again. With `--jobs` as
many trials are tried side by side, each by a process of its own, and one more that only waits.
Those in SHARED come last, and as many processes try the places of one. docs/TESTING.md tells what
each trial does."""

import argparse
import math
import secrets
import shutil
import subprocess
import sys
import time
from concurrent.futures import ThreadPoolExecutor

import behind
import broken
import chosen
import commands
import copied
import damaged
import desk
import due
import given
import limits
import little
import lost
import many
import marked
import neighbours
import parted
import paused
import queries
import refused
import refusing
import reopened
import rounds
import runs
import soak
import standby
import statements
import stops
import stream
import use
import worked
from trial import Trial

TRIALS = {
    "model": worked.model,
    "runs": runs.long_runs,
    "queries": queries.queries,
    "many": many.many,
    "rounds": rounds.rounds,
    "between": rounds.killed_between,
    "crowd": rounds.killed_crowd,
    "limits": limits.limits,
    "neighbours": neighbours.neighbours,
    "reopened": reopened.reopened,
    "due": due.due,
    "little": little.little,
    "paused": paused.paused,
    "chosen": chosen.chosen,
    "killed": runs.killed,
    "full": runs.full,
    "broken": broken.broken,
    "behind": behind.behind,
    "lost": lost.lost,
    "marks": marked.sample,
    "marked": marked.marked,
    "in_use": use.in_use,
    "no_text": given.no_text,
    "addresses": given.addresses,
    "desk": desk.desk,
    "stopped": stops.stopped,
    "copied": copied.copied,
    "statements": statements.statements,
    "parted": parted.parted,
    "standby": standby.standby,
    "reader": use.gone_reader,
    "refused": refused.refused_bytes,
    "lint": refused.judged_bodies,
    "stream": stream.stream,
    "memory": refusing.refused_memory,
    "disk": refusing.failing_disk,
    "commands": commands.refused_commands,
    "damaged": damaged.damaged,
    "soak": soak.sample,
}
# Those whose places several processes can share.
SHARED = {"commands"}
# Those that wait nearly all of their time, for limits and pauses of the service.
WAITING = {"limits", "paused", "due", "desk", "standby", "disk"}
# What comes first where several are tried side by side: the plain ledger itself, and what takes
# longest.
LONGEST = ("model", "soak", "damaged", "memory", "rounds", "many", "disk")


def options_given():
    parser = argparse.ArgumentParser(description=__doc__.splitlines()[0])
    parser.add_argument("ledgerd")
    parser.add_argument("--long", action="store_true")
    parser.add_argument("--seed", type=int, default=secrets.randbits(32))
    parser.add_argument("--only", nargs="+", choices=TRIALS, default=list(TRIALS))
    parser.add_argument("--folder")
    parser.add_argument("--jobs", type=int, default=1)
    parser.add_argument("--minutes", type=float, default=math.inf)
    options = parser.parse_args()
    if options.minutes < math.inf and not options.long:
        parser.error("--minutes is for --long alone: a sample has its own")
    return options


def try_one(name, options):
    """A trial, and the line that tells of it."""
    start = time.monotonic()
    trial = Trial(name, options, options.long)
    trial.jobs, trial.minutes = options.jobs, options.minutes
    told = trial.tried(TRIALS[name], f"{options.ledgerd}{' --long' if options.long else ''} "
                                     f"--seed {options.seed} --only {name}")
    line = f"{name:9} {told} ({time.monotonic() - start:.0f} s)"
    print(line, flush=True)
    shutil.rmtree(trial.parent)
    return line


def try_apart(name, options, jobs=1):
    """The same by a process of its own. None where it was surprised."""
    words = [sys.executable, sys.argv[0], options.ledgerd, "--seed", str(options.seed), "--jobs",
             str(jobs), *["--long", "--minutes", str(options.minutes)] * options.long,
             *(["--folder", options.folder] if options.folder else [])]
    ran = subprocess.run([*words, "--only", name], stdout=subprocess.PIPE,
                         stderr=subprocess.STDOUT, text=True)
    lines = ran.stdout.rstrip().split("\n")
    print("\n".join(lines if ran.returncode else lines[1:-3]), flush=True)
    return None if ran.returncode else lines[-1]


def try_side_by_side(options):
    """As many trials at once as there are jobs, and beside them those that wait, one after the
    other. Then those that share the jobs. Their lines in the order in which they were asked for."""
    alone = sorted(set(options.only) - SHARED, key=turn)
    with ThreadPoolExecutor(options.jobs) as jobs, ThreadPoolExecutor(1) as waiting:
        told = {name: (waiting if name in WAITING else jobs).submit(try_apart, name, options)
                for name in alone}
    lines = {name: each.result() for name, each in told.items()}
    for name in sorted(SHARED & set(options.only)):
        lines[name] = try_apart(name, options, options.jobs)
    return [lines[name] for name in options.only]


def turn(name):
    """Those that take longest come first, so that no job has one left when others are done."""
    return LONGEST.index(name) if name in LONGEST else len(LONGEST) + list(TRIALS).index(name)


def main():
    options = options_given()
    print(f"seed {options.seed}, {'all' if options.long else 'a sample'}", flush=True)
    if options.jobs > 1 and len(options.only) > 1:
        summary = try_side_by_side(options)
        if None in summary:
            sys.exit(1)
    else:
        summary = [try_one(name, options) for name in options.only]
    print("\nTried, and nothing failed:\n" + "\n".join(summary))


if __name__ == "__main__":
    main()
