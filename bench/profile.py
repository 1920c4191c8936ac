"""Tells where the processor time of a transfer goes.

    python3 bench/profile.py LEDGERD DATA [CASE..]

LEDGERD is the program, DATA a folder that is there. A case is CLIENTS/TENANTS/SIZE as in
`bench/rounds.py`, by whose clients it is played; with none three are. Each is played twice, on new
ledgers: under `perf`, which tells the time by layers and by calls of the system, and under
`callgrind`, which counts instructions and tells those of each function and text of SQL with all
that it calls. Prints a table in microseconds of the processor a transfer. In it the time of the
standard library and the C library is shared out among the layers as callgrind's instructions there
are, kind by kind. It needs `linux-perf`, `valgrind` and what `bench/rounds.py` needs."""

import collections
import os
import pathlib
import re
import subprocess
import sys
import tempfile
import time

from callgrind import Counted
from rounds import FIRST, Ledger, build, told_by

CASES = ("1/1/1", "20/20/1", "1/1/1000")
ACCOUNTS, SECONDS, SLOW_SECONDS, RATE = 100, 6, 20, 4999
# The layers, from the socket to the file, and the crates of each.
LAYERS = {
    "sockets and the loop": "ledgerd commands polling clients sockets control mio os io",
    "HTTP in": "ledger_http httparse http matchit tenants sha2 hex",
    "JSON in": "wire json serde_json simdutf8",
    "the reply": "service statement itoa ryu csv",
    "judging": "chain engine records amount",
    "the tenant's tables": "rows stored_tables stored_ledgers store openings",
    "SQL: a text's call and its values": "ledger_sql sqlite sqlite_value sqlite_sql sqlite_ast "
        "sqlite_syntax sqlite_resolve sqlite_tied sqlite_typing sqlite_typed sqlite_draft",
    "SQL: plans carried out": "sqlite_exec sqlite_rules sqlite_catalog sqlite_schema sqlite_items",
    "records": "sqlite_record sqlite_format",
    "trees and pages": "sqlite_trees sqlite_keyed sqlite_btree sqlite_pages sqlite_store",
    "the pool of pages": "sqlite_pager sqlite_pool",
    "the log and the disk": "sqlite_wal sqlite_disk sqlite_std_file",
}
LAYER_OF = {crate: layer for layer, crates in LAYERS.items() for crate in crates.split()}
# Whatever sums pages up, wherever it stands; and what the libraries do, by the names it has there.
SUMS, SUMMING = "sums of pages", re.compile(r"^sqlite_(wal|pool|pager|disk).*(sum|seal|digest)")
LIBRARY = (("copying", re.compile("mem(move|cpy)")), ("blanking", re.compile("memset")),
           ("comparing", re.compile("memcmp")), ("hashing", re.compile("::hash::")),
           ("allocating", re.compile("^(rattle_)?(re|de|m|c)?alloc|free|_int_|malloc")))
OTHER, SYSTEM = "all else", "the system: "
# Of callgrind's functions so many are told, and those that are ours.
TOLD = 40
CRATE = re.compile(r"\b([a-z][a-z0-9_]*)::")


def layer(name):
    """A function's layer, by the first crate that its name has and a layer knows."""
    if SUMMING.search(name):
        return SUMS
    for crate in CRATE.findall(name):
        if crate in LAYER_OF:
            return LAYER_OF[crate]
    return None


def kind(name):
    """What a function of the libraries does."""
    return next((kind for kind, names in LIBRARY if names.search(name)), OTHER)


def case_of(word):
    return tuple(map(int, word.split("/")))


class Played:
    """A ledger that is served under other words, and clients at it."""

    def __init__(self, program, within, case, under=()):
        self.clients, tenants, self.size = case
        self.within, self.folder = within, tempfile.mkdtemp(dir=within)
        self.ledger = Ledger(program, self.folder, tenants, ACCOUNTS, under)
        self.play(FIRST)

    def play(self, seconds):
        """How many transfers were accepted, and in how many seconds of the processor."""
        used = self.ledger.processor()
        many = told_by(self.ledger.clients(self.within, self.clients, ACCOUNTS, self.size,
                                           seconds))[0]
        return many, self.ledger.processor() - used


def by_perf(program, within, case):
    """Microseconds a transfer, by layer and by call of the system; and by function."""
    played = Played(program, within, case)
    data = os.path.join(within, "perf.data")
    recording = subprocess.Popen(["perf", "record", "-q", "-e", "cpu-clock", "-F", str(RATE), "-g",
                                  "-o", data, "-p", str(played.ledger.served.pid)],
                                 stdout=subprocess.DEVNULL, stderr=subprocess.DEVNULL)
    time.sleep(1)
    many, used = played.play(SECONDS)
    recording.terminate()
    recording.wait()
    played.ledger.end()
    told = subprocess.run(["perf", "script", "-i", data, "-F", "ip,sym,dso"], check=True, text=True,
                          stdout=subprocess.PIPE, stderr=subprocess.DEVNULL).stdout
    layers, functions = collections.Counter(), collections.Counter()
    samples = [each.splitlines() for each in told.split("\n\n\n") if each.strip()]
    for sample in samples:
        frames = [line.split(None, 1)[1] for line in sample if len(line.split()) > 1]
        if not frames:
            continue
        functions[frames[0]] += 1
        layers[of_sample(frames)] += 1
    each = 1e6 * used / many / len(samples)
    return ({name: count * each for name, count in layers.items()},
            {name: count * each for name, count in functions.items()}, 1e6 * used / many)


def of_sample(frames):
    """The call of the system that it is in, or the layer of its function; of the library what that
    does."""
    for frame in frames:
        called = re.match(r"__x64_sys_(\w+)", frame)
        if called:
            return SYSTEM + called[1]
    if "[kernel" in frames[0] or "([unknown])" in frames[0]:
        return SYSTEM + "else"
    return layer(frames[0]) or kind(frames[0])


def by_callgrind(program, within, case):
    """What was counted, and how many transfers it was for."""
    out = os.path.join(within, "callgrind.out")
    played = Played(program, within, case, ("valgrind", "-q", "--tool=callgrind",
                                            "--instr-atstart=no", f"--callgrind-out-file={out}"))
    pid = str(played.ledger.served.pid)
    for step in (("-i", "on"), None, ("-i", "off"), ("-d",)):
        if step:
            subprocess.run(["callgrind_control", *step, pid], check=True, cwd=within,
                           stdout=subprocess.DEVNULL, stderr=subprocess.DEVNULL)
        else:
            many, _ = played.play(SLOW_SECONDS)
    played.ledger.end()
    # The dump that was asked for has a number behind its name.
    found = max(pathlib.Path(within).glob("callgrind.out*"), key=lambda path: path.stat().st_size)
    counted = Counted(found)
    found.unlink()
    return counted, many


def shared_out(timed, counted):
    """Microseconds by layer, those of the libraries shared out, and by call of the system."""
    told, costs = collections.Counter(), counted.by_layer(layer, kind)
    for name, micros in timed.items():
        parts = {at: cost for (at, what), cost in costs.items() if what == name}
        if not parts:
            told[name] += micros
        for at, cost in parts.items():
            told[at] += micros * cost / sum(parts.values())
    return told


def table(head, columns, rows=None):
    """Numbers by name, one column a case, the largest of the first ones above."""
    names = rows or sorted({name for column in columns for name in column},
                           key=lambda name: -sum(column.get(name, 0) for column in columns))
    print(head)
    print("|---" * (len(columns) + 1) + "|")
    for name in names:
        cells = (f"{column[name]:,.1f}" if column.get(name) else "" for column in columns)
        print(f"| {name} | {' | '.join(cells)} |")
    print(flush=True)


def main():
    program, data = os.path.abspath(sys.argv[1]), sys.argv[2]
    words = sys.argv[3:] or CASES
    with tempfile.TemporaryDirectory(dir=data) as within:
        build(within)
        timed = [by_perf(program, within, case_of(word)) for word in words]
        counts = [by_callgrind(program, within, case_of(word)) for word in words]
    heads = " | ".join(words)
    table(f"| Microseconds a transfer | {heads} |",
          [{**shared_out(layers, counted), "all": whole}
           for (layers, _, whole), (counted, _) in zip(timed, counts)])
    table(f"| Of this, as it was sampled | {heads} |", [layers for layers, _, _ in timed])
    for place, word in enumerate(words):
        counted, many = counts[place]
        told, times = counted.inclusive()
        print(f"{word}: {counted.whole() / many:,.0f} instructions a transfer; with what they call")
        for name, cost in sorted(told.items(), key=lambda each: -each[1])[:4 * TOLD]:
            print(f"{cost / many:12,.0f} {counted.own[name] / many:10,.0f} own "
                  f"{times[name] / many:8.2f} calls  {name[:140]}")
        print(f"{word}: by own time")
        for name, micros in sorted(timed[place][1].items(), key=lambda each: -each[1])[:TOLD]:
            print(f"{micros:8.2f} us  {name[:140]}")
    print("load", os.getloadavg()[0])


if __name__ == "__main__":
    main()
