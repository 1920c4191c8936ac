"""Measures what a commit of one transfer costs, by programs that take turns.

    python3 bench/commits.py DATA NAME=PROGRAM.. [--commits N] [--runs N] [--counted]

DATA is a folder that is there, such as /dev/shm. In each run every program serves a new file, one after the
other. One client sends it N batches of one transfer (20,000 by default) on one connection, each after the
reply to the one before. It prints how many microseconds the processor ran for a batch, and how many of these
were the system's. Then it prints the medians, and how much more each is than that of the first program. At
the end `strace` counts the syncs of each in 1,000 batches. Where NAME ends with `-unmarked`, a folder stands
in the place of FILE-sums, so that no reply is marked. All programs have to be built alike.

On a busy machine these times differ by a tenth. With --counted it counts instructions instead, by `callgrind`,
in one run of each program. It prints how many hand on a reply with its mark, and how many a batch takes in all."""

import argparse
import os
import pathlib
import statistics
import subprocess
import tempfile

from callgrind import Counted
from marks import KEY, SYNC, ran, send
from connection import Connection
from drawn import account
from messages import body_of, message
from service import Service, add_tenant

UNMARKED = "-unmarked"
SYNCED = 1000
# What marks a reply, and hands it to its connection.
ANSWERED = "ListeningPeers::answered"
TICK = 1e6 / os.sysconf("SC_CLK_TCK")


class Served:
    """A service over a new file with two accounts, and a connection to it."""

    def __init__(self, name, program, folder):
        db = self.db = os.path.join(folder, "ledger.db")
        add_tenant(program, db, "north-desk", KEY)
        if name.endswith(UNMARKED):
            pathlib.Path(f"{db}-sums").unlink(missing_ok=True)
            os.mkdir(f"{db}-sums")
        self.service, self.number = Service(program, db), 0
        self.pid = self.service.served.pid
        self.connection = Connection(self.service.port)
        self.connection.send(message("POST", "/accounts", KEY, body_of([account(1), account(2)])))
        self.connection.reply()

    def commit(self, batches):
        for _ in range(batches):
            self.number += 1
            send(self.connection, self.number)

    def system(self):
        """The microseconds for which the system has run for it (proc(5), stat)."""
        told = pathlib.Path(f"/proc/{self.pid}/stat").read_text().rpartition(")")[2].split()
        return int(told[12]) * TICK

    def end(self):
        self.connection.close()
        self.service.kill()


def cost(name, program, data, commits):
    """The microseconds of the processor for a batch, and those of the system among them."""
    with tempfile.TemporaryDirectory(dir=data) as folder:
        served = Served(name, program, folder)
        served.commit(commits // 10)
        before, system = ran(served.pid), served.system()
        served.commit(commits)
        taken = (ran(served.pid) - before) / 1e3, served.system() - system
        served.end()
    return [each / commits for each in taken]


def answering(program, data, commits):
    """The instructions that handing on a reply takes, with its mark, and those of a batch in all."""
    with tempfile.TemporaryDirectory(dir=data) as folder:
        counts, wrapped = os.path.join(folder, "counts"), pathlib.Path(folder, "wrapped")
        wrapped.write_text("#!/bin/sh\nexec valgrind -q --tool=callgrind "
                           f'--callgrind-out-file={counts} {program} "$@"\n')
        wrapped.chmod(0o755)
        served = Served("counted", str(wrapped), folder)
        served.commit(commits)
        subprocess.run([program, "stop", "--db", served.db], check=True, stdout=subprocess.DEVNULL)
        served.service.served.wait()
        counted = Counted(counts)
    costs, calls = counted.inclusive()
    name, = (each for each in costs if each.endswith(ANSWERED))
    return costs[name] / calls[name], counted.whole() / commits


def show_counts(programs, words):
    for name, path in programs:
        mark, whole = answering(path, words.data, words.commits)
        print(f"{name}: {mark:,.0f} instructions to hand on a reply, of {whole:,.0f} a batch",
              flush=True)


def syncs(name, program, data):
    """How often each file is synced in 1,000 batches."""
    with tempfile.TemporaryDirectory(dir=data) as folder:
        served, path = Served(name, program, folder), os.path.join(folder, "calls")
        tracer = subprocess.Popen(["strace", "-f", "-y", "-e", "trace=fsync,fdatasync", "-o", path, "-p",
                                   str(served.pid)], stderr=subprocess.PIPE)
        tracer.stderr.readline()
        served.commit(SYNCED)
        tracer.terminate()
        tracer.wait()
        counts = {}
        for call, file in SYNC.findall(pathlib.Path(path).read_text()):
            told = f"{call} {os.path.basename(file)}"
            counts[told] = counts.get(told, 0) + 1
        served.end()
    return counts


def arguments():
    asked = argparse.ArgumentParser(description=__doc__.splitlines()[0])
    asked.add_argument("data")
    asked.add_argument("programs", nargs="+", metavar="NAME=PROGRAM")
    asked.add_argument("--commits", type=int, default=20_000)
    asked.add_argument("--runs", type=int, default=5)
    asked.add_argument("--counted", action="store_true")
    return asked.parse_args()


def main():
    words = arguments()
    programs = [(name, os.path.abspath(path)) for name, _, path in
                (each.partition("=") for each in words.programs)]
    if words.counted:
        return show_counts(programs, words)
    found = {name: [] for name, _ in programs}
    for run in range(words.runs):
        for name, path in programs if run % 2 == 0 else programs[::-1]:
            found[name].append(cost(name, path, words.data, words.commits))
            print("{}: {:.1f}, of the system {:.1f}".format(name, *found[name][-1]),
                  f"(load {os.getloadavg()[0]:.1f})", flush=True)
    medians = {name: statistics.median(whole for whole, _ in costs) for name, costs in found.items()}
    first = medians[programs[0][0]]
    for name, median in medians.items():
        print(f"{name}, median: {median:.1f}, {median - first:+.1f} to {programs[0][0]}")
    for name, path in programs:
        print(f"{name}, syncs in {SYNCED} batches: {syncs(name, path, words.data)}", flush=True)
    return None


if __name__ == "__main__":
    main()
