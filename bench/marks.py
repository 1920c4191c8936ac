"""Measures what the mark in FILE-sums costs a commit: two programs at once, one of which marks nothing.

    python3 bench/marks.py LEDGERD WITHOUT DATA [PAIRS]

LEDGERD is the program, WITHOUT a build of it that marks no reply, DATA a folder that is there. Each
serves a new file. A client sends batches of one transfer in turn to one and to the other, 5,000 each,
and waits for each reply. Prints how long the processor ran for a batch, and how
long the client waited, in microseconds: of each the tenth, the half and the mean without the slowest
tenth. Then it counts the syncs of both under `strace`. Both programs have to be built alike."""

import json
import os
import pathlib
import re
import statistics
import subprocess
import sys
import tempfile
import time

sys.path.insert(0, __file__.rsplit("/", 2)[0] + "/faults")

from connection import Connection
from drawn import account, moves
from messages import body_of, message
from service import Service, add_tenant

KEY = "7" * 64
SYNC = re.compile(r"^(?:\d+ +)?(fsync|fdatasync)\(\d+<([^>]*)>", re.M)


def ran(pid):
    """The nanoseconds in which a process's threads have run (proc(5), schedstat)."""
    return sum(int(path.read_text().split()[0])
               for path in pathlib.Path(f"/proc/{pid}/task").glob("*/schedstat"))


def served(program, folder):
    """A service over a new file with two accounts, and a connection to it."""
    db = os.path.join(folder, "ledger.db")
    add_tenant(program, db, "north-desk", KEY)
    service = Service(program, db)
    connection = Connection(service.port)
    connection.send(message("POST", "/accounts", KEY, body_of([account(1), account(2)])))
    connection.reply()
    return service, connection


def send(connection, number):
    """The seconds that a batch of one transfer takes."""
    text = message("POST", "/transfers", KEY, body_of(moves(number)))
    begun = time.perf_counter()
    connection.send(text)
    status, _, body = connection.reply()
    took = time.perf_counter() - begun
    if status != "200 OK" or json.loads(body)["results"][0]["number"]:
        raise SystemExit(f"{status} {body!r}")
    return took


class Measured:
    """A service, and what its batches took: of the processor, and of its client's time."""

    def __init__(self, program, folder):
        self.service, self.connection = served(program, folder)
        self.ran, self.waited, self.before = [], [], None

    def send(self, number):
        """What is done after a reply belongs to its batch, so the next batch looks at the time."""
        now = ran(self.service.served.pid)
        if self.before is not None:
            self.ran.append(1e-3 * (now - self.before))
        self.before = now
        self.waited.append(1e6 * send(self.connection, number))

    def synced(self, folder, batches):
        """How often each file is synced while batches come, by `strace`."""
        path = os.path.join(folder, "calls")
        tracer = subprocess.Popen(["strace", "-f", "-y", "-e", "trace=fsync,fdatasync", "-o", path, "-p",
                                   str(self.service.served.pid)], stderr=subprocess.PIPE)
        tracer.stderr.readline()
        for number in range(batches):
            send(self.connection, 10**9 + number)
        tracer.terminate()
        tracer.wait()
        counts = {}
        for call, file in SYNC.findall(pathlib.Path(path).read_text()):
            name = f"{call} {os.path.basename(file)}"
            counts[name] = counts.get(name, 0) + 1
        return counts


def figures(took):
    """The tenth and the half of some times in order, and the mean without the slowest tenth."""
    took = sorted(took)
    return (took[len(took) // 10], took[len(took) // 2],
            statistics.mean(took[:len(took) - len(took) // 10]))


def show(name, marked, plain):
    """Prints both and their difference."""
    rows = figures(marked), figures(plain)
    more = [one - other for one, other in zip(*rows)]
    for title, row, sign in (("with", rows[0], ""), ("without", rows[1], ""), ("more", more, "+")):
        print(f"{name}, {title}: " + ", ".join(f"{each:{sign}.1f}" for each in row), flush=True)


def main():
    programs, data = [os.path.abspath(word) for word in sys.argv[1:3]], sys.argv[3]
    pairs = int((*sys.argv[4:], "5000")[0])
    with tempfile.TemporaryDirectory(dir=data) as one, tempfile.TemporaryDirectory(dir=data) as other:
        both = [Measured(program, folder) for program, folder in zip(programs, (one, other))]
        for number in range(1, pairs + 1):
            for each in both if number % 2 else both[::-1]:
                each.send(number)
        marked, plain = both
        show("us of the processor", marked.ran[pairs // 10:], plain.ran[pairs // 10:])
        show("us waited", marked.waited[pairs // 10:], plain.waited[pairs // 10:])
        for each, folder, name in zip(both, (one, other), ("with", "without")):
            print(f"syncs in 200 batches {name}: {each.synced(folder, 200)}")
            each.service.kill()
    print("load", os.getloadavg()[0])


if __name__ == "__main__":
    main()
