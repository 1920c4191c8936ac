"""Measures what many clients get done at once: of `ledgerd`, and in the same run of PostgreSQL 15 by
its function of the same rules, and of C SQLite in one process with no clients.

    [SYNC_MS=1] python3 bench/rounds.py LEDGERD DATA [ACCOUNTS] [SECONDS] [CASE..]

LEDGERD is the program, DATA a folder that is there, where all may go. A case is CLIENTS/TENANTS/SIZE;
with none all of CASES are measured, each for so many seconds (3) on new files, with so many accounts
a tenant (100). It goes on until each client's last batch is answered. A client keeps its connection and sends a batch of SIZE once the last one is
answered (`peer/clients.c`, for both); client N is of tenant N, or of the first. C SQLite keeps the
same batches by the same statements, so many by a commit as a round has at most, and judges
nothing. Prints a line of a table for each case; the machine's load stands at the end. It needs a C
compiler, `libsqlite3-dev` and `libpq-dev`. Where PostgreSQL 15 is not installed it is left out, and
where `perf` cannot count calls of the system the syncs are. With SYNC_MS each sync of all three takes
so many milliseconds longer, as on a slower disk (`slow_sync.c`)."""

import json
import os
import pathlib
import secrets
import shutil
import signal
import socket
import subprocess
import sys
import tempfile
import time

import postgres

HERE = pathlib.Path(__file__).resolve().parent
CROWDS = ((1, 1), (4, 4), (20, 20), (100, 100), (4, 1), (20, 1), (100, 1))
CASES = [(clients, tenants, size) for size in (1, 10, 1000) for clients, tenants in CROWDS]
# What a round has at most: so many batches, and so many events.
BATCHES, EVENTS = 32, 1000
# Before it is measured a case is played for so many seconds, by a few of its clients.
FIRST, FEW = 1, 4
HEAD = """| Clients | Tenants | In batches of | Transfers a second | PostgreSQL | C SQLite \
| Waits | PostgreSQL | In a second of the processor | PostgreSQL | C SQLite | Batches a commit \
| Syncs a batch |
|---|---|---|---|---|---|---|---|---|---|---|---|---|"""
SYNCS = "syscalls:sys_enter_fdatasync,syscalls:sys_enter_fsync"


def build(within):
    """The clients, and the peer in C."""
    for name, words in (("clients", ("-I/usr/include/postgresql", "-lpq")),
                        ("peer", ("-lsqlite3",))):
        subprocess.run(["cc", "-O2", "-o", os.path.join(within, name), HERE / f"peer/{name}.c",
                        *words], check=True)


def slow_syncs(within):
    """Whatever is started from now on waits with each sync, if SYNC_MS is given."""
    if "SYNC_MS" in os.environ:
        made = os.path.join(within, "slow_sync.so")
        subprocess.run(["cc", "-O2", "-shared", "-fPIC", "-o", made, HERE / "slow_sync.c"],
                       check=True)
        os.environ["LD_PRELOAD"] = made


def free_port():
    with socket.socket() as probe:
        probe.bind(("127.0.0.1", 0))
        return probe.getsockname()[1]


class Asking:
    """A kept connection of a tenant, for what is not measured and for look-ups."""

    def __init__(self, port, key):
        self.key, self.socket = key, socket.create_connection(("127.0.0.1", port))
        self.socket.setsockopt(socket.IPPROTO_TCP, socket.TCP_NODELAY, 1)

    def ask(self, route, body):
        """The body of the reply, which is a good one."""
        text = json.dumps(body, separators=(",", ":")).encode()
        self.socket.sendall(f"POST {route} HTTP/1.1\r\nx-ledger-key: {self.key}\r\ncontent-length: "
                            f"{len(text)}\r\n\r\n".encode() + text)
        read = b""
        while True:
            more = self.socket.recv(1 << 16)
            if not more:
                raise SystemExit(f"{route}: the connection ended")
            read += more
            head, _, told = read.partition(b"\r\n\r\n")
            length = head.partition(b"content-length: ")[2].partition(b"\r\n")[0]
            if length and len(told) == int(length):
                break
        if not head.startswith(b"HTTP/1.1 200"):
            raise SystemExit(f"{route}: {read!r}")
        return told


class Ledger:
    """A new ledger that is served, under other words if they are given, with its tenants and their
    accounts."""

    def __init__(self, program, within, tenants, accounts, under=()):
        self.program, self.path = program, os.path.join(within, "ledger.db")
        self.port, self.played = free_port(), 0
        self.keys = [secrets.token_hex(32) for _ in range(tenants)]
        for place, key in enumerate(self.keys):
            subprocess.run([program, "tenant-add", "--db", self.path, "--name", f"desk-{place}",
                            "--key", key], check=True, stdout=subprocess.DEVNULL,
                           stderr=subprocess.DEVNULL)
        self.served = subprocess.Popen([*under, program, "serve", "--db", self.path, "--port",
                                        str(self.port), "--requests", str(2**64 - 1)],
                                       stderr=subprocess.PIPE)
        self.served.stderr.readline()
        for key in self.keys:
            asking = Asking(self.port, key)
            for first in range(1, accounts + 1, 1000):
                asking.ask("/accounts", [{"id": str(number), "ledger": 7, "code": 10} for number
                                         in range(first, min(first + 1000, accounts + 1))])

    def clients(self, tools, clients, accounts, size, seconds):
        """The clients, as a process that has begun."""
        self.played += 1
        tenants = min(clients, len(self.keys))
        words = [os.path.join(tools, "clients"), "http", self.port, clients, tenants, accounts,
                 size, seconds, self.played * 10**9]
        begun = subprocess.Popen([str(word) for word in words], stdin=subprocess.PIPE,
                                 stdout=subprocess.PIPE, text=True)
        begun.stdin.write("\n".join(self.keys) + "\n")
        begun.stdin.close()
        return begun

    def processor(self):
        return sum(postgres.stat(self.served.pid)[:2])

    def count_syncs(self):
        """A process that counts them from now on, or None."""
        if not shutil.which("perf"):
            return None
        counting = subprocess.Popen(["perf", "stat", "-x", ",", "-e", SYNCS, "-p",
                                     str(self.served.pid)], stderr=subprocess.PIPE, text=True)
        time.sleep(0.2)
        return counting

    def counts(self):
        """How often it has committed for batches, and how many these were, by its own count."""
        told = subprocess.run([self.program, "status", "--db", self.path], check=True, text=True,
                              stdout=subprocess.PIPE).stdout
        numbers = {name: int(number) for name, number in map(str.split, told.splitlines())}
        alone = numbers["replies_2xx"] - numbers["round_messages"]
        return numbers["rounds"] + alone, numbers["replies_2xx"]

    def end(self):
        self.served.kill()
        self.served.wait()


def told_by(clients):
    """What clients tell at their end: transfers, seconds, the median of their waits, the 99th of a
    hundred."""
    words = clients.stdout.read().split()
    if clients.wait():
        raise SystemExit("the clients have failed")
    return [float(word) for word in words]


def syncs_told(counting):
    """How many a process has counted, or None."""
    if not counting:
        return None
    counting.send_signal(signal.SIGINT)
    counts = [line.split(",")[0] for line in counting.communicate()[1].splitlines()]
    return sum(map(int, counts)) if counts and all(map(str.isdigit, counts)) else None


def of_ledgerd(program, within, case, accounts, seconds):
    """Transfers a second, waits, transfers in a second of the processor, batches a commit, and syncs
    a batch, which may not be known."""
    clients, tenants, size = case
    with tempfile.TemporaryDirectory(dir=within) as folder:
        ledger = Ledger(program, folder, tenants, accounts)
        told_by(ledger.clients(within, min(clients, FEW), accounts, size, FIRST))
        (commits, batches), counting = ledger.counts(), ledger.count_syncs()
        used = ledger.processor()
        many, took, half, most = told_by(ledger.clients(within, clients, accounts, size, seconds))
        used, syncs = ledger.processor() - used, syncs_told(counting)
        last, answered = ledger.counts()
        ledger.end()
    return (many / took, (half, most), many / used, (answered - batches) / (last - commits),
            syncs and syncs / (many / size))


def of_postgres(server, within, case, accounts, seconds):
    """The same, but for the last."""
    clients, tenants, size = case
    server.fill(tenants, accounts)

    def play(many, long, first):
        words = [os.path.join(within, "clients"), "postgres", server.folder, many,
                 min(many, tenants), accounts, size, long, first]
        return told_by(subprocess.Popen([str(word) for word in words], stdout=subprocess.PIPE,
                                        text=True))
    before = play(min(clients, FEW), FIRST, 0)[0]
    server.settle()
    used = server.processor()
    many, took, half, most = play(clients, seconds, 10**9)
    used = server.processor() - used
    if server.stored() != before + many:
        raise SystemExit("PostgreSQL has not kept them all")
    return many / took, (half, most), many / used


def of_sqlite(within, case, accounts, seconds):
    """Transfers a second, and in a second of the processor."""
    clients, tenants, size = case
    shared = max(1, min(clients, BATCHES, EVENTS // size))
    with tempfile.TemporaryDirectory(dir=within) as folder:
        words = [os.path.join(within, "peer"), os.path.join(folder, "peer.db"), "shared", accounts,
                 size, shared, tenants, seconds]
        told = subprocess.run([str(word) for word in words], check=True, text=True,
                              stdout=subprocess.PIPE).stdout
    many, took, used = map(float, told.split())
    return many / took, many / used


def line(case, ours, theirs, best):
    """A case as a line of the table."""
    waits = ["{:.1f}, {:.1f}".format(*each[1]) if each else "" for each in (ours, theirs)]
    rates = [f"{each[0]:,.0f}" if each else "" for each in (ours, theirs, best)]
    used = [f"{each:,.0f}" if each else "" for each in
            (ours[2], theirs and theirs[2], best[1])]
    shared = f"{ours[3]:.1f}", f"{ours[4]:.2f}" if ours[4] else ""
    return f"| {' | '.join([*map(str, case), *rates, *waits, *used, *shared])} |"


def measure(program, within, accounts, seconds, cases):
    server = postgres.Server(within) if postgres.is_there() else None
    try:
        print(HEAD, flush=True)
        for case in cases:
            ours = of_ledgerd(program, within, case, accounts, seconds)
            theirs = server and of_postgres(server, within, case, accounts, seconds)
            best = of_sqlite(within, case, accounts, seconds / 2)
            print(line(case, ours, theirs, best), flush=True)
    finally:
        if server:
            server.end()


def main():
    program, data = os.path.abspath(sys.argv[1]), sys.argv[2]
    accounts, seconds = (int(word) for word in (*sys.argv[3:5], *("100", "3")[len(sys.argv[3:5]):]))
    cases = [tuple(map(int, word.split("/"))) for word in sys.argv[5:]] or CASES
    with tempfile.TemporaryDirectory(dir=data) as within:
        build(within)
        os.chmod(within, 0o755)
        slow_syncs(within)
        measure(program, within, accounts, seconds, cases)
    print("load", os.getloadavg()[0])


if __name__ == "__main__":
    main()
