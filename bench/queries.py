"""Measures pages of transfers that name no account, beside C SQLite by the same statements.

    python3 bench/queries.py LEDGERD DATA [STORED] [TIMES]

LEDGERD is the program, DATA a folder that is there. Serves a new ledger with 100 accounts and
STORED transfers (100,000), of which one in a thousand has a mark, and asks for pages of 100 by HTTP
on a kept connection, TIMES (300) of each kind. In turn with each the same statements are asked of a
copy of the file by Python's sqlite3, which is C SQLite: for a rare mark several, as the store reads
on until it has looked at 2,000. Prints the medians in microseconds and their ratio; what the
connection alone takes; the service's processor time a page; and how many transfers a second a
follower takes. It holds nothing against a limit."""

import json
import os
import secrets
import shutil
import socket
import sqlite3
import statistics
import subprocess
import sys
import tempfile
import time

ACCOUNTS, MARKED_IN, MARK, LIMIT, LOOKED_AT = 100, 1000, 4711, 100, 2000
TICK = os.sysconf("SC_CLK_TCK")
COLUMNS = ("id, debit, credit, amount, pending_id, user_data_128, user_data_64, user_data_32, "
           "timeout, ledger, code, flags, timestamp, at_clock")
SPAN = (f"SELECT {COLUMNS} FROM transfer WHERE tenant = ?1 AND timestamp >= ?2 AND timestamp <= ?3 "
        "ORDER BY timestamp{} LIMIT ?4")
AT_TIMESTAMP = COLUMNS.split(", ").index("timestamp")


def free_port():
    with socket.socket() as probe:
        probe.bind(("127.0.0.1", 0))
        return probe.getsockname()[1]


class Service:
    """A served ledger of one tenant, and a kept connection to it."""

    def __init__(self, program, path):
        self.key, port = secrets.token_hex(32), free_port()
        subprocess.run([program, "tenant-add", "--db", path, "--name", "north", "--key", self.key],
                       check=True, stdout=subprocess.DEVNULL, stderr=subprocess.DEVNULL)
        self.served = subprocess.Popen([program, "serve", "--db", path, "--port", str(port)],
                                       stderr=subprocess.PIPE)
        self.served.stderr.readline()
        self.socket = socket.create_connection(("127.0.0.1", port))
        self.socket.setsockopt(socket.IPPROTO_TCP, socket.TCP_NODELAY, 1)

    def ask(self, path, body):
        """The bytes of the reply's body."""
        text = json.dumps(body, separators=(",", ":")).encode()
        self.socket.sendall(f"POST {path} HTTP/1.1\r\nx-ledger-key: {self.key}\r\ncontent-length: "
                            f"{len(text)}\r\n\r\n".encode() + text)
        read = self.socket.recv(1 << 20)
        while b"\r\n\r\n" not in read:
            read += self.socket.recv(1 << 20)
        head, _, body = read.partition(b"\r\n\r\n")
        length = int(head.partition(b"content-length: ")[2].partition(b"\r\n")[0])
        pieces, had = [body], len(body)
        while had < length:
            pieces.append(self.socket.recv(1 << 20))
            had += len(pieces[-1])
        if not head.startswith(b"HTTP/1.1 200"):
            raise SystemExit(f"{path}: {read!r}")
        return b"".join(pieces)

    def processor(self):
        """Seconds of the service's processor time."""
        with open(f"/proc/{self.served.pid}/stat", encoding="ascii") as file:
            fields = file.read().rpartition(")")[2].split()
        return (int(fields[11]) + int(fields[12])) / TICK

    def end(self):
        self.socket.close()
        self.served.kill()
        self.served.wait()


def fill(service, stored):
    service.ask("/accounts", [{"id": str(number), "ledger": 7, "code": 10}
                              for number in range(1, ACCOUNTS + 1)])
    for first in range(0, stored, 1000):
        told = json.loads(service.ask("/transfers", [
            {"id": str(10**6 + place), "debit_account_id": str(1 + place % ACCOUNTS),
             "credit_account_id": str(1 + (place + 1 + place // 7 % 98) % ACCOUNTS), "amount": "1",
             "ledger": 7, "code": 1, "user_data_64": str(MARK if place % MARKED_IN == 17 else 0)}
            for place in range(first, min(first + 1000, stored))]))
        if any(each["number"] for each in told["results"]):
            raise SystemExit(f"refused: {told}")


class Copy:
    """C SQLite over a copy of the file, with as many pages in memory as a service has."""

    def __init__(self, path, to):
        for end in ("", "-wal"):
            shutil.copy(path + end, to + end)
        self.connection = sqlite3.connect(to, isolation_level=None)
        self.connection.execute("PRAGMA cache_size = 20000")

    def times(self):
        """The first timestamp, the one in the middle, and the last."""
        (many,) = self.connection.execute("SELECT count(*) FROM transfer").fetchone()
        text = "SELECT timestamp FROM transfer ORDER BY timestamp LIMIT 1 OFFSET ?"
        return [self.connection.execute(text, (place,)).fetchone()[0]
                for place in (0, many // 2, many - 1)]

    def look(self, first, last, is_newest, most):
        """The statements of a page: pieces of 100 records, 200 and so on, so many in all."""
        text, left, size = SPAN.format(" DESC" if is_newest else ""), most, LIMIT
        while left:
            rows = self.connection.execute(text, (1, first, last, min(size, left))).fetchall()
            if len(rows) < min(size, left):
                return
            time_behind = rows[-1][AT_TIMESTAMP]
            first, last = (first, time_behind - 1) if is_newest else (time_behind + 1, last)
            left, size = left - len(rows), 2 * size


def timed(call, *words):
    start = time.perf_counter()
    call(*words)
    return time.perf_counter() - start


def compare(name, service, copy, asked, span):
    """Prints a case: both in turn, and then the service alone for its processor time."""
    many = int((sys.argv[4:] or [300])[0])
    body = {"limit": LIMIT, **asked}
    shown = len(json.loads(service.ask("/query/transfers", body))["transfers"])
    pairs = [(timed(service.ask, "/query/transfers", body), timed(copy.look, *span))
             for _ in range(many)]
    page, statements = (1e6 * statistics.median(each) for each in zip(*pairs))
    before = service.processor()
    for _ in range(many):
        service.ask("/query/transfers", body)
    used = 1e6 * (service.processor() - before) / many
    print(f"{name:36} {shown:5} {page:9.0f} {statements:9.0f} {page / statements:7.2f} {used:9.0f}",
          flush=True)


def follow(service):
    """The transfers of all pages of 1,000, from the first to the end."""
    number = many = 0
    while True:
        page = json.loads(service.ask("/query/transfers",
                                      {"limit": 1000, "timestamp_min": str(number)}))
        many, number = many + len(page["transfers"]), int(page["next"])
        if number == 0:
            return many


def main():
    program, data = os.path.abspath(sys.argv[1]), sys.argv[2]
    stored = int((sys.argv[3:] or [100_000])[0])
    with tempfile.TemporaryDirectory(dir=data) as folder:
        path = os.path.join(folder, "ledger.db")
        service = Service(program, path)
        fill(service, stored)
        copy = Copy(path, os.path.join(folder, "copy.db"))
        first, middle, last = copy.times()
        title = f"a page of {LIMIT}, of {stored}"
        print(f"{title:36} shown   by HTTP  C SQLite   ratio processor")
        ends = {"timestamp_min": str(middle)}
        newest, marked = {"flags": 1}, {"user_data_64": str(MARK)}
        compare("from the start", service, copy, {}, (0, last, False, LIMIT))
        compare("from the middle", service, copy, ends, (middle, last, False, LIMIT))
        compare("the newest", service, copy, newest, (0, last, True, LIMIT))
        compare("with a rare mark, from the start", service, copy, marked,
                (0, last, False, LOOKED_AT))
        compare("with a rare mark, the newest", service, copy, {**newest, **marked},
                (0, last, True, LOOKED_AT))
        alone = [timed(service.ask, "/transfers/lookup", []) for _ in range(300)]
        print(f"a message that asks for nothing {1e6 * statistics.median(alone):.0f}")
        start = time.perf_counter()
        many = follow(service)
        print(f"a follower, {many / (time.perf_counter() - start):,.0f} transfers a second")
        print("load", os.getloadavg()[0])
        service.end()


main()
