"""Measures a served ledger end to end: one client, one kept connection, a file of its own.

    python3 bench/served.py LEDGERD DATA [ACCOUNTS STORED]

LEDGERD is the program, DATA a folder. Prints lines of a case and its microseconds."""

import http.client
import json
import os
import secrets
import socket
import statistics
import subprocess
import sys
import time

FIRST_ID = 1_000_000


def free_port():
    with socket.socket() as probe:
        probe.bind(("127.0.0.1", 0))
        return probe.getsockname()[1]


class Ledger:
    """A served ledger of one tenant, and a connection to it."""

    def __init__(self, program, path):
        self.key = secrets.token_hex(32)
        subprocess.run([program, "tenant-add", "--db", path, "--name", "north", "--key", self.key],
                       check=True, stdout=subprocess.DEVNULL)
        port = free_port()
        self.served = subprocess.Popen(
            [program, "serve", "--db", path, "--port", str(port), "--requests", str(2**64 - 1)])
        for _ in range(200):
            try:
                socket.create_connection(("127.0.0.1", port)).close()
                break
            except ConnectionRefusedError:
                time.sleep(0.05)
        self.connection = http.client.HTTPConnection("127.0.0.1", port)
        self.place = 0

    def ask(self, method, route, body=None):
        """The reply's status and body."""
        self.connection.request(method, route, body, {"x-ledger-key": self.key})
        reply = self.connection.getresponse()
        return reply, reply.read()

    def post(self, route, body):
        """The reply's body."""
        reply, text = self.ask("POST", route, json.dumps(body))
        if reply.status != 200:
            raise SystemExit(f"{route}: {reply.status} {text!r}")
        return json.loads(text)

    def get(self, route):
        return self.ask("GET", route)[1]

    def open_accounts(self, many):
        for first in range(1, many + 1, 1000):
            self.post("/accounts", [{"id": str(number), "ledger": 7, "code": 10, "flags": 8}
                                    for number in range(first, min(first + 1000, many + 1))])

    def transfers(self, many, accounts, **fields):
        """The next transfers, between accounts that are drawn evenly."""
        batch = []
        for place in range(self.place, self.place + many):
            mixed = place * 0x9E3779B97F4A7C15 % 2**64
            debit = (mixed >> 40) % accounts
            credit = (debit + 1 + (mixed >> 20) % 1048576 % (accounts - 1)) % accounts
            batch.append({"id": str(FIRST_ID + place), "debit_account_id": str(1 + debit),
                          "credit_account_id": str(1 + credit), "amount": "1", "ledger": 7,
                          "code": 1, **fields})
        self.place += many
        return batch

    def end(self):
        self.connection.close()
        self.served.kill()
        self.served.wait()


def send(ledger, batch):
    results = ledger.post("/transfers", batch)["results"]
    if any(each["number"] for each in results):
        raise SystemExit(f"refused: {results}")


def tell(case, seconds):
    """Prints a case with the median of its calls and the 99th of a hundred, in microseconds."""
    ordered = sorted(1e6 * each for each in seconds)
    print(f"{case:34} {statistics.median(ordered):12.1f} {ordered[len(ordered) * 99 // 100]:12.1f}")


def timed(calls):
    """The seconds of each call."""
    seconds = []
    for call in calls:
        start = time.perf_counter()
        call()
        seconds.append(time.perf_counter() - start)
    return seconds


def measure(ledger, accounts, stored):
    for _ in range(stored // 1000):
        send(ledger, ledger.transfers(1000, accounts))
    for size, many in ((1000, 10), (100, 30), (1, 300)):
        batches = [ledger.transfers(size, accounts) for _ in range(many)]
        seconds = timed(lambda batch=batch: send(ledger, batch) for batch in batches)
        tell(f"transfer/{accounts}/{stored}/{size}", [each / size for each in seconds])
    holds = [ledger.transfers(100, accounts, flags=2, timeout=1) for _ in range(50)]
    tell("hold of a second, 100 a batch",
         [each / 100 for each in timed(lambda batch=batch: send(ledger, batch) for batch in holds)])
    ids = [str(FIRST_ID + place * 7919 % ledger.place) for place in range(1000)]
    tell("lookup", timed(lambda each=each: ledger.post("/transfers/lookup", [each])
                         for each in ids))
    page = {"account_id": "1", "limit": 100, "flags": 7}
    tell("page of 100", timed(lambda: ledger.post("/history/transfers", page)
                              for _ in range(100)))
    start = time.perf_counter()
    rows = ledger.get("/statement/1").count(b"\n") - 1
    tell(f"row of a statement of {rows}", [(time.perf_counter() - start) / max(rows, 1)])


def main():
    program, data, *numbers = sys.argv[1:]
    accounts, stored = map(int, numbers) if numbers else (10000, 0)
    path = os.path.join(data, "served.db")
    for old in (path, path + "-wal", path + "-sums"):
        if os.path.exists(old):
            os.remove(old)
    ledger = Ledger(os.path.abspath(program), path)
    try:
        ledger.open_accounts(accounts)
        print(f"{'case':34} {'median us':>12} {'99 of 100':>12}")
        measure(ledger, accounts, stored)
    finally:
        ledger.end()
    tell("check of the file", timed([lambda: subprocess.run(
        [program, "check", "--db", path], check=True, stdout=subprocess.DEVNULL)]))


main()
