"""A `ledgerd` over a new file, with the worked session played to it, and what it tells."""

import glob
import http.client
import json
import os
import pathlib
import secrets
import subprocess
import time

from browser import Failed, free_port

SESSION = pathlib.Path(__file__).resolve().parent.parent / "examples/session/requests.sh"
PLAY = 'set -eu; . "$1"; port=$2 north_key=$3 south_key=$4 scratch=$5; send_requests'
BALANCES = ("debits_pending", "debits_posted", "credits_pending", "credits_posted")
MAX = 2**128 - 1

# Beside the session: amounts of nearly 128 bits with user data, holds with each end, and accounts
# that are met in transfers alone.
GREAT = 2**127 + 12345678901234567890
MORE_ACCOUNTS = [
    {"id": str(MAX - 1), "ledger": 7, "code": 10, "user_data_128": str(MAX)},
    {"id": str(2**64 + 1), "ledger": 7, "code": 20, "flags": 4, "user_data_64": str(2**64 - 1)},
    {"id": "50", "ledger": 978, "code": 5, "user_data_32": 4711},
]
MORE_TRANSFERS = [
    {"id": str(2**100), "debit_account_id": str(2**64 + 1), "credit_account_id": str(MAX - 1),
     "amount": str(GREAT), "ledger": 7, "code": 1},
    {"id": "200", "debit_account_id": "1", "credit_account_id": "2", "amount": "700",
     "ledger": 978, "code": 3, "flags": 2},
    {"id": "201", "pending_id": "200", "amount": "0", "flags": 8},
    {"id": "202", "debit_account_id": "1", "credit_account_id": "2", "amount": "800",
     "ledger": 978, "code": 3, "flags": 2},
    {"id": "203", "pending_id": "202", "amount": str(MAX), "flags": 4},
    {"id": "204", "debit_account_id": "1", "credit_account_id": "2", "amount": "900",
     "ledger": 978, "code": 3, "flags": 2, "timeout": 86400},
    {"id": "205", "debit_account_id": "1", "credit_account_id": "50", "amount": "1234567",
     "ledger": 978, "code": 3, "flags": 2},
]


def faked(clock):
    """The environment of a program whose time of day is what stands in a file (libfaketime)."""
    library = next(iter(glob.glob("/usr/lib/*/faketime/libfaketime.so.1")), None)
    if not library:
        raise Failed("needs libfaketime (Debian's package faketime)")
    return {**os.environ, "LD_PRELOAD": library, "FAKETIME_TIMESTAMP_FILE": str(clock),
            "FAKETIME_NO_CACHE": "1", "FAKETIME_DONT_FAKE_MONOTONIC": "1", "TZ": "UTC"}


class Ledger:
    """A running service with two tenants; `key` is the one that the tests look at. With a moment,
    such as 2026-09-01 08:00:00, its time of day is that one until another is set."""

    def __init__(self, ledgerd, folder, log, moment=None):
        self.folder, self.log, self.port = pathlib.Path(folder), log, free_port()
        self.environment = None
        if moment:
            self.environment = faked(self.folder / "clock")
            self.set_moment(moment)
        self.key, self.other_key = secrets.token_hex(32), secrets.token_hex(32)
        self.program, db = ledgerd, str(self.folder / "ledger.db")
        for name, key in (("north-desk", self.key), ("south-hall", self.other_key)):
            subprocess.run([ledgerd, "tenant-add", "--db", db, "--name", name, "--key", key],
                           check=True, stdout=log)
        self.serve()

    def __enter__(self):
        return self

    def __exit__(self, *_):
        self.end()

    def end(self):
        self.served.kill()
        self.served.wait()

    def set_moment(self, moment):
        (self.folder / "clock").write_text(f"{moment}\n")

    def serve(self):
        """Serves the file, and waits until a message is answered."""
        self.served = subprocess.Popen(
            [self.program, "serve", "--db", str(self.folder / "ledger.db"), "--port",
             str(self.port), "--requests", str(2**64 - 1)],
            stderr=self.log, env=self.environment)
        for _ in range(300):
            try:
                return self.ask("POST", "/accounts/lookup", [])
            except ConnectionRefusedError:
                time.sleep(0.1)
        raise Failed("ledgerd does not listen")

    def ask(self, method, path, body=None):
        connection = http.client.HTTPConnection("127.0.0.1", self.port, timeout=60)
        try:
            connection.request(method, path, None if body is None else json.dumps(body),
                               {"x-ledger-key": self.key})
            reply = connection.getresponse()
            told = reply.read().decode()
        finally:
            connection.close()
        if reply.status != 200:
            raise Failed(f"{method} {path}: {reply.status} {told}")
        return json.loads(told) if reply.getheader("content-type") == "application/json" else told

    def pages(self, path, records):
        """All records of a query without bounds, page by page."""
        found, since = [], "0"
        while True:
            page = self.ask("POST", path, {"limit": 1000, "timestamp_min": since})
            found += page[records]
            if page["next"] == "0":
                return found
            since = page["next"]

    def batch(self, path, events):
        """Sends events, each of which must be accepted; their timestamps."""
        results = self.ask("POST", path, events)["results"]
        names = [result["result"] for result in results]
        if names != ["ok"] * len(events):
            raise Failed(f"{path}: {names}")
        return [result["timestamp"] for result in results]

    def play(self):
        """The requests of the worked session, and what stands above beside it."""
        subprocess.run(["sh", "-c", PLAY, "sh", str(SESSION), str(self.port), self.key,
                        self.other_key, str(self.folder)], check=True, stdout=self.log)
        self.batch("/accounts", MORE_ACCOUNTS)
        self.batch("/transfers", MORE_TRANSFERS)

    def accounts(self, *ids):
        return self.ask("POST", "/accounts/lookup", [str(each) for each in ids])["accounts"]

    def entries(self, account):
        head, *lines = self.ask("GET", f"/statement/{account}").split()
        return [dict(zip(head.split(","), line.split(","))) for line in lines]

    def transfer(self, number):
        return self.ask("POST", "/transfers/lookup", [str(number)])["transfers"][0]
