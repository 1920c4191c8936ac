"""Tries `trial_balance.py` on a new ledger of 2,500 accounts, beside sums of what was sent.

    python3 examples/trial-balance/try_trial_balance.py LEDGERD"""

import collections
import http.client
import json
import os
import pathlib
import subprocess
import sys
import tempfile

HERE = pathlib.Path(__file__).resolve().parent
sys.path.insert(0, str(HERE.parent / "clients"))

from served import KEY, served  # noqa: E402

EURO, DOLLAR, PENDING = 978, 840, 2
ACCOUNTS = {EURO: range(1, 2301), DOLLAR: range(10001, 10201)}


class Tenant:
    def __init__(self, port):
        self.connection = http.client.HTTPConnection("127.0.0.1", port, timeout=60)
        self.sums = collections.Counter()

    def post(self, path, events):
        """Sends a batch, of which each event has to be accepted."""
        self.connection.request("POST", path, json.dumps(events), {"x-ledger-key": KEY})
        results = json.loads(self.connection.getresponse().read())["results"]
        if any(each["number"] for each in results):
            sys.exit(f"{path}: {results}")

    def open_accounts(self, ledger):
        numbers = ACCOUNTS[ledger]
        for first in range(0, len(numbers), 1000):
            self.post("/accounts", [{"id": str(number), "ledger": ledger, "code": 1}
                                    for number in numbers[first:first + 1000]])

    def move(self, ledger, first, flags, kind):
        """A hundred transfers of a ledger, from accounts to others that are far behind them."""
        numbers, batch = ACCOUNTS[ledger], []
        for place in range(100):
            amount = 2**64 + first + place
            batch.append({"id": str(first + place), "debit_account_id": str(numbers[place]),
                          "credit_account_id": str(numbers[-1 - place]), "amount": str(amount),
                          "ledger": ledger, "code": 1, "flags": flags})
            self.sums[ledger, kind] += amount
        self.post("/transfers", batch)


def main():
    with tempfile.TemporaryDirectory() as folder, \
            served(os.path.abspath(sys.argv[1]), folder) as port:
        tenant = Tenant(port)
        for ledger in ACCOUNTS:
            tenant.open_accounts(ledger)
            tenant.move(ledger, 10 * ledger, 0, "posted")
            tenant.move(ledger, 100 * ledger, PENDING, "pending")
        where = {**os.environ, "LEDGER_URL": f"http://127.0.0.1:{port}", "LEDGER_KEY": KEY}
        told = subprocess.run([sys.executable, HERE / "trial_balance.py"], env=where, check=True,
                              stdout=subprocess.PIPE, text=True).stdout
    lines = [[int(word) for word in line.split()] for line in told.splitlines()[2:]]
    expected = [[ledger, len(ACCOUNTS[ledger]), *[tenant.sums[ledger, "posted"]] * 2,
                 *[tenant.sums[ledger, "pending"]] * 2] for ledger in sorted(ACCOUNTS)]
    if lines != expected:
        sys.exit(f"{told}is not {expected}")
    print(told, end="")


main()
