"""A trial balance: the sums of all accounts, for each ledger. Debits equal credits, or it fails.

    LEDGER_URL=http://127.0.0.1:8080 LEDGER_KEY=.. python3 examples/trial-balance/trial_balance.py

Accounts come page by page. All pages have to be of one clock, so it asks again from the beginning
where a batch came between."""

import collections
import json
import os
import sys
import urllib.request

SUMS = ("debits_posted", "credits_posted", "debits_pending", "credits_pending")
TRIES = 20


def ask(number):
    """The accounts from a number on, at most a thousand."""
    asked = json.dumps({"timestamp_min": str(number), "limit": 1000}).encode()
    url, key = os.environ["LEDGER_URL"] + "/query/accounts", os.environ["LEDGER_KEY"]
    message = urllib.request.Request(url, asked, {"x-ledger-key": key})
    with urllib.request.urlopen(message, timeout=60) as reply:
        return json.load(reply)


def all_accounts():
    """Each account, and the clocks that they were told at."""
    accounts, clocks, number = [], set(), 0
    while True:
        page = ask(number)
        accounts += page["accounts"]
        clocks.add(page["clock"])
        number = int(page["next"])
        if number == 0:
            return accounts, clocks


def accounts_of_one_clock():
    for _ in range(TRIES):
        accounts, clocks = all_accounts()
        if len(clocks) == 1:
            return accounts, *clocks
    sys.exit("a batch came between the pages each time: ask when there is less to do")


def sums_of(accounts):
    """The four sums and the number of accounts of each ledger."""
    ledgers = collections.defaultdict(collections.Counter)
    for account in accounts:
        ledgers[account["ledger"]].update({name: int(account[name]) for name in SUMS}, accounts=1)
    return sorted(ledgers.items())


def main():
    accounts, clock = accounts_of_one_clock()
    print(f"at clock {clock}")
    print(f"{'ledger':>10} {'accounts':>9} " + " ".join(f"{name:>22}" for name in SUMS))
    is_even = True
    for ledger, sums in sums_of(accounts):
        print(f"{ledger:>10} {sums['accounts']:>9} " + " ".join(f"{sums[it]:>22}" for it in SUMS))
        is_even = is_even and all(sums[f"debits_{it}"] == sums[f"credits_{it}"]
                                  for it in ("posted", "pending"))
    sys.exit(0 if is_even else "debits and credits differ")


main()
