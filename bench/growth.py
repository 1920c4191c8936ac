"""Tells what grows with what a ledger holds.

    python3 bench/growth.py LEDGERD DATA [FEW MANY]

LEDGERD is the program, DATA a folder that is there. Of FEW (10,000) and of MANY (100,000) of a kind it
prints what something takes in milliseconds, the median of several, and how many times as much the
latter is: adding a tenant beside so many, and a batch of 100 transfers beside so many accounts, open
holds or failed ids of its tenant. Then, of so many holds that are due within a second, and over a
minute: how long their release takes behind the last due time, and the longest wait of another
tenant, who asks again and again meanwhile. The machine's load stands at the end."""

import hashlib
import json
import os
import random
import statistics
import subprocess
import sys
import tempfile
import time

from openings import fill
from rounds import Asking, Ledger, free_port

EACH, BATCH, TIMES, ACCOUNTS = 1000, 100, 30, 100
PENDING = 2
# Seconds until the first holds are due; so long it takes at most to send them.
AHEAD = 45


def milliseconds(act, times):
    """What it takes to act, the median of so many times."""
    took = []
    for _ in range(times):
        begun = time.perf_counter()
        act()
        took.append(1e3 * (time.perf_counter() - begun))
    return statistics.median(took)


# Tenants.

def add_empty(file, number, _transfers):
    """A tenant without accounts."""
    name = f"tenant-{number}"
    file.execute("INSERT INTO tenant VALUES (?, ?, ?)",
                 (number, name, hashlib.sha256(name.encode()).digest()))
    file.execute("INSERT INTO clock VALUES (?, 0)", (number,))


def adding_a_tenant(program, folder, tenants):
    path = os.path.join(folder, "ledger.db")
    fill(path, tenants, 0, add_empty)
    served = subprocess.Popen([program, "serve", "--db", path, "--port", str(free_port()),
                               "--requests", "1"], stderr=subprocess.PIPE)
    served.stderr.readline()
    numbers = iter(range(tenants))

    def add():
        subprocess.run([program, "tenant-add", "--db", path, "--name", f"new-{next(numbers)}"],
                       check=True, stdout=subprocess.DEVNULL)

    took = milliseconds(add, TIMES)
    served.kill()
    served.wait()
    return took


# What one tenant has.

def transfers(first, many, accounts, **fields):
    """So many between two of the accounts, drawn evenly."""
    drawn = random.Random(first)
    for number in range(first, first + many):
        debit, credit = drawn.sample(range(1, accounts + 1), 2)
        yield {"id": str(number), "debit_account_id": str(debit), "credit_account_id": str(credit),
               "amount": "5", "ledger": 7, "code": 1, **fields}


def fail(_):
    """What makes a transfer fail for good."""
    return {"credit_account_id": str(10**9)}


def hold(_):
    return {"flags": PENDING}


def send(asking, many, fields, first=1):
    """So many transfers in large batches, each with fields that are told for its place."""
    for place in range(0, many, EACH):
        asking.ask("/transfers", list(transfers(first + place, EACH, ACCOUNTS, **fields(place))))


def batches(program, folder, accounts, many=0, fields=None):
    """Batches of a tenant with so many accounts, and so many transfers with these fields."""
    ledger = Ledger(program, folder, 1, accounts)
    asking = Asking(ledger.port, ledger.keys[0])
    if many:
        send(asking, many, fields)
    firsts = iter(range(10**9, 2 * 10**9, BATCH))
    took = milliseconds(lambda: asking.ask("/transfers", list(
        transfers(next(firsts), BATCH, accounts))), TIMES)
    ledger.end()
    return took


# Holds that are due.

def released(program, folder, many, seconds):
    """The milliseconds from the last due time of so many holds, which are due over so many seconds,
    until all are released, and the longest wait of another tenant meanwhile."""
    ledger = Ledger(program, folder, 2, ACCOUNTS)
    owner, other = (Asking(ledger.port, key) for key in ledger.keys)
    begins = time.time() + AHEAD

    def due(place):
        at = begins + seconds * place / many
        return {"flags": PENDING, "timeout": max(1, round(at - time.time()))}

    send(owner, many, due)
    asked, longest, end = [str(number) for number in range(1, ACCOUNTS + 1)], 0.0, begins + seconds
    time.sleep(max(0.0, begins - 2 - time.time()))
    while True:
        begun = time.perf_counter()
        other.ask("/accounts/lookup", asked[:1])
        longest = max(longest, time.perf_counter() - begun)
        time.sleep(0.01)
        # The owner was idle for so long that the service has let it go.
        if time.time() > end and not held(Asking(ledger.port, ledger.keys[0]), asked):
            break
    ledger.end()
    return 1e3 * (time.time() - end), 1e3 * longest


def held(asking, asked):
    """Whether something is pending of these accounts."""
    told = json.loads(asking.ask("/accounts/lookup", asked))
    return any(each["debits_pending"] != "0" for each in told["accounts"])


def main():
    program, data = os.path.abspath(sys.argv[1]), sys.argv[2]
    few, many = (int(word) for word in (*sys.argv[3:], *("10000", "100000")[len(sys.argv[3:]):]))

    def within(measure, *told):
        with tempfile.TemporaryDirectory(dir=data) as folder:
            return measure(program, folder, *told)

    def tell(name, *took):
        print(f"| {name} | {took[0]:,.1f} | {took[1]:,.1f} | {took[1] / max(took[0], 0.1):.1f} |",
              flush=True)

    print(f"| Milliseconds | of {few:,} | of {many:,} | Times |\n|---|---|---|---|")
    tell("adding a tenant, of tenants", *(within(adding_a_tenant, it) for it in (few, many)))
    tell("a batch of 100, of accounts", *(within(batches, it) for it in (few, many)))
    for name, fields in (("open holds", hold), ("failed ids", fail)):
        tell(f"a batch of 100, of {name}",
             *(within(batches, ACCOUNTS, it, fields) for it in (few, many)))
    for name, seconds in (("a second", 1), ("a minute", 60)):
        took = [within(released, it, seconds) for it in (few, many)]
        tell(f"holds due within {name}: the last is released", *(each[0] for each in took))
        tell(f"holds due within {name}: another tenant waits", *(each[1] for each in took))
    print("load", os.getloadavg()[0])


if __name__ == "__main__":
    main()
