"""Measures how long a look-up takes beside clients that write.

    python3 bench/beside.py LEDGERD DATA [ACCOUNTS] [SECONDS]

LEDGERD is the program, DATA a folder that is there. Serves a new ledger, on a free port: 20 clients
as in `bench/rounds.py`, each a tenant of its own with so many accounts (100), send single transfers
for so many seconds (10). Beside them one asks on a kept connection, again and again, for a transfer
that the first tenant has stored. Prints the median and the 99th of a hundred of its waits in
milliseconds, without the writers and beside them, and whether the latter is within 20 ms. The
machine's load stands at the end."""

import os
import sys
import tempfile
import time

from rounds import Asking, Ledger, build, told_by

WRITERS, WITHIN = 20, 20


def look_up(asking, first, many, is_over):
    """The waits of look-ups of stored transfers until it is over, in order, in milliseconds."""
    waits, asked = [], 0
    while not is_over():
        asked += 1
        begun = time.perf_counter()
        told = asking.ask("/transfers/lookup", [str(first + asked * 7919 % many)])
        waits.append(1e3 * (time.perf_counter() - begun))
        if b'"id":"' not in told:
            raise SystemExit(f"not there: {told!r}")
    return sorted(waits)


def tell(name, waits):
    """Prints the median and the 99th of a hundred, and returns the latter."""
    last = waits[len(waits) * 99 // 100]
    print(f"{name}: {len(waits)} look-ups, {waits[len(waits) // 2]:.2f} ms in the median, "
          f"{last:.2f} ms for 99 of 100", flush=True)
    return last


def main():
    program, data = os.path.abspath(sys.argv[1]), sys.argv[2]
    accounts, seconds = (int(word) for word in (*sys.argv[3:], *("100", "10")[len(sys.argv[3:]):]))
    with tempfile.TemporaryDirectory(dir=data) as folder:
        build(folder)
        ledger = Ledger(program, folder, WRITERS, accounts)
        many = told_by(ledger.clients(folder, WRITERS, accounts, 1, 1))[0]
        asking = Asking(ledger.port, ledger.keys[0])
        # Those of the first client, which has sent its share of them or nearly.
        stored = 10**9 + 1, max(1, int(many) // WRITERS // 2)
        end = time.perf_counter() + seconds / 2
        tell("alone", look_up(asking, *stored, lambda: time.perf_counter() > end))
        writers = ledger.clients(folder, WRITERS, accounts, 1, seconds)
        waits = look_up(asking, *stored, lambda: writers.poll() is not None)
        many, took, _, _ = told_by(writers)
        last = tell(f"beside {WRITERS} that send {many / took:,.0f} transfers a second", waits)
        print(f"within {WITHIN} ms in 99 of 100: {'yes' if last <= WITHIN else 'no'}")
        ledger.end()
    print("load", os.getloadavg()[0])


if __name__ == "__main__":
    main()
