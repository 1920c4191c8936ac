"""Tries the wallets: clerks work while the service is killed, then each operation is repeated, and the
stored operations are reconciled with the ledger.

    python3 examples/wallet/try_wallet.py LEDGERD [SEED] [SECONDS]

LEDGERD is the program, which serves a new ledger on a free port meanwhile."""

import collections
import pathlib
import random
import secrets
import sys
import tempfile
import threading
import time

TOP = pathlib.Path(__file__).resolve().parents[2]
sys.path[:0] = [str(TOP / "clients/python"), str(TOP / "clients/harness")]

from cegarront import Ledger  # noqa: E402
from reconcile import reconcile  # noqa: E402
from service import Service  # noqa: E402
from wallets import CURRENCIES, FIRST_WALLET, OK, Wallets, accounts  # noqa: E402

CLERKS, WALLETS, SECONDS, DEADLINE = 8, 4, 8, 2
# The clerks do OPERATIONS at least, and each of SHOWN occurs. A slow machine gets PATIENCE seconds more.
PATIENCE, OPERATIONS = 180, 120
SHOWN = ("deposit ok", "hold ok", "capture ok", "refund ok", "hold exceeds_credits")


class Clerk(threading.Thread):
    """Does one operation after the other, and repeats one now and then."""

    def __init__(self, place, ledger, file, seed, is_over):
        super().__init__(daemon=True)
        self.place, self.ledger, self.file, self.is_over = place, ledger, file, is_over
        self.random, self.orders, self.captured, self.calls = random.Random(seed), [], [], []
        self.outcomes, self.failure = collections.Counter(), None

    def run(self):
        try:
            wallets = Wallets(self.ledger, self.file)
            while not self.is_over.is_set():
                self.work(wallets)
            wallets.close()
        except BaseException as error:
            self.failure = error

    def work(self, wallets):
        """An operation, new or repeated. Repeated, it has the outcome that it had."""
        is_new = not self.calls or self.random.random() > 0.15
        if is_new:
            self.calls.append([*self.draw(f"clerk-{self.place}-{len(self.calls)}"), None])
        call = self.calls[-1] if is_new else self.random.choice(self.calls)
        name, arguments, before = call
        outcome = getattr(wallets, name)(*arguments)
        if before not in (None, outcome):
            raise AssertionError(f"{arguments[0]}: {before}, and then {outcome}")
        call[2] = outcome
        if is_new:
            self.outcomes[f"{name} {outcome}"] += 1
            if outcome == OK and name in ("hold", "capture"):
                self.note(name, *arguments)

    def note(self, name, key, *arguments):
        """Keeps an order with the amount that was held, or captured."""
        if name == "hold":
            self.orders.append((key, arguments[2]))
        else:
            self.captured.append(arguments[:2])

    def draw(self, key):
        """The name of an operation, and its arguments."""
        currency, amount = self.random.choice(CURRENCIES), self.random.randint(1, 5000)
        wallet, choice = FIRST_WALLET + self.random.randrange(WALLETS), self.random.random()
        if choice < 0.25 or not self.orders and choice >= 0.6 or not self.captured and choice >= 0.85:
            return "deposit", (key, currency, wallet, 3 * amount)
        if choice < 0.6:
            return "hold", (key, currency, wallet, amount, self.random.choice((1, 60, 3600)))
        order, held = self.random.choice(self.orders[-5:])
        if choice < 0.8:
            return "capture", (key, order, self.random.randint(1, held + held // 9), held // 50)
        if choice < 0.85:
            return "void", (key, order)
        order, captured = self.random.choice(self.captured)
        return "refund", (key, order, self.random.randint(1, captured))


def kill_often(service, draw, clerks, seconds):
    """Kills the service and starts it again, until the time is over. Then it serves on until the clerks
    have done enough. How many kills."""
    kills, until = 0, time.monotonic() + seconds
    while time.monotonic() < until:
        time.sleep(draw.uniform(0.3, 2))
        service.kill()
        kills += 1
        time.sleep(draw.choice((0, 0, 0.2)))
        service.start()
    while time.monotonic() < until + PATIENCE and lacks_something(clerks):
        if any(each.failure for each in clerks):
            break
        time.sleep(0.1)
    return kills


def all_outcomes(clerks):
    return sum((each.outcomes.copy() for each in clerks), collections.Counter())


def lacks_something(clerks):
    """Whether there were too few operations, or not all kinds of them."""
    outcomes = all_outcomes(clerks)
    return sum(outcomes.values()) < OPERATIONS or any(not outcomes[each] for each in SHOWN)


def repeat_all(wallets):
    """Sends the transfers of each operation once more: each has the outcome that it had."""
    for key, kind, transfers, outcome in wallets.operations():
        again = wallets.send(kind, transfers)
        if (again == OK) != (outcome == OK):
            raise AssertionError(f"{key} was {outcome}, and repeated it is {again}")


def main():
    words = [int(each) for each in sys.argv[2:]]
    seed, seconds = (*words, *[time.time_ns(), SECONDS][len(words):])
    draw, key = random.Random(seed), secrets.token_hex(32)
    with tempfile.TemporaryDirectory() as folder, Service(sys.argv[1], key) as service, \
            Ledger(service.url, key, deadline=DEADLINE, connections=CLERKS) as ledger:
        file = str(pathlib.Path(folder) / "wallets.db")
        wallets = Wallets(ledger, file)
        ledger.create_accounts(accounts(WALLETS)).raise_for_refused()
        is_over = threading.Event()
        clerks = [Clerk(place, ledger, file, draw.random(), is_over) for place in range(CLERKS)]
        for each in clerks:
            each.start()
        kills = kill_often(service, draw, clerks, seconds)
        is_over.set()
        for each in clerks:
            each.join(PATIENCE)
            if each.is_alive() or each.failure:
                sys.exit(f"seed {seed}: a clerk: {each.failure or 'no answer'}")
        repeat_all(wallets)
        told = reconcile(ledger, wallets)
        wallets.close()
    outcomes = all_outcomes(clerks)
    print(*(f"{name}: {many}" for name, many in sorted(outcomes.items())), sep="\n")
    if lacking := [each for each in SHOWN if not outcomes[each]]:
        sys.exit(f"seed {seed}: no operation was {' or '.join(lacking)}")
    print(f"{sum(outcomes.values())} operations under {kills} kills, each repeated at the end: {told}")


if __name__ == "__main__":
    main()
