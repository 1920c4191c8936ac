"""Tries `send.py` and `receive.py`: both are killed again and again while transfers are booked, and in the
end the receiver has each accepted transfer once, in order.

    python3 examples/webhooks/try_webhooks.py LEDGERD [SEED] [KILLS]

LEDGERD is the program, which serves a new ledger on a free port meanwhile. Kills come at random moments.
Now and then the receiver also kills itself between keeping a transfer and replying, and the sender between
the acknowledgement and keeping its place. Each must lead to a repeated delivery."""

import contextlib
import json
import os
import pathlib
import random
import signal
import sqlite3
import subprocess
import sys
import tempfile
import time

import receive
import send

HERE = pathlib.Path(__file__).resolve().parent
sys.path[:0] = [str(HERE.parent / "clients"), str(HERE.parent / "following")]

from served import KEY, ended, free_port, served, wait_for  # noqa: E402
from try_following import Sender  # noqa: E402

KILLS, PATIENCE = 20, 60
# One in WORST deliveries ends a process at its worst moment, and REPEATS repeats at least must be seen.
# The receiver is behind the ledger by some BACKLOG transfers at most.
WORST, REPEATS, BACKLOG = 40, 3, 30
SEEN = "CREATE TABLE IF NOT EXISTS seen (id TEXT)"


def killed_now():
    os.kill(os.getpid(), signal.SIGKILL)


def play_receiver():
    """A receiver that notes each delivery beside what it keeps, and sometimes dies before its reply."""
    draw = random.Random(os.urandom(8))

    def keep(file, transfer):
        with contextlib.closing(sqlite3.connect(file, timeout=PATIENCE)) as database, database:
            database.execute(SEEN)
            database.execute("INSERT INTO seen VALUES (?)", (transfer["id"],))
        receive.keep(file, transfer)
        if draw.random() * WORST < 1:
            killed_now()

    receive.Receiver.keep = staticmethod(keep)
    receive.run(receive.Receiver)


def play_sender():
    """A sender that sometimes dies after an acknowledgement, before it has kept its place."""
    draw, kept = random.Random(os.urandom(8)), send.keep

    def keep(place, timestamp):
        if draw.random() * WORST < 1:
            killed_now()
        kept(place, timestamp)

    send.keep = keep
    send.run(sys.argv[1])


class Payer(Sender):
    """Books transfers until `is_over` is set, as long as the receiver is not too far behind."""

    def __init__(self, port, seed, file):
        super().__init__(port, seed)
        self.file, self.number = file, 1000

    def run(self):
        while not self.is_over.wait(self.random.uniform(0, 0.05)):
            if len(self.accepted) < len(kept_by(self.file)) + BACKLOG:
                self.pay(self.random.randint(1, 10))

    def pay(self, many):
        # Now and then to an account that is not there: such a transfer is refused.
        batch = [{"id": str(self.number + place), "debit_account_id": "1", "amount": "1", "ledger": 978,
                  "credit_account_id": self.random.choice("2222229"), "code": 1} for place in range(many)]
        self.number += many
        results = self.post("/transfers", batch)
        self.accepted += [event["id"] for event, result in zip(batch, results) if result["result"] == "ok"]


class Side:
    """A process that is started again whenever it has ended."""

    def __init__(self, words, env):
        self.words, self.env, self.process, self.deaths = words, env, None, 0

    def start(self):
        self.process = subprocess.Popen(self.words, env=self.env)

    def restart(self):
        """Starts it again if it has ended by itself."""
        status = self.process.poll()
        if status is not None:
            if status != -signal.SIGKILL:
                sys.exit(f"{self.words}: ended with status {status}")
            self.deaths += 1
            self.start()

    def kill(self):
        self.process.kill()
        self.process.wait()


def rows(file, query):
    """What a query of the receiver's database finds, nothing while it has no such table."""
    with contextlib.closing(sqlite3.connect(file, timeout=PATIENCE)) as database:
        try:
            return [each[0] for each in database.execute(query)]
        except sqlite3.OperationalError:
            return []


def kept_by(file):
    return rows(file, "SELECT id FROM received ORDER BY place")


def repeats(file):
    """How many deliveries were repetitions."""
    seen = rows(file, "SELECT id FROM seen")
    return len(seen) - len(set(seen))


def place_of(place):
    """The sender's place, 0 before the first."""
    return int(place.read_text()) if place.exists() else 0


def last_of(file, accepted):
    """The timestamp of the last accepted transfer once the receiver has all of them, else nothing."""
    bodies = rows(file, "SELECT body FROM received ORDER BY place")
    return int(json.loads(bodies[-1])["timestamp"]) if len(bodies) == len(accepted) > 0 else None


def run_until(sides, holds, seconds):
    """Keeps both sides running until a condition holds, or the time is over."""
    end = time.monotonic() + seconds
    while not holds() and time.monotonic() < end:
        for each in sides:
            each.restart()
        time.sleep(0.02)


def kill_often(sides, file, draw, kills):
    """Kills a random side at random moments. How many transfers the receiver had each time."""
    had = []
    for _ in range(kills):
        before = len(kept_by(file))
        if draw.random() < 0.7:
            run_until(sides, lambda: len(kept_by(file)) > before, PATIENCE)
        run_until(sides, lambda: False, draw.uniform(0, 0.4))
        victim = draw.choice(sides)
        victim.kill()
        had.append(len(kept_by(file)))
        time.sleep(draw.choice((0, 0, 0.2)))
        victim.start()
    return had


def compare(accepted, file, place, sides, seed):
    """The receiver has what was accepted, once and in order, and some deliveries were repeated."""
    kept = kept_by(file)
    if kept != accepted:
        sys.exit(f"seed {seed}: {len(accepted)} transfers were accepted, and the receiver has "
                 f"{len(kept)}, {len(set(kept) & set(accepted))} of them accepted ones")
    bodies = rows(file, "SELECT body FROM received ORDER BY place")
    times = [int(json.loads(each)["timestamp"]) for each in bodies]
    if times != sorted(set(times)) or place_of(place) != times[-1]:
        sys.exit(f"seed {seed}: the timestamps, or the sender's place")
    deaths = sum(each.deaths for each in sides)
    if repeats(file) < REPEATS or not deaths:
        sys.exit(f"seed {seed}: {repeats(file)} repeated deliveries and {deaths} deaths show nothing")
    return deaths


def main():
    program, numbers = os.path.abspath(sys.argv[1]), [int(it) for it in sys.argv[2:]]
    seed, kills = (*numbers, *[time.time_ns(), KILLS][len(numbers):])
    with tempfile.TemporaryDirectory() as folder, contextlib.ExitStack() as stack:
        port, hook = stack.enter_context(served(program, folder)), free_port()
        file, place = pathlib.Path(folder, "received.db"), pathlib.Path(folder, "place")
        env = {**os.environ, "LEDGER_URL": f"http://127.0.0.1:{port}", "LEDGER_KEY": KEY,
               "HOOK_URL": f"http://127.0.0.1:{hook}/", "HOOK_SECRET": "secret"}
        ask = [sys.executable, __file__]
        sides = [Side([*ask, "--send", str(place)], env),
                 Side([*ask, "--receive", str(file), str(hook)], env)]
        for each in sides:
            each.start()
            stack.callback(each.kill)
        payer = Payer(port, seed, file)
        payer.start()
        had = kill_often(sides, file, random.Random(seed), kills)
        run_until(sides, lambda: repeats(file) >= REPEATS, PATIENCE)
        payer.is_over.set()
        payer.join()
        run_until(sides, lambda: place_of(place) == last_of(file, payer.accepted), 2 * PATIENCE)
        run_until(sides, lambda: False, 0.3)
        deaths = compare(payer.accepted, file, place, sides, seed)
        repeated = repeats(file)
    print(f"{len(payer.accepted)} transfers, {kills} kills at {len(set(had))} places and {deaths} at the "
          f"worst moment: {repeated} deliveries were repeated, and each transfer was kept once, in order")


if __name__ == "__main__":
    role = sys.argv[1] if sys.argv[1] in ("--send", "--receive") else None
    if role:
        del sys.argv[1]
    {"--send": play_sender, "--receive": play_receiver}.get(role, main)()
