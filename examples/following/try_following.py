"""Tries `follow.py`: it is killed and started again while transfers are sent, and its outbox has
each of them once, in order.

    python3 examples/following/try_following.py LEDGERD [SEED]

LEDGERD is the program, which serves a new ledger on a free port meanwhile."""

import contextlib
import http.client
import json
import os
import pathlib
import random
import subprocess
import sys
import tempfile
import threading
import time

HERE = pathlib.Path(__file__).resolve().parent
sys.path.insert(0, str(HERE.parent / "clients"))

from served import KEY, ended, served  # noqa: E402

KILLS, PATIENCE = 20, 60
# It has to be killed behind so many different numbers of transfers, else the trial shows nothing.
PLACES = 5


class Sender(threading.Thread):
    """Sends batches until it is told to end. `accepted` has what the ledger has accepted."""

    def __init__(self, port, seed):
        super().__init__()
        self.connection = http.client.HTTPConnection("127.0.0.1", port, timeout=PATIENCE)
        self.random, self.is_over, self.accepted = random.Random(seed), threading.Event(), []
        self.post("/accounts", [{"id": number, "ledger": 978, "code": 1} for number in "12"])

    def post(self, path, body):
        """The results of a batch."""
        self.connection.request("POST", path, json.dumps(body), {"x-ledger-key": KEY})
        return json.loads(self.connection.getresponse().read())["results"]

    def run(self):
        number = 1000
        while not self.is_over.wait(self.random.uniform(0, 0.02)):
            batch = [{"id": str(number + place), "debit_account_id": "1", "amount": "1",
                      # Now and then an account that is not there: such a transfer is refused.
                      "credit_account_id": self.random.choice("2222229"), "ledger": 978, "code": 1}
                     for place in range(self.random.randint(1, 60))]
            number += len(batch)
            results = self.post("/transfers", batch)
            self.accepted += [event["id"] for event, result in zip(batch, results)
                              if result["result"] == "ok"]


def follower(port, outbox):
    where = {**os.environ, "LEDGER_URL": f"http://127.0.0.1:{port}", "LEDGER_KEY": KEY}
    return ended(subprocess.Popen([sys.executable, HERE / "follow.py", outbox], env=where))


def ids_in(outbox):
    """The transfers of the whole lines of the outbox."""
    lines = outbox.read_bytes().split(b"\n")[:-1] if outbox.exists() else []
    return [each["id"] for line in lines for each in json.loads(line)["transfers"]]


def wait_for(outbox, many):
    """Until the outbox has so many transfers."""
    end = time.monotonic() + PATIENCE
    while len(ids_in(outbox)) < many and time.monotonic() < end:
        time.sleep(0.01)


def kill_often(port, outbox, draw):
    """Kills the follower again and again, sometimes as soon as it begins, and else once it has taken
    something. As often as not a line is left that is cut, as a kill in the middle of its writing
    leaves it. How many transfers it had each time."""
    had = [0]
    for _ in range(KILLS):
        with follower(port, outbox):
            if draw.random() < 0.7:
                wait_for(outbox, had[-1] + 1)
            time.sleep(draw.uniform(0, 0.4))
        had.append(len(ids_in(outbox)))
        if draw.random() < 0.5:
            with open(outbox, "ab") as opened:
                opened.write(b'{"number": 17, "transfers": [{"id": "1"'[:draw.randint(1, 40)])
    return had


def follow_to(port, outbox, many):
    """Follows until the outbox has so many transfers, and a little longer."""
    with follower(port, outbox):
        wait_for(outbox, many)
        time.sleep(0.5)


def main():
    program, seed = os.path.abspath(sys.argv[1]), int((sys.argv[2:] or [time.time_ns()])[0])
    with tempfile.TemporaryDirectory() as folder, contextlib.ExitStack() as stack:
        port = stack.enter_context(served(program, folder))
        outbox = pathlib.Path(folder) / "outbox"
        sender = Sender(port, seed)
        sender.start()
        had = kill_often(port, outbox, random.Random(seed))
        sender.is_over.set()
        sender.join()
        follow_to(port, outbox, len(sender.accepted))
        if ids_in(outbox) != sender.accepted:
            sys.exit(f"seed {seed}: {len(sender.accepted)} transfers were accepted, and the outbox "
                     f"has {len(ids_in(outbox))}, {len(set(ids_in(outbox)))} different ones")
        if len(set(had)) < PLACES:
            sys.exit(f"seed {seed}: it was killed at fewer than {PLACES} places: {had}")
    print(f"{len(sender.accepted)} transfers, and {KILLS} times killed between: each is in the "
          "outbox once, in order")


if __name__ == "__main__":
    main()
