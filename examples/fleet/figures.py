"""Measures a fleet beside a local disk, in turn.

    python3 examples/fleet/figures.py LEDGERD [SECONDS]

SECONDS is how long each client sends, in each of three rounds; 5 unless told. It prints the rows of
the table in README.md, and the times of takeovers with 100,000 transfers."""

import itertools
import json
import os
import secrets
import statistics
import sys
import threading
import time

import apart

ROUNDS, TWENTY, STORED = 3, 20, 100_000
ACCOUNTS = [{"id": str(number), "ledger": 7, "code": 1} for number in range(1, 101)]


class Sender:
    """A tenant of a post, with a connection that it keeps."""

    def __init__(self, post, name):
        self.post, self.key, self.ids = post, secrets.token_hex(32), itertools.count(1)
        post.command("tenant-add", "--name", name, "--key", self.key)
        self.connection = None

    def connect(self):
        import http.client
        from machines import FRONT
        self.connection = http.client.HTTPConnection(self.post.machine.address(FRONT),
                                                     self.post.instance.port, timeout=120)

    def send(self, path, events):
        self.connection.request("POST", path, json.dumps(events), {"x-ledger-key": self.key})
        reply = self.connection.getresponse()
        told = reply.read()
        if reply.status != 200 or told.count(b'"ok"') != len(events):
            raise RuntimeError(f"{reply.status} {told[:200]}")

    def begin(self):
        self.connect()
        self.send("/accounts", ACCOUNTS)

    def move(self, many):
        """A batch of so many transfers."""
        self.send("/transfers", [event(next(self.ids)) for _ in range(many)])


def event(number):
    debit = number % 100
    credit = (debit + 1 + number // 100 % 99) % 100
    return {"id": str(number), "debit_account_id": str(debit + 1), "amount": "1", "ledger": 7,
            "credit_account_id": str(credit + 1), "code": 1}


def rate(senders, many, seconds):
    """Transfers a second of all senders at once, in batches of so many."""
    counts, end = [0] * len(senders), time.monotonic() + seconds

    def send(place):
        while time.monotonic() < end:
            senders[place].move(many)
            counts[place] += many

    threads = [threading.Thread(target=send, args=(place,)) for place in range(len(senders))]
    begun = time.monotonic()
    for thread in threads:
        thread.start()
    for thread in threads:
        thread.join()
    return sum(counts) / (time.monotonic() - begun)


def local_post(fleet, folder):
    """A service over a local disk, on the first machine."""
    from instances import Instance
    instance = Instance(fleet.program, "local", 8083, fleet.machines[:1], folder)
    instance.db = os.path.join(folder, "local.db")
    post = instance.posts[0]
    post.command("tenant-add", "--name", "probe", "--key", secrets.token_hex(32))
    instance.begin()
    return post


def compare(fleet, folder, seconds):
    """Rates over a local disk, over the volume, and over both instances, in turn."""
    posts = [local_post(fleet, folder), *(each.active() for each in fleet.instances)]
    local, north, south = ([Sender(post, f"sender-{place}") for place in range(TWENTY)]
                           for post in posts)
    for sender in (*local, *north, *south):
        sender.begin()
    cases = {"one client": (1, 1), "twenty clients": (TWENTY, 1), "batches of 1,000": (1, 1000)}
    for name, (clients, many) in cases.items():
        rates = {"local": [], "volume": [], "two": []}
        for _ in range(ROUNDS):
            rates["local"].append(rate(local[:clients], many, seconds))
            rates["volume"].append(rate(north[:clients], many, seconds))
            both = max(1, clients // 2)
            rates["two"].append(rate(north[:both] + south[:both], many, seconds))
        print_row(name, {where: statistics.median(each) for where, each in rates.items()})


def print_row(name, medians):
    local, volume, two = medians.values()
    print(f"| {name} | {local:,.0f} | {volume:,.0f} | {volume / local:.2f} | {two:,.0f} | "
          f"{two / volume:.2f} |", flush=True)


def takeovers(fleet, folder):
    """Seconds until the other one serves a file with 100,000 transfers and more, beside those of an
    audit of its copy on the local disk."""
    from plays import hand_over, taken_over
    instance, copy = fleet.instances[0], os.path.join(folder, "copy.db")
    sender = Sender(instance.active(), "stored")
    sender.begin()
    for _ in range(STORED // 1000):
        sender.move(1000)
    instance.active().command("copy", "--to", copy)
    for _ in range(ROUNDS):
        handed = hand_over(instance)
        post = instance.active()
        post.kill()
        killed = taken_over(instance, post)
        post.begin()
        begun = time.monotonic()
        post.machine.run(fleet.program, "check", "--db", copy)
        print(f"handed over in {handed:.1f} s, killed and taken over in {killed:.1f} s; check of a "
              f"local copy {time.monotonic() - begun:.1f} s", flush=True)


def measure(program, folder, seconds):
    from fleet import Fleet
    fleet = Fleet(program, folder)
    print(f"load {os.getloadavg()[0]:.1f}", flush=True)
    compare(fleet, folder, float(seconds))
    takeovers(fleet, folder)
    print(f"load {os.getloadavg()[0]:.1f}", flush=True)


def main():
    if len(sys.argv) < 2:
        sys.exit(__doc__)
    apart.look_for_all()
    with apart.scratch() as folder:
        status = apart.run(__file__, "apart", folder, os.path.abspath(sys.argv[1]),
                           *(sys.argv[2:] or ["5"]))
    sys.exit(status)


if __name__ == "__main__":
    if sys.argv[1:2] == ["apart"]:
        measure(sys.argv[3], sys.argv[2], sys.argv[4])
    else:
        main()
