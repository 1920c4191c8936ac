"""Runs under load: random requests with stops between, the process killed at a random time, a disk
that is full. After each the file is ok, and all that tenants see is what the plain ledgers say."""

import copy
import os
import threading
import time

import copies
from connection import PATIENCE, Lost
from drawn import Requests
from service import Desk, Service, add_tenant, change_key, check, want
from sums import has_marks

NAMES = ("north-desk", "south-hall", "east-club", "west-pier", "old-mill", "new-port", "high-gate",
         "low-moor")


class House:
    """A file, its tenants and the service over it, with its options."""

    def __init__(self, trial, tenants=2, options=()):
        self.program, self.random, self.options = trial.program, trial.random, options
        self.db = os.path.join(trial.folder, "ledger.db")
        self.desks, self.requests, self.service, self.openings = [], [], None, 0
        self.names = []
        for name in NAMES[:tenants]:
            self.add(name)

    def elsewhere(self, folder):
        """The same tenants of a copy of the file in another folder, which nobody serves yet."""
        other = copy.copy(self)
        other.db, other.service = os.path.join(folder, "ledger.db"), None
        other.desks = [Desk(desk.key) for desk in self.desks]
        copies.copy(self.db, other.db)
        return other

    def key(self):
        return f"{self.random.getrandbits(256):064x}"

    def add(self, name):
        """A tenant more, which is not served yet."""
        key = self.key()
        add_tenant(self.program, self.db, name, key)
        self.take_in(name, key)

    def take_in(self, name, key):
        """A tenant that was added."""
        self.desks.append(Desk(key))
        self.names.append(name)
        self.requests.append(Requests(self.random, 10**6 * len(self.desks)))

    def change_key(self, place):
        """Gives a tenant another key, while nothing is served. The old one."""
        desk, old = self.desks[place], self.desks[place].key
        desk.key = self.key()
        change_key(self.program, self.db, self.names[place], desk.key)
        return old

    def start(self, env=None):
        self.openings += 1
        self.service = Service(self.program, self.db, env, self.options)

    def stop(self):
        for desk in self.desks:
            desk.leave()
        self.service.kill()
        self.service = None

    def open_again(self):
        """Stopped, the file found ok, and started."""
        self.stop()
        check(self.program, self.db)
        self.start()

    def longest(self):
        """The seconds of the longest wait for a reply so far."""
        return max(desk.longest for desk in self.desks)

    def well(self):
        """What standard error tells once a fault of the disk is over."""
        return f"serving {self.db} again"

    def take_turn(self, place):
        """The desk, on a new connection. The others keep theirs."""
        self.desks[place].connect(self.service)
        return self.desks[place]

    def begin(self, env=None):
        """Opens each tenant's accounts."""
        self.start(env)
        for place, requests in enumerate(self.requests):
            want(self.take_turn(place).batch(requests.accounts(), False), "unavailable at first")

    def draw(self, drawn=Requests.batch):
        """A tenant's place, and its next batch."""
        place = self.random.randrange(len(self.desks))
        return place, drawn(self.requests[place])

    def compare(self):
        """Debits equal credits by the plain ledgers' sums, and each tenant sees its own."""
        for desk in self.desks:
            desk.compare(self.service)


def long_runs(trial):
    """Random requests of three tenants, with stops and openings between."""
    rounds, turns, batches = (4, 4, 180) if trial.is_long else (1, 3, 40)
    sent = 0
    for _ in range(rounds):
        house = House(trial.fresh(), 3)
        house.begin()
        for _ in range(turns):
            for _ in range(batches):
                place, events = house.draw()
                want(house.take_turn(place).batch(events), "unavailable, with all at hand")
                sent += len(events)
            house.compare()
            house.open_again()
            house.compare()
        house.stop()
        trial.progress(f"{sent} events")
    return f"{rounds * turns} stops, {sent} events of three tenants, each reply as the plain lists'"


def killed(trial):
    """`kill -9` at a random time under load."""
    times = 50 if trial.is_long else 10
    house = House(trial.fresh())
    house.begin()
    kept = answered = 0
    for turn in range(times):
        lost, told = load_until_killed(house)
        answered += told
        check(house.program, house.db)
        house.start()
        if lost:
            place, events = lost
            kept += house.take_turn(place).settle(events)
        house.compare()
        trial.progress(f"killed {turn + 1} times")
    house.stop()
    return (f"{times} times killed: {answered} answered batches are there, and of those that were "
            f"not answered {kept} whole and the others not at all")


def load_until_killed(house):
    """Sends batches until the process is gone. The batch that was not answered, and how many
    were."""
    served = house.service.served
    killer = threading.Timer(house.random.uniform(0.02, 0.4), served.kill)
    killer.start()
    answered = 0
    try:
        while True:
            lost = house.draw(Requests.marked)
            try:
                house.take_turn(lost[0])
            except OSError:
                return None, answered
            want(house.desks[lost[0]].batch(lost[1]), "unavailable, with all at hand")
            answered += 1
    except Lost:
        return lost, answered
    finally:
        killer.join()
        house.service.gone()
        for desk in house.desks:
            desk.leave()


def sizes(house):
    return max(os.path.getsize(path) for path in (house.db, house.db + "-wal")
               if os.path.exists(path))


def full(trial):
    """No file may grow beyond a limit; then there is room again."""
    refused = found = 0
    for _ in range(8 if trial.is_long else 1):
        house = House(trial.fresh())
        house.begin()
        for _ in range(25):
            was_refused, was_found = fill_once(house)
            refused, found = refused + was_refused, found + was_found
            trial.progress(f"full {refused} times")
        house.stop()
        check(house.program, house.db)
    want(refused > 0, "the disk was never full")
    return (f"{refused} batches refused by a full disk, {found} of them found done by the next "
            f"opening; with room again each was answered")


def fill_once(house):
    """Whether a batch was refused, and whether it was found done nevertheless."""
    house.service.limit_files(house.random.randrange(sizes(house) + 40_000))
    place, events, was_done = fill(house)
    house.service.limit_files(2**62)
    found = False
    if not was_done:
        found = house.take_turn(place).settle(events)
        house.compare()
        want(house.take_turn(place).batch(events), "unavailable, with room again")
    wait_for_marks(house)
    house.compare()
    return not was_done, found


def wait_for_marks(house):
    """Until FILE-sums has the latest clock in a reply, with no batch more."""
    end = time.monotonic() + PATIENCE
    while not has_marks(house):
        want(time.monotonic() < end, "not marked, with room again")
        time.sleep(0.05)


def fill(house):
    """Sends batches until one is refused, or a hundred are done. The tenant and the last batch,
    and whether it was done."""
    for _ in range(100):
        place, events = house.draw(Requests.marked)
        if not house.take_turn(place).batch(events):
            return place, events, False
    return place, events, True
