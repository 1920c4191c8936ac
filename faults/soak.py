"""All of it at once, for as long as is told: some thirty tenants, each beside a plain ledger of its
own, and clients of every other kind, while the service is killed, its disk fails, its memory is
refused and its clock steps. Ends with 1 at the first surprise.

    python3 faults/soak.py LEDGERD --minutes N [--seed S] [--folder FOLDER]

LEDGERD is the program. It takes two cores. The seed is told, and can be given again; what is drawn
follows from it, and when things come does not. docs/TESTING.md tells what has to hold."""

import argparse
import collections
import os
import resource
import secrets
import shutil
import threading
import time

import kinds
from connection import Surprise
from control import Control
from indexed import Indexed
from limits import fill
from operators import Operator
from runs import House
from service import PATIENCE, check, look_at, want
from stored import look_at_rows
from trial import Trial
from weather import Weather

# Two tenants are for those who are slow or silent; their ledgers are no one client's.
GUESTS, TENANTS, FOLLOWED = 2, 30, 6
# So many more the operator adds while it is served, and he asks so often from one thing that befalls
# the service to the next.
ADDED, ASKED = 8, 10
# The transfers that a tenant may have at first, and those that come to them in an hour.
FIRST, HOURLY = 100, 4000
# Seconds from one thing that befalls the service to the next in the mean, and the longest of those
# that go on by themselves, which is longer than a message may take. The same of a sample.
EVERY, LONGEST = 30, 12
EVERY_OF_SAMPLE, LONGEST_OF_SAMPLE, SAMPLE = 2, 2, 20
# Of the service, where all stand still: the most descriptors, and bytes of memory at all and for a
# transfer. And the most that it grows by from one start to its end, where it may have been opened
# again.
DESCRIPTORS, MEMORY, MEMORY_EACH, GROWN, GROWN_EACH = 64, 180 << 20, 3000, 64 << 20, 1500


class Soak:
    """A house of tenants, all its clients and what befalls it."""

    def __init__(self, trial, seconds, every, longest):
        self.trial, self.seconds, self.every = trial, seconds, every
        self.house = House(trial.fresh(), 0, ("--idle", str(kinds.IDLE)))
        for place in range(GUESTS + TENANTS):
            self.house.add(f"desk-{place}")
        self.control = Control(trial.folder)
        self.operator = Operator(self.house, trial.random.getrandbits(64), ADDED,
                                 lambda: self.weather.now())
        self.weather = Weather(self.house, self.control, longest, self.operator.alone)
        self.operating = kinds.Operating(self, self.operator, every / ASKED)
        self.asked, self.life, self.born, self.grown = 0, 0, 0, 0
        self.first, self.last, self.rows = 0, 0, 0
        self.tenants, self.followers, self.others = [], [], []
        self.seen = collections.Counter()
        self.is_over, self.goes_on = threading.Event(), threading.Event()
        self.begun = time.monotonic()

    def begin(self):
        """Opens all accounts, and lets all clients come."""
        self.house.start(self.control.env)
        self.weather.up.set()
        self.goes_on.set()
        for place in range(GUESTS + TENANTS):
            self.open(place)
        fill(self.house)
        self.house.desks[1].leave()
        self.begun = time.monotonic()
        for place in range(GUESTS, GUESTS + TENANTS):
            self.join(place)
        for tenant in self.tenants[:FOLLOWED]:
            self.followers.append(kinds.Following(self, tenant, self.trial.random.getrandbits(64)))
            self.followers[-1].start()
        for act in kinds.OTHERS:
            self.others.append(kinds.Beside(self, act))
            self.others[-1].start()
        self.operating.start()

    def open(self, place):
        """Opens a tenant's accounts."""
        desk = self.house.take_turn(place)
        desk.ledger = Indexed()
        want(desk.batch(self.house.requests[place].accounts(), False), "unavailable at first")
        desk.leave()

    def join(self, place):
        """A tenant that asks from now on."""
        self.tenants.append(kinds.Tenant(self, place, self.trial.random.getrandbits(64)))
        self.tenants[-1].start()

    def allowed(self):
        """The transfers that a tenant may have by now."""
        return FIRST + HOURLY * (time.monotonic() - self.begun) / 3600

    def play(self):
        """All of it, for its time."""
        self.until_well()
        due = time.monotonic() + self.every
        while time.monotonic() < self.begun + self.seconds:
            time.sleep(0.1)
            self.look()
            if time.monotonic() > due:
                self.befall()
                due = time.monotonic() + self.every * self.trial.random.uniform(0.6, 1.4)
        self.befall("killed")
        self.compare(is_last=True)
        self.house.service.kill()
        check(self.house.program, self.house.db)
        self.rows = look_at_rows(self.house, self.compared(), self.trial.random)
        self.weather.look_at_refusals()

    def look(self):
        """Raises what surprised a client, and tells how far all is."""
        served = self.house.service.served
        want(served.poll() is None, f"serve ended: {served.poll()} {self.house.service.told()}")
        for player in (*self.tenants, *self.followers, *self.others, self.operating):
            if player.surprise:
                raise Surprise(f"{player.name}: {player.surprise}") from player.surprise
        self.trial.progress(self.line())

    def befall(self, kind=None):
        """Something befalls the service, and all are well behind it. With the fifth stop they are
        compared. Tenants that were added join them."""
        self.grown = max(self.grown, self.house.service.memory() - self.born)
        stops = self.weather.stops
        self.weather.befall(kind)
        self.until_well()
        if self.weather.stops != stops and self.weather.is_fifth():
            self.compare()
        with self.operator.alone:
            added = range(GUESTS + len(self.tenants), len(self.house.desks))
        for place in added:
            self.open(place)
            self.join(place)

    def until_well(self):
        """Until each client that asks was answered, from now on."""
        self.asked += 1
        end = time.monotonic() + 4 * PATIENCE
        while any(each.heard != self.asked for each in (*self.tenants, *self.followers)):
            self.look()
            want(time.monotonic() < end, f"not well behind {self.weather.kind}")
            time.sleep(0.02)
        self.weather.kind = None
        self.weather.look_at_lines()
        if self.life != self.house.openings:
            self.life, self.born = self.house.openings, self.house.service.memory()
            self.first = self.first or self.born

    def compare(self, is_last=False):
        """Compares all tenants while those who ask stand still, and what the service takes. For the
        last time all is over then."""
        self.goes_on.clear()
        while not all(each.is_still for each in (*self.tenants, *self.followers, self.operating)):
            self.look()
            time.sleep(0.02)
        for desk in self.compared():
            # Each on a connection of its own: before it the plain ledger may take long.
            for request, reply in kinds.all_of(desk):
                desk.connect(self.house.service)
                look_at(request, desk.ask(*request), reply)
            desk.leave()
        for each in self.followers:
            each.follower.take_all(self.house)
            each.desk.leave()
        tenant = self.trial.random.choice(self.tenants)
        differs = tenant.desk.ledger.differs(self.trial.random)
        want(not differs, f"the index of a plain ledger has not {differs}")
        self.measure()
        self.seen["compared"] += 1
        if is_last:
            self.is_over.set()
        self.goes_on.set()

    def compared(self):
        """The tenants whose plain ledgers know all."""
        return [self.house.desks[1], *(each.desk for each in self.tenants)]

    def measure(self):
        """Memory and descriptors of the service, where all stand still."""
        self.last = memory = self.house.service.memory()
        stored = self.stored()
        descriptors = self.house.service.descriptors()
        want(memory < MEMORY + MEMORY_EACH * stored, f"{memory} bytes, with {stored} transfers")
        want(descriptors < DESCRIPTORS, f"{descriptors} descriptors")
        for name, much in (("memory", memory), ("descriptors", descriptors)):
            self.seen[name] = max(self.seen[name], much)
        want(self.grown < GROWN + GROWN_EACH * stored,
             f"grown by {self.grown} bytes from a start to its end, with {stored} transfers")

    # What is told.

    def stored(self):
        return sum(len(desk.ledger.transfers) for desk in self.house.desks)

    def counted(self):
        """What all clients have counted."""
        players = (*self.tenants, *self.followers, *self.others)
        return sum((each.counts.copy() for each in players), collections.Counter())

    def line(self):
        counted, minutes = self.counted(), (time.monotonic() - self.begun) / 60
        return (f"{minutes:.1f} min: {messages(counted):,} messages, {counted['events']:,} events, "
                f"{self.stored():,} transfers stored, {self.weather.stops} stops, "
                f"{self.weather.turns - self.weather.stops} other faults, "
                f"{counted['unanswered']:,} times unanswered, "
                f"{self.house.service.memory() >> 20} MB")

    def figures(self):
        counted = self.counted()
        waits = [f"{max(each.longest[where] for each in self.tenants):.2f} s {where}"
                 for where in ("well", "behind a fault")]
        told = ", ".join(f"{name} {many:,}" for name, many in sorted(counted.items())
                         if name not in NOT_MESSAGES)
        befallen = ", ".join(f"{name} {many}" for name, many in sorted(self.weather.counts.items()))
        asked = ", ".join(f"{name} {many}" for name, many in self.operator.counts.items())
        clients = resource.getrusage(resource.RUSAGE_SELF).ru_maxrss >> 10
        return (f"{self.seconds / 60:.1f} min: {messages(counted):,} messages ({told}), "
                f"{counted['events']:,} events, {self.stored():,} transfers stored; "
                f"{self.weather.stops} stops ({befallen}); the operator's commands {asked}; "
                f"{counted['unanswered']:,} times "
                f"unanswered, of these batches {counted['found done']:,} found done and "
                f"{counted['found not done']:,} not; {self.seen['compared']} times all compared, "
                f"and {self.rows:,} rows of the file; "
                f"the longest wait {', '.join(waits)}; {self.first >> 20} MB at first, "
                f"{self.last >> 20} at the end, {self.seen['memory'] >> 20} at most, grown by "
                f"{self.grown >> 20} at most from a start to its end, {self.seen['descriptors']} "
                f"descriptors; the clients {clients} MB, the ledger "
                f"{os.path.getsize(self.house.db) >> 20} MB")


NOT_MESSAGES = {"events", "unanswered", "found done", "found not done"}


def messages(counted):
    return sum(many for name, many in counted.items() if name not in NOT_MESSAGES)


def soak(trial, seconds, every, longest):
    """All of it for so many seconds, on two cores of those that there are."""
    cores = os.sched_getaffinity(0)
    os.sched_setaffinity(0, sorted(cores)[:2])
    try:
        it = Soak(trial, seconds, every, longest)
        it.begin()
        it.play()
        return it.figures()
    finally:
        os.sched_setaffinity(0, cores)


def sample(trial):
    """A short one, as one of the trials."""
    seconds = 180 if trial.is_long else SAMPLE
    return soak(trial, seconds, EVERY_OF_SAMPLE, LONGEST_OF_SAMPLE)


def main():
    parser = argparse.ArgumentParser(description=__doc__.splitlines()[0])
    parser.add_argument("ledgerd")
    parser.add_argument("--minutes", type=float, default=60)
    parser.add_argument("--seed", type=int, default=secrets.randbits(32))
    parser.add_argument("--folder")
    options = parser.parse_args()
    print(f"seed {options.seed}, {options.minutes:g} minutes", flush=True)
    trial = Trial("soak", options, pause=60)
    print(trial.tried(lambda trial: soak(trial, 60 * options.minutes, EVERY, LONGEST),
                      f"{options.ledgerd} --minutes {options.minutes:g} --seed {options.seed}"))
    shutil.rmtree(trial.parent)


if __name__ == "__main__":
    main()
