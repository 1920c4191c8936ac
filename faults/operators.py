"""An operator of a ledger that is served, while its clients go on: he asks for the status, the list
of tenants and statements, takes copies, gives tenants other keys and adds tenants."""

import random
import re
import threading
import time

from asking import digest_of, look_at_old_key, told_by
from connection import Lost, Surprise
from copied import OUTPUT, PARTS, left, look_at_files
from copies import remove
from counted import COUNTS
from service import PATIENCE, UNAVAILABLE, UNREADABLE, check, want
from stops import IN_USE, NOT_SERVED

# How often of a hundred times he does each.
ACTS = {"status": 30, "tenants": 20, "statement": 15, "change": 20, "copy": 10, "add": 5}
# Of an account with more entries he asks for the last ones: the plain ledger sums anew for each.
LINES = 100
# What a command may tell where something befalls the service: memory or the disk has failed, in the
# service or for the copy; it is not there, or the file is another's.
FAULTS = (UNAVAILABLE, UNREADABLE, NOT_SERVED, IN_USE, OUTPUT)


class Operator:
    """He asks by commands. `weather` tells what befalls the service, or None, and how often something
    has so far: while nothing does each command is done. `alone` is held while a command runs: it
    may have the file for itself, where the service has just been killed."""

    def __init__(self, house, seed, most, weather=lambda: (None, 0)):
        """So many tenants are added at most."""
        self.house, self.random, self.left = house, random.Random(seed), most
        self.weather = weather
        self.alone, self.counts = threading.Lock(), dict.fromkeys((*ACTS, "refused"), 0)

    def act(self, clients):
        """Something that is drawn; a key or a statement is one of these clients', whose lock is held
        meanwhile."""
        name = self.random.choices(list(ACTS), list(ACTS.values()))[0]
        if name in ("change", "statement"):
            client = self.random.choice(clients)
            with client.lock:
                getattr(self, name)(self.house.desks.index(client.desk))
        elif name != "add" or self.left:
            getattr(self, name)()
        self.counts[name] += name != "add"

    def told(self, *words):
        """What a command tells that is done, or None. It is not only where something goes on."""
        before = self.weather()
        with self.alone:
            told = told_by(self.house, *words)
        if told[0] == 0 and not told[2]:
            return told
        fault = (told[0], "" if words[0] == "statement" else told[1], told[2])
        want(self.was_ill(before) and fault in FAULTS, f"{words[0]}, {self.weather()}: {told}")
        self.counts["refused"] += 1
        return None

    def was_ill(self, before):
        """Whether something has befallen the service since, or did so then."""
        return before[0] or self.weather() != before

    def key(self):
        return f"{self.random.getrandbits(256):064x}"

    def status(self):
        told = self.told("status")
        rows = told and re.findall(r"^([a-z0-9_]+) ([0-9]+)$", told[1], re.M)
        want(not told or [name for name, _ in rows] == COUNTS, f"status: {told}")

    def listed(self):
        """Each tenant's digest, by name; None where it was not told."""
        told = self.told("tenants")
        return told and dict(row.split(",")[:2] for row in told[1].splitlines()[1:])

    def tenants(self):
        expected = dict(zip(self.house.names, [digest_of(desk.key) for desk in self.house.desks]))
        listed = self.listed()
        want(not listed or expected.keys() <= listed.keys(), f"tenants: {listed}")

    def statement(self, place):
        """An account's entries, or the last of them, are the plain ledger's."""
        ledger, name = self.house.desks[place].ledger, self.house.names[place]
        number = self.random.choice(list(ledger.accounts))
        entries = ledger.entries(number)
        form = ("--from", str(entries[-LINES]["timestamp"])) if len(entries) > LINES else ()
        lines = [ledger.line(number, each) for each in entries[-LINES:]]
        told = self.told("statement", "--tenant", name, "--account", str(number), *form)
        want(not told or told[1].splitlines()[1:] == lines, f"{name} {number} {form}: {told}")

    def sure(self, name):
        """The digest of a tenant, once it is told; None where there is none."""
        end = time.monotonic() + PATIENCE
        while (listed := self.listed()) is None:
            want(time.monotonic() < end, "no list of tenants for minutes")
            time.sleep(0.1)
        return listed.get(name)

    def copy(self):
        """It is ok; or nothing but parts of it are there, or it is whole and was not told."""
        copy = f"{self.house.db}-taken"
        told = self.told("copy", "--to", copy)
        if told:
            look_at_files(told, copy)
        there = left(copy)
        want(told or there <= PARTS or there == {"", "-wal"}, f"of a copy there are {there}")
        if there == {"", "-wal"}:
            check(self.house.program, copy)
        remove(copy)

    def change(self, place):
        """The tenant's key is the new one from then on, or where a fault was told the old one."""
        house, new = self.house, self.key()
        desk, name, old = house.desks[place], house.names[place], house.desks[place].key
        told = self.told("tenant-key", "--name", name, "--key", new)
        want(told is None or told[1] == f"changed {name}\n", f"tenant-key: {told}")
        digest = digest_of(new) if told else self.sure(name)
        want(digest in (digest_of(old), digest_of(new)), f"the digest of {name}: {digest}")
        if digest == digest_of(new):
            desk.key = new
            desk.leave()
            self.look_at_old(old)

    def look_at_old(self, old):
        """It is nobody's, where nothing befalls the service."""
        before = self.weather()
        try:
            look_at_old_key(self.house, old)
        except (Surprise, Lost, OSError):
            if not self.was_ill(before):
                raise

    def add(self):
        """A tenant more, with no account yet; or where a fault was told none, or the same."""
        house, key = self.house, self.key()
        name = f"added-{len(house.names)}-{self.left}"
        told = self.told("tenant-add", "--name", name, "--key", key)
        want(told is None or told[1] == f"added {name}\n", f"tenant-add: {told}")
        digest = digest_of(key) if told else self.sure(name)
        want(digest in (None, digest_of(key)), f"the digest of {name}: {digest}")
        self.left -= 1
        if digest:
            with self.alone:
                house.take_in(name, key)
            self.counts["add"] += 1
