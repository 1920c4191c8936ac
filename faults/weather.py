"""What befalls a service while its clients are at it, one thing after the other as the seed draws
them: it is killed, ended or stopped by a signal, its disk fails or has no room, an allocation is
refused, its clock steps. While it is down a tenant is added now and then, and a key is changed."""

import collections
import os
import signal
import threading
import time

from connection import Connection
from control import ALL, DISK, KILL, MEMORY, SENT
from copies import copy, remove
from limits import SHORT, TAKEN
from refused import REFUSALS
from service import PATIENCE, check, message, want

# So often each comes before any comes once more.
TURNS = (*("killed",) * 3, "cut_off", "ended", "stopped", "disk_once", "disk_on", "memory", "clock",
         "full")
# Behind so many stops of the process the file is looked at, and the tenants are compared.
FIFTH = 5
# Of the first so many calls of the disk, or allocations, one is refused; before one of the first so
# many replies the process is killed.
DISK_CALLS, ALLOCATIONS, REPLIES = 300, 5000, 100
# Seconds by which the clock steps, and for which a refusal is waited for.
STEPS, WAIT = (-60, -5, -1, 1, 5, 60), 10
CALLS, MEMORIES = "calls of the disk", "allocations"
FAULTS = {"ledgerd: unavailable", "ledgerd: unreadable"}


class Weather:
    """What befalls the service of a house. `kind` is what goes on, until all clients are well
    behind it; None where all is at hand. `turns` grows as soon as something begins."""

    def __init__(self, house, control, longest, alone):
        """What goes on by itself does for so many seconds at most. While `alone` is held nobody else
        has the file."""
        self.house, self.control, self.random = house, control, house.random
        self.longest, self.alone = longest, alone
        self.kind, self.turns, self.stops, self.behind = None, 0, 0, 0
        self.counts, self.left, self.up = collections.Counter(), [], threading.Event()

    def befall(self, kind=None):
        """The next thing, or one that is told. Its cause is over then."""
        if not self.left:
            self.left = self.random.sample(TURNS, len(TURNS))
        self.turns += 1
        self.kind = kind or self.left.pop()
        getattr(self, self.kind)()
        self.counts[self.kind] += 1

    def go_on(self):
        time.sleep(self.random.uniform(0.5, self.longest))

    # Stops of the process.

    def killed(self):
        self.up.clear()
        self.house.service.kill()
        self.begin_again()

    def cut_off(self):
        """Killed before one of the next replies, which tells of what is kept."""
        self.control.refuse(SENT, self.random.randrange(REPLIES), KILL)
        self.house.service.served.wait(PATIENCE)
        self.up.clear()
        want(self.control.end(SENT), "ended, and not before a reply")
        self.house.service.gone()
        self.begin_again()

    def ended(self):
        """Ended by a signal that a program may hear of."""
        self.up.clear()
        self.house.service.served.send_signal(signal.SIGTERM)
        status = self.house.service.served.wait(PATIENCE)
        want(status == -signal.SIGTERM, f"ended by a signal with {status}")
        self.house.service.gone()
        self.begin_again()

    def begin_again(self):
        self.stops += 1
        with self.alone:
            old = self.look_at_file() if self.is_fifth() else None
            self.house.start(self.control.env)
        if old:
            self.look_at_key(old)
        self.up.set()

    def look_at_file(self):
        """The file and a copy of it are checked, a tenant has another key, and there is one tenant
        more. The old key."""
        house, other = self.house, f"{self.house.db}-copy"
        copy(house.db, other)
        for db in (other, house.db):
            check(house.program, db)
        remove(other)
        old = house.change_key(self.random.randrange(len(house.desks)))
        self.counts["keys changed"] += 1
        house.add(f"more-{self.stops}")
        return old

    def look_at_key(self, old):
        """A key that was changed is nobody's."""
        connection = Connection(self.house.service.port)
        connection.send(message("POST", "/accounts/lookup", old, b"[]"))
        told = connection.reply()[0]
        want(told == REFUSALS["unknown_key"], f"a key that was changed is told {told}")
        connection.close()

    def is_fifth(self):
        return self.stops % FIFTH == 0

    def stopped(self):
        """It stands still for a while."""
        self.house.service.served.send_signal(signal.SIGSTOP)
        self.go_on()
        self.house.service.served.send_signal(signal.SIGCONT)

    # Refusals.

    def disk_once(self):
        self.refuse(DISK, DISK_CALLS)

    def disk_on(self):
        """Calls of the disk fail for a while."""
        self.control.refuse(DISK, self.random.randrange(DISK_CALLS), ALL)
        self.go_on()
        self.counts[CALLS] += self.control.end(DISK)

    def memory(self):
        """Single allocations."""
        for _ in range(5):
            self.refuse(MEMORY, ALLOCATIONS)

    def refuse(self, kind, among):
        """One call of the next so many."""
        self.control.refuse(kind, self.random.randrange(among))
        end = time.monotonic() + WAIT
        while not self.control.refused(kind) and time.monotonic() < end:
            time.sleep(0.01)
        self.counts[MEMORIES if kind == MEMORY else CALLS] += self.control.end(kind)

    def full(self):
        """There is no room for a while."""
        path = self.house.db + self.random.choice(("", "-wal"))
        self.house.service.limit_files(self.random.randrange(os.path.getsize(path) + 40_000))
        self.go_on()
        self.house.service.limit_files(2**62)

    def clock(self):
        self.behind += self.random.choice(STEPS)
        self.control.turn_back(self.behind)

    def look_at_refusals(self):
        """Where calls or allocations were to be refused, some were."""
        for kind, name in (("disk_once", CALLS), ("disk_on", CALLS), ("memory", MEMORIES)):
            want(self.counts[name] or not self.counts[kind], f"{kind}: no {name} were refused")

    def now(self):
        """What goes on, and how often something has begun."""
        return self.kind, self.turns

    # What is told.

    def look_at_lines(self):
        """With all at hand again, the last that standard error told of the disk is that it is well,
        and nothing there is unheard of."""
        told, well = self.house.service.told(), self.house.well()
        want(set(told) <= FAULTS | {well, SHORT, TAKEN}, f"standard error tells {told}")
        disk = [line for line in told if line not in (SHORT, TAKEN)]
        want(not disk or disk[-1] == well, f"well again, and standard error tells {told}")
