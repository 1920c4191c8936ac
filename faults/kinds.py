"""Clients of each kind that are there at once in a soak, each in a thread of its own: tenants
beside their plain ledgers, programs that follow them, and those that are slow, silent or do not
read."""

import collections
import itertools
import random
import threading
import time
from functools import partial

import limits
import pages
import queries
from connection import Connection, Lost, Surprise
from drawn import account
from many import Client
from model import HISTORY
from service import PATIENCE, Desk, look_at, lookup, message, newest, want

# Seconds: for which a client may be silent, for which one keeps its connection unused, and between
# two messages of a tenant in the mean.
IDLE, KEPT, PAUSE = 15, 5, 0.1
# So many are silent at once, and so many accounts a tenant opens at most.
SILENT, ACCOUNTS = 20, 200
# What a tenant does, and how often of a hundred times.
STEPS = {"whole": 60, "ahead": 6, "cut": 3, "unread": 3, "gone": 2, "read": 24, "opened": 2}
# Of these, those behind which it has to be found done.
UNHEARD = {"unread", "gone"}
# The most events of a batch, and how often.
SIZES = {2: 20, 4: 20, 12: 30, 100: 4, 1000: 1}
# A statement is asked for of accounts with no more entries: the plain one sums anew for each line.
SHORT_STATEMENT, LONG_STATEMENT = 100, 600
DONE = b"HTTP/1.1 200"
HEALTH, WELL = b"GET /health HTTP/1.1\r\n\r\n", ("200 OK", b'{"serving":true}')


def drawn(draw, weighted):
    return draw.choices(list(weighted), list(weighted.values()))[0]


class Player:
    """A client that goes on until all is over, and stands still when it is told to. `heard` is the
    last time that it was asked to be well, and was."""

    def __init__(self, soak, name):
        self.soak, self.house, self.weather, self.name = soak, soak.house, soak.weather, name
        self.counts, self.surprise = collections.Counter(), None
        self.heard, self.is_still = 0, False

    def start(self):
        threading.Thread(target=self.play, daemon=True).start()

    def play(self):
        try:
            while not self.soak.is_over.is_set():
                if self.soak.goes_on.is_set():
                    self.step()
                    continue
                self.is_still = True
                self.soak.goes_on.wait()
                self.is_still = False
        except Exception as surprise:
            self.surprise = surprise

    # For those that ask by a desk of their own.

    def connect(self):
        """The connection that there is, or a new one where that was not used for long."""
        want(self.weather.up.wait(PATIENCE), "not started again")
        if self.desk.connection and time.monotonic() - self.used > KEPT:
            self.desk.leave()
        if not self.desk.connection:
            self.desk.connect(self.house.service)
        self.used = time.monotonic()

    def until_answered(self, act):
        """Acts again and again, until no connection is lost by it."""
        end = time.monotonic() + 3 * PATIENCE
        while True:
            try:
                self.connect()
                return act()
            except (Lost, OSError) as error:
                want(time.monotonic() < end, f"no answer for minutes: {error}")
                self.desk.leave()
                time.sleep(0.05)

    def be_well(self):
        """Says that it is answered, where it is asked."""
        asked = self.soak.asked
        if self.heard != asked:
            clock = int(self.until_answered(self.desk.until_well)["clock"])
            self.heard = asked
            return clock
        return None

    def unanswered(self, what, error="", begun=None):
        """What goes on, where something was not answered: something has to. Else it is told why it
        was not, and how long ago it was begun."""
        kind = self.weather.kind
        ago = f" ({error!r}, {time.monotonic() - begun:.1f} s later)" if begun is not None else ""
        want(kind, f"{what}: not answered, with all at hand{ago}")
        self.counts["unanswered"] += 1
        return kind


class Tenant(Player, Client):
    """A tenant. Some keep their connection, others take a new one for each message."""

    def __init__(self, soak, place, seed):
        Player.__init__(self, soak, f"desk-{place}")
        Client.__init__(self, soak.house, place, seed)
        self.is_kept, self.used, self.begun = place % 3 > 0, 0.0, b""
        self.longest = {"well": 0.0, "behind a fault": 0.0}

    def step(self):
        with self.lock:
            self.do_one()
        time.sleep(self.random.expovariate(1 / PAUSE))

    def do_one(self):
        clock, kept = self.be_well(), self.desk.ledger.clock
        want(clock in (None, kept), f"the clock is {clock}, not {kept}, behind {self.weather.kind}")
        name = drawn(self.random, STEPS)
        if not self.is_kept:
            self.desk.leave()
        if name == "opened":
            self.keep(self.opened(), False)
        elif name == "read":
            self.once(name, [])
        else:
            self.keep(self.batch(name in UNHEARD), True, name)

    # What is sent.

    def batch(self, is_unheard):
        """A new batch, or where it has as much as it may have by now a batch of retries. These leave
        nothing, so where no reply is heard to the end they come behind a transfer that is accepted."""
        ledger = self.desk.ledger
        if len(ledger.transfers) < self.soak.allowed() or not self.requests.sent:
            return self.requests.marked(drawn(self.random, SIZES))
        again = [self.requests.again() for _ in range(self.random.randint(1, 6))]
        mark = self.requests.mark() if is_unheard else []
        return mark + [each for each in again
                       if each["id"] in ledger.transfers or each["id"] in ledger.failed]

    def opened(self):
        """Some accounts, of which some may be there."""
        last = max(self.desk.ledger.accounts)
        return [account(min(9 + self.random.randrange(3) + last, ACCOUNTS))
                for _ in range(self.random.randint(1, 3))]

    def keep(self, events, transfers, name="whole"):
        """Sends a batch until it is answered, always the same."""
        begun, turns, kind = time.monotonic(), self.weather.turns, self.weather.kind
        while not self.once(name, events, transfers):
            name = "whole"
        is_well = not kind and turns == self.weather.turns
        where = "well" if is_well else "behind a fault"
        if name == "whole":
            self.longest[where] = max(self.longest[where], time.monotonic() - begun)

    def once(self, name, events, transfers=True):
        """Whether it was answered, or there is nothing to ask again. Else the plain ledger learns
        what has become of it."""
        self.begun, begun, lost = b"", time.monotonic(), None
        self.counts[name if transfers else "opened"] += 1
        self.counts["events"] += len(events)
        try:
            self.connect()
            if self.whole(events, transfers) if name == "whole" else getattr(self, name)(events):
                return True
        except (Lost, OSError) as error:
            lost = error
            self.desk.leave()
        kind = self.unanswered(name, lost, begun)
        if name == "read":
            return True
        done = self.settled(events, transfers)
        may_be_done = name != "cut" and kind != "memory"
        want(may_be_done or not done, f"{name}, {kind}: not answered, and done")
        want(done or not self.begun.startswith(DONE), f"{name}, {kind}: its reply begun, not done")
        self.counts["found done" if done else "found not done"] += 1
        return False

    def settled(self, events, transfers=True):
        """Whether it is done, which the plain ledger learns with it."""
        return self.until_answered(lambda: self.desk.settle(events, transfers))

    # How it is sent.

    def whole(self, events, transfers=True):
        return self.desk.batch(events, transfers)

    def ahead(self, events):
        """A batch and a look-up of it, in one piece."""
        desk, ids = self.desk, [event["id"] for event in events]
        desk.asked |= set(ids)
        asked = lookup("/transfers/lookup", ids)
        desk.connection.send(self.message(events) + message(*asked[:2], desk.key, asked[2]))
        told = desk.answer("POST", "/transfers")
        if told is None:
            desk.leave()
            return False
        desk.judge(events, True, told)
        told = desk.answer(*asked[:2])
        if told is None:
            self.unanswered("a look-up behind a batch")
        else:
            look_at(asked, told, desk.found(ids))
        return True

    def cut(self, events):
        super().cut(events)
        return True

    def unread(self, events):
        """A message whose reply is read in part, and which is done if that is a good one."""
        self.begun = self.begin_of_reply(events)
        self.desk.leave()
        done, is_good = self.settled(events), self.begun.startswith(DONE)
        want(done or not is_good, "not done, and its reply has begun")
        if not is_good:
            self.unanswered("a message whose reply is read in part")
        return done

    def gone(self, events):
        """Sends a message and goes at once: it is done all the same, but where something befalls
        the service. Then it is looked for some more times, since it may be on its way."""
        turns, is_well = self.weather.turns, not self.weather.kind
        self.desk.asked |= {event["id"] for event in events}
        self.desk.connection.send(self.message(events))
        self.desk.leave()
        end, left = time.monotonic() + PATIENCE, 10
        while left:
            if self.settled(events):
                return True
            if not is_well or turns != self.weather.turns:
                left -= 1
            want(time.monotonic() < end, "not done for minutes, and its sender has gone")
            time.sleep(0.05)
        return False

    # Reads.

    def read(self, _events):
        """Beside others the plain ledger may take longer before a question than a client may be
        silent, so each has a connection that is not old."""
        for request, reply in self.reads():
            self.connect()
            told = self.desk.ask(*request)
            if told is None:
                return False
            look_at(request, told, reply)
        return True

    def reads(self):
        """A read that is drawn, or pages that follow each other, and the plain ledger's replies."""
        desk, ledger, draw = self.desk, self.desk.ledger, self.random.randrange(6)
        if draw == 0 or not ledger.transfers:
            return [desk.accounts()]
        if draw < 3:
            return itertools.islice(pages.walk(ledger, *queries.drawn(self.random, ledger)), 2)
        sent = self.requests.sent
        ids = sorted({each["id"] for each in self.random.sample(sent, min(20, len(sent)))})
        if draw == 3:
            return [(lookup("/transfers/lookup", ids), desk.found(ids))]
        if draw == 4:
            return [(pages.request(pages.HOLDS, ids),
                     partial(pages.reply, ledger, pages.HOLDS, ids))]
        return statements(desk, SHORT_STATEMENT)


def statements(desk, most):
    """The longest statement of no more than so many lines, and the newest balances of an account
    that keeps them."""
    ledger = desk.ledger
    listed = {number: ledger.entries(number) for number in ledger.accounts}
    number = max((number for number, entries in listed.items() if len(entries) <= most),
                 key=lambda number: len(listed[number]), default=None)
    if number:
        yield ("GET", f"/statement/{number}", b""), ledger.statement(number)
    for number, entries in listed.items():
        if ledger.accounts[number]["flags"] & HISTORY:
            last = [ledger.line(number, each) for each in entries[:-11:-1]]
            yield newest(number), [line.split(",") for line in last]


def all_of(desk):
    """What a tenant has, where it is compared: accounts and their balances, all transfers and open
    holds page by page, what became of the last ids, a statement."""
    ledger, ids = desk.ledger, sorted(desk.asked)[-pages.MOST_IDS:]
    yield desk.accounts()
    for path in (pages.ACCOUNTS, pages.TRANSFERS, pages.OPEN):
        yield from pages.walk(ledger, path, {"limit": 1000})
    yield pages.request(pages.HOLDS, ids), partial(pages.reply, ledger, pages.HOLDS, ids)
    yield from statements(desk, LONG_STATEMENT)


class Following(Player):
    """A program that follows a tenant, on a kept connection."""

    def __init__(self, soak, tenant, seed):
        super().__init__(soak, f"a follower of {tenant.name}")
        self.random, self.used, self.tenant = random.Random(seed), 0.0, tenant
        self.desk = Desk(tenant.desk.key)
        self.follower = queries.Follower(self.desk, tenant.desk.ledger)

    def connect(self):
        """As ever. While it was down the tenant's key may have changed."""
        super().connect()
        self.desk.key = self.tenant.desk.key

    def step(self):
        self.be_well()
        self.counts["followed"] += 1
        try:
            self.connect()
            more = self.follower.ask(self.random.choice((1, 7, 100, 1000)))
        except (Lost, OSError):
            self.desk.leave()
            more = None
        if more is None:
            self.unanswered("a page that is followed")
            time.sleep(PAUSE)
        elif not more:
            time.sleep(1)


class Operating(Player):
    """The operator, who changes keys of tenants that nobody follows."""

    def __init__(self, soak, operator, pause):
        super().__init__(soak, "the operator")
        self.operator, self.pause = operator, pause

    def step(self):
        want(self.weather.up.wait(PATIENCE), "not started again")
        self.operator.act(self.soak.tenants[len(self.soak.followers):])
        self.soak.is_over.wait(self.pause)


class Beside(Player):
    """A client that comes out as it does alone, whatever others do, but where something befalls the
    service."""

    def __init__(self, soak, act):
        super().__init__(soak, act.__name__)
        self.act = act

    def step(self):
        turns, kind = self.weather.turns, self.weather.kind
        self.weather.up.wait(PATIENCE)
        try:
            self.act(self.house)
            self.counts[self.name] += 1
        except (Surprise, Lost, OSError):
            if not kind and turns == self.weather.turns:
                raise
        self.soak.is_over.wait(PAUSE)


def silent(house):
    """Clients that say nothing, and one that has said something: all are let go in their time."""
    held = [Connection(house.service.port) for _ in range(SILENT)]
    limits.idle(house, IDLE)
    for each in held:
        limits.ends(each, 0, 1)
        each.close()


def halves(house):
    """The beginning of a message, whose sender goes."""
    connection = Connection(house.service.port)
    whole = message("POST", "/transfers", house.desks[0].key, b" " * 100_000)
    connection.send(whole[:70_000])
    time.sleep(1)
    connection.close()


def healthy(house):
    """Whoever asks for the state, without a key."""
    connection = Connection(house.service.port)
    connection.send(HEALTH)
    told = connection.reply()
    want((told[0], told[2]) == WELL, f"/health: {told}")
    connection.close()


OTHERS = (limits.slow_message, limits.slow_message, limits.unread_replies, silent, halves, healthy)
