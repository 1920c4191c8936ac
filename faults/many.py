"""Tenants at once, each beside its plain ledger and each with a temper of its own, while an operator
goes about his work."""

import random
import threading
import time

from connection import Connection, Surprise
from drawn import Requests, moves
from indexed import Indexed
from limits import PAUSES, drip, is_let_go, page_asked
from operators import Operator
from runs import House
from service import PATIENCE, body_of, message, want

# The ids of tenants that are clients here come behind those that a house draws.
FIRST = 10**9
TWENTY, HUNDREDS = 20, 200
# The tempers of twenty clients, and what each of them does how often. The last three take seconds
# for it, so they do little.
TEMPERS = (*("kept",) * 6, *("new",) * 5, *("leaving",) * 4, *("idle",) * 2, *("slow",) * 2, "deaf")
STEPS = {"kept": {"whole": 85, "doubled": 15}, "new": {"whole": 1},
         "leaving": {"whole": 2, "cut": 1, "unread": 1, "gone": 1},
         "idle": {"quiet": 1}, "slow": {"dripped": 1, "too_slow": 1}, "deaf": {"deaf": 1}}
SELDOM = {"idle", "slow", "deaf"}
# So often each does it, and those who need long once.
STEPS_EACH = 60
# Seconds that a message has, that a reply has, and for which a client may be silent: of two hundred
# one may have to wait for its turn in this process.
MESSAGE, REPLY, IDLE = 8, 4, 12
OPTIONS = ("--message", str(MESSAGE), "--reply", str(REPLY), "--idle", str(IDLE))
# So many pages, of so many transfers each, are asked for by who reads none of them.
PAGES, SHOWN = 150, 300


def many(trial):
    """Twenty clients at once, or two hundred, until each has done its part. The plain ledgers of two
    hundred have an index, since they are compared twice."""
    tenants = HUNDREDS if trial.is_long else TWENTY
    house = House(trial.fresh(), 0, OPTIONS)
    for place in range(tenants):
        house.add(f"desk-{place}")
        house.desks[place].ledger = Indexed() if trial.is_long else house.desks[place].ledger
    house.begin()
    clients = [Client(house, place, trial.random.getrandbits(64)) for place in range(tenants)]
    threads = [threading.Thread(target=client.run, args=(STEPS_EACH,)) for client in clients]
    for thread in threads:
        thread.start()
    operator = Operator(house, trial.random.getrandbits(64), 5)
    while any(thread.is_alive() for thread in threads):
        operator.act([client for client in clients if client.temper not in SELDOM])
        trial.progress(f"{sum(client.done for client in clients)} batches")
        time.sleep(0.1)
    for client in clients:
        if client.surprise:
            raise Surprise(f"{client.temper}: {client.surprise}") from client.surprise
    want(not house.service.told(), f"standard error: {house.service.told()}")
    differing = [desk.ledger.differs(trial.random) for desk in house.desks
                 if isinstance(desk.ledger, Indexed)]
    want(not any(differing), f"indices of plain ledgers have not {differing}")
    house.compare()
    house.open_again()
    house.compare()
    house.stop()
    done, broken = sum(each.done for each in clients), sum(each.broken for each in clients)
    beside = ", ".join(f"{name} {times}" for name, times in operator.counts.items() if times)
    return (f"{done} batches of {tenants} clients at once, {broken} broken off, each as the plain "
            f"lists', beside an operator ({beside}); no good client waited for more than "
            f"{longest(clients):.2f} s")


def longest(clients):
    """The seconds of the longest wait of those who keep the rules."""
    return max(each.desk.longest for each in clients if each.temper in ("kept", "new", "idle"))


class Client:
    """A tenant of the house, with draws of its own, in a thread of its own. Its lock is held while
    it is at something."""

    def __init__(self, house, place, seed):
        self.house, self.desk, self.random = house, house.desks[place], random.Random(seed)
        self.requests = Requests(self.random, FIRST + 10**6 * place)
        self.temper, self.lock = TEMPERS[place % len(TEMPERS)], threading.Lock()
        self.done, self.broken, self.surprise = 0, 0, None

    def run(self, steps):
        weighted = STEPS[self.temper]
        try:
            for _ in range(1 if self.temper in SELDOM else steps):
                step = self.random.choices(list(weighted), list(weighted.values()))[0]
                with self.lock:
                    if self.temper == "new" or not self.desk.connection:
                        self.desk.connect(self.house.service)
                    getattr(self, step)(self.requests.marked())
                self.done += 1
        except Exception as surprise:
            self.surprise = surprise

    def message(self, events):
        return message("POST", "/transfers", self.desk.key, body_of(events))

    def connect_again(self):
        self.desk.connect(self.house.service)
        self.broken += 1

    # In the rules.

    def whole(self, events):
        want(self.desk.batch(events), "unavailable, with all at hand")

    def doubled(self, events):
        """Two messages in one piece: the second is the first once more."""
        desk = self.desk
        desk.asked |= {event["id"] for event in events}
        desk.connection.send(self.message(events) * 2)
        for _ in range(2):
            desk.judge(events, True, desk.answer("POST", "/transfers"))

    def quiet(self, events):
        """A batch behind a silence that is short enough, and then one that is too long."""
        time.sleep(IDLE / 6)
        self.whole(events)
        start = time.monotonic()
        want(self.desk.connection.is_over(), "a byte, where a silent client should be let go")
        took = time.monotonic() - start
        want(took >= IDLE - 1, f"let go after {took:.1f} s of silence")
        self.connect_again()

    def dripped(self, events):
        """A message in pieces, within its time."""
        whole = self.message(events)
        self.desk.asked |= {event["id"] for event in events}
        for place in range(4):
            self.desk.connection.send(whole[place:place + 1])
            time.sleep(MESSAGE / 16)
        self.desk.connection.send(whole[4:])
        self.desk.judge(events, True, self.desk.answer("POST", "/transfers"))

    # Not in the rules, or gone.

    def too_slow(self, events):
        """A byte a second: it is let go, and nothing is done."""
        drip(self.desk.connection, self.message(events))
        self.connect_again()
        want(not self.desk.settle(events), "done, of a message that was not whole")

    def deaf(self, events):
        """Pages upon pages, of which none is read in time, and a batch behind them: it is let go
        before that one is answered, and nothing is done of it."""
        self.whole(moves(self.requests.identity() + 10**12, SHOWN))
        self.requests.next += SHOWN
        want(any(self.is_deaf(events if pause == PAUSES[0] else self.requests.marked(), pause)
                 for pause in PAUSES), "a client that reads nothing is kept")

    def is_deaf(self, events, pause):
        """Whether it was let go, behind so many seconds more than a reply has."""
        self.desk.leave()
        self.desk.connection = Connection(self.house.service.port, room=1 << 16)
        self.desk.asked |= {event["id"] for event in events}
        asked = page_asked(self.desk.key) * PAGES + self.message(events)
        was_let_go = is_let_go(self.desk.connection, asked, REPLY + pause, PAGES * SHOWN * 200)
        self.connect_again()
        done = self.desk.settle(events)
        want(not done or not was_let_go, "done, behind pages that were never read")
        return was_let_go

    def cut(self, events):
        """A beginning of a message: nothing is done of it."""
        whole = self.message(events)
        self.desk.connection.send(whole[:self.random.randrange(1, len(whole))])
        self.connect_again()
        want(not self.desk.settle(events), "done, of a message that was cut")

    def unread(self, events):
        """A message whose reply is read in part: it is done."""
        want(self.begin_of_reply(events), "no byte of a reply")
        self.connect_again()
        want(self.desk.settle(events), "not done, and its reply has begun")

    def begin_of_reply(self, events):
        """Sends a message, and reads what comes first of its reply."""
        self.desk.asked |= {event["id"] for event in events}
        self.desk.connection.send(self.message(events))
        self.desk.connection.more()
        return self.desk.connection.read

    def gone(self, events):
        """Sends a message and goes at once: it is done all the same, now or soon."""
        self.desk.asked |= {event["id"] for event in events}
        self.desk.connection.send(self.message(events))
        self.connect_again()
        end = time.monotonic() + PATIENCE
        while not self.desk.settle(events):
            want(time.monotonic() < end, "not done for minutes, and its sender has gone")
            time.sleep(0.05)
