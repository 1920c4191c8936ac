"""A tenant with more records than a page looks at: random pages of each kind beside the plain
ledger, and a program that follows the ledger through stops and openings."""

import itertools
import json
import signal

import pages
from connection import Connection
from drawn import LEDGER, account, transfer
from model import MAX, NEWEST_FIRST, PENDING, POST, VOID
from runs import House
from service import body_of, check, clock_in, message, want

RARE, SOME = 2**64 - 1, 3
BATCH, THIRTY = 100, 30


def queries(trial):
    """Batches of two tenants, with a follower of the first; then random pages of it."""
    batches, asked = (65, 600) if trial.is_long else (24, 60)
    house = House(trial.fresh())
    house.begin()
    open_marked(house)
    follower = Follower(house.desks[0], house.desks[0].ledger)
    for turn in range(batches):
        send(house, turn)
        if turn % (batches // 4) == 5:
            house.stop()
            house.start()
        if house.random.random() < 0.4:
            follower.take(house, house.random.choice((1, 7, 100, 1000)))
        trial.progress(f"{turn + 1} batches")
    told = 0
    for _ in range(asked):
        told += ask_pages(house, house.desks[0])
        trial.progress(f"{told} pages")
    told += ask_at_once(house)
    followed = follower.take_all(house)
    told += sum(ask_all(house, desk) for desk in house.desks)
    house.stop()
    check(house.program, house.db)
    return (f"{told} pages of {followed} transfers, each as the plain lists'; a follower had each "
            f"of them once, through {house.openings} openings")


def open_marked(house):
    """More accounts of each tenant, with marks."""
    for place in range(2):
        accounts = [{**account(100 + number), "ledger": LEDGER + number % 2,
                     "code": 10 + number % 3, "user_data_128": number % 5,
                     "user_data_64": RARE if number == 30 else 0, "user_data_32": number % 4}
                    for number in range(40)]
        want(house.take_turn(place).batch(accounts, False), "unavailable, with all at hand")


def send(house, turn):
    """The next batch of the first tenant, and now and then one of the other."""
    want(house.take_turn(0).batch(moved(house.random, turn)), "unavailable, with all at hand")
    if turn % 5 == 0:
        want(house.take_turn(1).batch(house.requests[1].batch()), "unavailable, with all at hand")


def moved(random, turn):
    """Transfers between accounts without a limit: one of a thousand has the rare mark, some are
    holds, and some end a hold that may be there."""
    events = []
    for number in range(turn * BATCH, (turn + 1) * BATCH):
        marks = {"user_data_64": RARE if number % 1000 == 500 else 0,
                 "user_data_128": SOME if number % 7 == 0 else 0, "user_data_32": number % 4}
        event = transfer(10**9 + number, debit_account_id=1 + number % 2,
                         credit_account_id=2 - number % 2, amount=1 + number % 9, ledger=LEDGER,
                         code=1 + number % 5, **marks)
        draw = random.random()
        if draw < 0.2:
            event.update(flags=PENDING, timeout=random.choice((0, 1, 3600)))
        elif draw < 0.3:
            ends = {"pending_id": 10**9 + random.randrange(number + 1)}
            post = random.random() < 0.5
            event = transfer(event["id"], flags=POST if post else VOID, amount=MAX if post else 0,
                             **ends, **marks)
        events.append(event)
    return events


def ask_pages(house, desk):
    """A page that is drawn, and some behind it, each byte for byte. How many."""
    path, asked = drawn(house.random, desk.ledger)
    desk.connect(house.service)
    walked = itertools.islice(pages.walk(desk.ledger, path, asked), 3)
    return sum(ask(desk, *each) for each in walked)


def ask(desk, request, reply):
    """A page, byte for byte: one."""
    told, expected = desk.ask(*request), reply()
    want(told == expected, f"{request}: {told}, not {expected}")
    return 1


def ask_all(house, desk):
    """All that a tenant is asked wherever it is compared. How many."""
    desk.connect(house.service)
    return sum(ask(desk, *each) for each in pages.expected(desk.ledger, sorted(desk.asked)))


def ask_at_once(house):
    """Pages that look at as many records as one may, asked by thirty clients while the process
    stands still, and behind them a batch of the other tenant: each has its answer."""
    desk, other = house.desks
    request, reply = next(pages.walk(desk.ledger, pages.TRANSFERS,
                                     {"user_data_64": RARE, "limit": 1000}))
    held = [Connection(house.service.port) for _ in range(THIRTY)]
    other.connect(house.service)
    events = house.requests[1].batch()
    other.asked |= {event["id"] for event in events}
    house.service.stand_still()
    for each in held:
        each.send(message(*request[:2], desk.key, request[2]))
    other.connection.send(message("POST", "/transfers", other.key, body_of(events)))
    house.service.served.send_signal(signal.SIGCONT)
    other.judge(events, True, other.answer("POST", "/transfers"))
    for each in held:
        told = each.reply()[2]
        desk.ledger.reach(clock_in(told))
        want(told == reply(), f"{request} at once: {told}, not {reply()}")
        each.close()
    return THIRTY


def drawn(random, ledger):
    """A path, and what is asked of it."""
    path = random.choice((pages.ACCOUNTS, pages.TRANSFERS, pages.TRANSFERS, pages.OPEN))
    asked = {"limit": random.choice((1, 2, 7, 100, 999, 1000)),
             "flags": random.choice((0, NEWEST_FIRST))}
    if path != pages.OPEN:
        marks = {"user_data_64": (RARE, RARE, 5), "user_data_128": (SOME, 1), "code": (1, 10, 77),
                 "user_data_32": (1, 3), "ledger": (LEDGER, 8)}
        for tag in random.sample(sorted(marks), random.choice((0, 1, 1, 2))):
            asked[tag] = random.choice(marks[tag])
    for bound in ("timestamp_min", "timestamp_max"):
        if random.random() < 0.4:
            asked[bound] = time_near(random, ledger)
    return path, asked


def time_near(random, ledger):
    """A record's time, one beside it, or one that is beyond all."""
    records = ledger.accounts if random.random() < 0.2 else ledger.transfers
    time = random.choice(list(records.values()))["timestamp"]
    beyond = random.choice((1, ledger.clock, ledger.clock + 1, 2**63, 2**64 - 1))
    return random.choice((time - 1, time, time, time + 1, beyond))


class Follower:
    """A program that has each accepted transfer once: it keeps the number with which it asks."""

    def __init__(self, desk, ledger):
        """It asks by a desk, and the plain ledger knows what it has to have in the end."""
        self.desk, self.ledger, self.number, self.had = desk, ledger, 0, []

    def take(self, house, limit):
        """Takes a page on a new connection. Says whether there is more."""
        self.desk.connect(house.service)
        more = self.ask(limit)
        want(more is not None, "unavailable, with all at hand")
        return more

    def ask(self, limit):
        """Takes a page on the connection that there is: None where it is `unavailable`."""
        told = self.desk.ask(*pages.request(
            pages.TRANSFERS, {"timestamp_min": self.number, "limit": limit}))
        if told is None:
            return None
        told = json.loads(told)
        self.had += [int(each["id"]) for each in told["transfers"]]
        self.number = int(told["next"]) or int(told["clock"]) + 1
        return told["next"] != "0"

    def take_all(self, house):
        """Takes what is left. It has had each transfer, in order and once; how many."""
        while self.take(house, 100):
            pass
        accepted = sorted(self.ledger.transfers.values(), key=lambda each: each["timestamp"])
        want(self.had == [each["id"] for each in accepted],
             f"a follower had {len(self.had)} of {len(accepted)} transfers, or not in order")
        return len(self.had)
