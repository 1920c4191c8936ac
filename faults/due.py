"""Holds that fall due in great numbers: they are released a piece at a time beside clients that
write, and none by a clock that is set back."""

import threading
import time

import pages
from control import Control
from drawn import moves
from model import NEWEST_FIRST, PENDING, due_of
from paused import HOUR
from runs import House
from service import PATIENCE, body_of, check, look_at, want

EACH = 1000
# So many thousands are due before their tenant's own batch, which waits for them for longer than a
# message may take to come.
BEFORE, LIMIT = 15, ["--message", "1"]
# Seconds in which a hold is not released of a tenant that does nothing, where its time has not come.
WHILE = 5


class Writer(threading.Thread):
    """A tenant that sends batch after batch, each compared with its plain ledger's."""

    def __init__(self, house, place):
        super().__init__(daemon=True)
        self.desk, self.requests = house.take_turn(place), house.requests[place]
        self.is_over, self.answered, self.surprise = threading.Event(), 0, None
        self.desk.longest = 0.0

    def run(self):
        try:
            while not self.is_over.is_set():
                want(self.desk.batch(self.requests.batch(3)), "unavailable, with all at hand")
                self.answered += 1
                time.sleep(0.02)
        except Exception as surprise:
            self.surprise = surprise

    def end(self):
        self.is_over.set()
        self.join()
        if self.surprise:
            raise self.surprise


def due(trial):
    """Thousands of holds that are due within a second; a batch of their tenant behind others; a clock
    that goes back by an hour."""
    house = House(trial.fresh(), 3, LIMIT)
    control = Control(trial.folder)
    house.begin(control.env)
    many, seconds = (100, 60) if trial.is_long else (20, 15)
    hold_many(house, 10**12, many, seconds)
    writers = [Writer(house, place) for place in (1, 2)]
    for writer in writers:
        writer.start()
    took = watch(trial, house)
    hold_many(house, 2 * 10**12, BEFORE, 10)
    waited = send_behind(house)
    for writer in writers:
        writer.end()
    longest, answered = (max(each.desk.longest for each in writers),
                         sum(each.answered for each in writers))
    turned_back(house, control)
    look(house)
    for place in (1, 2):
        house.desks[place].compare(house.service)
    house.stop()
    check(house.program, house.db)
    return (f"{many * EACH} holds due within a second were released in {took:.1f} s, beside "
            f"{answered} batches of two others, of which none waited for more than {longest:.2f} s; "
            f"their tenant's own batch behind {BEFORE * EACH} of them waited for {waited:.2f} s, and was "
            "answered; the clock an hour back")


def hold_many(house, first, many, seconds):
    """So many thousands of holds, which are all due within a second, so many seconds from now, unless the
    machine is too busy for that. They go into the plain ledger as they are told, since it would search
    all of them for each."""
    desk, end = house.take_turn(0), time.time() + seconds
    for turn in range(many):
        left = max(1, round(end - time.time()))
        events = moves(first + turn * EACH, EACH, flags=PENDING, timeout=left)
        told = desk.ask("POST", "/transfers", body_of(events))
        want(told and all(each["result"] == "ok" for each in told["results"]), f"holds: {told}")
        desk.ledger.clock = int(told["clock"])
        for event, each in zip(events, told["results"]):
            stored = {**event, "timestamp": int(each["timestamp"]), "at": desk.ledger.clock}
            desk.ledger.transfers[event["id"]] = stored
            desk.ledger.dues.add(due_of(stored))
    desk.leave()


def last_due(house):
    """When the last of all holds is due, in seconds."""
    return max(due_of(each) for each in house.desks[0].ledger.transfers.values()) / 1e9


def watch(trial, house):
    """Looks at the accounts until nothing is held any more: each time they are the plain ledger's at
    the clock that is told. The seconds behind the last due time."""
    desk, end = house.take_turn(0), last_due(house)
    while True:
        request, reply = desk.accounts()
        told = desk.ask(*request)
        look_at(request, told, reply)
        held = int(told["accounts"][0]["debits_pending"])
        trial.progress(f"{held} are held")
        if held == 0:
            desk.leave()
            return max(0.0, time.time() - end)
        want(time.time() < end + PATIENCE, f"{held} are still held")
        time.sleep(0.3)


def send_behind(house):
    """The tenant's own batch while its holds are being released. The seconds that it waited."""
    time.sleep(max(0.0, last_due(house) - time.time()))
    desk, begun = house.take_turn(0), time.monotonic()
    want(desk.batch(moves(10**11)), "unavailable, with all at hand")
    desk.leave()
    return time.monotonic() - begun


def look(house):
    """The accounts, the open holds, and what became of the last thousand of them. Each is asked by a
    connection of its own, since the plain ledger may take longer between two than a client may be
    idle."""
    ids = sorted(house.desks[0].ledger.transfers)[-pages.MOST_IDS:]
    for path, asked in ((pages.OPEN, {"limit": 1000}), (pages.HOLDS, ids)):
        desk = house.take_turn(0)
        told = desk.ask(*pages.request(path, asked))
        desk.leave()
        look_at((path, asked), told, pages.reply(desk.ledger, path, asked))
    request, reply = house.desks[0].accounts()
    desk = house.take_turn(0)
    look_at(request, desk.ask(*request), reply)
    desk.leave()


def turned_back(house, control):
    """The clock goes back by an hour: no moment comes before one that was given, to whomever that was.
    So a hold is due once the clock is there again, and then soon released."""
    one, other = (house.take_turn(place) for place in (1, 2))
    want(one.batch([]), "unavailable, with all at hand")
    control.turn_back(HOUR)
    want(other.batch([]), "unavailable, for a clock that goes back")
    want(other.ledger.clock >= one.ledger.clock, "a moment before one that was given")
    desk = house.take_turn(0)
    want(desk.batch(moves(3 * 10**12, flags=PENDING, timeout=1)), "unavailable at a clock set back")
    time.sleep(WHILE)
    want(held(house), "a hold is released before it is due")
    control.turn_back(0)
    end = time.monotonic() + PATIENCE
    while held(house):
        want(time.monotonic() < end, "a hold that is due is not released")
        time.sleep(0.3)


def held(house):
    """What is held of the first tenant, once all that it sees was looked at."""
    look(house)
    return house.desks[0].ledger.open_holds({"limit": 1, "flags": NEWEST_FIRST})[0]
