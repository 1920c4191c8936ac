"""A stream of cut, doubled, mixed, huge and slow messages, some behind good ones."""

import json
import socket
import time
from functools import partial

import pages
from connection import Connection, Lost
from drawn import LEDGER, account, moves
from model import TRANSFER_FIELDS
from refused import post, routes, statements
from runs import House
from service import Desk, add_tenant, body_of, check, clock_in, lookup, message, shown, want

MOST_LENGTH = 2_097_152
# So many bytes of a hostile message are sent ahead, behind a good one.
MOST_AHEAD = 30_000
# Behind a huge message the system's allocator keeps its buffers for a while, three of them as was
# seen. What grows with messages would be beyond that: 3 kB of each here, a hundred bytes in `--long`.
MOST_GROWN = 5 * MOST_LENGTH
GOOD_MARK, HOSTILE_MARK = b"7770777077707", b"6660666066606"
GOOD_ID = int(GOOD_MARK) * 10**6


class Hostile:
    """A tenant that sends anything. What it sends may be right, so its ledger is its own."""

    def __init__(self, random, key):
        self.random, self.key, self.place = random, key, 0

    def events(self, many):
        """A batch that is right, and marked."""
        self.place += many
        mark = HOSTILE_MARK.decode()
        return [{"id": f"{mark}{place:09}", "debit_account_id": "1", "credit_account_id": "2",
                 "amount": mark, "ledger": LEDGER, "code": 1}
                for place in range(self.place - many, self.place)]

    def draw(self):
        """A message, and whether it is sent slowly."""
        good = post("/transfers", json.dumps(self.events(self.random.randint(1, 3))).encode(),
                    self.key)
        kinds = ("cut", "doubled", "mixed", "noise", "slow", "huge", "refused", "asked")
        kind = self.random.choices(kinds, (20, 15, 25, 15, 0.2, 0.5, 15, 5))[0]
        return getattr(self, kind)(good), kind == "slow"

    def cut(self, good):
        return good[:self.random.randrange(1, len(good))]

    def doubled(self, good):
        return good + good

    def mixed(self, good):
        """Some bytes of it changed, dropped or doubled."""
        mixed = bytearray(good)
        for _ in range(self.random.randint(1, 6)):
            place = self.random.randrange(len(mixed))
            mixed[place:place + self.random.randint(0, 2)] = \
                self.random.randbytes(self.random.randint(0, 2))
        return bytes(mixed)

    def noise(self, _good):
        return self.random.randbytes(self.random.randint(1, 300)) + b"\r\n\r\n"

    def slow(self, good):
        return good

    def huge(self, _good):
        """As much as a body may have, or a head."""
        if self.random.random() < 0.5:
            return b"GET /" + b"a" * 20_000
        body = b'[{"id":"' + b"6" * (MOST_LENGTH - 11) + b'"}]'
        return post("/transfers", body, self.key)

    def asked(self, _good):
        """A page of what it has, or what became of another's transfers."""
        path = self.random.choice(pages.PATHS)
        asked = [GOOD_ID, GOOD_ID + 1] if path == pages.HOLDS else {"limit": 100}
        return post(path, pages.request(path, asked)[2], self.key)

    def refused(self, _good):
        sent = self.random.choice([*statements(self.key), *routes(self.key)])
        return sent[1]


def stream(trial):
    """Hostile messages behind good ones: each good one is answered as the plain lists answer it, no
    reply shows what is another tenant's, and the memory stays flat."""
    many = 100_000 if trial.is_long else 4_000
    house, hostile = opened(trial)
    for _ in range(8):
        beside(house, hostile.huge(b""), False)
    begun, answered = house.service.memory(), 0
    for place in range(many):
        sent, is_slow = hostile.draw()
        if place % 10 == 0:
            good(house, place, sent)
            answered += 1
        else:
            told = beside(house, sent, is_slow)
            want(GOOD_MARK not in told, f"another tenant's marks in a reply to {sent!r}: {told!r}")
        trial.progress(f"{place} messages, {house.service.memory() >> 10} kB")
    grown = house.service.memory() - begun
    house.compare()
    house.stop()
    check(house.program, house.db)
    want(grown < MOST_GROWN, f"the memory grew by {grown} bytes")
    return f"{many} hostile messages, {answered} behind good ones; memory grew by {grown >> 10} kB"


def opened(trial):
    """A house with a good tenant, and a hostile one that has two accounts."""
    house = House(trial.fresh(), 1)
    hostile = Hostile(trial.random, f"{trial.random.getrandbits(256):064x}")
    add_tenant(house.program, house.db, "hostile", hostile.key)
    house.begin()
    house.desks[0].leave()
    desk = Desk(hostile.key)
    desk.connect(house.service)
    want(desk.batch([account(1), account(2)], False), "unavailable at first")
    desk.leave()
    return house, hostile


def good(house, place, hostile):
    """A good message, in turn new, a retry and a read, and a hostile one behind it on the same
    connection. The good one's reply is as if it were alone."""
    desk = house.take_turn(0)
    marked, = moves(GOOD_ID + place // 30, amount=int(GOOD_MARK))
    desk.asked.add(marked["id"])
    is_read = place % 30 == 20
    asked, reply = (read(desk.ledger, place, marked["id"]) if is_read
                    else (("POST", "/transfers", body_of([marked])), None))
    desk.connection.send(message(*asked[:2], desk.key, asked[2]) + hostile[:MOST_AHEAD])
    status, _, told = desk.connection.reply()
    want(status == "200 OK", f"a good message is answered {status} {told!r}")
    want(HOSTILE_MARK not in told, f"another tenant's marks in a reply: {told!r}")
    if is_read:
        desk.ledger.reach(clock_in(told))
        want(told == reply(), f"{asked}: {told}, not {reply()}")
    else:
        desk.judge([marked], True, json.loads(told))
    desk.leave()


def read(ledger, place, number):
    """A read, in turn of each kind, and its reply's body."""
    listed = ((pages.TRANSFERS, {"limit": 3, "flags": 1}), (pages.ACCOUNTS, {"limit": 3}),
              (pages.OPEN, {"limit": 3}), (pages.HOLDS, [number]))
    turn = place // 30 % (len(listed) + 1)
    if turn < len(listed):
        return pages.request(*listed[turn]), partial(pages.reply, ledger, *listed[turn])
    kept = [shown(ledger.transfers[number], TRANSFER_FIELDS)]
    return (lookup("/transfers/lookup", [number]),
            lambda: pages.compact({"clock": str(ledger.clock), "transfers": kept}))


def beside(house, sent, is_slow):
    """Sends a hostile message and closes its half. All that is answered."""
    connection = Connection(house.service.port)
    told = b""
    try:
        for first in range(0, len(sent), 40 if is_slow else len(sent)):
            connection.send(sent[first:first + (40 if is_slow else len(sent))])
            time.sleep(0.01 if is_slow else 0)
        connection.socket.shutdown(socket.SHUT_WR)
        while True:
            told += connection.reply()[2]
    except (Lost, OSError):
        return told
    finally:
        connection.close()
