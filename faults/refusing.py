"""Memory and calls of the disk, refused one by one to the running service."""

import time

import pages
from connection import Lost
from control import ALL, DISK, MEMORY, Control, places
from drawn import LEDGER, account, moves, transfer
from routes import look_at_routes
from runs import House
from service import body_of, message, want

# How many seconds a hold is open, and by when behind it its tenant has been settled.
HOLD, SETTLED = 9, 5


class Cases:
    """Batches of each kind, new ones each time, and reads, of the first tenant of a house."""

    def __init__(self, house):
        self.house, self.next, self.last = house, 10**9, None

    def moved(self, **fields):
        self.next += 1
        return transfer(self.next, **{"debit_account_id": 1, "credit_account_id": 2, "amount": 5,
                                      "ledger": LEDGER, "code": 1, **fields})

    def account(self):
        self.next += 1
        return [account(self.next)], False

    def single(self):
        self.last = [self.moved()]
        return self.last, True

    def fallen_chain(self):
        return [self.moved(flags=1), self.moved(flags=3, timeout=HOLD), self.moved(flags=1),
                self.moved(credit_account_id=9), self.moved()], True

    def hold_and_post(self):
        hold = self.moved(flags=2, timeout=HOLD)
        return [hold, self.moved(debit_account_id=0, credit_account_id=0, ledger=0, code=0,
                                 pending_id=hold["id"], amount=3, flags=4)], True

    def retry(self):
        return self.last or [self.moved()], True

    def batches(self):
        return (self.account, self.single, self.fallen_chain, self.hold_and_post, self.retry)

    def reads(self):
        page = b'{"account_id":"5","limit":10,"flags":3}'
        return (("POST", "/accounts/lookup", b'["1","2","9"]'),
                ("POST", "/transfers/lookup", b'["1000000002"]'),
                ("POST", "/history/transfers", page), ("POST", "/history/balances", page),
                ("GET", "/statement/1", b""), *self.queries())

    def queries(self):
        """Pages that are read in several pieces, and what became of holds."""
        marked = {"code": 1, "flags": 1, "limit": 3}
        return (pages.request(pages.ACCOUNTS, {"ledger": LEDGER, "limit": 2}),
                pages.request(pages.TRANSFERS, {**marked, "user_data_64": 2**64 - 1}),
                pages.request(pages.TRANSFERS, marked), pages.request(pages.OPEN, {"limit": 1}),
                pages.request(pages.HOLDS, [10**9 + number for number in range(1, 200)]))


def refused_memory(trial):
    """Each allocation refused in turn, in each kind of request."""
    house = House(trial.fresh())
    control = Control(trial.folder)
    house.begin(control.env)
    cases, refused = Cases(house), 0
    for draw in cases.batches():
        for place in places(trial):
            was_refused = refuse_memory_of_batch(house, control, place, draw())
            refused += was_refused
            trial.progress(f"{draw.__name__}: {place}")
            if not was_refused:
                break
        house.compare()
    # A tenant that is settled has another clock, which its reads tell.
    time.sleep(HOLD + SETTLED)
    for read in cases.reads():
        refused += refuse_memory_of_read(trial, house, control, read)
    refused += refuse_connections(trial, house, control)
    house.compare()
    house.stop()
    return f"{refused} allocations refused: answered as ever, or not done and nothing changed"


def ready(house, place=0):
    """A desk whose connection the service is reading from."""
    desk = house.take_turn(place)
    want(desk.ask("POST", "/accounts/lookup", b"[]") is not None, "unavailable at first")
    return desk


def refuse_memory_of_batch(house, control, place, batch):
    """Whether an allocation was refused. The batch is answered in any case, now or then."""
    desk = ready(house)
    control.refuse(MEMORY, place)
    try:
        answered = desk.batch(*batch)
    except Lost:
        # Memory was wanting for what had come, and the client was let go.
        answered = False
    refused = control.end(MEMORY)
    want(answered or refused, "no answer, and nothing was refused")
    if not answered:
        desk = ready(house)
        clock = int(desk.ask("POST", "/accounts/lookup", b"[]")["clock"])
        want(clock == desk.ledger.clock, f"unavailable, and the clock has changed, at {place}")
        want(desk.batch(*batch), f"unavailable once more, at {place}")
    return refused


def refuse_memory_of_read(trial, house, control, read):
    ample, refused = ready(house).ask(*read), 0
    for place in places(trial):
        desk = ready(house)
        control.refuse(MEMORY, place)
        try:
            told = desk.ask(*read)
        except Lost:
            told = None
        was_refused = control.end(MEMORY)
        want(told == ample or (told is None and was_refused), f"{read} at {place}: {told}")
        want(ready(house).ask(*read) == ample, f"{read} behind {place}")
        trial.progress(f"{read[1]}: {place}")
        if not was_refused:
            return refused
        refused += 1


def refuse_connections(trial, house, control):
    """An allocation refused from the connection on: the batch, or `unavailable`, or no answer."""
    cases, refused = Cases(house), 0
    cases.next = 2 * 10**9
    for place in places(trial):
        events, _ = cases.single()
        control.refuse(MEMORY, place)
        try:
            answered = house.take_turn(0).batch(events)
        except Lost:
            answered = False
        was_refused = control.end(MEMORY)
        want(answered or was_refused, "no answer, and nothing was refused")
        if not answered:
            want(not ready(house).settle(events), f"not answered and yet done, at {place}")
            want(ready(house).batch(events), f"unavailable once more, at {place}")
        if not was_refused:
            return refused
        refused += 1


def failing_disk(trial):
    """A call of the disk that fails, alone or with all behind it, in a batch of one tenant beside
    another: the batch is found whole or not at all, and nothing that came behind it."""
    house = House(trial.fresh())
    control = Control(trial.folder)
    house.begin(control.env)
    cases, refused, found = Cases(house), 0, 0
    for many in (1, ALL):
        for draw in cases.batches():
            for place in places(trial):
                was_refused, was_found = fail_disk(house, control, (place, many), draw())
                refused, found = refused + was_refused, found + was_found
                trial.progress(f"{draw.__name__}: {place}")
                if not was_refused:
                    break
            house.compare()
    house.stop()
    return f"{refused} batches with a failing call, {found} of them found done by the next opening"


def refuse_openings(house, desk, begun):
    """While the disk fails each call of each tenant is refused, and leaves nothing: two more on the
    same connection, one of each kind on another that was there before, and one on a new one.
    Standard error tells once why the file could not be opened again."""
    late = moves(5)
    look_at_routes(house.desks[1].connection, house.desks[1].key)
    for other in (house.desks[1], desk):
        desk.connection.send(message("POST", "/transfers", other.key, body_of(late)))
        told = desk.connection.reply()[2]
        want(told == b'{"error":"unavailable"}', f"behind a failed call: {told!r}")
    told = house.take_turn(1).ask("POST", "/accounts/lookup", b"[]")
    want(told is None, f"served by a disk that fails: {told}")
    lines = house.service.told()[begun:]
    want(lines in (["ledgerd: unavailable"], ["ledgerd: unreadable"]), f"standard error: {lines}")


def fail_disk(house, control, failing, batch):
    """Whether a call failed, and whether the batch that was refused for it was found done."""
    ready(house, 1)
    desk, begun = ready(house), len(house.service.told())
    control.refuse(DISK, *failing)
    if desk.batch(*batch):
        return bool(control.end(DISK)), 0
    if failing[1] == ALL:
        refuse_openings(house, desk, begun)
    want(control.end(DISK), "unavailable, and no call has failed")
    if failing[1] != ALL:
        # Where a call has failed alone, the next message of the same connection is answered.
        want(desk.ask("POST", "/accounts/lookup", b"[]") is not None, "unavailable once more")
    # Else it is, once the file is opened again.
    found = desk.settle(*batch)
    want(desk.ask("GET", "/health") == {"serving": True}, "not well behind a failed call")
    if failing[1] == ALL:
        lines = house.service.told()[begun + 1:]
        want(lines == [house.well()], f"standard error tells {lines} behind it")
    house.compare()
    want(ready(house).batch(*batch), f"unavailable once more, at {failing}")
    return True, int(found)
