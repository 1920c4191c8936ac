"""The program is killed at random under the client, and connections are cut: nothing that was
answered is lost, nothing is booked twice, and each chain stands whole or not at all.

What is drawn follows from the seed, which is told; when a kill comes, does not."""

import collections
import os
import random
import sys
import threading
import time
import unittest

from cegarront import (
    MAX_128,
    Account,
    AccountFilter,
    AccountFlag,
    HoldState,
    Ledger,
    Outcome,
    QueryFilter,
    Transfer,
    TransferFlag,
    Unanswered,
    new_id,
)

from .fake import KEY
from .program import Service
from .relay import Relay

SECONDS = float(os.environ.get("KILL_SECONDS", 25))
EURO, BANK, POOR = 978, 1, 5
WALLETS = (2, 3, 4, POOR)
NOBODY = 99
POST, VOID = TransferFlag.POST_PENDING_TRANSFER, TransferFlag.VOID_PENDING_TRANSFER
PENDING, LINKED = TransferFlag.PENDING, TransferFlag.LINKED


class Book:
    """What the client was told: the outcome of each transfer that it has sent."""

    def __init__(self):
        self.sent, self.outcomes = {}, {}
        self.told = collections.Counter()

    def write(self, events, results):
        for event, result in zip(events, results):
            earlier = self.outcomes.get(event.id)
            if earlier is not None and earlier != result.stands:
                raise AssertionError(f"{event} was told {earlier}, and then {result}")
            self.sent[event.id], self.outcomes[event.id] = event, result.stands
            self.told[result.outcome] += 1

    def standing(self):
        return {number: self.sent[number] for number, stands in self.outcomes.items() if stands}


class Desk(threading.Thread):
    """A worker, which sends one batch after the other and writes down what it is told."""

    def __init__(self, ledger, seed, until):
        super().__init__(daemon=True)
        self.ledger, self.random, self.until = ledger, random.Random(seed), until
        self.book, self.batches, self.holds = Book(), [], []
        self.unanswered, self.failure = 0, None

    def run(self):
        try:
            while time.monotonic() < self.until:
                self.turn()
        except BaseException as error:
            self.failure = error

    def turn(self):
        draw = self.random.random()
        if self.batches and draw < 0.1:
            # The program of a shop was ended itself, and sends what it has noted.
            self.send(self.random.choice(self.batches), is_new=False)
        elif self.batches and draw < 0.2:
            self.look_up(self.random.choice(self.batches))
        else:
            self.send(self.draw(), is_new=True)

    def send(self, events, is_new):
        """Sends events until they are answered."""
        while True:
            try:
                results = self.ledger.create_transfers(events)
                break
            except Unanswered as error:
                self.unanswered += 1
                is_new = is_new and not error.may_be_booked
        if is_new and any(each.outcome is Outcome.EXISTED for each in results):
            raise AssertionError(f"new ids exist: {events}, {results}")
        self.book.write(events, results)
        self.batches.append(events)
        for event, result in zip(events, results):
            if event.flags & PENDING and result.stands:
                self.holds.append(event)

    def look_up(self, events):
        try:
            there = self.ledger.lookup_transfers([each.id for each in events])
        except Unanswered:
            self.unanswered += 1
            return
        found = {each.id for each in there}
        standing = {each.id for each in events if self.book.outcomes[each.id]}
        if found != standing:
            raise AssertionError(f"{standing} were told to stand, and {found} are there")

    def draw(self):
        """A batch of new events: chains of one and of several."""
        events = []
        for _ in range(self.random.randint(1, 4)):
            chain = [self.event() for _ in range(self.random.choice((1, 1, 2, 3, 5)))]
            events += [linked(each) for each in chain[:-1]] + chain[-1:]
        return events

    def event(self):
        draw = self.random.random()
        if self.holds and draw < 0.25:
            return self.ending(self.holds.pop(self.random.randrange(len(self.holds))))
        payer, payee = self.random.sample((BANK, *WALLETS), 2)
        if draw > 0.95:
            payee = NOBODY
        flags = PENDING if self.random.random() < 0.3 else TransferFlag(0)
        return Transfer(id=new_id(), debit_account_id=payer, credit_account_id=payee, ledger=EURO,
                        amount=self.random.randint(0, 1000), code=1, flags=flags)

    def ending(self, hold):
        flags = self.random.choice((POST, POST, VOID))
        amount = 0
        if flags == POST:
            amount = self.random.choice((MAX_128, hold.amount, hold.amount // 2))
        return Transfer(id=new_id(), pending_id=hold.id, amount=amount, flags=flags)


class Follower(threading.Thread):
    """Follows the ledger, and has each accepted transfer once."""

    def __init__(self, ledger, until):
        super().__init__(daemon=True)
        self.ledger, self.until = ledger, until
        self.had, self.number, self.failure = [], 0, None

    def run(self):
        try:
            while time.monotonic() < self.until:
                self.take(self.ledger)
                time.sleep(0.05)
        except BaseException as error:
            self.failure = error

    def take(self, ledger):
        try:
            for transfers, self.number in ledger.follow(self.number, limit=50):
                self.had += transfers
        except Unanswered:
            pass


def linked(event):
    fields = {**vars(event), "flags": event.flags | LINKED}
    return Transfer(**fields)


def chains(events):
    chain = []
    for event in events:
        chain.append(event)
        if not event.flags & LINKED:
            yield chain
            chain = []


def balances(transfers):
    """The four sums of each account that the transfers make."""
    sums = collections.defaultdict(lambda: [0, 0, 0, 0])
    ended = {each.pending_id for each in transfers.values() if each.flags & (POST | VOID)}
    for each in transfers.values():
        of, amount, place = each, each.amount, 1
        if each.flags & VOID:
            continue
        if each.flags & POST:
            of = transfers[each.pending_id]
            amount = min(amount, of.amount)
        elif each.flags & PENDING:
            if each.id in ended:
                continue
            place = 0
        sums[of.debit_account_id][place] += amount
        sums[of.credit_account_id][2 + place] += amount
    return sums


class Killed(unittest.TestCase):
    def setUp(self):
        self.seed = int(os.environ.get("SEED") or random.SystemRandom().randrange(10**6))
        self.random = random.Random(self.seed)
        print(f"killed: seed {self.seed}", file=sys.stderr)

    def test_nothing_is_lost_or_doubled(self):
        with Service(KEY) as service:
            relay = Relay(service.port, self.random.random(), one_in=12)
            self.addCleanup(relay.close)
            self.open_accounts(service)
            desks, follower, kills = self.storm(service, relay)
            with Ledger(service.url, KEY) as ledger:
                self.compare(ledger, desks)
                self.compare_follower(ledger, follower)
            service.kill()
            self.assertEqual(service.check()[:2], (0, "ok\n"))
        self.tell(desks, kills, relay)

    def open_accounts(self, service):
        limits = AccountFlag.DEBITS_MUST_NOT_EXCEED_CREDITS | AccountFlag.HISTORY
        with Ledger(service.url, KEY) as ledger:
            ledger.create_accounts(
                Account(id=number, ledger=EURO, code=1,
                        flags=limits if number == POOR else AccountFlag.HISTORY)
                for number in (BANK, *WALLETS)).raise_for_refused()

    def storm(self, service, relay):
        """Desks at work, and kills between."""
        until = time.monotonic() + SECONDS
        shared = Ledger(relay.url, KEY, timeout=1, connections=2)
        alone = Ledger(relay.url, KEY, timeout=0.5, deadline=1.5, max_idle=0)
        desks = [Desk(ledger, self.random.random(), until)
                 for ledger in (shared, shared, shared, alone)]
        follower = Follower(shared, until)
        for each in (*desks, follower):
            each.start()
        kills = 0
        while time.monotonic() < until:
            time.sleep(self.random.uniform(0.1, 1.2))
            service.kill()
            kills += 1
            time.sleep(self.random.choice((0, 0, 0.3)))
            service.start()
        for each in (*desks, follower):
            each.join(120)
            self.assertFalse(each.is_alive(), "a call takes longer than its deadline")
            if each.failure:
                raise each.failure
        shared.close()
        alone.close()
        return desks, follower, kills

    def compare_follower(self, ledger, follower):
        """It has had what a query tells now, each transfer once and in order; and a hold is ended
        where a post or void of it is there."""
        before = len(follower.had)
        follower.take(ledger)
        self.assertGreater(before, 0)
        self.assertEqual(follower.had, list(ledger.iter_transfers(QueryFilter(limit=999))))
        ended = {each.pending_id: each.flags for each in follower.had if each.flags & (POST | VOID)}
        holds = [each.id for each in follower.had if each.flags & PENDING]
        for first in range(0, len(holds), 1000):
            for hold in ledger.lookup_pending(holds[first:first + 1000]):
                by = ended.get(hold.id, PENDING) & (POST | VOID)
                self.assertIs(hold.state, {POST: HoldState.POSTED, VOID: HoldState.VOIDED}.get(
                    by, HoldState.OPEN))
        self.assertEqual({each.id for each in ledger.iter_open_pending()}, {*holds} - {*ended})

    def compare(self, ledger, desks):
        standing, outcomes = {}, {}
        for each in desks:
            standing.update(each.book.standing())
            outcomes.update(each.book.outcomes)
        self.whole_chains(desks, outcomes)
        numbers = list(outcomes)
        found = {}
        for first in range(0, len(numbers), 1000):
            page = ledger.lookup_transfers(numbers[first:first + 1000])
            found.update((each.id, each) for each in page)
        self.assertEqual(set(found), set(standing))
        wanted = balances(standing)
        for account in ledger.lookup_accounts((BANK, *WALLETS)):
            self.assertEqual([account.debits_pending, account.debits_posted,
                              account.credits_pending, account.credits_posted],
                             wanted[account.id])
            listed = [each.id for each in
                      ledger.iter_account_transfers(AccountFilter(account.id, limit=100))]
            of_it = [number for number, each in found.items()
                     if account.id in (each.debit_account_id, each.credit_account_id)]
            self.assertEqual(sorted(listed), sorted(of_it))
            entries = [entry.transfer_id for entry in ledger.statement(account.id)]
            self.assertEqual(entries, listed)
            last = list(ledger.iter_account_balances(AccountFilter(account.id)))[-1]
            self.assertEqual(last.debits_posted, account.debits_posted)

    def whole_chains(self, desks, outcomes):
        for desk in desks:
            for events in desk.batches:
                for chain in chains(events):
                    self.assertEqual(len({outcomes[each.id] for each in chain}), 1, chain)

    def tell(self, desks, kills, relay):
        told = sum((each.book.told for each in desks), collections.Counter())
        calls = sum(len(each.batches) for each in desks)
        unanswered = sum(each.unanswered for each in desks)
        self.assertGreater(kills, 5)
        for outcome in Outcome:
            self.assertGreater(told[outcome], 0, f"nothing was {outcome.value}: a longer run?")
        words = ", ".join(f"{told[each]} {each.value}" for each in Outcome)
        print(f"killed: {kills} kills, {sum(relay.cuts.values())} cuts, {relay.messages} messages,"
              f" {calls} batches answered, {unanswered} calls without an answer;"
              f" events: {words}", file=sys.stderr)


if __name__ == "__main__":
    unittest.main()
