"""Customers' wallets on a ledger: deposits, holds, captures with a fee, voids and refunds.

Each operation has a key of its caller, such as an order's number. The ids of its transfers are drawn once,
and stored under the key before anything is sent. So an operation that is repeated sends the same transfers,
and the ledger books them once."""

import contextlib
import dataclasses
import json
import sqlite3

from cegarront import Account, AccountFlag, Transfer, TransferFlag, Unanswered, new_id

CURRENCIES = (978, 840, 392)
# A counter of what is left to refund stands in a ledger of its own beside each currency's.
COUNTERS = 9000
BANK, SHOP, FEES, POOL, FIRST_WALLET = 1, 2, 3, 4, 11
DEPOSIT, PAYMENT, FEE, REFUND, COUNT = 1, 2, 3, 4, 5
CAPPED = AccountFlag.DEBITS_MUST_NOT_EXCEED_CREDITS
LINKED, PENDING = TransferFlag.LINKED, TransferFlag.PENDING
POST, VOID = TransferFlag.POST_PENDING_TRANSFER, TransferFlag.VOID_PENDING_TRANSFER
TABLE = """CREATE TABLE IF NOT EXISTS operation (place INTEGER PRIMARY KEY, key TEXT UNIQUE, kind TEXT,
transfers TEXT, outcome TEXT)"""
OK = "ok"


def account(currency, number):
    """The id of an account of a currency."""
    return currency * 1000 + number


def accounts(wallets):
    """The accounts of each currency, with a number of wallets."""
    for currency in CURRENCIES:
        for number in (BANK, SHOP, FEES):
            yield Account(id=account(currency, number), ledger=currency, code=number)
        yield Account(id=account(currency, POOL), ledger=COUNTERS + currency, code=POOL)
        for number in range(FIRST_WALLET, FIRST_WALLET + wallets):
            yield Account(id=account(currency, number), ledger=currency, code=FIRST_WALLET, flags=CAPPED)


class Wallets:
    """Stores operations in a file, and books them. Each thread has its own object over one file."""

    def __init__(self, ledger, file):
        self.ledger = ledger
        self.file = sqlite3.connect(file, timeout=60)
        with self.file:
            self.file.execute(TABLE)

    def deposit(self, key, currency, wallet, amount):
        return self.do(key, "deposit", lambda: [self.move(currency, BANK, wallet, amount, DEPOSIT)])

    def hold(self, key, currency, wallet, amount, timeout):
        """Sets an amount aside for an order. Its counter is an account with the hold's id."""
        return self.do(key, "hold", lambda: [
            self.move(currency, wallet, SHOP, amount, PAYMENT, timeout=timeout, flags=PENDING)])

    def capture(self, key, order, amount, fee):
        """Takes a part of a hold, pays the fee from it, and counts what may be refunded."""
        (hold,) = self.transfers_of(order)
        return self.do(key, "capture", lambda: [
            Transfer(id=new_id(), pending_id=hold.id, amount=amount, flags=POST | LINKED),
            self.move(hold.ledger, SHOP, FEES, fee, FEE, flags=LINKED),
            self.count(hold, POOL, hold.id, amount)])

    def void(self, key, order):
        (hold,) = self.transfers_of(order)
        return self.do(key, "void", lambda: [Transfer(id=new_id(), pending_id=hold.id, flags=VOID)])

    def refund(self, key, order, amount):
        """Gives a part back, at most what was captured: the counter cannot be overdrawn."""
        (hold,) = self.transfers_of(order)
        wallet = hold.debit_account_id - account(hold.ledger, 0)
        return self.do(key, "refund", lambda: [
            self.move(hold.ledger, SHOP, wallet, amount, REFUND, flags=LINKED),
            self.count(hold, hold.id, POOL, amount)])

    def move(self, currency, debit, credit, amount, code, **more):
        return Transfer(id=new_id(), debit_account_id=account(currency, debit), ledger=currency, code=code,
                        credit_account_id=account(currency, credit), amount=amount, **more)

    def count(self, hold, debit, credit, amount):
        """A transfer between the pool and an order's counter."""
        ids = [account(hold.ledger, POOL) if each == POOL else each for each in (debit, credit)]
        return Transfer(id=new_id(), debit_account_id=ids[0], credit_account_id=ids[1], amount=amount,
                        ledger=COUNTERS + hold.ledger, code=COUNT)

    def do(self, key, kind, draw):
        """Books an operation, now or before. The outcome is `ok`, or why the ledger refused it."""
        kept = self.transfers_of(key)
        if not kept:
            text = json.dumps([dataclasses.asdict(each) for each in draw()])
            with self.file:
                self.file.execute("INSERT INTO operation (key, kind, transfers) VALUES (?, ?, ?) "
                                  "ON CONFLICT (key) DO NOTHING", (key, kind, text))
            kept = self.transfers_of(key)
        outcome = self.send(kind, kept)
        with self.file:
            self.file.execute("UPDATE operation SET outcome = ? WHERE key = ? AND outcome IS NULL",
                              (outcome, key))
        return self.outcome_of(key)

    def send(self, kind, transfers):
        """Sends the transfers until there is an answer."""
        while True:
            with contextlib.suppress(Unanswered):
                if kind == "hold":
                    (hold,) = transfers
                    counter = Account(id=hold.id, ledger=COUNTERS + hold.ledger, code=COUNT, flags=CAPPED)
                    self.ledger.create_accounts([counter]).raise_for_refused()
                results = self.ledger.create_transfers(transfers)
                failed = [each.name for _, each in results.refused if each.name != "linked_event_failed"]
                return failed[0] if failed else OK

    def transfers_of(self, key):
        """The transfers that are stored under a key, or none."""
        rows = self.file.execute("SELECT transfers FROM operation WHERE key = ?", (key,)).fetchall()
        return [transfer_in(each) for row in rows for each in json.loads(row[0])]

    def outcome_of(self, key):
        return self.file.execute("SELECT outcome FROM operation WHERE key = ?", (key,)).fetchone()[0]

    def operations(self):
        """The key, kind, transfers and outcome of each operation, in the order of their keeping."""
        rows = self.file.execute("SELECT key, kind, transfers, outcome FROM operation ORDER BY place")
        for key, kind, text, outcome in rows.fetchall():
            yield key, kind, [transfer_in(each) for each in json.loads(text)], outcome

    def close(self):
        self.file.close()


def transfer_in(fields):
    """A transfer as it was stored."""
    return Transfer(**{**fields, "flags": TransferFlag(fields["flags"])})
