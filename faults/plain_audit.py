"""What `ledgerd check` ought to say of a file, from the rows that a stock SQLite reads in it: the
kinds of damage of docs/OPERATING.md, over the plain ledger of `model.py`."""

import re
import sqlite3

from model import ACCOUNT_FIELDS, LATEST, PENDING, TRANSFER_FIELDS, Ledger, due_of
from service import want

TABLES = ("schema", "tenant", "clock", "account", "transfer", "balance", "status", "history",
          "failed")
KEYS = {"clock": 1, "account": 2, "transfer": 2, "balance": 2, "status": 2, "history": 3,
        "failed": 2}
STATES = {"open": 0, "posted": 1, "voided": 2, "expired": 3}
ACCOUNT_COLUMNS = ACCOUNT_FIELDS + ("timestamp",)
TRANSFER_COLUMNS = ("id", "debit_account_id", "credit_account_id", "amount", "pending_id",
                    "user_data_128", "user_data_64", "user_data_32", "timeout", "ledger", "code",
                    "flags", "timestamp", "at")
WIDTHS = {"user_data_32": 32, "ledger": 32, "timeout": 32, "code": 16, "flags": 16,
          "timestamp": 63, "at": 63}
# Sums in the order of their columns: debits pending and posted, credits pending and posted.
SUMS = ("debits_pending", "debits_posted", "credits_pending", "credits_posted")
FAULTS = {"unreadable", "not_a_ledger", "old_schema", "newer_schema", "unavailable", "behind"}


def number(cell):
    return int.from_bytes(cell, "big") if isinstance(cell, bytes) else cell


def rows_of(path):
    """All rows of the nine tables, as numbers and texts, in the order of their keys."""
    with sqlite3.connect(path) as connection:
        found = {}
        for table in TABLES:
            order = ", ".join(map(str, range(1, KEYS.get(table, 1) + 1)))
            rows = connection.execute(f"SELECT * FROM {table} ORDER BY {order}").fetchall()
            found[table] = [tuple(row) if table == "tenant" else tuple(map(number, row))
                            for row in rows]
    connection.close()
    return found


def verdict(rows):
    """What `check` says: `ok`, or (kind, digest, place), or a set of faults."""
    if rows["schema"] != [(1, 3)]:
        return FAULTS
    directory = {no: (name, digest) for no, name, digest in rows["tenant"]}
    if any(row[0] not in directory for table in KEYS for row in rows[table]):
        return FAULTS
    if not all(re.fullmatch(r"[A-Za-z0-9-]{1,64}", name) for name, _ in directory.values()):
        return FAULTS
    damages = []
    for no, (_, digest) in directory.items():
        own = {table: [row[1:] for row in rows[table] if row[0] == no] for table in KEYS}
        found = Tenant(own).damage()
        if found:
            damages.append((found[0], digest.hex(), found[1]))
    return min(damages, default="ok")


def first(bad):
    """The first place that is bad."""
    return next((place for place, is_bad in enumerate(bad) if is_bad), None)


def least(*places):
    return min((place for place in places if place is not None), default=None)


def difference(rows, expected):
    """The first place at which two lists differ."""
    longest = max(len(rows), len(expected))
    return first(rows[place:place + 1] != expected[place:place + 1] for place in range(longest))


def sums(balances):
    return tuple(balances[name] for name in SUMS)


def balance_rows(ledger):
    """The rows of `balance` that a ledger has at its clock."""
    return [(each, *sums(ledger.balances(each))) for each in sorted(ledger.accounts)]


def status_rows(ledger):
    """Those of `status`."""
    return sorted((each["id"], STATES[ledger.ending(each, ledger.clock)], due_of(each))
                  for each in ledger.transfers.values() if each["flags"] & PENDING)


def history_rows(ledger):
    """Those of `history`."""
    return sorted((account, each["timestamp"],
                   *sums(ledger.balances(account, each["at"], each["timestamp"])))
                  for each in ledger.transfers.values()
                  for account in (each["debit_account_id"], each["credit_account_id"]))


class Tenant:
    """The rows of one tenant, and the ledger that its entries lead to."""

    def __init__(self, rows):
        self.rows, self.ledger = rows, Ledger()
        self.accounts = [dict(zip(ACCOUNT_COLUMNS, row)) for row in rows["account"]]
        self.transfers = [dict(zip(TRANSFER_COLUMNS, row)) for row in rows["transfer"]]

    def damage(self):
        """The first kind and its first place."""
        kinds = (self.shape, self.timestamps, self.entries, self.balances, self.statuses,
                 self.history, self.clock, self.failed)
        for kind, find in enumerate(kinds, 1):
            place = find()
            if place is not None:
                return kind, place
        return None

    def shape(self):
        clocks = self.rows["clock"]
        no_clock = 0 if len(clocks) != 1 or clocks[0][0] < 0 else None
        lists = [[any(not 0 <= row[field] < 2**WIDTHS[field] for field in row if field in WIDTHS)
                  for row in rows] for rows in (self.accounts, self.transfers)]
        lists.append([state < 0 or due < 0 for _, state, due in self.rows["status"]])
        lists.append([row[1] < 0 for row in self.rows["history"]])
        return least(no_clock, *map(first, lists))

    def timestamps(self):
        opened = [row["timestamp"] for row in self.accounts]
        moved = [row["timestamp"] for row in self.transfers]
        every = opened + moved
        return least(first(time == 0 or opened.count(time) > 1 for time in opened),
                     first(time == 0 or every.count(time) > 1 for time in moved))

    def entries(self):
        """Each entry is judged behind those before it, at its batch's clock."""
        entries = [(row["timestamp"], row, place, False) for place, row in enumerate(self.accounts)]
        entries += [(row["timestamp"], row, place, True)
                    for place, row in enumerate(self.transfers)]
        for _, row, place, moved in sorted(entries, key=lambda entry: entry[0]):
            if not (self.is_next_transfer(row) if moved else self.is_next_account(row)):
                return place
        return None

    def comes(self, clock, timestamp):
        """The clock comes to the entry's, if it can, and the timestamp is of its last batch."""
        if not self.ledger.clock <= clock <= LATEST:
            return False
        self.ledger.clock = clock
        return timestamp <= clock < timestamp + 1000

    def is_next_account(self, row):
        event = {**row, "timestamp": 0}
        clock = max(self.ledger.clock, row["timestamp"])
        return (self.comes(clock, row["timestamp"])
                and self.ledger.account(event, row["timestamp"]) == 0)

    def is_next_transfer(self, row):
        if not self.comes(row["at"], row["timestamp"]):
            return False
        event = {field: row[field] for field in TRANSFER_FIELDS}
        if self.ledger.transfer(event, row["timestamp"]) != 0:
            return False
        kept = self.ledger.transfers[row["id"]]
        return all(kept[field] == row[field] for field in TRANSFER_FIELDS)

    def balances(self):
        self.settle()
        return difference(self.rows["balance"], balance_rows(self.ledger))

    def settle(self):
        """The clock comes to the one that is told, if it can."""
        told = self.rows["clock"][0][0]
        self.latest = self.ledger.clock
        if self.latest <= told <= LATEST:
            self.ledger.clock = told

    def statuses(self):
        return difference(self.rows["status"], status_rows(self.ledger))

    def history(self):
        return difference(self.rows["history"], history_rows(self.ledger))

    def clock(self):
        return None if self.latest <= self.rows["clock"][0][0] <= LATEST else 0

    def failed(self):
        ids = [row[0] for row in self.rows["failed"]]
        return first(each in (0, 2**128 - 1) or each in self.ledger.transfers for each in ids)


def agrees(told, expected):
    """Whether what `check` said is what was expected. Damage is told by kind, digest and place."""
    status, out, err = told
    if isinstance(expected, set):
        word = err.removeprefix("ledgerd: ").rstrip("\n")
        word = "behind" if word.startswith("behind\n") else word
        return out == "" and word in expected and status == (3 if word == "unavailable" else 4)
    if expected == "ok":
        return told == (0, "ok\n", "")
    return told == (4, "damaged {} {} {}\n".format(*expected), "")


def expect(told, path, what):
    """Compares what `check` said with what the rows say to SQLite."""
    expected = verdict(rows_of(path))
    want(agrees(told, expected), f"{what}: check says {told}, not {expected}")
    return expected
