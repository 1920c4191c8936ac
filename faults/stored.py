"""All rows of a ledger's file, as a stock SQLite reads them, beside those of the plain ledgers."""

from asking import digest_of
from copies import copy, remove
from plain_audit import (ACCOUNT_COLUMNS, KEYS, TRANSFER_COLUMNS, balance_rows, rows_of,
                         status_rows, sums)
from service import want

# The sums of so many entries of each tenant are made anew, which is slow.
SUMMED = 200


def look_at_rows(house, desks, random):
    """Each of these tenants has its plain ledger's rows in a file that nobody serves. How many rows
    there are."""
    seen = f"{house.db}-seen"
    copy(house.db, seen)
    rows = rows_of(seen)
    remove(seen)
    numbers = {digest.hex(): number for number, _, digest in rows["tenant"]}
    parts = {table: {number: [] for number in numbers.values()} for table in KEYS}
    for table in KEYS:
        for number, *row in rows[table]:
            parts[table][number].append(tuple(row))
    for desk in desks:
        number = numbers[digest_of(desk.key)]
        compare(desk.ledger, {table: parts[table][number] for table in KEYS}, random)
    return sum(len(rows[table]) for table in KEYS)


def compare(ledger, own, random):
    """A tenant's rows, each table's in the order of its key. Its clock may have come to a time at which
    a hold is due."""
    ledger.reach(own["clock"][0][0])
    expected = {
        "clock": [(ledger.clock,)],
        "account": records(ledger.accounts, ACCOUNT_COLUMNS),
        "transfer": records(ledger.transfers, TRANSFER_COLUMNS),
        "balance": balance_rows(ledger),
        "status": status_rows(ledger),
        "failed": [(number,) for number in sorted(ledger.failed)],
    }
    for table, rows in expected.items():
        want(own[table] == rows, f"the rows of {table}: {differing(own[table], rows)}")
    entries = sorted((account, each["timestamp"], each["at"]) for each in ledger.transfers.values()
                     for account in (each["debit_account_id"], each["credit_account_id"]))
    kept = {row[:2]: row[2:] for row in own["history"]}
    want(list(kept) == [entry[:2] for entry in entries] and len(kept) == len(own["history"]),
         "the rows of history are of other entries")
    for account, stamp, at in random.sample(entries, min(SUMMED, len(entries))):
        told, plain = kept[account, stamp], sums(ledger.balances(account, at, stamp))
        want(told == plain, f"the history of {account} at {stamp}: {told}, not {plain}")


def records(kept, columns):
    return [tuple(kept[number][name] for name in columns) for number in sorted(kept)]


def differing(rows, expected):
    """The first that differ."""
    pairs = zip([*rows, None], [*expected, None])
    return next((pair for pair in pairs if pair[0] != pair[1]), "one has more")
