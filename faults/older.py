"""Files of older versions of the schema, as docs/STORAGE.md has their tables, made of plain ledgers
by a stock SQLite."""

import os
import sqlite3

from copies import copy, remove
from drawn import LEDGER, Requests, transfer
from model import PENDING, POST, VOID, Ledger
from plain_audit import (ACCOUNT_COLUMNS, TRANSFER_COLUMNS, balance_rows, history_rows,
                         status_rows)
from runs import NAMES
from service import want

FIRST_TABLES = (
    "CREATE TABLE schema (one INTEGER PRIMARY KEY NOT NULL CHECK (one = 1), "
    "version INTEGER NOT NULL) STRICT",
    "CREATE TABLE tenant (no INTEGER PRIMARY KEY NOT NULL, name TEXT NOT NULL UNIQUE, "
    "digest BLOB NOT NULL UNIQUE CHECK (length(digest) = 32)) STRICT",
    "CREATE TABLE clock (tenant INTEGER PRIMARY KEY NOT NULL REFERENCES tenant (no), "
    "clock INTEGER NOT NULL) STRICT",
)
# The others: their columns, blobs with their length and whole numbers, and their keys.
COLUMNS = {
    "account": "tenant id:16 user_data_128:16 user_data_64:8 user_data_32 ledger code flags "
               "timestamp",
    "transfer": "tenant id:16 debit:16 credit:16 amount:16 pending_id:16 user_data_128:16 "
                "user_data_64:8 user_data_32 timeout ledger code flags timestamp at_clock",
    "balance": "tenant account:16 dp:16 dd:16 cp:16 cc:16",
    "status": "tenant transfer:16 state due",
    "history": "tenant account:16 timestamp dp:16 dd:16 cp:16 cc:16",
    "failed": "tenant id:16",
}
KEYS = {
    "account": ("tenant, id", "tenant, timestamp"),
    "transfer": ("tenant, id", "tenant, timestamp"),
    "balance": ("tenant, account",),
    "status": ("tenant, transfer",),
    "history": ("tenant, account, timestamp",),
    "failed": ("tenant, id",),
}
TABLES = {
    1: ("schema", "tenant", "clock", "account", "transfer"),
    2: ("schema", "tenant", "clock", "account", "transfer", "balance", "status", "history"),
    3: ("schema", "tenant", "clock", "account", "transfer", "balance", "status", "history",
        "failed"),
}
FATES = {"open", "posted", "voided", "expired"}


def tenants(random):
    """Three, each a number, a name, a digest and a ledger. The last one's has nothing in it."""
    ledgers = [drawn(random, 10**6), drawn(random, 2 * 10**6), Ledger()]
    numbers = sorted(random.sample(range(1, 100), 3))
    return [(number, name, random.randbytes(32), ledger)
            for number, name, ledger in zip(numbers, NAMES, ledgers)]


def drawn(random, first):
    """A ledger of random batches, and of pending transfers of each fate."""
    ledger, requests, moment = Ledger(), Requests(random, first), 10**18
    events = requests.accounts()
    ledger.batch(events, moment + len(events), False)
    for events in (requests.batch(), held(first), ended(first), requests.batch(), requests.batch()):
        moment += random.randrange(10**9, 2 * 10**9)
        ledger.batch(events, moment + len(events), True)
    want(fates(ledger) == FATES, f"{fates(ledger)} are not all fates")
    return ledger


def held(first):
    """Pending transfers behind an id: for good, for an hour, and for a second."""
    return [transfer(first - number, debit_account_id=5, credit_account_id=6, amount=10,
                     ledger=LEDGER, code=1, flags=PENDING, timeout=timeout)
            for number, timeout in enumerate((0, 3600, 1, 0, 3600), 1)]


def ended(first):
    """The last two of them, posted in part and voided."""
    return [transfer(first - 6, pending_id=first - 4, amount=7, flags=POST),
            transfer(first - 7, pending_id=first - 5, flags=VOID)]


def fates(ledger):
    return {ledger.ending(each, ledger.clock) for each in ledger.transfers.values()
            if each["flags"] & PENDING}


def rows_of(version, listed):
    """The rows of all tables that tenants have in a version, in the order of their keys. No id has
    failed."""
    rows = {"schema": [(1, version)],
            "tenant": [(no, name, digest) for no, name, digest, _ in listed],
            "clock": [(no, ledger.clock) for no, _, _, ledger in listed]}
    for table in TABLES[version][3:]:
        rows[table] = [cells(table, (no, *row)) for no, _, _, ledger in listed
                       for row in ledger_rows(table, ledger)]
    return rows


def ledger_rows(table, ledger):
    """A ledger's rows in a table, as numbers."""
    if table in ("account", "transfer"):
        kept, columns = ((ledger.accounts, ACCOUNT_COLUMNS) if table == "account"
                         else (ledger.transfers, TRANSFER_COLUMNS))
        return [tuple(kept[number][name] for name in columns) for number in sorted(kept)]
    derived = {"balance": balance_rows, "status": status_rows, "history": history_rows}
    return derived[table](ledger) if table in derived else []


def cells(table, row):
    """A row of numbers as it is stored."""
    lengths = [column.partition(":")[2] for column in COLUMNS[table].split()]
    return tuple(value.to_bytes(int(length), "big") if length else value
                 for length, value in zip(lengths, row))


def create(table):
    """The text that makes a table."""
    columns = []
    for column in COLUMNS[table].split():
        name, _, length = column.partition(":")
        kind = f"BLOB NOT NULL CHECK (length({name}) = {length})" if length else "INTEGER NOT NULL"
        columns.append(f"{name} {kind}{' REFERENCES tenant (no)' if name == 'tenant' else ''}")
    kinds = ("PRIMARY KEY", "UNIQUE")
    columns += [f"{kind} ({key})" for kind, key in zip(kinds, KEYS[table])]
    return f"CREATE TABLE {table} ({', '.join(columns)}) STRICT"


def texts_of(version):
    """Those that make all tables of a version."""
    return [*FIRST_TABLES, *map(create, TABLES[version][3:])]


def write(path, version, listed):
    """Writes the ledger of some tenants in a version, as a program of that version has left it that
    was ended: the rows stand in the log."""
    made = path + ".made"
    connection = sqlite3.connect(made, isolation_level=None)
    run_all(connection, "PRAGMA journal_mode = WAL", "PRAGMA wal_autocheckpoint = 0", "BEGIN",
            *texts_of(version), "COMMIT", "PRAGMA wal_checkpoint(TRUNCATE)", "BEGIN")
    for table, rows in rows_of(version, listed).items():
        for row in rows:
            marks = ", ".join("?" * len(row))
            connection.execute(f"INSERT INTO {table} VALUES ({marks})", row)
    connection.execute("COMMIT")
    copy(made, path)
    os.remove(path + "-shm")
    connection.close()
    remove(made)


def run_all(connection, *texts):
    for text in texts:
        connection.execute(text).fetchall()
