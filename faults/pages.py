"""What names no account: pages of records, and what has become of holds. Questions of a tenant, and
what its plain ledger answers, byte for byte."""

import json
from functools import partial

from model import ACCOUNT_FIELDS, BALANCES, NEWEST_FIRST, TRANSFER_FIELDS, due_of

STRINGS = {"id", "debit_account_id", "credit_account_id", "amount", "pending_id", "user_data_128",
           "user_data_64", "timestamp", "timestamp_min", "timestamp_max", *BALANCES}
ACCOUNTS, TRANSFERS, OPEN = "/query/accounts", "/query/transfers", "/pending/open"
HOLDS = "/pending/lookup"
PATHS = (ACCOUNTS, TRANSFERS, OPEN, HOLDS)
MOST_IDS = 1000


def compact(value):
    return json.dumps(value, separators=(",", ":"), sort_keys=True).encode()


def as_sent(record):
    """A record's fields, as they stand in a body."""
    return {field: str(value) if field in STRINGS else value for field, value in record.items()}


def shown(record, fields, more=()):
    """A record as a reply shows it."""
    return as_sent({**{field: record[field] for field in fields},
                    "timestamp": record["timestamp"], **dict(more)})


def request(path, asked):
    """A request: with the ids of holds, or with a filter."""
    return "POST", path, compact([str(each) for each in asked] if path == HOLDS else as_sent(asked))


def reply(ledger, path, asked):
    """The body that answers it."""
    clock = str(ledger.clock)
    if path == HOLDS:
        holds = [hold(ledger, it) for it in ledger.holds(asked)]
        return compact({"clock": clock, "pending": holds})
    name, page_of, show = {ACCOUNTS: ("accounts", ledger.query_accounts, account),
                           TRANSFERS: ("transfers", ledger.query_transfers, transfer),
                           OPEN: ("pending", ledger.open_holds, open_hold)}[path]
    found, behind = page_of(asked)
    return compact({name: [show(ledger, it) for it in found], "clock": clock, "next": str(behind)})


def account(ledger, it):
    return shown(it, ACCOUNT_FIELDS, ledger.balances(it["id"]).items())


def transfer(_ledger, it):
    return shown(it, TRANSFER_FIELDS)


def hold(ledger, it):
    return {"due": str(due_of(it)), "id": str(it["id"]), "state": ledger.fate(it)}


def open_hold(ledger, it):
    return {**hold(ledger, it), "timestamp": str(it["timestamp"])}


def walk(ledger, path, asked):
    """Requests and their replies, once these are there: for a page, and for all that are behind it."""
    bound = "timestamp_max" if asked.get("flags", 0) & NEWEST_FIRST else "timestamp_min"
    while True:
        yield request(path, asked), partial(reply, ledger, path, asked)
        behind = int(json.loads(reply(ledger, path, asked))["next"])
        if behind == 0:
            return
        asked = {**asked, bound: behind}


def expected(ledger, ids):
    """What is asked wherever all of a tenant is compared, with the replies: its accounts, transfers
    and open holds from either end, those with a mark, those of a time, and what became of ids."""
    for flags in (0, NEWEST_FIRST):
        for path in (ACCOUNTS, TRANSFERS, OPEN):
            yield from walk(ledger, path, {"flags": flags, "limit": 100})
        for mark in ({"user_data_64": 2**64 - 1, "code": 1}, {"user_data_128": 3},
                     {"user_data_32": 5}):
            yield from walk(ledger, TRANSFERS, {**mark, "flags": flags, "limit": 20})
        yield from walk(ledger, ACCOUNTS, {"ledger": 7, "code": 10, "flags": flags, "limit": 3})
    times = sorted(each["timestamp"] for each in ledger.transfers.values()) or [1]
    middle = times[len(times) // 2]
    for last in (middle - 1, middle, middle + 10**9):
        between = {"timestamp_min": middle, "timestamp_max": last, "limit": 1000}
        yield from walk(ledger, TRANSFERS, between)
    for first in range(0, len(ids), MOST_IDS):
        listed = ids[first:first + MOST_IDS]
        yield request(HOLDS, listed), partial(reply, ledger, HOLDS, listed)
