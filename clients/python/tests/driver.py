"""The client as a process that clients/harness drives: one call per line, and its result.

    python3 clients/python/tests/driver.py [async]

With `async` the client is the one for asyncio."""

import asyncio
import inspect
import json
import pathlib
import sys
from dataclasses import fields

sys.path.insert(0, str(pathlib.Path(__file__).resolve().parents[1]))

from cegarront import (  # noqa: E402
    Account,
    AccountFilter,
    AccountFlag,
    AsyncLedger,
    BadReply,
    EventsRefused,
    FilterFlag,
    Ledger,
    LedgerError,
    PageFilter,
    QueryFilter,
    QueryFlag,
    Refused,
    Transfer,
    TransferFlag,
    Unanswered,
)
from cegarront.records import is_string  # noqa: E402

FLAGS = {Account: AccountFlag, Transfer: TransferFlag, AccountFilter: FilterFlag,
         QueryFilter: QueryFlag, PageFilter: QueryFlag}
ASKED = {"get_account_transfers": AccountFilter, "get_account_balances": AccountFilter,
         "iter_account_transfers": AccountFilter, "iter_account_balances": AccountFilter,
         "query_accounts": QueryFilter, "query_transfers": QueryFilter,
         "iter_accounts": QueryFilter, "iter_transfers": QueryFilter,
         "open_pending": PageFilter, "iter_open_pending": PageFilter}
KINDS = {Refused: "refused", Unanswered: "unanswered", BadReply: "bad_reply",
         EventsRefused: "events_refused", LedgerError: "older_ledger"}


def record(kind, told):
    """A record of a case as one of the client's."""
    numbers = {name: int(value) for name, value in told.items()}
    if "flags" in numbers:
        numbers["flags"] = FLAGS[kind](numbers["flags"])
    return kind(**numbers)


def shown(value):
    """A record of the client as a reply shows it."""
    told = {}
    for each in fields(value):
        it = getattr(value, each.name)
        if hasattr(it, "value") and isinstance(it.value, str):
            told[each.name] = it.value
        else:
            told[each.name] = str(it) if is_string(each.name) else int(it)
    if isinstance(value, Account):
        told["balance"] = str(getattr(value, "balance", None))
    return told


def batch(results, all_stand):
    if all_stand:
        results.raise_for_refused()
    return {"clock": str(results.clock), "results": [
        {"number": each.number, "result": each.name, "timestamp": str(each.timestamp),
         "outcome": each.outcome.value} for each in results]}


def page(told):
    answer = {"clock": str(told.clock), "items": [shown(each) for each in told]}
    return {**answer, "next": str(told.next)} if hasattr(told, "next") else answer


async def value_of(told):
    """The result of a call of either form."""
    if inspect.isawaitable(told):
        return await told
    return [each async for each in told] if hasattr(told, "__aiter__") else told


async def answer(ledger, asked):
    call = asked["call"]
    if "events" in asked:
        kind = Account if call.endswith("accounts") else Transfer
        events = [record(kind, each) for each in asked["events"]]
        told = await value_of(getattr(ledger, call)(events))
        return {"events": told} if call.startswith("lint_") else batch(told, asked.get("all"))
    if call in ASKED:
        told = await value_of(getattr(ledger, call)(record(ASKED[call], asked["asked"])))
        if call.startswith("iter_"):
            return {"items": [shown(each) for each in told]}
        return page(told)
    if call == "follow":
        limit = {"limit": asked["limit"]} if "limit" in asked else {}
        pages = await value_of(ledger.follow(int(asked["number"]), **limit))
        return {"pages": [{"items": [shown(each) for each in transfers], "number": str(number)}
                          for transfers, number in pages]}
    if call == "statement":
        entries = await value_of(ledger.statement(int(asked["account"])))
        return {"items": [shown(each) for each in entries]}
    if call == "health":
        return {"serving": await value_of(ledger.health())}
    return page(await value_of(getattr(ledger, call)([int(each) for each in asked["ids"]])))


def failure(error):
    if isinstance(error, (TypeError, ValueError)):
        return {"kind": "invalid", "text": str(error)}
    told = {"kind": KINDS[type(error)], "text": str(error), "may_be_booked": error.may_be_booked}
    if isinstance(error, Refused):
        told.update(name=error.name, status=error.status)
        told.update(error.detail._asdict())
    if isinstance(error, EventsRefused):
        first = getattr(error, "first", error.refused[0])
        told.update(event=first[0], name=first[1].name)
    return told


async def main(kind):
    ledger = None
    while line := await asyncio.to_thread(sys.stdin.readline):
        asked = json.loads(line)
        try:
            if "open" in asked:
                told = asked["open"]
                ledger = kind(told["url"], told["key"], deadline=told["deadline"])
                given = {}
            else:
                given = await answer(ledger, asked)
        except (LedgerError, TypeError, ValueError) as error:
            given = {"error": failure(error)}
        print(json.dumps(given), flush=True)


if __name__ == "__main__":
    asyncio.run(main(AsyncLedger if sys.argv[1:] == ["async"] else Ledger))
