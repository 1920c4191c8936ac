"""A client for `ledgerd`, the double-entry ledger service of the project Cegarront.

    from cegarront import Ledger, Transfer, new_id

    ledger = Ledger("http://127.0.0.1:8080", key)
    results = ledger.create_transfers([Transfer(id=new_id(), ...)])
    results.raise_for_refused()

It needs the standard library alone, and Python 3.9 or later. Numbers are `int`: amounts are whole
numbers in a currency's smallest unit, timestamps are nanoseconds since 1970, ids have 128 bits.
"""

from .aio import AsyncLedger
from .errors import BadReply, Detail, EventsRefused, LedgerError, Refused, Unanswered
from .ids import new_id
from .ledger import Ledger
from .records import (
    MAX_128,
    MAX_EVENTS,
    Account,
    AccountFilter,
    AccountFlag,
    Balance,
    Entry,
    EntryKind,
    FilterFlag,
    Hold,
    HoldState,
    OpenHold,
    Page,
    PageFilter,
    QueryFilter,
    QueryFlag,
    QueryPage,
    Side,
    Transfer,
    TransferFlag,
)
from .results import AccountResult, Outcome, Result, Results, TransferResult

__all__ = [
    "MAX_128",
    "MAX_EVENTS",
    "Account",
    "AccountFilter",
    "AccountFlag",
    "AccountResult",
    "AsyncLedger",
    "BadReply",
    "Balance",
    "Entry",
    "EntryKind",
    "Detail",
    "EventsRefused",
    "FilterFlag",
    "Hold",
    "HoldState",
    "Ledger",
    "LedgerError",
    "OpenHold",
    "Outcome",
    "Page",
    "PageFilter",
    "QueryFilter",
    "QueryFlag",
    "QueryPage",
    "Refused",
    "Result",
    "Results",
    "Side",
    "Transfer",
    "TransferFlag",
    "TransferResult",
    "Unanswered",
    "new_id",
]
