"""What each call sends, and how it reads the replies, independent of the transport.

A call is a generator. It yields the messages that it needs, one after the other, receives the reply
to each, and returns the call's answer. `Ledger` and `AsyncLedger` send the messages.
"""

from __future__ import annotations

import csv
from dataclasses import replace
from typing import Callable, Dict, Generator, Iterable, Iterator, List, Optional, Sequence
from typing import Any, Type, TypeVar

from . import wire
from .chains import (
    Event,
    account_stands,
    chains_of,
    ids_to_look_up,
    may_stand,
    transfer_stands,
)
from .errors import BadReply, LedgerError, Refused
from .records import (
    MAX_EVENTS,
    Account,
    AccountFilter,
    Balance,
    Entry,
    FilterFlag,
    Hold,
    OpenHold,
    Page,
    PageFilter,
    QueryFilter,
    QueryFlag,
    QueryPage,
    Transfer,
    check_number,
)
from .results import AccountResult, Outcome, Results, TransferResult
from .transport import Answer, Message, Reply, detail_in, refusal_in

R = TypeVar("R")
Asked = TypeVar("Asked", bound=PageFilter)
Dated = TypeVar("Dated", Transfer, Balance)
Call = Generator[Message, Reply, R]

HEALTH = Message("GET", "/health")
_UNREADABLE = (ValueError, KeyError, TypeError, AttributeError, csv.Error)


def create_accounts(accounts: Iterable[Account]) -> Call[Results]:
    events = _events(accounts, Account)
    return _batch("/accounts", events, AccountResult.EXISTS, _accounts_stand)


def create_transfers(transfers: Iterable[Transfer]) -> Call[Results]:
    events = _events(transfers, Transfer)
    return _batch("/transfers", events, TransferResult.EXISTS, _transfers_stand)


def lint_accounts(accounts: Iterable[Account]) -> Call[int]:
    return _judged("/lint/accounts", _events(accounts, Account))


def lint_transfers(transfers: Iterable[Transfer]) -> Call[int]:
    return _judged("/lint/transfers", _events(transfers, Transfer))


def lookup_accounts(ids: Iterable[int]) -> Call[Page[Account]]:
    return _look_up("/accounts/lookup", ids, "accounts", wire.account_in)


def lookup_transfers(ids: Iterable[int]) -> Call[Page[Transfer]]:
    return _look_up("/transfers/lookup", ids, "transfers", wire.transfer_in)


def lookup_pending(ids: Iterable[int]) -> Call[Page[Hold]]:
    return _look_up("/pending/lookup", ids, "pending", wire.hold_in)


def get_account_transfers(asked: AccountFilter) -> Call[Page[Transfer]]:
    return _page("/history/transfers", wire.filter_body(asked), "transfers", wire.transfer_in)


def get_account_balances(asked: AccountFilter) -> Call[Page[Balance]]:
    return _page("/history/balances", wire.filter_body(asked), "balances", wire.balance_in)


def query_accounts(asked: QueryFilter) -> Call[QueryPage[Account]]:
    return _query("/query/accounts", asked, "accounts", wire.account_in)


def query_transfers(asked: QueryFilter) -> Call[QueryPage[Transfer]]:
    return _query("/query/transfers", asked, "transfers", wire.transfer_in)


def open_pending(asked: PageFilter) -> Call[QueryPage[OpenHold]]:
    return _query("/pending/open", asked, "pending", wire.open_hold_in)


def statement(account_id: int) -> Call[Iterator[Entry]]:
    check_number("", "account_id", account_id)
    return _statement(Message("GET", f"/statement/{account_id}"))


def serves(answer: Answer) -> bool:
    """Whether an answer to `HEALTH` says that the service serves."""
    if not answer.is_final():
        return False
    if answer.status != 200 or not wire.is_serving(answer.body):
        raise BadReply(f"{HEALTH.path}: status {answer.status}, and no reply about health")
    return True


def next_page(asked: AccountFilter, page: Page[Dated]) -> Optional[AccountFilter]:
    """The filter for the page after this one of an account, or None after the last."""
    if len(page) < asked.limit:
        return None
    last = page[-1].timestamp
    if not asked.flags & FilterFlag.NEWEST_FIRST:
        return replace(asked, timestamp_min=last + 1)
    # A bound of 0 would be none.
    return replace(asked, timestamp_max=last - 1) if last > 1 else None


def next_query(asked: Asked, page: QueryPage[R]) -> Optional[Asked]:
    """The filter for the page after this one of a query, or None after the last."""
    if page.next == 0:
        return None
    if asked.flags & QueryFlag.NEWEST_FIRST:
        return replace(asked, timestamp_max=page.next)
    return replace(asked, timestamp_min=page.next)


def number_after(number: int, page: QueryPage[Transfer]) -> int:
    """The number with which a follower continues after a page."""
    later = page.next or page.clock + 1
    if later < number:
        raise LedgerError(f"the clock {page.clock} is behind {number}: an older ledger")
    return later


def _batch(
    path: str,
    events: Sequence[Event],
    exists: int,
    stand: Callable[[Sequence[Event]], Call[bool]],
) -> Call[Results]:
    message = Message("POST", path, wire.events_body(events), is_batch=True)
    reply = yield message
    clock, told = _read(message, reply, lambda body: wire.page_in(body, "results", wire.result_in))
    if len(told) != len(events):
        raise BadReply(f"{len(told)} results for {len(events)} events", may_be_booked=True)
    there = Outcome.FOUND if reply.is_repeated else Outcome.EXISTED
    results = list(told)
    for places in chains_of(events):
        numbers = [told[place].number for place in places]
        chain = [events[place] for place in places]
        if numbers == [exists] or (may_stand(numbers, exists) and (yield from stand(chain))):
            for place in places:
                results[place] = replace(told[place], outcome=there)
    return Results(clock, tuple(results))


def _accounts_stand(chain: Sequence[Account]) -> Call[bool]:
    """Whether all accounts of a chain exist with the fields sent."""
    ids = [each.id for each in chain]
    found = yield from _found("/accounts/lookup", ids, "accounts", wire.account_in)
    return all(account_stands(each, found.get(each.id)) for each in chain)


def _transfers_stand(chain: Sequence[Transfer]) -> Call[bool]:
    """Whether all transfers of a chain exist with the fields sent."""
    ids = ids_to_look_up(chain)
    found = yield from _found("/transfers/lookup", ids, "transfers", wire.transfer_in)
    return all(transfer_stands(each, found) for each in chain)


def _found(
    path: str, ids: Sequence[int], name: str, read: Callable[[Dict[str, Any]], Event]
) -> Call[Dict[int, Event]]:
    """The records that exist of a chain that was answered, by their ids. If the look-up fails, its
    error says that the chain may be booked."""
    found: Dict[int, Event] = {}
    try:
        for first in range(0, len(ids), MAX_EVENTS):
            body = wire.ids_body(ids[first : first + MAX_EVENTS])
            page = yield from _page(path, body, name, read)
            found.update((each.id, each) for each in page)
    except LedgerError as error:
        error.may_be_booked = True
        raise
    return found


def _judged(path: str, events: Sequence[Event]) -> Call[int]:
    message = Message("POST", path, wire.events_body(events))
    reply = yield message
    return _read(message, reply, wire.events_in)


def _look_up(
    path: str, ids: Iterable[int], name: str, read: Callable[[Dict[str, Any]], R]
) -> Call[Page[R]]:
    listed = tuple(ids)
    _check_count(len(listed), "ids")
    return _page(path, wire.ids_body(listed), name, read)


def _page(
    path: str, body: bytes, name: str, read: Callable[[Dict[str, Any]], R]
) -> Call[Page[R]]:
    message = Message("POST", path, body)
    reply = yield message
    clock, items = _read(message, reply, lambda body: wire.page_in(body, name, read))
    return Page(clock, items)


def _query(
    path: str, asked: PageFilter, name: str, read: Callable[[Dict[str, Any]], R]
) -> Call[QueryPage[R]]:
    message = Message("POST", path, wire.filter_body(asked))
    reply = yield message
    return _read(message, reply, lambda body: wire.query_page_in(body, name, read))


def _statement(message: Message) -> Call[Iterator[Entry]]:
    reply = yield message
    return _entries(_read(message, reply, bytes))


def _entries(body: bytes) -> Iterator[Entry]:
    try:
        yield from wire.entries_in(body)
    except _UNREADABLE as error:
        raise BadReply(f"statement: {error}") from error


def _read(message: Message, reply: Reply, read: Callable[[bytes], R]) -> R:
    """What the reply to a message says."""
    if reply.status != 200:
        name = refusal_in(reply.status, reply.body)
        if name is not None:
            is_open = message.is_batch and reply.is_repeated
            raise Refused(reply.status, name, is_open, detail_in(reply.body))
        raise BadReply(f"status {reply.status} without a refusal's name", message.is_batch)
    try:
        return read(reply.body)
    except _UNREADABLE as error:
        raise BadReply(f"{message.path}: {error}", message.is_batch) from error


def _check_count(count: int, what: str) -> None:
    if count > MAX_EVENTS:
        raise ValueError(f"{count} {what}, and at most {MAX_EVENTS} may be sent at once")


def _events(events: Iterable[Event], kind: Type[Event]) -> List[Event]:
    """The events of a batch, as they are sent: nothing is split or added."""
    listed = list(events)
    for place, event in enumerate(listed):
        if not isinstance(event, kind):
            raise TypeError(f"event {place}: {event!r} is no {kind.__name__}")
    _check_count(len(listed), "events")
    return listed
