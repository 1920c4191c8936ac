"""Bodies of requests and replies (docs/MESSAGES.md)."""

from __future__ import annotations

import csv
import io
import json
from dataclasses import fields
from typing import Any, Callable, Dict, Iterable, Iterator, Sequence, Tuple, TypeVar, Union

from .records import (
    Account,
    AccountFilter,
    AccountFlag,
    Balance,
    Entry,
    EntryKind,
    Hold,
    HoldState,
    OpenHold,
    PageFilter,
    QueryPage,
    Side,
    Transfer,
    TransferFlag,
    check_number,
    is_string,
)
from .results import Outcome, Result

R = TypeVar("R")


def compact(value: object) -> bytes:
    """JSON without spaces."""
    return json.dumps(value, separators=(",", ":")).encode()


def record_of(record: object) -> Dict[str, object]:
    """A record as JSON. Fields that are 0 are left out, which means the same."""
    return {
        name: str(value) if is_string(name) else int(value)
        for name, value in vars(record).items()
        if value
    }


def events_body(events: Iterable[object]) -> bytes:
    """The body of a batch."""
    return compact([record_of(event) for event in events])


def ids_body(ids: Sequence[int]) -> bytes:
    """The body of a look-up."""
    for place, each in enumerate(ids):
        check_number(f"ids[{place}].", "id", each)
    return compact([str(each) for each in ids])


def filter_body(asked: Union[AccountFilter, PageFilter]) -> bytes:
    """The body of a history or a query."""
    return compact(record_of(asked))


def object_in(body: bytes) -> Dict[str, Any]:
    """The object of a reply. `ValueError` where it is none."""
    told = json.loads(body)
    if not isinstance(told, dict):
        raise ValueError("no object")
    return told


def events_in(body: bytes) -> int:
    """The number of events of a body that was judged."""
    return whole_in("events", object_in(body)["events"])


def is_serving(body: bytes) -> bool:
    """Whether a reply tells that the service serves."""
    try:
        return object_in(body).get("serving") is True
    except ValueError:
        return False


def digits_in(told: object) -> int:
    """The number in a string of decimal digits."""
    if not (isinstance(told, str) and told.isascii() and told.isdigit()):
        raise ValueError(f"no digits: {told!r}")
    return int(told)


def whole_in(name: str, value: object) -> int:
    """The number that a field has as a JSON number. `ValueError` if it is none."""
    if isinstance(value, bool) or not isinstance(value, int):
        raise ValueError(f"{name}: {value!r}")
    return value


def number_in(told: Dict[str, Any], name: str) -> int:
    """The number that a field of a reply has. Its range is looked at where the record is made."""
    value = told[name]
    return digits_in(value) if is_string(name) else whole_in(name, value)


def _numbers(kind: Any, told: Dict[str, Any]) -> Dict[str, Any]:
    return {each.name: number_in(told, each.name) for each in fields(kind)}


def account_in(told: Dict[str, Any]) -> Account:
    """An account of a reply."""
    numbers = _numbers(Account, told)
    flags = AccountFlag(numbers.pop("flags"))
    return Account(**numbers, flags=flags)


def transfer_in(told: Dict[str, Any]) -> Transfer:
    """A transfer of a reply."""
    numbers = _numbers(Transfer, told)
    flags = TransferFlag(numbers.pop("flags"))
    return Transfer(**numbers, flags=flags)


def balance_in(told: Dict[str, Any]) -> Balance:
    """A balance of a reply."""
    return Balance(**_numbers(Balance, told))


def hold_in(told: Dict[str, Any]) -> Hold:
    """What a reply says of a hold."""
    return Hold(number_in(told, "id"), number_in(told, "due"), HoldState(told["state"]))


def open_hold_in(told: Dict[str, Any]) -> OpenHold:
    """An open hold of a reply."""
    hold, timestamp = hold_in(told), number_in(told, "timestamp")
    return OpenHold(hold.id, hold.due, hold.state, timestamp)


def result_in(told: Dict[str, Any]) -> Result:
    """The result of an event, as if it had not been sent before."""
    number, name = told["number"], told["result"]
    if isinstance(number, bool) or not isinstance(number, int) or not isinstance(name, str):
        raise ValueError(f"no result: {told!r}")
    outcome = Outcome.ACCEPTED if number == 0 else Outcome.REFUSED
    return Result(number, name, digits_in(told["timestamp"]), outcome)


def page_in(
    body: bytes, name: str, read: Callable[[Dict[str, Any]], R]
) -> Tuple[int, Tuple[R, ...]]:
    """The clock of a reply, and the records of the list with that name."""
    told = object_in(body)
    return digits_in(told["clock"]), _listed(told, name, read)


def query_page_in(body: bytes, name: str, read: Callable[[Dict[str, Any]], R]) -> QueryPage[R]:
    """The page that a reply to a query is."""
    told = object_in(body)
    return QueryPage(digits_in(told["clock"]), _listed(told, name, read), number_in(told, "next"))


def _listed(told: Dict[str, Any], name: str, read: Callable[[Dict[str, Any]], R]) -> Tuple[R, ...]:
    listed = told[name]
    if not isinstance(listed, list):
        raise ValueError(f"{name} is no list")
    return tuple(read(each) for each in listed)


def entries_in(body: bytes) -> Iterator[Entry]:
    """The entries of a statement."""
    for line in csv.DictReader(io.StringIO(body.decode("ascii"), newline="")):
        yield Entry(
            timestamp=digits_in(line["timestamp"]),
            transfer_id=digits_in(line["transfer_id"]),
            side=Side(line["side"]),
            kind=EntryKind(line["kind"]),
            amount=digits_in(line["amount"]),
            debits_pending=digits_in(line["debits_pending"]),
            debits_posted=digits_in(line["debits_posted"]),
            credits_pending=digits_in(line["credits_pending"]),
            credits_posted=digits_in(line["credits_posted"]),
        )
