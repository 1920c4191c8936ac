"""Accounts, transfers, filters, and what the ledger shows of them (docs/MODEL.md).

All are frozen dataclasses whose numbers are `int`. A number outside its field's width raises
`ValueError` where the record is made, and what is no `int` (`1.0`, `"1"`, `True`) `TypeError`.
"""

from __future__ import annotations

from dataclasses import dataclass
from enum import Enum, IntFlag
from typing import Generic, Iterator, Tuple, TypeVar

MAX_128 = 2**128 - 1
"""The greatest amount: in a post the whole pending amount, in a balancing transfer all there is."""

MAX_EVENTS = 1000
"""The most events of a batch, ids of a look-up, and records of a page."""

_BITS = {
    "id": 128,
    "account_id": 128,
    "debit_account_id": 128,
    "credit_account_id": 128,
    "pending_id": 128,
    "transfer_id": 128,
    "amount": 128,
    "debits_pending": 128,
    "debits_posted": 128,
    "credits_pending": 128,
    "credits_posted": 128,
    "user_data_128": 128,
    "user_data_64": 64,
    "user_data_32": 32,
    "timestamp": 64,
    "timestamp_min": 64,
    "timestamp_max": 64,
    "due": 64,
    "next": 64,
    "timeout": 32,
    "ledger": 32,
    "code": 16,
    "flags": 16,
    "limit": 16,
}


def is_string(name: str) -> bool:
    """Whether a field is a string of digits in a message; others are JSON numbers."""
    return _BITS[name] > 32


def check_number(place: str, name: str, value: object) -> None:
    """Raises unless the value is an `int` within the field's width."""
    if isinstance(value, bool) or not isinstance(value, int):
        raise TypeError(f"{place}{name}: {value!r} is not an int")
    if not 0 <= value < 1 << _BITS[name]:
        raise ValueError(f"{place}{name}: {value} is not from 0 to 2**{_BITS[name]} - 1")


class _Record:
    """Looks at the numbers of a record as it is made."""

    def __post_init__(self) -> None:
        for name, value in vars(self).items():
            if name in _BITS:
                check_number(f"{type(self).__name__}.", name, value)


class AccountFlag(IntFlag):
    """The flags of an account. The two limits exclude each other."""

    LINKED = 1
    """The event stands or falls with the next one of its batch."""
    DEBITS_MUST_NOT_EXCEED_CREDITS = 2
    CREDITS_MUST_NOT_EXCEED_DEBITS = 4
    HISTORY = 8
    """The balances after each entry may be asked for."""


class TransferFlag(IntFlag):
    """The flags of a transfer. Pending, post and void exclude each other."""

    LINKED = 1
    """The event stands or falls with the next one of its batch."""
    PENDING = 2
    """A hold: the amount is set aside."""
    POST_PENDING_TRANSFER = 4
    """Ends the hold `pending_id`, and posts its amount or a part; the rest is released."""
    VOID_PENDING_TRANSFER = 8
    """Ends the hold `pending_id`, and posts nothing."""
    BALANCING_DEBIT = 16
    """The amount is lowered to what the debit account has left."""
    BALANCING_CREDIT = 32
    """The amount is lowered to what the credit account has left."""


class FilterFlag(IntFlag):
    """Which entries of an account a filter asks for, and in which order."""

    DEBITS = 1
    CREDITS = 2
    NEWEST_FIRST = 4


class QueryFlag(IntFlag):
    """In which order records are asked for."""

    NEWEST_FIRST = 1


class HoldState(Enum):
    """What has become of a pending transfer, by the ledger's clock."""

    OPEN = "open"
    POSTED = "posted"
    VOIDED = "voided"
    EXPIRED = "expired"


class Side(Enum):
    """The side on which a transfer has an account."""

    DEBIT = "debit"
    CREDIT = "credit"


class EntryKind(Enum):
    """What a transfer of a statement is."""

    SINGLE = "single"
    PENDING = "pending"
    POST = "post"
    VOID = "void"


@dataclass(frozen=True)
class Account(_Record):
    """An account to be opened, or as a look-up shows it.

    `id` is neither 0 nor `MAX_128`, `ledger` and `code` are not 0. The four balances and the
    timestamp (nanoseconds) are the ledger's to fill: leave them 0 in an account to be opened.
    """

    id: int
    ledger: int
    code: int
    flags: AccountFlag = AccountFlag(0)
    user_data_128: int = 0
    user_data_64: int = 0
    user_data_32: int = 0
    debits_pending: int = 0
    debits_posted: int = 0
    credits_pending: int = 0
    credits_posted: int = 0
    timestamp: int = 0

    @property
    def balance(self) -> int:
        """The posted credits minus the posted debits: what a wallet holds. A bank's account is
        usually negative."""
        return self.credits_posted - self.debits_posted


@dataclass(frozen=True)
class Transfer(_Record):
    """A transfer to be sent, or as a look-up shows it.

    `amount` is in the ledger's smallest unit, `timeout` of a pending transfer in seconds (0 is
    never), and `timestamp` in nanoseconds (the ledger's to fill). In a post or void `pending_id`
    names the hold, and what is left 0 of accounts, ledger, code and user data is the hold's.
    """

    id: int
    debit_account_id: int = 0
    credit_account_id: int = 0
    amount: int = 0
    pending_id: int = 0
    user_data_128: int = 0
    user_data_64: int = 0
    user_data_32: int = 0
    timeout: int = 0
    ledger: int = 0
    code: int = 0
    flags: TransferFlag = TransferFlag(0)
    timestamp: int = 0


@dataclass(frozen=True)
class AccountFilter(_Record):
    """Which entries of an account are asked for.

    The bounds are nanoseconds, inclusive, and 0 is none. `limit` is 1 to 1,000 records a page.
    """

    account_id: int
    timestamp_min: int = 0
    timestamp_max: int = 0
    limit: int = MAX_EVENTS
    flags: FilterFlag = FilterFlag.DEBITS | FilterFlag.CREDITS

    def __post_init__(self) -> None:
        super().__post_init__()
        _check_page("AccountFilter", self.limit, self.flags, 7)


@dataclass(frozen=True)
class PageFilter(_Record):
    """Of what times records are asked for, and in which order.

    The bounds are nanoseconds, inclusive, and 0 is none. `limit` is 1 to 1,000 records a page.
    """

    timestamp_min: int = 0
    timestamp_max: int = 0
    limit: int = MAX_EVENTS
    flags: QueryFlag = QueryFlag(0)

    def __post_init__(self) -> None:
        super().__post_init__()
        _check_page(type(self).__name__, self.limit, self.flags, 1)


@dataclass(frozen=True)
class QueryFilter(PageFilter):
    """Which accounts or transfers are asked for: those that have each value given. 0 is any."""

    user_data_128: int = 0
    user_data_64: int = 0
    user_data_32: int = 0
    ledger: int = 0
    code: int = 0


def _check_page(kind: str, limit: int, flags: int, most: int) -> None:
    if not 1 <= limit <= MAX_EVENTS:
        raise ValueError(f"{kind}.limit: {limit} is not from 1 to {MAX_EVENTS}")
    if flags > most:
        raise ValueError(f"{kind}.flags: {int(flags)} is not from 0 to {most}")


@dataclass(frozen=True)
class Hold(_Record):
    """What has become of the pending transfer `id`. `due` is when it expires (nanoseconds), or was
    to expire if it was posted or voided before; 0 is never."""

    id: int
    due: int
    state: HoldState


@dataclass(frozen=True)
class OpenHold(Hold):
    """A hold that is open, with the time at which it was accepted (nanoseconds)."""

    timestamp: int


@dataclass(frozen=True)
class Balance(_Record):
    """An account's balances after the entry with this timestamp (nanoseconds)."""

    timestamp: int
    debits_pending: int
    debits_posted: int
    credits_pending: int
    credits_posted: int


@dataclass(frozen=True)
class Entry(_Record):
    """A line of an account's statement: a transfer, and the account's balances after it."""

    timestamp: int
    transfer_id: int
    side: Side
    kind: EntryKind
    amount: int
    debits_pending: int
    debits_posted: int
    credits_pending: int
    credits_posted: int


T = TypeVar("T")


@dataclass(frozen=True)
class Page(Generic[T]):
    """What a request was told: its items, and the ledger's clock (nanoseconds) as it was asked."""

    clock: int
    items: Tuple[T, ...]

    def __iter__(self) -> Iterator[T]:
        return iter(self.items)

    def __len__(self) -> int:
        return len(self.items)

    def __getitem__(self, place: int) -> T:
        return self.items[place]


@dataclass(frozen=True)
class QueryPage(Page[T]):
    """A page of a query, and the time with which the one behind it is asked for: as
    `timestamp_min`, or the newest first as `timestamp_max`. It is 0 where there is no more. A page
    may have fewer than `limit` items, or none, and another behind it."""

    next: int
