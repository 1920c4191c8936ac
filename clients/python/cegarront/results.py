"""What events are answered (docs/RESULTS.md)."""

from __future__ import annotations

from dataclasses import dataclass
from enum import Enum, IntEnum
from typing import Tuple

from .errors import EventsRefused
from .records import Page


class AccountResult(IntEnum):
    """The results of an account event, in the order in which they are judged."""

    OK = 0
    LINKED_EVENT_CHAIN_OPEN = 1
    LINKED_EVENT_FAILED = 2
    TIMESTAMP_MUST_BE_ZERO = 3
    RESERVED_FLAG = 4
    ID_MUST_NOT_BE_ZERO = 5
    ID_MUST_NOT_BE_INT_MAX = 6
    EXISTS_WITH_DIFFERENT_FLAGS = 7
    EXISTS_WITH_DIFFERENT_USER_DATA_128 = 8
    EXISTS_WITH_DIFFERENT_USER_DATA_64 = 9
    EXISTS_WITH_DIFFERENT_USER_DATA_32 = 10
    EXISTS_WITH_DIFFERENT_LEDGER = 11
    EXISTS_WITH_DIFFERENT_CODE = 12
    EXISTS = 13
    FLAGS_ARE_MUTUALLY_EXCLUSIVE = 14
    DEBITS_PENDING_MUST_BE_ZERO = 15
    DEBITS_POSTED_MUST_BE_ZERO = 16
    CREDITS_PENDING_MUST_BE_ZERO = 17
    CREDITS_POSTED_MUST_BE_ZERO = 18
    LEDGER_MUST_NOT_BE_ZERO = 19
    CODE_MUST_NOT_BE_ZERO = 20


class TransferResult(IntEnum):
    """The results of a transfer event, in the order in which they are judged."""

    OK = 0
    LINKED_EVENT_CHAIN_OPEN = 1
    LINKED_EVENT_FAILED = 2
    TIMESTAMP_MUST_BE_ZERO = 3
    RESERVED_FLAG = 4
    ID_MUST_NOT_BE_ZERO = 5
    ID_MUST_NOT_BE_INT_MAX = 6
    EXISTS_WITH_DIFFERENT_FLAGS = 7
    EXISTS_WITH_DIFFERENT_PENDING_ID = 8
    EXISTS_WITH_DIFFERENT_TIMEOUT = 9
    EXISTS_WITH_DIFFERENT_DEBIT_ACCOUNT_ID = 10
    EXISTS_WITH_DIFFERENT_CREDIT_ACCOUNT_ID = 11
    EXISTS_WITH_DIFFERENT_AMOUNT = 12
    EXISTS_WITH_DIFFERENT_USER_DATA_128 = 13
    EXISTS_WITH_DIFFERENT_USER_DATA_64 = 14
    EXISTS_WITH_DIFFERENT_USER_DATA_32 = 15
    EXISTS_WITH_DIFFERENT_LEDGER = 16
    EXISTS_WITH_DIFFERENT_CODE = 17
    EXISTS = 18
    ID_ALREADY_FAILED = 60
    FLAGS_ARE_MUTUALLY_EXCLUSIVE = 19
    PENDING_ID_MUST_NOT_BE_ZERO = 20
    PENDING_ID_MUST_NOT_BE_INT_MAX = 21
    PENDING_ID_MUST_BE_DIFFERENT = 22
    TIMEOUT_RESERVED_FOR_PENDING_TRANSFER = 23
    PENDING_TRANSFER_NOT_FOUND = 24
    PENDING_TRANSFER_NOT_PENDING = 25
    PENDING_TRANSFER_HAS_DIFFERENT_DEBIT_ACCOUNT_ID = 26
    PENDING_TRANSFER_HAS_DIFFERENT_CREDIT_ACCOUNT_ID = 27
    PENDING_TRANSFER_HAS_DIFFERENT_LEDGER = 28
    PENDING_TRANSFER_HAS_DIFFERENT_CODE = 29
    EXCEEDS_PENDING_TRANSFER_AMOUNT = 30
    PENDING_TRANSFER_HAS_DIFFERENT_AMOUNT = 31
    PENDING_TRANSFER_ALREADY_POSTED = 32
    PENDING_TRANSFER_ALREADY_VOIDED = 33
    PENDING_TRANSFER_EXPIRED = 34
    DEBIT_ACCOUNT_ID_MUST_NOT_BE_ZERO = 35
    DEBIT_ACCOUNT_ID_MUST_NOT_BE_INT_MAX = 36
    CREDIT_ACCOUNT_ID_MUST_NOT_BE_ZERO = 37
    CREDIT_ACCOUNT_ID_MUST_NOT_BE_INT_MAX = 38
    ACCOUNTS_MUST_BE_DIFFERENT = 39
    PENDING_ID_MUST_BE_ZERO = 40
    LEDGER_MUST_NOT_BE_ZERO = 42
    CODE_MUST_NOT_BE_ZERO = 43
    DEBIT_ACCOUNT_NOT_FOUND = 44
    CREDIT_ACCOUNT_NOT_FOUND = 45
    ACCOUNTS_MUST_HAVE_THE_SAME_LEDGER = 46
    TRANSFER_MUST_HAVE_THE_SAME_LEDGER_AS_ACCOUNTS = 47
    OVERFLOWS_DEBITS_PENDING = 48
    OVERFLOWS_CREDITS_PENDING = 49
    OVERFLOWS_DEBITS_POSTED = 50
    OVERFLOWS_CREDITS_POSTED = 51
    OVERFLOWS_DEBITS = 52
    OVERFLOWS_CREDITS = 53
    EXCEEDS_CREDITS = 55
    EXCEEDS_DEBITS = 56


class Outcome(Enum):
    """What became of an event: all but `REFUSED` stand in the ledger with the fields sent."""

    ACCEPTED = "accepted"
    """The event was accepted, and this answer says so."""
    FOUND = "found"
    """An earlier sending of this call had no answer, and the event was found in the ledger."""
    EXISTED = "existed"
    """The event was in the ledger before this call: an id that was sent before."""
    REFUSED = "refused"
    """Nothing of the event stands by this call; `number` and `name` say why."""


@dataclass(frozen=True)
class Result:
    """What one event was answered.

    `number` and `name` are the ledger's own, as it told them. In a chain that was found whole they
    stay `exists` for the first event and `linked_event_failed` for the others: `outcome` says what
    that means. `timestamp` (nanoseconds) is that of the event's place in the batch. So it is the
    stored record's for `ACCEPTED` alone; else look the id up.
    """

    number: int
    name: str
    timestamp: int
    outcome: Outcome

    @property
    def stands(self) -> bool:
        """Whether the event stands in the ledger with the fields sent, by whichever sending."""
        return self.outcome is not Outcome.REFUSED


@dataclass(frozen=True)
class Results(Page[Result]):
    """The results of a batch, one for each event in its order, and the clock after the batch."""

    @property
    def refused(self) -> Tuple[Tuple[int, Result], ...]:
        """The place (from 0) and the result of each event that was refused."""
        return tuple((place, each) for place, each in enumerate(self.items) if not each.stands)

    def raise_for_refused(self) -> None:
        """Raises `EventsRefused` where an event was refused."""
        if self.refused:
            raise EventsRefused(self.refused)
