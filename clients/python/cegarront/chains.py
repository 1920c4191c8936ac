"""Chains that were sent again, and whether they stand.

A chain stands or falls whole, and inside it `exists` is a failure. So a chain that was accepted,
sent again, answers `exists` for its first event and `linked_event_failed` for all others, as does
one of which an event or two are there by another request. A look-up of all its ids tells which.
"""

from __future__ import annotations

from typing import Dict, Iterator, List, Optional, Sequence, TypeVar

from .records import MAX_128, Account, Transfer, TransferFlag

Event = TypeVar("Event", Account, Transfer)

LINKED = 1
LINKED_EVENT_FAILED = 2

_POST_OR_VOID = TransferFlag.POST_PENDING_TRANSFER | TransferFlag.VOID_PENDING_TRANSFER
_BALANCING = TransferFlag.BALANCING_DEBIT | TransferFlag.BALANCING_CREDIT

# What a retry is compared in, beside a transfer's amount. Of a post or void the second list is
# compared only where it was given: what is 0 takes the hold's value.
_OF_ACCOUNTS = ("flags", "user_data_128", "user_data_64", "user_data_32", "ledger", "code")
_OF_TRANSFERS = ("flags", "pending_id", "timeout")
_GIVEN_OR_THE_HOLDS = (
    "debit_account_id",
    "credit_account_id",
    "user_data_128",
    "user_data_64",
    "user_data_32",
    "ledger",
    "code",
)


def chains_of(events: Sequence[Event]) -> Iterator[range]:
    """The places of each chain of a batch. An event that is not linked is a chain of one."""
    first = 0
    for place, event in enumerate(events):
        if not event.flags & LINKED or place + 1 == len(events):
            yield range(first, place + 1)
            first = place + 1


def may_stand(numbers: Sequence[int], exists: int) -> bool:
    """Whether these are the results of a chain of several events that may have been accepted."""
    is_failed = (number == LINKED_EVENT_FAILED for number in numbers[1:])
    return len(numbers) > 1 and numbers[0] == exists and all(is_failed)


def account_stands(sent: Account, there: Optional[Account]) -> bool:
    """Whether an account is there with the fields sent."""
    return there is not None and _are_equal(sent, there, _OF_ACCOUNTS)


def transfer_stands(sent: Transfer, found: Dict[int, Transfer]) -> bool:
    """Whether a transfer is there with the fields sent, by the rules by which the ledger answers
    `exists`. `found` has the transfers of the `ids_to_look_up`."""
    there = found.get(sent.id)
    if there is None or not _are_equal(sent, there, _OF_TRANSFERS):
        return False
    given = [
        name
        for name in _GIVEN_OR_THE_HOLDS
        if getattr(sent, name) != 0 or not sent.flags & _POST_OR_VOID
    ]
    return _are_equal(sent, there, given) and _amount_stands(sent, there, found)


def ids_to_look_up(sent: Sequence[Transfer]) -> List[int]:
    """The ids of transfers, and of the holds that they post whole."""
    holds = [each.pending_id for each in sent if _posts_whole(each)]
    return list(dict.fromkeys([each.id for each in sent] + holds))


def _amount_stands(sent: Transfer, there: Transfer, found: Dict[int, Transfer]) -> bool:
    if sent.flags & _BALANCING:
        return there.amount <= sent.amount
    if _posts_whole(sent):
        hold = found.get(sent.pending_id)
        return hold is not None and there.amount == hold.amount
    if sent.flags & TransferFlag.VOID_PENDING_TRANSFER and sent.amount == 0:
        return True
    return there.amount == sent.amount


def _posts_whole(sent: Transfer) -> bool:
    return bool(sent.flags & TransferFlag.POST_PENDING_TRANSFER) and sent.amount == MAX_128


def _are_equal(sent: object, there: object, names: Sequence[str]) -> bool:
    return all(getattr(sent, name) == getattr(there, name) for name in names)
