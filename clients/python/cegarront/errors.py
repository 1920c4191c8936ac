"""What a call raises, besides `TypeError` and `ValueError` for invalid arguments."""

from __future__ import annotations

from typing import TYPE_CHECKING, NamedTuple, Optional, Tuple

from .chains import LINKED_EVENT_FAILED

if TYPE_CHECKING:
    from .results import Result


class LedgerError(Exception):
    """What went wrong with a call.

    `may_be_booked` is true where a sending of the call's batch was left without an answer, so that
    the batch may stand in the ledger all the same. Then send the same events with the same ids
    again: only an answer tells. A look-up that finds nothing does not, since the batch may still be
    on its way.
    """

    may_be_booked: bool

    def __init__(self, text: str, may_be_booked: bool = False) -> None:
        super().__init__(text)
        self.may_be_booked = may_be_booked


class Detail(NamedTuple):
    """Where the body of a request is refused. `want` says what is wanted there.

    `place` is that of the event or id in the call's list, counted from 0.
    """

    place: Optional[int] = None
    field: Optional[str] = None
    want: Optional[str] = None

    def __str__(self) -> str:
        event = "" if self.place is None else f"event {self.place}: "
        field = "" if self.field is None else f"{self.field}: "
        return "" if self.want is None else f": {event}{field}want {self.want}"


class Refused(LedgerError):
    """The service has refused the request, by a name of docs/MESSAGES.md such as `no_account`.

    `name` is that name and `status` the HTTP status beside it. `detail` says where the body is
    refused, if it is.
    """

    def __init__(
        self, status: int, name: str, may_be_booked: bool = False, detail: Detail = Detail()
    ) -> None:
        super().__init__(f"{name} ({status}){detail}", may_be_booked)
        self.status = status
        self.name = name
        self.detail = detail


class Unanswered(LedgerError):
    """No answer came before the deadline; the last failure is the error's `__cause__`."""


class BadReply(LedgerError):
    """A reply that no ledger gives: another service answers at this address, or a proxy."""


class EventsRefused(LedgerError):
    """Events of a batch were refused: `refused` has the place and the result of each.

    `first` is the one that caused the first failure, not one that fell with its chain. The batch
    was answered, so its other events stand if their results say so.
    """

    def __init__(self, refused: Tuple[Tuple[int, Result], ...]) -> None:
        by_itself = (each for each in refused if each[1].number != LINKED_EVENT_FAILED)
        self.first = next(by_itself, refused[0])
        self.refused = refused
        place, result = self.first
        more = f", one of {len(refused)} events refused" if len(refused) > 1 else ""
        super().__init__(f"event {place}: {result.name}{more}")
