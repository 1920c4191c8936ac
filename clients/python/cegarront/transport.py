"""The rule for resending, which both transports share.

A client resends the same bytes if the answer is not known. Then the connection was cut or refused, the
service was `unavailable`, or a proxy reports that it got no answer. It also resends if the service
refused the message for now, with `busy` or `too_much`. The ledger allows that for every message: it
never books an id twice. Every other reply is final.
"""

from __future__ import annotations

import random
import time
from dataclasses import dataclass
from typing import NamedTuple, Optional
from urllib.parse import urlsplit

from .errors import Detail, Unanswered
from .wire import object_in

FIRST_PAUSE = 0.05
LONGEST_PAUSE = 2.0

# A proxy uses these if it got no answer from the service, or accepts no more for now.
_PROXY_STATUSES = (408, 429, 502, 503, 504)
# These book nothing.
_NOT_NOW = ("busy", "too_much")


class Address(NamedTuple):
    """Where the service is: `path` is that of a proxy, or empty."""

    is_tls: bool
    host: str
    port: Optional[int]
    path: str


def address_in(url: str) -> Address:
    """The address in a URL. `ValueError` if it has none, or anything else."""
    parts = urlsplit(url)
    if parts.scheme not in ("http", "https") or not parts.hostname:
        raise ValueError(f"{url!r} is no http:// or https:// address")
    if parts.query or parts.fragment or parts.username is not None:
        raise ValueError("the address has more than scheme, host, port and path")
    return Address(parts.scheme == "https", parts.hostname, parts.port, parts.path.rstrip("/"))


@dataclass(frozen=True)
class Message:
    """A request. `is_batch`: after a lost answer it may be booked."""

    method: str
    path: str
    body: Optional[bytes] = None
    is_batch: bool = False


@dataclass(frozen=True)
class Reply:
    """A final reply. `is_repeated`: an earlier attempt may have been executed."""

    status: int
    body: bytes
    is_repeated: bool


class NoAnswer(Exception):
    """An attempt without a final answer.

    `was_sent`: the service may have executed the message. `is_stale`: a kept connection turned out
    to be closed, as may happen at any time. `retry_after` is the pause, in seconds, that the
    service asks for.
    """

    def __init__(
        self, text: str, was_sent: bool, is_stale: bool = False, retry_after: float = 0.0
    ) -> None:
        super().__init__(text)
        self.was_sent = was_sent
        self.is_stale = is_stale
        self.retry_after = retry_after


class NoTime(NoAnswer):
    """The deadline came before anything was sent."""

    def __init__(self, text: str) -> None:
        super().__init__(text, was_sent=False)


@dataclass(frozen=True)
class Answer:
    """The reply to one attempt: a status, a body, and the value of `retry-after`."""

    status: int
    body: bytes
    retry_after: Optional[str] = None

    def is_final(self) -> bool:
        """Whether it says what happened to the message, not only that there is no answer now."""
        name = refusal_in(self.status, self.body)
        if name is None:
            return self.status not in _PROXY_STATUSES
        return name != "unavailable" and name not in _NOT_NOW

    def as_failure(self) -> NoAnswer:
        """The failure that an answer reports if it is not final."""
        name = refusal_in(self.status, self.body)
        return NoAnswer(
            f"{name or 'no answer'} ({self.status})",
            was_sent=name not in _NOT_NOW,
            retry_after=seconds_in(self.retry_after),
        )


def refusal_in(status: int, body: bytes) -> Optional[str]:
    """The name of the ledger's refusal, if the reply is one."""
    if status == 200:
        return None
    try:
        name = object_in(body)["error"]
    except (ValueError, KeyError):
        return None
    return name if isinstance(name, str) else None


def detail_in(body: bytes) -> Detail:
    """Where the body of the request is refused, as a refusal's reply says."""
    told = object_in(body)
    event, field, want = told.get("event"), told.get("field"), told.get("want")
    return Detail(
        event - 1 if isinstance(event, int) and event > 0 else None,
        field if isinstance(field, str) else None,
        want if isinstance(want, str) else None,
    )


def seconds_in(value: Optional[str]) -> float:
    """The seconds of a `retry-after`. The service never sends a date, which counts as 0."""
    return float(value) if value is not None and value.isascii() and value.isdigit() else 0.0


def pause_before(sending: int) -> float:
    """Seconds to wait before a message is sent again; the first time is 1. They double up to a
    longest pause, and up to half of each is taken off at random, so that clients do not come all
    at once."""
    longest: float = min(LONGEST_PAUSE, FIRST_PAUSE * 2.0 ** min(sending - 1, 16))
    return longest * random.uniform(0.5, 1.0)


def left_until(until: float) -> float:
    """The seconds that are left. `NoTime` if there are none."""
    left = until - time.monotonic()
    if left <= 0:
        raise NoTime("no time was left")
    return left


class Attempts:
    """The attempts to send one message: after each, whether and when another follows."""

    def __init__(self, message: Message, until: float) -> None:
        self._message, self._until = message, until
        self._was_sent, self._failures = False, 0
        self._last: Optional[NoAnswer] = None

    @property
    def is_first(self) -> bool:
        """Whether nothing has been tried yet."""
        return self._failures == 0

    def final(self, answer: Answer) -> Optional[Reply]:
        """The reply that ends the attempts, if this answer is final."""
        if not answer.is_final():
            return None
        return Reply(answer.status, answer.body, self._was_sent)

    def pause_after(self, failure: NoAnswer) -> float:
        """Seconds to wait before the next attempt. `Unanswered` if they would pass the deadline."""
        if isinstance(failure, NoTime) and self._last is not None:
            failure = self._last
        self._was_sent, self._last = self._was_sent or failure.was_sent, failure
        self._failures += 1
        pause = 0.0 if failure.is_stale else pause_before(self._failures)
        pause = max(pause, failure.retry_after * random.uniform(1.0, 1.5))
        if time.monotonic() + pause >= self._until:
            raise Unanswered(
                f"{self._message.method} {self._message.path}: no answer in time, {self._failures}"
                f" times tried; the last time: {failure}",
                may_be_booked=self._message.is_batch and self._was_sent,
            ) from failure
        return pause
