"""Ids for accounts and transfers."""

from __future__ import annotations

import secrets
import threading
import time

_RANDOM_BITS = 80

_lock = threading.Lock()
_last = 0


def new_id() -> int:
    """A new id of 128 bits: 48 bits of milliseconds since 1970, and 80 random ones.

    Ids ascend with time, and within a process each is above all before it, even where the clock
    stands or goes back. Draw an id once for a payment and keep it before you send it: who sends
    with the same id again is never booked twice, who draws a new one is.
    """
    global _last
    with _lock:
        drawn = (time.time_ns() // 1_000_000) << _RANDOM_BITS | secrets.randbits(_RANDOM_BITS)
        # The step is random, so that two processes forked from one do not go on with equal ids.
        _last = max(drawn, _last + 1 + secrets.randbits(_RANDOM_BITS - 16))
        return _last
