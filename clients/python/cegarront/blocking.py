"""The transport for threads: kept connections, messages and their replies.

A call waits for an answer until its deadline, as long as the connection stands. `transport` has the
rule for resending.
"""

from __future__ import annotations

import http.client
import os
import selectors
import socket
import ssl
import struct
import threading
import time
from typing import List, Optional, Tuple

from .errors import Unanswered
from .transport import Address, Answer, Attempts, Message, NoAnswer, NoTime, Reply, left_until

_PIECE = 65536
# With this option, closing a socket resets its connection and drops unsent bytes.
_LINGER_0 = struct.pack("hh" if os.name == "nt" else "ii", 1, 0)


class Transport:
    """Sends messages to one address with one key. Threads may share it."""

    def __init__(
        self,
        address: Address,
        key: str,
        timeout: float,
        deadline: float,
        connections: int,
        max_idle: float,
        context: Optional[ssl.SSLContext],
    ) -> None:
        self._address, self._key = address, key
        self._timeout, self._deadline, self._max_idle = timeout, deadline, max_idle
        self._context = context
        self._slots = threading.BoundedSemaphore(connections)
        self._lock = threading.Lock()
        self._idle: List[Tuple[http.client.HTTPConnection, float]] = []

    def deadline(self) -> float:
        """When a call that begins now has to be done."""
        return time.monotonic() + self._deadline

    def ask(self, message: Message, until: float) -> Reply:
        """The final reply to a message. `Unanswered` if none came in time."""
        attempts = Attempts(message, until)
        while True:
            try:
                answer = self._send(message, until, attempts.is_first)
            except NoAnswer as failure:
                pause = attempts.pause_after(failure)
            else:
                reply = attempts.final(answer)
                if reply is not None:
                    return reply
                pause = attempts.pause_after(answer.as_failure())
            time.sleep(pause)

    def ask_once(self, message: Message) -> Answer:
        """The answer to one attempt, on a connection of its own, within `timeout` seconds.
        `Unanswered` if none came."""
        until = time.monotonic() + min(self._timeout, self._deadline)
        try:
            return self._send(message, until, is_first=False)
        except NoAnswer as failure:
            raise Unanswered(f"{message.method} {message.path}: {failure}") from failure

    def close(self) -> None:
        """Closes the connections that are idle."""
        with self._lock:
            idle, self._idle = self._idle, []
        for connection, _ in idle:
            connection.close()

    def _send(self, message: Message, until: float, is_first: bool) -> Answer:
        """Sends a message once. A second attempt uses no kept connection."""
        if not self._slots.acquire(timeout=max(0.0, until - time.monotonic())):
            raise NoTime("all connections were busy")
        try:
            kept = self._kept() if is_first else None
            connection = kept or self._connected(until)
            try:
                answer = self._exchange(connection, message, until)
            except (OSError, http.client.HTTPException) as error:
                give_up(connection)
                is_stale = kept is not None and not isinstance(error, socket.timeout)
                raise NoAnswer(in_one_line(error), was_sent=True, is_stale=is_stale) from error
            except BaseException:
                give_up(connection)
                raise
            self._give_back(connection, answer.status)
            return answer
        finally:
            self._slots.release()

    def _exchange(
        self, connection: http.client.HTTPConnection, message: Message, until: float
    ) -> Answer:
        """The answer to a message. It waits until the deadline."""
        connection.sock.settimeout(left_until(until))
        path = self._address.path + message.path
        connection.putrequest(message.method, path, skip_accept_encoding=True)
        if message.body is not None:
            connection.putheader("content-length", str(len(message.body)))
        connection.putheader("x-ledger-key", self._key)
        connection.putheader("x-ledger-detail", "1")
        connection.endheaders(message.body)
        with connection.getresponse() as response:
            # A head that was cut looks like one without a length. A body that was cut, or lacks its
            # last chunk, raises `IncompleteRead` by itself.
            if response.length is None and not response.chunked:
                raise http.client.IncompleteRead(b"")
            body = body_of(response, connection.sock, until)
            return Answer(response.status, body, response.getheader("retry-after"))

    def _connected(self, until: float) -> http.client.HTTPConnection:
        """A new connection."""
        patience = min(self._timeout, left_until(until))
        host, port = self._address.host, self._address.port
        connection: http.client.HTTPConnection
        if self._address.is_tls:
            connection = http.client.HTTPSConnection(
                host, port, timeout=patience, context=self._context
            )
        else:
            connection = http.client.HTTPConnection(host, port, timeout=patience)
        try:
            connection.connect()
            watch(connection.sock, self._timeout)
        except ssl.SSLCertVerificationError:
            connection.close()
            raise
        except OSError as error:
            connection.close()
            raise NoAnswer(in_one_line(error), was_sent=False) from error
        return connection

    def _kept(self) -> Optional[http.client.HTTPConnection]:
        """The connection that was used last, if it can still be trusted; others are closed then."""
        while True:
            with self._lock:
                if not self._idle:
                    return None
                connection, since = self._idle.pop()
            if time.monotonic() - since < self._max_idle and is_quiet(connection):
                return connection
            connection.close()

    def _give_back(self, connection: http.client.HTTPConnection, status: int) -> None:
        """Keeps a connection for the next message. After some refusals the service closes it."""
        if status != 200 or connection.sock is None or self._max_idle <= 0:
            connection.close()
            return
        with self._lock:
            self._idle.append((connection, time.monotonic()))


def body_of(response: http.client.HTTPResponse, sock: socket.socket, until: float) -> bytes:
    """The body of a reply, however slowly it comes, but not after the deadline."""
    parts, lacking = [], response.length
    while lacking != 0:
        left = until - time.monotonic()
        if left <= 0:
            raise socket.timeout("the deadline came within the reply")
        sock.settimeout(left)
        part = response.read1(_PIECE if lacking is None else min(_PIECE, lacking))
        if part:
            parts.append(part)
            lacking = None if lacking is None else lacking - len(part)
        elif lacking is None:
            break
        else:
            raise http.client.IncompleteRead(b"", lacking)
    return b"".join(parts)


def give_up(connection: http.client.HTTPConnection) -> None:
    """Resets a connection with an outstanding answer, so that the service can drop the work."""
    abandon(connection.sock)
    connection.close()


def abandon(sock: Optional[socket.socket]) -> None:
    """Makes closing this socket reset its connection."""
    try:
        if sock is not None:
            sock.setsockopt(socket.SOL_SOCKET, socket.SO_LINGER, _LINGER_0)
    except OSError:
        pass


def watch(sock: socket.socket, seconds: float) -> None:
    """Makes the system notice a vanished peer after about `seconds`: a machine that lost power, or
    a network that was cut."""
    sock.setsockopt(socket.SOL_SOCKET, socket.SO_KEEPALIVE, 1)
    wanted = {
        "TCP_KEEPIDLE": seconds / 2,
        "TCP_KEEPINTVL": seconds / 6,
        "TCP_KEEPCNT": 3,
        "TCP_USER_TIMEOUT": seconds * 1000,
    }
    for name, value in wanted.items():
        option = getattr(socket, name, None)
        if option is not None:
            sock.setsockopt(socket.IPPROTO_TCP, option, max(1, int(value)))


def is_quiet(connection: http.client.HTTPConnection) -> bool:
    """Whether nothing has come on an idle connection: neither its end, nor bytes of no reply."""
    with selectors.DefaultSelector() as selector:
        selector.register(connection.sock, selectors.EVENT_READ)
        return not selector.select(0)


def in_one_line(error: BaseException) -> str:
    """An error in one line."""
    return f"{type(error).__name__}: {error}" if str(error) else type(error).__name__
