"""The transport for asyncio: kept connections, messages and their replies."""

from __future__ import annotations

import asyncio
import http.client
import io
import ssl
import time
from typing import Iterable, List, Optional, SupportsIndex

from .blocking import abandon, in_one_line, watch
from .errors import Unanswered
from .transport import Address, Answer, Attempts, Message, NoAnswer, NoTime, Reply, left_until


class _Reader(asyncio.StreamReader):
    """The bytes that arrive on a connection. It is quiet if all were read and more may come."""

    _unread, _has_ended = 0, False

    @property
    def is_quiet(self) -> bool:
        return self._unread == 0 and not self._has_ended

    def feed_data(self, data: Iterable[SupportsIndex]) -> None:
        came = bytes(data)
        self._unread += len(came)
        super().feed_data(came)

    def feed_eof(self) -> None:
        self._has_ended = True
        super().feed_eof()

    def set_exception(self, exc: Exception) -> None:
        self._has_ended = True
        super().set_exception(exc)

    async def readuntil(self, separator: bytes = b"\n") -> bytes:
        read = await super().readuntil(separator)
        self._unread -= len(read)
        return read

    async def readexactly(self, n: int) -> bytes:
        read = await super().readexactly(n)
        self._unread -= len(read)
        return read


class Connection:
    """One connection, which handles one message at a time."""

    def __init__(self, reader: _Reader, writer: asyncio.StreamWriter) -> None:
        self._reader, self._writer = reader, writer
        self.since = 0.0

    @classmethod
    async def opened(cls, address: Address, context: Optional[ssl.SSLContext]) -> Connection:
        """A new connection."""
        loop = asyncio.get_running_loop()
        reader = _Reader(loop=loop)
        port = address.port or (443 if address.is_tls else 80)
        tls = (context or ssl.create_default_context()) if address.is_tls else None
        transport, protocol = await loop.create_connection(
            lambda: asyncio.StreamReaderProtocol(reader, loop=loop), address.host, port, ssl=tls
        )
        return cls(reader, asyncio.StreamWriter(transport, protocol, reader, loop))

    @property
    def is_quiet(self) -> bool:
        """Whether nothing arrived since the last reply: neither the end nor stray bytes."""
        return self._reader.is_quiet

    def watch(self, seconds: float) -> None:
        watch(self._writer.get_extra_info("socket"), seconds)

    async def exchange(self, message: bytes) -> Answer:
        """The answer to a message."""
        self._writer.write(message)
        await self._writer.drain()
        first, _, head = (await self._reader.readuntil(b"\r\n\r\n")).partition(b"\r\n")
        words = first.split(b" ", 2)
        if len(words) < 2 or not words[0].startswith(b"HTTP/1.") or not words[1].isdigit():
            raise http.client.BadStatusLine(repr(first))
        headers = http.client.parse_headers(io.BytesIO(head))
        if headers.get("transfer-encoding", "").lower() == "chunked":
            body = await self._chunks()
        elif headers.get("content-length", "").isdigit():
            body = await self._reader.readexactly(int(headers["content-length"]))
        else:
            raise http.client.IncompleteRead(b"")
        return Answer(int(words[1]), body, headers.get("retry-after"))

    async def _chunks(self) -> bytes:
        """A body in chunks (RFC 9112, 7.1)."""
        parts: List[bytes] = []
        while True:
            size = int((await self._reader.readuntil(b"\r\n")).partition(b";")[0], 16)
            if size == 0:
                break
            parts.append((await self._reader.readexactly(size + 2))[:-2])
        while await self._reader.readuntil(b"\r\n") != b"\r\n":
            pass
        return b"".join(parts)

    def close(self) -> None:
        self._writer.close()

    def give_up(self) -> None:
        """Resets a connection with an outstanding answer."""
        abandon(self._writer.get_extra_info("socket"))
        self._writer.transport.abort()


class AsyncTransport:
    """Sends messages to one address with one key, for the tasks of one event loop."""

    def __init__(
        self,
        address: Address,
        key: str,
        timeout: float,
        deadline: float,
        connections: int,
        max_idle: float,
        context: Optional[ssl.SSLContext],
    ) -> None:
        self._address, self._key, self._context = address, key, context
        self._timeout, self._deadline, self._max_idle = timeout, deadline, max_idle
        self._connections = connections
        # Made with the first message, since it belongs to the event loop that runs then.
        self._slots: Optional[asyncio.Semaphore] = None
        self._idle: List[Connection] = []

    def deadline(self) -> float:
        """When a call that begins now has to be done."""
        return time.monotonic() + self._deadline

    async def ask(self, message: Message, until: float) -> Reply:
        """The final reply to a message. `Unanswered` if none came in time."""
        attempts = Attempts(message, until)
        while True:
            try:
                answer = await self._send(message, until, attempts.is_first)
            except NoAnswer as failure:
                pause = attempts.pause_after(failure)
            else:
                reply = attempts.final(answer)
                if reply is not None:
                    return reply
                pause = attempts.pause_after(answer.as_failure())
            await asyncio.sleep(pause)

    async def ask_once(self, message: Message) -> Answer:
        """The answer to one attempt, on a connection of its own, within `timeout` seconds."""
        until = time.monotonic() + min(self._timeout, self._deadline)
        try:
            return await self._send(message, until, is_first=False)
        except NoAnswer as failure:
            raise Unanswered(f"{message.method} {message.path}: {failure}") from failure

    def close(self) -> None:
        """Closes the connections that are idle."""
        idle, self._idle = self._idle, []
        for connection in idle:
            connection.close()

    async def _send(self, message: Message, until: float, is_first: bool) -> Answer:
        """Sends a message once. A second attempt uses no kept connection."""
        if self._slots is None:
            self._slots = asyncio.Semaphore(self._connections)
        left = left_until(until)
        try:
            await asyncio.wait_for(self._slots.acquire(), left)
        except asyncio.TimeoutError:
            raise NoTime("all connections were busy") from None
        try:
            kept = self._kept() if is_first else None
            connection = kept or await self._connected(until)
            return await self._exchange(connection, message, until, is_kept=kept is not None)
        finally:
            self._slots.release()

    async def _exchange(
        self, connection: Connection, message: Message, until: float, is_kept: bool
    ) -> Answer:
        """The answer to a message. It waits until the deadline."""
        try:
            left = left_until(until)
            answer = await asyncio.wait_for(connection.exchange(self._bytes_of(message)), left)
        except asyncio.TimeoutError as error:
            connection.give_up()
            raise NoAnswer("no answer before the deadline", was_sent=True) from error
        except (OSError, EOFError, ValueError, http.client.HTTPException) as error:
            connection.give_up()
            raise NoAnswer(in_one_line(error), was_sent=True, is_stale=is_kept) from error
        except BaseException:
            connection.give_up()
            raise
        if answer.status == 200 and self._max_idle > 0:
            connection.since = time.monotonic()
            self._idle.append(connection)
        else:
            connection.close()
        return answer

    async def _connected(self, until: float) -> Connection:
        """A new connection."""
        patience = min(self._timeout, left_until(until))
        try:
            opening = Connection.opened(self._address, self._context)
            connection = await asyncio.wait_for(opening, patience)
            connection.watch(self._timeout)
        except ssl.SSLCertVerificationError:
            raise
        except (OSError, asyncio.TimeoutError) as error:
            raise NoAnswer(in_one_line(error), was_sent=False) from error
        return connection

    def _kept(self) -> Optional[Connection]:
        """The connection that was used last, if it can still be trusted; others are closed then."""
        while self._idle:
            connection = self._idle.pop()
            if time.monotonic() - connection.since < self._max_idle and connection.is_quiet:
                return connection
            connection.close()
        return None

    def _bytes_of(self, message: Message) -> bytes:
        body = message.body or b""
        host = self._address.host if ":" not in self._address.host else f"[{self._address.host}]"
        lines = [
            f"{message.method} {self._address.path}{message.path} HTTP/1.1",
            f"host: {host}:{self._address.port}" if self._address.port else f"host: {host}",
            f"x-ledger-key: {self._key}",
            "x-ledger-detail: 1",
        ]
        if message.body is not None:
            lines.append(f"content-length: {len(body)}")
        return "\r\n".join([*lines, "", ""]).encode("ascii") + body
