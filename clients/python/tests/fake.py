"""A server that plays a script: what it does with each message, in the order in which they come."""

import json
import socket
import threading
import time
from dataclasses import dataclass, field
from http import HTTPStatus

from cegarront import Ledger

KEY = "0" * 64


def reply_bytes(status, body, kind="application/json"):
    """A reply as docs/MESSAGES.md has it."""
    body = body if isinstance(body, bytes) else body.encode()
    head = (f"HTTP/1.1 {status} {HTTPStatus(status).phrase}\r\ncontent-length: {len(body)}\r\n"
            f"content-type: {kind}\r\n\r\n")
    return head.encode() + body


def statement_bytes(*parts):
    """The reply that a statement is, each part of it in a chunk (RFC 9112, 7.1)."""
    head = "HTTP/1.1 200 OK\r\ncontent-type: text/csv\r\ntransfer-encoding: chunked\r\n\r\n"
    return head.encode() + b"".join(b"%x\r\n%b\r\n" % (len(part), part) for part in (*parts, b""))


def compact(value):
    return json.dumps(value, separators=(",", ":"))


def ok(value):
    return reply_bytes(200, compact(value))


def results(*numbers, clock=5000):
    """The reply to a batch, with these results of transfers; names do not matter."""
    first = clock - len(numbers) + 1
    told = [{"number": number, "result": "ok" if number == 0 else f"result_{number}",
             "timestamp": str(first + place)} for place, number in enumerate(numbers)]
    return ok({"clock": str(clock), "results": told})


def refusal(status, name):
    return reply_bytes(status, compact({"error": name}))


@dataclass
class Act:
    """What is done with a message: a reply is written, or a part of one, and then the connection is
    kept, or closed after a wait."""

    reply: bytes = b""
    closes: bool = False
    wait: float = 0.0


def say(reply):
    return Act(reply)


def cut(reply=b""):
    """The connection ends behind a beginning of a reply."""
    return Act(reply, closes=True)


def silence(seconds, reply=b""):
    """No byte comes for so long, behind a beginning of a reply, and then the connection ends."""
    return Act(reply, closes=True, wait=seconds)


@dataclass
class Fake:
    """The server. `messages` are the bytes of each message, `connections` how many were made, and
    `places` on which of them each message came."""

    script: list
    port: int = 0
    messages: list = field(default_factory=list)
    places: list = field(default_factory=list)
    connections: int = 0

    def __post_init__(self):
        self.lock = threading.Lock()
        self.listener = socket.create_server(("127.0.0.1", self.port))
        self.port = self.listener.getsockname()[1]
        self.url = f"http://127.0.0.1:{self.port}"
        self.open, self.ledgers = [], []
        threading.Thread(target=self.accept, daemon=True).start()

    def __enter__(self):
        return self

    def __exit__(self, *_):
        # A call of `accept` that waits would keep the listener.
        self.listener.shutdown(socket.SHUT_RDWR)
        self.listener.close()
        for each in self.ledgers + self.open:
            each.close()

    def ledger(self, path="", **options):
        """A client of this server, which is closed with it."""
        made = Ledger(self.url + path, KEY, **options)
        self.ledgers.append(made)
        return made

    def accept(self):
        while True:
            try:
                connection, _ = self.listener.accept()
            except OSError:
                return
            self.connections += 1
            self.open.append(connection)
            place = self.connections
            threading.Thread(target=self.serve, args=(connection, place), daemon=True).start()

    def serve(self, connection, place):
        try:
            with connection:
                while True:
                    message = read_message(connection)
                    if message is None:
                        return
                    act = self.act_on(message, place)
                    connection.sendall(act.reply)
                    time.sleep(act.wait)
                    if act.closes:
                        connection.shutdown(socket.SHUT_RDWR)
                        return
        except OSError:
            pass

    def act_on(self, message, place):
        with self.lock:
            self.messages.append(message)
            self.places.append(place)
            return self.script.pop(0) if self.script else cut()


def free_port():
    with socket.create_server(("127.0.0.1", 0)) as taken:
        return taken.getsockname()[1]


def read_message(connection):
    """The next message or reply, whole, or None where the connection has ended before it."""
    read = b""
    while not is_whole(read):
        more = connection.recv(65536)
        if not more:
            return None
        read += more
    return read


def is_whole(read):
    """Whether all of a message is there: its head, and its body by its length or its chunks."""
    head, end, body = read.partition(b"\r\n\r\n")
    lines = [line.partition(b":") for line in head.split(b"\r\n")[1:]]
    values = {name.lower(): value.strip() for name, _, value in lines}
    if b"transfer-encoding" in values:
        return bool(end) and has_last_chunk(body)
    return bool(end) and len(body) >= int(values.get(b"content-length", 0))


def has_last_chunk(chunks):
    """Whether chunks are there up to the last, which has no bytes."""
    size, end, chunks = chunks.partition(b"\r\n")
    while end and int(size, 16):
        size, end, chunks = chunks[int(size, 16) + 2:].partition(b"\r\n")
    return bool(end) and chunks.startswith(b"\r\n")


def body_of(message):
    return message.partition(b"\r\n\r\n")[2]
