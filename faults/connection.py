"""A connection to a service, and its replies, byte for byte."""

import re
import socket

# Seconds behind which something hangs: a busy machine may take minutes for a long file.
PATIENCE = 300
# The heads of replies, and how many rows of a statement each of its chunks has but the last.
JSON_HEAD = re.compile(r"HTTP/1\.1 (\d{3} [A-Za-z ]+)\r\ncontent-length: (\d+)\r\n"
                       r"content-type: application/json\r\n\r\n")
STATEMENT_HEAD = (b"HTTP/1.1 200 OK\r\ncontent-type: text/csv\r\n"
                  b"transfer-encoding: chunked\r\n\r\n")
CHUNK_ROWS = 500


class Surprise(Exception):
    """Something that should never be."""


class Lost(Exception):
    """The connection ended before a whole reply."""


def want(holds, text):
    if not holds:
        raise Surprise(text)


class Connection:
    """One connection, whose replies are read strictly."""

    SIZE = re.compile(rb"(0|[1-9a-f][0-9a-f]*)\r\n")

    def __init__(self, port, room=None):
        """With no more than so much room for what was not read, if that is told."""
        self.socket = socket.socket()
        self.socket.settimeout(PATIENCE)
        if room:
            self.socket.setsockopt(socket.SOL_SOCKET, socket.SO_RCVBUF, room)
        self.socket.connect(("127.0.0.1", port))
        self.socket.setsockopt(socket.IPPROTO_TCP, socket.TCP_NODELAY, 1)
        self.read = b""

    def close(self):
        self.socket.close()

    def send(self, message, piece=None):
        """Sends a message, in pieces of so many bytes."""
        try:
            for first in range(0, len(message), piece or max(len(message), 1)):
                self.socket.sendall(message[first:first + (piece or len(message))])
        except OSError as error:
            raise Lost(error) from error

    def more(self):
        try:
            read = self.socket.recv(1 << 16)
        except socket.timeout as error:
            raise Surprise("no reply for minutes") from error
        except OSError as error:
            raise Lost(error) from error
        self.read += read
        return bool(read)

    def reply(self):
        """The next reply: its status line, type and body."""
        head = self.up_to(b"\r\n\r\n")
        if head == STATEMENT_HEAD:
            return "200 OK", "text/csv", self.statement()
        found = JSON_HEAD.fullmatch(head.decode("latin-1"))
        want(found, f"a reply's head is {head!r}")
        status, length = found.groups()
        return status, "application/json", self.next(int(length))

    def statement(self):
        """The body of a statement, whose every chunk but the last has so many rows; the first has
        the header line before them."""
        chunks = list(iter(self.chunk, b""))
        header, *rows = b"".join(chunks).splitlines(keepends=True) or [b""]
        parts = [b"".join(rows[place:place + CHUNK_ROWS])
                 for place in range(0, max(len(rows), 1), CHUNK_ROWS)]
        lengths = [len(chunk) for chunk in chunks]
        want(chunks == [header + parts[0], *parts[1:]],
             f"{len(rows)} rows of a statement in chunks of {lengths} bytes")
        return b"".join(chunks)

    def chunk(self):
        """The next chunk of a body (RFC 9112, 7.1). One of no bytes is the last."""
        size = self.up_to(b"\r\n")
        want(self.SIZE.fullmatch(size), f"a chunk's size is {size!r}")
        chunk = self.next(int(size, 16))
        end = self.next(2)
        want(end == b"\r\n", f"behind a chunk of {len(chunk)} bytes is {end!r}")
        return chunk

    def up_to(self, end):
        """What comes next, up to the end of these bytes."""
        while end not in self.read:
            if not self.more():
                raise Lost(f"the connection ended behind {self.read!r}")
        return self.next(self.read.index(end) + len(end))

    def next(self, many):
        """So many bytes that come next."""
        while len(self.read) < many:
            if not self.more():
                raise Lost("the connection ended inside a reply")
        told, self.read = self.read[:many], self.read[many:]
        return told

    def is_over(self):
        """Whether the service has closed it, with nothing left to read."""
        return self.read == b"" and not self.more()
