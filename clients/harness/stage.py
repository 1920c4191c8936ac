"""A server that plays the exchanges of a case, and records how the client deviates."""

import json
import re
import socket
import struct
import threading
import time
from http import HTTPStatus

GREATEST_WAIT = 60
# With this option, closing a socket resets its connection.
LINGER_0 = struct.pack("ii", 1, 0)
RESET, END = "reset", "end"


def compact(value):
    return json.dumps(value, separators=(",", ":")).encode()


def reply_bytes(reply):
    """The bytes of a reply: `status`, `headers`, and a `body`, a `text` or `chunks`."""
    headers = {"content-type": "application/json", **reply.get("headers", {})}
    if "chunks" in reply:
        headers["transfer-encoding"] = "chunked"
        parts = [part.encode() for part in (*reply["chunks"], "")]
        body = b"".join(b"%x\r\n%b\r\n" % (len(part), part) for part in parts)
    else:
        body = reply["text"].encode() if "text" in reply else compact(reply["body"])
        headers["content-length"] = str(len(body))
    status = reply.get("status", 200)
    lines = [f"HTTP/1.1 {status} {HTTPStatus(status).phrase}",
             *(f"{name}: {value}" for name, value in headers.items()), "", ""]
    return "\r\n".join(lines).encode() + body


def read_message(connection):
    """The next whole message, or None if the connection ends first. `ValueError` if its body states
    no length."""
    read = b""
    while True:
        head, blank, body = read.partition(b"\r\n\r\n")
        if blank and len(body) >= length_in(head):
            return read
        more = connection.recv(65536)
        if not more:
            return None
        read += more


def length_in(head):
    if re.search(rb"\r\ntransfer-encoding:", head, re.I):
        raise ValueError("the body of a message comes in chunks")
    found = re.findall(rb"\r\ncontent-length:\s*(\d+)\s*(?=\r\n|$)", head, re.I)
    if len(found) > 1 or not found and not head.startswith(b"GET "):
        raise ValueError(f"a message without one length: {head[:60]}")
    return int(found[0]) if found else 0


def without_zeros(value):
    """JSON without the fields that are 0, which means the same."""
    if isinstance(value, list):
        return [without_zeros(each) for each in value]
    if isinstance(value, dict):
        return {name: each for name, each in value.items()
                if each != "0" and (each != 0 or isinstance(each, bool))}
    return value


class Stage:
    """Listens, and plays `exchanges` one after the other, on however many connections."""

    def __init__(self, key, listens_after=0):
        self.key, self.exchanges, self.played = key, [], 0
        self.misfits, self.given_up = [], []
        self.connections, self.last_message, self.last_end = 0, None, time.monotonic()
        self.lock, self.open = threading.Lock(), []
        self.listener = socket.socket()
        self.listener.setsockopt(socket.SOL_SOCKET, socket.SO_REUSEADDR, 1)
        self.listener.bind(("127.0.0.1", 0))
        self.port = self.listener.getsockname()[1]
        if listens_after is not None:
            threading.Timer(listens_after, self.listen).start() if listens_after else self.listen()

    def listen(self):
        self.listener.listen(64)
        threading.Thread(target=self.accept, daemon=True).start()

    def play(self, exchanges):
        """From here on these exchanges are played."""
        with self.lock:
            self.exchanges, self.played = list(exchanges), 0

    def left(self):
        """All deviations, including exchanges that did not happen."""
        with self.lock:
            misfits = list(self.misfits)
            for exchange in self.exchanges:
                least = exchange.get("again")
                if least is None:
                    misfits.append(f"missing message: {compact(exchange)[:120].decode()}")
                elif self.played < least:
                    misfits.append(f"{self.played} messages, not {least}")
            return misfits

    def close(self):
        for each in (self.listener, *self.open):
            try:
                each.shutdown(socket.SHUT_RDWR)
            except OSError:
                pass
            each.close()

    def accept(self):
        while True:
            try:
                connection, _ = self.listener.accept()
            except OSError:
                return
            with self.lock:
                self.connections += 1
                self.open.append(connection)
                place = self.connections
            threading.Thread(target=self.serve, args=(connection, place), daemon=True).start()

    def serve(self, connection, place):
        try:
            with connection:
                while True:
                    message = read_message(connection)
                    if message is None:
                        return
                    exchange = self.exchange_for(message, place)
                    if not self.act(connection, exchange):
                        return
        except ValueError as error:
            self.misfits.append(str(error))
        except OSError:
            pass

    def exchange_for(self, message, place):
        with self.lock:
            waited = time.monotonic() - self.last_end
            if not self.exchanges:
                self.misfits.append(f"a message too many: {message[:60]}")
                return {"cut": True}
            exchange = self.exchanges[0]
            self.played += 1
            if "again" not in exchange:
                self.exchanges.pop(0)
            self.compare(message, place, waited, exchange)
            self.last_message = message
            return exchange

    def compare(self, message, place, waited, exchange):
        """Records how a message differs from the exchange's."""
        head, _, body = message.partition(b"\r\n\r\n")
        lines = head.decode("latin-1").split("\r\n")
        keys = [line.partition(":")[2].strip() for line in lines
                if line.lower().startswith("x-ledger-key:")]
        if keys != [self.key] and not lines[0].startswith("GET /health"):
            self.misfits.append(f"not one header with the key: {keys}")
        if not any(line.lower() == "x-ledger-detail: 1" for line in lines):
            self.misfits.append("no header that asks for detail")
        if "sent" in exchange:
            sent = exchange["sent"]
            if lines[0] != f"{sent['method']} {sent['path']} HTTP/1.1":
                self.misfits.append(f"{lines[0]}, not {sent['method']} {sent['path']}")
            came = json.loads(body) if body else None
            if without_zeros(came) != without_zeros(sent["body"]):
                self.misfits.append(f"the body {body[:200]}, not {compact(sent['body'])[:200]}")
        elif self.played > 1 and self.last_message:
            last = self.last_message.partition(b"\r\n\r\n")
            if (last[0].split(b"\r\n")[0], last[2]) != (head.split(b"\r\n")[0], body):
                self.misfits.append(f"not the same message again: {message[-100:]}")
        least, most = exchange.get("pause", (0, GREATEST_WAIT))
        if not least <= waited <= most:
            self.misfits.append(f"{waited:.3f} s before a message, not {least} to {most}")
        if exchange.get("connection", place) != place:
            self.misfits.append(f"on connection {place}, not {exchange['connection']}")

    def act(self, connection, exchange):
        """Does what the exchange says. Returns whether the connection stays open."""
        if exchange.get("silent"):
            self.given_up.append(how_it_ends(connection))
            return False
        whole = reply_bytes(exchange["reply"]) if "reply" in exchange else b""
        time.sleep(exchange.get("after", 0))
        if "stops" in exchange:
            connection.sendall(whole[:len(whole) // 2])
            time.sleep(exchange["stops"])
            whole = whole[len(whole) // 2:]
        keep = exchange.get("keep")
        connection.sendall(whole if keep is None else whole[:keep])
        self.last_end = time.monotonic()
        if keep is None and "cut" not in exchange:
            return True
        if exchange.get("cut") == RESET:
            connection.setsockopt(socket.SOL_SOCKET, socket.SO_LINGER, LINGER_0)
        else:
            connection.shutdown(socket.SHUT_RDWR)
        return False


def how_it_ends(connection):
    """How the client leaves a silent connection."""
    connection.settimeout(GREATEST_WAIT)
    try:
        while connection.recv(65536):
            pass
        return END
    except ConnectionResetError:
        return RESET
    except OSError as error:
        return str(error)
