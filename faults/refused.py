"""A table of messages and their refusals, and the page, over a socket, in pieces and whole."""

import json
import re
import socket
import subprocess

import pages
from connection import Connection
from runs import House
from service import PATIENCE, TOP, message, want

UNKNOWN = "f" * 64
PAGE = TOP / "console/page.html"
PAGE_HEAD = (f"HTTP/1.1 200 OK\r\ncontent-length: {PAGE.stat().st_size}\r\n"
             "content-type: text/html; charset=utf-8\r\ncontent-security-policy: ").encode()


def refusals():
    """The refusals of docs/MESSAGES.md: their status lines by their names."""
    text = (TOP / "docs/MESSAGES.md").read_text()
    return {name: status for status, name in
            re.findall(r"^\| (\d{3} [A-Za-z ]+) \| `(\w+)` \|", text, re.M)}


REFUSALS = refusals()
ENDING = {"bad_head", "head_too_large", "length_required", "body_too_large", "truncated"}


def post(path, body, key, *more):
    """A POST with these bytes, and with header lines of one's own before its length."""
    lines = [f"POST {path} HTTP/1.1", f"x-ledger-key: {key}", *more,
             f"content-length: {len(body)}"]
    return "\r\n".join(lines).encode() + b"\r\n\r\n" + body


def heads(key):
    """Messages whose head is refused, and how."""
    line = f"POST /transfers HTTP/1.1\r\nx-ledger-key: {key}\r\n"
    with_lengths = {
        "two lengths": "content-length: 2\r\ncontent-length: 2",
        "a length of 05": "content-length: 05",
        "a length of +2": "content-length: +2",
        "chunks": "transfer-encoding: chunked\r\ncontent-length: 2",
        "65 headers": "\r\n".join(f"h{place}: x" for place in range(63)) + "\r\ncontent-length: 2",
    }
    for name, lines in with_lengths.items():
        yield name, f"{line}{lines}\r\n\r\n[]".encode(), "bad_head"
    old = post("/transfers", b"[]", key).replace(b"HTTP/1.1", b"HTTP/1.0")
    yield "16,384 bytes a", b"a" * 16384, "head_too_large"
    yield "16,383 bytes a, and the end", b"a" * 16383, "truncated"
    yield "HTTP/1.0", old, "bad_head"
    for method, path in (("POST", "/transfers"), ("DELETE", "/transfers"), ("POST", "/")):
        head = f"{method} {path} HTTP/1.1\r\nx-ledger-key: {key}\r\n\r\n"
        yield f"{method} {path} without a length", head.encode(), "length_required"
    for length in ("2097153", "9" * 30, "18446744073709551618"):
        head = f"{line}content-length: {length}\r\n\r\n"
        yield f"a length of {length}", head.encode(), "body_too_large"
    yield "a body that is cut", post("/transfers", b"[]", key)[:-1], "truncated"


def routes(key):
    """Messages whose route or key is refused, and how."""
    get = f"GET /accounts HTTP/1.1\r\nx-ledger-key: {key}\r\n\r\n".encode()
    yield "/transfers?x=1", post("/transfers?x=1", b"[]", key), "no_route"
    yield "/transfers/", post("/transfers/", b"[]", key), "no_route"
    yield "GET /accounts", get, "bad_method"
    yield "POST /statement/1", post("/statement/1", b"", key), "bad_method"
    yield "POST /", post("/", b"", key), "bad_method"
    yield "POST /health", post("/health", b"", key), "bad_method"
    yield "HEAD / with no key", b"HEAD / HTTP/1.1\r\ncontent-length: 0\r\n\r\n", "bad_method"
    for path in pages.PATHS:
        yield f"{path}/", post(f"{path}/", b"[]", key), "no_route"
        yield f"GET {path}", message("GET", path, key), "bad_method"
        yield f"{path} with no key", post(path, b"[", ""), "unknown_key"
    yield "GET /?", message("GET", "/?", key), "no_route"
    no_key = b"POST /x HTTP/1.1\r\ncontent-length: 0\r\n\r\n"
    yield "POST /x with no key", no_key, "no_route"
    yield "no key", no_key.replace(b"/x", b"/transfers"), "unknown_key"
    yield "two keys", post("/transfers", b"[]", key, f"x-ledger-key: {key}"), "unknown_key"
    yield "a key of 63 digits", post("/transfers", b"[]", key[1:]), "unknown_key"


def bodies(key):
    """Messages whose body is refused, and how."""
    not_json = {"an empty body": b"", "a list that is cut": b"[1", "the byte FF": b"\xff",
                "100,000 lists": b"[" * 100_000 + b"]" * 100_000, "1e400": b"[1e400]"}
    for name, body in not_json.items():
        yield name, post("/transfers", body, key), "body_not_json"
        yield f"{name}, and an unknown key", post("/transfers", body, UNKNOWN), "unknown_key"
    fields = ({"x": 1}, {"code": 65536}, {"ledger": 4294967296}, {"ledger": -1}, {"id": "+1"},
              {"id": "01"}, {"id": str(2**128)}, {"code": "1"}, {"code": 1.0}, {"code": None},
              {"user_data_64": str(2**64)}, {"id": 1})
    for field in fields:
        yield str(field), post("/transfers", json.dumps([field]).encode(), key), "bad_field"
    yield "{}", post("/transfers", b"{}", key), "bad_field"
    events = [{"id": str(place + 1)} for place in range(1001)]
    yield "1,001 events", post("/transfers", json.dumps(events).encode(), key), "too_many_events"
    events[1000]["amount"] = "01"
    yield "1,001 events, and 01", post("/transfers", json.dumps(events).encode(), key), "bad_field"
    for limits in ({"limit": 0}, {"limit": 1001}, {"limit": 1, "flags": 8}):
        body = json.dumps({"account_id": "1", **limits}).encode()
        yield f"a filter with {limits}", post("/history/transfers", body, key), "bad_field"
    balances = json.dumps({"account_id": "1", "limit": 1, "flags": 3}).encode()
    yield "balances of account 1", post("/history/balances", balances, key), "no_history"


def queries(key):
    """The same of the routes that name no account."""
    ids = json.dumps([str(place) for place in range(1001)]).encode()
    yield "holds by 1,001 ids", post(pages.HOLDS, ids, key), "too_many_events"
    yield "holds by a number", post(pages.HOLDS, b"[1]", key), "bad_field"
    yield "holds by an object", post(pages.HOLDS, b'{"limit":1}', key), "bad_field"
    yield "holds by {", post(pages.HOLDS, b"{", key), "body_not_json"
    wrong = ({}, {"limit": 0}, {"limit": 1001}, {"limit": "1"}, {"flags": 2}, {"flags": 4},
             {"flags": -1}, {"timestamp_min": 1}, {"timestamp_max": str(2**64)},
             {"timestamp_min": "01"}, {"account_id": "1"}, {"id": "1"}, {"timestamp": "1"})
    marks = ({"user_data_128": str(2**128)}, {"user_data_64": 1}, {"user_data_32": 2**32},
             {"ledger": "7"}, {"code": 65536}, {"amount": "1"})
    for path in (pages.ACCOUNTS, pages.TRANSFERS, pages.OPEN):
        for fields in (*wrong, *marks, *([{"ledger": 7}] if path == pages.OPEN else [])):
            body = json.dumps({"limit": 1, **fields} if fields else {}).encode()
            yield f"{path} with {fields}", post(path, body, key), "bad_field"
        yield f"{path} with a list", post(path, b"[]", key), "bad_field"
        yield f"{path} with nothing", post(path, b"", key), "body_not_json"


def statements(key):
    for account_id, name in (("01", "bad_field"), ("1?x", "bad_field"), ("9", "no_account")):
        yield f"/statement/{account_id}", message("GET", f"/statement/{account_id}", key), name


def table(key):
    for part in (heads, routes, bodies, queries, statements):
        yield from part(key)


def refused_bytes(trial):
    """Each message of the table, in pieces of 1, 2 and 7 bytes and whole."""
    house = House(trial.fresh(), 1)
    house.begin()
    desk = house.desks[0]
    tried = 0
    for name, sent, refusal in table(desk.key):
        for piece in (1, 2, 7, None):
            desk.leave()
            refuse(house, desk, sent, piece, (f"{name}, in pieces of {piece}", refusal))
            tried += 1
            trial.progress(f"{tried} messages")
    refuse_large(house, desk)
    for line in ("", "x-ledger-key: 1\r\n", f"x-ledger-key: {desk.key}\r\n"):
        for piece in (1, 7, None):
            desk.leave()
            tell_page(house, desk, f"GET / HTTP/1.1\r\n{line}\r\n".encode(), piece)
    house.compare()
    house.stop()
    return f"{tried + 1} messages, each refused by its name, the page 9 times, and nothing changed"


def judged_bodies(trial):
    """`lint` of each body of the table: refused where the service refuses the body, else `ok`."""
    refused = taken = 0
    for name, sent, refusal in (*bodies(UNKNOWN), *queries(UNKNOWN)):
        head, body = sent.split(b"\r\n\r\n", 1)
        path = head.split()[1].decode()
        done = subprocess.run([trial.program, "lint", "--route", path], input=body,
                              capture_output=True, timeout=PATIENCE)
        told = done.returncode, done.stdout.decode()
        if refusal in ("body_not_json", "bad_field", "too_many_events"):
            want(told[0] == 1 and told[1].count("\n") == 1 and told[1] != "ok\n", f"{name}: {told}")
            want(not done.stderr, f"{name}: {done.stderr!r}")
            refused += 1
        elif refusal != "unknown_key":
            want(told == (0, "ok\n"), f"{name}: {told}")
            taken += 1
    return f"{refused} bodies that the service refuses, each told in a line; {taken} that it takes"


def refuse_large(house, desk):
    """A body of 3 megabytes, sent whole: the client can send all of it, and read all of its
    reply."""
    desk.leave()
    body = b"[" + b" " * 3_000_000 + b"]"
    refuse(house, desk, post("/transfers", body, desk.key), None, ("3 MB", "body_too_large"))


def refuse(house, desk, sent, piece, expected):
    """Sends a message that is refused so. Where that leaves the connection open a good message is
    answered behind it."""
    name, refusal = expected
    connection = Connection(house.service.port)
    connection.send(sent, piece)
    if refusal == "truncated":
        connection.socket.shutdown(socket.SHUT_WR)
    told = connection.reply()
    error = json.dumps({"error": refusal}, separators=(",", ":")).encode()
    want(told == (REFUSALS[refusal], "application/json", error), f"{name}: {told}, not {refusal}")
    if refusal in ENDING:
        want(connection.is_over(), f"{name}: the connection goes on")
        connection.close()
        return
    desk.connection = connection
    want(desk.batch([]), f"{name}: the next message is unavailable")


def tell_page(house, desk, sent, piece):
    """Asks for the page, which everybody is told. A good message is answered behind it."""
    connection = Connection(house.service.port)
    connection.send(sent, piece)
    page = PAGE.read_bytes()
    while not connection.read.endswith(page):
        want(connection.more(), f"the page ends behind {connection.read[:300]!r}")
    head, connection.read = connection.read[:-len(page)], b""
    want(head.startswith(PAGE_HEAD) and head.endswith(b"\r\n\r\n"), f"the page's head is {head!r}")
    desk.connection = connection
    want(desk.batch([]), "the message behind the page is unavailable")
