"""Sends what beginners send to a service of its own, on a free port, and what to send instead, and
compares what each is told with the table of docs/MESSAGES.md. Ends with 1 where one is told
something else.

    python3 examples/clients/try_beginners.py LEDGERD"""

import collections
import http.client
import json
import os
import sys
import tempfile
import uuid

from served import KEY, served

Row = collections.namedtuple("Row", "name sent told instead found")
Ask = collections.namedtuple("Ask", "method path body headers")
TRANSFER = {"id": "100", "debit_account_id": "1", "credit_account_id": "2", "amount": "10",
            "ledger": 978, "code": 1}
AMOUNTS = ["10.00", "1e3", "1,000", "+5", "-5", "05", " 5", ""]
TEXT = "6f9619ff-8b86-d011-b42d-00c04fc964ff"
FILTER = {"account_id": "1", "flags": 3, "limit": 100}
NUMBER = str(uuid.UUID(TEXT).int)


def ask(path, body, method="POST", headers=None):
    text = body if isinstance(body, bytes) else json.dumps(body).encode()
    return Ask(method, path, text, {"x-ledger-key": KEY} if headers is None else headers)


def transfer(**fields):
    """A batch of one, whose fields are replaced or added to."""
    return ask("/transfers", [{**TRANSFER, **fields}])


def empty(headers):
    return ask("/transfers", [], headers=headers)


def read(method, path):
    return ask(path, b"", method)


NONE = ask("/transfers", [])
HISTORY = "/history/transfers"
ROWS = [
    Row("a number as id", transfer(id=1), "bad_field", transfer(), "ok"),
    Row("a number as amount", transfer(amount=10), "bad_field", transfer(), "exists"),
    *(Row(f"a text as {name}", transfer(id="101", flags=2, **{name: "1"}), "bad_field",
          transfer(id=place, flags=2, timeout=60), "ok")
      for name, place in (("ledger", "102"), ("code", "103"), ("timeout", "104"))),
    *(Row(f"the amount '{each}'", transfer(id="105", amount=each), "bad_field",
          transfer(id=f"20{place}", amount="1000"), "ok") for place, each in enumerate(AMOUNTS)),
    Row("a UUID", transfer(id=TEXT), "bad_field", transfer(id=NUMBER), "ok"),
    Row("a hexadecimal id", transfer(id="0x64"), "bad_field", transfer(id=NUMBER), "exists"),
    Row("a list of flags", transfer(id="106", flags=["pending"]), "bad_field",
        transfer(id="106", flags=2), "ok"),
    Row("a word as flags", transfer(id="107", flags="pending"), "bad_field",
        transfer(id="107", flags=2), "ok"),
    Row("null", transfer(id="108", pending_id=None), "bad_field", transfer(id="108"), "ok"),
    *(Row(f"the field {name}", transfer(id="109", **{name: "10"}), "bad_field",
          transfer(id=f"30{place}", user_data_128="10"), "ok")
      for place, name in enumerate(("Amount", "currency", "description"))),
    Row("one object", ask("/transfers", {**TRANSFER, "id": "110"}), "bad_field",
        transfer(id="110"), "ok"),
    Row("an object of ids", ask("/accounts/lookup", {"ids": ["1"]}), "bad_field",
        ask("/accounts/lookup", ["1"]), '"id":"1"'),
    Row("numbers as ids", ask("/accounts/lookup", [1]), "bad_field",
        ask("/accounts/lookup", ["1"]), '"id":"1"'),
    Row("a filter without a limit", ask(HISTORY, {"account_id": "1"}), "bad_field",
        ask(HISTORY, FILTER), '"id":"100"'),
    Row("no body", ask("/transfers", b""), "body_not_json", NONE, '"results":[]'),
    Row("single quotes", ask("/accounts/lookup", b"['1']"), "body_not_json",
        ask("/accounts/lookup", b'["1"]'), '"id":"1"'),
    Row("a last comma", ask("/accounts/lookup", b'["1",]'), "body_not_json",
        ask("/accounts/lookup", b'["1"]'), '"id":"1"'),
    Row("a mark of the byte order", ask("/transfers", b"\xef\xbb\xbf[]"), "body_not_json", NONE,
        '"results":[]'),
    Row("more than 1,000 events", ask("/transfers", [TRANSFER] * 1001), "too_many_events",
        ask("/transfers", [TRANSFER] * 1000), "exists"),
    Row("a timestamp", transfer(id="111", timestamp="1795377586131771809"),
        "timestamp_must_be_zero", transfer(id="111"), "ok"),
    Row("balances of a new account",
        ask("/accounts", [{"id": "3", "ledger": 978, "code": 1, "credits_posted": "1000"}]),
        "credits_posted_must_be_zero",
        ask("/accounts", [{"id": "3", "ledger": 978, "code": 1}]), "ok"),
    Row("a timeout in milliseconds", transfer(id="112", flags=2, timeout=60000), "ok",
        transfer(id="113", flags=2, timeout=60), "ok"),
    Row("a filter without flags", ask(HISTORY, {"account_id": "1", "limit": 100}),
        '"transfers":[]', ask(HISTORY, FILTER), '"id":"100"'),
    Row("seconds as timestamp_max", ask(HISTORY, {**FILTER, "timestamp_max": "4102444800"}),
        '"transfers":[]', ask(HISTORY, {**FILTER, "timestamp_max": "4102444800000000000"}),
        '"id":"100"'),
    Row("Authorization", empty({"authorization": f"Bearer {KEY}"}), "unknown_key", NONE,
        '"results":[]'),
    Row("a key in quotes", empty({"x-ledger-key": f'"{KEY}"'}), "unknown_key",
        empty({"x-ledger-key": KEY.upper()}), '"results":[]'),
    *(Row(f"the path {path}", ask(path, []), "no_route", NONE, '"results":[]')
      for path in ("/transfers/", "/v1/transfers", "/transfers?limit=1")),
    *(Row(method, read(method, "/statement/1"), "length_required", read("GET", "/statement/1"),
          "timestamp,") for method in ("HEAD", "OPTIONS")),
]


def answer(port, request):
    """What a request is told, on a connection of its own. Its body is read behind HEAD too."""
    connection = http.client.HTTPConnection("127.0.0.1", port, timeout=120)
    is_sent = request.method in ("GET", "POST")
    connection.putrequest(request.method, request.path)
    if is_sent:
        connection.putheader("content-length", str(len(request.body)))
    for name, value in request.headers.items():
        connection.putheader(name, value)
    connection.endheaders(request.body if is_sent else None)
    connection.sock.settimeout(120)
    text = whole(connection.sock)
    connection.close()
    return text


def whole(stream):
    """The body of a reply as text: as many bytes as its head states, or all of its chunks."""
    reply = http.client.HTTPResponse(stream, method="GET")
    try:
        reply.begin()
        if reply.length is None and not reply.chunked:
            sys.exit("a reply whose head was cut, or states no length")
        return reply.read().decode()
    except http.client.HTTPException:
        sys.exit("a reply was cut short")


def has(text, word):
    """Whether a reply tells a word: a part of it, the name of each of its results, or its error."""
    if '"' in word or "," in word:
        return word in text
    told = json.loads(text)
    names = {each["result"] for each in told["results"]} if "results" in told else {told["error"]}
    return names == {word}


def main():
    wrong = 0
    with tempfile.TemporaryDirectory() as folder:
        with served(os.path.abspath(sys.argv[1]), folder) as port:
            accounts = [{"id": place, "ledger": 978, "code": 1} for place in ("1", "2")]
            assert has(answer(port, ask("/accounts", accounts)), "ok")
            for row in ROWS:
                told, found = answer(port, row.sent), answer(port, row.instead)
                is_good = has(told, row.told) and has(found, row.found)
                wrong += not is_good
                print(f"{row.name}: {row.told}; instead: {row.found}" if is_good else
                      f"{row.name}: WRONG: {told[:300]} {found[:300]}", flush=True)
    print(f"{len(ROWS) - wrong} of {len(ROWS)} are told what the table says")
    sys.exit(1 if wrong else 0)


main()
