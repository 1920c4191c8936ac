"""Messages as they are sent, and what a reply tells of its clock."""

import json
import re

from pages import STRINGS


def message(method, path, key, body=b""):
    lines = [f"{method} {path} HTTP/1.1", f"x-ledger-key: {key}"]
    if method != "GET":
        lines.append(f"content-length: {len(body)}")
    return "\r\n".join(lines).encode() + b"\r\n\r\n" + body


def body_of(events):
    """A batch as JSON; fields that are 0 are left out."""
    listed = [{field: str(value) if field in STRINGS else value
               for field, value in event.items() if value} for event in events]
    return json.dumps(listed, separators=(",", ":")).encode()


def lookup(path, ids):
    return "POST", path, json.dumps([str(each) for each in ids]).encode()


def newest(number):
    """The newest ten balances of an account."""
    body = {"account_id": str(number), "limit": 10, "flags": 7}
    return "POST", "/history/balances", json.dumps(body).encode()


def clock_in(told):
    """The clock that a reply tells; 0 where it tells none."""
    found = re.search(rb'"clock":"(\d+)"', told)
    return int(found[1]) if found else 0
