"""Each route that asks something of a tenant, and what is told on it while nothing can be asked."""

import re

from service import TOP, message, want

UNAVAILABLE = ("503 Service Unavailable", "application/json", b'{"error":"unavailable"}')
HISTORY, PAGE = b'{"account_id":"1","limit":1}', b'{"limit":1}'
# A body that is good there.
ROUTES = {
    ("POST", "/accounts"): b"[]",
    ("POST", "/transfers"): b"[]",
    ("POST", "/accounts/lookup"): b"[]",
    ("POST", "/transfers/lookup"): b"[]",
    ("POST", "/history/transfers"): HISTORY,
    ("POST", "/history/balances"): HISTORY,
    ("POST", "/query/accounts"): PAGE,
    ("POST", "/query/transfers"): PAGE,
    ("POST", "/pending/lookup"): b"[]",
    ("POST", "/pending/open"): PAGE,
    ("POST", "/lint/accounts"): b"[]",
    ("POST", "/lint/transfers"): b"[]",
    ("GET", "/statement/1"): b"",
}


def told_routes():
    """The routes of docs/MESSAGES.md that ask something of a tenant."""
    rows = re.findall(r"^\| (GET|POST) \| `(/[a-z/]*)(?:\{account\})?` \|",
                      (TOP / "docs/MESSAGES.md").read_text(), re.M)
    return {(method, path + "1" * path.endswith("/statement/")) for method, path in rows
            if path not in ("/", "/health")}


def look_at_routes(connection, key):
    """On each route `unavailable` is told, and to who asks for health, and the connection stays."""
    want(told_routes() == set(ROUTES), f"routes: {told_routes() ^ set(ROUTES)}")
    for (method, path), body in (*ROUTES.items(), (("GET", "/health"), b"")):
        connection.send(message(method, path, key, body))
        told = connection.reply()
        want(told == UNAVAILABLE, f"{method} {path}, where nothing can be asked: {told}")
