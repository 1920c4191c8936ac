"""Receives what `send.py` posts, and keeps each transfer once, in the order of its first delivery.

    HOOK_SECRET=.. python3 examples/webhooks/receive.py FILE PORT

FILE is a SQLite database. A transfer's id is its primary key, so a repeated delivery adds no row. The
reply follows the commit, so an acknowledged transfer is on the disk. Do your own work in that
transaction."""

import contextlib
import hashlib
import hmac
import http.server
import json
import os
import sqlite3
import sys

PATIENCE = 60
TABLE = "CREATE TABLE IF NOT EXISTS received (place INTEGER PRIMARY KEY, id TEXT UNIQUE, body TEXT)"


def keep(file, transfer):
    """Keeps a transfer, unless it is there."""
    with contextlib.closing(sqlite3.connect(file, timeout=PATIENCE)) as database, database:
        database.execute("INSERT INTO received (id, body) VALUES (?, ?) ON CONFLICT (id) DO NOTHING",
                         (transfer["id"], json.dumps(transfer)))


class Receiver(http.server.BaseHTTPRequestHandler):
    """One delivery: 403 with a wrong signature, 204 once it is kept."""

    keep = staticmethod(keep)

    def do_POST(self):
        body = self.rfile.read(int(self.headers["content-length"]))
        expected = hmac.new(os.environ["HOOK_SECRET"].encode(), body, hashlib.sha256).hexdigest()
        is_signed = hmac.compare_digest(expected, self.headers.get("x-signature", ""))
        if is_signed:
            self.keep(sys.argv[1], json.loads(body))
        self.send_response(204 if is_signed else 403)
        self.end_headers()

    def log_message(self, *_):
        pass


def run(receiver):
    with contextlib.closing(sqlite3.connect(sys.argv[1], timeout=PATIENCE)) as database, database:
        database.execute(TABLE)
    with http.server.ThreadingHTTPServer(("127.0.0.1", int(sys.argv[2])), receiver) as server:
        server.serve_forever()


if __name__ == "__main__":
    run(Receiver)
