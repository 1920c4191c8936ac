"""Follows a ledger: each accepted transfer gets into OUTBOX once, whatever ends this program.

    LEDGER_URL=http://127.0.0.1:8080 LEDGER_KEY=.. python3 examples/following/follow.py OUTBOX

A line of OUTBOX is a page of transfers with the number to ask with for those behind it. So what was
done and the number are kept together or not at all. Start it again where it has ended, by whatever:
it goes on behind the last whole line."""

import json
import os
import sys
import time
import urllib.request


def ask(number):
    """The transfers from a number on, at most a hundred."""
    asked = json.dumps({"timestamp_min": str(number), "limit": 100}).encode()
    url, key = os.environ["LEDGER_URL"] + "/query/transfers", os.environ["LEDGER_KEY"]
    message = urllib.request.Request(url, asked, {"x-ledger-key": key})
    with urllib.request.urlopen(message, timeout=60) as reply:
        return json.load(reply)


def follow(outbox):
    lines = outbox.read()
    lines = lines[:lines.rfind(b"\n") + 1]
    outbox.truncate(len(lines))
    number = json.loads(lines.splitlines()[-1])["number"] if lines else 0
    while True:
        page = ask(number)
        number = int(page["next"]) or int(page["clock"]) + 1
        if page["transfers"]:
            line = json.dumps({"number": number, "transfers": page["transfers"]})
            outbox.write(line.encode() + b"\n")
            outbox.flush()
            os.fsync(outbox.fileno())
        if page["next"] == "0":
            time.sleep(0.2)


with open(sys.argv[1], "a+b") as opened:
    opened.seek(0)
    follow(opened)
