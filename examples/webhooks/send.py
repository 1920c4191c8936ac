"""Posts each new transfer of a ledger to a URL, one by one and in order, whatever ends this program.

    LEDGER_URL=http://127.0.0.1:8080 LEDGER_KEY=.. HOOK_URL=https://shop.example/hook HOOK_SECRET=.. \\
        python3 examples/webhooks/send.py PLACE

PLACE is a file with the timestamp of the last transfer that the receiver has acknowledged. It is written
and synced after the acknowledgement. So after a kill the last transfer may be posted again, and the
receiver recognizes it by its id."""

import fcntl
import hashlib
import hmac
import http.client
import json
import os
import sys
import time
import urllib.error
import urllib.request

PATIENCE, SHORTEST, LONGEST, QUIET = 60, 0.1, 60, 0.2


class NoRedirect(urllib.request.HTTPRedirectHandler):
    """A redirect is no acknowledgement: followed, a POST would become a GET."""

    def redirect_request(self, *_):
        return None


OPENER = urllib.request.build_opener(NoRedirect)


def post(url, body, headers, for_good=()):
    """Posts until the status is 2xx, after growing pauses, and returns the reply's body. A status of
    `for_good` ends the program: the request itself is wrong."""
    pause = SHORTEST
    while True:
        try:
            with OPENER.open(urllib.request.Request(url, body, headers), timeout=PATIENCE) as reply:
                return reply.read()
        except urllib.error.HTTPError as error:
            if error.code in for_good:
                sys.exit(f"{url}: {error.code} {error.read().decode()}")
        except (OSError, http.client.HTTPException):
            pass
        time.sleep(pause)
        pause = min(2 * pause, LONGEST)


def new_transfers(last):
    """The next transfers after a timestamp, at most a hundred, and the ledger's clock."""
    asked = json.dumps({"timestamp_min": str(last + 1), "limit": 100}).encode()
    headers = {"x-ledger-key": os.environ["LEDGER_KEY"], "content-type": "application/json"}
    page = json.loads(post(os.environ["LEDGER_URL"] + "/query/transfers", asked, headers, (400, 401, 404)))
    return page["transfers"], int(page["clock"])


def deliver(transfer):
    """Posts a transfer until the receiver acknowledges it."""
    body = json.dumps(transfer).encode()
    signature = hmac.new(os.environ["HOOK_SECRET"].encode(), body, hashlib.sha256).hexdigest()
    post(os.environ["HOOK_URL"], body, {"content-type": "application/json", "x-signature": signature,
                                        "x-transfer-id": transfer["id"]})


def keep(place, timestamp):
    """Replaces the file's content, durably: a crash leaves the old timestamp or the new one."""
    with open(f"{place}.new", "w") as file:
        file.write(f"{timestamp}\n")
        file.flush()
        os.fsync(file.fileno())
    os.replace(f"{place}.new", place)
    folder = os.open(os.path.dirname(os.path.abspath(place)), os.O_RDONLY)
    os.fsync(folder)
    os.close(folder)


def run(place):
    """Delivers for ever. A second sender with the same place waits until the first one has ended."""
    lock = open(f"{place}.lock", "w")
    fcntl.flock(lock, fcntl.LOCK_EX)
    last = int(open(place).read()) if os.path.exists(place) else 0
    while True:
        transfers, clock = new_transfers(last)
        if clock < last:
            sys.exit("an older copy of the ledger was restored: choose a new place, or what to resend")
        for transfer in transfers:
            deliver(transfer)
            last = int(transfer["timestamp"])
            keep(place, last)
        if not transfers:
            time.sleep(QUIET)


if __name__ == "__main__":
    run(sys.argv[1])
