"""Sends a service each signal of the table in docs/OPERATING.md, 'Signals', and compares what happens.

    python3 examples/operating/try_signals.py LEDGERD

LEDGERD is the program, which serves a new ledger on a free port. A batch has reached the service and is
not read yet when the signal comes."""

import contextlib
import http.client
import json
import os
import pathlib
import re
import resource
import signal
import subprocess
import sys
import tempfile
import time

TOP = pathlib.Path(__file__).resolve().parents[2]
sys.path.insert(0, str(TOP / "examples/clients"))

from served import KEY, ended, free_port, wait_for, wait_for_reply  # noqa: E402

ROW = re.compile(r"^\| (`SIG[A-Z0-9`, ]+`) \| .* \| (ends|pauses|none)\b.* \|$", re.M)
PATIENCE, PAUSE = 60, 2


def rows():
    """Each signal of the table, and its effect in a word."""
    text = (TOP / "docs/OPERATING.md").read_text().partition("\n### Signals\n")[2].partition("\n### ")[0]
    for names, effect in ROW.findall(text):
        for name in re.findall(r"SIG[A-Z0-9]+", names):
            yield getattr(signal, name), effect


def as_by_systemd():
    """Leaves no core file, and has each signal do what it does by itself. A shell ignores SIGINT and SIGQUIT
    in what it runs in the background, and that would be inherited."""
    resource.setrlimit(resource.RLIMIT_CORE, (0, 0))
    for number, _ in rows():
        if number not in (signal.SIGKILL, signal.SIGSTOP):
            signal.signal(number, signal.SIG_DFL)


def ask(link, path, events):
    link.request("POST", path, json.dumps(events), {"x-ledger-key": KEY})


def replied(link):
    """Whether a reply comes, which then says that the batch was done."""
    try:
        reply = link.getresponse()
        return reply.status == 200 and b'"ok"' in reply.read()
    except (ConnectionError, http.client.HTTPException):
        return False


def send(service, port, number, place):
    """Sends a signal while a batch waits to be read. The status of the service, and whether it replied."""
    with contextlib.closing(http.client.HTTPConnection("127.0.0.1", port, timeout=PATIENCE)) as link:
        ask(link, "/accounts", [{"id": it, "ledger": 7, "code": 1} for it in "12"])
        link.getresponse().read()
        os.kill(service.pid, signal.SIGSTOP)
        ask(link, "/transfers", [{"id": str(100 + place), "debit_account_id": "1", "amount": "1",
                                  "credit_account_id": "2", "ledger": 7, "code": 1}])
        time.sleep(0.1)
        os.kill(service.pid, number)
        if number in (signal.SIGSTOP, signal.SIGTSTP):
            time.sleep(PAUSE)
        os.kill(service.pid, signal.SIGCONT)
        has_replied = replied(link)
    if not has_replied:
        service.wait(PATIENCE)
    return service.poll(), has_replied


def main():
    ledgerd, listed = os.path.abspath(sys.argv[1]), list(rows())
    if not {signal.SIGTERM, signal.SIGINT, signal.SIGHUP} <= {number for number, _ in listed}:
        sys.exit("docs/OPERATING.md has no table of signals")
    with tempfile.TemporaryDirectory() as folder:
        db, port = os.path.join(folder, "ledger.db"), free_port()
        subprocess.run([ledgerd, "tenant-add", "--db", db, "--name", "first", "--key", "-"], input=KEY,
                       text=True, check=True, stdout=subprocess.DEVNULL, stderr=subprocess.DEVNULL)
        for place, (number, effect) in enumerate(listed):
            words = [ledgerd, "serve", "--db", db, "--port", str(port)]
            begun = subprocess.Popen(words, preexec_fn=as_by_systemd, stderr=subprocess.DEVNULL)
            with ended(begun) as service:
                wait_for(port, service)
                wait_for_reply(port)
                told = send(service, port, number, place)
            if told != ((-number, False) if effect == "ends" else (None, True)):
                sys.exit(f"{number.name}: {effect}, and the status and the reply are {told}")
            checked = subprocess.run([ledgerd, "check", "--db", db], text=True, stdout=subprocess.PIPE)
            if checked.stdout != "ok\n":
                sys.exit(f"{number.name}: check: {checked.stdout}")
    print(f"{len(listed)} signals do what docs/OPERATING.md says")


if __name__ == "__main__":
    main()
