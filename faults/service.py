"""A `ledgerd` of one's own: started, asked over a socket, ended; and a tenant at it, whose every
reply is compared with the plain ledger's."""

import atexit
import copy
import json
import os
import pathlib
import re
import resource
import signal
import socket
import subprocess
import time

import pages
from connection import PATIENCE, Connection, want
from messages import body_of, clock_in, lookup, message, newest
from model import ACCOUNT_FIELDS, BALANCES, HISTORY, TRANSFER_FIELDS, Ledger
from pages import shown

TOP = pathlib.Path(__file__).resolve().parent.parent
# So many seconds a connection is kept that is not used. A service lets it go after 75, or after 12
# where a trial asks for that.
KEPT = 5
# What a service tells that cannot listen for its operator.
NO_DESK = "no commands while it is served: "
# What a command tells that memory or the disk has failed; a file whose first page cannot be read is
# told as the second.
UNAVAILABLE = (3, "", "ledgerd: unavailable\n")
UNREADABLE = (4, "", "ledgerd: unreadable\n")
# The line that says what is in a file.
CONTENTS = re.compile(r"tenants (\d+) accounts (\d+) transfers (\d+) clock (\d+)\n")
# The paths of batches, whose clock is their own.
BATCHES = ("/transfers", "/accounts")
NAME_TAKEN = (1, "", "ledgerd: name_taken\n")


def result_names():
    """The names of docs/RESULTS.md by their numbers: of accounts, and of transfers."""
    text = (TOP / "docs/RESULTS.md").read_text()
    _, accounts, transfers = re.split(r"^## (?:Accounts|Transfers)$", text, flags=re.M)
    return [{int(number): name for number, name in re.findall(r"^\| (\d+) \| `(\w+)`", part, re.M)}
            for part in (accounts, transfers)]


ACCOUNT_RESULTS, TRANSFER_RESULTS = result_names()


def run_whole(program, *words, env=None, timeout=PATIENCE):
    """The status, standard output and standard error of a command."""
    done = subprocess.run([program, *words], capture_output=True, env=env, timeout=timeout)
    return done.returncode, done.stdout.decode(), done.stderr.decode()


def brief(status, out, err):
    """What a command tells without the line on standard error that says what is in a file."""
    return status, out, CONTENTS.sub("", err, count=1) if status == 0 else err


def run(program, *words, env=None, timeout=PATIENCE):
    """The same of a command, without the line that says what is in a file."""
    return brief(*run_whole(program, *words, env=env, timeout=timeout))


def check(program, db):
    want(run(program, "check", "--db", db) == (0, "ok\n", ""), f"check: {db} is not ok")


def add_tenant(program, db, name, key):
    """Adds a tenant. A file that it makes is told, and its owner's alone."""
    is_new = not os.path.exists(db)
    told = run(program, "tenant-add", "--db", db, "--name", name, "--key", key)
    note = f"new ledger {db}\n" if is_new else ""
    want(told == (0, f"added {name}\n", note), f"tenant-add: {told}")
    if is_new:
        modes = [os.stat(file).st_mode & 0o777 for file in (db, f"{db}-wal")]
        want(modes == [0o600, 0o600], f"modes: {modes}")


def change_key(program, db, name, key):
    told = run(program, "tenant-key", "--db", db, "--name", name, "--key", key)
    want(told == (0, f"changed {name}\n", ""), f"tenant-key: {told}")


def free_port():
    with socket.socket() as probe:
        probe.bind(("127.0.0.1", 0))
        return probe.getsockname()[1]


def state(pid):
    """The letter of a process's state (proc(5))."""
    told = pathlib.Path(f"/proc/{pid}/stat").read_text()
    return told.rpartition(")")[2].split()[0]


class Service:
    """A running service over a file, with options beside those that it must have."""

    def __init__(self, program, db, env=None, options=()):
        self.port, self.text = free_port(), b""
        self.errors, errors = os.pipe()
        os.set_blocking(self.errors, False)
        self.served = subprocess.Popen(
            [program, "serve", "--db", db, "--port", str(self.port), *options],
            env=env, stderr=errors,
            preexec_fn=lambda: signal.signal(signal.SIGXFSZ, signal.SIG_IGN))
        os.close(errors)
        atexit.register(self.served.kill)
        self.wait_for_lines(1)
        self.look_at_beginning(db)

    def look_at_beginning(self, db):
        """What it says first, which is that it serves; or before that, that no operator can ask, or
        that replies are not marked."""
        if self.lines()[0].startswith(NO_DESK) or "-sums: " in self.lines()[0]:
            self.wait_for_lines(2)
        serving = f"serving {db} on 127.0.0.1:{self.port}"
        want(any(line.startswith(serving) for line in self.lines()[:2]),
             f"serve tells {self.lines()}")

    def wait_for_lines(self, many):
        """Until so many lines stand on its standard error."""
        end = time.monotonic() + PATIENCE
        while len(self.lines()) < many:
            want(self.served.poll() is None, f"serve ended: {self.served.poll()} {self.lines()}")
            want(time.monotonic() < end, f"serve tells no more than {self.lines()}")
            time.sleep(0.01)

    def stand_still(self):
        """Stops the process, which reads nothing from then on until it is continued."""
        self.served.send_signal(signal.SIGSTOP)
        end = time.monotonic() + PATIENCE
        while state(self.served.pid) != "T":
            want(time.monotonic() < end, f"told to stop, it is {state(self.served.pid)}")
            time.sleep(0.001)

    def limit_files(self, most):
        """No file grows beyond so many bytes from now on."""
        resource.prlimit(self.served.pid, resource.RLIMIT_FSIZE, (most, resource.RLIM_INFINITY))

    def limit_connections(self, most):
        """It has no more than so many descriptors from now on."""
        hard = resource.prlimit(self.served.pid, resource.RLIMIT_NOFILE)[1]
        resource.prlimit(self.served.pid, resource.RLIMIT_NOFILE, (most, hard))

    def lines(self):
        """The whole lines of its standard error so far."""
        try:
            self.text += os.read(self.errors, 1 << 20)
        except BlockingIOError:
            pass
        return self.text.decode().split("\n")[:-1]

    def told(self):
        """Those behind the first, which says that it serves, but for those on FILE-sums."""
        return [line for line in self.lines()[1:] if "-sums" not in line]

    def memory(self):
        """The bytes that the process has in memory."""
        return self.statm(1)

    def mapped(self):
        """The bytes that it has at all, of which not all need to be in memory."""
        return self.statm(0)

    def statm(self, place):
        pages = pathlib.Path(f"/proc/{self.served.pid}/statm").read_text().split()
        return int(pages[place]) * os.sysconf("SC_PAGE_SIZE")

    def descriptors(self):
        """How many the process has open."""
        return len(os.listdir(f"/proc/{self.served.pid}/fd"))

    def kill(self):
        """Ends it as a crash does. It was still there."""
        want(self.served.poll() is None, f"serve had ended by itself: {self.served.poll()}")
        self.gone()

    def gone(self):
        """It is not there any more."""
        self.served.kill()
        self.served.wait()
        os.close(self.errors)
        atexit.unregister(self.served.kill)


class Desk:
    """A tenant of a service, and the plain ledger beside it. Where a lost batch may have failed whole,
    `others` are the ledgers that it may have left."""

    def __init__(self, key):
        self.key, self.ledger, self.asked = key, Ledger(), set()
        self.connection, self.longest = None, 0.0
        self.others, self.before = [], None

    def connect(self, service):
        self.leave()
        self.connection = Connection(service.port)

    def leave(self):
        if self.connection:
            self.connection.close()
        self.connection = None

    def ask(self, method, path, body=b""):
        """The reply to a message: None where it is `unavailable`."""
        begun = time.monotonic()
        self.connection.send(message(method, path, self.key, body))
        told = self.answer(method, path)
        self.longest = max(self.longest, time.monotonic() - begun)
        return told

    def answer(self, method, path):
        """The next reply of the connection, likewise: its bytes, where they are compared."""
        status, kind, told = self.connection.reply()
        if told == b'{"error":"unavailable"}':
            want(status == "503 Service Unavailable", f"unavailable comes with {status}")
            return None
        want(status == "200 OK", f"{method} {path}: {status} {told!r}")
        if path not in BATCHES:
            for ledger in self.ledgers():
                ledger.reach(clock_in(told))
        if path in pages.PATHS:
            return told
        return told.decode() if kind == "text/csv" else json.loads(told)

    def batch(self, events, transfers=True):
        """Sends a batch, and compares. Says whether it was answered; else nothing has changed."""
        self.asked |= {event["id"] for event in events if transfers}
        begun, self.before = time.time_ns(), self.ledger.clock
        told = self.ask("POST", "/transfers" if transfers else "/accounts", body_of(events))
        if told is None:
            for ledger in self.ledgers():
                ledger.refuse(events if transfers else (), begun, time.time_ns())
            return False
        self.judge(events, transfers, told)
        return True

    def judge(self, events, transfers, told):
        """Compares an answer. Where a doubt was left, the ledgers that it fits are kept."""
        clock, self.before = int(told["clock"]), None
        want(clock >= self.ledger.clock + len(events), f"the clock {clock} has turned back")
        names = TRANSFER_RESULTS if transfers else ACCOUNT_RESULTS
        expected = [[{"number": number, "result": names[number], "timestamp": str(stamp)}
                     for number, stamp in ledger.batch(events, clock, transfers)]
                    for ledger in self.ledgers()]
        fitting = [ledger for ledger, results in zip(self.ledgers(), expected)
                   if results == told["results"]]
        want(fitting, f"{body_of(events).decode()} is answered {told}, not {expected}")
        self.ledger, *self.others = apart(fitting)

    def ledgers(self):
        """The plain ledger, and those that it may be as well."""
        return [self.ledger, *self.others]

    def until_well(self):
        """Asks until it is answered: a file that could not be opened again is tried anew, and then
        after a second, two, four and so on."""
        return self.until_told("POST", "/accounts/lookup", b"[]")

    def until_told(self, *asked):
        """Likewise, with a request that tells a clock."""
        end = time.monotonic() + PATIENCE
        while (told := self.ask(*asked)) is None:
            want(time.monotonic() < end, "unavailable for minutes")
            time.sleep(0.02)
        return told

    def settle(self, events, transfers=True):
        """After a lost reply, or a refusal: whether the batch was kept, by one look-up of its ids. What
        was accepted of it tells when. Where nothing was, the clock tells. If a hold is due at that
        clock, the batch may have been kept and all of it have failed, as a later answer shows."""
        path, name, known = (("/transfers/lookup", "transfers", self.ledger.transfers) if transfers
                             else ("/accounts/lookup", "accounts", self.ledger.accounts))
        ids, before = [event["id"] for event in events], self.ledger.clock
        sent = before if self.before is None else self.before
        told = self.until_told(*lookup(path, ids))
        clock, stamps = int(told["clock"]), {int(it["id"]): int(it["timestamp"]) for it in told[name]}
        last = next((stamps[number] + len(ids) - 1 - place for place, number in enumerate(ids)
                     if number in stamps and number not in known), None)
        if last is None and clock == self.ledger.clock:
            self.doubt(events, transfers, sent)
            return False
        last = last or clock
        # Before the batch it was here, where it had not been settled behind the batch by then.
        is_settled = self.ledger.may_settle_at(before)
        self.ledger.clock = min(before, last - len(events)) if is_settled else before
        self.ledger.batch(events, last, transfers)
        want(self.ledger.reach(clock), f"the clock is {clock}, of a batch at {last}")
        self.others = []
        return True

    def doubt(self, events, transfers, sent):
        """Nothing of a batch is there that was sent at a clock, and a hold was due since. The ledgers
        that it may have left: of the earliest moment, of the latest, and of each at which a hold was
        due between."""
        now, first = self.ledger.clock, sent + len(events)
        moments = {first, now, *(due for due in self.ledger.dues if first <= due)}
        for ledger in self.ledgers() if transfers else ():
            for at in sorted(at for at in moments if first <= at <= now):
                other = copy.deepcopy(ledger)
                other.clock = sent
                other.batch(events, at, transfers)
                other.clock = now
                self.others.append(other)
        for ledger in self.ledgers():
            ledger.refuse(events if transfers else (), first, now)
        self.ledger, *self.others = apart(self.ledgers())

    def accounts(self):
        """A look-up of all its accounts and of one more, and what has to stand in the reply."""
        ledger = self.ledger

        def reply():
            accounts = [shown(each, ACCOUNT_FIELDS, ledger.balances(number).items())
                        for number, each in sorted(ledger.accounts.items())]
            return {"accounts": accounts, "clock": str(ledger.clock)}

        return lookup("/accounts/lookup", [*sorted(ledger.accounts), 2**100]), reply

    def expected(self):
        """All that the tenant can see: requests, and what has to stand in their replies. Where that
        goes by the clock it is told once the reply is there, which may have come to a later one."""
        ledger = self.ledger
        yield self.accounts()
        asked = sorted(self.asked)
        for first in range(0, len(asked), 1000):
            ids = asked[first:first + 1000]
            yield lookup("/transfers/lookup", ids), self.found(ids)
        for number, account in ledger.accounts.items():
            lines = ledger.statement(number)
            yield ("GET", f"/statement/{number}", b""), lines
            if account["flags"] & HISTORY:
                yield newest(number), [line.split(",") for line in lines[:-11:-1]]
        yield from pages.expected(ledger, asked)

    def found(self, ids):
        """What a look-up of transfers is told, behind it."""
        def reply():
            kept = self.ledger.transfers
            return {"transfers": [shown(kept[number], TRANSFER_FIELDS) for number in ids
                                  if number in kept], "clock": str(self.ledger.clock)}

        return reply

    def compare(self, service):
        """Compares all that the tenant can see. Behind a reply that took long to work out the service
        may have let the connection go."""
        self.connect(service)
        asked = time.monotonic()
        for request, reply in self.expected():
            if time.monotonic() - asked > KEPT:
                self.connect(service)
            told, asked = self.ask(*request), time.monotonic()
            look_at(request, told, reply)


def apart(ledgers):
    """The first of each of some ledgers that differ in what has failed. They differ in nothing else."""
    different = {}
    for ledger in ledgers:
        different.setdefault(frozenset(ledger.failed), ledger)
    return list(different.values())


def look_at(request, told, reply):
    """Compares what a request is told with what it has to be told."""
    reply = reply() if callable(reply) else reply
    if request[0] == "GET":
        told = told.splitlines()[1:]
    elif request[1] == "/history/balances":
        told = [[each["timestamp"], *(each[name] for name in BALANCES)]
                for each in told["balances"]]
        reply = [[words[0], *words[5:]] for words in reply]
    want(told == reply, f"{request[:2]}: {told}, not {reply}")
