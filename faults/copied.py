"""Copies of a ledger that is served, under load: each is ok, and is what all tenants had at one
moment."""

import collections
import contextlib
import math
import os
import random
import signal
import subprocess
import threading
import time

from asking import be_there, both, told_by
from copies import remove
from drawn import Requests, moves
from indexed import Indexed
from rounds import TWENTY, start_again
from runs import House
from service import UNAVAILABLE, Desk, Service, body_of, check, look_at, lookup, run, want
from stops import IN_USE, begun, heard

EXISTS = (1, "", "ledgerd: exists\n")
OUTPUT = (3, "", "ledgerd: output\n")
# What a command tells that was killed.
KILLED = (-signal.SIGKILL, "", "")
PARTS = {".part", ".part-wal"}
# Clients say nothing while a copy is looked at.
IDLE = ("--idle", "3600")
# So many bytes are copied at a time.
PIECE = 4 << 20
# The bytes of a folder, or of a file, that a copy does not fit into.
SMALL = 1 << 20


class Sent:
    """A batch, and what is known of it: when it was sent, when its reply was there, and the clock
    that was told."""

    def __init__(self, events, transfers=True):
        self.events, self.transfers = events, transfers
        self.begun, self.ended, self.clock = time.monotonic(), None, None

    def end(self, clock):
        self.clock, self.ended = clock, time.monotonic()


class Client(threading.Thread):
    """A tenant that writes while it may, and a second plain ledger of what a copy has to have."""

    def __init__(self, house, place, seed):
        super().__init__(daemon=True)
        self.house, self.desk, self.name = house, house.desks[place], house.names[place]
        self.desk.ledger, self.copy = Indexed(), Desk(self.desk.key)
        self.copy.ledger = Indexed()
        self.requests = Requests(random.Random(seed), 10**9 * (place + 1))
        self.sent, self.held, self.surprise = [], 0, None
        self.goes_on, self.is_over = threading.Event(), threading.Event()
        self.lock = threading.Lock()

    def send(self, events, transfers=True):
        self.sent.append(Sent(events, transfers))
        want(self.desk.batch(events, transfers), "unavailable, with all at hand")
        self.sent[-1].end(self.desk.ledger.clock)

    def run(self):
        try:
            while not self.is_over.is_set():
                self.goes_on.wait()
                with self.lock:
                    if self.goes_on.is_set() and not self.is_over.is_set():
                        self.send(self.requests.batch(3))
                time.sleep(0.02)
        except Exception as surprise:
            self.surprise = surprise

    def follow(self, clock):
        """Brings the second ledger to the clock of a copy, which has to be that of a batch, or one
        behind it at which a hold is due. The last batch that the copy has, and the first that it has
        not, if there is one."""
        for sent in self.sent[self.held:]:
            if sent.clock is None or sent.clock > clock:
                break
            self.copy.ledger.batch(sent.events, sent.clock, sent.transfers)
            self.copy.asked |= {event["id"] for event in sent.events if sent.transfers}
            self.held += 1
        want(self.copy.ledger.reach(clock), f"{self.name}: no batch has the clock {clock}")
        return self.sent[self.held - 1], self.sent[self.held:][:1]

    def compare(self, service, is_last):
        """What the tenant has in a copy that is served. There holds come due too, so the second ledger's
        clock is put back to the copy's."""
        clock = self.copy.ledger.clock
        self.copy.connect(service)
        if is_last:
            self.copy.compare(service)
        for request, reply in (self.copy.accounts(), *found(self.copy)):
            look_at(request, self.copy.ask(*request), reply)
        self.copy.leave()
        self.copy.ledger.clock = clock


def found(desk):
    """Requests for all transfers that a tenant was asked for."""
    asked = sorted(desk.asked)
    for first in range(0, len(asked), 1000):
        ids = asked[first:first + 1000]
        yield lookup("/transfers/lookup", ids), desk.found(ids)


@contextlib.contextmanager
def load(clients):
    """The clients write; behind it each has its last reply."""
    for client in clients:
        client.goes_on.set()
    yield
    for client in clients:
        client.goes_on.clear()
    for client in clients:
        with client.lock:
            pass
        if client.surprise:
            raise client.surprise


def fill(trial, house):
    """Twenty tenants that write, and one with so many transfers that a copy takes some pieces."""
    for place in range(TWENTY + 1):
        house.add(f"desk-{place}")
    house.start()
    ample = house.take_turn(TWENTY)
    want(ample.batch(house.requests[TWENTY].accounts(), False), "unavailable at first")
    first = 10**9
    while os.path.getsize(house.db) <= PIECE:
        told = ample.ask("POST", "/transfers", body_of(moves(first, 1000)))
        want(told, "unavailable, with all at hand")
        first += 1000
    ample.leave()
    clients = [Client(house, place, trial.random.getrandbits(64)) for place in range(TWENTY)]
    for client in clients:
        client.desk.connect(house.service)
        client.send(client.requests.accounts(), False)
        client.start()
    return clients


def copied(trial):
    """Copies under the load of twenty clients; then those that are refused, that fail or that the
    service does not live to finish."""
    house, times = House(trial.fresh(), 0, IDLE), 100 if trial.is_long else 10
    clients, copy = fill(trial, house), f"{house.db}-copy"
    sizes, longest = set(), 0.0
    for turn in range(times):
        size, begun_at, ended_at = copy_under_load(house, clients, copy)
        look_at_copy(house, clients, copy, (begun_at, ended_at), turn == times - 1)
        sizes.add(size)
        longest = max(longest, ended_at - begun_at)
        trial.progress(f"{turn + 1} copies")
    refuse_copies(house, copy)
    copy_twice(house, copy)
    full = copy_to_full(house, copy)
    with load(clients):
        time.sleep(0.1)
    want(not house.service.told(), f"behind copies standard error tells {house.service.told()}")
    kills = kill_beside_copies(trial, house, copy)
    copy_unserved(trial, house, clients, copy)
    return (f"{times} copies of up to {max(sizes) / 1e6:.1f} MB under twenty clients, in "
            f"{longest:.1f} s at most, each ok and of one moment; none {full}; {kills}")


def copy_under_load(house, clients, copy):
    """Takes a copy. Its bytes, and when the command began and ended."""
    with load(clients):
        time.sleep(0.1)
        begun_at = time.monotonic()
        told = told_by(house, "copy", "--to", copy)
        ended_at = time.monotonic()
        time.sleep(0.1)
    return look_at_files(told, copy), begun_at, ended_at


def look_at_files(told, copy):
    """One file is there, for the owner alone, and nothing else is. Its bytes."""
    want(left(copy) == {""}, f"beside a copy there are {left(copy)}, and {told} is told")
    found = os.stat(copy)
    want(told == (0, f"copied {found.st_size}\n", ""), f"copy of {found.st_size} bytes: {told}")
    want(found.st_mode & 0o777 == 0o600, "the mode of a copy")
    return found.st_size


def left(copy):
    """The ends of all names in a copy's folder that begin with its own."""
    folder, name = os.path.split(copy)
    if not os.path.isdir(folder):
        return set()
    return {each[len(name):] for each in os.listdir(folder) if each.startswith(name)}


def look_at_copy(house, clients, copy, span, is_last):
    """It is ok, and served it tells each tenant what that one had at the copy's moment. Then it is
    taken away."""
    check(house.program, copy)
    # Once it is served its clocks may move, since holds come due in it too.
    status, text, errors = run(house.program, "tenants", "--db", copy)
    want((status, errors) == (0, ""), f"tenants of a copy: {status} {errors}")
    clocks = dict(row.split(",")[::2] for row in text.splitlines()[1:])
    want(set(clocks) == set(house.names), f"tenants of a copy: {text}")
    look_at_moment([client.follow(int(clocks[client.name])) for client in clients], span)
    service = Service(house.program, copy)
    for client in clients:
        client.compare(service, is_last)
    service.kill()
    remove(copy)
    os.remove(f"{copy}.control")


def look_at_moment(pairs, span):
    """A copy is of one moment between the command's beginning and its end: it has each batch that
    was answered before, and none that was sent later."""
    newest = max(has.begun for has, _ in pairs)
    oldest = min((each.ended for _, lacks in pairs for each in lacks), default=math.inf)
    want(newest < oldest, "a copy has a batch, and lacks one whose reply was there before that was "
                          f"sent, {newest - oldest:.3f} s")
    want(newest < span[1] and span[0] < oldest, f"a copy of {newest} to {oldest}, made in {span}")


def put(path, text=b""):
    with open(path, "wb") as file:
        file.write(text)


def refuse_copies(house, copy):
    """Where something has one of the names nothing is done. What a copy that was killed has left is
    taken away."""
    for end in ("", "-wal", "-journal", "-sums"):
        for make in (put, os.mkdir, lambda path: os.symlink("nowhere", path)):
            make(copy + end)
            told = told_by(house, "copy", "--to", copy)
            want(told == EXISTS and left(copy) == {end}, f"{end} is there: {told} {left(copy)}")
            (os.rmdir if os.path.isdir(copy + end) else os.remove)(copy + end)
    for end in PARTS:
        put(copy + end, b"x" * (8 << 20))
    look_at_files(told_by(house, "copy", "--to", copy), copy)
    check(house.program, copy)
    remove(copy)


def copy_twice(house, copy):
    """Two at once: one is made at a time, and the other may be told so."""
    ends = (".one", ".two")
    told = both(house, *(("copy", "--to", copy + end) for end in ends))
    want(any(each[0] == 0 for each in told), f"two copies at once: {told}")
    for end, each in zip(ends, told):
        if each != UNAVAILABLE:
            look_at_files(each, copy + end)
            check(house.program, copy + end)
        remove(copy + end)
    want(not left(copy), f"of two copies at once {left(copy)} is left")


def copy_to_full(house, copy):
    """Nothing is left of a copy that finds no room, or no folder."""
    house.service.limit_files(SMALL)
    fail(house, copy)
    house.service.limit_files(2**62)
    fail(house, os.path.join(copy, "copy"))
    folder = f"{house.db}-full"
    os.mkdir(folder)
    mount = ("mount", "-t", "tmpfs", "-o", f"size={SMALL}", "tmpfs", folder)
    if os.geteuid() or subprocess.run(mount, capture_output=True).returncode:
        return "is left of 2 that failed, a full disk not among them"
    try:
        fail(house, os.path.join(folder, "copy"))
        want(not os.listdir(folder), f"in a full folder there are {os.listdir(folder)}")
    finally:
        subprocess.run(("umount", folder), check=True)
    return "is left of 3 that failed, on a full disk among others"


def fail(house, copy):
    told = told_by(house, "copy", "--to", copy)
    want(told == OUTPUT, f"a copy to {copy}: {told}")
    want(not left(copy), f"of a copy that failed {left(copy)} is left")


def kill_beside_copies(trial, house, copy):
    """The service is killed at a random moment of a copy: it is whole, or only parts of it are
    there."""
    times, counted = 40 if trial.is_long else 5, collections.Counter()
    for turn in range(times):
        with begun(house, "copy", "--to", copy) as command:
            time.sleep(house.random.uniform(0, 0.2))
            house.service.served.kill()
            told = heard(command)
        house.service.served.wait()
        counted[judge_rest(house, told, copy)] += 1
        start_again(house)
        be_there(house)
        trial.progress(f"killed {turn + 1} times beside a copy")
    look_at_files(told_by(house, "copy", "--to", copy), copy)
    remove(copy)
    told = ", ".join(f"{counted[word]} times {word}" for word in sorted(counted))
    return f"{times} times killed beside one: {told}"


def judge_rest(house, told, copy):
    """What is there of a copy beside which the service, or the command, was killed. A whole one may
    be there and not be told."""
    there = left(copy)
    if not {""} <= there <= {"", ".part-wal"}:
        want(told[0] and there <= PARTS, f"killed beside `copy`: {told}, and there are {there}")
        return "parts are there" if there else "nothing is there"
    # The command may have been killed while it told of it.
    is_killed = told[0] == KILLED[0] and "copied ".startswith(told[1][:7]) and not told[2]
    want(told[0] == 0 or told in (UNAVAILABLE, IN_USE) or is_killed, f"killed beside `copy`: {told}")
    check(house.program, copy)
    remove(copy)
    return "it is whole"


def copy_unserved(trial, house, clients, copy):
    """The same of a file that nobody serves: the command makes the copy, and may be killed too."""
    for client in clients:
        client.is_over.set()
        client.goes_on.set()
        client.join()
    house.stop()
    os.remove(f"{house.db}.control")
    refuse_copies(house, copy)
    for _ in range(20 if trial.is_long else 4):
        with begun(house, "copy", "--to", copy) as command:
            time.sleep(house.random.uniform(0, 1))
            command.kill()
            told = heard(command)
        judge_rest(house, told, copy)
    begun_at = time.monotonic()
    look_at_files(told_by(house, "copy", "--to", copy), copy)
    look_at_copy(house, clients, copy, (begun_at, time.monotonic()), False)
    want(all(client.held == len(client.sent) for client in clients), "a copy lacks a batch")
    check(house.program, house.db)
