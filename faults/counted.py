"""What a service tells of itself, each number moved and read back; and callers at its socket that
do not send, or do not read."""

import os
import pathlib
import re
import select
import socket
import time

from asking import asked, be_there, call, named, told_by, write
from connection import Connection
from drawn import account, moves
from reopened import fail
from rounds import Crowd
from runs import House
from service import body_of, check, message, want

COUNTS = ["accounts_accepted", "accounts_refused", "clients", "clients_accepted",
          "clients_late", "disk_faults", "file_bytes", "last_refused_opening", "log_bytes",
          "longest_sync_microseconds", "longest_turn_microseconds", "most_clients",
          "refused_reopenings", "reopenings", "replies_2xx", "replies_4xx", "replies_5xx",
          "round_messages", "rounds", "schema", "seconds", "sync_microseconds", "syncs",
          "transfers_accepted", "transfers_refused", "turn_microseconds"]
# Events of batches, by what becomes of them.
EVENTS = ("accounts_accepted", "accounts_refused", "transfers_accepted", "transfers_refused")
# What grows by itself.
TIMES = ("seconds", "longest_turn_microseconds", "turn_microseconds")
# What a sync of the disk moves.
SYNCS = ("syncs", "sync_microseconds", "longest_sync_microseconds")
# Who asks at the socket has so many seconds for a message, and to take the reply; what a busy
# machine adds is not the service's. So many may be there at once.
CALL, ADDED, CALLERS = 10, 20, 8
# The bytes of a tenant with a long name in the list of tenants.
ROW = 160
# A service that lets go of clients soon, for `status_told`.
MOST, IDLE, MESSAGE = 6, 4, 2
SOON = ("--clients", str(MOST), "--idle", str(IDLE), "--message", str(MESSAGE))


def counts(house, *form, prefix=""):
    """The numbers of `status`."""
    status, text, errors = told_by(house, "status", *form)
    rows = re.findall(f"^{prefix}([a-z0-9_]+) ([0-9]+)$", text, re.M)
    want((status, errors, len(rows)) == (0, "", text.count("\n")), f"status: {text} {errors}")
    want([name for name, _ in rows] == COUNTS, f"status: {text}")
    return {name: int(number) for name, number in rows}


def forms(house):
    """The numbers in either form, while nothing changes."""
    told = [counts(house), counts(house, "--prometheus", prefix="ledgerd_")]
    times = [[each.pop(name) for name in TIMES] for each in told]
    want(times[1][0] - times[0][0] in (0, 1), f"the seconds of two answers: {times}")
    want(all(one <= other for one, other in zip(*times)), f"the times of two answers: {times}")
    want(told[0] == told[1], f"the two forms: {told}")


def until(house, holds, text):
    """The numbers, once they are so: clients that come and go are seen a little later."""
    end = time.monotonic() + ADDED
    while not holds(told := counts(house)):
        want(time.monotonic() < end, f"{text}: {told}")
    return told


def status_told(trial):
    """Each number is moved and read back, in a service of its own."""
    house, begun = House(trial.fresh(), 1, SOON), time.monotonic()
    house.start()
    be_there(house)
    served = time.monotonic()
    told = until(house, lambda told: not told["clients"], "the only client has gone")
    first = {"most_clients": 1, "clients_accepted": 1, "clients_late": 0, "schema": 3}
    want(first.items() <= told.items(), f"a service that was asked once: {told}")
    sizes = files_told(house)
    clients_told(house)
    late_told(house)
    told = counts(house)["seconds"]
    least, most = int(time.monotonic() - served) - 1, int(time.monotonic() - begun) + 1
    want(least <= told <= most, f"{told} seconds, not {least} to {most}")
    house.stop()
    check(house.program, house.db)
    return f"at {sizes} lengths of the files"


def files_told(house):
    """Both lengths are the system's, behind batches until both have grown."""
    write(house, 0, house.requests[0].accounts(), False)
    seen = set()
    while len({size for size, _ in seen}) < 2:
        want(len(seen) < 30, f"the file has not grown: {seen}")
        body = body_of(moves(10**9 + 500 * len(seen), 500))
        want(house.take_turn(0).ask("POST", "/transfers", body), "unavailable, with all at hand")
        sizes = tuple(os.stat(path).st_size for path in (house.db, f"{house.db}-wal"))
        told = counts(house)
        want((told["file_bytes"], told["log_bytes"]) == sizes, f"of the lengths {sizes}: {told}")
        seen.add(sizes)
    forms(house)
    house.desks[0].leave()
    return len(seen)


def clients_told(house):
    """Clients come and go: those that are there, the most so far, and all that have come."""
    before = until(house, lambda told: not told["clients"], "all have gone")
    held = [Connection(house.service.port) for _ in range(4)]
    told = until(house, lambda told: told["clients"] == 4, "four have come")
    want(told["most_clients"] == 4 and
         told["clients_accepted"] == before["clients_accepted"] + 4, f"four have come: {told}")
    for each in held:
        each.close()
    told = until(house, lambda told: not told["clients"], "four have gone")
    want(told["most_clients"] == 4 and told["clients_late"] == 0, f"four have gone: {told}")


def late_told(house):
    """A message that takes too long, a client that is silent for too long, and two too many. One
    that goes by itself is not late."""
    slow = Connection(house.service.port)
    slow.send(message("POST", "/transfers", house.desks[0].key, b"[]")[:-1])
    told = until(house, lambda told: told["clients_late"] == 1, "a message that takes too long")
    want(told["clients"] == 0, f"and it is let go: {told}")
    silent = Connection(house.service.port)
    until(house, lambda told: told["clients_late"] == 2, "a client that is silent")
    many = []
    for _ in range(MOST + 2):
        many.append(Connection(house.service.port))
        time.sleep(0.05)
    many[-1].send(message("POST", "/x", house.desks[0].key))
    want(many[-1].reply()[0] == "404 Not Found", "one client more is not answered")
    told = counts(house)
    want(told["clients_late"] >= 4 and told["most_clients"] in (MOST, MOST + 1),
         f"two clients too many: {told}")
    for each in (slow, silent, *many):
        each.close()


def work_told(trial):
    """What was done for clients: replies by their status, two batches in one round, events, the
    time of turns, syncs, and a file that is opened again behind a fault of its disk."""
    house = Crowd(trial.fresh(), 2)
    house.begin()
    house.gather()
    first = counts(house)
    told = answered_together(house, first)
    want(told["replies_4xx"] == first["replies_4xx"] and told["syncs"] > first["syncs"],
         f"two batches: {first}, then {told}")
    stranger = Connection(house.service.port)
    stranger.send(message("GET", "/x", house.desks[0].key))
    want(stranger.reply()[0] == "404 Not Found", "a route that is none")
    stranger.close()
    want(counts(house)["replies_4xx"] == told["replies_4xx"] + 1, f"a route that is none: {told}")
    synced_told(house)
    events_told(house)
    told = counts(house)
    fail(house)
    last = until(house, lambda told: told["reopenings"] > first["reopenings"], "it is open again")
    more = {name: last[name] - told[name] for name in ("replies_2xx", "replies_4xx", "replies_5xx")}
    want(more == {"replies_2xx": 0, "replies_4xx": 0, "replies_5xx": 1}, f"{told}, then {last}")
    want((told["disk_faults"], last["last_refused_opening"]) == (0, 0)
         and last["disk_faults"] > 0, f"a fault of the disk: {told}, then {last}")
    longest, turns = last["longest_turn_microseconds"], last["turn_microseconds"]
    want(first["turn_microseconds"] < turns and 0 < longest <= turns, f"times of turns: {last}")
    house.stop()
    check(house.program, house.db)


def synced_told(house):
    """Each batch syncs, an empty one too, and who only reads does not."""
    first, begun = counts(house), time.monotonic()
    for _ in range(10):
        write(house, 0, [])
    passed, last = (time.monotonic() - begun) * 1e6, counts(house)
    more = {name: last[name] - first[name] for name in ("syncs", "sync_microseconds")}
    want(more["syncs"] >= 10 and 0 < more["sync_microseconds"] <= passed,
         f"ten batches in {passed:.0f} microseconds: {first}, then {last}")
    longest, every = last["longest_sync_microseconds"], last["sync_microseconds"]
    want(longest <= every <= (longest + 1) * last["syncs"], f"the times of syncs: {last}")
    for _ in range(10):
        house.desks[0].until_well()
    told = counts(house)
    want(all(told[name] == last[name] for name in SYNCS), f"look-ups have synced: {last}, {told}")


def events_told(house):
    """Events that are accepted and that are refused, of both kinds of batch. One that is refused as
    a whole has none."""
    again = [*moves(10**9, 3), *moves(10**9 + 1, 2), *moves(10**9 + 3, 1, amount=0, flags=1)]
    for events, transfers, more in (
            (house.requests[0].accounts()[:2], False, (0, 2, 0, 0)),
            ([account(10**9)], False, (1, 0, 0, 0)),
            (again, True, (0, 0, 3, 3)),
            (moves(10**9 + 10, 1000), True, (0, 0, 1000, 0))):
        first = counts(house)
        write(house, 0, events, transfers)
        told = counts(house)
        want(tuple(told[name] - first[name] for name in EVENTS) == more,
             f"{len(events)} events: {first}, then {told}, and not {more} more")
    first = counts(house)
    stranger = Connection(house.service.port)
    stranger.send(message("POST", "/transfers", house.desks[0].key, b'[{"result":"ok"}]'))
    want(stranger.reply()[0] == "400 Bad Request", "a field that is none")
    stranger.close()
    told = counts(house)
    want(all(told[name] == first[name] for name in EVENTS), f"a refused batch: {first}, {told}")


def refused_told(house, before):
    """Behind an opening that was refused for a fault of the file, told with the numbers before."""
    told = counts(house)
    more = {name: told[name] - before[name] for name in ("disk_faults", "refused_reopenings",
                                                         "reopenings")}
    want(all(more.values()) and told["last_refused_opening"] > 0,
         f"an opening that was refused: {before}, then {told}")


def answered_together(house, before):
    """The numbers behind batches of both tenants that were there at once."""
    batches = house.draw_all()
    house.send_at_once(batches)
    want(len(house.hear(batches)) == 2, "unavailable, with all at hand")
    told = counts(house)
    more = {name: told[name] - before[name] for name in ("replies_2xx", "round_messages", "rounds")}
    want(more == {"replies_2xx": 2, "round_messages": 2, "rounds": 1}, f"{before}, then {told}")
    return told


def callers(trial):
    """Callers at the socket that never send, or never read: they go behind ten seconds, and others
    are answered meanwhile. The longest wait of a command, and how long it takes with all places
    taken."""
    house = House(trial.fresh(), 1)
    house.start()
    be_there(house)
    path = f"{house.db}.control"
    add_many(house, path)
    read_long_list(path)
    messages = [b"", b"GET", asked("POST", "/control/tenants", b"{}")[:-1],
                *[asked("GET", "/control/tenants")] * 3]
    held, begun = [held_caller(path, text) for text in messages], time.monotonic()
    longest = 0.0
    while time.monotonic() < begun + CALL - 2:
        start = time.monotonic()
        want(told_by(house, "status")[0] == 0, "a command beside callers that wait")
        write(house, 0, [])
        longest = max(longest, time.monotonic() - start)
        many, took = gone(held), time.monotonic() - begun
        want(not many or took > CALL - 1, f"{many} were let go of within {took:.1f} s")
    while gone(held) < len(held):
        want(time.monotonic() < begun + CALL + ADDED, f"only {gone(held)} were let go of")
        time.sleep(0.1)
    for text, caller in zip(messages, held):
        look_at_rest(text, caller)
    full = [held_caller(path, b"") for _ in range(CALLERS)]
    begun = time.monotonic()
    want(told_by(house, "status")[0] == 0, "a command behind callers in all places")
    took = time.monotonic() - begun
    want(CALL - 1 <= took <= CALL + ADDED, f"in all places, and they went behind {took:.1f} s")
    for caller in full:
        caller.close()
    house.stop()
    check(house.program, house.db)
    return longest


def add_many(house, path):
    """So many tenants that their list does not fit into a socket that nobody reads."""
    room = int(pathlib.Path("/proc/sys/net/core/wmem_default").read_text())
    for place in range(room * 5 // 4 // ROW):
        name = f"{'n' * 58}-{place:05}"
        done = call(path, asked("POST", "/control/tenants", named(name=name, key=house.key())))
        want(done == ("200 OK", {"added": name}), f"a tenant by hand: {done}")


def read_long_list(path):
    """Who reads has all of a long list, though nobody else wakes the service."""
    for turn in range(20):
        caller = held_caller(path, asked("GET", "/control/tenants"))
        try:
            reply = b"".join(iter(lambda: caller.recv(1 << 16), b""))
        except socket.timeout:
            reply = b""
        head, _, body = reply.partition(b"\r\n\r\n")
        want(f"content-length: {len(body)}".encode() in head.split(b"\r\n"),
             f"a long list that is read for the time {turn + 1}: no end of it, and no answer")
        caller.close()


def held_caller(path, text):
    caller = socket.socket(socket.AF_UNIX)
    caller.settimeout(CALL + ADDED)
    caller.connect(path)
    caller.sendall(text)
    return caller


def gone(held):
    """How many callers the service has let go of."""
    poller = select.poll()
    for caller in held:
        poller.register(caller, 0)
    return len(poller.poll(0))


def look_at_rest(text, caller):
    """A caller has no whole reply, and none where it has not sent all of its message."""
    reply = b"".join(iter(lambda: caller.recv(1 << 16), b""))
    caller.close()
    if not text.endswith(b"\r\n\r\n"):
        want(reply == b"", f"a reply to {text}: {reply}")
        return
    head, _, body = reply.partition(b"\r\n\r\n")
    length = int(re.search(rb"content-length: (\d+)", head)[1])
    want(head.startswith(b"HTTP/1.1 200 OK") and len(body) < length,
         f"{len(body)} bytes were there of {length} for who does not read")
