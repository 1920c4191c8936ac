"""A statement over HTTP that is read slowly, in parts, while its ledger changes: more entries come,
the tenant gets another key, memory is refused, the service is stopped or killed. It is whole, or cut
short behind a part."""

import json

from asking import told_by
from connection import CHUNK_ROWS, STATEMENT_HEAD, Connection, Lost
from control import MEMORY, Control
from drawn import moves
from rounds import start_again
from runs import House
from service import body_of, check, message, want
from stops import STOPPED, begun, heard

HEADER = ("timestamp,transfer_id,side,kind,amount,debits_pending,debits_posted,credits_pending,"
          "credits_posted")
# The numbers are long, so that a statement is longer than what stands between a service and a client
# that reads nothing.
FIRST, AMOUNT = 10**38, 10**32
BATCH, BATCHES = 1000, 40
ROOM = 1 << 14


def parted(trial):
    """Each change once, or ten times."""
    house, control = House(trial.fresh(), 2), Control(trial.folder)
    house.begin(control.env)
    lines = [HEADER]
    for _ in range(BATCHES):
        grow(house, lines)
    times, cut = 10 if trial.is_long else 1, []
    for turn in range(times):
        for change in (grow_meanwhile, change_key_meanwhile, refuse_meanwhile, stop_meanwhile,
                       kill_meanwhile):
            cut.append(change(house, control, lines))
            read_whole(house, lines)
            trial.progress(f"{change.__name__}, {turn + 1} of {times} times")
    house.stop()
    check(house.program, house.db)
    short = [many for many in cut if many is not None]
    return (f"statements of {len(lines) - 1} entries beside {len(cut)} changes, {len(short)} of them "
            f"cut short behind {min(short)} to {max(short)} entries, each whole when asked again")


def grow(house, lines):
    """A batch more, and its lines: each amount is posted at once, and nothing else happens."""
    first = FIRST + len(lines)
    told = house.take_turn(0).ask("POST", "/transfers", body_of(moves(first, BATCH, amount=AMOUNT)))
    want(told and all(each["result"] == "ok" for each in told["results"]), f"a batch: {told}")
    for place, each in enumerate(told["results"]):
        posted = AMOUNT * len(lines)
        lines.append(f"{each['timestamp']},{first + place},debit,single,{AMOUNT},0,{posted},0,0")


def asked(house):
    """A client that has asked for the statement and has read its first bytes alone."""
    connection = Connection(house.service.port, ROOM)
    connection.send(message("GET", "/statement/1", house.desks[0].key))
    want(connection.more(), "no byte of a statement")
    return connection


def bytes_of(lines):
    return "".join(f"{line}\n" for line in lines).encode()


def read_whole(house, lines):
    """The statement, read at once."""
    connection = Connection(house.service.port)
    connection.send(message("GET", "/statement/1", house.desks[0].key))
    is_whole(connection, lines)
    connection.close()


def is_whole(connection, lines):
    told = connection.reply()
    want(told == ("200 OK", "text/csv", bytes_of(lines)), f"a statement ends by {told[2][-300:]!r}")


def told_of(connection, lines, may_break=False):
    """How many of its entries are told in whole chunks, and whether that is all of it. It may end inside
    a chunk only where the process ends meanwhile."""
    want(connection.up_to(b"\r\n\r\n") == STATEMENT_HEAD, "another head than a statement's")
    chunks = []
    try:
        while connection.read or connection.more():
            chunks.append(connection.chunk())
    except Lost:
        want(may_break, f"a statement ends inside a chunk, behind {len(chunks)} whole ones")
    connection.close()
    is_ended = b"" in chunks
    want(b"" not in chunks[:-1], f"a chunk of no bytes is one of {len(chunks)}")
    rows = len(lines) - 1 if is_ended else CHUNK_ROWS * len(chunks)
    want(b"".join(chunks) == bytes_of(lines[:1 + rows]),
         f"{len(chunks)} chunks of a statement are not its first {rows} entries")
    return rows, is_ended


def is_cut(connection, lines, may_break=False):
    """The statement is cut short. How many of its entries were told."""
    rows, is_ended = told_of(connection, lines, may_break)
    want(not is_ended and rows, f"a statement that should be cut short has {rows} entries")
    return rows


def grow_meanwhile(house, _control, lines):
    """More entries are booked: it is the statement of the moment at which it was asked for."""
    connection, before = asked(house), list(lines)
    grow(house, lines)
    is_whole(connection, before)


def change_key_meanwhile(house, _control, lines):
    """The tenant gets another key, and others may have theirs changed."""
    other = asked(house)
    new_key(house, 1)
    is_whole(other, lines)
    connection = asked(house)
    old = new_key(house, 0)
    rows = is_cut(connection, lines)
    connection = Connection(house.service.port)
    connection.send(message("GET", "/statement/1", old))
    told = connection.reply()
    want(json.loads(told[2]) == {"error": "unknown_key"}, f"behind a change of key: {told}")
    connection.close()
    return rows


def new_key(house, place):
    """Another key of a tenant, by a command beside the service. The old one."""
    desk, old = house.desks[place], house.desks[place].key
    desk.key = house.key()
    told = told_by(house, "tenant-key", "--name", house.names[place], "--key", desk.key)
    want(told == (0, f"changed {house.names[place]}\n", ""), f"tenant-key: {told}")
    return old


def refuse_meanwhile(house, control, lines):
    """The service has no memory for the next part."""
    connection = asked(house)
    control.refuse(MEMORY, 0)
    rows = is_cut(connection, lines)
    want(control.end(MEMORY) == 1, "no allocation was refused")
    return rows


def stop_meanwhile(house, control, lines):
    """The service is told to stop: who reads on at once is told all of it. On a busy machine that may
    take longer than the second for which anybody is waited for."""
    connection, stop = asked(house), begun(house, "stop")
    rows, is_ended = told_of(connection, lines, may_break=True)
    told = heard(stop)
    want(told == STOPPED, f"stop beside a statement: {told}")
    start_again(house, control)
    return None if is_ended else rows


def kill_meanwhile(house, control, lines):
    """The service is killed."""
    connection = asked(house)
    house.service.served.kill()
    rows = is_cut(connection, lines, may_break=True)
    start_again(house, control)
    return rows
