"""A long file that is opened with little memory, and a service without room for what is asked."""

import resource

from connection import Lost
from drawn import moves
from reopened import fill
from runs import House
from service import UNAVAILABLE, free_port, lookup, run, want

OK = (0, "ok\n", "")
# Megabytes that a command may have, one after the other, until it has enough; and by how much they
# grow, in a long run too.
FIRST, GROWTH, LONG_GROWTH, LAST = 16, 1.25, 1.6, 1 << 16
# Bytes that a service may have beyond what it has.
ROOM = 1 << 16


def little(trial):
    """Two tenants, one with many transfers. What is asked without room for it is asked of a process
    that has opened no long file, whose opening would leave it room."""
    batches = 300 if trial.is_long else 10
    house = House(trial.fresh())
    house.begin()
    fill(trial, house, batches)
    refused = no_room(house)
    house.desks[1].compare(house.service)
    house.stop()
    wanting = opened_with_little(trial, house)
    return (f"{1000 * batches} transfers: with less memory than an opening takes unavailable "
            f"{wanting} times; {refused} requests without room for them, answered with it")


def within(megabytes, program, *words):
    """What a command tells that has no more memory."""
    return run("prlimit", f"--as={int(megabytes) << 20}", program, *words)


def opened_with_little(trial, house):
    """`check` and `serve` of the file, with more and more memory: unavailable, until the first is
    ok. How many were unavailable."""
    program, megabytes, wanting = house.program, FIRST, 0
    growth = LONG_GROWTH if trial.is_long else GROWTH
    served = ("serve", "--db", house.db, "--port", str(free_port()), "--requests", "1")
    while megabytes < LAST:
        megabytes *= growth
        if within(megabytes, program, "--version")[0] != 0:
            continue
        for words in (("check", "--db", house.db), served):
            told = within(megabytes, program, *words)
            if told == OK:
                return wanting
            want(told == UNAVAILABLE, f"{words[0]} with {megabytes:.0f} MB: {told}")
            wanting += 1
        trial.progress(f"{megabytes:.0f} MB are too few")
    want(False, f"{told} with {megabytes:.0f} MB")
    return wanting


def no_room(house):
    """Reads of the long ledger and a batch of the other while the process gets no more memory:
    unavailable, and with room as ever. How many were unavailable."""
    page = b'{"account_id":"1","limit":1000,"flags":3}'
    asked = (("GET", "/statement/1", b""), ("POST", "/history/transfers", page),
             lookup("/transfers/lookup", [10**9 + number for number in range(1000)]))
    refused = 0
    for request in asked:
        told = cramped(house, 0, lambda desk, request=request: desk.ask(*request))
        ample = house.take_turn(0).ask(*request)
        want(ample is not None, f"{request[:2]}: unavailable, with room")
        want(told in (None, ample), f"{request[:2]}: {told}, not {ample}")
        refused += told is None
    moved = moves(4 * 10**9, 1000)
    if not cramped(house, 1, lambda desk: desk.batch(moved)):
        want(not house.take_turn(1).settle(moved), "not answered for want of memory, and done")
        refused += 1
    want(house.desks[1].batch(moved), "unavailable, with room")
    want(refused, "there was room for all of it")
    return refused


def cramped(house, place, act):
    """What an act of a tenant is told while the process gets hardly more memory than it has."""
    desk, pid = house.take_turn(place), house.service.served.pid
    desk.until_well()
    hard = resource.prlimit(pid, resource.RLIMIT_AS)[1]
    resource.prlimit(pid, resource.RLIMIT_AS, (house.service.mapped() + ROOM, hard))
    try:
        return act(desk)
    except Lost:
        return None
    finally:
        resource.prlimit(pid, resource.RLIMIT_AS, (resource.RLIM_INFINITY, hard))
