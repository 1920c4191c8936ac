"""What a command meets beside the file's own rows: another process that has the file, and a reader
that is gone."""

import os
import subprocess

from drawn import moves
from runs import House
from service import NAME_TAKEN, PATIENCE, body_of, check, free_port, run, want

OUTPUT = (3, b"ledgerd: output\n")
IN_USE = (5, "", "ledgerd: in_use\n")
KEY = "5" * 64


def in_use(trial):
    """Each command that wants the file for itself, while it is served; the service goes on, and
    nothing has changed."""
    house = House(trial.fresh())
    house.begin()
    commands = (("serve", "--port", str(free_port()), "--requests", "1"), ("check",),
                ("migrate", "--to", "3"))
    for words in commands:
        told = run(house.program, *words, "--db", house.db)
        want(told == IN_USE, f"{words[0]} on a file that is served: {told}")
        place, events = house.draw()
        want(house.take_turn(place).batch(events), "unavailable, with all at hand")
    house.compare()
    house.stop()
    check(house.program, house.db)
    return f"{len(commands)} commands on a file that is served, each in_use"


def gone_reader(trial):
    """Commands whose standard output is a pipe with no reader, or with one that goes."""
    house = House(trial.fresh(), 1)
    house.begin()
    for first in (10**9, 2 * 10**9):
        told = house.take_turn(0).ask("POST", "/transfers", body_of(moves(first, 1000)))
        want(told is not None, "unavailable, with all at hand")
    house.stop()
    statement = ("statement", "--db", house.db, "--tenant", "north-desk", "--account", "1")
    ample = run(house.program, *statement)
    places = (0, 1, 30_000)
    # Beyond what is read a pipe takes 64 kB.
    want(len(ample[1]) > places[-1] + (1 << 16), f"a short statement: {ample}")
    for most in places:
        read, told = read_some(house.program, statement, most)
        want(told == OUTPUT and ample[1].encode().startswith(read),
             f"a statement whose reader goes behind {most} bytes: {told}, {read!r}")
    want(run(house.program, *statement) == ample, "the statement again")
    add = ("tenant-add", "--db", house.db, "--name", "more", "--key", KEY)
    for words in (("check", "--db", house.db), add):
        want(read_some(house.program, words, 0)[1] == OUTPUT, f"{words[0]} with no reader")
    want(run(house.program, *add) == NAME_TAKEN, "a tenant whose line nobody has read")
    check(house.program, house.db)
    return "check, tenant-add and a statement, whose reader goes at 3 places: each tells output"


def read_some(program, words, most):
    """Reads so many bytes of a command's standard output at most, and shuts it. What was read, the
    status and standard error."""
    read, write = os.pipe()
    with subprocess.Popen([program, *words], stdout=write, stderr=subprocess.PIPE) as command:
        os.close(write)
        with os.fdopen(read, "rb", buffering=0) as pipe:
            text = pipe.read(most)
        _, told = command.communicate(timeout=PATIENCE)
    return text, (command.returncode, told)
