"""Statements that have begun when memory is refused: to the command that writes them, and to the
service that it asks for more."""

import contextlib
import fcntl
import functools

from asking import be_there
from control import MEMORY, Control
from drawn import moves
from runs import House
from service import body_of, check, run, want
from shared import of_how_many, try_places
from statements import SET_ROOM, wait_until_full, words
from stops import begun, heard

# Of so many entries a command reads some in three pieces, and is told them by a service in two.
BATCH, BATCHES = 650, 2
# Their first rows fill a pipe that has so much room.
ROOM = 4096
# Those that are written row by row.
FORMS = {"oldest first": (), "newest first": ("--reversed",)}
REFUSED = (3, "ledgerd: unavailable\n")
WHOSE = {True: "the service", False: "the command"}


def refused_rows(trial, library):
    """Allocations refused behind the first rows, of a file that is served and of one that is
    not."""
    house = House(trial.fresh(), 1)
    house.begin()
    for first in range(10**9, 10**9 + BATCH * BATCHES, BATCH):
        told = house.take_turn(0).ask("POST", "/transfers", body_of(moves(first, BATCH)))
        want(told is not None, "unavailable, with all at hand")
    house.stop()
    tried = [refuse_each(trial, house, library, is_served) for is_served in WHOSE]
    return f"behind the first rows of a statement {' and '.join(tried)}"


def refuse_each(trial, house, library, is_served):
    """How many allocations were refused, and of how many."""
    tried, cut = [], 0
    for name in FORMS:
        what = f"allocations of {WHOSE[is_served]} behind the first rows, {name}"
        at = functools.partial(begun_in, house, library, name, is_served)
        count, sums = try_places(trial, what, at)
        tried.append(of_how_many(name, count, sums))
        cut += sums["cut"]
    want(cut, "no statement was cut short")
    return f"of {WHOSE[is_served]} {', '.join(tried)}, {cut} of them cut short"


@contextlib.contextmanager
def begun_in(house, library, name, is_served, folder):
    """The ledger in a folder, and a service over it. In the end that is well, and the file ok."""
    control, own = Control(folder, library), house.elsewhere(folder)
    if is_served:
        own.start(control.env)
    try:
        if is_served:
            be_there(own)
        yield Rows(own, control, FORMS[name], None if is_served else control.env)
        if is_served:
            want(own.take_turn(0).ask("POST", "/transfers", b"[]"), "unavailable, and all is well")
    finally:
        if is_served:
            own.stop()
    check(own.program, own.db)


class Rows:
    """A statement in one form, with allocations refused behind its first rows: to the service, or
    to the command, which has its words in `env` then."""

    def __init__(self, house, control, form, env):
        self.house, self.control, self.form, self.env = house, control, form, env
        self.ample = self.whole()

    def whole(self):
        """What is told of a statement that is read at once."""
        told = run(self.house.program, *words(self.house, 0, *self.form), "--db", self.house.db)
        want(told[0] == 0 and told[1].count("\n") > BATCH * BATCHES, f"a statement: {told}")
        return told

    def waiting(self):
        """A statement whose first rows nobody has read yet."""
        command = begun(self.house, *words(self.house, 0, *self.form), env=self.env)
        fcntl.fcntl(command.stdout, SET_ROOM, ROOM)
        wait_until_full(command)
        return command

    def count(self):
        """How many there are."""
        with self.waiting() as command:
            return self.control.count(MEMORY, lambda: heard(command))

    def refuse(self, place):
        """Whether one was refused, and the statement cut short."""
        with self.waiting() as command:
            self.control.refuse(MEMORY, place)
            told = heard(command)
        was_refused = self.control.end(MEMORY)
        want(told == self.ample or was_refused and is_beginning(told, self.ample),
             f"{self.form}, without memory at {place}: {told}")
        want(self.whole() == self.ample, f"{self.form} again, behind {place}")
        return {"refused": was_refused, "cut": told != self.ample}


def is_beginning(told, ample):
    """Whether a fault is told behind whole rows, of which there is one at least."""
    status, text, errors = told
    return ((status, errors) == REFUSED and ample[1].startswith(text) and text.endswith("\n")
            and text.count("\n") > 1)
