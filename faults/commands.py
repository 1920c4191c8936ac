"""Each command with one call refused: it says what it says else, or a fault."""

import contextlib
import functools
import os
from typing import NamedTuple

from beginnings import refused_rows
from control import DISK, MEMORY, Control
from copies import copy, remove, sum_of
from migrations import refused_migrations
from runs import House
from service import NAME_TAKEN, UNAVAILABLE, UNREADABLE, check, run, want
from shared import of_how_many, try_places

KEY = "5" * 64
ADDED, CHANGED = "added more\n", "changed north-desk\n"
STATEMENT = ("statement", "--tenant", "north-desk", "--account", "1")
KINDS = {MEMORY: "allocations", DISK: "calls of the disk"}
NAMES = ("check", "statement", "tenant-key", "tenant-add", "tenant-add to a new file")


def refused_commands(trial):
    """Each allocation and each call of the disk refused in turn, over a small file and none."""
    house = House(trial.fresh())
    library = Control(trial.folder).library
    house.begin()
    for place, events in (house.draw() for _ in range(6)):
        want(house.take_turn(place).batch(events), "unavailable, with all at hand")
    house.stop()
    refused = [refuse_each(trial, house, library, kind) for kind in KINDS]
    return (f"refused were of the {' and of the '.join(refused)}: answered as ever, or a fault and "
            f"nothing half done; {refused_rows(trial, library)}; "
            f"{refused_migrations(trial, library)}")


def refuse_each(trial, house, library, kind):
    """How many calls of a kind were refused to each command, and of how many."""
    tried = []
    for name in NAMES:
        at = functools.partial(begun_in, house, library, name, kind)
        tried.append(of_how_many(name, *try_places(trial, f"{KINDS[kind]} of {name}", at)))
    return f"{KINDS[kind]} {', '.join(tried)}"


class Case(NamedTuple):
    """A command, what it tells with all at hand (None where that is not known by itself), and what
    is done before it."""
    words: tuple
    ample: object
    begin: object = None


def cases(house, db):
    """The commands, on a copy of a house's file."""
    at, add = ("--db", db), ("tenant-add", "--name", "more", "--key", KEY)
    key = ("tenant-key", "--name", "north-desk", "--key", KEY)
    again, anew = functools.partial(copy, house.db, db), functools.partial(remove, db)
    again()
    told = (Case(("check", *at), (0, "ok\n", "")), Case((*STATEMENT, *at), None),
            Case((*key, *at), (0, CHANGED, ""), again), Case((*add, *at), (0, ADDED, ""), again),
            Case((*add, *at), (0, ADDED, f"new ledger {db}\n"), anew))
    return dict(zip(NAMES, told))


@contextlib.contextmanager
def begun_in(house, library, name, kind, folder):
    db = os.path.join(folder, "ledger.db")
    case = cases(house, db)[name]
    if case.ample is None:
        case = case._replace(ample=run(house.program, *case.words))
    yield Refused(house.program, db, case, Control(folder, library), kind)


class Refused:
    """A command on a file with calls of a kind refused."""

    def __init__(self, program, db, case, control, kind):
        self.program, self.db, self.case = program, db, case
        self.control, self.kind = control, kind
        # What it tells once more with all at hand, by what stands in the files then.
        self.told = {}

    def run(self):
        """What it tells with calls refused, as they are by now."""
        return run(self.program, *self.case.words, env=self.control.env)

    def begin(self):
        if self.case.begin:
            self.case.begin()

    def count(self):
        """How many calls there are."""
        self.begin()
        return self.control.count(self.kind, self.run)

    def refuse(self, place):
        """Whether a call was refused."""
        self.begin()
        self.control.refuse(self.kind, place)
        heard = self.run()
        was_refused = self.control.end(self.kind)
        what = f"{self.case.words[0]} with call {place} of the {KINDS[self.kind]} refused"
        faults = (UNAVAILABLE,) if self.kind == MEMORY else (UNAVAILABLE, UNREADABLE)
        want(heard == self.case.ample or (was_refused and unbegun(self.case, heard) in faults),
             f"{what}: {heard}")
        left = sum_of(self.db)
        again = self.told[left] = self.told.get(left) or self.once_more()
        want(again in self.again(heard), f"{what}, and again: {again}")
        return {"refused": was_refused}

    def once_more(self):
        """What it tells with all at hand. The file is ok behind it."""
        told = run(self.program, *self.case.words)
        if self.case.begin:
            check(self.program, self.db)
        return told

    def again(self, heard):
        """What the command may tell again: what it tells else. Where a failing disk has refused it,
        it may have been done."""
        ample, done = self.case.ample, (NAME_TAKEN,)
        if self.case.words[0] != "tenant-add":
            return (ample,)
        if heard == ample:
            return done
        # A ledger that was made by then is new no more.
        return (ample, (0, ADDED, ""), *(done if self.kind == DISK else ()))


def unbegun(case, heard):
    """What was told, less the beginning of a statement: its rows go out as they are read."""
    status, out, err = heard
    whole = case.ample[1]
    is_begun = case.words[0] == "statement" and out != whole and whole.startswith(out)
    return (status, "" if is_begun else out, err)
