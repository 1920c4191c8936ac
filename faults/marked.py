"""FILE-sums that cannot be made, read or written: batches go on, and once it can be the latest clock in
a reply is in it. Only then standard error says that it is written again."""

import errno
import itertools
import os
import shutil
import subprocess
import time

from behind import BEHIND, end, gone
from control import ALL, MARKS, Control, places
from copies import copy
from runs import NAMES, House
from service import PATIENCE, check, run, want
from sums import has_marks

AGAIN = "{}-sums is written again"
# A user and a group that nothing else needs.
NOBODY = 65534
REASONS = (errno.EIO, errno.ENOSPC, errno.EACCES)


def marked(trial):
    """All that may be wrong with FILE-sums alone."""
    refused = refused_calls(trial, places)
    want(refused > 20, f"no more than {refused} calls on FILE-sums")
    told = [f"{refused} calls on FILE-sums refused", f"{came_later(trial)} things in its place"]
    told.append(f"{owned_otherwise(trial)} owners and modes" if os.geteuid() == 0 else
                "no owners, since this is not root")
    told.append(full_volume(trial))
    told.append(f"{renewed(trial)} marks in a FILE-sums that was made anew"
                if trial.is_long else "none so long that it is made anew")
    return ", ".join(told) + ": batches were answered, and then it had the latest clock"


def sample(trial):
    """A few of these calls, and a folder in its place: seconds of what `marked` does."""
    refused = refused_calls(trial, lambda trial: trial.random.sample(range(7), 2))
    want(refused == 8, f"{refused} of 8 calls on FILE-sums refused")
    return f"{refused} calls on FILE-sums refused, {came_later(trial, 1)} thing in its place"


def batches(house, many=2):
    for _ in range(many):
        place, events = house.draw()
        want(house.take_turn(place).batch(events), "unavailable, and only FILE-sums has failed")


def said(house):
    """What standard error says of FILE-sums."""
    return [line for line in house.service.lines() if "-sums" in line]


def catches_up(house):
    """Until the latest clock in a reply is in FILE-sums, with no batch more. Then standard error says that
    a fault which it had reported is over."""
    until = time.monotonic() + PATIENCE
    while not has_marks(house) or len(said(house)) == 1:
        want(time.monotonic() < until, f"never marked: {said(house)}")
        time.sleep(0.05)
    lines = said(house)
    want(lines == [] or lines[1:] == [AGAIN.format(house.db)], f"standard error tells {lines}")


def is_noticed(trial, house):
    """Where its log is gone the ledger is refused as behind, and with all at hand it is ok."""
    db = os.path.join(trial.inner(), "ledger.db")
    copy(house.db, db)
    check(trial.program, db)
    gone(db, "-wal")
    told = run(trial.program, "check", "--db", db)
    want(told == (4, "", BEHIND), f"without its log: {told}")
    shutil.rmtree(os.path.dirname(db))


def refused_calls(trial, places):
    """Calls on FILE-sums fail, alone or with all after it, from the start of a service to its stop. It is
    there, or is still to be made."""
    house, control = House(trial.fresh()), Control(trial.folder)
    house.begin(control.env)
    house.stop()
    refused = 0
    for many in (1, ALL):
        for is_there in (True, False):
            for place in places(trial):
                if not is_there:
                    gone(house.db, "-sums")
                if not refuse_once(trial, house, control, (place, many)):
                    break
                refused += 1
                trial.progress(f"{refused} calls on FILE-sums refused")
    check(house.program, house.db)
    return refused


def refuse_once(trial, house, control, failing):
    """Whether a call was refused. The service is stopped if that came so late, else killed or stopped."""
    control.give_reason(trial.random.choice(REASONS))
    control.refuse(MARKS, *failing)
    house.start(control.env)
    batches(house)
    if not control.refused(MARKS):
        end(house, True)
        check(house.program, house.db)
        return control.end(MARKS)
    if failing[1] == ALL:
        lines = said(house)
        want(len(lines) == 1, f"while each call fails from {failing} on: {lines}")
        want(not has_marks(house), "marked by calls that have failed")
    control.end(MARKS)
    catches_up(house)
    is_killed = trial.random.random() < 0.5
    end(house, not is_killed)
    if is_killed:
        is_noticed(trial, house)
    check(house.program, house.db)
    return True


def things(sums):
    """What may stand in the place of FILE-sums so that it cannot be made, and how it gets there."""
    def folder():
        os.mkdir(sums)
        os.mkdir(f"{sums}/inner")

    def part():
        os.mkdir(f"{sums}.part")

    yield "a folder", folder, lambda: shutil.rmtree(sums)
    yield "a folder in the place of what it is made in", part, lambda: os.rmdir(f"{sums}.part")


def came_later(trial, most=2):
    """Something stands in its place, and is taken away while the ledger is served."""
    house, many = House(trial.fresh()), 0
    house.begin()
    house.stop()
    for name, put, take_away in itertools.islice(things(f"{house.db}-sums"), most):
        for ends in (lambda: end(house, True), lambda: end(house, False)):
            gone(house.db, "-sums")
            put()
            house.start()
            batches(house)
            want(len(said(house)) == 1, f"beside {name}: {said(house)}")
            time.sleep(1.5)
            want(len(said(house)) == 1, f"a second beside {name}: {said(house)}")
            take_away()
            catches_up(house)
            want(len(said(house)) == 2, f"behind {name}: {said(house)}")
            batches(house)
            want(has_marks(house), f"a batch behind {name} is not marked")
            ends()
            check(house.program, house.db)
        many += 1
    return many


def as_nobody(trial):
    """The program, run as a user that owns nothing but the folder."""
    for folder in (trial.parent, trial.folder):
        os.chmod(folder, 0o711)
    own, words = (os.path.join(trial.folder, name) for name in ("ledgerd", "ledgerd.sh"))
    shutil.copy(trial.program, own)
    with open(words, "w") as file:
        file.write(f'#!/bin/sh\nexec setpriv --reuid={NOBODY} --regid={NOBODY} --clear-groups '
                   f'{own} "$@"\n')
    os.chmod(own, 0o755)
    os.chmod(words, 0o755)
    os.chown(trial.folder, NOBODY, NOBODY)
    return words


def owners():
    """Each owner and mode of FILE-sums, and whether the user of the service can read it."""
    yield (0, 0o600), False
    yield (NOBODY, 0o000), False
    yield (0, 0o644), True
    yield (NOBODY, 0o400), True


def owned_otherwise(trial):
    """A FILE-sums of another owner or mode. One that cannot be read is left alone until it can be."""
    house, many = House(trial.fresh(), 0), 0
    house.program = as_nobody(trial)
    for name in NAMES[:2]:
        house.add(name)
    house.begin()
    end(house, True)
    sums = f"{house.db}-sums"
    for (owner, mode), is_read in owners():
        os.chown(sums, owner, owner)
        os.chmod(sums, mode)
        with open(sums, "rb") as file:
            before = file.read()
        house.start()
        batches(house)
        if is_read:
            want(said(house) == [], f"owner {owner}, mode {mode:o}: {said(house)}")
            found = os.stat(sums)
            want((found.st_uid, found.st_mode & 0o777) == (NOBODY, 0o600), "another's FILE-sums")
        else:
            left_alone(house, sums, before)
            os.chown(sums, NOBODY, NOBODY)
            os.chmod(sums, 0o600)
        catches_up(house)
        end(house, False)
        is_noticed(trial, house)
        many += 1
    return many


def left_alone(house, sums, before):
    """It has the bytes that it had, and one line says so."""
    time.sleep(1.5)
    with open(sums, "rb") as file:
        want(file.read() == before, "what cannot be read was written")
    lines = said(house)
    want(len(lines) == 1 and "it is left alone" in lines[0], f"beside what cannot be read: {lines}")


def full_volume(trial):
    """A volume with no room at all, on which FILE-sums is still to be made; then with room again."""
    folder = trial.fresh().folder
    if os.geteuid() or subprocess.run(["mount", "-t", "tmpfs", "-o", "size=8m", "none", folder],
                                      capture_output=True).returncode:
        return "no volume of its own"
    try:
        house = House(trial)
        house.begin()
        batches(house, 5)
        end(house, True)
        for is_there in (True, False):
            fill(trial, house, is_there)
        check(house.program, house.db)
    finally:
        subprocess.run(["umount", "-l", folder], check=True)
    return "twice a full volume"


def fill(trial, house, is_there):
    """Batches are refused, since the log has no room, until there is some."""
    filler = os.path.join(trial.folder, "filler")
    if not is_there:
        gone(house.db, "-sums")
    house.start()
    with open(filler, "wb", buffering=0) as file:
        try:
            while True:
                file.write(bytes(1 << 12))
        except OSError as error:
            want(error.errno == errno.ENOSPC, f"the filler: {error}")
    desk, answered = None, True
    while answered:
        place, events = house.draw(lambda requests: requests.marked())
        desk = house.take_turn(place)
        answered = desk.batch(events)
    os.remove(filler)
    desk.settle(events)
    want(house.take_turn(place).batch(events), "unavailable, with room again")
    batches(house)
    catches_up(house)
    end(house, False)
    is_noticed(trial, house)
    # What was copied for that took room as well.
    check(house.program, house.db)


def renewed(trial):
    """So many marks that it is made anew: of empty batches, each of which has a later clock."""
    house, many = House(trial.fresh(), 1), 0
    house.begin()
    sums, longest = f"{house.db}-sums", 0
    while os.path.getsize(sums) >= longest:
        longest = os.path.getsize(sums)
        want(longest < 3 << 20, "never made anew")
        desk = house.take_turn(0)
        for _ in range(1000):
            want(desk.batch([]), "unavailable, with all at hand")
        many += 1000
        want(has_marks(house), "not marked")
        trial.progress(f"{many} marks")
    batches(house)
    end(house, False)
    is_noticed(trial, house)
    return many
