"""The three files of a ledger that was served, one or more of them gone, older or cut."""

import os
import shutil
import sqlite3
import time

from copies import copy
from runs import House
from service import PATIENCE, Service, check, run, want
from standby import Standby
from sums import has_marks, last_mark, newest_told

BEHIND = ("ledgerd: behind\nanswered commits are missing: put back the file and the log that were "
          "served last; to go on without them, remove FILE-sums\n")
# What a file is refused as whose pages are of two moments.
MIXED = ("unreadable", "not_a_ledger")
CLOCKS = "SELECT max(clock) FROM clock"


def behind(trial):
    """Whatever is done to the files, an opening has every answered commit, or tells that it has
    not; and a ledger that has them is never refused."""
    times = 8 if trial.is_long else 2
    told = {}
    for turn in range(times):
        house = House(trial.fresh())
        house.begin()
        kept = [trial.inner() for _ in range(3)]
        for folder in kept:
            for _ in range(house.random.randrange(3, 12)):
                place, events = house.draw()
                want(house.take_turn(place).batch(events), "unavailable, with all at hand")
            copy(house.db, os.path.join(folder, "ledger.db"))
        end(house, turn % 2 == 0)
        if turn % 2 == 0:
            stands_alone(house, trial)
        for name, change in changes(house, kept):
            outcome = judge(house, trial, name, change)
            told.setdefault(outcome, []).append(name)
        row_changed(house, trial)
        served_on(house)
        served_before(house, trial)
        hand_over(house, trial)
        for name, put in obstacles(house):
            obstructed(house, name, put)
        trial.progress(f"{turn + 1} ledgers")
    want(told.get("behind"), "no ledger was behind")
    counts = ", ".join(f"{len(names)} {outcome}" for outcome, names in sorted(told.items()))
    return (f"{times} ledgers, their files changed in {sum(map(len, told.values()))} ways: {counts}; "
            f"{times} times handed over, and as often each of {len(list(obstacles(house)))} things in "
            "the place of the marks")


def end(house, stops):
    """Ends the service, as an operator or as a crash does."""
    for desk in house.desks:
        desk.leave()
    if stops:
        told = run(house.program, "stop", "--db", house.db)
        want(told == (0, "stopped\n", ""), f"stop: {told}")
    house.service.gone()
    house.service = None


def newest_in(db):
    """The latest clock that a stock SQLite reads in these files. None where it reads none."""
    try:
        connection = sqlite3.connect(db)
        try:
            return connection.execute(CLOCKS).fetchone()[0]
        finally:
            connection.close()
    except sqlite3.DatabaseError:
        return None


def changes(house, kept):
    """Names of changes, and what makes each in a copy of the files."""
    older = [os.path.join(folder, "ledger.db") for folder in kept]
    yield "untouched", lambda db: None
    yield "no sums", lambda db: gone(db, "-sums")
    yield "no log", lambda db: gone(db, "-wal")
    yield "no log, no sums", lambda db: (gone(db, "-wal"), gone(db, "-sums"))
    yield "no file", lambda db: gone(db, "")
    for share in (0, 1, 2, 3):
        yield f"file cut {share}", lambda db, share=share: cut(db, "", share)
        yield f"log cut {share}", lambda db, share=share: cut(db, "-wal", share)
        yield f"sums cut {share}", lambda db, share=share: cut(db, "-sums", share)
    yield "no log, sums cut", lambda db: (gone(db, "-wal"), cut(db, "-sums", 1))
    yield "sums of other bytes", lambda db: scribble(db, house.random)
    for number, source in enumerate(older):
        for ends in (["-wal"], [""], ["-sums"], ["", "-wal"], ["-wal", "-sums"],
                     ["", "-wal", "-sums"]):
            yield (f"{'+'.join(ends) or 'file'} of {number}",
                   lambda db, source=source, ends=ends: exchange(db, source, ends))
    yield "looked at by sqlite3", newest_in
    yield "checkpointed by sqlite3", written_back


def gone(db, end):
    if os.path.exists(db + end):
        os.remove(db + end)


def cut(db, end, share):
    """Keeps this many quarters of it."""
    if os.path.exists(db + end):
        os.truncate(db + end, os.path.getsize(db + end) * share // 4)


def scribble(db, drawn):
    with open(db + "-sums", "r+b") as file:
        file.seek(drawn.randrange(os.path.getsize(db + "-sums")))
        file.write(b"\x5a\xa5")


def exchange(db, source, ends):
    for end in ends:
        gone(db, end)
        if os.path.exists(source + end):
            shutil.copy(source + end, db + end)


def written_back(db):
    connection = sqlite3.connect(db)
    connection.execute("PRAGMA wal_checkpoint(TRUNCATE)")
    connection.close()


def judge(house, trial, name, change):
    """What `check` and `serve` say of the files behind a change: as one, and rightly."""
    folder = trial.inner()
    db, read = (os.path.join(folder, name) for name in ("ledger.db", "read.db"))
    copy(house.db, db)
    change(db)
    copy(db, read)
    newest = newest_in(read)
    noted = is_marked(db, newest)
    status, out, err = run(house.program, "check", "--db", db)
    if newest is not None and newest >= newest_told(house):
        want((status, out, err) == (0, "ok\n", ""), f"a whole ledger: {status} {out} {err}")
        return serves(house, db, "whole")
    if status == 0:
        # A loss is not noticed where the marks are gone or older as well.
        want(not noted and "sums" in name, f"{name}: a ledger that lacks commits is ok")
        return serves(house, db, "older, as are its marks")
    want(status == 4, f"behind a change: {status} {out} {err}")
    if err == BEHIND:
        want(noted, "behind, with no mark")
        return refuses(house, db, "behind", BEHIND)
    word = err.removeprefix("ledgerd: ").strip().split("\n")[0]
    want(out.startswith("damaged ") or word in MIXED, f"a change is told as {out} {err}")
    return refuses(house, db, "of mixed files", None)


def is_marked(db, newest):
    """Whether the marks beside the file tell a later clock than it has."""
    return os.path.exists(db + "-sums") and (newest is None or last_mark(db + "-sums") > newest)


def serves(house, db, outcome):
    served_once(house.program, db)
    return outcome


def served_once(program, db):
    Service(program, db).kill()


def refuses(house, db, outcome, line):
    status, out, err = run(house.program, "serve", "--db", db, "--port", "0")
    want(status == 4 and not out and line in (None, err), f"serve: {status} {out} {err}")
    return outcome


def served_on(house):
    """The files as they were left are served, with all that was answered."""
    house.start()
    house.compare()
    house.stop()


def stands_alone(house, trial):
    """After a stop the file alone is the ledger: what an ordinary backup takes."""
    alone = os.path.join(trial.inner(), "ledger.db")
    shutil.copy(house.db, alone)
    check(house.program, alone)
    want(newest_in(alone) >= newest_told(house), "a stop leaves commits in the log")


def row_changed(house, trial):
    """A balance that a stock SQLite takes away is damage, whatever is marked."""
    db = os.path.join(trial.inner(), "ledger.db")
    copy(house.db, db)
    connection = sqlite3.connect(db)
    connection.execute("DELETE FROM balance WHERE rowid = (SELECT max(rowid) FROM balance)")
    connection.commit()
    connection.close()
    status, out, err = run(house.program, "check", "--db", db)
    want(status == 4 and out.startswith("damaged "), f"a balance taken away: {status} {out} {err}")


def served_before(house, trial):
    """The program before knows no FILE-sums, which is away meanwhile. What it has answered is marked by
    the next opening of this one."""
    sums, away = f"{house.db}-sums", os.path.join(trial.inner(), "sums")
    os.rename(sums, away)
    house.start()
    for _ in range(3):
        place, events = house.draw()
        want(house.take_turn(place).batch(events), "unavailable without marks")
    house.stop()
    os.replace(away, sums)
    check(house.program, house.db)
    house.start()
    until = time.monotonic() + PATIENCE
    while not has_marks(house):
        want(time.monotonic() < until, "what the program before has answered is not marked")
        time.sleep(0.05)
    house.compare()
    house.stop()
    db = os.path.join(trial.inner(), "ledger.db")
    copy(house.db, db)
    gone(db, "-wal")
    told = run(house.program, "check", "--db", db)
    want(told == (4, "", BEHIND), f"without the log of the program before: {told}")


def hand_over(house, trial):
    """A standby that takes over marks its own replies: without the log that it wrote the file is behind."""
    house.start()
    other = Standby(house.program, house.db, None, ("--standby",))
    end(house, True)
    other.take_over()
    house.service = other
    for _ in range(3):
        place, events = house.draw()
        want(house.take_turn(place).batch(events), "unavailable behind a hand-over")
    end(house, False)
    db = os.path.join(trial.inner(), "ledger.db")
    copy(house.db, db)
    gone(db, "-wal")
    told = run(house.program, "check", "--db", db)
    want(told == (4, "", BEHIND), f"without the log of who has taken over: {told}")
    check(house.program, house.db)


def obstacles(house):
    """What may stand in the place of the marks, and how it is put there."""
    sums = f"{house.db}-sums"

    def folder():
        os.mkdir(sums)
        os.mkdir(f"{sums}/inner")

    yield "a folder", folder
    yield "a link", lambda: os.symlink("nowhere", sums)
    yield "a pipe", lambda: os.mkfifo(sums)
    yield "nothing in it", lambda: open(sums, "wb").close()
    yield "a file of nobody", lambda: os.close(os.open(sums, os.O_CREAT, 0))


def obstructed(house, name, put):
    """Batches go on, and nothing is refused; once it is away again there are marks."""
    gone(house.db, "-sums")
    put()
    house.start()
    place, events = house.draw()
    want(house.take_turn(place).batch(events), f"unavailable beside {name}")
    lines = [line for line in house.service.lines() if "-sums" in line]
    want(len(lines) == (name == "a folder"), f"beside {name} standard error tells {lines}")
    end(house, True)
    sums = f"{house.db}-sums"
    if os.path.isdir(sums):
        shutil.rmtree(sums)
        served_on(house)
    want(has_marks(house), f"no marks beside {name}")
    check(house.program, house.db)
