"""A file that is damaged while it is served, and put back."""

import os
import signal
import sqlite3

from control import DISK, Control
from copies import copy, files
from counted import counts, refused_told
from drawn import moves
from routes import look_at_routes
from runs import House
from service import check, run, want


def broken(trial):
    """Other bytes written over the file, and its disk failing: the service tells that the file is
    damaged, and goes on once it is put back."""
    times = 20 if trial.is_long else 3
    house, control = House(trial.fresh()), Control(trial.folder)
    house.begin(control.env)
    kept, scratch = (os.path.join(trial.folder, name) for name in ("kept.db", "scratch.db"))
    for turn in range(times):
        for place, events in (house.draw() for _ in range(4)):
            want(house.take_turn(place).batch(events), "unavailable, with all at hand")
        copy(house.db, kept)
        join(kept)
        copy(kept, scratch)
        damage(house.program, scratch)
        break_once(house, control, turn, kept, scratch)
    house.stop()
    check(house.program, house.db)
    return f"{times} times damaged while it was served: told, and served again once it was put back"


def join(db):
    """Makes one file of a ledger's, so that it may be put in the place of another whenever that is
    read."""
    connection = sqlite3.connect(db)
    connection.execute("PRAGMA wal_checkpoint(TRUNCATE)").fetchall()
    connection.close()


def damage(program, db):
    connection = sqlite3.connect(db)
    connection.execute("DELETE FROM balance WHERE rowid = (SELECT max(rowid) FROM balance)")
    connection.commit()
    connection.close()
    told = run(program, "check", "--db", db)
    want(told[0] == 4 and told[1].startswith("damaged "), f"a file with a balance removed: {told}")


def break_once(house, control, turn, kept, damaged):
    """A call of the disk that fails, so that the file is opened again, damaged and then whole. The
    process stands still while the file is damaged. Then the first call fails, be it of the batch or
    of a hold that is due; the next ones may be those of the opening."""
    batch = moves(10**9 + turn)
    desk, begun, before = house.take_turn(0), len(house.service.told()), counts(house)
    house.service.stand_still()
    put(damaged, house.db)
    control.refuse(DISK, 0)
    house.service.served.send_signal(signal.SIGCONT)
    want(not desk.batch(batch), "answered, with a call that failed")
    want(control.end(DISK) == 1, "no call failed")
    look_at_routes(house.take_turn(1).connection, house.desks[1].key)
    lines = house.service.told()[begun:]
    want(lines == ["ledgerd: damaged"], f"standard error tells {lines}")
    put(kept, house.db)
    house.desks[0].until_well()
    lines = house.service.told()[begun + 1:]
    want(lines == [house.well()], f"standard error tells {lines} behind it")
    refused_told(house, before)
    want(not house.take_turn(0).settle(batch), "kept by a file that was put back")
    house.compare()
    want(house.take_turn(0).batch(batch), "unavailable, and the file is put back")


def put(db, to):
    """Writes a ledger's files over those of another, which a service may have open."""
    for source, path in zip(files(db), files(to)):
        if os.path.exists(path):
            text = b""
            if os.path.exists(source):
                with open(source, "rb") as file:
                    text = file.read()
            with open(path, "wb") as file:
                file.write(text)
