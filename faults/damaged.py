"""Damaged files: cells changed, rows removed and doubled, tables dropped, bytes overwritten, files
cut. `check` says what the plain audit says of the rows, or names a fault, and never crashes."""

import os
import shutil
import sqlite3

from connection import Surprise
from copies import copy, files
from plain_audit import FAULTS, KEYS, TABLES, agrees, expect, rows_of, verdict
from runs import House
from service import Service, check, run, want


def damaged(trial):
    """Rows changed by a stock SQLite, and bytes by hand."""
    house = House(trial.fresh())
    house.begin()
    for _ in range(16):
        place, events = house.draw()
        want(house.take_turn(place).batch(events), "unavailable, with all at hand")
    house.stop()
    check(house.program, house.db)
    scratch = os.path.join(trial.folder, "scratch.db")
    raw = os.path.join(trial.folder, "raw.db")
    copy(house.db, raw)
    sqlite3.connect(house.db).execute("PRAGMA wal_checkpoint(TRUNCATE)").fetchall()
    rows = changed_rows(trial, house, scratch)
    bytes_changed = changed_bytes(trial, (raw, scratch))
    return (f"{rows} files with one change of a row or table, {bytes_changed} with bytes changed "
            f"or cut: each is told as the plain audit tells it, or by a named fault")


def changed_rows(trial, house, scratch):
    changes = list(every_change(trial.random, house.db))
    if not trial.is_long:
        changes = trial.random.sample(changes, 250)
    told = {}
    for tried, (what, statement, values) in enumerate(changes):
        copy(house.db, scratch)
        if not change(scratch, statement, values):
            continue
        if statement.startswith("DROP"):
            expected, said = FAULTS, run(trial.program, "check", "--db", scratch)
            want(agrees(said, expected), f"{what}: {said}")
        else:
            said = run(trial.program, "check", "--db", scratch)
            expected = expect(said, scratch, what)
        kind = said[1].split()[0:2] if said[1] else [said[2].split()[-1]]
        told[" ".join(kind)] = told.get(" ".join(kind), 0) + 1
        trial.progress(f"{tried} files")
    print("damaged: " + ", ".join(f"{many} {kind}" for kind, many in sorted(told.items())))
    return sum(told.values())


def change(path, statement, values):
    """Whether the tables admit the change."""
    connection = sqlite3.connect(path)
    try:
        connection.executescript("PRAGMA foreign_keys = OFF; PRAGMA synchronous = OFF")
        connection.execute(statement, values)
        connection.commit()
        return True
    except sqlite3.IntegrityError:
        return False
    finally:
        connection.close()


def every_change(random, db):
    """Each cell changed, each row removed, and doubled under another key, each table dropped."""
    connection = sqlite3.connect(db)
    for table in TABLES:
        yield f"{table} dropped", f"DROP TABLE {table}", ()
        cursor = connection.execute(f"SELECT rowid, * FROM {table}")
        columns = [each[0] for each in cursor.description][1:]
        for rowid, *cells in cursor.fetchall():
            row = f"{table} {rowid}"
            yield f"{row} removed", f"DELETE FROM {table} WHERE rowid = ?", (rowid,)
            for column, cell in zip(columns, cells):
                new = other(random, cell)
                yield (f"{row}: {column} is {new!r}, not {cell!r}",
                       f"UPDATE {table} SET {column} = ? WHERE rowid = ?", (new, rowid))
            doubled = [other(random, cell) if place < KEYS.get(table, 1) and place else cell
                       for place, cell in enumerate(cells)]
            marks = ", ".join("?" * len(cells))
            yield f"{row} doubled", f"INSERT INTO {table} VALUES ({marks})", tuple(doubled)
    connection.close()


def other(random, cell):
    """Another value of the same kind, often one that is near."""
    if isinstance(cell, str):
        return random.choice((cell + "x", cell[1:], "", "nörth"))
    if isinstance(cell, int):
        values = {cell + 1, cell - 1, 0, 1, 2, -1, 2**16, 2**32, 2**62 + 1, 2**63 - 1} - {cell}
        return random.choice(sorted(value for value in values if value < 2**63))
    value = int.from_bytes(cell, "big")
    top = 2 ** (8 * len(cell))
    values = {(value + 1) % top, (value - 1) % top, 0, 1, 2, top - 1,
              value ^ 1 << random.randrange(8 * len(cell))} - {value}
    return random.choice(sorted(values)).to_bytes(len(cell), "big")


def changed_bytes(trial, paths):
    """Bytes of either file overwritten, or a file cut; `check`, and a service, end or serve."""
    raw, scratch = paths
    times = 3000 if trial.is_long else 120
    for turn in range(times):
        copy(raw, scratch)
        path = trial.random.choice([each for each in files(scratch) if os.path.exists(each)])
        what = overwrite(trial.random, path)
        kept = scratch + ".kept"
        shutil.copy(path, kept)
        said = run(trial.program, "check", "--db", scratch)
        is_damage = said[0] == 4 and said[1].startswith("damaged ") and not said[2]
        want(said == (0, "ok\n", "") or is_damage or agrees(said, FAULTS), f"{what}: {said}")
        if said[0] == 0:
            want(verdict(rows_of(scratch)) == "ok", f"{what}: ok, but not by the plain audit")
        if turn % 10 == 0:
            serve_or_refuse(trial.program, scratch, said[0] == 0, what)
        trial.progress(f"{turn} files with other bytes")
    return times


def overwrite(random, path):
    """Cuts the file, or writes over some of its bytes. What was done."""
    size = os.path.getsize(path)
    place = random.randrange(size)
    with open(path, "r+b") as file:
        if random.random() < 0.25:
            file.truncate(place)
            return f"{path} cut at {place}"
        written = random.randbytes(random.choice((1, 1, 4, 64, 4096)))
        file.seek(place)
        file.write(written[:size - place])
    return f"{path}: {written[:8].hex()}.. at {place}"


def serve_or_refuse(program, db, is_good, what):
    """A service over such a file serves where `check` is ok, and else ends with a fault."""
    try:
        Service(program, db).kill()
        served = True
    except Surprise:
        served = False
    want(served == is_good, f"{what}: check is ok: {is_good}; it serves: {served}")
