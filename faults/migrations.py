"""`migrate` with a call refused, or all from one on: it leaves the old file whole, or the new."""

import contextlib
import copy
import functools
import os
import sqlite3

import copies
import older
from control import ALL, DISK, MEMORY, Control
from service import UNAVAILABLE, UNREADABLE, check, run, want
from shared import of_how_many, try_places

OLD_SCHEMA = (4, "", "ledgerd: old_schema\n")
# Which calls are refused, and how many from one on.
KINDS = {(MEMORY, 1): "allocations", (DISK, 1): "calls of the disk alone",
         (DISK, ALL): "calls of the disk with all behind them"}


def refused_migrations(trial, library):
    """Each allocation and each call of the disk refused in turn, from each older version to each
    newer one. Calls of the disk fail alone, and with all behind them."""
    listed = older.tenants(trial.random)
    tried, found = {kind: [] for kind in KINDS}, 0
    for version in (1, 2):
        db = os.path.join(trial.folder, f"version{version}.db")
        older.write(db, version, listed)
        for to in (2, 3):
            migration = Migration(trial, db, to)
            migration.compare(version, listed)
            for kind in KINDS:
                name = f"{version} to {to}"
                at = functools.partial(begun_in, migration, library, kind)
                count, sums = try_places(trial, f"migrate {name}: {KINDS[kind]}", at)
                tried[kind].append(of_how_many(name, count, sums))
                found += sums["found"]
    each = "; ".join(f"{KINDS[kind]} {', '.join(tried[kind])}" for kind in KINDS)
    return (f"of migrate, by versions, {each}: the old file whole or the new one, {found} times "
            "the new one where it told a fault")


@contextlib.contextmanager
def begun_in(migration, library, kind, folder):
    """A migration with calls of a kind refused, in a folder of its own."""
    own = copy.copy(migration)
    own.scratch = os.path.join(folder, "scratch.db")
    own.control, (own.kind, own.many) = Control(folder, library), kind
    yield own


class Migration:
    """A file to be brought to a version: what is there before, and behind it undisturbed."""

    def __init__(self, trial, db, to):
        self.program, self.db, self.to = trial.program, db, to
        self.scratch = os.path.join(trial.folder, "scratch.db")
        self.ample = (0, f"schema {to}\n", "")
        self.old = snapshot(db)
        copies.copy(db, self.scratch)
        want(self.migrate(to) == self.ample, "not migrated, with all at hand")
        self.new = snapshot(self.scratch)
        # What was found in files that were looked at, by what stands in them.
        self.looked_at = {}

    def migrate(self, to, env=None):
        """What is told of the scratch file."""
        return run(self.program, "migrate", "--db", self.scratch, "--to", str(to), env=env)

    def compare(self, version, listed):
        """Before and behind it the tables are as prescribed, and the rows the plain ledgers'."""
        for seen, of in ((self.old, version), (self.new, self.to)):
            texts = [text for *_, text in seen[0] if text]
            want(texts == older.texts_of(of), f"the tables of version {of}: {texts}")
            want(rows_in(seen) == older.rows_of(of, listed), f"the rows of version {of}: {seen[1]}")
        want(self.new == self.old or version != self.to, "a file was changed for nothing")
        if self.to == 2:
            told = run(self.program, "check", "--db", self.scratch)
            want(told == OLD_SCHEMA, f"check of version 2: {told}")

    def count(self):
        """How many calls there are."""
        copies.copy(self.db, self.scratch)
        return self.control.count(self.kind, lambda: self.migrate(self.to, self.control.env))

    def refuse(self, place):
        """Whether a call was refused, and whether the file was the new one nevertheless."""
        copies.copy(self.db, self.scratch)
        self.control.refuse(self.kind, place, self.many)
        told = self.migrate(self.to, self.control.env)
        was_refused = self.control.end(self.kind) > 0
        stands = copies.sum_of(self.scratch)
        left = self.looked_at.get(stands) or snapshot(self.scratch)
        what = f"migrate to {self.to}, {KINDS[self.kind, self.many]} from {place} on"
        faults = (UNAVAILABLE,) if self.kind == MEMORY else (UNAVAILABLE, UNREADABLE)
        want(told == self.ample or (was_refused and told in faults), f"{what}: {told}")
        is_found = told == UNAVAILABLE and self.kind == DISK and left == self.new != self.old
        expected = self.new if told == self.ample or is_found else self.old
        want(left == expected, f"{what}: {told}, and the file is another")
        if stands not in self.looked_at:
            self.again(what)
            self.looked_at[stands] = expected
        return {"refused": was_refused, "found": is_found}

    def again(self, what):
        """The same command once more is done; the file is good."""
        told = self.migrate(self.to)
        want(told == self.ample and snapshot(self.scratch) == self.new, f"{what}, again: {told}")
        if self.to < 3:
            told = self.migrate(3)
            want(told == (0, "schema 3\n", ""), f"{what}, and to 3: {told}")
        check(self.program, self.scratch)


def snapshot(db):
    """All that stands in a file as a stock SQLite reads a copy: texts of tables, and rows with
    their places. The copy is whole."""
    seen = db + ".seen"
    copies.copy(db, seen)
    connection = sqlite3.connect(seen)
    for text, good in (("integrity_check", [("ok",)]), ("foreign_key_check", [])):
        told = connection.execute(f"PRAGMA {text}").fetchall()
        want(told == good, f"{text} of {db}: {told}")
    texts = connection.execute("SELECT type, name, tbl_name, sql FROM sqlite_master").fetchall()
    rows = {name: connection.execute(f"SELECT rowid, * FROM {name} ORDER BY rowid").fetchall()
            for kind, name, *_ in texts if kind == "table"}
    connection.close()
    return texts, rows


def rows_in(seen):
    """The rows of a snapshot in the order of their keys."""
    return {table: sorted(row[1:] for row in rows) for table, rows in seen[1].items()}
