"""Pages that C SQLite writes and reads for the history of accounts, by the form of the history.

    python3 bench/history.py [FOLDER]

In the form `keyed` the history has the key (tenant, account, timestamp), as in a ledger file. In
`timed` the key is (tenant, timestamp, account). In `chained` it has no key, and each entry names the
rowid of its account's entry before it. `none` has no history. The files are made in FOLDER, by
default /dev/shm, and removed.
"""

import os
import pathlib
import random
import sqlite3
import sys

PAGE = 4096
FRAME = PAGE + 24
TENANT = "tenant INTEGER NOT NULL"
SUMS = "dp BLOB NOT NULL, dd BLOB NOT NULL, cp BLOB NOT NULL, cc BLOB NOT NULL"
TRANSFER = ", ".join(
    [f"{name} BLOB NOT NULL" for name in ("id", "debit", "credit", "amount", "pending_id",
                                          "user_data_128", "user_data_64")]
    + [f"{name} INTEGER NOT NULL" for name in ("user_data_32", "timeout", "ledger", "code", "flags",
                                               "timestamp", "at_clock")])
KEYS = {"keyed": ", PRIMARY KEY (tenant, account, timestamp)",
        "timed": ", PRIMARY KEY (tenant, timestamp, account)", "chained": ""}
BEGINNING = 10**18
MANY = 100_000
ENTRIES = 100


def column(number):
    return number.to_bytes(16, "big")


ZERO = column(0)


class File:
    """A file with the accounts of one tenant. Each transfer is between two accounts drawn at random."""

    def __init__(self, path, form, accounts):
        self.path, self.form, self.accounts = path, form, accounts
        self.remove()
        self.db = sqlite3.connect(path, isolation_level=None)
        for pragma in ("journal_mode=WAL", "synchronous=OFF", "cache_size=20000",
                       "wal_autocheckpoint=0"):
            self.db.execute(f"PRAGMA {pragma}")
        self.drawn, self.sent, self.last = random.Random(1), 0, {}
        self.make()

    def make(self):
        last = ", last INTEGER NOT NULL" if self.form == "chained" else ""
        previous = ", previous INTEGER NOT NULL" if self.form == "chained" else ""
        self.db.execute(f"CREATE TABLE transfer ({TENANT}, {TRANSFER}, PRIMARY KEY (tenant, id), "
                        "UNIQUE (tenant, timestamp)) STRICT")
        self.db.execute(f"CREATE TABLE balance ({TENANT}, account BLOB NOT NULL, {SUMS}{last}, "
                        "PRIMARY KEY (tenant, account)) STRICT")
        if self.form != "none":
            self.db.execute(f"CREATE TABLE history ({TENANT}, account BLOB NOT NULL, "
                            f"timestamp INTEGER NOT NULL, {SUMS}{previous}{KEYS[self.form]}) STRICT")
        columns = ", 0" if last else ""
        self.db.executemany(f"INSERT INTO balance VALUES (1, ?, ?, ?, ?, ?{columns})",
                            [(column(account), ZERO, ZERO, ZERO, ZERO)
                             for account in range(1, self.accounts + 1)])

    def send(self, many, size):
        """Sends `many` transfers, in transactions of `size` each."""
        for start in range(0, many, size):
            self.db.execute("BEGIN")
            for _ in range(min(size, many - start)):
                self.send_one()
            self.db.execute("COMMIT")

    def send_one(self):
        number, time = self.sent, BEGINNING + self.sent
        debit, credit = self.drawn.sample(range(1, self.accounts + 1), 2)
        self.db.execute(f"INSERT INTO transfer VALUES (1{', ?' * 14})",
                        (column(10**6 + number), column(debit), column(credit), column(7), ZERO,
                         ZERO, bytes(8), 0, 0, 1, 1, 0, time, time))
        for account in debit, credit:
            self.enter(account, time, (ZERO, column(number), ZERO, column(number)))
        self.sent += 1

    def enter(self, account, time, sums):
        key, extra = column(account), ()
        if self.form == "chained":
            extra = (self.last.get(account, 0),)
        if self.form != "none":
            added = self.db.execute(f"INSERT INTO history VALUES (1, ?, ?{', ?' * (4 + len(extra))})",
                                    (key, time) + sums + extra)
            self.last[account] = added.lastrowid
        last = (self.last[account],) if extra else ()
        self.db.execute(f"UPDATE balance SET dp = ?, dd = ?, cp = ?, cc = ?{', last = ?' if last else ''}"
                        " WHERE tenant = 1 AND account = ?", sums + last + (key,))

    def checkpoint(self):
        self.db.execute("PRAGMA wal_checkpoint(TRUNCATE)")

    def logged(self):
        """Pages in the log."""
        return (os.path.getsize(f"{self.path}-wal") - 32) / FRAME

    def remove(self):
        for end in "", "-wal", "-shm":
            pathlib.Path(self.path + end).unlink(missing_ok=True)


def keyed_entries(db, account, newest, time):
    """The entries from a time on, or up to it with the newest first, each with its transfer."""
    test, order = ("<=", "DESC") if newest else (">=", "ASC")
    return db.execute("SELECT * FROM history JOIN transfer ON transfer.tenant = 1 AND "
                      "transfer.timestamp = history.timestamp WHERE history.tenant = 1 AND "
                      f"history.account = ? AND history.timestamp {test} ? "
                      f"ORDER BY history.timestamp {order} LIMIT {ENTRIES}",
                      (column(account), time)).fetchall()


def chained_entries(db, account, newest, time):
    """The same entries, found from the account's last one backward."""
    row, = db.execute("SELECT last FROM balance WHERE tenant = 1 AND account = ?",
                      (column(account),)).fetchone()
    times = []
    while row:
        at, before = db.execute("SELECT timestamp, previous FROM history WHERE rowid = ?",
                                (row,)).fetchone()
        if newest and len(times) == ENTRIES or not newest and at < time:
            break
        if not newest or at <= time:
            times.append(at)
        row = before
    times = times if newest else times[::-1][:ENTRIES]
    return [db.execute("SELECT * FROM transfer WHERE tenant = 1 AND timestamp = ?", (at,)).fetchone()
            for at in times]


def bytes_read():
    for line in pathlib.Path("/proc/self/io").read_text().splitlines():
        if line.startswith("rchar"):
            return int(line.split()[1])
    return 0


def pages_read(path, find, account, newest, time):
    db = sqlite3.connect(path, isolation_level=None)
    db.execute("PRAGMA mmap_size=0")
    db.execute("PRAGMA cache_size=20000")
    db.execute("SELECT count(*) FROM sqlite_schema").fetchone()
    before = bytes_read()
    if len(find(db, account, newest, time)) != ENTRIES:
        sys.exit(f"account {account} has too few entries")
    read = (bytes_read() - before) / PAGE
    db.close()
    return read


def show_writing(path):
    for accounts, size in (100, 1000), (10_000, 1000), (100, 20):
        for form in "none", "keyed", "timed", "chained":
            file = File(path, form, accounts)
            file.send(MANY, 1000)
            file.checkpoint()
            file.send(5000, size)
            logged = file.logged() / 5000
            file.checkpoint()
            length = os.path.getsize(path) / (MANY + 5000)
            print(f"{form:8} {accounts:6} accounts, batches of {size:4}: {logged:6.3f} pages logged "
                  f"and {length:4.0f} bytes of file a transfer", flush=True)
            file.db.close()
            file.remove()


def show_reading(path):
    middle, end = BEGINNING + MANY // 2, BEGINNING + MANY
    for form, find in ("keyed", keyed_entries), ("chained", chained_entries):
        file = File(path, form, 100)
        file.send(MANY, 1000)
        file.checkpoint()
        file.db.close()
        for what, newest, time in (("the newest", True, end), ("up to the middle", True, middle),
                                   ("from the middle on", False, middle),
                                   ("the oldest", False, BEGINNING)):
            read = sorted(pages_read(path, find, account, newest, time)
                          for account in (3, 17, 42, 66, 91))[2]
            print(f"{form:8} {ENTRIES} entries, {what:18}: {read:6.0f} pages read", flush=True)
        file.remove()


def main():
    folder = sys.argv[1] if len(sys.argv) > 1 else "/dev/shm"
    path = os.path.join(folder, "history.db")
    show_writing(path)
    show_reading(path)


if __name__ == "__main__":
    main()
