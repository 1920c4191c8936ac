"""What an opening takes: the time and the most memory of `check`, by programs beside one another.

    python3 bench/openings.py FOLDER NAME=PROGRAM.. [-- TENANTSxTRANSFERS..]

Makes sound files of posted transfers, each tenant with 100 accounts, by Python's SQLite, and keeps
them in FOLDER. Of each file each program is run in turn. The seconds are of the processor, the
memory is what was resident at most. Without shapes they are 1x100000, 1000x100000, 1x500000 and
1000x500000, where transfers are counted over all tenants.
"""

import hashlib
import os
import re
import sqlite3
import sys

SHAPES = "1x100000", "1000x100000", "1x500000", "1000x500000"
ACCOUNTS = 100
SOURCE = os.path.join(os.path.dirname(__file__), "../crates/ledger_sql/src/creating.rt")


def texts():
    """The texts that make a ledger's tables."""
    with open(SOURCE, encoding="utf-8") as source:
        found = re.findall(r'"(CREATE TABLE [^"]*)"', source.read())
    return [re.sub(r"\\\n\s*", "", text) for text in found]


def wide(number):
    """A column of 16 bytes."""
    return number.to_bytes(16, "big")


def fill(path, tenants, transfers, add_one=None):
    """A file of so many tenants that share so many transfers, each added by `add` or as is told."""
    with sqlite3.connect(path) as file:
        file.execute("PRAGMA synchronous = OFF")
        for text in texts():
            file.execute(text)
        file.execute("INSERT INTO schema VALUES (1, 3)")
        for tenant in range(1, tenants + 1):
            (add_one or add)(file, tenant, transfers // tenants)
        file.execute("PRAGMA journal_mode = WAL")
    file.close()


def add(file, tenant, many):
    """A tenant with so many transfers, one a nanosecond."""
    name = f"tenant-{tenant}"
    file.execute("INSERT INTO tenant VALUES (?, ?, ?)",
                 (tenant, name, hashlib.sha256(name.encode()).digest()))
    zero, short = wide(0), bytes(8)
    file.executemany(
        "INSERT INTO account VALUES (?, ?, ?, ?, 0, 7, 10, 0, ?)",
        ((tenant, wide(n + 1), zero, short, n + 1) for n in range(ACCOUNTS)))
    sums = [[0, 0] for _ in range(ACCOUNTS)]
    moved, told = [], []
    for k in range(many):
        debit, credit = k % ACCOUNTS, (7 * k + k // ACCOUNTS + 1) % ACCOUNTS
        credit = credit if credit != debit else (credit + 1) % ACCOUNTS
        amount, at = 1 + k % 50, ACCOUNTS + 1 + k
        sums[debit][0] += amount
        sums[credit][1] += amount
        moved.append((tenant, wide(1000 + k), wide(debit + 1), wide(credit + 1), wide(amount),
                      zero, zero, short, 0, 0, 7, 1, 0, at, at))
        for account in (debit, credit):
            dd, cc = sums[account]
            told.append((tenant, wide(account + 1), at, zero, wide(dd), zero, wide(cc)))
        if len(moved) == 10000:
            insert(file, moved, told)
    insert(file, moved, told)
    file.executemany("INSERT INTO balance VALUES (?, ?, ?, ?, ?, ?)",
                     ((tenant, wide(n + 1), zero, wide(dd), zero, wide(cc))
                      for n, (dd, cc) in enumerate(sums)))
    file.execute("INSERT INTO clock VALUES (?, ?)", (tenant, ACCOUNTS + many))


def insert(file, moved, told):
    """Rows of transfers and of history, which are taken out of the lists."""
    file.executemany(f"INSERT INTO transfer VALUES ({', '.join('?' * 15)})", moved)
    file.executemany("INSERT INTO history VALUES (?, ?, ?, ?, ?, ?, ?)", told)
    moved.clear()
    told.clear()


def measured(program, path):
    """The seconds and the kilobytes that `check` of a file takes."""
    child = os.posix_spawn(program, [program, "check", "--db", path], os.environ)
    _, status, used = os.wait4(child, 0)
    if status:
        sys.exit(f"{program} check --db {path}: status {os.waitstatus_to_exitcode(status)}")
    return used.ru_utime + used.ru_stime, used.ru_maxrss


def main(words):
    """Makes what files are missing, and measures."""
    at = words.index("--") if "--" in words else len(words)
    folder, programs, shapes = words[0], words[1:at], words[at + 1:] or SHAPES
    os.makedirs(folder, exist_ok=True)
    for shape in shapes:
        tenants, transfers = map(int, shape.split("x"))
        path = os.path.join(folder, f"{shape}.db")
        if not os.path.exists(path):
            fill(path, tenants, transfers)
        for named in programs:
            name, program = named.split("=", 1)
            seconds, kilobytes = measured(program, path)
            print(f"{shape:>14} {name:>10} {seconds:7.2f} s {kilobytes / 1000:8.1f} MB "
                  f"{kilobytes / transfers:6.2f} kB a transfer", flush=True)


if __name__ == "__main__":
    main(sys.argv[1:])
