"""What is in FILE-sums, by its format in docs/STORAGE.md."""

import os


def last_mark(path):
    """The latest mark of a file of marks, and 0 where its head is none."""
    with open(path, "rb") as file:
        text = file.read()
    if len(text) < 32 or text[:8] != b"LDGRSUMS":
        return 0
    at, latest = 32, 0
    while at + 24 <= len(text) and text[at:at + 8] == b"\x04\0\0\0\x08\0\0\0":
        latest = max(latest, int.from_bytes(text[at + 8:at + 16], "little"))
        at += 24
    return latest


def newest_told(house):
    """The latest clock in any reply."""
    return max(desk.ledger.clock for desk in house.desks)


def has_marks(house):
    """Whether the latest clock in a reply is in FILE-sums."""
    sums = f"{house.db}-sums"
    return os.path.isfile(sums) and last_mark(sums) >= newest_told(house)
