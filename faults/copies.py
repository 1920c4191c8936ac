"""A ledger's files beside a path: removed, copied, and summed up."""

import hashlib
import os
import pathlib
import shutil


def files(db):
    return [db + end for end in ("", "-wal", "-shm", "-sums")]


def remove(db):
    for path in files(db):
        if os.path.exists(path):
            os.remove(path)


def copy(db, to):
    remove(to)
    for old, new in zip(files(db), files(to)):
        if os.path.exists(old):
            shutil.copy(old, new)


def sum_of(db):
    """A sum of all that stands in them, byte for byte."""
    whole = hashlib.sha256()
    for path in files(db):
        told = pathlib.Path(path).read_bytes() if os.path.exists(path) else None
        whole.update(f"{told and len(told)}\n".encode() + (told or b""))
    return whole.hexdigest()
