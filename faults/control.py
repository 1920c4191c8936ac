"""The small library that refuses calls of the program that it is loaded into, kills it at one of
them, and turns its clock back (`refuse.c`)."""

import errno
import mmap
import os
import pathlib
import struct
import subprocess

MEMORY, DISK, SENT, MARKS = 0, 1, 2, 3
# So many calls are refused: all that come, or none, since the process is killed at the first.
ALL, KILL = 2**40, -2**40
# Four numbers for each kind of call: skip, many, calls, refused. After them the clock's, and why
# calls on FILE-sums are refused.
SIZE = 8 * 4
WHOLE = 4 * SIZE + 16


class Control:
    """What the library is told, and tells. It is made in the folder, unless it is there."""

    def __init__(self, folder, library=None):
        path, self.library = os.path.join(folder, "control"), library or made_in(folder)
        with open(path, "wb") as file:
            file.write(bytes(WHOLE - 8) + struct.pack("q", errno.EIO))
        with open(path, "r+b") as file:
            self.shared = mmap.mmap(file.fileno(), WHOLE)
        self.env = {**os.environ, "LD_PRELOAD": self.library, "CONTROL": path}

    def refuse(self, kind, skip, many=1):
        """Lets so many calls pass, and refuses so many then, or kills the process."""
        struct.pack_into("4q", self.shared, SIZE * kind, skip, 0, 0, 0)
        struct.pack_into("q", self.shared, SIZE * kind + 8, many)

    def end(self, kind):
        """Refuses nothing more. How many calls were refused."""
        struct.pack_into("q", self.shared, SIZE * kind + 8, 0)
        return self.refused(kind)

    def refused(self, kind):
        """How many calls were refused so far."""
        return struct.unpack_from("q", self.shared, SIZE * kind + 24)[0]

    def turn_back(self, seconds):
        """The clock of the day is told so many seconds behind from now on."""
        struct.pack_into("q", self.shared, 4 * SIZE, seconds)

    def give_reason(self, why):
        """Calls on FILE-sums are refused with this error from now on."""
        struct.pack_into("q", self.shared, 4 * SIZE + 8, why)

    def count(self, kind, act):
        """How many calls of a kind an act makes, with none refused."""
        self.refuse(kind, ALL)
        act()
        self.end(kind)
        return struct.unpack_from("q", self.shared, SIZE * kind + 16)[0]


def made_in(folder):
    """The library, made in a folder."""
    source = pathlib.Path(__file__).with_name("refuse.c")
    library = os.path.join(folder, "refuse.so")
    subprocess.run(["cc", "-O2", "-shared", "-fPIC", "-o", library, source, "-ldl"], check=True)
    return library


def places(trial):
    """The calls to be refused: each, or a sample that grows thinner."""
    place = 0
    while True:
        yield place
        place += 1 if trial.is_long or place < 8 else trial.random.randint(1, 2 + place // 2)
