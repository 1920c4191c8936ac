"""What a trial may use, and how all of it ends at a surprise."""

import math
import os
import random
import sys
import tempfile
import time
import traceback

# These make thousands of files, and do not ask for a disk of their own.
IN_MEMORY = {"disk", "memory", "commands", "damaged"}


def folder_for(name, options):
    """A new folder of a trial: in memory where that is enough, and there is such a place."""
    within = "/dev/shm" if name in IN_MEMORY and os.path.isdir("/dev/shm") else None
    return tempfile.mkdtemp(prefix=f"faults-{name}-", dir=options.folder or within)


class Trial:
    """What a trial may use: the program, a folder, numbers drawn from the seed. It tells how far it
    is no more often than every so many seconds."""

    def __init__(self, name, options, is_long=False, pause=5):
        self.name, self.is_long, self.pause = name, is_long, pause
        self.program = os.path.abspath(options.ledgerd)
        self.random = random.Random(f"{options.seed} {name}")
        self.parent = self.folder = folder_for(name, options)
        self.count, self.told = 0, 0.0
        # How many processes may share its places, and the minutes of each command's.
        self.jobs, self.minutes = 1, math.inf

    def fresh(self):
        """Itself, with a new folder."""
        self.folder = self.inner()
        return self

    def inner(self):
        """A new folder."""
        self.count += 1
        folder = os.path.join(self.parent, str(self.count))
        os.mkdir(folder)
        return folder

    def progress(self, text):
        """A line now and then."""
        if time.monotonic() - self.told > self.pause:
            self.told = time.monotonic()
            print(f"{self.name}: {text}", flush=True)

    def tried(self, act, again):
        """What an act tells. At a surprise all ends, and the words that try it again are told."""
        try:
            return act(self)
        except Exception as error:
            traceback.print_exc()
            print(f"\n{self.name}: SURPRISE: {type(error).__name__}: {error}\nIts files are in "
                  f"{self.folder}. Again: python3 {sys.argv[0]} {again}")
            sys.exit(1)
