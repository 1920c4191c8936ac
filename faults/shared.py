"""Calls to be refused one by one, of which several processes try some each: all of them, a sample,
or as many as there is time for."""

import collections
import itertools
import math
import multiprocessing
import os
import time

from service import want

FORKED = multiprocessing.get_context("fork")
# The golden section: steps of it come near each place of a circle soon, and evenly.
STEP = 0.618


def drawn(trial, count):
    """Those of so many places that are tried. A sample is the first, the last and some between.
    Else it is all of them, in an order of which each beginning is spread evenly."""
    if trial.is_long:
        step = next(step for step in itertools.count(max(1, round(STEP * count)))
                    if math.gcd(step, count) == 1)
        first = trial.random.randrange(count)
        return [(first + step * turn) % count for turn in range(count)]
    ends = {place for place in range(8) if place < count}
    between = trial.random.sample(range(count), min(count, 24))
    return sorted({*ends, *between, *(count - 1 - place for place in ends)})


class Shared:
    """Places that some processes take from each other, until none is left or time is up."""

    def __init__(self, trial, name, order):
        self.trial, self.name, self.order = trial, name, order
        self.taken, self.told = FORKED.Value("q", 0), FORKED.SimpleQueue()
        self.end = time.monotonic() + 60 * trial.minutes

    def take(self):
        """The next place, if there is one and time for it. The first one has its time."""
        with self.taken.get_lock():
            turn = self.taken.value
            if turn >= len(self.order) or turn and time.monotonic() > self.end:
                return None
            self.taken.value += 1
        self.trial.progress(f"{self.name}: {turn} of {len(self.order)}")
        return self.order[turn]

    def work(self, at, folder):
        """Tries one place after the other in a folder of its own."""
        sums = collections.Counter()
        try:
            with at(folder) as case:
                while (place := self.take()) is not None:
                    sums.update(tried=1, **case.refuse(place))
        except BaseException:
            self.taken.value = len(self.order)
            raise
        self.told.put(sums)

    def sums(self, at):
        """What all of them have seen."""
        workers = [FORKED.Process(target=self.work, args=(at, self.trial.inner()))
                   for _ in range(min(self.trial.jobs, len(self.order)))]
        for each in workers:
            each.start()
        for each in workers:
            each.join()
        want(not any(each.exitcode for each in workers), f"{self.name}: told above")
        return sum((self.told.get() for _ in workers), collections.Counter())


def try_places(trial, name, at):
    """How many calls there are, and what was seen where they were refused. `at` begins a case in a
    folder, which counts the calls and refuses one of them."""
    with at(trial.inner()) as case:
        count = case.count()
        want(count > 0, f"{name}: no calls are counted")
        while case.refuse(count)["refused"]:
            count += 1
    return count, Shared(trial, name, drawn(trial, count)).sums(at)


def of_how_many(name, count, sums):
    """How many of how many were tried."""
    return f"{name} {sums['tried']} of {count}"
