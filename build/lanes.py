"""Tasks side by side: as many as processors and memory allow, each once those it waits for are done.

    python3 build/lanes.py    prints how many checks may run side by side

Most checks take 1 to 4 GB, and tests over SQLite up to 7; four at once took 18 GB at most."""

import os
import pathlib
import queue
import re
import threading
import time

BYTES_EACH = 4_000_000_000
MOST_JOBS = 4
LIMIT, USED = (pathlib.Path("/sys/fs/cgroup") / f"memory.{it}" for it in ("max", "current"))


def free():
    """The free memory in bytes, within the limit of the group of processes."""
    found = re.search(r"MemAvailable: +(\d+)", pathlib.Path("/proc/meminfo").read_text())
    free = 1024 * int(found[1])
    if LIMIT.exists() and LIMIT.read_text().strip().isdigit():
        free = min(free, int(LIMIT.read_text()) - int(USED.read_text()))
    return free


def lanes():
    """How many checks may run side by side: as many as `make -jN` says, else one for each processor,
    and no more than memory holds."""
    asked = re.search(r"(?:^| )-j(\d+)", os.environ.get("MAKEFLAGS", ""))
    wanted = int(asked[1]) if asked else len(os.sched_getaffinity(0))
    return max(1, min(wanted, free() // BYTES_EACH))


class Task:
    """A call, which gets a number of jobs and returns whether all is well. It waits for the tasks with
    these keys. By the weights the longest chain of tasks comes first. `seconds` is what the call took."""

    def __init__(self, key, waits, weight, call):
        self.key, self.waits, self.weight, self.call = key, waits, weight, call
        self.is_well = self.seconds = None

    def run(self, jobs, results):
        begun = time.time()
        try:
            self.is_well = self.call(jobs)
        except (SystemExit, OSError) as error:
            print(f"{self.key}: {error}", flush=True)
            self.is_well = False
        self.seconds = time.time() - begun
        results.put(self)


def chains(tasks):
    """The weight of the longest chain that begins with each task."""
    behind = {it.key: it.weight for it in tasks}
    for it in reversed(tasks):
        for key in it.waits:
            behind[key] = max(behind[key], behind[it.key] + next(t.weight for t in tasks if t.key == key))
    return behind


def done(tasks, most):
    """Runs tasks, of which each comes after those that it waits for, and gives each once it is done. What
    waits for one that failed is given without a run."""
    behind, results, left = chains(tasks), queue.Queue(), list(tasks)
    ended, running = {}, {}
    while left or running:
        for it in [it for it in left if any(ended.get(key) is False for key in it.waits)]:
            left.remove(it)
            ended[it.key] = it.is_well = False
            yield it
        ready = [it for it in left if all(key in ended for key in it.waits)]
        ready.sort(key=lambda it: -behind[it.key])
        for place, it in enumerate(ready):
            idle = most - sum(running.values())
            if idle < 1:
                break
            # The longest chain of all decides when the last task is done.
            is_longest = behind[it.key] == max(behind[key] for key in [*running, *[it.key for it in left]])
            share = idle // (len(ready) - place)
            running[it.key] = min(MOST_JOBS, max(share, 2 if is_longest and most > 2 else 1))
            left.remove(it)
            threading.Thread(target=it.run, args=(running[it.key], results), daemon=True).start()
        if running:
            it = results.get()
            del running[it.key]
            ended[it.key] = it.is_well
            yield it


if __name__ == "__main__":
    print(lanes())
