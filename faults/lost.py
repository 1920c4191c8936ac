"""A crash at each call that changes one of the three files of a ledger. The process is killed there, or
the power is lost, and then anything that was not synced may be missing. What was answered is there."""

import os
import pathlib
import re
import shutil
import struct
import subprocess
import time
from dataclasses import dataclass

from behind import served_once
from connection import Surprise
from runs import House
from service import CONTENTS, run_whole, want
from standby import Standby

WRITTEN, CUT, SYNCED, RENAMED, REMOVED, SENT = range(6)
ENDS = ("", "-wal", "-sums", "-sums.part")
# Those of FILE-sums by their numbers, and the number of the folder in the trace.
MARKS, FOLDER = (2, 3), len(ENDS)
HEAD = struct.Struct("4q")
CLOCK = re.compile(rb'\{"clock":"(\d+)","results"')
# What a crash leaves of the calls since the last sync of their file: whether all of those of FILE-sums,
# and whether all of the others'. None is a part of them.
CRASHES = {"killed": (True, True), "all lost": (False, False), "the marks alone kept": (True, False),
           "the marks alone lost": (False, True), "a part kept": (None, None)}


@dataclass
class Call:
    """A call that was noted: what it did, to which file, where, with which bytes."""

    kind: int
    file: int
    place: int
    text: bytes


def lost(trial):
    """Services from their starts to their stops, and every crash on the way, each in several ways."""
    calls, marks, counts = 0, 0, dict.fromkeys(CRASHES, 0)
    library = made_in(trial.folder)
    for live, batches in lives(trial):
        house = House(trial.fresh())
        begin, noted = traced(trial, house, library, live, batches)
        calls += len(noted)
        marks += noticed_if_early(trial, house, begin, noted)
        for place in (at + 1 for at, call in enumerate(noted) if call.kind != SENT):
            for kind in CRASHES if trial.is_long else trial.random.sample(list(CRASHES), 1):
                judge(trial, house, (begin, noted, place), kind)
                counts[kind] += 1
            trial.progress(f"{sum(counts.values())} crashes")
    told = ", ".join(f"{count} {kind}" for kind, count in counts.items())
    want(marks > 0, "no mark comes after a sync")
    return (f"{calls} calls on three files, {sum(counts.values())} crashes there: {told}; all that was "
            f"answered before is there, and {marks} marks would be noticed before their syncs")


def lives(trial):
    """Lives of services over a file, each with how many batches are sent in each part of it."""
    for live in (stopped, killed, obstructed, handed_over):
        yield live, 2
    yield stopped, 8
    for turn in range(4 if trial.is_long else 0):
        yield stopped, 40 if turn % 2 else 8


def stopped(house, env, batches):
    """A service that makes FILE-sums, and one that finds it. The second one is stopped as well."""
    house.begin(env)
    send(house, batches)
    stop(house)
    house.start(env)
    send(house, batches)
    stop(house)


def killed(house, env, batches):
    """The same, but the first one is killed, so that the second one has a log to take up."""
    house.begin(env)
    send(house, batches)
    time.sleep(0.2)
    house.stop()
    house.start(env)
    send(house, batches)
    stop(house)


def obstructed(house, env, batches):
    """FILE-sums cannot be made at first, since a folder stands in its place."""
    inner = f"{house.db}-sums/inner"
    os.makedirs(inner)
    house.begin(env)
    send(house, batches)
    shutil.rmtree(os.path.dirname(inner))
    until = time.monotonic() + 60
    while not os.path.exists(f"{house.db}-sums"):
        want(time.monotonic() < until, "FILE-sums is not made once it could be")
        time.sleep(0.05)
    send(house, batches)
    stop(house)


def handed_over(house, env, batches):
    """Another one stands by, and takes over from the first."""
    house.begin(env)
    other = Standby(house.program, house.db, env, ("--standby",))
    send(house, batches)
    stop(house)
    other.take_over()
    house.service = other
    send(house, batches)
    stop(house)


def send(house, batches):
    for _ in range(batches):
        place, events = house.draw()
        want(house.take_turn(place).batch(events), "unavailable, with all at hand")


def stop(house):
    for desk in house.desks:
        desk.leave()
    told = run_whole(house.program, "stop", "--db", house.db)
    want(told == (0, "stopped\n", ""), f"stop: {told}")
    house.service.gone()


def made_in(folder):
    """The library that notes calls, made in a folder."""
    source = pathlib.Path(__file__).with_name("traced.c")
    library = os.path.join(folder, "traced.so")
    subprocess.run(["cc", "-O2", "-shared", "-fPIC", "-o", library, source, "-ldl"], check=True)
    return library


def traced(trial, house, library, live, batches):
    """What the files held before a life, and all calls of it."""
    begin = contents(house.db)
    path = os.path.join(trial.folder, "trace")
    live(house, {**os.environ, "LD_PRELOAD": library, "TRACE": path, "TRACED": house.db}, batches)
    noted = list(read(path))
    end, _ = played(begin, noted, len(noted))
    want(end == contents(house.db), "the calls that were noted are not all")
    want(end[0] != begin[0] and len(end[1]) < 56, f"a stop leaves a log of {len(end[1])} bytes")
    return begin, noted


def contents(db):
    """What each file holds; None of one that is not there."""
    return [pathlib.Path(db + end).read_bytes() if os.path.exists(db + end) else None
            for end in ENDS]


def read(path):
    """The calls of a trace."""
    text, at = pathlib.Path(path).read_bytes(), 0
    while at < len(text):
        kind, file, place, length = HEAD.unpack_from(text, at)
        at += HEAD.size
        yield Call(kind, file, place, text[at:at + length])
        at += length


def written(old, place, text):
    whole = bytearray(old or b"")
    whole.extend(bytes(max(0, place + len(text) - len(whole))))
    whole[place:place + len(text)] = text
    return bytes(whole)


def cut(old, length):
    return (old or b"")[:length] + bytes(max(0, length - len(old or b"")))


def changed(files, call):
    """The files after a call."""
    if call.kind == WRITTEN and call.file < FOLDER:
        files[call.file] = written(files[call.file], call.place, call.text)
    elif call.kind == CUT:
        files[call.file] = cut(files[call.file], call.place)
    elif call.kind == RENAMED:
        files[call.place], files[call.file] = files[call.file], None
    elif call.kind == REMOVED:
        files[call.file] = None


def played(begin, noted, place):
    """The files after the first calls, and the latest clock in a reply before the last of these."""
    files, answered = list(begin), 0
    for call in noted[:place]:
        changed(files, call)
        if call.kind == SENT:
            answered = max([answered, *map(int, CLOCK.findall(call.text))])
    return files, answered


def without_power(trial, begin, noted, place, kept):
    """The same where the power is lost. The disk has nothing of a call since the last sync of its file, or
    all of it, or a part of a write. A name changes with the folder's sync at the latest."""
    last = {file: max((at for at in range(place) if noted[at].kind == SYNCED
                       and noted[at].file == file), default=-1) for file in range(FOLDER + 1)}
    files = list(begin)
    for at, call in enumerate(noted[:place]):
        named = call.kind in (RENAMED, REMOVED)
        is_whole = kept[0 if call.file in MARKS else 1]
        if at < last[FOLDER if named else call.file] or call.kind == SENT or is_whole:
            changed(files, call)
        elif is_whole is None:
            changed_in_part(trial, files, call)
    return files, played(begin, noted, place)[1]


def changed_in_part(trial, files, call):
    """A call of which the disk has all, a part or nothing."""
    if call.kind == WRITTEN and trial.random.random() < 0.4:
        first = trial.random.randrange(len(call.text) + 1)
        end = trial.random.randrange(first, len(call.text) + 1)
        changed(files, Call(WRITTEN, call.file, call.place + first, call.text[first:end]))
    elif trial.random.random() < 0.5:
        changed(files, call)


def noticed_if_early(trial, house, begin, noted):
    """The trial itself is tried: each mark is moved to before the sync of its commit, and the power is
    lost between. How many marks that were, at each of which a ledger is refused."""
    early = list(noted)
    moved = [at for at, call in enumerate(noted) if (call.kind, call.file) == (WRITTEN, MARKS[0])]
    places = []
    for at in moved:
        sync = max((it for it in range(at) if (early[it].kind, early[it].file) == (SYNCED, 1)), default=0)
        if sync and (early[sync - 1].kind, early[sync - 1].file) == (WRITTEN, 1):
            early.insert(sync, early.pop(at))
            places.append(sync + 1)
    for place in places:
        try:
            judge(trial, house, (begin, early, place), "the marks alone kept")
        except Surprise:
            continue
        want(False, f"a mark before its sync is not noticed, behind call {place}")
    return len(places)


def judge(trial, house, crash, kind):
    """The ledger is whole, and has all that was answered. It has, once the same is asked again."""
    files, answered = without_power(trial, *crash, CRASHES[kind])
    folder = trial.inner()
    db, where = os.path.join(folder, "ledger.db"), f"behind call {crash[2]}, {kind}"
    for end, text in zip(ENDS, files):
        if text is not None:
            pathlib.Path(db + end).write_bytes(text)
    for _ in range(2):
        status, out, err = run_whole(house.program, "check", "--db", db)
        want((status, out) == (0, "ok\n"), f"{where}: {status} {out} {err}")
        newest = int(CONTENTS.fullmatch(err)[4])
        want(newest >= answered, f"{where}: answered {answered}, there is {newest}")
    if trial.random.random() < 0.1:
        served_once(house.program, db)
    shutil.rmtree(folder)
