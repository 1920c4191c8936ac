"""A service that is told to stop under clients, or is killed while a command runs: what was
answered is there, and what a command was about is done whole or not at all."""

import os
import signal
import subprocess
import threading
import time

from asking import be_there, digest_of, listed, look_at_old_key, take_in, told_by
from control import DISK, KILL, SENT, Control, places
from rounds import TWENTY, Crowd, send_on, start_again
from runs import House
from service import PATIENCE, UNAVAILABLE, body_of, brief, check, message, want

STOPPED, NOT_SERVED = (0, "stopped\n", ""), (1, "", "ledgerd: not_served\n")
# The file may be another's until the last of a process that was killed is gone.
IN_USE = (5, "", "ledgerd: in_use\n")


def stopped(trial):
    """Stops under twenty clients, and kills while each command runs."""
    house, times = Crowd(trial.fresh()), 20 if trial.is_long else 3
    house.begin()
    answered = kept = 0
    for turn in range(times):
        stop_with_messages(house)
        for one, more in stop_under_load(house):
            answered, kept = answered + one, kept + more
        trial.progress(f"stopped {turn + 1} times under twenty clients")
    house.stop()
    beside = kill_beside(trial)
    return (f"{times} times stopped with twenty messages there, and {times} times under twenty "
            f"clients: {answered} answered batches are there, of those that were not answered "
            f"{kept} whole; {beside}")


def look_at_end(house, told):
    """Both have ended with status 0, nothing of the socket is left, and the file is ok."""
    want(told == STOPPED, f"stop: {told}")
    status = house.service.served.wait(PATIENCE)
    want(status == 0 and not house.service.told(), f"stopped: {status}, {house.service.told()}")
    want(not os.path.exists(f"{house.db}.control"), "the socket's file is still there")
    start_again(house)


def stop_with_messages(house):
    """Whole messages that were sent before the stop are answered."""
    house.gather()
    batches, served = house.draw_all(), house.service.served
    house.service.stand_still()
    for desk, events in zip(house.desks, batches):
        desk.asked |= {event["id"] for event in events}
        desk.connection.send(message("POST", "/transfers", desk.key, body_of(events)))
    with begun(house, "stop") as stop:
        time.sleep(0.5)
        served.send_signal(signal.SIGCONT)
        answered = house.hear(batches)
        told = heard(stop)
    want(len(answered) == TWENTY, f"sent before a stop, and only {sorted(answered)} answered")
    look_at_end(house, told)
    house.compare()


def stop_under_load(house):
    """How many batches of each client were answered, and whether the last one was kept, which was
    not."""
    house.gather()
    batches = {}
    threads = [threading.Thread(target=send_on, args=(house, place, batches))
               for place in range(house.many)]
    for thread in threads:
        thread.start()
    time.sleep(house.random.uniform(0.05, 0.5))
    told = told_by(house, "stop")
    for thread in threads:
        thread.join()
    look_at_end(house, told)
    for place, (answered, events, surprise) in batches.items():
        if surprise:
            raise surprise
        yield answered, house.take_turn(place).settle(events)
    house.compare()


def begun(house, *words, env=None):
    """A command that runs."""
    return subprocess.Popen([house.program, *words, "--db", house.db], stdout=subprocess.PIPE,
                            stderr=subprocess.PIPE, env=env)


def heard(command):
    out, errors = command.communicate(timeout=PATIENCE)
    return brief(command.returncode, out.decode(), errors.decode())


def kill_beside(trial):
    """The service is killed at a random moment while each command runs, and before each call of the
    disk and each reply that adding a tenant and changing a key make."""
    house = House(trial.fresh(), 3)
    control = Control(trial.folder)
    house.begin(control.env)
    times, done, stale = 40 if trial.is_long else 6, 0, 0
    for act in (list_one, add_one, change_one, ask_status, ask_stop):
        for turn in range(times):
            was_done, is_stale = act(house, control, kill_soon)
            done, stale = done + was_done, stale + is_stale
            trial.progress(f"killed {turn + 1} times beside {act.__name__}")
    want(stale, "no socket's file was ever left behind")
    at_calls = sum(kill_at_calls(trial, house, control, act) for act in (add_one, change_one))
    house.compare()
    house.stop()
    check(house.program, house.db)
    return (f"killed {5 * times} times beside a command, {done} of them done, and {at_calls} times "
            "before a call of the disk or a reply")


def kill_soon(house, *words):
    """What a command tells beside which the service is killed."""
    with begun(house, *words) as command:
        time.sleep(house.random.uniform(0, 0.03))
        house.service.served.kill()
        return heard(command)


def serve_again(house, control):
    """Whether the socket's file was still there."""
    house.service.served.wait(PATIENCE)
    is_stale = os.path.exists(f"{house.db}.control")
    start_again(house, control)
    be_there(house)
    return is_stale


def judged(told, done, *others):
    """Whether a command was done, which may have been ended by the kill instead."""
    want(told in (done, UNAVAILABLE, IN_USE, *others), f"killed beside it, a command tells {told}")
    return told == done


def list_one(house, control, act):
    before = told_by(house, "tenants")
    was_done = judged(act(house, "tenants"), before)
    is_stale = serve_again(house, control)
    want(told_by(house, "tenants") == before, "killed beside `tenants`, and they are others")
    return was_done, is_stale


def ask_status(house, control, act):
    told = act(house, "status")
    was_done = told[0] == 0 or judged(told, None, NOT_SERVED)
    return was_done, serve_again(house, control)


def ask_stop(house, control, act):
    was_done = judged(act(house, "stop"), STOPPED, NOT_SERVED)
    return was_done, serve_again(house, control)


def add_one(house, control, act):
    """The tenant is there with its key, or not at all."""
    name, key = f"more-{len(house.names)}", house.key()
    before = listed(house)
    told = act(house, "tenant-add", "--name", name, "--key", key)
    was_done = judged(told, (0, f"added {name}\n", ""))
    is_stale = serve_again(house, control)
    after = listed(house)
    there = after.pop(name, None)
    want(after == before, f"killed beside `tenant-add`, and of others there is {after}")
    want(there is None and not was_done or there == (digest_of(key), 0),
         f"{name} is {there}, where {told} was told")
    if there:
        take_in(house, name, key)
    return was_done, is_stale


def change_one(house, control, act):
    """The key is the old one or the new one."""
    # The first tenant's key stays, by which the others are asked whether the service is there.
    place, new = house.random.randrange(1, len(house.names)), house.key()
    name, desk = house.names[place], house.desks[place]
    before = listed(house)
    told = act(house, "tenant-key", "--name", name, "--key", new)
    was_done = judged(told, (0, f"changed {name}\n", ""))
    is_stale = serve_again(house, control)
    after = listed(house)
    keys = [key for key in (desk.key, new)
            if after == {**before, name: (digest_of(key), before[name][1])}]
    want(keys and (not was_done or keys == [new]), f"the key of {name}, where {told} was told")
    look_at_old_key(house, desk.key if keys == [new] else new)
    desk.key = keys[0]
    desk.compare(house.service)
    return was_done, is_stale


class KillAt:
    """Kills the service before a call that a command makes it do, if it makes so many."""

    def __init__(self, control, kind, place):
        self.control, self.call, self.was_killed = control, (kind, place, KILL), False

    def __call__(self, house, *words):
        self.control.refuse(*self.call)
        told = told_by(house, *words)
        self.was_killed = bool(self.control.end(self.call[0]))
        house.service.served.kill()
        return told


def kill_at_calls(trial, house, control, act):
    """Before each call of the disk and each reply. How often it was killed."""
    killed = 0
    for kind in (DISK, SENT):
        for place in places(trial):
            kill = KillAt(control, kind, place)
            was_done, _ = act(house, control, kill)
            if not kill.was_killed:
                want(was_done and place > 0, "not killed, or not done")
                break
            killed += 1
            trial.progress(f"killed {killed} times at {act.__name__}")
    return killed
