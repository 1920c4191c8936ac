"""Two processes on one file: one serves it, the other stands by and takes over."""

import os
import random
import threading
import time

from asking import told_by
from connection import Connection, Lost
from control import ALL, DISK, Control
from drawn import Requests
from indexed import Indexed
from routes import look_at_routes
from runs import House
from service import PATIENCE, Service, check, message, want
from stops import STOPPED

CLIENTS = 6
SERVING = ("200 OK", "application/json", b'{"serving":true}')


class Standby(Service):
    """A service that stands by for a file."""

    def look_at_beginning(self, db):
        self.db = db
        want(self.lines() == [f"standing by for {db}"], f"who stands by tells {self.lines()}")

    def take_over(self):
        """Until it serves."""
        self.wait_for_lines(2)
        want(self.lines()[1].startswith(f"serving {self.db} on 127.0.0.1:{self.port}"),
             f"who takes over tells {self.lines()}")

    def told(self):
        return self.lines()[2:]


class Mover(threading.Thread):
    """A tenant that sends each batch until it is answered, to whoever serves."""

    def __init__(self, pair, desk, place, seed):
        super().__init__(daemon=True)
        self.pair, self.desk = pair, desk
        self.requests = Requests(random.Random(seed), 10**9 * place)
        self.is_over, self.answered, self.moves, self.kept = threading.Event(), 0, 0, 0
        self.surprise = None

    def run(self):
        try:
            self.find()
            while not self.is_over.is_set():
                self.send(self.requests.marked(4))
                self.answered += 1
                time.sleep(0.005)
        except Exception as surprise:
            self.surprise = surprise

    def send(self, events):
        """Where no reply came the ledger's clock tells whether it was kept. It is sent again all
        the same, and is no more than a retry then."""
        is_lost, end = False, time.monotonic() + PATIENCE
        while time.monotonic() < end:
            try:
                if is_lost:
                    self.find()
                    self.kept += self.desk.settle(events)
                want(self.desk.batch(events), "unavailable, with all at hand")
                return
            except Lost:
                self.moves += not is_lost
                is_lost = True
        want(False, "not answered for minutes")

    def find(self):
        """Connects to the first that accepts: who serves, or else who stands by."""
        end = time.monotonic() + PATIENCE
        while time.monotonic() < end:
            for service in self.pair.services:
                try:
                    return self.desk.connect(service)
                except OSError:
                    time.sleep(0.01)
        want(False, "nobody accepts")


class Pair:
    """Who serves the file of a house, and who stands by."""

    def __init__(self, house):
        self.house, self.longest = house, 0.0
        self.services = [house.service, self.begin()]

    def begin(self):
        return Standby(self.house.program, self.house.db, None, ("--standby",))

    def hand_over(self, is_stopped):
        """The one that serves ends, and the other takes over."""
        active, other = self.services
        kept = [Connection(other.port) for _ in range(2)]
        self.look_at_standby(kept[0])
        begun = time.monotonic()
        if is_stopped:
            told = told_by(self.house, "stop")
            want(told == STOPPED, f"stop, beside one that stands by: {told}")
            want(active.served.wait(PATIENCE) == 0, f"stopped: {active.served.returncode}")
        else:
            active.served.kill()
        want(not active.told(), f"standard error: {active.told()}")
        active.gone()
        other.take_over()
        self.longest = max(self.longest, time.monotonic() - begun)
        self.house.service = other
        for connection in kept:
            self.look_at_health(connection, SERVING)
            connection.close()
        told = told_by(self.house, "status")
        want(told[0] == 0, f"status of who has taken over: {told}")
        self.services = [other, self.begin()]

    def look_at_standby(self, connection):
        """Until it has the file it tells nothing else, and lets its clients stay."""
        key = self.house.desks[-1].key
        want(self.services[1].served.poll() is None, "who stands by has ended")
        for told_key in (key, "5" * 64):
            look_at_routes(connection, told_key)
        want(not self.services[1].lines()[1:], f"who stands by tells {self.services[1].lines()}")

    @staticmethod
    def look_at_health(connection, expected):
        connection.send(message("GET", "/health", ""))
        told = connection.reply()
        want(told == expected, f"/health: {told}")


def desk_of(house, before=None):
    """The number of the socket's file, once there is one and another than before."""
    end = time.monotonic() + PATIENCE
    while time.monotonic() < end:
        try:
            number = os.stat(f"{house.db}.control").st_ino
        except FileNotFoundError:
            number = before
        if number != before:
            return number
        time.sleep(0.01)
    return want(False, "nobody listens for an operator")


def had_again(trial):
    """A service whose disk fails loses its file to one that stands by. Once that has ended it has the
    file again, and its operator asks it as before."""
    house, control = House(trial.fresh(), 1), Control(trial.folder)
    house.begin(control.env)
    first, desk = house.service, desk_of(house)
    other = Standby(house.program, house.db, None, ("--standby",))
    control.refuse(DISK, 0, ALL)
    want(not house.take_turn(0).batch(house.requests[0].batch()), "answered, with nothing written")
    other.take_over()
    desk_of(house, desk)
    control.end(DISK)
    want(told_by(house, "stop") == STOPPED, "stop of who has taken over")
    want(other.served.wait(PATIENCE) == 0, f"stopped: {other.served.returncode}")
    first.wait_for_lines(3)
    want(first.lines()[2] == house.well(), f"who has it again tells {first.lines()}")
    desk_of(house)
    told = told_by(house, "status")
    want(told[0] == 0 and "reopenings 1\n" in told[1], f"status of who has it again: {told}")
    want(told_by(house, "stop") == STOPPED, "stop of who has it again")
    want(first.served.wait(PATIENCE) == 0, f"stopped: {first.served.returncode}")
    check(house.program, house.db)


def standby(trial):
    """The file is handed over again and again under load, by a stop and by `kill -9`."""
    had_again(trial)
    times = 100 if trial.is_long else 10
    house = House(trial.fresh(), CLIENTS + 1)
    for each in house.desks:
        each.ledger = Indexed()
    house.begin()
    pair = Pair(house)
    movers = [Mover(pair, desk, place, trial.random.getrandbits(64))
              for place, desk in enumerate(house.desks[:CLIENTS], 1)]
    for mover in movers:
        mover.start()
    for turn in range(times):
        time.sleep(trial.random.uniform(0.1, 0.6))
        pair.hand_over(is_stopped=turn % 2 == 0)
        surprises = [mover.surprise for mover in movers if mover.surprise]
        if surprises:
            raise surprises[0]
        trial.progress(f"handed over {turn + 1} times")
    for mover in movers:
        mover.is_over.set()
        mover.join()
        if mover.surprise:
            raise mover.surprise
    house.compare()
    pair.services[1].gone()
    house.stop()
    check(house.program, house.db)
    answered, moves, kept = (sum(getattr(mover, name) for mover in movers)
                             for name in ("answered", "moves", "kept"))
    want(moves >= times, f"clients have moved {moves} times")
    return (f"{times} times handed over under {CLIENTS} clients, in {pair.longest:.1f} s at most: "
            f"{answered} batches answered, {moves} of them sent again, of which {kept} were kept")
