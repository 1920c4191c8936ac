"""The process stopped and continued in the middle of messages, calls that a signal breaks off, and
a clock that goes back: nothing is lost by it."""

import signal
import threading
import time

from connection import Connection
from control import Control
from drawn import moves
from runs import House
from service import message, want

# The process is stopped for longer than a message may take.
MANY, PAUSE = 20, 11
HOUR = 3600


def paused(trial):
    """Clients that are half through a message, one that is quiet, one that asks all the while."""
    house = House(trial.fresh())
    control = Control(trial.folder)
    house.begin(control.env)
    stopped_long(house)
    broken_off = stopped_often(trial, house)
    turned_back(house, control)
    house.compare()
    house.stop()
    return (f"{MANY} messages half sent while the process stood for {PAUSE} s: all answered; "
            f"stopped and continued {broken_off} times under a client; the clock an hour ahead, "
            "and back")


def stopped_long(house):
    """What was sent by halves is answered, behind a stop that is longer than a message may take."""
    quiet = house.take_turn(1)
    halves = [message("POST", "/x", house.desks[0].key, b" " * 1000) for _ in range(MANY)]
    clients = [Connection(house.service.port) for _ in halves]
    for client, whole in zip(clients, halves):
        client.send(whole[:len(whole) // 2])
    time.sleep(0.5)
    house.service.served.send_signal(signal.SIGSTOP)
    time.sleep(PAUSE)
    house.service.served.send_signal(signal.SIGCONT)
    for client, whole in zip(clients, halves):
        client.send(whole[len(whole) // 2:])
    for client in clients:
        want(client.reply()[0] == "404 Not Found", "half sent before a stop, and not answered")
        client.close()
    want(quiet.batch([]), "unavailable behind a stop")


def stopped_often(trial, house):
    """Stops and goes on again and again, so that waits and calls are broken off."""
    times, over = 400 if trial.is_long else 100, threading.Event()

    def stop_and_go():
        for _ in range(times):
            house.service.served.send_signal(signal.SIGSTOP)
            time.sleep(0.005)
            house.service.served.send_signal(signal.SIGCONT)
            time.sleep(0.02)
        over.set()

    signals = threading.Thread(target=stop_and_go, daemon=True)
    signals.start()
    desk = house.take_turn(0)
    while not over.is_set():
        want(desk.batch(house.requests[0].batch()), "unavailable, for a signal")
    signals.join()
    return times


def turned_back(house, control):
    """The clock goes an hour ahead, and back again, and further: no time of a ledger goes back, and
    no client is let go."""
    desk = house.take_turn(0)
    for place, behind in enumerate((0, -HOUR, 0, HOUR)):
        before = desk.ledger.clock
        control.turn_back(behind)
        want(desk.batch(moves(10**12 + place)), "unavailable, for a clock that goes back")
        ahead = desk.ledger.clock - before > HOUR * 10**9 // 2
        want(ahead == (behind < 0), f"the clock told an hour ahead moves the ledger's: {ahead}")
