"""Each limit of the service for its clients, met once, beside a client that is served all the
while."""

import json
import resource
import socket
import threading
import time

from connection import Connection, Lost
from drawn import moves
from runs import House
from service import body_of, message, want

# So many clients are served at once.
MOST_CLIENTS = 1000
# The seconds that a message has, and a quiet client; what a busy machine adds is not the service's.
MESSAGE, IDLE, ADDED = 10, 75, 20
# And so many more for which nothing is read: the first is enough, but on a busy machine.
PAUSES = (6, ADDED, 3 * ADDED)
# A service with other limits: room for two bodies of 2 MB, and fewer seconds.
FEW = {"--room": "5", "--clients": "8", "--message": "6", "--idle": "5"}
# What is told of a shortage, and when it is over.
SHORT = "no more clients for now: descriptors or memory are wanting"
TAKEN = "clients are taken again"


def limits(trial):
    """Clients that are slow, silent, too many, or do not read."""
    soft, hard = resource.getrlimit(resource.RLIMIT_NOFILE)
    resource.setrlimit(resource.RLIMIT_NOFILE, (min(hard, 4096), hard))
    others = House(trial.fresh(), 1, [word for option in FEW.items() for word in option])
    others.begin()
    house = House(trial.fresh(), 3)
    house.begin()
    fill(house)
    waits = [slow_message, unread_replies, unread_statements, *([idle] if trial.is_long else [])]
    told = [Limit(wait, house) for wait in waits]
    set_by_options, beside = Limit(other_limits, others), Beside(house)
    for each in (*told, set_by_options, beside):
        each.start()
    for each in (*told, set_by_options):
        each.join()
    worst = beside.end()
    for each in (*told, set_by_options, beside):
        if each.surprise:
            raise each.surprise
    too_many(house)
    few_descriptors(house)
    house.compare()
    house.stop()
    resource.setrlimit(resource.RLIMIT_NOFILE, (soft, hard))
    seconds = ", ".join(f"{each.wait.__name__} {each.took:.1f} s" for each in told)
    return f"each limit held ({seconds}); a client beside them waited for {worst:.2f} s at most"


class Limit(threading.Thread):
    """A limit that is met in a thread of its own."""

    def __init__(self, wait, house):
        super().__init__(daemon=True)
        self.wait, self.house, self.took, self.surprise = wait, house, 0.0, None

    def run(self):
        start = time.monotonic()
        try:
            self.wait(self.house)
        except Exception as surprise:
            self.surprise = surprise
        self.took = time.monotonic() - start


class Beside(Limit):
    """A tenant that asks again and again on one connection, and is answered each time."""

    def __init__(self, house):
        super().__init__(self.ask, house)
        self.is_over, self.worst = threading.Event(), 0.0

    def ask(self, house):
        desk = house.take_turn(2)
        while not self.is_over.is_set():
            start = time.monotonic()
            want(desk.batch([]), "unavailable, beside others")
            self.worst = max(self.worst, time.monotonic() - start)
            time.sleep(0.02)

    def end(self):
        """The seconds of the longest wait."""
        self.is_over.set()
        self.join()
        return self.worst


def ends(connection, least, most):
    """The connection ends, with no byte more, within these seconds from now."""
    start = time.monotonic()
    connection.socket.settimeout(most + ADDED)
    want(connection.is_over(), "a byte, where the connection should end")
    took = time.monotonic() - start
    want(least <= took <= most + ADDED, f"ended after {took:.1f} s, not {least} to {most}")


def fill(house):
    """Transfers of the second tenant, so that a page of its history is long."""
    desk = house.take_turn(1)
    for first in range(10**9, 10**9 + 1000, 500):
        want(desk.batch(moves(first, 500)), "unavailable, with all at hand")


def slow_message(house):
    """A byte a second of a message: ended 10 seconds behind its first byte, and not answered."""
    connection = Connection(house.service.port)
    start = time.monotonic()
    drip(connection, message("POST", "/transfers", house.desks[0].key, b"[]"))
    took = time.monotonic() - start
    want(MESSAGE - 1 <= took <= MESSAGE + ADDED, f"a slow message ended after {took:.1f} s")


def drip(connection, sent):
    """Sends a byte a second, until the connection has ended."""
    connection.socket.settimeout(1)
    for place in range(len(sent)):
        try:
            connection.send(sent[place:place + 1])
            if not connection.socket.recv(1):
                return
        except socket.timeout:
            continue
        except (OSError, Lost):
            return


def unread_replies(house):
    """Who reads none of forty of the longest pages."""
    unread(house, page_asked(house.desks[1].key), 40, 200_000)


def unread_statements(house):
    """Who reads none of two hundred statements, each of a thousand entries."""
    unread(house, message("GET", "/statement/1", house.desks[1].key), 200, 40_000)


def unread(house, asked, many, least):
    """A client that reads none of its replies, each of so many bytes at least, is let go. On a busy
    machine that takes longer, since what the service takes itself counts for nobody."""
    want(any(is_let_go(Connection(house.service.port, room=1 << 16), asked * many, MESSAGE + pause,
                       many * least) for pause in PAUSES), "a client that reads nothing is kept")


def page_asked(key):
    """A message that asks for the longest page of the first account's history."""
    page = json.dumps({"account_id": "1", "limit": 1000, "flags": 3}).encode()
    return message("POST", "/history/transfers", key, page)


def is_let_go(connection, asked, pause, most):
    """Many pages are asked for at once, and read behind a pause: not as many bytes as all have."""
    connection.send(asked)
    time.sleep(pause)
    connection.socket.settimeout(5)
    read = 0
    try:
        while piece := connection.socket.recv(1 << 16):
            read += len(piece)
    except socket.timeout:
        return False
    except OSError:
        pass
    return read < most


def other_limits(house):
    """The limits that options set, met in a service of its own."""
    many_bodies(house)
    few_clients(house)
    house.compare()
    house.stop()


def many_bodies(house):
    """Of four begun bodies two have room. A large batch waits behind the other two, though there
    is room for it, until the first have had their time; the others' begins then."""
    key, seconds = house.desks[0].key, int(FEW["--message"])
    begun = message("POST", "/transfers", key, b" " * 2_000_000)[:60_000]
    held = [Connection(house.service.port) for _ in range(4)]
    for each in held:
        each.send(begun)
        time.sleep(0.2)
    moved = moves(2 * 10**9, 1000, user_data_128=10**38)
    want(len(body_of(moved)) > 1 << 16, "a small batch")
    start = time.monotonic()
    want(house.take_turn(0).batch(moved), "unavailable, beside bodies that have begun")
    took = time.monotonic() - start
    want(seconds - 2 <= took <= seconds + ADDED, f"a large batch waited for {took:.1f} s")
    for each in held[:2]:
        ends(each, 0, 1)
    for each in held[2:]:
        ends(each, max(0, seconds - ADDED), seconds)
    for each in held:
        each.close()


def few_clients(house):
    """As many clients as the option says; a quiet one goes for one more, or has had its time."""
    most, seconds = int(FEW["--clients"]), int(FEW["--idle"])
    held = [Connection(house.service.port) for _ in range(most)]
    time.sleep(0.5)
    more = Connection(house.service.port)
    more.send(message("POST", "/x", house.desks[0].key))
    want(more.reply()[0] == "404 Not Found", "no reply to one client more")
    ends(held[0], 0, 1)
    ends(more, 0, seconds)
    for each in (*held, more):
        each.close()


def idle(house, seconds=IDLE):
    """A client that says nothing more is let go after 75 seconds, or as many as an option says."""
    connection = Connection(house.service.port)
    connection.send(message("POST", "/transfers", house.desks[0].key, b"[]"))
    connection.reply()
    ends(connection, seconds - 1, seconds)


def too_many(house):
    """As many clients as are served at once, and ten more: those that were idle for longest go."""
    held = [Connection(house.service.port) for _ in range(MOST_CLIENTS)]
    time.sleep(1)
    want(house.take_turn(0).batch([]), "unavailable, beside a thousand")
    more = [Connection(house.service.port) for _ in range(10)]
    for each in more:
        each.send(message("POST", "/x", house.desks[0].key))
        want(each.reply()[0] == "404 Not Found", "no reply to one client more")
    ends(held[0], 0, 1)
    held[-1].send(message("POST", "/x", house.desks[0].key))
    want(held[-1].reply()[0] == "404 Not Found", "the last of the thousand is not served")
    for each in (*held, *more):
        each.close()


def few_descriptors(house):
    """With no descriptor left the service goes on with whom it has, and takes others later."""
    desk = house.take_turn(0)
    want(desk.batch([]), "unavailable, with all at hand")
    house.service.limit_connections(24)
    held = [Connection(house.service.port) for _ in range(40)]
    for _ in range(5):
        want(desk.batch([]), "unavailable, with no descriptor left")
        time.sleep(0.1)
    want(house.service.told() == [SHORT], f"standard error: {house.service.told()}")
    house.service.limit_connections(1024)
    for each in held:
        each.send(message("POST", "/x", desk.key))
    for each in held:
        want(each.reply()[0] == "404 Not Found", "not served, with descriptors again")
        each.close()
    house.service.wait_for_lines(3)
    want(house.service.told() == [SHORT, TAKEN], f"standard error: {house.service.told()}")
