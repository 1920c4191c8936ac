"""One tenant that takes what it can, and what its neighbour feels of it.

    python3 faults/neighbours.py LEDGERD [SECONDS]

The one sends batches of 1,000 transfers by 1, 20 and 200 connections, each its next one once it has
the reply; the other sends single transfers by one connection. With `LEDGERD` it prints what both
got, for as many seconds each."""

import argparse
import json
import multiprocessing
import random
import selectors
import socket
import statistics
import tempfile
import time
from types import SimpleNamespace

from connection import Connection
from runs import House
from service import want

# So many connections of the one tenant, and how many transfers a batch of it has.
CONNECTIONS, BATCH = (1, 20, 200), 1000
# By how many batches of the one its neighbour's median may be longest: one that is being answered,
# and its own commit.
BATCHES = 1.5
HEAD = "POST /{} HTTP/1.1\r\nx-ledger-key: {}\r\ncontent-length: {}\r\n\r\n"


def message(route, key, events):
    body = json.dumps(events, separators=(",", ":"))
    return (HEAD.format(route, key, len(body)) + body).encode()


def transfer(number):
    return {"id": number, "debit_account_id": "1", "credit_account_id": "2", "amount": "1",
            "ledger": 7, "code": 1}


def accounts(key):
    return message("accounts", key, [{"id": str(each), "ledger": 7, "code": 1} for each in (1, 2)])


def ask(connection, sent):
    """The seconds until the reply to a message."""
    begun = time.monotonic()
    connection.send(sent)
    status, _, _ = connection.reply()
    want(status.startswith("200"), f"{status} for a good message")
    return time.monotonic() - begun


class Busy:
    """A connection that sends a batch, reads the reply, and sends the next one."""

    def __init__(self, port, template, numbers):
        self.template, self.numbers = template, numbers
        self.socket = socket.create_connection(("127.0.0.1", port))
        self.socket.setblocking(False)
        self.begin()

    def begin(self):
        self.left = memoryview(self.template.replace(b"@" * 9, b"%09d" % next(self.numbers)))
        self.read = bytearray()

    def goes_on(self, events):
        """Sends and reads what it can; whether a reply is whole."""
        if events & selectors.EVENT_WRITE and self.left:
            self.left = self.left[self.socket.send(self.left):]
        if not events & selectors.EVENT_READ:
            return False
        self.read += self.socket.recv(1 << 16)
        head = self.read.find(b"\r\n\r\n")
        if head < 0:
            return False
        want(self.read.startswith(b"HTTP/1.1 200 "), f"{bytes(self.read)} for a good batch")
        length = int(self.read.split(b"content-length: ", 1)[1].split(b"\r\n", 1)[0])
        return len(self.read) >= head + 4 + length


def take_all(port, key, connections, first, counted, ends):
    """Sends batches by that many connections until it is ended, and counts the replies."""
    numbers = iter(range(first, 10**9))
    template = message("transfers", key, [transfer("@" * 9 + f"{each:03d}") for each in range(BATCH)])
    with selectors.DefaultSelector() as ready:
        both = selectors.EVENT_READ | selectors.EVENT_WRITE
        for _ in range(connections):
            busy = Busy(port, template, numbers)
            ready.register(busy.socket, both, busy)
        while not ends.is_set():
            for chosen, events in ready.select(0.1):
                busy = chosen.data
                if busy.goes_on(events):
                    counted.value += 1
                    busy.begin()
                ready.modify(busy.socket, both if busy.left else selectors.EVENT_READ, busy)


def beside(house, connections, seconds, first):
    """The waits of single transfers beside a tenant with so many connections, and how many seconds
    each batch of that one took."""
    port, context = house.service.port, multiprocessing.get_context("spawn")
    ends, counted = context.Event(), context.Value("q", 0)
    taker = context.Process(target=take_all, args=(port, house.desks[0].key, connections, first,
                                                   counted, ends))
    taker.start()
    try:
        while not counted.value:
            time.sleep(0.05)
        own, waits = Connection(port), []
        begun, before = time.monotonic(), counted.value
        while time.monotonic() - begun < seconds or not waits:
            number = str(first * BATCH + len(waits) + 1)
            waits.append(ask(own, message("transfers", house.desks[1].key, [transfer(number)])))
        took = (time.monotonic() - begun) / max(counted.value - before, 1)
        own.close()
        return waits, took
    finally:
        ends.set()
        taker.join()


def measured(house, seconds):
    """A line for each number of connections, and whether each wait was short enough."""
    for place in (0, 1):
        own = Connection(house.service.port)
        ask(own, accounts(house.desks[place].key))
        own.close()
    for turn, connections in enumerate(CONNECTIONS):
        waits, took = beside(house, connections, seconds, 10**8 * (turn + 1))
        median = statistics.median(waits)
        yield median <= BATCHES * took, (
            f"beside {connections} connections a transfer took {median:.3f} s in the median and "
            f"{max(waits):.3f} s at most ({len(waits)} of them), a batch {took:.3f} s: "
            f"{median / took:.2f} batches")


def neighbours(trial):
    """A tenant's single transfers beside another one that takes all it can."""
    house = House(trial.fresh(), 2)
    house.start()
    told = list(measured(house, 60 if trial.is_long else 10))
    for is_short, line in told:
        want(is_short, line)
    house.service.kill()
    return "; ".join(line for _, line in told)


def main():
    words = argparse.ArgumentParser(description=__doc__,
                                    formatter_class=argparse.RawDescriptionHelpFormatter)
    words.add_argument("ledgerd")
    words.add_argument("seconds", nargs="?", type=float, default=20)
    given = words.parse_args()
    with tempfile.TemporaryDirectory() as folder:
        import random
        trial = SimpleNamespace(program=given.ledgerd, random=random.Random(7), folder=folder)
        house = House(trial, 2)
        house.start()
        try:
            for is_short, line in measured(house, given.seconds):
                print(line if is_short else f"{line}: TOO LONG", flush=True)
        finally:
            house.service.kill()


if __name__ == "__main__":
    main()
