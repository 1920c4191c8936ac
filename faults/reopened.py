"""An opening again that takes long, under two hundred clients in the middle of their messages."""

import json
import time

from connection import Connection
from drawn import moves
from runs import House
from service import body_of, check, lookup, message, want

MANY = 200
# Behind this time the second half of each message is sent: a message has ten seconds.
PAUSE = 12


def reopened(trial):
    """The disk fails once, and the file is opened again, for some 20 seconds in a long run."""
    house = House(trial.fresh())
    house.begin()
    fill(trial, house, 400 if trial.is_long else 10)
    clients = [Client(house, place) for place in range(MANY)]
    begun = time.monotonic()
    fail(house)
    if trial.is_long:
        time.sleep(PAUSE)
    for client in clients:
        client.send_rest()
    for client in clients:
        client.hear()
    took = time.monotonic() - begun
    ids = [client.transfer["id"] for client in clients]
    told = house.take_turn(1).ask(*lookup("/transfers/lookup", ids))
    want([int(each["id"]) for each in told["transfers"]] == ids, "a reply, and no transfer")
    house.stop()
    check(house.program, house.db)
    return (f"{MANY} messages half sent when the file was opened again: all answered, in "
            f"{took:.1f} s")


def bulk(house, first):
    """A batch of the first tenant's, of a thousand transfers."""
    return message("POST", "/transfers", house.desks[0].key, body_of(moves(first, 1000)))


def fill(trial, house, batches):
    connection = Connection(house.service.port)
    for batch in range(batches):
        connection.send(bulk(house, 10**9 + 1000 * batch))
        want(connection.reply()[0] == "200 OK", "unavailable, with all at hand")
        trial.progress(f"{batch + 1} of {batches} batches stored")
    connection.close()


def fail(house):
    """A batch that cannot be written."""
    connection = Connection(house.service.port)
    house.service.limit_files(0)
    connection.send(bulk(house, 2 * 10**9))
    want(connection.reply()[2] == b'{"error":"unavailable"}', "answered, with nothing written")
    house.service.limit_files(2**62)
    connection.close()


class Client:
    """A client that has sent half of a message."""

    def __init__(self, house, place):
        self.transfer = moves(3 * 10**9 + place)[0]
        whole = message("POST", "/transfers", house.desks[1].key, body_of([self.transfer]))
        self.rest = whole[len(whole) // 2:]
        self.connection = Connection(house.service.port)
        self.connection.send(whole[:len(whole) // 2])

    def send_rest(self):
        self.connection.send(self.rest)

    def hear(self):
        status, _, body = self.connection.reply()
        want(status == "200 OK" and json.loads(body)["results"][0]["result"] == "ok",
             f"half sent when the file was opened again: {status} {body!r}")
        self.connection.close()
