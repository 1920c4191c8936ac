"""Twenty tenants behind the proxy, each beside a plain ledger of its own: each sends a batch until
it is answered, and only then the next one."""

import random
import re
import secrets
import sys
import threading
import time

from machines import PATIENCE

sys.path.insert(0, __file__.rsplit("/", 3)[0] + "/faults")

from connection import Connection, Lost, want
from drawn import Requests
from fleet import PROXY
from indexed import Indexed
from service import Desk

TWENTY, PAUSE = 20, 0.15
# What a proxy answers itself where a machine has gone under a request: it may have been done.
BY_THE_PROXY = ("502", "504")


class Through(Connection):
    """A connection to the proxy, whose replies are noted. A proxy may write the sizes of chunks
    anew, in capital letters."""

    SIZE = re.compile(rb"(0|[1-9a-fA-F][0-9a-fA-F]*)\r\n")

    def __init__(self, told):
        super().__init__(PROXY)
        self.told = told

    def reply(self):
        """The next reply. Where the proxy says that a machine has gone, it is lost."""
        try:
            reply = super().reply()
        except Lost:
            self.told.append((time.monotonic(), "connection ended"))
            raise
        self.told.append((time.monotonic(), reply[0][:3]))
        if reply[0][:3] in BY_THE_PROXY:
            raise Lost(reply[0])
        return reply


class Client(Desk):
    """A tenant, and what it is told: when, and how its batches were answered."""

    def __init__(self, fleet, place):
        super().__init__(secrets.token_hex(32))
        self.ledger, self.told = Indexed(), []
        self.requests = Requests(random.Random(secrets.randbits(64)), 10**9 * (place + 1))
        self.instance = fleet.add(f"client-{place}", self.key)
        self.is_over, self.surprise, self.thread = threading.Event(), None, None

    def connect(self, _service=None):
        self.leave()
        self.connection = Through(self.told)

    def until_well(self):
        """Asks until it is answered."""
        end = time.monotonic() + PATIENCE
        while (told := self.ask("POST", "/accounts/lookup", b"[]")) is None:
            want(time.monotonic() < end, "unavailable for minutes")
            time.sleep(0.1)
        return told

    def send(self, events, transfers=True):
        """Sends a batch until it is answered. Behind any other answer the ledger's clock tells
        whether it was kept: by the second look all is done that a machine had been sent before."""
        is_lost, is_unsure, end = self.connection is None, False, time.monotonic() + PATIENCE
        while time.monotonic() < end:
            try:
                if is_lost:
                    self.connect()
                if is_unsure:
                    self.until_well()
                    self.settle(events, transfers)
                if self.batch(events, transfers):
                    return
                is_lost, is_unsure = False, True
            except Lost:
                is_lost = is_unsure = True
                time.sleep(0.05)
        want(False, f"{self.instance.name}: not answered for minutes")

    def begin(self):
        self.is_over.clear()
        self.thread = threading.Thread(target=self.run, daemon=True)
        self.thread.start()

    def run(self):
        try:
            if not self.ledger.accounts:
                self.send(self.requests.accounts(), False)
            while not self.is_over.is_set():
                self.send(self.requests.batch(4))
                time.sleep(PAUSE)
        except Exception as surprise:
            self.surprise = surprise

    def end(self):
        self.is_over.set()
        self.thread.join()
        if self.surprise:
            raise self.surprise


class Load:
    """All clients, for a while. Behind it all that they see is what their plain ledgers say."""

    def __init__(self, clients):
        self.clients, self.begun = clients, time.monotonic()

    def __enter__(self):
        for client in self.clients:
            client.begin()
        time.sleep(2)
        return self

    def __exit__(self, kind, *_):
        if kind is None:
            time.sleep(2)
        for client in self.clients:
            client.is_over.set()
        if kind is None:
            for client in self.clients:
                client.end()
                client.compare(None)

    def well(self, instance):
        """When batches or questions of an instance were answered."""
        return sorted(moment for client in self.clients if client.instance is instance
                      for moment, what in client.told if what == "200" and moment >= self.begun)

    def longest(self, instance):
        """The longest time in which nobody was answered."""
        moments = self.well(instance)
        return max(later - earlier for earlier, later in zip(moments, moments[1:]))

    def refused(self, instance):
        """When somebody was first told something else."""
        return min(moment for client in self.clients if client.instance is instance
                   for moment, what in client.told if what != "200" and moment >= self.begun)

    def told(self):
        """How often each thing was told, of what was not an answer."""
        counts = {}
        for client in self.clients:
            for moment, what in client.told:
                if moment >= self.begun:
                    counts[what] = counts.get(what, 0) + 1
        return counts

    def tell(self, name, instances):
        """A line of what has happened."""
        gaps = ", ".join(f"{each.name} {self.longest(each):.1f} s" for each in instances)
        others = ", ".join(f"{what} {many} times" for what, many in sorted(self.told().items()))
        return f"{name}: nobody answered for {gaps} at most; told {others}"
