"""Instances of a ledger: each a file on the volume, served by one of two machines while the other
stands by."""

import http.client
import os

from machines import FRONT, wait_until
from volume import WHERE

READ, WRITE = ("GET", "/health", ""), ("POST", "/transfers", "[]")


class Post:
    """An instance's program on one of its machines."""

    def __init__(self, program, instance, machine, folder):
        self.program, self.instance, self.machine = program, instance, machine
        self.errors = os.path.join(folder, f"{instance.name}-{machine.name}.txt")
        self.process = None
        open(self.errors, "wb").close()

    def begin(self):
        """Serves, or stands by where the other one serves: once it has told which."""
        before = len(self.lines())
        with open(self.errors, "ab") as errors:
            self.process = self.machine.start(
                self.program, "serve", "--db", self.instance.db, "--address",
                self.machine.address(FRONT), "--port", str(self.instance.port), "--standby",
                stderr=errors)
        wait_until(lambda: len(self.lines()) > before,
                   f"{self.instance.name} tells nothing on {self.machine.name}")

    def lines(self):
        """What its programs have told so far."""
        with open(self.errors) as errors:
            return errors.read().splitlines()

    def ask(self, request=READ, key="", patience=2):
        """The status and body of a reply, or None where none comes in time."""
        method, path, body = request
        asked = http.client.HTTPConnection(self.machine.address(FRONT), self.instance.port,
                                           timeout=patience)
        try:
            asked.request(method, path, body or None, {"x-ledger-key": key})
            reply = asked.getresponse()
            return reply.status, reply.read().decode()
        except (OSError, http.client.HTTPException):
            return None
        finally:
            asked.close()

    def is_serving(self):
        told = self.ask()
        return told is not None and told[0] == 200

    def command(self, *words, check=True):
        """What a command on the instance's file tells, given on this machine."""
        return self.machine.run(self.program, *words, "--db", self.instance.db, check=check)

    def kill(self):
        self.process.kill()
        self.process.wait()


class Instance:
    """A file, and the two programs that may serve it: the first serves at the beginning."""

    def __init__(self, program, name, port, machines, folder):
        self.name, self.port, self.db = name, port, f"{WHERE}/{name}.db"
        self.posts = [Post(program, self, machine, folder) for machine in machines]

    def begin(self):
        for post in self.posts:
            post.begin()
            self.active()

    def active(self):
        """Who serves, once somebody does."""
        return wait_until(lambda: next((post for post in self.posts if post.is_serving()), None),
                          f"{self.name} is served by nobody")

    def other(self, post):
        return self.posts[1 - self.posts.index(post)]

    def add(self, name, key):
        """Adds a tenant, on the machine that serves."""
        self.active().command("tenant-add", "--name", name, "--key", key)
