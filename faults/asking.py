"""How an operator asks: by commands on a file that is served, and by hand over its socket; and
tenants that write beside it."""

import hashlib
import json
import random
import re
import socket
import subprocess
import threading
import time

from connection import Connection
from drawn import Requests
from refused import REFUSALS
from service import PATIENCE, brief, message, want


class Writer(threading.Thread):
    """A tenant that sends batch upon batch until it is to end, each beside its plain ledger and so
    many seconds behind the one before."""

    def __init__(self, house, place, seed, most=12, pause=0.005):
        super().__init__(daemon=True)
        self.house, self.desk, self.most, self.pause = house, house.desks[place], most, pause
        self.requests = Requests(random.Random(seed), 10**9 * (place + 1))
        self.is_over, self.answered, self.surprise = threading.Event(), 0, None

    def run(self):
        try:
            self.desk.connect(self.house.service)
            while not self.is_over.is_set():
                want(self.desk.batch(self.requests.batch(self.most)),
                     "unavailable, with all at hand")
                self.answered += 1
                time.sleep(self.pause)
        except Exception as surprise:
            self.surprise = surprise


def begin_writers(trial, house, places):
    writers = [Writer(house, place, trial.random.getrandbits(64)) for place in places]
    for writer in writers:
        writer.start()
    return writers


def end_writers(writers):
    """How many of their batches were answered."""
    for writer in writers:
        writer.is_over.set()
        writer.join()
        if writer.surprise:
            raise writer.surprise
        want(writer.answered, "a client that writes was never answered")
    return sum(writer.answered for writer in writers)


def be_there(house):
    """A service that has begun answers: from then on its socket is there too."""
    house.take_turn(0).until_well()
    house.desks[0].leave()


def told_by(house, *words, text=None):
    """What a command on the file tells that reads this text."""
    done = subprocess.run([house.program, *words, "--db", house.db], capture_output=True,
                          input=text, timeout=PATIENCE)
    return brief(done.returncode, done.stdout.decode(), done.stderr.decode())


def digest_of(key):
    return hashlib.sha256(bytes.fromhex(key)).hexdigest()


def listed(house):
    """The digest and the clock of each tenant, by name, as `tenants` lists them."""
    status, text, errors = told_by(house, "tenants")
    want((status, errors) == (0, ""), f"tenants: {status} {errors}")
    head, *lines = text.splitlines()
    rows = [line.split(",") for line in lines]
    want(head == "name,digest,clock" and all(len(row) == 3 for row in rows), f"tenants: {text}")
    names = [row[0] for row in rows]
    want(names == sorted(set(names)), f"tenants by name: {names}")
    return {name: (digest, int(clock)) for name, digest, clock in rows}


def drawn_key(told, word, name):
    """The key that a command has drawn."""
    status, text, errors = told
    found = re.fullmatch(f"{word} {name}\nkey ([0-9a-f]{{64}})\n", text)
    want(found and (status, errors) == (0, ""), f"{word}: {told}")
    return found[1]


def take_in(house, name, key):
    """A tenant that was added is served at once: its accounts are opened."""
    house.take_in(name, key)
    write(house, len(house.desks) - 1, house.requests[-1].accounts(), False)


def write(house, place, events, transfers=True):
    want(house.take_turn(place).batch(events, transfers), "unavailable, with all at hand")


def look_at_old_key(house, key, connection=None):
    """A key that is no longer good is nobody's, on a connection that was there too."""
    for each in (connection, Connection(house.service.port)):
        if each:
            each.send(message("POST", "/accounts/lookup", key, b"[]"))
            told = each.reply()[0]
            want(told == REFUSALS["unknown_key"], f"a key that was changed is told {told}")
            each.close()


def both(house, *commands):
    """What two commands tell that run at once."""
    running = [subprocess.Popen([house.program, *words, "--db", house.db], stdout=subprocess.PIPE,
                                stderr=subprocess.PIPE) for words in commands]
    heard = [command.communicate(timeout=PATIENCE) for command in running]
    return [(command.returncode, out.decode(), err.decode())
            for command, (out, err) in zip(running, heard)]


def call(path, request):
    """The status and body of a reply over the socket, which ends then."""
    with socket.socket(socket.AF_UNIX) as caller:
        caller.settimeout(PATIENCE)
        caller.connect(path)
        caller.sendall(request)
        reply = b"".join(iter(lambda: caller.recv(1 << 16), b""))
    head, _, body = reply.partition(b"\r\n\r\n")
    status, *fields = head.decode("latin-1").split("\r\n")
    want(sorted(fields) == ["connection: close", f"content-length: {len(body)}",
                            "content-type: application/json"] and status.startswith("HTTP/1.1 "),
         f"a reply over the socket: {reply}")
    return status[9:], json.loads(body)


def asked(method, path, body=None):
    """A message as curl sends it. With no body it has no length."""
    lines = [f"{method} {path} HTTP/1.1", "Host: localhost", "User-Agent: curl/8", "Accept: */*"]
    if body is None:
        return "\r\n".join(lines).encode() + b"\r\n\r\n"
    lines += [f"Content-Length: {len(body)}", "Content-Type: application/x-www-form-urlencoded"]
    return "\r\n".join(lines).encode() + b"\r\n\r\n" + body


def named(**fields):
    return json.dumps(fields).encode()
