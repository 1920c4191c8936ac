"""What a command is given: words that are no text, and an address to listen on."""

import os
import socket
import subprocess

from runs import House
from service import PATIENCE, Service, free_port, want

KEY = "5" * 64
# Bytes that stand in no text of UTF-8: none of its bytes, a letter that is cut, half of a pair of
# UTF-16, and a number beyond the last letter's.
NO_TEXT = (b"\xff", b"\xc3", b"\xed\xa0\x80", b"\xf4\x90\x80\x80")
# Commands with each of their options; DB stands for the file, NEW for one beside it, and PORT for a
# free port.
COMMANDS = (
    ("serve", "--db", "DB", "--port", "PORT", "--address", "127.0.0.1", "--requests", "0",
     "--standby", "--clients", "9", "--room", "9", "--idle", "9", "--message", "9", "--reply", "9"),
    ("tenant-add", "--db", "DB", "--name", "more", "--key", KEY),
    ("tenant-key", "--db", "DB", "--name", "north-desk", "--key", KEY),
    ("tenants", "--db", "DB"),
    ("copy", "--db", "DB", "--to", "NEW"),
    ("check", "--db", "DB"),
    ("statement", "--db", "DB", "--tenant", "north-desk", "--account", "1", "--reversed", "--from",
     "1970-01-01", "--to", "9999-12-31", "--balances", "--wide", "--format", "json"),
    ("migrate", "--db", "DB", "--to", "3"),
    ("status", "--db", "DB", "--prometheus"),
    ("stop", "--db", "DB"),
    ("lint", "--route", "/transfers"),
    ("--version",),
)
BAD_KEY = (2, b"", b"ledgerd: bad_key\n")
HOME, OTHER = "127.0.0.1", "127.0.0.2"
# Options, and at which of this machine's addresses a service with them is reached.
REACHED = (((), (HOME,)), (("--address", HOME), (HOME,)), (("--address", OTHER), (OTHER,)),
           (("--address", "0.0.0.0"), (HOME, OTHER)))
REACHED_BY_6 = (((), (HOME,)), (("--address", "::1"), ("::1",)),
                (("--address", "::"), (HOME, OTHER, "::1")))


def no_text(trial):
    """Each word of each command, with such bytes behind it and in its place: status 2 and a text on
    standard error, and nothing is done. The words as they are are taken."""
    house, tried = House(trial.fresh(), 1), 0
    stands_for = {"DB": house.db, "NEW": f"{house.db}-new", "PORT": str(free_port())}
    commands = [[stands_for.get(word, word).encode() for word in words] for words in COMMANDS]
    before = contents(trial.folder)
    for words in commands:
        tried += refuse_each(house.program, words)
        trial.progress(f"{tried} words")
    for command in ("tenant-add", "tenant-key"):
        words = (command, "--db", house.db, "--name", "north-desk", "--key", "-")
        for text in (b"\xff" * 64, KEY.encode() + b"\xff"):
            told = given(house.program, words, text)
            want(told == BAD_KEY, f"{command} with the key {text}: {told}")
    want(contents(trial.folder) == before, "something is done that was refused")
    for words in commands:
        told = given(house.program, words)
        want(told[0] in (0, 1), f"{words}: {told}")
    return f"{tried} words that are no text, each refused with status 2, and nothing done"


def refuse_each(program, words):
    """How many words of a command are refused, each beside the others as they are."""
    tried = 0
    for place, word in enumerate(words):
        for text in (*(word + each for each in NO_TEXT), NO_TEXT[0]):
            told = given(program, [*words[:place], text, *words[place + 1:]])
            want(told[:2] == (2, b"") and told[2].decode().strip(), f"{words}, {text}: {told}")
            tried += 1
    return tried


def given(program, words, text=b""):
    """The status, standard output and standard error of a command that reads this text."""
    done = subprocess.run([program, *words], input=text, capture_output=True, timeout=PATIENCE)
    return done.returncode, done.stdout, done.stderr


def contents(folder):
    """What each file of a folder has."""
    files = {}
    for name in os.listdir(folder):
        with open(os.path.join(folder, name), "rb") as file:
            files[name] = file.read()
    return files


class Elsewhere(Service):
    """A service that listens where its options say."""

    def look_at_beginning(self, db):
        want(self.lines()[0].startswith(f"serving {db} on "), f"serve tells {self.lines()}")


def addresses(trial):
    """A service is reached at the addresses that it is told, and at no other of this machine's."""
    house, tried = House(trial.fresh(), 1), 0
    has_6 = has_address("::1")
    here = (HOME, OTHER, *["::1"] * has_6)
    for options, reached in (*REACHED, *REACHED_BY_6 * has_6):
        house.service = Elsewhere(house.program, house.db, None, options)
        for address in here:
            told = is_reached(address, house.service.port)
            want(told == (address in reached), f"serve {options}, at {address}: {told}")
            tried += 1
        house.stop()
    return f"{tried} times asked at an address{'' if has_6 else ', of IPv4 alone'}"


def has_address(address):
    """Whether it is one of this machine's."""
    try:
        with socket.socket(family(address)) as probe:
            probe.bind((address, 0))
    except OSError:
        return False
    return True


def family(address):
    return socket.AF_INET6 if ":" in address else socket.AF_INET


def is_reached(address, port):
    """Whether a connection is taken there; then it is answered."""
    with socket.socket(family(address)) as client:
        client.settimeout(PATIENCE)
        try:
            client.connect((address, port))
        except ConnectionRefusedError:
            return False
        client.sendall(b"GET /health HTTP/1.1\r\n\r\n")
        told = client.recv(1 << 16)
    want(told.startswith(b"HTTP/1.1 200 OK\r\n"), f"/health at {address}: {told}")
    return True
