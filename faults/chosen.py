"""Runs at chosen moments: steps of several tenants over a file, by the program of `chosen.rt.in`,
which gives them to `run_all`. Each run is a process of its own, and opens the file anew."""

import functools
import hashlib
import os
import subprocess

from connection import Connection
from drawn import Requests
from runs import NAMES
from service import TOP, Desk, body_of, check, look_at, message, want


class Answered(Connection):
    """A reply that is there already, read as strictly as one of a connection."""

    def __init__(self, reply):
        self.read = reply

    def more(self):
        return False

    def close(self):
        pass


class Run:
    """The steps of one run, and for each answer what looks at it."""

    def __init__(self):
        self.lines, self.looks = [], []

    def add(self, line, *looks):
        self.lines.append(line)
        self.looks += looks

    def named(self, step, name, key, told):
        """A step of a name and a key, which is told one of some words."""
        digest = hashlib.sha256(bytes.fromhex(key)).hexdigest()
        self.add(f"{step} {name} {digest}",
                 lambda answer: want(answer == told, f"{step} {name}: {answer}, not {told}"))

    def tenant(self, name, key, told):
        """A new tenant."""
        self.named("tenant", name, key, told)

    def keyed(self, name, key, told):
        """Another key for a tenant."""
        self.named("key", name, key, told)

    def reopen(self):
        self.add("reopen", lambda answer: want(answer == "opened", f"reopened: {answer}"))

    def ask(self, desk, asked, moment, look):
        """A request, and what looks at its reply."""
        text, heard = request(desk, asked, moment, look)
        self.add(f"request {text}", heard)

    def batch(self, desk, events, moment, transfers=True):
        self.ask(desk, *batch_of(desk, events, moment, transfers))

    def round(self, batches):
        """Batches of transfers that are answered together: of each its desk, its events and its
        moment."""
        requests = [request(each[0], *batch_of(*each)) for each in batches]
        texts = " ".join(text for text, _ in requests)
        self.add(f"round {texts}", *[heard for _, heard in requests])

    def play(self, program, db, age):
        """Runs the steps, and looks at the answers in turn."""
        text = "".join(f"{line}\n" for line in self.lines).encode()
        done = subprocess.run([program, db, age], input=text, stdout=subprocess.PIPE, check=True)
        answers = done.stdout.decode().splitlines()
        want(len(answers) == len(self.looks), f"{len(answers)} answers")
        for look, answer in zip(self.looks, answers):
            look(answer)


def request(desk, asked, moment, look):
    """A request as a step has it, and what looks at its answer."""
    method, path, body = asked
    return (f"{moment} {message(method, path, desk.key, body).hex()}",
            lambda answer: look(told_by(desk, asked, answer)))


def batch_of(desk, events, moment, transfers=True):
    """What a batch asks, its moment, and what looks at its reply."""
    desk.asked |= {event["id"] for event in events if transfers}

    def look(told):
        want(told is not None, "unavailable, with all at hand")
        clock = max(desk.ledger.clock, moment) + len(events)
        want(told["clock"] == str(clock), f"{told['clock']}, not {clock}")
        desk.judge(events, transfers, told)

    return ("POST", "/transfers" if transfers else "/accounts", body_of(events)), moment, look


def told_by(desk, asked, answer):
    """What a reply in hexadecimal digits tells."""
    desk.connection = Answered(bytes.fromhex(answer))
    return desk.answer(*asked[:2])


def build():
    """The path of the program."""
    done = subprocess.run([TOP / "faults/build_chosen"], stdout=subprocess.PIPE, check=True)
    return done.stdout.decode().split()[-1]


class Firms:
    """The tenants of a file, and the moment that they have come to."""

    def __init__(self, random):
        self.random, self.moment = random, 10**18
        self.desks = [Desk(self.key()) for _ in NAMES]
        self.requests = [Requests(random, 10**6 * place) for place in range(1, len(NAMES) + 1)]

    def first(self):
        """The run that adds the tenants and opens their accounts."""
        run = Run()
        for name, desk, requests in zip(NAMES, self.desks, self.requests):
            run.tenant(name, desk.key, "added")
            run.batch(desk, requests.accounts(), self.moment, False)
        return run

    def next_moment(self):
        """Now and then a moment that has been, or one at which much comes due."""
        self.moment += self.random.choice((0, 1, 999_999_999, 10**9, self.random.randrange(10**9)))
        return self.random.choice((self.moment, self.moment, self.moment, 0))

    def key(self):
        return f"{self.random.getrandbits(256):064x}"

    def drawn_batch(self):
        """A batch of a tenant, and its moment."""
        place = self.random.randrange(len(self.desks))
        return self.desks[place], self.requests[place].batch(), self.next_moment()

    def turn(self, run):
        """Now and then something that is no request."""
        place, draw = self.random.randrange(len(self.desks)), self.random.random()
        desk, other = self.desks[place], self.desks[place - 1]
        if draw < 0.02:
            run.reopen()
        elif draw < 0.03:
            run.tenant(NAMES[place], self.key(), "name_taken")
        elif draw < 0.04:
            run.tenant("another-name", desk.key, "digest_taken")
        elif draw < 0.05:
            desk.key = self.key()
            run.keyed(NAMES[place], desk.key, "changed")
        elif draw < 0.06:
            run.keyed(NAMES[place], other.key, "digest_taken")
        elif draw < 0.07:
            run.keyed("another-name", self.key(), "no_tenant")

    def next(self, turns):
        """A run of random steps."""
        run = Run()
        for _ in range(turns):
            self.turn(run)
            if self.random.random() < 0.2:
                run.round([self.drawn_batch() for _ in range(self.random.randint(1, 5))])
            else:
                run.batch(*self.drawn_batch())
        return run

    def seen(self):
        """A run that asks for all that the tenants can see."""
        run = Run()
        for desk in self.desks:
            for asked, reply in desk.expected():
                run.ask(desk, asked, 0, functools.partial(look_at, asked, reply=reply))
        return run


def chosen(trial):
    """Random runs of three tenants at chosen moments; a stop and an opening behind each."""
    if not trial.is_long:
        return "not tried in a sample: its program is built first"
    program = build()
    steps = kept = 0
    for _ in range(4):
        db = os.path.join(trial.fresh().folder, "ledger.db")
        firms = Firms(trial.random)
        firms.first().play(program, db, "new")
        for _ in range(5):
            run = firms.next(600)
            run.play(program, db, "old")
            check(trial.program, db)
            firms.seen().play(program, db, "old")
            steps += len(run.lines)
            trial.progress(f"{steps} steps")
        kept += sum(len(desk.ledger.transfers) for desk in firms.desks)
    return (f"{steps} steps at chosen moments, with 40 openings by another process: {kept} "
            f"transfers of three tenants, each reply as the plain lists'")
