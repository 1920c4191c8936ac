"""The requests of docs/RECIPES.md, whose replies the page shows in a short form.

They are sent to the plain ledger of `model.py`, and to the program."""

import json
import re

from control import Control
from model import ACCOUNT_FIELDS, BALANCES, TRANSFER_FIELDS, Ledger
from pages import STRINGS
from runs import House
from service import ACCOUNT_RESULTS, BATCHES, TOP, TRANSFER_RESULTS, want

PAGE = "docs/RECIPES.md"
SECOND = 10**9
# The flags of a filter that asks for both sides, the newest entry first.
NEWEST = 7
FIELDS = {"/accounts": ACCOUNT_FIELDS, "/transfers": TRANSFER_FIELDS}
RESULTS = {"/accounts": ACCOUNT_RESULTS, "/transfers": TRANSFER_RESULTS}
BLOCK = re.compile(r"^```recipe\n(.*?)^```$", re.M | re.S)
STEP = re.compile(r"\+ (?P<pause>\d+) s|> POST (?P<path>/\S+)\n(?P<body>(?:> .*\n)+)"
                  r"(?P<told>(?:< .*(?:\n|\Z))+)")


def recipes():
    """The steps of each recipe of the page: seconds that pass, or a path, a body and the reply."""
    text = (TOP / PAGE).read_text()
    for part in re.split(r"^## ", text, flags=re.M)[1:]:
        blocks = BLOCK.findall(part)
        if blocks:
            yield [step_of(each) for block in blocks for each in block.strip().split("\n\n")]


def step_of(text):
    found = STEP.fullmatch(text)
    assert found, f"{PAGE}: neither a request with its reply nor a pause:\n{text}"
    if found["pause"]:
        return int(found["pause"])
    return found["path"], lines_of(found["body"]), lines_of(found["told"]).split("\n")


def lines_of(text):
    """The lines without their marks."""
    return "\n".join(line[2:] for line in text.splitlines())


def numbered(asked, fields=()):
    """An object of a body, with numbers in place of strings, and these fields in any case."""
    return {**dict.fromkeys(fields, 0),
            **{name: int(value) if name in STRINGS else value for name, value in asked.items()}}


def in_short(path, told):
    """A reply as the page has it."""
    if path in BATCHES:
        return [", ".join(each["result"] for each in told["results"])]
    if path == "/history/balances":
        return [sums_of(each) for each in told["balances"]]
    if "accounts" in told:
        return [f"{each['id']}: {sums_of(each)}" for each in told["accounts"]]
    return [f"{each['id']}: amount {each['amount']}" for each in told["transfers"]]


def sums_of(record):
    """Its balances that are not 0."""
    return ", ".join(f"{name} {record[name]}" for name in BALANCES if int(record[name]))


class Plain:
    """A new tenant's plain ledger, at a moment."""

    def __init__(self):
        self.ledger, self.moment = Ledger(), 0

    def wait(self, seconds):
        self.moment = self.ledger.clock + seconds * SECOND

    def ask(self, path, body):
        asked = json.loads(body)
        if path not in BATCHES:
            return ANSWERS[path](self.ledger, asked)
        events = [numbered(each, FIELDS[path]) for each in asked]
        clock = max(self.moment, self.ledger.clock) + len(events)
        results = self.ledger.batch(events, clock, path == "/transfers")
        return {"results": [{"result": RESULTS[path][number]} for number, _ in results]}


class Clock:
    """The clock of a program, which can be put forward."""

    def __init__(self, control):
        self.control, self.passed = control, 0

    def forward(self, seconds):
        self.passed += seconds
        self.control.turn_back(-self.passed)


class Served:
    """A tenant of the program."""

    def __init__(self, desk, clock):
        self.desk, self.clock = desk, clock

    def wait(self, seconds):
        self.clock.forward(seconds)

    def ask(self, path, body):
        reply = self.desk.ask("POST", path, body.encode())
        want(reply is not None, f"{PAGE}: {path} {body}: unavailable")
        return json.loads(reply) if isinstance(reply, bytes) else reply


def accounts_reply(ledger, ids):
    return {"accounts": [{"id": number, **ledger.balances(int(number))} for number in ids
                         if int(number) in ledger.accounts]}


def transfers_reply(ledger, ids):
    return {"transfers": [ledger.transfers[int(number)] for number in ids
                          if int(number) in ledger.transfers]}


def query_reply(ledger, asked):
    return {"transfers": ledger.query_transfers(numbered(asked))[0]}


def balances_reply(ledger, asked):
    """The balances after each entry of an account, the newest first."""
    assert asked["flags"] == NEWEST, asked
    entries = ledger.entries(int(asked["account_id"]))[::-1][:asked["limit"]]
    return {"balances": [ledger.balances(int(asked["account_id"]), each["at"], each["timestamp"])
                         for each in entries]}


ANSWERS = {"/accounts/lookup": accounts_reply, "/transfers/lookup": transfers_reply,
           "/query/transfers": query_reply, "/history/balances": balances_reply}


def compare(steps, tenant):
    """Takes the steps of a recipe, and compares each reply with the page. How many requests."""
    count = 0
    for step in steps:
        if isinstance(step, int):
            tenant.wait(step)
            continue
        path, body, expected = step
        reply = in_short(path, tenant.ask(path, body))
        want(reply == expected, f"{PAGE}: {path} {body}: {reply}, not {expected}")
        count += 1
    return count


def check():
    """How many requests of the page the plain ledger answers so."""
    count = sum(compare(steps, Plain()) for steps in recipes())
    want(count, f"{PAGE} has no recipe")
    return count


def play(trial):
    """How many requests of the page the program answers so: each recipe by a tenant of its own."""
    house, control, listed = House(trial.fresh(), tenants=0), Control(trial.folder), list(recipes())
    for place in range(len(listed)):
        house.add(f"recipe-{place}")
    house.start(control.env)
    count, clock = 0, Clock(control)
    for desk, steps in zip(house.desks, listed):
        desk.connect(house.service)
        count += compare(steps, Served(desk, clock))
    house.stop()
    return count
