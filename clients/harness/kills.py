"""Tests a client while the service is killed and restarted: nothing answered may be lost, nothing may be
booked twice, and each chain stands whole or not at all.

    python3 clients/harness/kills.py LEDGERD [--seconds N] [--seed N] -- COMMAND..

COMMAND is the client's driver (`driver.py`). Five drivers run at once: four send batches, two of them over
a relay that loses replies (`relay.py`), and one follows the ledger. The seed determines the batches, but not
when a kill comes."""

import argparse
import collections
import random
import secrets
import sys
import threading
import time

from driver import Driver
from relay import Relay
from service import Service

KEY = secrets.token_hex(32)
EURO, BANK, POOR, NOBODY = 978, "1", "5", "99"
WALLETS = ("2", "3", "4", POOR)
LINKED, PENDING, POST, VOID = 1, 2, 4, 8
DESKS, MAX_128 = 4, str(2**128 - 1)
LOST_ONE_IN = 10
# Each of these has to occur. A slow machine gets at most PATIENCE seconds more for them.
OUTCOMES, PATIENCE = ("accepted", "found", "existed", "refused"), 120


class Desk(threading.Thread):
    """Sends batch after batch, each until it is answered, and records the answers."""

    def __init__(self, words, url, seed, is_over):
        super().__init__(daemon=True)
        self.driver, self.random, self.is_over = Driver(words), random.Random(seed), is_over
        self.driver.ask(open={"url": url, "key": KEY, "deadline": 1.5})
        self.sent, self.stands, self.batches, self.holds = {}, {}, [], []
        self.outcomes, self.unanswered, self.failure = collections.Counter(), 0, None

    def run(self):
        try:
            while not self.is_over.is_set():
                again = self.batches and self.random.random() < 0.1
                events = self.random.choice(self.batches) if again else self.draw()
                self.judge(events)
                self.send(events, not again)
            self.driver.close()
        except BaseException as error:
            self.failure = error

    def judge(self, events):
        """Has a batch judged now and then. That books nothing, as the answer to the batch shows."""
        if self.random.random() < 0.1:
            given = self.driver.ask(call="lint_transfers", events=events)
            if given.get("error", {}).get("kind") != "unanswered":
                must(given == {"events": len(events)}, f"{events} are judged so: {given}")

    def send(self, events, is_new):
        while True:
            given = self.driver.ask(call="create_transfers", events=events)
            if "error" not in given:
                break
            if given["error"]["kind"] != "unanswered":
                raise AssertionError(f"{events}: {given}")
            self.unanswered += 1
            is_new = is_new and not given["error"]["may_be_booked"]
        self.batches.append(events)
        for event, result in zip(events, given["results"]):
            self.note(event, result, is_new)

    def note(self, event, result, is_new):
        outcome = result["outcome"]
        stands = outcome != "refused"
        if is_new and outcome == "existed":
            raise AssertionError(f"a new id exists: {event}")
        if self.stands.setdefault(event["id"], stands) != stands:
            raise AssertionError(f"{event} stood: {not stands}, and then {result}")
        self.sent[event["id"]] = event
        self.outcomes[outcome] += 1
        if stands and event.get("flags", 0) & PENDING:
            self.holds.append(event)

    def draw(self):
        """A batch of new events: chains of one and of several."""
        events = []
        for _ in range(self.random.randint(1, 4)):
            chain = [self.event() for _ in range(self.random.choice((1, 1, 2, 3, 5)))]
            for each in chain[:-1]:
                each["flags"] = each.get("flags", 0) | LINKED
            events += chain
        return events

    def event(self):
        number, draw = str(self.random.getrandbits(120) + 1000), self.random.random()
        if self.holds and draw < 0.25:
            hold = self.holds.pop(self.random.randrange(len(self.holds)))
            flags = self.random.choice((POST, POST, VOID))
            amounts = ("0",) if flags == VOID else (MAX_128, hold["amount"], "0")
            return {"id": number, "pending_id": hold["id"], "amount": self.random.choice(amounts),
                    "flags": flags}
        payer, payee = self.random.sample((BANK, *WALLETS), 2)
        return {"id": number, "debit_account_id": payer, "ledger": EURO, "code": 1,
                "credit_account_id": NOBODY if draw > 0.95 else payee,
                "amount": str(self.random.randint(0, 1000)),
                "flags": PENDING if self.random.random() < 0.3 else 0}


class Follower(threading.Thread):
    """Follows the ledger, and records each accepted transfer."""

    def __init__(self, words, url, is_over):
        super().__init__(daemon=True)
        self.driver, self.is_over = Driver(words), is_over
        self.driver.ask(open={"url": url, "key": KEY, "deadline": 1.5})
        self.had, self.number, self.failure = [], "0", None

    def run(self):
        try:
            while not self.is_over.is_set():
                self.take()
                time.sleep(0.05)
        except BaseException as error:
            self.failure = error

    def take(self):
        given = self.driver.ask(call="follow", number=self.number, limit=50)
        if "error" in given:
            if given["error"]["kind"] != "unanswered":
                raise AssertionError(given)
            return
        for page in given["pages"]:
            self.had += [each["id"] for each in page["items"]]
            self.number = page["number"]


def must(condition, text):
    if not condition:
        raise AssertionError(text)


def chains(events):
    chain = []
    for event in events:
        chain.append(event)
        if not event.get("flags", 0) & LINKED:
            yield chain
            chain = []


def balances(standing):
    """The four sums of each account that the transfers make: pending and posted, of either side."""
    sums = collections.defaultdict(lambda: [0, 0, 0, 0])
    ended = {each.get("pending_id") for each in standing.values()}
    for each in standing.values():
        flags, of, amount, place = each.get("flags", 0), each, int(each["amount"]), 1
        if flags & VOID or flags & PENDING and each["id"] in ended:
            continue
        if flags & POST:
            of = standing[each["pending_id"]]
            amount = min(amount, int(of["amount"]))
        elif flags & PENDING:
            place = 0
        sums[of["debit_account_id"]][place] += amount
        sums[of["credit_account_id"]][2 + place] += amount
    return sums


def outcomes_of(desks):
    """How often each outcome has occurred."""
    return sum((each.outcomes.copy() for each in desks), collections.Counter())


def goes_on(desks, until):
    """Whether the clients have more to do: the time is not over, or an outcome has not occurred yet."""
    lacking = any(not outcomes_of(desks)[each] for each in OUTCOMES)
    is_well = not any(each.failure for each in desks)
    return time.monotonic() < until + (PATIENCE if lacking and is_well else 0)


def storm(service, words, seed, seconds):
    """Runs the clients, and kills the service meanwhile."""
    until, drawn, is_over = time.monotonic() + seconds, random.Random(seed), threading.Event()
    relay = Relay(service.port, drawn.random(), LOST_ONE_IN)
    desks = [Desk(words, url, drawn.random(), is_over)
             for url in (service.url, relay.url) * (DESKS // 2)]
    follower = Follower(words, service.url, is_over)
    for each in (*desks, follower):
        each.start()
    kills = 0
    while goes_on(desks, until):
        time.sleep(drawn.uniform(0.5, 3))
        service.kill()
        kills += 1
        time.sleep(drawn.choice((0, 0, 0.3)))
        service.start()
    is_over.set()
    for each in (*desks, follower):
        each.join(120)
        must(not each.is_alive(), "a call takes longer than its deadline")
        if each.failure:
            raise each.failure
    relay.close()
    return desks, follower, kills, relay.lost


def compare(service, words, desks, follower):
    """Compares the ledger with the answers."""
    sent = {number: event for desk in desks for number, event in desk.sent.items()}
    stands = {number: it for desk in desks for number, it in desk.stands.items()}
    standing = {number: event for number, event in sent.items() if stands[number]}
    for chain in (it for desk in desks for events in desk.batches for it in chains(events)):
        must(len({stands[each["id"]] for each in chain}) == 1, f"half a chain: {chain}")
    with Driver(words) as driver:
        driver.ask(open={"url": service.url, "key": KEY, "deadline": 60})
        numbers, found = list(sent), set()
        for first in range(0, len(numbers), 1000):
            page = driver.ask(call="lookup_transfers", ids=numbers[first:first + 1000])
            found |= {each["id"] for each in page["items"]}
        must(found == set(standing), "the ledger differs from the answers: "
             f"{len(set(standing) - found)} lost, {len(found - set(standing))} refused and there")
        wanted = balances(standing)
        for each in driver.ask(call="lookup_accounts", ids=[BANK, *WALLETS])["items"]:
            names = ("debits_pending", "debits_posted", "credits_pending", "credits_posted")
            must([int(each[name]) for name in names] == wanted[each["id"]], f"sums: {each}")
        follower.take()
        listed = driver.ask(call="iter_transfers", asked={"limit": 999})["items"]
        must(follower.had == [each["id"] for each in listed], "the follower had something else")
        must(set(follower.had) == set(standing), "a transfer that no desk sent")
    follower.driver.close()
    service.kill()
    must(service.check() == "ok", "the audit of the file")


def main():
    asked = argparse.ArgumentParser(description=__doc__.splitlines()[0])
    asked.add_argument("program")
    asked.add_argument("--seconds", type=float, default=60)
    asked.add_argument("--seed", type=int, default=random.SystemRandom().randrange(10**6))
    asked.add_argument("command", nargs="+")
    words = asked.parse_args()
    print(f"kills: seed {words.seed}", file=sys.stderr)
    with Service(words.program, KEY) as service:
        with Driver(words.command) as driver:
            driver.ask(open={"url": service.url, "key": KEY, "deadline": 60})
            driver.ask(call="create_accounts", all=True, events=[
                {"id": each, "ledger": EURO, "code": 1, "flags": 2 if each == POOR else 0}
                for each in (BANK, *WALLETS)])
        desks, follower, kills, lost = storm(service, words.command, words.seed, words.seconds)
        compare(service, words.command, desks, follower)
    told = outcomes_of(desks)
    for outcome in OUTCOMES:
        must(told[outcome], f"nothing was {outcome}: a longer run?")
    batches = sum(len(each.batches) for each in desks)
    print(f"kills: {kills} kills, {lost} replies lost, {batches} batches answered,"
          f" {sum(each.unanswered for each in desks)} calls without an answer; events: "
          + ", ".join(f"{count} {outcome}" for outcome, count in sorted(told.items()))
          + "; nothing lost, nothing doubled")


if __name__ == "__main__":
    main()
