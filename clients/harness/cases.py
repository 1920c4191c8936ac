"""Runs a client against clients/cases.json.

    python3 clients/harness/cases.py [--only WORDS] [--gives-up reset|end] -- COMMAND..

COMMAND is the client's driver (`driver.py`). It prints each case that fails, with the reasons; the last
line counts the cases."""

import argparse
import collections
import concurrent.futures
import json
import pathlib
import re
import sys
import threading
import time

from driver import Driver
from stage import RESET, Stage

TOP = pathlib.Path(__file__).resolve().parents[2]
KEY = "0f" * 32
LANES = 6
DEADLINE = 20
GIVES_UP_WITHIN = 3
ZEROS = {
    "account": {"code": 0, "credits_pending": "0", "credits_posted": "0", "debits_pending": "0",
                "debits_posted": "0", "flags": 0, "id": "0", "ledger": 0, "timestamp": "2",
                "user_data_128": "0", "user_data_32": 0, "user_data_64": "0"},
    "transfer": {"amount": "0", "code": 0, "credit_account_id": "0", "debit_account_id": "0",
                 "flags": 0, "id": "0", "ledger": 0, "pending_id": "0", "timeout": 0,
                 "timestamp": "5", "user_data_128": "0", "user_data_32": 0, "user_data_64": "0"},
}


def result_numbers():
    """The number of each result by its name, of accounts and of transfers (docs/RESULTS.md)."""
    page = (TOP / "docs/RESULTS.md").read_text()
    _, accounts, transfers = re.split(r"^## (?:Accounts|Transfers)$", page, flags=re.M)
    rows = [re.findall(r"^\| (\d+) \| `(\w+)`", part, re.M) for part in (accounts, transfers)]
    return [{name: int(number) for number, name in part} for part in rows]


def with_value(value, each):
    """JSON in which `$each`, or an element of it, is filled in."""
    if isinstance(value, str) and value.startswith("$each"):
        place = value.partition(".")[2]
        return each[int(place)] if place else each
    if isinstance(value, list):
        return [with_value(it, each) for it in value]
    if isinstance(value, dict):
        return {name: with_value(it, each) for name, it in value.items()}
    return value


class Book:
    """The records, refusals and results that cases name."""

    def __init__(self, told):
        self.records, self.refusals = told["records"], told["refusals"]
        self.results = result_numbers()

    def listed(self, events):
        """The events or ids of a call, written out."""
        if isinstance(events, dict):
            events = [events["repeat"]] * events["times"]
        return [self.event(each) for each in events]

    def event(self, each):
        if isinstance(each, str):
            return dict(self.records[each]) if each in self.records else each
        if not isinstance(each, dict) or "of" not in each:
            return each
        more = {name: value for name, value in each.items() if name not in ("of", "with")}
        return {**self.records[each["of"]], **each.get("with", {}), **more}

    def shown(self, each):
        """A record as a reply shows it: each field is there."""
        if not isinstance(each, dict) or "of" not in each:
            return each
        event = self.event(each)
        kind = "account" if each["of"] in ("wallet", "opened", "beside") else "transfer"
        return {**ZEROS[kind], **event}

    def exchange(self, exchange, path):
        """An exchange, written out."""
        made = dict(exchange)
        if "sent" in made:
            body = made["sent"]["body"]
            is_batch = made["sent"]["path"].endswith(("/accounts", "/transfers"))
            if isinstance(body, list) and is_batch:
                made["sent"] = {**made["sent"], "body": self.listed(body)}
        if "reply" in made:
            made["reply"] = self.reply(made["reply"], path)
        return made

    def reply(self, reply, path):
        made = dict(reply)
        if "refusal" in made:
            name = made.pop("refusal")
            made.update(status=self.refusals[name], body={"error": name})
        if "results" in made:
            numbers = self.results["transfers" in path]
            made["body"] = {"clock": "200", "results": [
                {"number": numbers[name], "result": name, "timestamp": str(place + 1)}
                for place, name in enumerate(made.pop("results"))]}
        if isinstance(made.get("body"), dict):
            made["body"] = {
                name: [self.shown(each) for each in value] if isinstance(value, list) else value
                for name, value in made["body"].items()}
        return made


def misfit_of_answer(book, wanted, given):
    """How an answer differs from the case's, or None."""
    outcomes = [each.get("outcome") for each in given.get("results", [])]
    derived = {
        "outcomes": lambda: outcomes,
        "numbers": lambda: [each["number"] for each in given["results"]],
        "timestamps": lambda: [each["timestamp"] for each in given["items"]],
        "pages": lambda: [{"timestamps": [each["timestamp"] for each in page["items"]],
                           "number": page["number"]} for page in given["pages"]],
    }
    for name, value in wanted.items():
        came = derived[name]() if name in derived else given.get(name)
        value = [book.shown(each) for each in value] if name == "items" else value
        if came != value:
            return f"{name}: {came}, not {value}"
    return None


class Run:
    """One case, with one value."""

    def __init__(self, book, case, each, gives_up):
        self.book, self.case, self.gives_up = book, with_value(case, each), gives_up
        self.steps = self.case.get("steps", [self.case])

    def misfits(self, driver):
        stage = Stage(KEY, self.case.get("listens_after", 0))
        try:
            url = f"http://127.0.0.1:{stage.port}{self.case.get('path', '')}"
            deadline = self.case.get("deadline", DEADLINE)
            driver.ask(open={"url": url, "key": KEY, "deadline": deadline})
            found = []
            for step in self.steps:
                found += self.step(driver, stage, step)
            return found + self.gave_up(stage)
        finally:
            stage.close()

    def step(self, driver, stage, step):
        time.sleep(step.get("wait", 0))
        stage.play([self.book.exchange(each, step["call"]) for each in step["exchanges"]])
        names = ("asked", "account", "number", "limit", "all")
        asked = {name: step[name] for name in names if name in step}
        for name in ("events", "ids"):
            if name in step:
                asked[name] = self.book.listed(step[name])
        begun = time.monotonic()
        given = driver.ask(call=step["call"], **asked)
        took = time.monotonic() - begun
        found = stage.left()
        least, most = step.get("takes", (0, 3600))
        if not least - 0.05 <= took <= most:
            found.append(f"it took {took:.2f} s, not {least} to {most}")
        return found + self.compared(step, given)

    def compared(self, step, given):
        if "error" in step:
            told = given.get("error", given)
            wrong = {name: told.get(name) for name, value in step["error"].items()
                     if told.get(name) != value}
            return [f"{wrong} in {told}, not {step['error']}"] if wrong else []
        if "error" in given:
            return [f"an error: {given['error']}"]
        misfit = misfit_of_answer(self.book, step["answer"], given)
        return [misfit] if misfit else []

    def gave_up(self, stage):
        if not self.case.get("gives_up"):
            return []
        end = time.monotonic() + GIVES_UP_WITHIN
        while not stage.given_up and time.monotonic() < end:
            time.sleep(0.02)
        if stage.given_up != [self.gives_up]:
            return [f"the connection is given up by {stage.given_up}, not by {self.gives_up}"]
        return []


class Lanes:
    """Threads with one driver each, which runs case after case."""

    def __init__(self, words):
        self.words, self.mine, self.all = words, threading.local(), []

    def run(self, run):
        if not hasattr(self.mine, "driver"):
            self.mine.driver = Driver(self.words)
            self.all.append(self.mine.driver)
        try:
            return run.misfits(self.mine.driver)
        except Exception as error:
            broken = self.mine.driver
            del self.mine.driver
            broken.process.kill()
            return [f"{type(error).__name__}: {error}"]

    def close(self):
        for each in self.all:
            each.close()


def main():
    asked = argparse.ArgumentParser(description=__doc__.splitlines()[0])
    asked.add_argument("--only", default="", help="run the cases whose names contain this")
    asked.add_argument("--gives-up", default=RESET, help="how a connection is given up")
    asked.add_argument("command", nargs="+")
    words = asked.parse_args()
    told = json.loads((TOP / "clients/cases.json").read_text())
    book = Book(told)
    runs = [(case["name"], each, Run(book, case, each, words.gives_up)) for case in told["cases"]
            if words.only in case["name"] for each in case.get("each", [None])]
    # The slowest first.
    runs.sort(key=lambda it: -sum(each.get("after", 0) + each.get("stops", 0)
                                  for step in it[2].steps for each in step["exchanges"]))
    lanes, failed = Lanes(words.command), collections.defaultdict(list)
    with concurrent.futures.ThreadPoolExecutor(LANES) as pool:
        for (name, each, _), misfits in zip(runs, pool.map(lambda it: lanes.run(it[2]), runs)):
            if misfits:
                failed[name].append((each, misfits))
    lanes.close()
    for name, found in failed.items():
        print(f"failed: {name}")
        for each, misfits in found[:3]:
            of = "" if each is None else f"with {json.dumps(each)[:80]}: "
            print(f"    {of}{'; '.join(misfits)[:400]}")
    names = {name for name, *_ in runs}
    print(f"cases: {len(names) - len(failed)} of {len(names)} hold ({len(runs)} plays)")
    sys.exit(1 if failed or not runs else 0)


if __name__ == "__main__":
    main()
