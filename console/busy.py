"""A busy ledger: 10,000 accounts and 200,000 transfers, and more that come while the page is read.
What it books is added up here as well."""

import re
import threading
import time

from trial import balance, shown, want

ACCOUNTS, TRANSFERS, BATCH = 10_000, 200_000, 1_000
FIRST_ACCOUNT, FIRST_TRANSFER = 1_000_000, 50_000_000
DOLLARS = 1_000
REFERENCE = 2**70 + 5
PENDING, POST, VOID = 2, 4, 8
LOAD_BATCH, LOAD_PAUSE = 20, 0.2
# How long a view may take that goes through all transfers, 1,000 a request, on a slow machine.
PATIENCE = 300


def ledger_of(number):
    return 840 if number - FIRST_ACCOUNT < DOLLARS else 978


def account(number):
    return {"id": str(number), "ledger": ledger_of(number), "code": 10 + number % 3}


def transfer(number):
    """The transfer with this number, counted from 0: between two accounts of one ledger. Every
    hundredth is a hold for some hours; every tenth credits the first account of its ledger."""
    first, count = ((FIRST_ACCOUNT, DOLLARS) if number % 10 == 3 else
                    (FIRST_ACCOUNT + DOLLARS, ACCOUNTS - DOLLARS))
    debit = number * 7919 % (count - 1) + 1
    credit = 0 if number % 10 == 7 else (debit + 1 + number % 97) % count
    event = {"id": str(FIRST_TRANSFER + number), "debit_account_id": str(first + debit),
             "credit_account_id": str(first + credit), "amount": str(100 + number * 31 % 49_900),
             "ledger": ledger_of(first), "code": 1}
    if credit == debit:
        event["credit_account_id"] = str(first)
    if number % 100 == 41:
        event |= {"flags": PENDING, "timeout": 3600 * (4 + number // 100 % 60)}
    if number % 50_000 == 12_345:
        event |= {"user_data_128": str(REFERENCE)}
    return event


def names_file():
    lines = [f"{number},Customer {number - FIRST_ACCOUNT:05},,"
             for number in range(FIRST_ACCOUNT, FIRST_ACCOUNT + ACCOUNTS)]
    return "id,name,decimals,note\n" + "\n".join(lines) + "\n"


def is_posted(event):
    return not event.get("flags", 0) & (PENDING | VOID)


class Busy:
    """Books it, and goes on from a thread of its own. `sent` has each event with its timestamp."""

    def __init__(self, ledger):
        self.ledger, self.sent, self.fault = ledger, [], None
        self.stopped, self.thread = threading.Event(), None

    def book(self):
        numbers = range(FIRST_ACCOUNT, FIRST_ACCOUNT + ACCOUNTS)
        for first in range(0, ACCOUNTS, BATCH):
            self.ledger.batch("/accounts", [account(each) for each in numbers[first:first + BATCH]])
        while len(self.sent) < TRANSFERS:
            self.send(BATCH)

    def send(self, count):
        events = [transfer(number) for number in range(len(self.sent), len(self.sent) + count)]
        stamps = self.ledger.batch("/transfers", events)
        self.sent += zip(map(int, stamps), events, strict=True)

    def __enter__(self):
        self.stopped.clear()
        self.thread = threading.Thread(target=self.go_on, daemon=True)
        self.thread.start()
        return self

    def __exit__(self, *_):
        self.stopped.set()
        self.thread.join()
        if self.fault:
            raise self.fault

    def go_on(self):
        try:
            while not self.stopped.is_set():
                self.send(LOAD_BATCH)
                time.sleep(LOAD_PAUSE)
        except Exception as fault:  # told to the trial
            self.fault = fault

    def chosen(self, is_meant, until=2**64):
        return [event for stamp, event in self.sent if stamp <= until and is_meant(event)]

    def posted(self, ledger, since, until):
        """What a ledger's posted transfers add up to at each moment from one clock to another."""
        sums, total = {0}, 0
        for stamp, event in self.sent:
            if stamp > until:
                break
            if event["ledger"] == ledger and is_posted(event):
                total += int(event["amount"])
            sums = sums | {total} if stamp >= since else {total}
        return sums

    def net(self, number, until):
        """Credits less debits of what an account has posted up to a clock."""
        mine = str(number)
        return sum(int(it["amount"]) * ((it["credit_account_id"] == mine)
                                        - (it["debit_account_id"] == mine))
                   for it in self.chosen(is_posted, until))


def read_all(trial):
    trial.go("accounts")
    trial.browser.wait("return document.querySelector('#accounts-out caption')", why="accounts")
    trial.browser.click("#all")
    trial.told(f"{ACCOUNTS:,} accounts read.")


def try_busy_accounts(trial):
    """10,000 accounts by pages while transfers come: the first page at once, all where asked for"""
    with trial.busy:
        trial.open()
        trial.browser.wait("return document.querySelector('#accounts-out caption')", why="accounts")
        caption = trial.text("#accounts-out caption")
        want(caption.startswith("1,000 of 1,000 accounts read; there are more"), True, caption)
        trial.name_file(names_file().encode())
        trial.told("10,000 names read")
        read_all(trial)
    trial.choose("begins", "customer 09999")
    want([row[0] for row in trial.rows("#accounts-out")],
         [f"Customer 09999{FIRST_ACCOUNT + 9999}"], "the last one by its name")
    trial.quiet()


def try_busy_trial(trial):
    """a trial balance of all accounts at one moment, while transfers come; none of a part"""
    trial.open()
    with trial.busy:
        before = trial.ledger.ask("POST", "/query/transfers", {"limit": 1, "flags": 1})["clock"]
        trial.go("trial")
        trial.told(f"{ACCOUNTS:,} accounts read.")
        after = trial.ledger.ask("POST", "/query/transfers", {"limit": 1, "flags": 1})["clock"]
        want(trial.browser.run("return document.querySelectorAll('#trial-out .bad').length"), 0,
             "no red")
        verdicts = trial.browser.run("return [...document.querySelectorAll('#trial-out .good')]"
                                     ".map((it) => it.textContent)")
    for ledger, verdict in zip((840, 978), verdicts, strict=True):
        found = int(re.fullmatch(r"Posted: debits equal credits, ([\d,.]+)\. (?:Held: debits equal "
                                 r"credits, [\d,.]+\. )?", verdict)[1].replace(",", "")
                    .replace(".", ""))
        want(found in trial.busy.posted(ledger, int(before), int(after)), True,
             f"{found}: the sum of {ledger} at one moment between the two")
    trial.open()
    trial.browser.run("""const told = document.getElementById("told");
        new MutationObserver(() => {
            if (told.textContent.startsWith("Reading")) document.getElementById("stop").click();
        }).observe(told, { childList: true, characterData: true, subtree: true });
        location.hash = "trial";""")
    trial.told("Stopped: what is shown is a part.")
    want(trial.browser.run("return ['.bad', '.good', 'table'].filter((css) =>"
                           " document.querySelector(`#trial-out ${css}`)).length"), 0,
         "no verdict on a part")
    want("there are more: a part of them says nothing of their sums." in trial.text("#trial-out"),
         True, trial.text("#trial-out"))
    trial.quiet()


def paths(trial, requests):
    return {request["url"].removeprefix(trial.origin) for request in requests}


def try_busy_following(trial):
    """each new transfer once, by one request a turn, whichever accounts were looked at"""
    trial.open()
    trial.statement(FIRST_ACCOUNT + DOLLARS + 1, "2099-01-01")
    trial.go("new")
    trial.browser.click("#follow")
    trial.told("New transfers are followed.")
    trial.browser.requests()
    begun, first = time.monotonic(), len(trial.busy.sent)
    with trial.busy:
        time.sleep(9)
    count = len(trial.busy.sent) - first
    trial.browser.wait("return document.querySelector('#new-out caption').textContent"
                       ".startsWith(arguments[0])", f"{count:,} new transfers since", why="all")
    turns, asked = (time.monotonic() - begun) / 2 + 2, trial.browser.requests()
    want(paths(trial, asked), {"/query/transfers"}, "what is asked for while following")
    want(len(asked) <= turns, True, f"{len(asked)} requests in {turns:.0f} turns")
    newest = [event["id"] for _, event in trial.busy.sent[-200:]]
    want([row[1] for row in trial.rows("#new-out")], newest[::-1], "the newest ones")
    trial.browser.click("#follow")
    trial.told("no longer")
    trial.quiet()


def try_one_of_two_others(trial):
    """a transfer between two accounts that nobody looked at is new, and costs no request more"""
    trial.open()
    trial.statement(FIRST_ACCOUNT + 5, "2099-01-01")
    trial.go("new")
    trial.browser.click("#follow")
    trial.told("New transfers are followed.")
    trial.browser.requests()
    trial.busy.send(1)
    trial.told("1 new transfer.")
    want(trial.text("#new-out caption").startswith("1 new transfer since"), True, "the caption")
    asked = trial.browser.requests()
    want(paths(trial, asked), {"/query/transfers"}, "what is asked for one new transfer")
    want(len(asked) <= 3, True, f"{len(asked)} requests for one new transfer")
    trial.go("accounts")
    trial.busy.send(2)
    trial.told("3 new transfers came meanwhile.")
    trial.go("new")
    trial.browser.click("#follow")
    trial.quiet()


def try_busy_search(trial):
    """a rare reference and a rare amount among 200,000 transfers, while more come"""
    trial.open()
    rare = [it["id"] for it in trial.busy.chosen(lambda it: "user_data_128" in it)]
    with trial.busy:
        trial.search("Reference", str(REFERENCE))
        trial.browser.wait("return document.querySelector('#search-out table')", why="found")
    want([row[1] for row in trial.rows("#search-out")][-len(rare):], rare[::-1], "by reference")
    with trial.busy:
        trial.search("Amount", "499.99-500.00")
        trial.browser.wait("return document.getElementById('told').textContent.endsWith('found.')",
                           why="found by amount")
        count = len(trial.busy.sent)
    rare = [it["id"] for _, it in trial.busy.sent[:count] if 499_99 <= int(it["amount"]) <= 500_00]
    found = [row[1] for row in trial.rows("#search-out")]
    want(found[-200:], rare[::-1][-200:], "by amount")
    want(len(rare) - 2 <= len(found) <= len(rare), True, f"{len(found)} of {len(rare)}")
    trial.quiet()


def try_busy_statement(trial):
    """a statement of some 18,000 entries while more come, and one of a quiet account"""
    trial.open()
    for number in (FIRST_ACCOUNT + DOLLARS, FIRST_ACCOUNT + DOLLARS + 7):
        with trial.busy:
            trial.statement(number)
        entries = trial.saved(f"statement-{number}.csv", "#entries")
        until = int(entries[-1]["time_stamp"])
        mine = trial.busy.chosen(lambda it: str(number) in (
            it["debit_account_id"], it["credit_account_id"]), until)
        net = trial.busy.net(number, until)
        want([row["transfer"] for row in entries], [it["id"] for it in mine], f"those of {number}")
        want(trial.sums()["Closing balance"], balance(net, 2), "closing")
        want(entries[-1]["balance"], f"{net / 100:.2f}", "the last balance")
    trial.quiet()


def try_busy_holds(trial):
    """all open holds among 200,000 transfers, while more come"""
    trial.open()
    before = [it["id"] for it in trial.busy.chosen(lambda it: it.get("flags") == PENDING)]
    with trial.busy:
        trial.go("holds")
        trial.told("open holds.")
    rows = trial.saved("holds.csv", "#holds-out")
    want({row["transfer"] for row in rows} >= set(before), True, "each hold")
    want(len({row["transfer"] for row in rows}), len(rows), "each once")
    trial.quiet()


def try_busy_day(trial):
    """today's volume by hour, of 200,000 transfers while more come"""
    trial.open()
    trial.go("day")
    day = time.strftime("%Y-%m-%d", time.gmtime(trial.busy.sent[0][0] // 10**9 + 3600))
    trial.choose("day", day)
    with trial.busy:
        before = len(trial.busy.sent)
        trial.browser.click("#day-form button")
        trial.told(f"on {day}.")
        after = len(trial.busy.sent)
    count = sum(int(row[1].replace(",", "")) for row in trial.rows("#day-out"))
    least, most = (sum(is_posted(it) for _, it in trial.busy.sent[:upto])
                   for upto in (before, after))
    want(least <= count <= most, True, f"{count} transfers, from {least} to {most}")
    trial.quiet()


BUSY = (try_busy_accounts, try_busy_trial, try_busy_following, try_one_of_two_others,
        try_busy_search, try_busy_statement, try_busy_holds, try_busy_day)
