"""The worked examples of docs/MODEL.md, and what other pages show.

The plain ledger of `model.py` has to answer them as the pages say. So what the campaign compares
with is itself compared with the pages that it is written from. The pages of records are worked by
hand.

    python3 faults/worked.py"""

import json
import pathlib
import re

import recipes
from doubted import doubted
from model import ACCOUNT_FIELDS, BALANCES, MAX, TRANSFER_FIELDS, Ledger, page
from pages import HOLDS, OPEN, PATHS, TRANSFERS, reply

# From the base, batches that are parted by `|` and events that are parted by `;`: what they answer,
# and where `=` follows, account:balances (debits pending and posted, credits pending and posted).
EXAMPLES = (
    ("100: 1>2 100 f2 | 101: post 100 40 | 102: post 100 60", "0@5 0@6 32@7 = 1:0,40,0,0"),
    ("100: 1>2 100 f2 | 101: post 100 40 | 102: post 100 60 | 101: post 100 40 | "
     "101: post 100 41", "0@5 0@6 32@7 18@8 12@9"),
    ("100: 1>2 100 f2 t1 | at 1000000003 101: post 100 MAX", "0@5 0@1000000004 = 1:0,100,0,0"),
    ("100: 1>2 100 f2 t1 | at 1000000004 101: post 100 MAX", "0@5 34@1000000005 = 1:0,0,0,0"),
    ("100: 1>2 10 f1 ; 101: 3>2 10 f1 ; 102: 1>4 10", "2@5 55@6 2@7"),
    ("100: 1>2 10 f1 ; 101: 1>2 10 f1", "2@5 1@6"),
    ("100: 1>3 50 | 101: 3>2 20 | 102: 3>2 MAX f16 | 102: 3>2 29 f16 | 102: 3>2 30 f16",
     "0@5 0@6 0@7 12@8 18@9 = 3:0,50,0,50"),
    ("100: 1>2 MAX | 101: 1>2 1", "0@5 50@6"),
    ("100: 1>2 70 f3 ; 101: post 100 MAX | 100: 1>2 70 f3 ; 101: post 100 MAX",
     "0@5 0@6 18@7 2@8"),
    ("100: 1>2 100 f2 | 101: void 100 99 | 101: void 100 0", "0@5 31@6 0@7 = 1:0,0,0,0"),
    ("100: 1>3 50 | 101: 3>2 50 f2 | 102: 3>2 1", "0@5 0@6 55@7"),
    ("100: 3>2 MAX f16", "0@5"),
    ("100: 1>2 5 f2 | 101: post 100 5 d2", "0@5 26@6"),
    ("0: 0>0 0 f64", "4@5"),
    ("100: 1>2 MAX f2 | 101: 1>2 1 f2 | 102: 1>2 1 | 103: 4>2 1 f2 | 104: 4>2 1",
     "0@5 48@6 52@7 49@8 53@9"),
    ("100: 2>1 30 | 101: 2>4 20 | 102: 1>2 MAX f48 | 103: 1>2 MAX f32",
     "0@5 0@6 0@7 0@8 = 1:0,50,0,30"),
    ("100: 1>9 1 f1 ; 101: 1>9 1", "45@5 2@6"),
    ("100: 1>2 10 f1 ; 101: 1>9 10 ; 102: 1>2 5", "2@5 45@6 0@7"),
    ("100: 1>9 1 f1 ; 101: 1>2 1 f1 ; 102: 1>2 1 f1", "45@5 2@6 1@7"),
    ("100: 1>2 1 f1 ; 100: 1>2 1", "2@5 7@6"),
    ("100: 1>2 1 f1 ; 100: 1>2 1 f1 ; 101: 1>2 1", "2@5 18@6 2@7"),
    ("account 5 f4 | 100: 5>1 30 | 101: 1>5 31 | 102: 1>5 30 f2 | 103: 1>5 1",
     "0@5 0@6 56@7 0@8 56@9"),
    ("100: 1>2 MAX | 101: 4>2 1", "0@5 51@6"),
    ("100: 9>2 10 | account 9 | 100: 9>2 10 | 101: 9>2 10 | 102: post 77 5 ; 102: post 77 5 | "
     "103: 1>2 1 f1 ; 104: 3>2 1 | 104: 1>2 1 ; 103: 1>2 1 | 104: 1>2 1 f64 ; 104: 1>2 1 f6",
     "44@5 0@6 60@7 0@8 24@9 60@10 2@11 55@12 60@13 0@14 4@15 60@16"),
)

# Behind the base: 100@5 pending for a second, 101@6 posts 40 of it, 102@7 single, 103@8 pending,
# and 104@9 pending for a second. The times of a page's records, and its next.
HELD = ("100: 1>2 100 f2 t1 | 101: post 100 40 | 102: 1>2 5 | 103: 2>1 7 f2 | 104: 2>1 7 f2 t1")
PAGES = (
    ({"limit": 2}, [5, 6], 7),
    ({"limit": 2, "timestamp_min": 7}, [7, 8], 9),
    ({"limit": 2, "timestamp_min": 9}, [9], 0),
    ({"limit": 5}, [5, 6, 7, 8, 9], 10),
    ({"limit": 5, "timestamp_min": 10}, [], 0),
    ({"limit": 2, "flags": 1}, [9, 8], 7),
    ({"limit": 9, "flags": 1, "timestamp_max": 7}, [7, 6, 5], 0),
    ({"limit": 9, "timestamp_min": 6, "timestamp_max": 8}, [6, 7, 8], 0),
    ({"limit": 9, "timestamp_min": 7, "timestamp_max": 6}, [], 0),
    ({"limit": 9, "code": 2}, [], 0),
)
LINTS = "/lint/accounts", "/lint/transfers"
HOLDS_TOLD = (b'{"clock":"9","pending":[{"due":"1000000005","id":"100","state":"posted"},'
              b'{"due":"0","id":"103","state":"open"},'
              b'{"due":"1000000009","id":"104","state":"open"},'
              b'{"due":"0","id":"103","state":"open"}]}')
OPEN_TOLD = (b'{"clock":"9","next":"9","pending":[{"due":"0","id":"103","state":"open",'
             b'"timestamp":"8"}]}')
# Later, at 1000000010, the open one that was for a second has expired.
OPEN_LATER = (b'{"clock":"1000000010","next":"0","pending":[{"due":"0","id":"103","state":"open",'
              b'"timestamp":"8"}]}')
# Of 4,500 records at 1 to 4500 those at 1999, 2000 and 4001 have a mark: the times of each page,
# and its next.
MARKED = {1999, 2000, 4001}
FORWARD = (([1999, 2000], 2001), ([], 4001), ([4001], 0))
BACK = (([4001], 2500), ([2000, 1999], 500), ([], 0))

# The batch behind which docs/MESSAGES.md shows requests and replies.
MESSAGES = pathlib.Path(__file__).resolve().parent.parent / "docs/MESSAGES.md"
SHOWN_BEHIND = ("100: 1>2 100 f2 ; 101: 1>2 10 f2 t1 ; 102: 4>2 7 f2 ; 103: post 100 40 ; "
                "104: void 102 0")

STATEMENT = ["5,100,debit,pending,100,100,0,0,0", "6,101,debit,post,40,0,40,0,0"]


def account(number, flags=0):
    return {**dict.fromkeys(ACCOUNT_FIELDS, 0), "id": number, "ledger": 7, "code": 10,
            "flags": flags}


def amount_of(text):
    return MAX if text == "MAX" else int(text)


def event_of(text):
    """An event in the notation of the page: fN are flags, tN a timeout, dN a debit account."""
    head, *words = text.split()
    event = {**dict.fromkeys(TRANSFER_FIELDS, 0), "id": int(head.rstrip(":"))}
    if words[0] in ("post", "void"):
        event.update(pending_id=int(words[1]), flags=4 if words[0] == "post" else 8)
        event["amount"] = amount_of(words[2])
        rest = words[3:]
    else:
        debit, credit = words[0].split(">")
        event.update(debit_account_id=int(debit), credit_account_id=int(credit), ledger=7, code=1)
        event["amount"] = amount_of(words[1])
        rest = words[2:]
    fields = {"f": "flags", "t": "timeout", "d": "debit_account_id"}
    event.update({fields[word[0]]: int(word[1:]) for word in rest})
    return event


def base():
    ledger = Ledger()
    ledger.batch([account(1), account(2), account(3, 10), account(4)], 4, False)
    return ledger


def run(ledger, batches):
    """What the batches answer, as the page writes it."""
    told = []
    for batch in batches.split("|"):
        batch, moment = batch.strip(), 0
        if found := re.match(r"at (\d+) ", batch):
            moment, batch = int(found.group(1)), batch[found.end():]
        if batch.startswith("account"):
            _, number, *flags = batch.split()
            events = [account(int(number), int(flags[0][1:]) if flags else 0)]
        else:
            events = [event_of(each.strip()) for each in batch.split(";")]
        clock = max(moment, ledger.clock) + len(events)
        told += ledger.batch(events, clock, not batch.startswith("account"))
    return " ".join(f"{number}@{stamp}" for number, stamp in told)


def check():
    """Says how many examples the model answers as the page does, and fails where it does not."""
    for batches, expected in EXAMPLES:
        results, _, balances = expected.partition(" = ")
        ledger = base()
        told = run(ledger, batches)
        assert told == results, f"{batches}: {told}, not {results}"
        if balances:
            number, _, sums = balances.partition(":")
            held = ledger.balances(int(number))
            assert ",".join(str(held[name]) for name in BALANCES) == sums, f"{batches}: {held}"
    assert ledger.failed == {100, 102, 104}
    ledger = base()
    run(ledger, "100: 1>2 100 f2 | 101: post 100 40 | 102: post 100 60")
    assert ledger.statement(1) == STATEMENT
    return len(EXAMPLES) + 1 + check_pages() + sum(shown() for shown in SHOWN)


def check_pages():
    """The same of pages, which are written from the rules by hand."""
    ledger = base()
    run(ledger, HELD)
    for asked, times, behind in PAGES:
        found, told = ledger.query_transfers(asked)
        assert ([each["timestamp"] for each in found], told) == (times, behind), asked
    assert reply(ledger, HOLDS, [100, 9, 101, 103, 104, 103]) == HOLDS_TOLD
    assert reply(ledger, OPEN, {"limit": 1}) == OPEN_TOLD
    ledger.batch([], 1000000010, True)
    assert reply(ledger, OPEN, {"limit": 9}) == OPEN_LATER
    assert reply(ledger, TRANSFERS, {"limit": 1, "timestamp_min": 2**63}) \
        == b'{"clock":"1000000010","next":"0","transfers":[]}'
    for flags, bound, listed in ((0, "timestamp_min", FORWARD), (1, "timestamp_max", BACK)):
        behind = 0
        for times, then in listed:
            asked = {"limit": 2 if flags == 0 else 3, "flags": flags, bound: behind}
            found, behind = page([{"timestamp": time} for time in range(1, 4501)], asked,
                                 lambda each: each["timestamp"] in MARKED)
            assert ([each["timestamp"] for each in found], behind) == (times, then), asked
    return len(PAGES) + 4 + len(FORWARD) + len(BACK)


def answer_shown(ledger, path, asked):
    """The reply to a request that a page shows. A body that is only judged has its events counted."""
    if path in LINTS:
        return f'{{"events":{len(asked)}}}'.encode()
    if path == HOLDS:
        return reply(ledger, path, [int(each) for each in asked])
    return reply(ledger, path, {name: int(value) for name, value in asked.items()})


def check_messages():
    """The same of those that docs/MESSAGES.md shows: one at least for each of the routes that it
    tells of."""
    text, ledger = MESSAGES.read_text(), base()
    run(ledger, SHOWN_BEHIND)
    shown = re.findall(r"^    POST (/\S+) +(\S+)\n    (\{.*\})$", text, re.M)
    for path, body, told in shown:
        assert answer_shown(ledger, path, json.loads(body)) == told.encode(), f"{path} {body}"
    assert {path for path in PATHS if f"`{path}`" in text} <= {path for path, _, _ in shown}
    return len(shown)


# Pages that show requests with their replies, each by what asks them of the plain ledger.
SHOWN = (check_messages, recipes.check)


def model(trial):
    """What the plain ledger answers, what lost replies leave of it, and what the program answers of
    docs/RECIPES.md."""
    return (f"{check()} worked examples are answered as they stand, {doubted()} courses of lost replies "
            f"end as they should, and {recipes.play(trial)} requests of the recipes by the program")


if __name__ == "__main__":
    print(f"{check()} worked examples, of docs/MODEL.md and by hand, are answered so")
