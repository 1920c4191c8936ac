"""The views of the console over the worked session, each compared with what the service answers
over HTTP."""

from ledger import GREAT, MAX
from trial import balance, shown, want

IDS = ["1", "2", "3", str(MAX - 1), str(2**64 + 1), "50"]
KINDS = {"single": "Transfer", "pending": "Hold", "post": "Hold posted", "void": "Hold voided"}


def available(account, places):
    """What an account may still spend: by its limit, with what is held."""
    sums = {name: int(account[name]) for name in account if name.endswith(("posted", "pending"))}
    if account["flags"] & 2:
        return shown(sums["credits_posted"] - sums["debits_posted"] - sums["debits_pending"],
                     places)
    if account["flags"] & 4:
        return shown(sums["debits_posted"] - sums["credits_posted"] - sums["credits_pending"],
                     places)
    return ""


def account_row(account, places, currency=None):
    debits, credits = int(account["debits_posted"]), int(account["credits_posted"])
    return [account["id"], currency or str(account["ledger"]), str(account["code"]),
            shown(debits, places), shown(credits, places), balance(credits - debits, places),
            shown(account["debits_pending"], places), shown(account["credits_pending"], places),
            available(account, places)]


def try_accounts(trial):
    """each account as HTTP tells it, with amounts of nearly 128 bits digit by digit"""
    trial.open()
    told = trial.ledger.accounts(*IDS)
    for text, is_iso, places in (("", True, {978: 2}), ("", False, {}), ("7:38 978:1", True,
                                                                       {978: 1, 7: 38})):
        trial.decimals(text, is_iso)
        trial.go("accounts")
        names = {978: "EUR"} if is_iso else {}
        want(trial.rows("#accounts-out"),
             [account_row(each, places.get(each["ledger"], 0), names.get(each["ledger"]))
              for each in told], f"accounts with decimals {text!r}")
    trial.decimals("7")
    trial.told("7 is no ledger with decimals", "#wrong")
    trial.decimals("")
    trial.go("accounts")
    want(shown(GREAT) in str(trial.rows("#accounts-out")), True, "an amount above 2^64")
    for css, sought, found in (("begins", str(2**64)[:5], [str(2**64 + 1)]),
                               ("currency", "eur", ["1", "2", "3", "50"]),
                               ("currency", "978", ["1", "2", "3", "50"]),
                               ("begins", "9", [])):
        trial.choose(css, sought)
        want([row[0] for row in trial.rows("#accounts-out")], found, f"{css} {sought}")
        trial.choose(css, "")
    trial.quiet()


def try_sorted(trial):
    """the list in the order of each of its columns, and saved as it is, for spreadsheets too"""
    trial.open()
    trial.browser.wait("return document.querySelector('#accounts-out tbody tr')", why="accounts")
    told = trial.ledger.accounts(*IDS)
    keys = [lambda it: it["id"].rjust(39, "0"), lambda it: it["ledger"], lambda it: it["code"],
            lambda it: int(it["debits_posted"]), lambda it: int(it["credits_posted"]),
            lambda it: int(it["credits_posted"]) - int(it["debits_posted"])]
    for place, key in enumerate(keys):
        for is_down, way in ((False, "ascending"), (True, "descending")):
            trial.browser.run("document.querySelectorAll('#accounts-out th button')[arguments[0]]"
                              ".click()", place)
            want([row[0] for row in trial.rows("#accounts-out")],
                 [each["id"] for each in sorted(told, key=key, reverse=is_down)],
                 f"column {place}, {way}")
            want(trial.browser.run("return document.querySelectorAll('#accounts-out thead th')"
                                   "[arguments[0]].ariaSort", place), way, "what is told of it")
    rows = trial.saved("accounts.csv", "#accounts-out")
    want([row["account"] for row in rows], IDS, "the ids of the file")
    want([row["user_data_64"] for row in rows], [each["user_data_64"] for each in told],
         "the references of the file")
    rows = trial.saved("accounts-sheet.csv", "#accounts-out", 1)
    want([row["account"] for row in rows], [f'="{each}"' for each in IDS], "the ids of the sheet")
    debits = shown(told[0]["debits_posted"], 2).replace(",", "")
    want(rows[0]["debits"], f'="{debits}"', "an amount")
    trial.quiet()


def try_many(trial):
    """more accounts than one request may ask for"""
    accounts = [{"id": str(10_000 + each), "ledger": 13, "code": 1} for each in range(1_001)]
    trial.ledger.batch("/accounts", accounts[:1_000])
    trial.ledger.batch("/accounts", accounts[1_000:])
    trial.open()
    trial.browser.wait("return document.querySelector('#accounts-out caption')", why="a list")
    caption = trial.text("#accounts-out caption")
    want(caption.startswith("1,000 of 1,000 accounts read; there are more, as of "), True, caption)
    trial.browser.click("#all")
    trial.told("1,007 accounts read.")
    caption = trial.text("#accounts-out caption")
    want(caption.startswith("1,007 of 1,007 accounts, as of "), True, caption)
    want(len(trial.rows("#accounts-out")), 500, "rows at first")
    for count in (1_000, 1_007):
        trial.browser.run("[...document.querySelectorAll('#accounts-out button')]"
                          ".find((it) => it.textContent.startsWith('Show more')).click()")
        want(len(trial.rows("#accounts-out")), count, "rows then")
    trial.choose("begins", "1100")
    want([row[0] for row in trial.rows("#accounts-out")], ["11000"], "one that was not shown")
    trial.quiet()


def entry_row(entry, other, places):
    """A line of a statement, of what HTTP tells of it."""
    is_posted = entry["kind"] in ("single", "post")
    amount = shown(entry["amount"], places)
    net = int(entry["credits_posted"]) - int(entry["debits_posted"])
    return [entry["transfer_id"], KINDS[entry["kind"]], other, "" if is_posted else amount,
            amount if is_posted and entry["side"] == "debit" else "",
            amount if is_posted and entry["side"] == "credit" else "", balance(net, places)]


def entry_rows(ledger, account, places):
    entries = ledger.entries(account)
    transfers = ledger.ask("POST", "/transfers/lookup", [each["transfer_id"] for each in entries])
    others = [it["credit_account_id" if each["side"] == "debit" else "debit_account_id"]
              for each, it in zip(entries, transfers["transfers"], strict=True)]
    return [entry_row(each, other, places) for each, other in zip(entries, others, strict=True)]


def try_statement(trial):
    """entries as HTTP tells them, with the other account of each"""
    trial.open()
    for account, places in (("3", 2), ("2", 2), (str(2**64 + 1), 0)):
        trial.statement(account)
        want([row[1:] for row in trial.rows("#entries")],
             entry_rows(trial.ledger, account, places), f"the statement of {account}")
    told, = trial.ledger.accounts("3")
    trial.statement("3")
    net = int(told["credits_posted"]) - int(told["debits_posted"])
    want([trial.sums()[name] for name in ("Opening balance", "Closing balance", "Available")],
         ["0.00", balance(net, 2), available(told, 2)], "the sums of 3")
    trial.quiet()
    for account, fault in (("9", "There is no account with this id."),
                           ("x", "x is neither a number nor a UUID.")):
        trial.go("statement", account)
        trial.told(fault, "#wrong")
        want(trial.browser.run("return document.getElementById('statement-out').hidden"), True,
             "no statement")
    trial.quiet()


def try_transfer(trial):
    """holds that are open, posted, voided and expired, and what ended them"""
    fates = {
        "100": "Done: its amount is in the posted balances.",
        "101": "Posted in part by 102: 15.00 of 20.00. The rest was released.",
        "102": "Done: it posted 15.00 of 20.00 of the hold 101.",
        "103": "Expired at ",
        "200": "Voided by 201: nothing was posted.",
        "201": "Done: it voided the hold 200.",
        "202": "Posted whole by 203: 8.00 of 8.00.",
        "204": "Open: 9.00 are held until ",
        "205": "Open: 12,345.67 are held, with no end set.",
        str(2**100): "Done: its amount is in the posted balances.",
    }
    trial.open()
    for number, fate in fates.items():
        trial.go("transfer", number)
        trial.browser.wait("return document.querySelectorAll('#transfer-out dd')[1]?.textContent"
                           " === arguments[0]", number, why=f"transfer {number}")
        want(trial.text("#fate")[:len(fate)], fate, f"what became of {number}")
        told = trial.ledger.transfer(number)
        is_euro = told["ledger"] == 978
        want([trial.text(f"#transfer-out dd:nth-of-type({place})") for place in (4, 5, 6, 7, 9)],
             [told["debit_account_id"], told["credit_account_id"],
              "EUR" if is_euro else str(told["ledger"]), shown(told["amount"], 2 if is_euro else 0),
              str(told["code"])], f"transfer {number}")
    trial.go("transfer", "105")
    trial.told("There is no transfer with this id, or none yet.", "#wrong")
    want(trial.text("#transfer-out"), "", "no transfer")
    trial.quiet()


def try_trial_balance(trial):
    """for each ledger debits equal credits, of all accounts whichever were looked at"""
    trial.open()
    trial.statement("3")
    trial.go("trial")
    trial.browser.wait("return document.querySelectorAll('#trial-out tfoot').length === 2",
                       why="two ledgers")
    told = trial.ledger.accounts(*IDS)
    for place, (ledger, places) in enumerate(((7, 0), (978, 2))):
        accounts = [each for each in told if each["ledger"] == ledger]
        debits, credits = ([int(each[f"{side}_posted"]) for each in accounts]
                           for side in ("debits", "credits"))
        held = sum(int(each["debits_pending"]) for each in accounts)
        want(sum(debits), sum(credits), "the service's own sums")
        nets = [credit - debit for debit, credit in zip(debits, credits, strict=True)]
        foot = trial.browser.run("""return [...document.querySelectorAll("#trial-out tfoot tr")]
            [arguments[0]].innerText.split(/[\\t\\n]+/).map((it) => it.trim()).filter(Boolean)""",
            place)
        want(foot, ["Sum", *(shown(each, places) for each in (
            sum(debits), sum(credits), -sum(it for it in nets if it < 0),
            sum(it for it in nets if it > 0)))], f"the sums of {ledger}")
        verdict = trial.browser.run("return [...document.querySelectorAll('#trial-out .good')]"
                                    ".map((it) => it.textContent)")[place]
        want(verdict, f"Posted: debits equal credits, {shown(sum(debits), places)}. "
             f"Held: debits equal credits, {shown(held, places)}. ", f"ledger {ledger}")
    want(trial.browser.run("return document.querySelector('.bad')"), None, "no red")
    trial.quiet()


def try_search(trial):
    """by id, by reference in each of its fields, by a UUID, and by amount"""
    trial.open()
    wide = MAX - 2**90
    uuid = f"{wide:032x}"
    uuid = "-".join((uuid[:8], uuid[8:12], uuid[12:16], uuid[16:20], uuid[20:]))
    trial.ledger.batch("/transfers", [
        {"id": "210", "debit_account_id": "1", "credit_account_id": "2", "amount": "4321",
         "ledger": 978, "code": 3, "user_data_128": str(wide)},
        {"id": "211", "debit_account_id": "1", "credit_account_id": "2", "amount": "4322",
         "ledger": 978, "code": 3, "user_data_64": str(2**64 - 1)},
        {"id": "212", "debit_account_id": "1", "credit_account_id": "2", "amount": "4323",
         "ledger": 978, "code": 3, "user_data_32": 4711, "user_data_64": "4711"}])
    for kind, text, accounts, transfers in (
            ("Id", "3", ["3"], []), ("Id", "101", [], ["101"]), ("Id", "77", [], []),
            ("Reference", "4711", ["50"], ["212"]), ("Reference", uuid, [], ["210"]),
            ("Reference", str(2**64 - 1), [str(2**64 + 1)], ["211"]),
            ("Amount", "43.21", [], ["210"]), ("Amount", "43.21-43.22", [], ["211", "210"]),
            ("Amount", "43.210", [], ["210"]),
            ("Amount", "12,345.67", [], ["205"]), ("Amount", shown(GREAT), [], [str(2**100)])):
        trial.search(kind, text)
        trial.told("found.")
        tables = trial.browser.run("""return [...document.querySelectorAll("#search-out table")]
            .map((it) => [...it.querySelectorAll("tbody tr")].map((row) =>
                [...row.children].map((cell) => cell.textContent.trim())))""")
        found = [[row[0] for row in table] for table in tables if len(table[0]) == 9]
        want(found, [accounts] if accounts else [], f"accounts by {kind} {text}")
        found = [[row[1] for row in table] for table in tables if len(table[0]) == 8]
        want(found, [transfers] if transfers else [], f"transfers by {kind} {text}")
    for kind, text, fault in (("Id", "x", "x is neither a number nor a UUID."),
                              ("Amount", "12,50", "12,50 is no amount")):
        trial.search(kind, text)
        trial.told(fault, "#wrong")
    trial.search("Amount", "43.21", "2020-01-01", "2020-12-31")
    trial.told("0 accounts and 0 transfers found.")
    trial.quiet()
