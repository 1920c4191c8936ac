"""The console over the books of a small market: names, periods, files, print and pictures. Sums
are compared with those of `business.py`, which has added up what it booked."""

import base64
import datetime

from browser import Failed
from business import BANK, BUSY, CARDS, NAMES, names_file
from trial import balance, shown, want

LAST_MOMENT = "2026-11-30 14:00:00"
OCTOBER, NOVEMBER = datetime.date(2026, 10, 1), datetime.date(2026, 11, 1)


def with_names(trial):
    trial.open()
    trial.name_file(names_file().encode())
    trial.told(f"{len(NAMES)} names read from accounts.csv.")


def try_names(trial):
    """a file of names is kept in the browser for its ledger, without the key; bad ones are refused"""
    with_names(trial)
    trial.browser.go("about:blank")
    trial.browser.go(trial.url)
    trial.enter_key()
    trial.browser.wait("return document.querySelector('#accounts-out tbody tr')", why="accounts")
    want([row[0] for row in trial.rows("#accounts-out")],
         [f"{name}{number}" for number, name in NAMES.items()], "accounts by name")
    trial.choose("begins", "wallet a")
    want([row[0] for row in trial.rows("#accounts-out")], ["Wallet Alba Moreno2001"], "one name")
    trial.choose("begins", "")
    kept = trial.browser.run("return JSON.stringify(localStorage)")
    want([trial.ledger.key in kept, "Alba Moreno" in kept], [False, True], "what is kept")
    for data, fault in ((b"name,id\nx,1x\n", "Line 2: 1x is no account's id."),
                        (b"id,name,decimals\n1,x,\n2,y,39\n",
                         "Line 3: 39 is no number of decimals."),
                        (b"1,Bank\n", "first line has to name its columns")):
        trial.name_file(data)
        trial.told(fault, "#wrong")
        want(trial.text("#names-kept"), f"{len(NAMES)} names kept.", "names after a bad file")
    for data, name in ((b"id,name,decimals,note\r\n1000,\"Caf\xe9, \"\"Nord\"\"\",3,\r\n\r\n",
                        'Caf\u00e9, "Nord"'),
                       ("\ufeffID;Name\n=\"1000\";Z\u00fcrich".encode(), "Z\u00fcrich")):
        trial.name_file(data)
        trial.told("1 name read")
        trial.go("accounts")
        want(trial.rows("#accounts-out")[0][0], f"{name}1000", "a name of another encoding")
    trial.name_file(b"id,name,decimals\n1000,Bank,3\n")
    trial.told("1 name read")
    trial.go("accounts")
    told, = trial.ledger.accounts(BANK)
    want(trial.rows("#accounts-out")[0][3], shown(told["debits_posted"], 3), "its own decimals")
    trial.go("names")
    trial.browser.click("#names-remove")
    trial.go("accounts")
    want(trial.rows("#accounts-out")[0][0], "1000", "no name")
    trial.quiet()


def try_currencies(trial):
    """ledgers that are numbers of ISO 4217 have its letters and decimals, and need not"""
    currencies = {8: ("ALL", 2), 36: ("AUD", 2), 108: ("BIF", 0), 392: ("JPY", 0), 414: ("KWD", 3),
                  788: ("TND", 3), 840: ("USD", 2), 927: ("UYW", 4), 978: ("EUR", 2),
                  990: ("CLF", 4), 952: ("XOF", 0), 999: ("999", 0), 7: ("7", 0)}
    other = trial.ledger.key
    trial.ledger.key = trial.ledger.other_key
    trial.ledger.batch("/accounts", [{"id": str(100 * ledger + side), "ledger": ledger, "code": 1}
                                     for ledger in currencies for side in (1, 2)])
    trial.ledger.batch("/transfers", [
        {"id": str(ledger), "debit_account_id": str(100 * ledger + 1), "amount": "1234567",
         "credit_account_id": str(100 * ledger + 2), "ledger": ledger, "code": 1}
        for ledger in currencies])
    trial.open()
    trial.browser.wait("return document.querySelector('#accounts-out tbody tr')", why="accounts")
    want([(row[1], row[3]) for row in trial.rows("#accounts-out")[::2]],
         [(name, shown(1234567, places)) for name, places in currencies.values()], "currencies")
    trial.decimals("", False)
    trial.go("accounts")
    want([(row[1], row[3]) for row in trial.rows("#accounts-out")[::2]],
         [(str(ledger), "1,234,567") for ledger in currencies], "numbers")
    trial.ledger.key = other
    trial.quiet()


def try_periods(trial):
    """a month's opening and closing balance and its sums, of accounts with a history and without"""
    business = trial.ledger.business
    with_names(trial)
    for account in (BANK, CARDS, 2001, 2007, 3001, 3004):
        trial.statement(account, "2026-10-01", "2026-10-31")
        month = [each for each in business.entries
                 if OCTOBER <= each[0] < NOVEMBER and account in each[2:4]]
        debits = [each[4] for each in month if each[2] == account]
        credits = [each[4] for each in month if each[3] == account]
        want(trial.sums(), {
            "Opening balance": balance(business.net(account, OCTOBER), 2),
            "Debits": shown(sum(debits), 2), "Credits": shown(sum(credits), 2),
            "Closing balance": balance(business.net(account, NOVEMBER), 2)}, f"October of {account}")
        rows = [row for row in trial.rows("#entries") if not row[4]]
        want([row[1] for row in rows], [str(each[1]) for each in month], f"entries of {account}")
        want([row[3] for row in rows], [f"{NAMES[other]}{other}" for other in (
            each[3] if each[2] == account else each[2] for each in month)], "the other accounts")
    trial.statement("wallet alba moreno", "2026-11-01")
    told, = trial.ledger.accounts(2001)
    held = [amount for amount, _ in business.holds.values()][0]
    want([trial.sums()[name] for name in ("Held", "Available")],
         [balance(-int(told["debits_pending"]), 2), shown(business.free[2001], 2)],
         "what is held of a wallet")
    want(int(told["debits_pending"]), held, "the hold that was booked")
    trial.quiet()


def try_zone(trial):
    """the reader's time with UTC beside it, on both sides of the change to winter time"""
    with_names(trial)
    trial.statement(3001, "2026-10-24", "2026-10-26")
    # Berlin's clocks went from UTC+2 to UTC+1 on 25 October 2026.
    transfers = trial.ledger.ask("POST", "/history/transfers", {
        "account_id": "3001", "limit": 1000, "flags": 3,
        "timestamp_min": moment("2026-10-23T22:00"),
        "timestamp_max": moment("2026-10-26T22:59")})["transfers"]
    want(len(transfers) > 2, True, "entries on these days")
    for row, told in zip(trial.rows("#entries"), transfers, strict=True):
        utc = datetime.datetime.fromtimestamp(int(told["timestamp"]) // 10**9, datetime.UTC)
        here = utc + datetime.timedelta(hours=2 if utc.isoformat() < "2026-10-25T01" else 1)
        want(row[0], f"{here:%Y-%m-%d %H:%M:%S} {utc:%H:%M:%S} UTC", "a time")
    bounds = trial.browser.run("return [...document.querySelectorAll('#statement-head p time')]"
                               ".slice(0, 2).map((it) => it.textContent)")
    want(bounds, ["2026-10-24 00:00:00 2026-10-23 22:00:00 UTC",
                  "2026-10-26 23:59:59 22:59:59 UTC"], "the bounds of a period")
    trial.quiet()


def moment(text):
    return str(int(datetime.datetime.fromisoformat(f"{text}+00:00").timestamp()) * 10**9)


def try_files(trial):
    """a statement as a file: all its entries, amounts with decimals, and for spreadsheets as text"""
    with_names(trial)
    trial.statement(2003, "2026-11-01", "2026-11-30")
    rows = trial.saved("statement-2003.csv", "#entries")
    told = trial.ledger.ask("POST", "/transfers/lookup", [row["transfer"] for row in rows])
    want(len(rows), len(trial.rows("#entries")), "entries of the file")
    for row, it in zip(rows, told["transfers"], strict=True):
        is_debit = it["debit_account_id"] == "2003"
        other = it["credit_account_id" if is_debit else "debit_account_id"]
        side = "held" if it["flags"] & 10 else "debit" if is_debit else "credit"
        want({name: row[name] for name in ("time_stamp", "other_account", "other_account_name",
                                           side, "user_data_64", "side")},
             {"time_stamp": it["timestamp"], "other_account": other,
              "other_account_name": NAMES[int(other)], side: f"{int(it['amount']) / 100:.2f}",
              "user_data_64": it["user_data_64"], "side": "debit" if is_debit else "credit"},
             f"transfer {it['id']} in the file")
    sheet = trial.saved("statement-2003-sheet.csv", "#entries", 1)
    for row, it in zip(sheet, rows, strict=True):
        want([row["time_stamp"], row["balance"], row["other_account_name"]],
             [f'="{it["time_stamp"]}"', f'="{it["balance"]}"', it["other_account_name"]],
             "the same for spreadsheets")
    trial.quiet()


def try_print(trial):
    """a printed statement has all entries and nothing to click"""
    with_names(trial)
    trial.statement(CARDS, "2026-09-01", "2026-11-30")
    browser = trial.browser
    browser.tools("Emulation.setEmulatedMedia", media="print")
    seen = browser.run("""return ["header", "#statement-form", "#print", "#told", ".files", "details",
        "#entries table", "#statement-head h3", "#balance-picture svg"].map((css) =>
        document.querySelector(css).getClientRects().length > 0)""")
    want(seen, [False] * 6 + [True] * 3, "what is printed")
    browser.tools("Emulation.setEmulatedMedia", media="")
    pdf = base64.b64decode(browser.tools("Page.printToPDF", preferCSSPageSize=True,
                                         paperWidth=8.27, paperHeight=11.69)["data"])
    want([pdf[:5], pdf.count(b"/Type /Page\n") > 1], [b"%PDF-", True], "the pages")
    want(len(trial.rows("#entries")), len([it for it in trial.ledger.business.entries
                                           if CARDS in it[2:4]]), "the entries")
    trial.quiet()


def heights(trial, css):
    """Which amount each line of a picture is, by its place from the top."""
    return trial.browser.run("""const figure = document.querySelector(arguments[0]);
        const number = (it, name) => Number(it.getAttribute(name));
        return [[...figure.querySelectorAll("path.grid, path.zero")].map((it) =>
                Number(it.getAttribute("d").match(/ ([\\d.]+)H/)[1])),
            [...figure.querySelectorAll("text")].map((it) => it.textContent),
            [...figure.querySelectorAll("rect")].map((it) => number(it, "height")),
            figure.querySelector("path.line")?.getAttribute("d"),
            figure.querySelector("svg").getAttribute("aria-label")]""", css)


def cents(text):
    return int(text.replace(",", "").replace(".", "").replace("\u2212", "-"))


def heights_at_midnight(path):
    """Where a line of November stands as each of its days begins in Berlin."""
    begun, *steps, end = path.removeprefix("M").split("H")
    left, height = map(float, begun.split())
    span = int(moment(LAST_MOMENT.replace(" ", "T"))) - int(moment("2026-10-31T23:00"))
    heights = []
    for day in range(30):
        passed = left + day * 86400 * 10**9 / span * (float(end) - left)
        while steps and float(steps[0].split("V")[0]) < passed - 0.5:
            height = float(steps.pop(0).split("V")[-1])
        heights.append(height)
    return heights


def try_balance_picture(trial):
    """the line of a balance goes through the balances that were booked, and its table has them"""
    business = trial.ledger.business
    with_names(trial)
    for account in (2001, 3002, BANK):
        trial.statement(account, "2026-11-01", "2026-11-30")
        lines, words, _, path, label = heights(trial, "#balance-picture figure")
        first, last = cents(words[0]), cents(words[len(lines) - 1])
        a_cent = (lines[-1] - lines[0]) / (last - first)
        sign = -1 if account == BANK else 1
        for day, height in enumerate(heights_at_midnight(path)):
            net = business.net(account, NOVEMBER + datetime.timedelta(day))
            wanted = lines[0] + (sign * net - first) * a_cent
            if abs(height - wanted) > 1:
                raise Failed(f"{account}: {net} after {day} days is at {height}, not at {wanted}")
        want(label.endswith(f"from {balance(business.net(account, NOVEMBER), 2)} to "
                            f"{balance(business.net(account), 2)}"), True, label)
        table = trial.rows("#balance-picture")
        day = NOVEMBER + datetime.timedelta(len(table) // 2)
        found = next(row for row in table if row[0] >= f"{day} 23")
        day = datetime.date.fromisoformat(found[0][:10])
        want(found[1], balance(business.net(account, day + datetime.timedelta(1)), 2),
             f"{account} at the end of {day}")
    trial.quiet()


def try_day(trial):
    """a day's volume by hour of the reader's, as bars and as a table"""
    with_names(trial)
    trial.go("day")
    trial.choose("day", str(BUSY))
    trial.browser.click("#day-form button")
    trial.told(f" on {BUSY}.")
    query = {"limit": 1000, "timestamp_min": moment(f"{BUSY - datetime.timedelta(1)}T23:00"),
             "timestamp_max": str(int(moment(f"{BUSY}T23:00")) - 1)}
    sums, counts = [0] * 24, [0] * 24
    for it in trial.ledger.ask("POST", "/query/transfers", query)["transfers"]:
        if not it["flags"] & 10:
            hour = (int(it["timestamp"]) - int(query["timestamp_min"])) // (3600 * 10**9)
            sums[hour] += int(it["amount"])
            counts[hour] += 1
    booked = [it[4] for it in trial.ledger.business.entries if it[0] == BUSY]
    want([sum(sums), sum(counts)], [sum(booked), len(booked)], "what was booked on that day")
    want(trial.rows("#day-out"), [[f"{hour:02}:00", str(counts[hour]), shown(sums[hour], 2)]
                                  for hour in range(24)], "the table of hours")
    lines, words, bars, _, _ = heights(trial, "#day-out figure")
    a_cent = (lines[0] - lines[-1]) / (cents(words[len(lines) - 1]) - cents(words[0]))
    for bar, amount in zip(bars, sums, strict=True):
        if abs(bar - amount * a_cent) > 0.6:
            raise Failed(f"{amount} has a bar of {bar}, not of {amount * a_cent}")
    trial.picture("day")
    trial.quiet()


def try_holds(trial):
    """open holds by due time, as bars and as a table, those without an end last"""
    holds = trial.ledger.business.holds
    told = trial.ledger.pages("/pending/open", "pending")
    with_names(trial)
    trial.go("holds")
    trial.told(f"{len(told)} open holds.")
    rows = trial.rows("#holds-out > div")
    want(sorted(row[1] for row in rows), sorted(each["id"] for each in told), "open holds")
    want(set(holds) <= {int(row[1]) for row in rows}, True, "those that were booked")
    for row in rows:
        if int(row[1]) in holds:
            want(row[5], shown(holds[int(row[1])][0], 2), f"hold {row[1]}")
    table = trial.rows("#holds-out figure")
    want(sum(cents(row[2]) for row in table), sum(cents(row[5]) for row in rows), "their sum")
    endless = [cents(row[5]) for row in rows if row[0] == "never"]
    want(table[-1], ["no end", str(len(endless)), shown(sum(endless), 2)], "those without an end")
    trial.picture("holds")
    trial.quiet()


def try_pictures(trial):
    """the pictures of docs: an accountant's morning at the market"""
    with_names(trial)
    trial.go("accounts")
    trial.picture("accounts")
    trial.statement(2001, "2026-11-01", "2026-11-30")
    trial.picture("statement", 130)
    number = trial.rows("#entries")[4][1]
    trial.go("trial")
    trial.browser.wait("return document.querySelector('#trial-out tfoot')", why="a trial balance")
    trial.picture("trial", 330)
    trial.go("transfer", number)
    trial.browser.wait("return document.querySelector('#transfer-out dd')", why=f"{number}")
    trial.picture("transfer")
    trial.search("Amount", "20-21", "2026-11-01", "2026-11-30")
    trial.told("found.")
    trial.picture("search")
    trial.quiet()


MARKET = (try_names, try_currencies, try_periods, try_zone, try_files, try_print,
          try_balance_picture, try_day, try_holds, try_pictures)
