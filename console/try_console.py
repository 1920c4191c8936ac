"""Tries the console in chromium, and compares each view with what the service answers over HTTP and
with what was booked. There are three ledgers: the worked session and more, a small market of three
months, and 10,000 accounts with 200,000 transfers while more come.

    python3 console/try_console.py LEDGERD [PICTURES] [--served] [--only NAME..]

It needs chromium with its driver, libfaketime, curl, and a shell. PICTURES is a folder for
screenshots. With --served the page is the file console/page.html, handed out by served.py, and not
the one that is part of LEDGERD. NAME is that of a trial, or of its ledger: session, market, busy."""

import argparse
import contextlib
import pathlib
import secrets
import socket
import tempfile
import threading
import time

import served
from browser import Browser, Failed
from busy import BUSY, PATIENCE, Busy
from business import Business
from keyboard import try_keyboard
from ledger import Ledger
from looks import try_looks
from market import LAST_MOMENT, MARKET
from trial import Trial, want
from views import (try_accounts, try_many, try_search, try_sorted, try_statement, try_transfer,
                   try_trial_balance)


def told_at(port, message):
    """All that is answered to a message, up to the end of the connection."""
    with socket.create_connection(("127.0.0.1", port), timeout=60) as connection:
        connection.sendall(message)
        connection.shutdown(socket.SHUT_WR)
        return b"".join(iter(lambda: connection.recv(1 << 16), b""))


def try_page(trial):
    """the page is the same bytes for everybody, and those of the server for its development"""
    port, page = trial.ledger.port, served.PAGE.read_text(encoding="utf-8")
    is_served = trial.origin != f"http://127.0.0.1:{port}"
    keys = ("", f"x-ledger-key: {trial.ledger.key}\r\n", "x-ledger-key: 1\r\n")
    for key in () if is_served else keys:
        told = told_at(port, f"GET / HTTP/1.1\r\n{key}\r\n".encode())
        want(told == served.reply_of(page), True, f"the page with {key!r}")
    with served.server(port) as development:
        threading.Thread(target=development.serve_forever, daemon=True).start()
        asked = b"GET / HTTP/1.1\r\nconnection: close\r\n\r\n"
        want(told_at(development.server_port, asked) == served.reply_of(page), True, "served.py")
        asked = f"GET /statement/3 HTTP/1.1\r\nx-ledger-key: {trial.ledger.key}\r\n"
        told = told_at(development.server_port, f"{asked}connection: close\r\n\r\n".encode())
        want(told.endswith(trial.ledger.ask("GET", "/statement/3").encode()), True, "handed on")
        development.shutdown()


def try_key(trial):
    """a wrong key is told, a good one opens the views, and it can be forgotten"""
    browser = trial.browser
    browser.go(trial.url)
    want(browser.run("return document.activeElement.id"), "key", "the focus at first")
    for key, told in (("00" * 31, "this has 62 characters"), (secrets.token_hex(32), "Nobody")):
        browser.fill("#key", key)
        browser.click("#key-form button")
        trial.told(told, "#wrong")
        want(browser.run("return [document.activeElement.id, document.activeElement.ariaInvalid]"),
             ["key", "true"], "the field of a wrong key")
    want(browser.run("return document.getElementById('views').hidden"), True, "no key, no view")
    trial.quiet("401")
    trial.open()
    want(trial.text("#wrong"), "", "a good key")
    want(browser.run("return document.getElementById('key').value"), "", "the key's field")
    for address in ("statement", "constructor"):
        browser.run("location.hash = arguments[0]", address)
        browser.wait("return !document.querySelector(`[data-view=${arguments[0]}]`).hidden",
                     address.replace("constructor", "accounts"), why=f"the view of {address}")
    browser.click("#forget")
    trial.told("forgotten")
    want(browser.run("return document.getElementById('views').hidden"), True, "a key forgotten")
    trial.quiet()


def try_following(trial):
    """a transfer that is made meanwhile appears once, whichever accounts were looked at"""
    trial.open()
    trial.go("new")
    trial.browser.click("#follow")
    trial.told("New transfers are followed.")
    trial.ledger.batch("/transfers", [
        {"id": "300", "debit_account_id": "1", "credit_account_id": "2", "amount": "5",
         "ledger": 978, "code": 1},
        {"id": "301", "debit_account_id": "2", "credit_account_id": "50", "amount": "6",
         "ledger": 978, "code": 1}])
    trial.told("2 new transfers.")
    want([[row[1], *row[3:7]] for row in trial.rows("#new-out")],
         [["301", "2", "50", "EUR", "0.06"], ["300", "1", "2", "EUR", "0.05"]], "new transfers")
    trial.go("accounts")
    trial.ledger.batch("/transfers", [{"id": "302", "debit_account_id": "50", "amount": "7",
                                       "credit_account_id": "1", "ledger": 978, "code": 1}])
    trial.told("3 new transfers came meanwhile.")
    trial.go("new")
    want([row[1] for row in trial.rows("#new-out")], ["302", "301", "300"], "each transfer once")
    trial.browser.click("#follow")
    trial.told("no longer")
    want(trial.browser.run("return document.getElementById('follow').ariaPressed"), "false", "off")
    trial.ledger.batch("/transfers", [{"id": "303", "debit_account_id": "50", "amount": "7",
                                       "credit_account_id": "1", "ledger": 978, "code": 1}])
    time.sleep(3)
    want(len(trial.rows("#new-out")), 3, "nothing more")
    trial.quiet()


def try_policy(trial):
    """the key stands in its header alone, and nothing is asked, or could be, of another host"""
    browser, key = trial.browser, trial.ledger.key
    trial.open()
    for request in browser.requests():
        if not request["url"].startswith((trial.origin + "/", "data:", "about:")):
            raise Failed(f"a request to {request['url']}")
        if key in request["url"] + request.get("postData", ""):
            raise Failed(f"the key stands in a request to {request['url']}")
    want(browser.run("return [localStorage.length, sessionStorage.length, document.cookie,"
                     " document.documentElement.outerHTML.includes(arguments[0]),"
                     " location.href.includes(arguments[0])]", key), [0, 0, "", False, False],
         "what is kept")
    headers = browser.run("""const [path, done] = [location.pathname, arguments[0]];
        const request = new XMLHttpRequest(); request.open("GET", path, false); request.send();
        return ["content-type", "x-content-type-options", "content-security-policy"]
            .map((name) => request.getResponseHeader(name));""")
    want(headers[:2], ["text/html; charset=utf-8", "nosniff"], "headers")
    trial.quiet()
    elsewhere = f"http://localhost:{trial.ledger.port}/statement/1"
    for script in ("fetch(arguments[0]).catch(() => {})",
                   "document.body.append(Object.assign(document.createElement('style'),"
                   " {textContent: 'p {}'}))"):
        browser.run(script, elsewhere)
    logged = str(browser.log())
    for directive in ("connect-src", "style-src"):
        want(directive in logged, True, f"the policy refuses by {directive}")


def try_silence(trial):
    """a service that is gone is told, and the page goes on once it is back"""
    trial.open()
    trial.ledger.end()
    trial.go("statement", "3")
    trial.told("does not answer", "#wrong")
    trial.quiet("502" if trial.origin != f"http://127.0.0.1:{trial.ledger.port}" else
                "CONNECTION_REFUSED")
    trial.ledger.serve()
    trial.browser.click("#statement-form button")
    trial.told("Account 3:")
    want(trial.text("#wrong"), "", "a service that is back")
    trial.quiet()


SESSION = (try_page, try_key, try_accounts, try_sorted, try_statement, try_transfer,
           try_trial_balance, try_search, try_keyboard, try_following, try_policy, try_silence,
           try_many)


@contextlib.contextmanager
def page_of(ledger, is_served):
    """Where the page is: that of the program, or that of the file before it."""
    if not is_served:
        yield f"http://127.0.0.1:{ledger.port}/"
        return
    with served.server(ledger.port) as development:
        threading.Thread(target=development.serve_forever, daemon=True).start()
        yield f"http://127.0.0.1:{development.server_port}/"
        development.shutdown()


def session(ledger, trial):
    ledger.play()


def market(ledger, trial):
    ledger.business = Business(ledger)
    ledger.business.book()
    ledger.set_moment(LAST_MOMENT)
    ledger.batch("/transfers", [])


def busy(ledger, trial):
    trial.browser.patience = PATIENCE
    trial.busy = Busy(ledger)
    trial.busy.book()


LEDGERS = ((session, SESSION, None), (market, (*MARKET, try_looks), "2026-09-01 06:00:00"),
           (busy, BUSY, None))


def name_of(trial):
    return trial.__name__.removeprefix("try_").replace("_", " ")


def try_ledger(arguments, log, book, trials, moment):
    """A ledger of its own with these books, and the trials over it."""
    chosen = [each for each in trials if not arguments.only
              or {book.__name__, name_of(each)} & set(arguments.only)]
    if not chosen:
        return
    with tempfile.TemporaryDirectory() as folder, \
            Ledger(str(arguments.ledgerd.resolve()), folder, log, moment) as ledger, \
            page_of(ledger, arguments.served) as url, Browser(log) as browser:
        trial = Trial(browser, ledger, url, arguments.pictures, folder)
        book(ledger, trial)
        for each in chosen:
            begun = time.monotonic()
            each(trial)
            print(f"{name_of(each)}: {each.__doc__} ({time.monotonic() - begun:.1f} s)", flush=True)


def main():
    parser = argparse.ArgumentParser()
    parser.add_argument("ledgerd", type=pathlib.Path)
    parser.add_argument("pictures", type=pathlib.Path, nargs="?")
    parser.add_argument("--served", action="store_true")
    parser.add_argument("--only", nargs="+", default=[])
    arguments = parser.parse_args()
    if arguments.pictures:
        arguments.pictures.mkdir(parents=True, exist_ok=True)
    with tempfile.TemporaryFile() as log:
        for book, trials, moment in LEDGERS:
            try_ledger(arguments, log, book, trials, moment)


if __name__ == "__main__":
    try:
        main()
    except Failed as fault:
        raise SystemExit(f"try_console: {fault}") from None
