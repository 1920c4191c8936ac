"""The page before a ledger, as a trial goes about it."""

import csv
import pathlib
import re
import time

from browser import Failed

ROWS = """return [...document.querySelectorAll(arguments[0] + " tbody tr")]
    .map((row) => [...row.children].map((cell) => cell.textContent.trim()))"""
MOST_OF_A_PICTURE = 100_000
TEXT = "return document.querySelector(arguments[0]).textContent.trim()"
ZONE = "Europe/Berlin"


def want(found, expected, what):
    if found != expected:
        raise Failed(f"{what}:\n  on the page {found!r}\n  expected    {expected!r}")


def shown(value, places=0):
    """An amount as a person writes it: groups of three, a point, and a minus sign."""
    digits = str(abs(int(value))).rjust(places + 1, "0")
    sign = "\u2212" if int(value) < 0 else ""
    whole = f"{sign}{int(digits[:len(digits) - places]):,}"
    return f"{whole}.{digits[-places:]}" if places else whole


def balance(net, places=0):
    """Credits less debits, with the side on which they are more."""
    side = "\u00a0Cr" if net > 0 else "\u00a0Dr" if net < 0 else ""
    return shown(abs(net), places) + side


class Trial:
    """The page in front of a ledger."""

    def __init__(self, browser, ledger, url, pictures, folder):
        self.browser, self.ledger, self.url, self.pictures = browser, ledger, url, pictures
        self.origin, self.folder = url.rstrip("/"), pathlib.Path(folder)
        browser.tools("Emulation.setTimezoneOverride", timezoneId=ZONE)
        browser.tools("Browser.setDownloadBehavior", behavior="allow",
                      downloadPath=str(self.folder))

    def told(self, text, place="#told"):
        self.browser.wait("return document.querySelector(arguments[0]).textContent"
                          ".includes(arguments[1])", place, text, why=f"{place}: {text}")

    def text(self, css):
        return self.browser.run(TEXT, css)

    def rows(self, css):
        return self.browser.run(ROWS, css)

    def open(self):
        """The page anew, with the key entered and nothing kept from before."""
        self.browser.go("about:blank")
        self.browser.go(self.url)
        self.browser.run("localStorage.clear()")
        self.enter_key()

    def enter_key(self):
        self.browser.fill("#key", self.ledger.key)
        self.browser.click("#key-form button")
        self.browser.wait("return !document.getElementById('views').hidden", why="the key is taken")

    def go(self, view, number=None):
        self.browser.run("location.hash = arguments[0]", view + (f"/{number}" if number else ""))
        self.browser.wait("return !document.querySelector(`[data-view=${arguments[0]}]`).hidden",
                          view, why=f"the view {view}")

    def choose(self, name, value):
        """Gives a field or a list a value, as a person chooses one."""
        self.browser.run("""const field = document.getElementById(arguments[0]);
            field.value = arguments[1];
            for (const kind of ["input", "change"]) field.dispatchEvent(new Event(kind));""",
            name, value)

    def statement(self, account, first="", last=""):
        """The statement of an account, from the one day to the other."""
        self.go("statement")
        self.choose("from", first)
        self.choose("to", last)
        self.browser.fill("#account", str(account))
        self.browser.run("document.getElementById('entries').replaceChildren()")
        self.browser.click("#statement-form button")
        self.browser.wait("return document.querySelector('#entries p, #entries caption') !== null",
                          why=f"the statement of {account}")

    def decimals(self, text, is_iso=True):
        self.go("names")
        self.browser.fill("#decimals", text)
        self.browser.click("#names-form button:not([type])")
        if self.browser.run("return document.getElementById('iso').checked") != is_iso:
            self.browser.click("#iso")

    def name_file(self, data):
        """Picks a file of names."""
        path = self.folder / "accounts.csv"
        path.write_bytes(data)
        self.go("names")
        element = self.browser._element("#names-file")
        self.browser.command(f"{element}/value", text=str(path))

    def search(self, kind, text, first="", last=""):
        self.go("search")
        self.browser.run("document.getElementById('told').textContent = ''")
        for name, value in (("kind", kind), ("sought", text), ("search-from", first),
                            ("search-to", last)):
            self.choose(name, value)
        self.browser.click("#search-form button")

    def sums(self):
        """What stands above a statement, by its words."""
        pairs = self.browser.run("""return [...document.querySelectorAll(".sums div")].map((it) =>
            [it.querySelector("dt").textContent, it.querySelector("dd").firstChild.data]);""")
        return dict(pairs)

    def saved(self, name, css, place=0):
        """The rows of a file that a button saves; place 1 is the one for spreadsheets."""
        path = self.folder / name
        path.unlink(missing_ok=True)
        self.browser.run("document.querySelectorAll(arguments[0] + ' .files button')[arguments[1]]"
                         ".click()", css, place)
        for _ in range(200):
            if path.exists() and path.stat().st_size:
                with path.open(newline="", encoding="utf-8-sig") as file:
                    return list(csv.DictReader(file))
            time.sleep(0.05)
        raise Failed(f"{name} was not saved")

    def picture(self, name, scrolled=0):
        if self.pictures:
            self.browser.run("document.activeElement.blur(); window.scrollTo(0, arguments[0])",
                             scrolled)
            path = self.pictures / f"console-{name}.png"
            self.browser.picture(path)
            want(path.stat().st_size <= MOST_OF_A_PICTURE, True, f"{path}: a picture that is small")

    def quiet(self, *but):
        """Nothing was logged but that the service refused these requests."""
        logged = self.browser.log()
        refused = [each for each in logged if each["source"] == "network"]
        want([each["message"] for each in logged if each not in refused], [], "the console's log")
        want([re.search(r"(?:status of |net::ERR_)(\w+)", each["message"])[1] for each in refused],
             list(but), "requests that were refused or not answered")
