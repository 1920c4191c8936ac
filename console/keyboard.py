"""The console by the keyboard alone: each step by Tab, Enter, Space and arrows, as somebody does it
who has no mouse."""

from browser import Failed
from trial import want

FOCUSED = """const it = document.activeElement;
    return it.id || it.getAttribute("href") || it.closest("section")?.dataset.view || it.localName;"""
IS_SEEN = """const style = getComputedStyle(document.activeElement);
    return document.activeElement.matches("h2, main")
        || style.outlineStyle !== "none" && parseFloat(style.outlineWidth) >= 2;"""
PLACE = "return [...document.querySelectorAll('*')].indexOf(document.activeElement)"
# Whether what has the focus now stands behind what had it before, as the page is read.
COMES_LATER = """const [before, now] = [window.before, document.activeElement];
    window.before = now;
    return !before?.isConnected || now.matches("body, html") || before === now
        || Boolean(before.compareDocumentPosition(now) & 4);"""


def tab_to(browser, wanted, held=None):
    """Presses Tab until the focus is there; where it is must be seen at each step."""
    for _ in range(90):
        browser.press("Tab", held=held)
        if not browser.run(IS_SEEN):
            raise Failed(f"on the way to {wanted} the focus on {browser.run(FOCUSED)} is not seen")
        if browser.run(FOCUSED) == wanted:
            return
    raise Failed(f"Tab does not come to {wanted}")


def has_focus(browser, wanted):
    browser.wait(f"const wanted = arguments[0]; {FOCUSED.replace('return', 'return wanted ===')}",
                 wanted, why=f"the focus on {wanted}")


def try_order(trial):
    """Tab goes through a view as it is read, from the first control to the last, and misses none."""
    browser = trial.browser
    for view in ("accounts", "statement/3", "search", "holds", "trial", "new", "names"):
        trial.go(*view.split("/"))
        browser.wait("return document.getElementById('stop').hidden", why=f"{view} is read")
        browser.run("window.before = document.getElementById('skip'); window.before.focus()")
        wanted = browser.run("""return [...document.querySelectorAll("a, button, input, select,"
            + " summary, [tabindex='0']")].filter((it) => it.getClientRects().length
                && !it.closest("details:not([open]) > :not(summary)")).length""")
        met = {browser.run(PLACE)}
        for _ in range(wanted + 20):
            browser.press("Tab")
            if browser.run("return document.activeElement === document.body"):
                break
            if not browser.run(COMES_LATER):
                break
            met.add(browser.run(PLACE))
        want(len(met), wanted, f"{view}: controls that Tab comes to, in order")


def try_keyboard(trial):
    """by the keyboard alone, from the key to following; and in the order in which it is read"""
    browser = trial.browser
    trial.open()
    browser.go("about:blank")
    browser.go(trial.url)
    has_focus(browser, "key")
    browser.press(trial.ledger.key, "Enter")
    has_focus(browser, "accounts")
    tab_to(browser, "#statement/3")
    browser.press("Enter")
    has_focus(browser, "statement")
    trial.told("Account 3:")
    tab_to(browser, "#transfer/101")
    browser.press("Enter")
    has_focus(browser, "transfer")
    browser.wait("return document.getElementById('fate').textContent", why="the fate of 101")
    tab_to(browser, "#search", held="Shift")
    browser.press("Enter")
    has_focus(browser, "search")
    tab_to(browser, "sought")
    browser.press("101", "Enter")
    trial.told("0 accounts and 1 transfer found.")
    tab_to(browser, "#new", held="Shift")
    browser.press("Enter")
    has_focus(browser, "new")
    tab_to(browser, "follow")
    browser.press("Space")
    trial.told("New transfers are followed.")
    browser.press("Space")
    trial.told("no longer")
    try_order(trial)
    tab_to(browser, "forget", held="Shift")
    browser.press("Enter")
    trial.told("forgotten")
    trial.quiet()
