"""How the console looks: narrow, dark and light; and what a screen reader is told of it."""

from browser import Failed
from business import names_file
from trial import want

VIEWS = ("accounts", "statement", "transfer", "search", "holds", "day", "trial", "new", "names")
NAMED = {"textbox", "searchbox", "button", "link", "combobox", "checkbox", "table", "region",
         "image", "navigation", "search", "Date", "DisclosureTriangle"}
# How far what is seen reaches to the right, and by which element.
REACH = """let most = [document.documentElement.scrollWidth, "the page"];
    for (const it of document.body.querySelectorAll("*")) {
        const box = it.getBoundingClientRect();
        if (box.width && box.right > 360 && box.right >= most[0]) {
            most = [box.right, it.outerHTML.slice(0, 80)];
        }
    }
    return most;"""
# Words in a picture that stand on each other, or beyond it.
CROWDED = """return [...document.querySelectorAll("svg")].flatMap((svg) => {
        const [edge, words] = [svg.getBoundingClientRect(), [...svg.querySelectorAll("text")]];
        const boxes = words.map((it) => it.getBoundingClientRect());
        return words.filter((it, place) => boxes[place].left < edge.left - 1
            || boxes[place].right > edge.right + 1
            || boxes.some((box, other) => other > place && box.left < boxes[place].right
                && boxes[place].left < box.right && box.top < boxes[place].bottom - 4
                && boxes[place].top < box.bottom - 4));
    }).map((it) => it.textContent);"""
# The least contrast between a text and what is behind it, and its element. WCAG 2 asks for 4.5.
CONTRAST = """
    const parts = (color) => color.match(/[\\d.]+/g).map(Number);
    const light = (color) => parts(color).slice(0, 3).map((it) => it / 255)
        .map((it) => it <= 0.04045 ? it / 12.92 : ((it + 0.055) / 1.055) ** 2.4)
        .reduce((sum, it, place) => sum + it * [0.2126, 0.7152, 0.0722][place], 0);
    const behind = (it) => {
        const color = getComputedStyle(it).backgroundColor;
        return (parts(color)[3] ?? 1) > 0 || !it.parentElement ? color : behind(it.parentElement);
    };
    let least = [99, ""];
    for (const it of document.body.querySelectorAll("*")) {
        const hasText = [...it.childNodes].some((each) => each.nodeType === 3 && each.data.trim());
        if (!hasText || !it.getClientRects().length || it.disabled) continue;
        const two = [light(getComputedStyle(it).color), light(behind(it))].sort((a, b) => b - a);
        const contrast = (two[0] + 0.05) / (two[1] + 0.05);
        if (contrast < least[0]) least = [contrast, it.outerHTML.slice(0, 80)];
    }
    return least;"""


# The least contrast between what is drawn and what is behind it. WCAG 2 asks for 3.
DRAWN = CONTRAST.replace("let least", """
    const kinds = [[".line", "stroke"], ["rect", "fill"], [".zero", "stroke"]];
    let least""").replace("it of document.body.querySelectorAll(\"*\")",
                         "[it, kind] of kinds.flatMap(([css, kind]) =>"
                         " [...document.querySelectorAll(`svg ${css}`)].map((it) => [it, kind]))"
                         ).replace(
    "const hasText = [...it.childNodes].some((each) => each.nodeType === 3 && each.data.trim());",
    "").replace("!hasText || ", "").replace("getComputedStyle(it).color",
                                            "getComputedStyle(it)[kind]")


def settle(trial, view):
    """Goes to a view of the market, and waits until it has something to show."""
    trial.go(view, {"transfer": trial.hold}.get(view))
    if view == "statement":
        trial.statement(2001, "2026-11-01", "2026-11-30")
    elif view == "search":
        trial.search("Amount", "20-21")
    elif view == "day":
        trial.choose("day", "2026-11-27")
        trial.browser.click("#day-form button")
    elif view == "new" and not trial.browser.run("return document.querySelector('#new-out table')"):
        trial.browser.click("#follow")
    if view != "names":
        place = {"transfer": "#transfer-out dd", "statement": "#entries tbody tr",
                 "new": "#new-out table", "day": "#day-out svg path"}.get(
                     view, f"#{view}-out tbody tr")
        trial.browser.wait("return document.querySelector(arguments[0])"
                           "?.getClientRects().length > 0", place, why=view)
    trial.browser.wait("return document.getElementById('stop').hidden", why=f"{view} is read")


def each_view(trial):
    for view in VIEWS:
        settle(trial, view)
        yield view


def try_narrow(trial):
    """At 360 pixels nothing has to be scrolled sideways."""
    trial.browser.tools("Emulation.setDeviceMetricsOverride", width=360, height=740,
                        deviceScaleFactor=1, mobile=True)
    for view in each_view(trial):
        trial.browser.run("document.querySelectorAll('details').forEach((it) => it.open = true)")
        reach, by = trial.browser.run(REACH)
        if reach > 360:
            raise Failed(f"{view} reaches to {reach} of 360 pixels: {by}")
        try_names_of(trial, view)
        want(trial.browser.run(CROWDED), [], f"{view}: words in a narrow picture")
    settle(trial, "statement")
    trial.picture("narrow", 330)
    trial.browser.tools("Emulation.clearDeviceMetricsOverride")


def try_scheme(trial, scheme):
    """The page follows the system's choice; each text can be read, and each picture seen."""
    trial.browser.tools("Emulation.setEmulatedMedia",
                        features=[{"name": "prefers-color-scheme", "value": scheme}])
    for view in each_view(trial):
        for script, wanted in ((CONTRAST, 4.5), (DRAWN, 3)):
            contrast, where = trial.browser.run(script)
            want(trial.browser.run(CROWDED), [], f"{view}: words in a picture")
            if contrast < wanted:
                raise Failed(f"{view}, {scheme}: a contrast of {contrast:.2f}: {where}")
    if scheme == "dark":
        settle(trial, "day")
        trial.picture("dark")
    return trial.browser.run("return getComputedStyle(document.body).backgroundColor")


def try_names_of(trial, view):
    """Each control, picture, table and region has a name, fields have labels that are seen, cells
    have their heads, and there is one h1."""
    nodes = [each for each in trial.browser.tools("Accessibility.getFullAXTree")["nodes"]
             if not each.get("ignored")]
    roles = [each["role"]["value"] for each in nodes]
    for each in nodes:
        role, name = each["role"]["value"], each.get("name", {}).get("value", "")
        if role in NAMED and not name.strip():
            raise Failed(f"{view}: a {role} without a name")
    if trial.browser.run("return document.querySelectorAll('h1').length") != 1:
        raise Failed("not one h1")
    bare = trial.browser.run("""return [...document.querySelectorAll("input, select")].filter((it) =>
        it.getClientRects().length && ![...it.labels].some((label) =>
            label.getClientRects().length && label.innerText.trim())).map((it) => it.id)""")
    if bare:
        raise Failed(f"{view}: fields without a label: {bare}")
    wanted = {"banner", "main", "navigation", "status"}
    if view not in ("transfer", "names"):
        wanted |= {"table", "columnheader"}
    if view in ("accounts", "statement", "trial", "holds", "day", "search"):
        wanted |= {"rowheader", "cell"}
    if view in ("statement", "holds", "day"):
        wanted |= {"image"}
    if wanted - set(roles):
        raise Failed(f"{view}: a screen reader finds no {', '.join(sorted(wanted - set(roles)))}")


def try_looks(trial):
    """360 pixels wide, dark and light, and names for screen readers"""
    trial.open()
    trial.hold = min(trial.ledger.business.holds)
    trial.name_file(names_file().encode())
    trial.told("names read")
    for view in each_view(trial):
        trial.browser.run("document.querySelectorAll('details').forEach((it) => it.open = true)")
        try_names_of(trial, view)
    try_narrow(trial)
    papers = [try_scheme(trial, scheme) for scheme in ("dark", "light")]
    if papers[0] == papers[1]:
        raise Failed("dark and light are the same")
    trial.browser.tools("Emulation.setEmulatedMedia", features=[])
    trial.quiet()
