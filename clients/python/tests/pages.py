"""What the pages in docs/ say, so that the client is compared with them."""

import pathlib
import re
import textwrap

TOP = pathlib.Path(__file__).resolve().parents[3]
MESSAGES = (TOP / "docs/MESSAGES.md").read_text()
RESULTS = (TOP / "docs/RESULTS.md").read_text()
MODEL = (TOP / "docs/MODEL.md").read_text()
OPENAPI = (TOP / "docs/openapi.yaml").read_text()


def indented(text, begins):
    """The indented block of a page whose first line begins so, with CR LF at the end of each line
    but the last."""
    found = re.search(rf"^    {begins}.*\n(?:(?:    .*)?\n)*?(?=^\S)", text, re.M)
    return "\r\n".join(textwrap.dedent(found.group()).rstrip("\n").split("\n")).encode()


def worked_message():
    return indented(MESSAGES, "POST /transfers HTTP")


def worked_reply():
    return indented(MESSAGES, "HTTP/1.1 200 OK")


def refusals():
    """The status and name of each refusal."""
    rows = re.findall(r"^\| (\d{3}) [A-Z][A-Za-z ]+ \| `(\w+)`", MESSAGES, re.M)
    return [(int(status), name) for status, name in rows]


def routes():
    """The method and path of each route."""
    return re.findall(r"^\| (POST|GET) \| `(/[\w/{}]+)`", MESSAGES, re.M)


def objects():
    """The string fields and the number fields of each object of a request."""
    kinds = "account|transfer|filter|query|page"
    rows = re.findall(rf"^\| ({kinds}) \| ([^|]+) \| ([^|]+) \|$", MESSAGES, re.M)
    words = r"[a-z][a-z_0-9]+(?=,|$| \()"
    return {kind: (set(re.findall(words, strings.strip())), set(re.findall(words, whole.strip())))
            for kind, strings, whole in rows}


def result_names():
    """The names by numbers, of accounts and of transfers."""
    _, accounts, transfers = re.split(r"^## (?:Accounts|Transfers)$", RESULTS, flags=re.M)
    return [{int(number): name for number, name in re.findall(r"^\| (\d+) \| `(\w+)`", part, re.M)}
            for part in (accounts, transfers)]


def flags(kind):
    """The names of the flags of `Account` or `Transfer` by their bits."""
    table = MODEL.partition(f"| Bit | {kind} flag |")[2].partition("\n\n")[0]
    return {int(bit): name for bit, name in re.findall(r"^\| (\d) \| (\w+) \|", table, re.M)}


def statement():
    """The statement that is shown of the route."""
    shown = OPENAPI.partition("/statement/{account}:")[2].partition("example: |\n")[2]
    lines = shown.splitlines()[:2]
    return "".join(line.strip() + "\n" for line in lines).encode()


def long_statement(many):
    """One of so many payments of 10, in the parts in which it comes: the header line and up to 500
    rows, and then up to 500 each."""
    head = statement().splitlines(keepends=True)[0]
    rows = [f"{place},{99 + place},debit,single,10,0,{10 * place},0,0\n".encode()
            for place in range(1, many + 1)]
    parts = [b"".join(rows[first:first + 500]) for first in range(0, many, 500)] or [b""]
    return [head + parts[0], *parts[1:]]


def listed(name):
    """The routes' shown bodies of replies as they stand in README's session, for a path."""
    return re.findall(rf"^> \S+ POST {name}\n> .*\n< 200\n((?:<.*\n)+)",
                      (TOP / "README.md").read_text(), re.M)
