"""Draws the two figures of ARCHITECTURE.md: the layers, and one request from the socket to the rows
and back.

    python3 docs/figures.py            writes docs/layers.svg and docs/request.svg
    python3 docs/figures.py --check    ends with 1 where a file is not as it would be written

Both are drawn from the lists below. It refuses a list that is no longer so. That is a crate of the
program that has no place among the layers, or a crate that stands on one of a higher layer. Or it is a
function that a step names and no file has."""

import pathlib
import re
import sys
from xml.sax.saxutils import escape

TOP = pathlib.Path(__file__).resolve().parent.parent
# Crates that the program does not call: tests, what they need, laws over what the program calls, and
# what it does not use yet.
BESIDE = {"keyed_trees", "ledger_layout", "ledger_spans", "ledger_entries", "ledger_trees", "seals", "samples",
          "failing_streams", "failing_disk", "noting_disk", "whole_runs"}
# Each row of the figure from the top: its parts beside each other. A crate may stand on crates of its
# own row and of the rows below.
LAYERS = [
    [("Program", "main; a body from standard input, answered over lists in memory",
      ["ledgerd", "bodies", "plain", "built_from"])],
    [("Commands and supervisor", "each command; the service; reopens a failed file, settles holds",
      ["commands", "listener", "command_line"]),
     ("Operator", "the admin socket, copies of a served file, texts",
      ["admin_client", "control", "copies", "metered_disk", "command_texts"])],
    [("Connections", "sockets, turns, group commits", ["sockets", "polling", "clients"]),
     ("Store", "a ledger file: opening, audit, crashes, reopening, migration",
      ["store", "openings", "migrate", "audit", "running", "reply_marks", "kept_sums", "file_sums"])],
    [("Requests and replies", "HTTP and JSON in and out, over any ledgers; isolation, retries",
      ["service", "parts", "wire", "ledger_http", "statement", "console"]),
     ("Tables", "SQL texts, one tenant's rows, batches in transactions",
      ["stored_ledgers", "stored_tables", "ledger_tables", "ledger_rules", "ledger_shape",
       "ledger_sql", "rows"])],
    [("Batches", "batches, chains and reads, over any tables: the traits Ledgers and Tables", ["chain"]),
     ("Rules", "the result of one event, and the definitions of a ledger",
      ["engine", "records", "amount"]),
     ("Tenants", "keys, digests, names", ["tenants"])],
]
BELOW = "The toolchain's crates: sqlite, mio, httparse, serde_json, clap, csv, sha2 and others"

# The bands of the second figure, from the top, each with its steps down and its steps up: what is
# done, and the crate and function that does it.
REQUEST = [
    ("Connections",
     [("the connection has its turn: bytes are read", "clients", "receive"),
      ("they are cut into one whole request", "ledger_http", "next")],
     [("as many bytes go out as the socket takes", "sockets", "write_to"),
      ("the reply goes into the connection's outbox", "clients", "put")]),
    ("Requests",
     [("its head: route and key, or a refusal", "ledger_http", "asked"),
      ("its JSON body: events, or a refusal", "wire", "meaning")], []),
    ("Transaction",
     [("it begins; the key's digest names the tenant", "stored_ledgers", "in_transaction")],
     [("commit: the log is synced", "stored_ledgers", "in_transaction"),
      ("the results become the reply's bytes", "wire", "reply_bytes")]),
    ("Batch",
     [("the clock moves; holds that are due are released", "chain", "run_transfers"),
      ("for each event: the rows that it meets are read", "chain", "transfer_facts")],
     [("a failed chain goes back to its savepoint", "chain", "run_batch")]),
    ("Rules",
     [("the event is refused with a result, or accepted", "engine", "decide_transfer")], []),
    ("Rows",
     [("what was accepted is written", "ledger_sql", "add_transfer")], []),
]

STYLE = """
  .page { fill: #ffffff } .band { fill: #f1f5f9; stroke: #94a3b8 } .box { fill: #ffffff; stroke: #64748b }
  .head { fill: #0f172a; font-weight: 600 } .words { fill: #334155 } .code { fill: #1d4ed8 }
  .arrow { stroke: #475569; fill: none } .tip { fill: #475569 }
  text { font-family: Helvetica, Arial, sans-serif } .code { font-family: Menlo, Consolas, monospace }
  @media (prefers-color-scheme: dark) {
    .page { fill: #0d1117 } .band { fill: #161b22; stroke: #3d444d } .box { fill: #0d1117; stroke: #6e7681 }
    .head { fill: #f0f6fc } .words { fill: #c9d1d9 } .code { fill: #79c0ff }
    .arrow { stroke: #8b949e } .tip { fill: #8b949e }
  }
"""
WIDE, EDGE, GAP = 920, 16, 10
TIP = ('<defs><marker id="tip" markerWidth="8" markerHeight="8" refX="6" refY="4" orient="auto">'
       '<path class="tip" d="M0,0 L8,4 L0,8 z"/></marker></defs>')


def text(x, y, words, kind="words", size=13):
    return f'<text class="{kind}" x="{x:.0f}" y="{y:.0f}" font-size="{size}">{escape(words)}</text>'


def box(x, y, wide, tall, kind="box"):
    return (f'<rect class="{kind}" x="{x:.0f}" y="{y:.0f}" width="{wide:.0f}" height="{tall:.0f}" '
            'rx="6"/>')


def arrow(*points):
    line = " ".join(f"{x:.0f},{y:.0f}" for x, y in points)
    return f'<polyline class="arrow" points="{line}" marker-end="url(#tip)"/>'


def picture(tall, title, parts):
    return (f'<svg xmlns="http://www.w3.org/2000/svg" width="{WIDE}" height="{tall}" '
            f'viewBox="0 0 {WIDE} {tall}" role="img" aria-label="{escape(title)}">\n'
            f"<style>{STYLE}</style>\n{TIP}\n{box(0, 0, WIDE, tall, 'page')}\n"
            + "\n".join(parts) + "\n</svg>\n")


def broken(words, most):
    """The words in lines of at most this many letters."""
    lines = [""]
    for word in words:
        longer = f"{lines[-1]} {word}".strip()
        if len(longer) > most and lines[-1]:
            lines.append(word)
        else:
            lines[-1] = longer
    return lines


def layers():
    """The layers, a row each: what stands higher calls what stands lower."""
    parts, y = [], EDGE
    for row in LAYERS:
        wide = (WIDE - 2 * EDGE - (len(row) - 1) * GAP) / len(row)
        texts = [(title, broken(what.split(), wide / 6.6), broken(crates, wide / 8.2))
                 for title, what, crates in row]
        tall = max(34 + 18 * (len(what) + len(crates)) for _, what, crates in texts)
        for at, (title, what, crates) in enumerate(texts):
            x = EDGE + at * (wide + GAP)
            parts += [box(x, y, wide, tall, "band"), text(x + 12, y + 21, title, "head", 15)]
            parts += [text(x + 12, y + 41 + 18 * line, words) for line, words in enumerate(what)]
            parts += [text(x + 12, y + 41 + 18 * (len(what) + line), words, "code")
                      for line, words in enumerate(crates)]
        y += tall + GAP
    parts += [box(EDGE, y, WIDE - 2 * EDGE, 34), text(EDGE + 12, y + 22, BELOW)]
    return picture(y + 34 + EDGE, "The layers of ledgerd, and the crates of each", parts)


def step(x, y, wide, number, what, crate, function):
    return [box(x, y, wide, 46), text(x + 10, y + 19, f"{number}. {what}"),
            text(x + 10, y + 37, f"{crate}::{function}", "code", 12)]


def request():
    """The bands that a request goes down through, and the steps by which its reply comes up."""
    label, wide = 120, 366
    down, up = EDGE + label, EDGE + label + wide + 20
    parts, y, number, lefts, rights = [], EDGE, 0, [], []
    total = sum(len(going) for _, going, _ in REQUEST)
    rising = total + sum(len(coming) for _, _, coming in REQUEST)
    for title, going, coming in REQUEST:
        steps = max(len(going), len(coming))
        tall = steps * 56 + 10
        parts += [box(EDGE, y, WIDE - 2 * EDGE, tall, "band"),
                  text(EDGE + 12, y + tall / 2 + 5, title, "head", 14)]
        for at, (what, crate, function) in enumerate(going):
            number += 1
            parts += step(down, y + 10 + 56 * at, wide, number, what, crate, function)
            lefts.append(y + 10 + 56 * at)
        for at, (what, crate, function) in enumerate(coming):
            parts += step(up, y + 10 + 56 * at, wide, rising - len(rights), what, crate, function)
            rights.append(y + 10 + 56 * at)
        y += tall + GAP
    parts += [arrow((down + 40, top + 46), (down + 40, bottom - 1))
              for top, bottom in zip(lefts, lefts[1:])]
    parts += [arrow((up + 40, bottom), (up + 40, top + 47)) for top, bottom in zip(rights, rights[1:])]
    parts.append(arrow((down + wide, lefts[-1] + 23), (up + 40, lefts[-1] + 23),
                       (up + 40, rights[-1] + 47)))
    return picture(y - GAP + EDGE, "One request, from the socket to the rows and back", parts)


def crates_of():
    """The crates of the repository, each with those that it names."""
    found = {}
    for line in (TOP / "crates.txt").read_text().splitlines():
        name, named, uses = line.split("#")[0].partition(":")
        if named:
            found[name.split()[0]] = uses.split()
    return found


def faults():
    """What the lists say and the repository does not."""
    crates = crates_of()
    rows = {crate: at for at, row in enumerate(LAYERS) for _, _, names in row for crate in names}
    for crate, uses in crates.items():
        if crate.endswith("_tests") or crate in BESIDE:
            continue
        if crate not in rows:
            yield f"{crate} has no place among the layers"
            continue
        for use in uses:
            if rows.get(use, len(LAYERS)) < rows[crate]:
                yield f"{crate} stands on {use}, of a higher layer"
    for crate in rows:
        if crate not in crates:
            yield f"{crate} is no crate"
    for _, going, coming in REQUEST:
        for _, crate, function in going + coming:
            texts = (it.read_text() for it in (TOP / "crates" / crate / "src").rglob("*.rt"))
            if not any(re.search(rf"\bfn {function}\b", it) for it in texts):
                yield f"{crate} has no function {function}"


def main():
    told = list(faults())
    if told:
        sys.exit("\n".join(told))
    for name, drawn in ("layers", layers()), ("request", request()):
        path = TOP / "docs" / f"{name}.svg"
        if "--check" not in sys.argv:
            path.write_text(drawn)
        elif not path.exists() or path.read_text() != drawn:
            sys.exit(f"docs/{name}.svg is not as docs/figures.py draws it: run python3 docs/figures.py")


main()
