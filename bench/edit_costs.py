"""Writes what an edit of each crate costs into the table of docs/DEVELOPING.md.

    python3 bench/edit_costs.py [FILE..]

FILE is what `make prove` printed, or the file in which `make run` keeps how long each crate took,
out/prove/seconds.json, which is read if no FILE is given. The greatest of several figures of a crate
counts, since the others may be of runs that took over what was proved. Where a crate has no figure,
there is a dash for it, and a plus after each sum that lacks it."""

import json
import pathlib
import re
import sys

TOP = pathlib.Path(__file__).resolve().parent.parent
PAGE = TOP / "docs/DEVELOPING.md"
BEGIN, END = "<!-- written by bench/edit_costs.py -->\n", "<!-- end -->\n"
HEAD = ("| Crate | Lines | It alone, s | Crates above it | With all of these, s | Longest chain up "
        "to `ledgerd`, s |\n|---|---|---|---|---|---|\n")


def crates_of():
    """The crates of the repository, each with those of the repository that it names."""
    lines = (it.split("#")[0].partition(":") for it in (TOP / "crates.txt").read_text().splitlines())
    named = {name.split()[0]: uses.split() for name, colon, uses in lines if colon}
    return {name: [it for it in uses if it in named] for name, uses in named.items()}


def below(crate, crates):
    """All crates that one stands on, itself among them."""
    found, due = set(), [crate]
    while due:
        it = due.pop()
        if it not in found:
            found.add(it)
            due += crates[it]
    return found


def chain(crate, above, seconds):
    """The seconds of the longest chain of crates from this one up, of those that are known."""
    return seconds.get(crate, 0) + max((chain(it, above, seconds) for it in above[crate]), default=0)


def shown(number, crates, seconds):
    """A number, which lacks what is not known of some crates."""
    return f"{number:,}{'' if set(crates) <= set(seconds) else '+'}"


def lines_of(crate):
    """The lines of a crate's code, definitions and proofs."""
    return sum(it.read_text().count("\n") for part, ending in
               (("src", "rt"), ("specs", "antt"), ("proofs", "antt"))
               for it in (TOP / "crates" / crate / part).rglob(f"*.{ending}"))


def table(seconds):
    crates = crates_of()
    program = below("ledgerd", crates)
    stand_on = {it: below(it, crates) for it in program}
    above = {it: [user for user in program if it in crates[user]] for it in program}
    rows = []
    for it in sorted(program):
        users = [user for user in program if it in stand_on[user] and user != it]
        alone = f"{seconds[it]:,}" if it in seconds else "–"
        whole = shown(sum(seconds.get(user, 0) for user in [it, *users]), [it, *users], seconds)
        longest = shown(chain(it, above, seconds), [it, *users], seconds)
        row = f"| `{it}` | {lines_of(it):,} | {alone} | {len(users)} | {whole} | {longest} |\n"
        rows.append((-len(users), it, row))
    lacking = sorted(program - set(seconds))
    if lacking:
        print(f"no figure of {', '.join(lacking)}")
    return HEAD + "".join(row for *_, row in sorted(rows))


def seconds_in(path):
    """The seconds of each crate that a file has, in either form."""
    text = pathlib.Path(path).read_text()
    if text.startswith("{"):
        return json.loads(text).items()
    return [(name, int(it)) for name, it in re.findall(r"^proof (\w+): \w+, (\d+) s$", text, re.M)]


def main():
    seconds = {}
    for path in sys.argv[1:] or [TOP / "out/prove/seconds.json"]:
        for crate, took in seconds_in(path):
            seconds[crate] = max(took, seconds.get(crate, 0))
    text = PAGE.read_text()
    before, begin, rest = text.partition(BEGIN)
    _, end, behind = rest.partition(END)
    if not begin or not end:
        sys.exit(f"{PAGE.name} has no place for the table: {BEGIN.strip()} and {END.strip()}")
    PAGE.write_text(before + begin + table(seconds) + end + behind)


main()
