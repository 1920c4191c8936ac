"""Puts the tables of a run into `README.md`: each has the head of a table there, whose rows it takes
the place of, the first of that head first.

    python3 bench/paste.py FIGURES

FIGURES is a file with what `bench/speed` has printed."""

import pathlib
import sys

README = pathlib.Path(__file__).resolve().parent / "README.md"


def tables(lines):
    """Where each table with a head begins, and its lines."""
    at = 0
    while at < len(lines):
        end = at
        while end < len(lines) and lines[end].startswith("|"):
            end += 1
        if end - at > 2:
            yield at, lines[at:end]
        at = end + 1


def main():
    figures = pathlib.Path(sys.argv[1]).read_text(encoding="utf-8").splitlines()
    lines = README.read_text(encoding="utf-8").splitlines()
    behind = 0
    for _, new in tables(figures):
        start, old = next(each for each in tables(lines)
                          if each[0] >= behind and each[1][0] == new[0])
        lines[start:start + len(old)] = new
        behind = start + len(new)
    README.write_text("\n".join(lines) + "\n", encoding="utf-8")


main()
