"""Draws two tables of `README.md` as a chart of bars, a group a case, each on a scale of powers of ten:
what many clients get done, and what a transfer takes in batches.

    python3 bench/chart.py"""

import math
import pathlib
from xml.sax.saxutils import escape

HERE = pathlib.Path(__file__).resolve().parent
COLOURS = {"ledgerd": "#2b6cb0", "PostgreSQL": "#dd6b20", "C SQLite": "#a0aec0"}
LEFT, WIDE, BAR, GAP, TOP = 290, 500, 11, 9, 46
# For each panel its title, how the head of its table begins, the columns of each program, the words
# of a case by its first cells, and the unit.
PANELS = [
    ("Transfers a second", "| Clients | Tenants | In batches of |",
     {"ledgerd": 3, "PostgreSQL": 4, "C SQLite": 5}, "{0} clients, {1} tenants, batches of {2}", ""),
    ("Microseconds a transfer, one client in the process", "| Accounts | Stored before |",
     {"ledgerd": 3, "PostgreSQL": 6, "C SQLite": 4}, "{0} accounts, {1}, batches of {2}", " µs"),
]


def cells_of(line):
    return [cell.strip() for cell in line.strip().strip("|").split("|")]


def table(lines, head):
    """The cells of the rows of the first table whose head begins so."""
    start = next(at for at, line in enumerate(lines) if line.startswith(head))
    for line in lines[start + 2:]:
        if not line.startswith("|"):
            return
        yield cells_of(line)


def number(cell):
    return float(cell.replace(",", "")) if cell else math.nan


def text(x, y, words, anchor="start", size=12):
    return (f'<text x="{x:.0f}" y="{y:.0f}" font-size="{size}" text-anchor="{anchor}" '
            f'font-family="sans-serif">{escape(words)}</text>')


def bar(x, y, wide, tall, name):
    return (f'<rect x="{x:.0f}" y="{y:.0f}" width="{wide:.1f}" height="{tall}" '
            f'fill="{COLOURS[name]}"/>')


def drawn(top, title, columns, cases, unit):
    """The parts of a panel that begins so far down, and where it ends."""
    known = [each for _, told in cases for each in told.values() if not math.isnan(each)]
    low, high = math.floor(math.log10(min(known))), math.ceil(math.log10(max(known)))
    place = lambda amount: (math.log10(amount) - low) / (high - low) * WIDE
    group = BAR * len(columns) + GAP
    end = top + TOP + group * len(cases) + 30
    parts = [text(8, top + 16, title)]
    for at, name in enumerate(columns):
        parts += [bar(LEFT + 130 * at, top + 24, 10, 10, name),
                  text(LEFT + 130 * at + 15, top + 33, name)]
    for power in range(low, high + 1):
        x = LEFT + place(10 ** power)
        parts += [f'<line x1="{x:.0f}" x2="{x:.0f}" y1="{top + TOP - 6}" y2="{end - 24}" '
                  'stroke="#e2e8f0"/>', text(x, end - 8, f"{10 ** power:,}{unit}", "middle", 11)]
    for row, (case, told) in enumerate(cases):
        y = top + TOP + group * row
        parts.append(text(LEFT - 8, y + group / 2, case, "end"))
        parts += [bar(LEFT, y + BAR * at, place(each), BAR - 2, name)
                  for at, (name, each) in enumerate(told.items()) if not math.isnan(each)]
    return parts, end


def main():
    lines = (HERE / "README.md").read_text(encoding="utf-8").splitlines()
    parts, end = [], 0
    for title, head, columns, words, unit in PANELS:
        cases = [(words.format(*cells), {name: number(cells[at]) for name, at in columns.items()})
                 for cells in table(lines, head)]
        more, end = drawn(end, title, columns, cases, unit)
        parts += more
    (HERE / "figures.svg").write_text(
        f'<svg xmlns="http://www.w3.org/2000/svg" width="{LEFT + WIDE + 40}" height="{end}">'
        '<rect width="100%" height="100%" fill="white"/>' + "\n".join(parts) + "</svg>\n",
        encoding="utf-8")


main()
