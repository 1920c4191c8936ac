"""Copies the crates that a program stands on to a folder, for a program that is none of them.

    python3 bench/crates_beside.py ROOT 'NAME: CRATE..'

They are found in crates.txt, from those in the line on, which is the program's own. What was built
of a crate is copied once, so that what was proved is not proved again, and its text each time. The
program goes to ROOT/crates/NAME/src."""

import pathlib
import shutil
import sys

TOP = pathlib.Path(__file__).resolve().parent.parent


def lines():
    """The line of each crate by its name."""
    listed = (TOP / "crates.txt").read_text().splitlines()
    return {line.partition(":")[0]: line for line in listed if line}


def stood_on(line, own):
    """The crates that a line stands on, itself or by others, those of the toolchain left out."""
    found, left = set(), line.partition(":")[2].split()
    while left:
        name = left.pop()
        if name in own and name not in found:
            found.add(name)
            left += own[name].partition(":")[2].split()
    return [name for name in own if name in found]


def copy(crate, to):
    """A crate as it is now."""
    if not to.exists():
        shutil.copytree(crate, to, symlinks=True)
        return
    for part in ("src", "specs", "proofs"):
        shutil.rmtree(to / part, ignore_errors=True)
        if (crate / part).exists():
            shutil.copytree(crate / part, to / part, symlinks=True)


def main():
    root, line = pathlib.Path(sys.argv[1]), sys.argv[2]
    own = lines()
    needed = stood_on(line, own)
    (root / "crates" / line.partition(":")[0] / "src").mkdir(parents=True, exist_ok=True)
    for name in needed:
        copy(TOP / "crates" / name, root / "crates" / name)
    (root / "crates.txt").write_text("".join(f"{own[name]}\n" for name in needed) + f"{line}\n")
    shutil.copy(TOP / "HANDLES", root)


main()
