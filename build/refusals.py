"""Tries wrong bodies: of a crate as many as turn different functions, in one check.

Most of a check is the same each time: the libraries below are read, and the crate's front end runs. So
one check has a wrong body in each of many functions, and the prover says of each function whether it is
proved. A wrong body is refused where that is said of the very function that it stands in, and not only of
one that it calls. A function's proof needs the contracts of others alone, which no wrong body changes, so
none is refused for another's sake. What was not refused so is tried by itself, as `rt must-fail` does, and
so is what changes more than functions' bodies.

The check is asked for these functions alone (`--only`). Other functions whose proofs have answers in files
are taken by their statements, with holes for proofs (`--allow-holes`), since the same run of the gate proves
them. Everything else that the check was asked for has to be proved there, or to lack only a turned function.
Where that is not so, one more check proves all."""

import copy
import os
import pathlib
import re
import shutil
import tempfile

from wrong_bodies import groups, lacks_more

# A proof that is left open: a function's theorem without one.
HOLE = """use {module} as stated

pub {name}_spec : {{M : Type 1}} → stated.statement M
{name}_spec = ?
"""
# The last line of a check of some functions, with holes and without, and the flags of it.
HOLES = r"only=\d+ holes=\d+", ["--allow-holes"]
WHOLE = r"only=\d+ proved=\d+", []
FLAGS = ["--jobs", "1"]


def only(asked):
    """The flags by which a check is asked for some functions alone."""
    return [it for word in sorted(asked) for it in ("--only", word)]


def with_holes(crate, asked, room):
    """A copy of the crate in a folder of its own. Each function whose proof has answers in a file gets a
    hole for its proof, but for those that are asked for."""
    crate = copy.copy(crate)
    for part in filter(lambda it: os.path.isdir(f"{crate.folder}/{it}"), ("src", "specs", "proofs")):
        shutil.copytree(f"{crate.folder}/{part}", f"{room}/{part}")
    crate.folder = room
    for file in pathlib.Path(room, "proofs").rglob("Answers.antt"):
        folder = file.parent
        path = folder.relative_to(f"{room}/proofs").parts
        words = ["::".join(path[at:end]) for end in range(1, len(path) + 1) for at in range(end)]
        if "fn" in path or "+" in "".join(path) or asked & set(words):
            continue
        for name in ("Answers.antt", "Invariants.antt"):
            folder.joinpath(name).unlink(missing_ok=True)
        module = ".".join(["Rattle", crate.name, "proofs", *path, "Statement"])
        folder.joinpath("Proof.antt").write_text(HOLE.format(module=module, name=path[-1]))
    return crate


def lines_of_group(rt, crate, group, texts):
    """The lines of a check of a group, with holes or, where that says nothing, without; or none."""
    names = {it for each in group for it in each.names()}
    asked = {it for each in group for it in each.asked()}
    for last, more in HOLES, WHOLE:
        with tempfile.TemporaryDirectory(prefix=f"rt-holes-{os.getpid()}-") as room:
            tried = with_holes(crate, asked, room) if more else crate
            ran = rt.checked(tried, texts, [*FLAGS, *more, *only(asked)], None)
        lines = ran.stdout.rstrip("\n").split("\n")
        is_read = not any(rt.unread(it, texts) for it in lines)
        is_over = ran.returncode == 1 and re.match(last, lines[-1])
        if is_read and is_over and not rt.rtlib.STALE.search(ran.stdout):
            if not any(lacks_more(it, names) for it in lines):
                return lines
    return []


def refused(rt, crate, paths):
    """Tries these edits of a crate, and gives of each its path, whether the prover refused it, and what to
    say of it."""
    left = list(paths)
    for group, texts in groups(crate, paths):
        lines = lines_of_group(rt, crate, group, texts)
        names = {it for each in group for it in each.names()}
        for it in group:
            line = it.refusal(lines, names)
            if line:
                left.remove(it.path)
                yield it.path, True, f"{os.path.basename(it.path)}: refused, as it must be: {line[:160]}"
    for path in left:
        yield path, *rt.must_fail(crate, path, FLAGS)
