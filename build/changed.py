"""Says which crates differ from a revision, in their own files or in a definition that they cite.

    python3 build/changed.py REV"""

import pathlib
import re
import subprocess
import sys

TOP = pathlib.Path(__file__).resolve().parent.parent
CITED = re.compile(r"\bRattle\.(\w+)\.specs((?:\.\w+)+)")
OWN = "src", "specs", "proofs", "must-fail"


def files_changed(rev):
    """The files that differ from the revision, relative to the top."""
    asked = ["git", "-C", str(TOP), "diff", "--name-only", "--no-renames", rev, "--", "crates"]
    return subprocess.run(asked, capture_output=True, text=True, check=True).stdout.split("\n")[:-1]


def module_of(file):
    """The module of definitions that a file is, as its crate and its path; or None."""
    found = re.fullmatch(r"crates/(\w+)/specs/(.+)\.antt", file)
    return found and (found[1], "." + found[2].replace("/", "."))


def cited_by(path):
    """The modules of definitions that a file cites."""
    return {(crate, module) for crate, module in CITED.findall(path.read_text())}


def cites(cited, modules):
    """Whether one of these modules is cited, by its own name or that of a definition in it."""
    return any(crate == other and (module + ".").startswith(name + ".")
               for crate, module in cited for other, name in modules)


def crates(rev, names):
    """Those of these crates that differ from the revision."""
    files = files_changed(rev)
    differ = {it.split("/")[1] for it in files if it.split("/")[2] in OWN}
    changed = set(filter(None, map(module_of, files)))
    specs = {module_of(str(it.relative_to(TOP))): cited_by(it)
             for it in TOP.glob("crates/*/specs/**/*.antt")}
    while True:
        more = {it for it, cited in specs.items() if it not in changed and cites(cited, changed)}
        if not more:
            break
        changed |= more
    for name in {*names} - differ:
        own = [it for part in OWN for it in (TOP / "crates" / name / part).rglob("*")
               if it.suffix in (".rt", ".antt")]
        if any(cites(cited_by(it), changed) for it in own):
            differ.add(name)
    return differ & {*names}


if __name__ == "__main__":
    print("\n".join(sorted(crates(sys.argv[1], {it.name for it in (TOP / "crates").iterdir()}))))
