"""Builds the program of a package, whose `version` names the commit that it is built from.

    python3 build/packaged.py [--unproved]

It takes the sources of the head commit to a folder below `.git`, and writes the commit into the crate
`built_from` there. Then it proves and builds `ledgerd` (build/prove.py). Libraries that `make ledgerd` has
proved of the same text are copied, so that only `built_from` and `ledgerd` are proved anew. With `--unproved`
it builds the program with run-time checks in place of proofs (build/checked.py), in minutes. The last line
is the path of the program."""

import io
import os
import pathlib
import shutil
import subprocess
import sys
import tarfile

import toolchain

TOP = pathlib.Path(__file__).resolve().parents[1]
SOURCES = "crates", "crates.txt", "HANDLES", "build", "examples/first-path"
# The constant and its definition, each with an empty text where the commit's line belongs.
NAMED = "src/commit.rt", "specs/Commit.antt"


def git(*words):
    """The output of `git` in the folder of the repository."""
    return subprocess.run(["git", *words], cwd=TOP, check=True, stdout=subprocess.PIPE).stdout


def head():
    """The head commit, unless a file differs from it: then the name would be wrong."""
    if not ((TOP / ".git").exists() and shutil.which("git")):
        sys.exit("packaged: this is no git repository, so no commit can be named: give LEDGERD=")
    changed = git("status", "--porcelain", "--untracked-files=no").decode()
    if changed:
        sys.exit(f"packaged: commit these changes first, or give LEDGERD=\n{changed}")
    return git("rev-parse", "HEAD").decode().strip()


def remove(path):
    if path.is_dir() and not path.is_symlink():
        shutil.rmtree(path)
    else:
        path.unlink()


def take_sources(room):
    """Has the folder hold the sources of the head commit, and what it has proved before."""
    for old in [it for it in room.glob("crates/*/*") if it.name != "out"]:
        remove(old)
    for old in [it for it in room.iterdir() if it.name not in ("crates", "out")]:
        remove(old)
    with tarfile.open(fileobj=io.BytesIO(git("archive", "HEAD", *SOURCES))) as packed:
        packed.extractall(room)


def write_name(room, commit):
    """Writes the commit into the crate that names it."""
    for file in NAMED:
        path = room / "crates/built_from" / file
        text = path.read_text()
        if text.count('""') != 1:
            sys.exit(f"packaged: crates/built_from/{file} has no single place for the commit")
        path.write_text(text.replace('""', f'"commit {commit}\\n"'))


def libraries(rt, top):
    """The libraries below `ledgerd`, by name."""
    ledgerd = rt.rtlib.Crate(str(top / "crates/ledgerd"), str(top), {})
    return {it.name: it for it in ledgerd.below()}


def take_libraries(room):
    """Copies each library that was proved here of the text that it has there."""
    rt = toolchain.rt()
    own = libraries(rt, TOP)
    for name, made in libraries(rt, room).items():
        if name not in own or made.is_built() or not own[name].is_built():
            continue
        if own[name].stamp() == made.stamp():
            to = os.path.dirname(made.rlib)
            shutil.rmtree(to, ignore_errors=True)
            shutil.copytree(os.path.dirname(own[name].rlib), to)


def build(is_proved=True):
    """The path of the program that names the head commit. It is built where it is not there yet."""
    commit, room = head(), toolchain.room("packaged")
    take_sources(room)
    write_name(room, commit)
    if is_proved:
        take_libraries(room)
    words = ["prove.py"] if is_proved else ["checked.py", "-O0", "ledgerd"]
    if subprocess.run([sys.executable, room / "build" / words[0], *words[1:]]).returncode:
        sys.exit("packaged: the program was not built")
    program = room / ("crates/ledgerd/out/ledgerd" if is_proved else "out/checked/ledgerd-unproved")
    told = subprocess.run([program, "version"], check=True, capture_output=True, text=True).stdout
    if told.splitlines()[-1] != f"commit {commit}":
        sys.exit(f"packaged: `version` does not end with the commit {commit}, but so:\n{told}")
    return program


def main(words):
    if words not in ([], ["--unproved"]):
        sys.exit(__doc__)
    print(build(not words))


if __name__ == "__main__":
    main(sys.argv[1:])
