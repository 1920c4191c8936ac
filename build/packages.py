"""Installs the program with its unit and its pages, or makes a tar or a package for Debian of them.

    python3 build/packages.py [--program PATH] --gate FILE install --destdir FOLDER --prefix /usr/local
    python3 build/packages.py [--program PATH] --gate FILE dist
    python3 build/packages.py [--program PATH] --gate FILE deb

PATH is the program. If it is left out, `install` takes the proved one, and the others build one that names
its commit (build/packaged.py). FILE has the output of `make prove`; without it the manifest says so. Packages
go to out/packages, with SHA256SUMS of all files there. The same commit and program give the same bytes."""

import argparse
import gzip
import hashlib
import io
import os
import pathlib
import re
import shutil
import subprocess
import sys
import tarfile
import tempfile

import packaged

TOP = pathlib.Path(__file__).resolve().parents[1]
OUT = TOP / "out/packages"
PROVED = TOP / "crates/ledgerd/out/ledgerd"
UNIT = TOP / "examples/operating/ledgerd.service"
VERSION = (TOP / "VERSION").read_text().strip()
# The Debian package of each library besides the C library's own.
LIBRARIES = {"libgcc_s.so.1": "libgcc-s1"}
ARCHITECTURES = {"x86_64": "amd64", "aarch64": "arm64"}
SUMMARY = "multi-tenant double-entry ledger over HTTP"


def asked_of(*words):
    """The output of a command in the folder of the repository."""
    return subprocess.run(words, cwd=TOP, check=True, capture_output=True, text=True).stdout.strip()


def sum_of(content):
    return hashlib.sha256(content).hexdigest()


def proof(words):
    """Whether the program is the proved one."""
    if not words.program and words.act != "install":
        return "yes: build/packaged.py has proved and built it of this commit"
    if words.ledgerd.resolve() == PROVED.resolve():
        return "yes: crates/ledgerd/out/ledgerd, which `make ledgerd` proves and builds"
    return "NO: this is not the program that `make ledgerd` proves and builds"


def commit():
    if not ((TOP / ".git").exists() and shutil.which("git")):
        return "unknown: not a git repository"
    changed = asked_of("git", "status", "--porcelain", "--untracked-files=no")
    return asked_of("git", "rev-parse", "HEAD") + (", with changes" if changed else "")


def gate(path):
    """The last line of the gate's output. Nothing is packed after a gate that failed."""
    if not path.is_file():
        return f"not kept: run `make prove | tee {path}` first"
    last = path.read_text().rstrip("\n").rpartition("\n")[2]
    if not last.endswith(" passed, 0 failed"):
        sys.exit(f"{path} does not end with `N passed, 0 failed`, but with: {last}")
    return last


def manifest(words):
    """The manifest of a package. It ends with what `ledgerd version` prints."""
    lines = {"version": VERSION, "commit": commit(), "proved": proof(words), "gate": gate(words.gate),
             "program": f"sha256 {sum_of(words.ledgerd.read_bytes())}"}
    told = asked_of(str(words.ledgerd.resolve()), "version").splitlines()
    return "".join(f"{name}: {value}\n" for name, value in lines.items()) + "".join(
        f"{line}\n" for line in told)


def pages():
    """The pages by name."""
    found = {"README.md": TOP / "README.md", "CHANGELOG.md": TOP / "CHANGELOG.md"}
    for pattern in ("*.md", "openapi.yaml"):
        found.update((f"docs/{each.name}", each) for each in sorted((TOP / "docs").glob(pattern)))
    return {name: path.read_bytes() for name, path in found.items()}


def tree(words, prefix):
    """The installed files by path below `prefix`: content and mode."""
    unit = UNIT.read_text().replace("/usr/local/bin/ledgerd", f"{prefix}/bin/ledgerd")
    files = {"bin/ledgerd": (words.ledgerd.read_bytes(), 0o755),
             "lib/systemd/system/ledgerd.service": (unit.encode(), 0o644),
             "share/doc/ledgerd/MANIFEST": (manifest(words).encode(), 0o644)}
    files.update((f"share/doc/ledgerd/{name}", (content, 0o644))
                 for name, content in pages().items())
    return files


def write(files, folder):
    for name, (content, mode) in files.items():
        path = folder / name
        path.parent.mkdir(parents=True, exist_ok=True)
        # A running program cannot be overwritten.
        beside = path.with_name(f"{path.name}.new")
        beside.write_bytes(content)
        beside.chmod(mode)
        beside.replace(path)


def install(words):
    folder = pathlib.Path(words.destdir + words.prefix)
    files = tree(words, words.prefix)
    write(files, folder)
    for name in sorted(files):
        print(folder / name)


def wheel():
    """The name and content of the Python client's wheel."""
    with tempfile.TemporaryDirectory() as room:
        made = asked_of(sys.executable, str(TOP / "clients/python/build_wheel.py"), room)
        return made, pathlib.Path(room, made).read_bytes()


def dist(words):
    files = tree(words, "/usr/local")
    name, content = wheel()
    files[f"clients/{name}"] = (content, 0o644)
    sums = "".join(f"{sum_of(content)}  {path}\n" for path, (content, _) in sorted(files.items()))
    files["SHA256SUMS"] = (sums.encode(), 0o644)
    top = f"ledgerd-{VERSION}"
    packed = OUT / f"{top}-linux-{os.uname().machine}.tar.gz"
    moment = int(asked_of("git", "show", "--no-patch", "--format=%ct", "HEAD"))
    with open(packed, "wb") as plain, gzip.GzipFile("", "wb", mtime=0, fileobj=plain) as zipped, \
            tarfile.open(fileobj=zipped, mode="w") as tar:
        for path, (content, mode) in sorted(files.items()):
            entry = tarfile.TarInfo(f"{top}/{path}")
            entry.size, entry.mode, entry.mtime = len(content), mode, moment
            tar.addfile(entry, io.BytesIO(content))
    (OUT / name).write_bytes(files[f"clients/{name}"][0])
    return packed


def dependencies(program):
    """The Debian packages that the program needs."""
    linked = asked_of("ldd", str(program.resolve()))
    content = program.read_bytes()
    least = max(int(minor) for minor in re.findall(rb"GLIBC_2\.(\d+)\0", content))
    others = [package for library, package in LIBRARIES.items() if library in linked]
    return ", ".join([f"libc6 (>= 2.{least})", *others, "passwd"])


def control(program, size):
    machine = os.uname().machine
    return (f"Package: ledgerd\nVersion: {VERSION}\n"
            f"Architecture: {ARCHITECTURES.get(machine, machine)}\n"
            "Maintainer: Cegarront maintainers <maintainers@users.noreply.cegarront.example>\n"
            f"Depends: {dependencies(program)}\nSuggests: systemd-timesyncd | time-daemon\n"
            f"Installed-Size: {size // 1024 + 1}\nSection: database\nPriority: optional\n"
            f"Description: {SUMMARY}\n"
            " Accounts, transfers, holds and chains for several firms, kept in one SQLite\n"
            " database and asked over HTTP and JSON. MANIFEST, among the pages, says\n"
            " whether this program is the proved one.\n")


def deb(words):
    files = tree(words, "/usr")
    packed = OUT / f"ledgerd_{VERSION}_{ARCHITECTURES.get(os.uname().machine, 'any')}.deb"
    with tempfile.TemporaryDirectory() as room:
        root = pathlib.Path(room, "root")
        write(files, root / "usr")
        (root / "DEBIAN").mkdir()
        size = sum(len(content) for content, _ in files.values())
        (root / "DEBIAN/control").write_text(control(words.ledgerd, size))
        for script in sorted((TOP / "build/debian").iterdir()):
            shutil.copy(script, root / "DEBIAN" / script.name)
            (root / "DEBIAN" / script.name).chmod(0o755)
        moment = asked_of("git", "show", "--no-patch", "--format=%ct", "HEAD")
        subprocess.run(["dpkg-deb", "--root-owner-group", "--build", root, packed], check=True,
                       stdout=subprocess.DEVNULL, env={**os.environ, "SOURCE_DATE_EPOCH": moment})
    return packed


def program_of(words):
    """The program that is packed or installed."""
    if words.act != "install" and not words.program:
        return packaged.build()
    program = words.program or PROVED
    if not os.access(program, os.X_OK):
        sys.exit(f"there is no program {program}: `make ledgerd` proves and builds it, or give LEDGERD=")
    return program


def main():
    asked = argparse.ArgumentParser()
    asked.add_argument("--program", type=pathlib.Path)
    asked.add_argument("--gate", type=pathlib.Path, required=True)
    acts = asked.add_subparsers(dest="act", required=True)
    installs = acts.add_parser("install")
    installs.add_argument("--destdir", default="")
    installs.add_argument("--prefix", default="/usr/local")
    acts.add_parser("dist")
    acts.add_parser("deb")
    words = asked.parse_args()
    words.ledgerd = program_of(words)
    if words.act == "install":
        return install(words)
    OUT.mkdir(parents=True, exist_ok=True)
    packed = {"dist": dist, "deb": deb}[words.act](words)
    listed = sorted(each for each in OUT.iterdir() if each.is_file() and each.name != "SHA256SUMS")
    sums = "".join(f"{sum_of(each.read_bytes())}  {each.name}\n" for each in listed)
    (OUT / "SHA256SUMS").write_text(sums)
    print(manifest(words), packed.relative_to(TOP), sep="")


if __name__ == "__main__":
    main()
