"""Tests the clients whose languages are installed.

Each passes its own tests with clients/cases.json, the first lines of its README, the wallet example, and a
minute of work while the service is killed.

    python3 clients/harness/all.py LEDGERD [--seconds N] [CLIENT..]

CLIENT is python, typescript or go. It names missing languages first. It exits with 1 if a test failed,
or if no client could be tested."""

import argparse
import contextlib
import os
import pathlib
import re
import shutil
import signal
import subprocess
import sys
import tempfile
import time

from service import Service, free_port

TOP = pathlib.Path(__file__).resolve().parents[2]
CLIENTS = TOP / "clients"
KEY = "0f" * 32
WALLET = "again: existed, balance: 3500\n"
PATIENCE = 1200


class Client:
    """The commands that test a client, and the programs that they need."""

    def __init__(self, name, calls, tests, drivers, wallet, folder=TOP):
        self.name, self.calls, self.tests, self.drivers = name, calls, tests, drivers
        self.wallet, self.folder = wallet, folder

    def lacks(self):
        return [each for each in self.calls if not shutil.which(each)]


def clients(room):
    """The three clients. What they build goes to the folder `room`."""
    python = [sys.executable]
    driver = [*python, str(CLIENTS / "python/tests/driver.py")]
    node = ["node", str(CLIENTS / "typescript/harness/driver.mjs")]
    return [
        Client("python", ["python3"],
               [[*python, "-m", "unittest", "discover", str(CLIENTS / "python")]],
               [driver, [*driver, "async"]], [*python, str(CLIENTS / "python/examples/wallet.py")]),
        Client("typescript", ["node", "openssl"],
               [["node", "--test", str(CLIENTS / "typescript/test")]], [node],
               ["node", str(CLIENTS / "typescript/examples/wallet.mjs")]),
        Client("go", ["go", "openssl"],
               [["go", "vet", "./..."], ["go", "test", "-count=1", "./..."],
                ["go", "build", "-o", f"{room}/", "./internal/driver", "./examples/wallet"]],
               [[f"{room}/driver"]], [f"{room}/wallet"], CLIENTS / "go"),
    ]


def in_one_line(words):
    """A command in one line, with short paths."""
    return " ".join(each.replace(f"{TOP}/", "") if each.startswith(f"{TOP}/")
                    else os.path.basename(each.rstrip("/")) if os.path.isabs(each) else each
                    for each in words)


def ended(words, folder, env):
    """The status and output of a command. What it leaves running is killed."""
    with tempfile.TemporaryFile("w+") as told:
        child = subprocess.Popen(words, cwd=folder, env=env, stdout=told, stderr=subprocess.STDOUT,
                                 start_new_session=True)
        try:
            status = child.wait(PATIENCE)
        except subprocess.TimeoutExpired:
            status = None
            told.write(f"no end after {PATIENCE} s\n")
        finally:
            with contextlib.suppress(ProcessLookupError):
                os.killpg(child.pid, signal.SIGKILL)
            child.wait()
        told.seek(0)
        return status, told.read()


def run(name, words, folder=TOP, env=None, wanted=None, shows_end=False):
    """Whether a command succeeds, with the wanted output. It prints one line about it, and the last line of
    the output if `shows_end`."""
    begun = time.monotonic()
    status, output = ended(words, folder, {**os.environ, **(env or {})})
    holds = status == 0 and wanted in (None, output)
    word = "ok" if holds else "FAILED"
    print(f"{name}: {in_one_line(words)}: {word}, {time.monotonic() - begun:.0f} s", flush=True)
    if shows_end and holds:
        print(f"{name}: {output.splitlines()[-1]}", flush=True)
    if not holds:
        print(output[-4000:], flush=True)
    return holds


def compiled(room):
    """Whether the TypeScript sources compile to what is in `dist`."""
    if not shutil.which("tsc"):
        print("typescript: tsc is missing, so neither the types nor dist are checked")
        return True
    folder = str(CLIENTS / "typescript")
    return (run("typescript", ["tsc", "-p", folder, "--outDir", f"{room}/dist"])
            and run("typescript", ["diff", "-r", f"{room}/dist", f"{folder}/dist"])
            and run("typescript", ["tsc", "-p", f"{folder}/test"]))


def follows_readme(client, program, room):
    """Whether the shell lines of the client's README, which stand in its first ten, book a transfer. They
    are followed in a folder that has `clients`, with the program on the path."""
    folder = pathlib.Path(tempfile.mkdtemp(dir=room))
    os.symlink(program, folder / "ledgerd")
    os.symlink(CLIENTS, folder / "clients")
    first = "\n".join((CLIENTS / client.name / "README.md").read_text().splitlines()[:10])
    lines = first.partition("```sh\n")[2].partition("\n```")[0].replace("8080", str(free_port()))
    (folder / "readme.sh").write_text(f"exec 2>/dev/null\ntrap 'kill $!' EXIT\n{lines}\n")
    path = f"{folder}{os.pathsep}{os.environ['PATH']}"
    return run(client.name, ["sh", "-eu", "readme.sh"], folder, {"PATH": path}, f"added shop\n{WALLET}")


def try_one(client, program, seconds, room):
    """Whether a client passes all its tests."""
    holds = [compiled(room)] if client.name == "typescript" else []
    env = {"LEDGERD": program, "PYTHONPATH": str(CLIENTS / "python")}
    holds += [run(client.name, words, client.folder, env) for words in client.tests]
    holds.append(follows_readme(client, program, room))
    with Service(program, KEY) as service:
        env.update(LEDGER_URL=service.url, LEDGER_KEY=KEY)
        holds.append(run(client.name, client.wallet, env=env, wanted=WALLET))
    kills = [sys.executable, str(CLIENTS / "harness/kills.py"), program, "--seconds", str(seconds)]
    holds += [run(client.name, [*kills, "--", *driver], shows_end=True)
              for driver in client.drivers if seconds]
    return all(holds)


def misfits_of_pages():
    """Programs that docs/CLIENTS.md does not show as they are, and versions that differ."""
    page, version = (TOP / "docs/CLIENTS.md").read_text(), (TOP / "VERSION").read_text().strip()
    for path in ("python/examples/wallet.py", "typescript/examples/wallet.mjs",
                 "go/examples/wallet/main.go"):
        if f"\n{(CLIENTS / path).read_text()}```" not in page:
            yield f"docs/CLIENTS.md does not show {path} as it is"
    for path, pattern in (("python/pyproject.toml", r'^version = "(.+)"'),
                          ("typescript/package.json", r'^  "version": "(.+)"')):
        found = re.search(pattern, (CLIENTS / path).read_text(), re.M)
        if found is None or found.group(1) != version:
            yield f"{path} has another version than {version}"


def main():
    asked = argparse.ArgumentParser(description=__doc__.splitlines()[0])
    asked.add_argument("program")
    asked.add_argument("clients", nargs="*")
    asked.add_argument("--seconds", type=float, default=60, help="of kills under each client")
    words = asked.parse_args()
    program = os.path.abspath(words.program)
    with tempfile.TemporaryDirectory() as room:
        chosen = [each for each in clients(room) if not words.clients or each.name in words.clients]
        there = [each for each in chosen if not each.lacks()]
        for each in chosen:
            if each.lacks():
                print(f"{each.name}: {', '.join(each.lacks())} is missing, so this client is not tested",
                      flush=True)
        if not os.access(program, os.X_OK):
            sys.exit(f"there is no program {words.program}: `make ledgerd` builds it, or give LEDGERD=PATH")
        misfits = list(misfits_of_pages())
        print(*misfits, sep="\n", end="\n" if misfits else "")
        holds = [try_one(each, program, words.seconds, room) for each in there]
    print(f"clients: {sum(holds)} of {len(there)} passed, {len(chosen) - len(there)} not tested")
    sys.exit(0 if holds and all(holds) and not misfits else 1)


if __name__ == "__main__":
    main()
