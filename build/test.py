"""The tests, without a proof: what a newcomer runs, and what CI runs first.

    python3 build/test.py [STEP..]

Programs are built with run-time checks in place of proofs (build/checked.py). All tests of all crates
are run, then the worked session, the client for Python and a sample of the trials over `ledgerd`. Beside
the compilers it looks at the page, the layout, the wrong bodies, the scripts and the worked examples.
Steps that do not wait for one another run side by side, as many as there are processors.

Each step prints a line: what passed and failed, its seconds, and those of the processor. What it printed
itself stands in out/test/STEP.log, and where it failed the end of that is shown. The last line is
`N passed, M failed`, and the status is 1 where something failed. With names of steps these alone run,
over the programs that are there. `SEED=1234` draws the trials by another seed."""

import contextlib
import os
import pathlib
import re
import shutil
import subprocess
import sys
import threading
import time
import traceback

import checked
import lanes

TOP = checked.TOP
LOGS = TOP / "out/test"
LEDGERD = checked.MADE / "ledgerd-unproved"
SESSION = TOP / "examples/session"
PYTHON = sys.executable
# What a build of a program takes at most, in bytes; as many as memory holds run side by side.
BUILD = 5_000_000_000
BUILDS = threading.Semaphore(max(1, lanes.free() // BUILD))
PROCESSORS = len(os.sched_getaffinity(0))
# The sample of the trials. The others take minutes each over a program that is some times slower, and
# `chosen` is for a program of its own, which is proved: `make faults` tries them.
TRIALS = """model runs queries many rounds between crowd limits reopened little paused killed full broken
marks in_use no_text addresses desk stopped standby reader refused lint stream memory disk damaged soak""".split()


class Step:
    """A step: what it does, behind which others, where there is room, and what has come of it."""

    def __init__(self, name, act, after=(), room=None):
        self.name, self.act, self.after = name, act, after
        self.room = room or contextlib.nullcontext()
        self.log, self.is_over = LOGS / f"{name}.log", threading.Event()
        self.passed = self.failed = self.used = 0

    def run(self, *words, is_shown=False, **how):
        """The status of a program, and what it has printed, which goes to the log or is shown."""
        self.log.touch()
        begun = self.log.stat().st_size
        with self.log.open("ab") as log:
            told = {} if is_shown else {"stdout": log, "stderr": log}
            how = {"cwd": TOP, "stdin": subprocess.DEVNULL, **told, **how}
            ran = subprocess.Popen([str(it) for it in words], **how)
            _, status, used = os.wait4(ran.pid, 0)
        ran.returncode = os.waitstatus_to_exitcode(status)
        self.used += used.ru_utime + used.ru_stime
        return ran.returncode, self.log.read_bytes()[begun:].decode(errors="replace")

    def count(self, status, passed, failed=0):
        """Counts what passed and failed, and a status that tells of a failure for one at least."""
        self.passed += passed
        self.failed += abs(failed) or bool(status)

    def do(self, steps, lane):
        """Does it once the others are done and a lane is free, and prints its line."""
        for it in steps:
            if it.name in self.after:
                it.is_over.wait()
        with self.room, lane:
            begun = time.monotonic()
            self.log.unlink(missing_ok=True)
            try:
                self.act(self)
            except (Exception, SystemExit):
                with self.log.open("a") as log:
                    traceback.print_exc(file=log)
                self.count(1, 0)
            took = time.monotonic() - begun
        told = f"{self.passed} passed, {self.failed} failed, {took:.0f} s, {self.used:.0f} s of processor"
        end = self.log.read_text(errors="replace").splitlines()[-25:] if self.failed else []
        print("\n".join([f"{self.name}: {told}", *[f"    {it}" for it in end]]), flush=True)
        self.is_over.set()


def look(*words):
    """A step that passes where a program ends with status 0."""
    def act(step):
        status, _ = step.run(PYTHON, *words)
        step.count(status, int(not status))
    return act


def english(step):
    """The pages and comments that changed since BASE, and the checker itself."""
    base = os.environ.get("BASE")
    for words in ["--self-test"], ["--base", base] if base else []:
        look("build/english.py", *words)(step)


def look_at(what):
    """A step of `looks.py`, which counts by itself."""
    def act(step):
        status, told = step.run(PYTHON, "build/looks.py", what)
        found = re.search(r"^(\d+) passed, (\d+) failed$", told, re.M)
        step.count(status, *map(int, found.groups() if found else (0, 1)))
    return act


def build(name):
    """Builds a program. Where the toolchain keeps none, this step fails, and the tests run by `rt try`."""
    def act(step):
        status, _ = step.run(PYTHON, "build/checked.py", name, is_shown=True)
        step.count(status, int(not status))
    return act


def tests_of(crate, program):
    """The tests of a crate: as many as its text has. Without the program, as `rt try` runs them."""
    wanted = sum(len(re.findall(r"#\[test\]", it.read_text()))
                 for it in pathlib.Path(crate.folder, "src").rglob("*.rt"))

    def act(step):
        if program.exists():
            words = [checked.library().RUNNER, "--seconds", "600", "--filter",
                     f"{crate.name}::tests::"]
            status, told = step.run(*words, program)
        else:
            status, told = step.run("rt", "try", "--test", "--seconds", "1800", cwd=crate.folder)
        passed = len(re.findall(r"^test .* \.\.\. ok$", told, re.M))
        step.count(status, passed, wanted - passed)
    return act


def answers(step):
    """The program's own standard input, by which it is built, and what it has to answer."""
    folder = TOP / "crates/ledgerd"
    with open(folder / "stdin") as given:
        status, told = step.run(LEDGERD, stdin=given)
    is_good = not status and told == (folder / "stdout").read_text()
    step.count(not is_good, int(is_good))


def session(step):
    """The worked session, and the pages that show it."""
    played = LOGS / "session.txt"
    with open(played, "w") as out:
        status, _ = step.run(SESSION / "play.sh", LEDGERD, LOGS / "session", stdout=out)
    step.count(status, int(not status))
    for words in [played], [SESSION / "README.md"], ["--blocks", "README.md"]:
        look(SESSION / "compare.py", *words)(step)


def python(step):
    """The client for Python, whose own tests kill the program."""
    where = {**os.environ, "LEDGERD": str(LEDGERD)}
    status, told = step.run(PYTHON, "-m", "unittest", "discover", "clients/python", env=where)
    ran = sum(map(int, re.findall(r"^Ran (\d+) tests", told, re.M)))
    failed = sum(map(int, re.findall(r"(?:failures|errors|skipped)=(\d+)", told)))
    step.count(status, ran - failed, failed)


def clients(step):
    """The other clients whose languages are there: their cases, and seconds of kills."""
    for name, call in ("typescript", "node"), ("go", "go"):
        if shutil.which(call):
            look("clients/harness/all.py", "--seconds", "10", LEDGERD, name)(step)


def examples(step):
    """The examples that are tried over a service, and the rules of alerts where Prometheus is there."""
    for it in ("following/try_following", "trial-balance/try_trial_balance", "clients/try_beginners",
               "operating/try_signals"):
        look(f"examples/{it}.py", LEDGERD)(step)
    if shutil.which("promtool"):
        look("examples/operating/try_alerts.py")(step)


def webhooks(step):
    """Transfers are posted to a URL while both sides are killed: a short sample."""
    look("examples/webhooks/try_webhooks.py", LEDGERD, os.environ.get("SEED") or "2026", "8")(step)


def wallet(step):
    """Wallets are kept and reconciled while the service is killed: a short sample."""
    look("examples/wallet/try_wallet.py", LEDGERD, os.environ.get("SEED") or "2026", "4")(step)


def openapi(step):
    """The description of the requests, and a client that is generated from it. Each is skipped where the
    machine lacks what it needs, and its log says so."""
    for it in "check_openapi", "openapi/try_generated":
        status, told = step.run(PYTHON, f"examples/{it}.py", LEDGERD)
        step.count(status, int(not status and " is skipped: " not in told))


def trials(step):
    """A sample of what may go wrong."""
    words = ["--seed", os.environ.get("SEED") or "2026", "--jobs", max(2, PROCESSORS - 1)]
    status, told = step.run(PYTHON, "faults/campaign.py", LEDGERD, *words, "--only", *TRIALS)
    passed = {it for it in re.findall(r"^(\w+) .* \(\d+ s\)$", told, re.M) if it in TRIALS}
    step.count(status, len(passed), len(TRIALS) - len(passed))


def all_steps():
    """All steps. What takes longest stands first, since the first get the lanes."""
    steps = [Step(f"build-{name}", build(name), room=BUILDS) for name in checked.LEVELS]
    steps += [Step("page", look("console/constant.py", "--check")),
              *[Step(it, look_at(it)) for it in ("layout", "wrong-bodies", "scripts")],
              Step("english", english), Step("model", look("faults/worked.py")),
              Step("figures", look("docs/figures.py", "--check")),
              Step("theorems", look("bench/shape", "--closures", "docs/PROMISES.md"))]
    for crate, name in checked.crates_of_tests().items():
        act = tests_of(crate, checked.MADE / f"{name}-unproved")
        steps += [Step(crate.name, act, [f"build-{name}"])]
    over = [trials, python, clients, examples, wallet, webhooks, openapi, session, answers]
    return [*steps, *[Step(it.__name__, it, ["build-ledgerd"]) for it in over]]


def main(words):
    begun = time.monotonic()
    LOGS.mkdir(parents=True, exist_ok=True)
    steps = [it for it in all_steps() if not words or it.name in words]
    if len(steps) < len(words):
        sys.exit(f"test: the steps are {' '.join(it.name for it in all_steps())}")
    lane = threading.Semaphore(PROCESSORS)
    threads = [threading.Thread(target=it.do, args=(steps, lane), daemon=True) for it in steps]
    for it in threads:
        it.start()
    for it in threads:
        it.join()
    used = sum(it.used for it in steps) / 60
    print(f"{(time.monotonic() - begun) / 60:.1f} minutes by the clock, {used:.1f} of processor")
    passed, failed = (sum(getattr(it, what) for it in steps) for what in ("passed", "failed"))
    print(f"{passed} passed, {failed} failed")
    return 1 if failed or not passed else 0


if __name__ == "__main__":
    sys.exit(main(sys.argv[1:]))
