"""What `try_unit.py` runs in its container for the units beside the service: copies are made, kept, removed
and refused by ledgerd-copy.service, and ledgerd-numbers.service hands numbers to a node exporter's folder."""

import pathlib
import re
import shutil
import time

from unit_trials import (DB, FOLDER, HERE, PROGRAM, UNIT, UNITS, Tenant, add_lines, ledgerd, main, served, shown,
                         start, system, told_by, until, want)

COPY, NUMBERS = "ledgerd-copy", "ledgerd-numbers"
PLACE, METRICS = pathlib.Path("/backup"), pathlib.Path("/var/lib/prometheus/node-exporter")
NAME = re.compile(r"\d{8}T\d{6}Z")
# A program in place of ledgerd's, which loses the log of each copy.
SPOILING = f"""#!/bin/sh
{PROGRAM} "$@" || exit
[ "$1" != copy ] || rm "$5-wal"
"""


def drop_in(unit, *lines):
    """A unit has these lines too, or none but its own."""
    folder = UNITS / f"{unit}.d"
    shutil.rmtree(folder, ignore_errors=True)
    if lines:
        folder.mkdir()
        (folder / "trial.conf").write_text("\n".join((*lines, "")))
    system("daemon-reload")


def good():
    """The names of the copies, oldest first. Nothing else but bad ones stands there."""
    names = sorted(it.name for it in PLACE.iterdir())
    want(all(NAME.fullmatch(it.removesuffix(".bad")) for it in names), f"the copies: {names}")
    return [it for it in names if not it.endswith(".bad")]


def journal_of(unit, since):
    told_by("journalctl", "--sync")
    return told_by("journalctl", "-b", "-u", unit, "-o", "cat", "--no-pager", f"--since=@{since:.6f}")[1]


def run(unit):
    """Starts a unit that does one thing: whether it was done, and what the journal says."""
    # Copies are named by their second.
    time.sleep(1.1)
    since = time.time()
    status = told_by("systemctl", "start", unit)[0]
    told = journal_of(unit, since)
    want((shown(unit)["ActiveState"] == "failed") == bool(status), f"{unit}: {status} {shown(unit)}")
    if status:
        system("reset-failed", unit)
    return not status, told


def refused(*texts):
    """No copy is made, for this reason, and each earlier one stays."""
    before = good()
    was_done, told = run(COPY)
    want(not was_done and all(it in told for it in texts), f"{texts}: {told}")
    want(good() == before, f"{before} were there, and {good()} are")


def install():
    """As docs/OPERATING.md has it, with node exporter's folder as Debian makes it."""
    told_by("useradd", "--system", UNIT)
    for it in HERE.glob(f"{UNIT}*.[st]*"):
        shutil.copy(it, UNITS if it.suffix != ".sh" else "/usr/local/bin/ledgerd-copy")
    for folder, owner in ((PLACE, UNIT), (FOLDER, UNIT), (METRICS, "root")):
        folder.mkdir(parents=True)
        shutil.chown(folder, owner, owner)
    PLACE.chmod(0o700)
    units = [f"{COPY}.service", f"{COPY}.timer", f"{NUMBERS}.service", f"{NUMBERS}.timer"]
    told = told_by("systemd-analyze", "verify", *(UNITS / it for it in units))
    want(told == (0, "", ""), f"verify: {told}")
    want(ledgerd("tenant-add", "--name", "first")[0] == 0, "a first tenant")
    system("daemon-reload")
    system("enable", "--now", UNIT)
    served()
    refused("ledgerd: output\n", f"{COPY}: no copy of {DB}\n")
    add_lines(f"ReadWritePaths={PLACE}")
    system("restart", UNIT)
    served()


def copies(tenant):
    """A copy of what is served is good, and as many as are asked for stay."""
    drop_in(f"{COPY}.service", "[Service]", "ExecStart=", f"ExecStart=/usr/local/bin/{COPY} {DB} {PLACE} 3")
    made = []
    for turn in range(5):
        tenant.write()
        begun = int(time.time())
        was_done, told = run(COPY)
        found = re.search(rf"^copied {PLACE}/({NAME.pattern}): \d+ bytes, checked; (\d) kept$", told, re.M)
        want(was_done and found and int(found[2]) == min(turn + 1, 3), told)
        made.append(found[1])
        want(good() == made[-3:], f"{made} were made, and {good()} are there")
        text = (METRICS / "ledgerd-copy.prom").read_text()
        want(begun <= int(text.removeprefix("ledgerd_copied_seconds ")) <= time.time(), text)
        want((METRICS / "ledgerd-copy.prom").stat().st_mode & 0o777 == 0o644, "others may read the moment")
    last = PLACE / made[-1]
    checked = told_by(PROGRAM, "check", "--db", last / "ledger.db", user=UNIT)
    want(checked == (0, "ok\n", ""), f"check of {last}: {checked}")
    want((last / "ledger.tenants").read_text() == ledgerd("tenants")[1], "the clocks of a quiet ledger")
    want({it.stat().st_mode & 0o077 for it in (last, *last.iterdir())} == {0}, "others may not read it")
    return "five copies of what is served are good, and the newest three are kept"


def copies_of_stopped(tenant):
    """A file that nobody serves is copied too, and what a killed run has left goes."""
    system("stop", UNIT)
    left = PLACE / "20260101T000000Z.part"
    left.mkdir()
    (left / "ledger.db").write_text("x")
    shutil.chown(left, UNIT, UNIT)
    want(run(COPY)[0] and len(good()) == 3, f"of a stopped file: {good()}")
    start()
    tenant.compare()
    return "a file that nobody serves is copied, and a part that was left is gone"


def copies_refused(tenant):
    """Without room, with a bad copy, and with an older ledger: the unit fails, and all copies stay."""
    PLACE.chmod(0o500)
    refused("Permission denied")
    PLACE.chmod(0o700)
    program = HERE / "bin/ledgerd"
    program.parent.mkdir()
    program.write_text(SPOILING)
    program.chmod(0o755)
    drop_in(f"{COPY}.service", "[Service]", f"Environment=PATH={program.parent}:/usr/bin:/bin")
    refused(".bad is not good: ledgerd: not_a_ledger; earlier copies are kept\n")
    drop_in(f"{COPY}.service")
    kept, (before, last) = tenant.many, good()[-2:]
    tenant.write()
    want(run(COPY)[0], "a later copy")
    put_back(PLACE / before)
    refused(f".bad is older than {PLACE}/{good()[-1]}, by the clock of north-desk", "earlier copies are kept")
    bad = [it for it in PLACE.iterdir() if it.suffix == ".bad"]
    want(len(bad) == 2, f"the bad copies: {bad}")
    put_back(PLACE / good()[-1])
    tenant.many = kept + 1
    tenant.compare()
    return f"no room, a bad copy and an older ledger: it fails, nothing is removed ({last})"


def put_back(copy):
    """The service serves a copy, as docs/OPERATING.md has it."""
    system("stop", UNIT)
    for it in FOLDER.glob("ledger.db*"):
        it.unlink()
    for it in copy.glob("ledger.db*"):
        shutil.copy(it, FOLDER)
    for it in FOLDER.glob("ledger.db*"):
        shutil.chown(it, UNIT, UNIT)
    start()


def timed_copies(_tenant):
    """The timer starts it, by itself."""
    system("enable", "--now", f"{COPY}.timer")
    listed = told_by("systemctl", "list-timers", "--no-pager")[1]
    want(re.search(rf" 02:[34]\d:\d\d .*{COPY}\.timer", listed), listed)
    drop_in(f"{COPY}.timer", "[Timer]", "OnCalendar=", "OnCalendar=*:*:0/5", "RandomizedDelaySec=0",
            "AccuracySec=1s")
    system("restart", f"{COPY}.timer")
    before, end = good(), time.monotonic() + 60
    while {it.name for it in PLACE.iterdir() if NAME.fullmatch(it.name)} <= set(before):
        want(time.monotonic() < end, f"the timer starts nothing: {listed}")
        time.sleep(0.5)
    system("disable", "--now", f"{COPY}.timer")
    until(lambda known: known["ActiveState"] == "inactive", "the last copy", COPY)
    drop_in(f"{COPY}.timer")
    return "the timer makes a copy at its moment"


def numbers(tenant):
    """The numbers of the service, each with its label; those of a stopped one stand still."""
    file = METRICS / "ledgerd.prom"
    want(run(NUMBERS)[0], "the numbers")
    lines = file.read_text().splitlines()
    plain = ledgerd("status", "--prometheus")[1].splitlines()
    want([it.split("{")[0] for it in lines] == [it.split()[0] for it in plain], f"{lines}, and {plain}")
    want(all(re.fullmatch(r'ledgerd_\w+\{ledger="main"\} \d+', it) for it in lines), f"{lines}")
    want(file.stat().st_mode & 0o777 == 0o644, "others may read the numbers")
    system("enable", "--now", f"{NUMBERS}.timer")
    tenant.write()
    before, end = file.read_text(), time.monotonic() + 90
    while file.read_text() == before:
        want(time.monotonic() < end, "the timer hands over nothing")
        time.sleep(0.5)
    system("disable", "--now", f"{NUMBERS}.timer")
    until(lambda known: known["ActiveState"] == "inactive", "the last numbers", NUMBERS)
    system("stop", UNIT)
    before = file.read_text()
    want(run(NUMBERS)[0] and file.read_text() == before, "without a service the old numbers stay")
    start()
    return "the numbers are handed over, each minute, with a label"


def trials():
    """What each of them tells."""
    install()
    yield "installed; without ReadWritePaths a copy fails, and says so"
    tenant = Tenant("north-desk")
    for act in (copies, copies_of_stopped, copies_refused, timed_copies, numbers):
        yield act(tenant)
    yield "all of it holds"


if __name__ == "__main__":
    main(trials)
