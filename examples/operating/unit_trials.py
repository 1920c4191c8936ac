"""What `try_unit.py` runs in its container: the unit is installed, started, stopped, killed, given
files that are not served, a port that is taken and a file that another unit has. And what the
process may do is looked at from outside."""

import http.client
import json
import os
import pathlib
import pwd
import re
import resource
import shutil
import signal
import socket
import sqlite3
import subprocess
import time

UNIT, SECOND, PROGRAM = "ledgerd", "ledgerd-second", "/usr/local/bin/ledgerd"
HERE, UNITS = pathlib.Path(__file__).parent, pathlib.Path("/etc/systemd/system")
FOLDER, COPIES = pathlib.Path("/var/lib/ledgerd"), pathlib.Path("/srv/copies")
DB = FOLDER / "ledger.db"
LOG = pathlib.Path(f"{DB}-wal")
# Seconds within which a unit is to be in a state, and behind which one that has failed stays so.
PATIENCE, STAYS = 180, 7
# An address of the machine that is not 127.0.0.1.
ELSEWHERE = "10.9.9.9"
# The fields of the process in /proc, and of the unit in systemd.
CONFINED = {"NoNewPrivs": "1", "Seccomp": "2", "CapInh": "0" * 16, "CapPrm": "0" * 16,
            "CapEff": "0" * 16, "CapBnd": "0" * 16, "CapAmb": "0" * 16}
SHOWN = ("ActiveState", "SubState", "Result", "ExecMainCode", "ExecMainStatus", "NRestarts",
         "MainPID")
# A unit that was stopped, and whose process has ended by itself.
CLEAN = {"ActiveState": "inactive", "Result": "success", "ExecMainCode": "1", "ExecMainStatus": "0"}


class Surprise(Exception):
    """Something that does not hold."""


def want(holds, text):
    if not holds:
        raise Surprise(text)


def told_by(*words, user=None):
    """The status, standard output and standard error of a command."""
    one = {}
    if user:
        ids = pwd.getpwnam(user)
        one = {"user": ids.pw_uid, "group": ids.pw_gid, "extra_groups": ()}
    done = subprocess.run([str(word) for word in words], capture_output=True, text=True,
                          timeout=PATIENCE, **one)
    return done.returncode, done.stdout, done.stderr


def ledgerd(command, *words, user=UNIT):
    """A command on the file, as its user."""
    return told_by(PROGRAM, command, "--db", DB, *words, user=user)


def system(*words):
    told = told_by("systemctl", *words)
    want(told[0] == 0, f"systemctl {' '.join(words)}: {told}")


def shown(unit=UNIT):
    """What systemd knows of a unit."""
    text = told_by("systemctl", "show", unit, *(f"-p{name}" for name in SHOWN))[1]
    return dict(line.split("=", 1) for line in text.splitlines())


def journal(unit=UNIT):
    told_by("journalctl", "--sync")
    return told_by("journalctl", "-b", "-u", unit, "-o", "cat", "--no-pager")[1]


def until(holds, what, unit=UNIT):
    """What systemd knows of a unit, once it is so."""
    end = time.monotonic() + PATIENCE
    while not holds(known := shown(unit)):
        want(time.monotonic() < end, f"{what}: {known}\n{journal(unit)}")
        time.sleep(0.1)
    return known


def ask(method, path, key="", events=None, port=8080):
    """The status and body of a reply."""
    connection = http.client.HTTPConnection("127.0.0.1", port, timeout=PATIENCE)
    try:
        send(connection, method, path, key, events)
        reply = connection.getresponse()
        return reply.status, reply.read().decode()
    finally:
        connection.close()


def send(connection, method, path, key="", events=None):
    connection.request(method, path, None if events is None else json.dumps(events),
                       {"x-ledger-key": key} if key else {})


def is_well(port=8080):
    try:
        return ask("GET", "/health", port=port) == (200, '{"serving":true}')
    except ConnectionError:
        return False


def served(unit=UNIT, port=8080):
    """The process of a unit, once it serves."""
    until(lambda known: known["ActiveState"] == "active" and is_well(port), f"{unit} serves", unit)
    return int(shown(unit)["MainPID"])


def start():
    system("reset-failed", UNIT)
    system("start", UNIT)
    return served()


def add_lines(*lines):
    """The unit's section [Service] has these lines too, and no others but its own."""
    folder = UNITS / f"{UNIT}.service.d"
    shutil.rmtree(folder, ignore_errors=True)
    if lines:
        folder.mkdir()
        (folder / "trial.conf").write_text("\n".join(("[Service]", *lines, "")))
    system("daemon-reload")


class Tenant:
    """A tenant of the service, which counts the transfers that were answered."""

    def __init__(self, name):
        status, text, errors = ledgerd("tenant-add", "--name", name)
        found = re.fullmatch(f"added {name}\nkey ([0-9a-f]{{64}})\n", text)
        want(status == 0 and found, f"tenant-add: {status} {text} {errors}")
        self.key, self.many = found[1], 0
        events = [{"id": number, "ledger": 7, "code": 1} for number in ("1", "2")]
        status, text = ask("POST", "/accounts", self.key, events)
        want(status == 200 and text.count('"ok"') == 2, f"accounts: {status} {text}")

    def batch(self, length=1):
        first, self.many = self.many + 1, self.many + length
        return [{"id": str(number), "debit_account_id": "1", "credit_account_id": "2",
                 "amount": "1", "ledger": 7, "code": 1} for number in range(first, self.many + 1)]

    def write(self, length=1):
        status, text = ask("POST", "/transfers", self.key, self.batch(length))
        want(status == 200 and text.count('"ok"') == length, f"a batch: {status} {text}")

    def compare(self):
        """All that was answered is there."""
        status, text = ask("GET", "/statement/1", self.key)
        want(status == 200 and text.count("\n") == self.many + 1,
             f"{self.many} were answered, and there are {text.count(chr(10)) - 1}")


def fail(told, status="4"):
    """The unit, which was started, has failed and told this, and is not started again."""
    known = until(lambda known: known["ActiveState"] == "failed", told)
    time.sleep(STAYS)
    want(shown() == known and (known["ExecMainStatus"], known["NRestarts"]) == (status, "0"),
         f"{told}: {known}, and later {shown()}")
    want(told in journal(), journal())


def try_again(status, word, unit=UNIT):
    """The unit ends with this status, again and again."""
    until(lambda known: known["ExecMainStatus"] == status and int(known["NRestarts"]) >= 2,
          f"{word}, and it is started again", unit)
    want(f"ledgerd: {word}\n" in journal(unit), journal(unit))


def install():
    """As docs/OPERATING.md has it. Without a file the unit fails."""
    told_by("useradd", "--system", UNIT)
    want(told_by("systemd-analyze", "verify", HERE / f"{UNIT}.service") == (0, "", ""), "verify")
    shutil.copy(HERE / f"{UNIT}.service", UNITS)
    system("daemon-reload")
    system("enable", "--now", UNIT)
    fail("ledgerd: unreadable\n")
    return "installed; without a file: status 4, and it stays failed"


def serve():
    """The first tenant makes the file; another is added while it is served."""
    status, _, errors = ledgerd("tenant-add", "--name", "first")
    want(status == 0 and errors == f"new ledger {DB}\n", f"{status} {errors}")
    start()
    tenant = Tenant("north-desk")
    tenant.write()
    modes = [os.stat(file).st_mode & 0o777 for file in (FOLDER, DB, LOG, f"{DB}.control")]
    want(modes == [0o700, 0o600, 0o600, 0o600], f"modes: {modes}")
    want(ledgerd("status")[0] == 0, "status")
    told = ledgerd("tenants", user="nobody")
    want(told == (4, "", "ledgerd: unreadable\nPermission denied (os error 13)\n"), f"{told}")
    return tenant


def confine(tenant):
    """What the process may do, and in which folders its user may write where it sees them."""
    process = served()
    text = pathlib.Path(f"/proc/{process}/status").read_text()
    fields = dict(line.split(":\t", 1) for line in text.splitlines() if ":\t" in line)
    want({name: fields[name] for name in CONFINED} == CONFINED, text)
    limits = pathlib.Path(f"/proc/{process}/limits").read_text()
    want(re.search(r"^Max core file size +0 +0 ", limits, re.M), limits)
    ids = pwd.getpwnam(UNIT)
    places = told_by("nsenter", "-t", process, "-m", "-S", ids.pw_uid, "-G", ids.pw_gid, "find",
                     "/", "-path", "/proc", "-prune", "-o", "-type", "d", "-writable", "-print")
    want(set(places[1].split()) == {str(FOLDER)}, f"it may write to {places}")
    status, text, _ = told_by("systemd-analyze", "security", "--no-pager", "--threshold=15", UNIT)
    want(status == 0, text)
    tenant.write()
    return f"it may write to its folder alone; {text.strip().splitlines()[-1][2:]}"


def listen_elsewhere(tenant):
    """Whatever address it listens on, none is answered but this machine's own."""
    want(told_by("ip", "address", "add", f"{ELSEWHERE}/32", "dev", "lo")[0] == 0, "an address")
    add_lines("ExecStart=", f"ExecStart={PROGRAM} serve --db {DB} --port 8080 --address 0.0.0.0")
    system("restart", UNIT)
    served()
    with socket.socket() as client:
        client.settimeout(3)
        try:
            client.connect((ELSEWHERE, 8080))
            raise Surprise(f"it may be reached by {ELSEWHERE}")
        except TimeoutError:
            pass
    add_lines()
    system("restart", UNIT)
    served()
    tenant.compare()
    return "nobody reaches it but over this machine's own addresses"


def copy(_tenant):
    """A copy goes to its folder and where ReadWritePaths lets it; elsewhere nothing is left."""
    COPIES.mkdir()
    shutil.chown(COPIES, UNIT, UNIT)
    for place in (COPIES, "/tmp", "/var/tmp", "/dev/shm", "/run/lock", "/home"):
        told = ledgerd("copy", "--to", f"{place}/copy.db")
        want(told == (3, "", "ledgerd: output\n"), f"a copy in {place}: {told}")
    add_lines(f"ReadWritePaths={COPIES}")
    system("restart", UNIT)
    served()
    for place in (FOLDER, COPIES):
        told = ledgerd("copy", "--to", f"{place}/copy.db")
        want(told[0] == 0, f"a copy in {place}: {told}")
        checked = told_by(PROGRAM, "check", "--db", f"{place}/copy.db", user=UNIT)
        want(checked[:2] == (0, "ok\n"), f"the copy in {place}: {checked}")
    add_lines()
    return "a copy is made in its folder and in one that ReadWritePaths names, and in no other"


def crowd(tenant):
    """A thousand clients at once."""
    resource.setrlimit(resource.RLIMIT_NOFILE, (4096, 4096))
    clients = [http.client.HTTPConnection("127.0.0.1", 8080, timeout=PATIENCE)
               for _ in range(1000)]
    for turn in range(2):
        for client in clients:
            send(client, "GET", "/health")
            want(client.getresponse().read() == b'{"serving":true}', f"a thousand clients, {turn}")
    for client in clients:
        client.close()
    want("no more clients" not in journal(), "descriptors are wanting")
    tenant.write()
    return "a thousand clients at once"


def stop(tenant):
    """What has come is answered; then the process ends by itself."""
    for _ in range(10):
        process, client = served(), http.client.HTTPConnection("127.0.0.1", 8080, timeout=PATIENCE)
        send(client, "GET", "/health")
        client.getresponse().read()
        os.kill(process, signal.SIGSTOP)
        send(client, "POST", "/transfers", tenant.key, tenant.batch())
        with subprocess.Popen(["systemctl", "stop", UNIT]) as stopping:
            time.sleep(0.3)
            os.kill(process, signal.SIGCONT)
            reply = client.getresponse()
            want(reply.status == 200 and b'"ok"' in reply.read(), "sent before the stop")
        want(stopping.returncode == 0 and CLEAN.items() <= shown().items(), f"stop: {shown()}")
        want(not os.path.exists(f"{DB}.control"), "the socket is still there")
        start()
        tenant.compare()
    return "stopped ten times: what had come was answered, and it ended by itself with status 0"


def kill(tenant):
    """Killed, and stopped by hand, it is started again."""
    process = served()
    os.kill(process, signal.SIGKILL)
    until(lambda known: known["MainPID"] not in ("0", str(process)), "killed")
    served()
    tenant.compare()
    tenant.write()
    want(ledgerd("stop") == (0, "stopped\n", ""), "stop by hand")
    until(lambda known: known["NRestarts"] == "2", "stopped by hand")
    served()
    tenant.compare()
    return "killed, and stopped by hand: it is started again"


def spoil(tenant):
    """A wrong command line, and files that are not served, which are put back then."""
    system("stop", UNIT)
    add_lines("ExecStart=", f"ExecStart={PROGRAM} serve --db {DB} --port eighty")
    system("start", UNIT)
    fail("eighty", "2")
    add_lines()
    kept = {file: file.read_bytes() for file in (DB, LOG)}
    for word, act in (("damaged", damage), ("unreadable", lambda: put(b"x" * 8192)),
                      ("not_a_ledger", lambda: put(b""))):
        act()
        system("start", UNIT)
        fail(f"ledgerd: {word}\n")
        for file, content in kept.items():
            file.write_bytes(content)
            shutil.chown(file, UNIT, UNIT)
        start()
        tenant.compare()
        system("stop", UNIT)
    start()
    return ("a wrong command line: status 2; a file that is damaged, no database or empty: status 4; "
            "it stays failed")


def put(content):
    LOG.unlink(missing_ok=True)
    DB.write_bytes(content)


def damage():
    """A balance that is none."""
    with sqlite3.connect(DB) as ledger:
        ledger.execute("UPDATE balance SET dd = ?", (bytes(15) + b"\x07",))
    ledger.close()
    for file in FOLDER.glob("ledger.db*"):
        shutil.chown(file, UNIT, UNIT)


def other():
    """Somebody else on the port."""
    held = socket.socket()
    held.setsockopt(socket.SOL_SOCKET, socket.SO_REUSEADDR, 1)
    held.bind(("127.0.0.1", 8080))
    held.listen()
    return held


def take_port(tenant):
    """Tried again while it is taken; but sixty starts within an hour are given up."""
    system("stop", UNIT)
    with other():
        system("start", UNIT)
        try_again("3", "socket")
    served()
    tenant.compare()
    system("stop", UNIT)
    add_lines("RestartSec=50ms")
    with other():
        system("start", UNIT)
        known = until(lambda known: known["ActiveState"] == "failed", "sixty starts")
    want(known["ExecMainStatus"] == "3", f"sixty starts: {known}")
    add_lines()
    start()
    return f"a port that is taken: status 3, tried again; {known['NRestarts']} times and no more"


def serve_twice(tenant):
    """A second unit on the same file waits for it, and does not stop the first."""
    first, text = served(), (UNITS / f"{UNIT}.service").read_text()
    (UNITS / f"{SECOND}.service").write_text(text.replace("--port 8080", "--port 8081"))
    system("daemon-reload")
    system("start", SECOND)
    try_again("5", "in_use", SECOND)
    want(served() == first, "the second one has stopped the first")
    tenant.write()
    system("stop", UNIT)
    served(SECOND, 8081)
    system("stop", SECOND)
    start()
    tenant.compare()
    return "a second one on the same file: status 5, tried again until it has the file"


def stop_opening(tenant):
    """Stopped while it opens its file, it is ended, and that is no failure."""
    longest = 0.0
    for _ in range(40):
        tenant.write(1000)
    for _ in range(3):
        system("restart", UNIT)
        time.sleep(0.2)
        told = ledgerd("status")
        want(told == (1, "", "ledgerd: not_served\n"), f"an opening that takes a while: {told}")
        begun = time.monotonic()
        system("stop", UNIT)
        want(shown()["ActiveState"] == "inactive", f"stopped in an opening: {shown()}")
        longest = max(longest, time.monotonic() - begun)
        start()
        tenant.compare()
    return f"stopped while it opens its file: within {longest:.1f} s, and not failed"


def trials():
    """What each of them tells."""
    yield install()
    tenant = serve()
    yield "a tenant is added while it serves, and nobody else may ask"
    for act in (confine, listen_elsewhere, copy, crowd, stop, kill, spoil, take_port, serve_twice,
                stop_opening):
        yield act(tenant)
    yield "all of it holds"


def main(lines=trials):
    """Writes the line of each trial to the log, up to the first that does not hold."""
    with (HERE / "log").open("a", buffering=1) as log:
        try:
            for told in lines():
                log.write(f"{told}\n")
        except Exception as error:
            log.write(f"{type(error).__name__}: {error}\n")


if __name__ == "__main__":
    main()
