"""Tries alerts.yml and ledgerd.html of this folder with Debian's Prometheus and its node exporter.

    python3 examples/operating/try_alerts.py [LEDGERD [PICTURE]]

promtool runs the tests of the rules, which is all without LEDGERD, the program. Then services run for 15
minutes: a disk fills up, one is killed, one hangs, one is stopped, copies are too old, and at last nothing
hands over numbers. Each time the alerts that have to fire are awaited, and no others may. With PICTURE the
page is drawn into that file by chromium. It needs root for a full disk, and Debian's prometheus,
prometheus-node-exporter and util-linux. It touches no Prometheus of the machine."""

import http.client
import json
import os
import pathlib
import re
import shutil
import signal
import subprocess
import sys
import tempfile
import threading
import time
import urllib.parse
import urllib.request

HERE = pathlib.Path(__file__).resolve().parent
sys.path.insert(0, str(HERE.parent / "clients"))

from served import KEY, free_port, wait_for, wait_for_reply  # noqa: E402

RULES, TESTS, PAGE = HERE / "alerts.yml", HERE / "alerts_test.yml", HERE / "ledgerd.html"
# Where Debian has the frame of such pages.
LIBRARIES = pathlib.Path("/usr/share/doc/prometheus/examples/console_libraries")
CONFIGURATION = """
global: {{scrape_interval: 5s, evaluation_interval: 5s}}
rule_files: [{rules}]
scrape_configs:
  - job_name: node
    static_configs: [{{targets: ["127.0.0.1:{port}"]}}]
"""
COLLECTORS = ("--collector.disable-defaults", "--collector.textfile", "--collector.filesystem",
              "--collector.meminfo")
# The graphs of the picture have the last ten minutes.
LAST = "#pctc" + urllib.parse.quote('{"duration":600,"endTime":0}')
# The disk of a ledger, in megabytes; how often numbers are handed over; and the seconds that alerts may take.
DISK, PERIOD, PATIENCE = 64, 10, 660


def want(holds, text):
    if not holds:
        sys.exit(f"does not hold: {text}")


def test_rules():
    """The unit tests, which name each alert."""
    for words in ["check", RULES], ["test", TESTS]:
        subprocess.run(["promtool", words[0], "rules", words[1].name], cwd=HERE, check=True,
                       stdout=subprocess.DEVNULL)
    alerts, tested = re.findall(r"alert: (\w+)", RULES.read_text()), TESTS.read_text()
    left = [it for it in alerts if f'alertname="{it}"' not in tested]
    want(not left, f"tests for {left}")
    print(f"{len(alerts)} alerts have tests, which pass", flush=True)


class Service:
    """A ledger on a disk of its own, the processes that serve it, and a client that writes."""

    def __init__(self, ledgerd, folder, name):
        self.ledgerd, self.name, self.folder = ledgerd, name, folder / name
        self.folder.mkdir()
        subprocess.run(["mount", "-t", "tmpfs", "-o", f"size={DISK}m", "tmpfs", self.folder], check=True)
        self.db, self.ports, self.processes = self.folder / "ledger.db", [], []
        self.run("tenant-add", "--name", "first", "--key", KEY)
        self.number, self.is_over = 0, False
        self.serve()
        wait_for_reply(self.ports[0])
        self.ask(self.ports[0], "/accounts", [{"id": it, "ledger": 7, "code": 1} for it in "12"])
        threading.Thread(target=self.write, daemon=True).start()

    def run(self, command, *words):
        """What a command prints, or nothing where it fails or hangs."""
        try:
            ran = subprocess.run([self.ledgerd, command, "--db", self.db, *words], text=True, timeout=8,
                                 stdout=subprocess.PIPE, stderr=subprocess.DEVNULL)
        except subprocess.TimeoutExpired:
            return ""
        return "" if ran.returncode else ran.stdout

    def serve(self):
        """One more process; the first serves, and others stand by."""
        self.ports.append(free_port())
        words = ["serve", "--db", self.db, "--port", str(self.ports[-1]), "--standby"]
        self.processes.append(subprocess.Popen([self.ledgerd, *words], stderr=subprocess.DEVNULL))
        wait_for(self.ports[-1], self.processes[-1])

    def ask(self, port, path, events=None, patience=5):
        """The status of a reply, or 0 where there is none."""
        link = http.client.HTTPConnection("127.0.0.1", port, timeout=patience)
        try:
            body = None if events is None else json.dumps(events)
            link.request("GET" if body is None else "POST", path, body, {"x-ledger-key": KEY})
            reply = link.getresponse()
            reply.read()
            return reply.status
        except (OSError, http.client.HTTPException):
            return 0
        finally:
            link.close()

    def transfers(self):
        """Twenty transfers, of which two name an account that nobody has."""
        for place in range(20):
            self.number += 1
            yield {"id": str(self.number), "debit_account_id": "1", "amount": "1", "ledger": 7,
                   "credit_account_id": "2" if place % 10 else "9", "code": 1}

    def write(self):
        """Sends batches to whichever process serves."""
        while not self.is_over:
            events = list(self.transfers())
            for port in self.ports:
                if self.ask(port, "/transfers", events) == 200:
                    break
            time.sleep(0.5)

    def hand_over(self, to):
        """The numbers, with their label, as ledgerd-numbers.service has it."""
        told = self.run("status", "--prometheus")
        if told:
            new = to / f"{self.name}.new"
            new.write_text(re.sub(r"^[a-z0-9_]+", rf'\g<0>{{ledger="{self.name}"}}', told, flags=re.M))
            new.replace(to / f"{self.name}.prom")


class Watch:
    """Prometheus and the node exporter, and what they say."""

    def __init__(self, folder):
        self.numbers, self.folder, self.services = folder / "numbers", folder, []
        self.numbers.mkdir()
        consoles, (exporter, self.port) = folder / "consoles", (free_port(), free_port())
        consoles.mkdir()
        shutil.copy(PAGE, consoles)
        file = folder / "prometheus.yml"
        file.write_text(CONFIGURATION.format(rules=RULES, port=exporter))
        self.start("prometheus-node-exporter", *COLLECTORS, f"--web.listen-address=127.0.0.1:{exporter}",
                   f"--collector.textfile.directory={self.numbers}")
        self.start("prometheus", f"--config.file={file}", f"--storage.tsdb.path={folder / 'data'}",
                   f"--web.listen-address=127.0.0.1:{self.port}", f"--web.console.templates={consoles}",
                   f"--web.console.libraries={LIBRARIES}")
        threading.Thread(target=self.hand_over, daemon=True).start()
        time.sleep(PERIOD)

    def start(self, program, *words):
        with open(self.folder / f"{program}.log", "wb") as log:
            subprocess.Popen([program, *words], stdout=log, stderr=log)

    def hand_over(self):
        while True:
            for it in self.services:
                it.hand_over(self.numbers)
            time.sleep(PERIOD)

    def page(self, path):
        with urllib.request.urlopen(f"http://127.0.0.1:{self.port}{path}", timeout=30) as reply:
            return reply.read().decode()

    def values(self, expression):
        """The value for each set of labels."""
        told = json.loads(self.page(f"/api/v1/query?query={urllib.parse.quote(expression)}"))
        return {tuple(sorted(it["metric"].items())): float(it["value"][1]) for it in told["data"]["result"]}

    def firing(self):
        """The alerts that fire, each with the label of its ledger."""
        told = json.loads(self.page("/api/v1/alerts"))["data"]["alerts"]
        return {(it["labels"]["alertname"].removeprefix("Ledgerd"), it["labels"].get("ledger", ""))
                for it in told if it["state"] == "firing"}

    def until(self, alerts, what, others=()):
        """Waits until these alerts fire; meanwhile none may but these and others."""
        begun = time.monotonic()
        while not (found := self.firing()) >= alerts:
            want(found <= alerts | set(others), f"{what}: also {found - alerts}")
            want(time.monotonic() - begun < PATIENCE, f"{what}: {alerts - found} do not fire")
            time.sleep(1)
        print(f"{what}: {', '.join(sorted(f'{it} ({of})' if of else it for it, of in alerts))} "
              f"after {time.monotonic() - begun:.0f} s", flush=True)


def work(watch, services):
    """Services that work, for two minutes: no alert, and the numbers of both."""
    end = time.monotonic() + 120
    while time.monotonic() < end:
        want(not watch.firing(), f"no alert: {watch.firing()}")
        time.sleep(2)
    found = watch.values("ledgerd_transfers_accepted > 0")
    want({dict(it)["ledger"] for it in found} == {it.name for it in services}, f"numbers of both: {found}")
    print("both work, and their numbers are there: no alert in two minutes", flush=True)


def fill(watch, main):
    """A full disk."""
    ballast = main.folder / "ballast"
    with ballast.open("wb", buffering=0) as file:
        try:
            while file.write(bytes(4096)):
                pass
        except OSError:
            pass
    of = {(it, main.name) for it in ("Unavailable", "DiskFault", "Reopened")}
    watch.until(of, "a full disk")
    ballast.unlink()


def kill(watch, main, others):
    """The process that serves is killed, and the standby takes over."""
    main.serve()
    want(main.ask(main.ports[1], "/health") == 503, "the standby waits")
    main.processes[0].kill()
    watch.until({("Restarted", main.name)}, "killed, and the standby takes over", others)
    want(main.ask(main.ports[1], "/health") == 200, "the standby serves")


def hang(watch, main, other, others):
    """One that hangs keeps its file, and the standby waits. Another one is stopped."""
    main.serve()
    main.processes[1].send_signal(signal.SIGSTOP)
    other.is_over = True
    want(other.run("stop") == "stopped\n", "stop")
    watch.until({("Silent", main.name), ("Silent", other.name)}, "one hangs, one is stopped", others)
    want(main.ask(main.ports[2], "/health") == 503, "the standby waits for one that hangs")
    main.processes[1].send_signal(signal.SIGCONT)


def forget(watch, others):
    """Copies of two days ago; then nothing hands over numbers."""
    copied = watch.numbers / "copy.prom"
    copied.write_text(f"ledgerd_copied_seconds {time.time() - 48 * 3600:.0f}\n")
    watch.until({("CopyOld", "")}, "the last copy is two days old", others)
    watch.services.clear()
    time.sleep(PERIOD)
    for it in watch.numbers.glob("*.prom"):
        it.unlink()
    watch.until({("NumbersMissing", "")}, "no numbers", {("CopyOld", ""), *others})


def draw(watch, picture):
    """The page, which names each ledger, and its picture."""
    page = watch.page("/consoles/ledgerd.html")
    want(all(it.name in page for it in watch.services), "the page has each ledger")
    if picture:
        subprocess.run(["chromium", "--headless", "--no-sandbox", "--disable-gpu", "--hide-scrollbars",
                        "--window-size=960,880", "--virtual-time-budget=20000", f"--screenshot={picture}",
                        f"http://127.0.0.1:{watch.port}/consoles/ledgerd.html{LAST}"], check=True,
                       stdout=subprocess.DEVNULL, stderr=subprocess.DEVNULL)


def play(folder, ledgerd, picture=None):
    """All of it, in mounts and with processes that end with this one."""
    watch = Watch(folder)
    main, other = watch.services = [Service(ledgerd, folder, name) for name in ("north", "south")]
    work(watch, watch.services)
    fill(watch, main)
    full = {(it, main.name) for it in ("Unavailable", "DiskFault", "Reopened")}
    kill(watch, main, full)
    before = full | {("Restarted", main.name)}
    hang(watch, main, other, before)
    draw(watch, picture)
    forget(watch, before | {("Silent", main.name), ("Silent", other.name)})
    main.is_over = True
    for it in (main, other):
        for each in it.processes:
            each.kill()
            each.wait()
        want(it.run("check") == "ok\n", f"check of {it.name}")
    print("all of it holds", flush=True)


def main():
    if sys.argv[1:2] == ["within"]:
        play(pathlib.Path(sys.argv[2]), *sys.argv[3:])
        return
    if len(sys.argv) > 3 or len(sys.argv) > 1 and os.geteuid():
        sys.exit(__doc__)
    test_rules()
    if len(sys.argv) == 1:
        return
    with tempfile.TemporaryDirectory() as folder:
        apart = ["unshare", "--mount", "--pid", "--fork", "--mount-proc", "--kill-child", sys.executable, __file__]
        given = [os.path.abspath(it) for it in sys.argv[1:]]
        status = subprocess.run([*apart, "within", folder, *given]).returncode
    sys.exit(status)


if __name__ == "__main__":
    main()
