"""Measures a client's slowest transfer beside others, what many clients get done together, and the
memory of a thousand of them.

    python3 bench/crowd.py LEDGERD [WORD]

Serves a new ledger by the program, on a free port. A client with a kept connection sends transfers
one by one for a few seconds, beside others that do what the trial is called by; `wrk`, where it is
there, sends transfers by 1, 20 and 200 kept connections for ten seconds. Prints a line for each
trial, and the machine's load at the end. With WORD only the trials whose names have it."""

import contextlib
import http.client
import itertools
import json
import os
import pathlib
import shutil
import socket
import statistics
import subprocess
import sys
import tempfile
import threading
import time

from clients import HEAD, KEY, serve

SECONDS = 8
HEADERS = {"x-ledger-key": KEY}
IDS = itertools.count(10**6)
# Each connection's transfers have ids of its own.
BY_WRK = """
local many, mine = 0, 0
function setup(thread) many = many + 1; thread:set("mine", many) end
local sent = 0
function request()
  sent = sent + 1
  local id = string.format("%%d", mine * 10000000 + sent + %d)
  return wrk.format("POST", "/transfers", {["x-ledger-key"] = "%s"},
    '[{"id":"' .. id .. '","debit_account_id":"1","credit_account_id":"2","amount":"1",' ..
    '"ledger":7,"code":1}]')
end
"""


def transfers(many):
    return json.dumps([{"id": str(next(IDS)), "debit_account_id": "1", "credit_account_id": "2",
                        "amount": "1", "ledger": 7, "code": 1} for _ in range(many)])


class Client:
    """A client that keeps its connection, and is never ended."""

    def __init__(self, port):
        self.connection = http.client.HTTPConnection("127.0.0.1", port, timeout=60)

    def post(self, route, body):
        self.connection.request("POST", route, body, HEADERS)
        reply = self.connection.getresponse()
        if reply.status != 200:
            raise SystemExit(f"{route}: {reply.status} {reply.read()!r}")
        return reply.read()

    def timed(self, body):
        begin = time.monotonic()
        self.post("/transfers", body)
        return time.monotonic() - begin


def connect(port):
    return socket.create_connection(("127.0.0.1", port))


@contextlib.contextmanager
def nobody(port):
    yield


@contextlib.contextmanager
def dripping(port):
    """Ten that send a byte a second, and connect again when they are ended."""
    over = threading.Event()

    def drip():
        while not over.is_set():
            with contextlib.suppress(OSError), connect(port) as held:
                for byte in HEAD.encode():
                    held.sendall(bytes([byte]))
                    if over.wait(1):
                        return
    threads = [threading.Thread(target=drip) for _ in range(10)]
    for thread in threads:
        thread.start()
    yield
    over.set()
    for thread in threads:
        thread.join()


def idle(many):
    @contextlib.contextmanager
    def run(port):
        held = [connect(port) for _ in range(many)]
        yield
        for each in held:
            each.close()
    return run


def kept(many):
    """So many that have been answered, and keep their connections."""
    @contextlib.contextmanager
    def run(port):
        held = [Client(port) for _ in range(many)]
        for each in held:
            each.post("/transfers", "[]")
        yield
        for each in held:
            each.connection.close()
    return run


@contextlib.contextmanager
def deaf(port):
    """One that asks for forty long pages at once, and reads none."""
    Client(port).post("/transfers", transfers(1000))
    page = json.dumps({"account_id": "1", "limit": 1000, "flags": 3})
    asked = (f"POST /history/transfers HTTP/1.1\r\nx-ledger-key: {KEY}\r\n"
             f"content-length: {len(page)}\r\n\r\n{page}")
    with connect(port) as held:
        held.sendall(asked.encode() * 40)
        yield


def tool(*words):
    @contextlib.contextmanager
    def run(port):
        running = subprocess.Popen([word.replace("PORT", str(port)) for word in words],
                                   stdout=subprocess.DEVNULL, stderr=subprocess.DEVNULL)
        yield
        running.kill()
        running.wait()
    return run


def beside(others):
    """The slowest of the transfers that one client sends, one by one."""
    def run(port, served):
        with others(port):
            time.sleep(0.5)
            client, waits, end = Client(port), [], time.monotonic() + SECONDS
            while time.monotonic() < end:
                waits.append(client.timed(transfers(1)) * 1000)
        return (f"{len(waits)} transfers, {statistics.median(waits):.1f} ms in the median, "
                f"{max(waits):.1f} ms the slowest")
    return run


def begun(port, served):
    """A batch of a thousand, beside 128 bodies of 2 MB that have begun and stop."""
    head = (f"POST /transfers HTTP/1.1\r\nx-ledger-key: {KEY}\r\n"
            f"content-length: 2000000\r\n\r\n").encode()
    held = [connect(port) for _ in range(128)]
    for each in held:
        each.sendall(head + b" " * 100_000)
    time.sleep(0.5)
    took = Client(port).timed(transfers(1000))
    for each in held:
        each.close()
    return f"answered in {took:.1f} s"


def by_wrk(many):
    def run(port, served):
        with tempfile.NamedTemporaryFile("w", suffix=".lua") as script:
            script.write(BY_WRK % (next(IDS) * 1000, KEY))
            script.flush()
            done = subprocess.run(
                ["wrk", "-t1", f"-c{many}", "-d10", "--latency", "--timeout", "30", "-s",
                 script.name, f"http://127.0.0.1:{port}"], capture_output=True, text=True)
        lines = [line.split() for line in done.stdout.splitlines()]
        found = {words[0]: words[1] for words in lines if len(words) > 1}
        failed = [" ".join(words) for words in lines if words[:1] in (["Socket"], ["Non-2xx"])]
        return "; ".join([f"{found.get('Requests/sec:')} transfers a second",
                          f"{found.get('99%')} for 99 of 100", *failed])
    return run


def held(served):
    """How many MB of memory a service has."""
    return int(pathlib.Path(f"/proc/{served.pid}/statm").read_text().split()[1]) * 4096 / 1e6


def peak(served):
    """How many it had at most."""
    told = pathlib.Path(f"/proc/{served.pid}/status").read_text()
    return int(told.partition("VmHWM:")[2].split()[0]) * 1024 / 1e6


def memory(port, served):
    before = held(served)
    with kept(1000)(port):
        return f"{before:.1f} MB before, {held(served):.1f} MB with a thousand that were answered"


def statement(port, served):
    """The slowest of the transfers that one client sends, one by one, while another one reads a
    statement of 100,000 entries."""
    client, waits, taken = Client(port), [], []
    for _ in range(100):
        client.post("/transfers", transfers(1000))
    before = peak(served)

    def read():
        begin = time.monotonic()
        asking = http.client.HTTPConnection("127.0.0.1", port, timeout=60)
        asking.request("GET", "/statement/1", headers=HEADERS)
        taken.append(len(asking.getresponse().read()) / 1e6)
        taken.append(time.monotonic() - begin)
    reading = threading.Thread(target=read)
    reading.start()
    while reading.is_alive():
        waits.append(client.timed(transfers(1)) * 1000)
    reading.join()
    return (f"{taken[0]:.1f} MB in {taken[1]:.2f} s; beside it {len(waits)} transfers, "
            f"{statistics.median(waits):.1f} ms in the median, {max(waits):.1f} ms the slowest; "
            f"{before:.1f} MB of memory at most before, {peak(served):.1f} behind it")


TRIALS = {
    "beside nobody": beside(nobody),
    "beside ten that drip": beside(dripping),
    "beside 300 idle": beside(idle(300)),
    "beside 900 kept": beside(kept(900)),
    "beside one that never reads": beside(deaf),
    "beside wrk, 10 connections": beside(tool(
        "wrk", "-t1", "-c10", "-d30", "-H", f"x-ledger-key: {KEY}",
        "http://127.0.0.1:PORT/statement/1")),
    "beside ab, 10 connections": beside(tool(
        "ab", "-k", "-c10", "-t30", "-n1000000", "-H", f"x-ledger-key: {KEY}",
        "http://127.0.0.1:PORT/statement/1")),
    "beside a statement": statement,
    "1,000 transfers beside 128 begun bodies": begun,
    "wrk, transfers by 1 connection": by_wrk(1),
    "wrk, transfers by 20 connections": by_wrk(20),
    "wrk, transfers by 200 connections": by_wrk(200),
    "memory": memory,
}


def lacks(name):
    """Whether what the trial needs is not there."""
    return any(f"{it}," in name and not shutil.which(it) for it in ("wrk", "ab"))


def main():
    program, word = os.path.abspath(sys.argv[1]), (sys.argv[2:] or [""])[0]
    for name, trial in TRIALS.items():
        if word not in name or lacks(name):
            continue
        with tempfile.TemporaryDirectory() as folder:
            served, port = serve(program, os.path.join(folder, "ledger.db"))
            try:
                Client(port).post("/accounts", json.dumps(
                    [{"id": number, "ledger": 7, "code": 10} for number in ("1", "2")]))
                print(f"{name}: {trial(port, served)}", flush=True)
            finally:
                served.kill()
                served.wait()
    print("load " + " ".join(f"{load:.1f}" for load in os.getloadavg()))


main()
