"""Measures how long ordinary clients wait, and how many have to connect again.

    python3 bench/clients.py LEDGERD [WORD]

Serves a new ledger by the program, on a free port, and sends it batches of none, by node's `fetch`
and Python's `requests` (where they are there) and by `http.client`: in turn, at once, by a pool of
threads, and beside connections that are busy, silent or slow. Prints a line of a table for each
trial. With WORD only the trials whose names have it. A busy or slow neighbour goes on for 20
seconds, so no wait that it causes is told as longer than that."""

import collections
import concurrent.futures
import http.client
import importlib.util
import json
import os
import secrets
import shutil
import socket
import statistics
import subprocess
import sys
import tempfile
import threading
import time
from unittest import mock

KEY = secrets.token_hex(32)
PATIENCE = 150
NEIGHBOUR = 20
HEAD = f"POST /transfers HTTP/1.1\r\nx-ledger-key: {KEY}\r\ncontent-length: 2\r\n\r\n"
BY_NODE = """
import { channel } from "node:diagnostics_channel";
import { request } from "node:http";
const [url, key, way] = process.argv.slice(1);
const options = { method: "POST", headers: { "x-ledger-key": key } };
let connected = 0, failed = 0;
channel("undici:client:connected").subscribe(() => { connected += 1; });
const waits = [];
async function fetched() {
  await (await fetch(url, { ...options, body: "[]" })).text();
}
function requested() {
  return new Promise((done, fail) => {
    const asked = request(url, options, (reply) => { reply.resume().on("end", done); });
    asked.on("socket", () => { connected += !asked.reusedSocket; });
    asked.on("error", fail).end("[]");
  });
}
async function timed(ask) {
  const begin = performance.now();
  try {
    await ask();
  } catch {
    failed += 1;
  }
  waits.push((performance.now() - begin) / 1000);
}
if (way === "once") await Promise.all(Array.from({ length: 10 }, () => timed(fetched)));
if (way === "turn") for (let asked = 0; asked < 10; asked += 1) await timed(fetched);
if (way === "request") for (let asked = 0; asked < 200; asked += 1) await timed(requested);
console.log(JSON.stringify([waits, connected, failed]));
"""
# The seconds of each request, how many connections were made beyond the first of each client, and
# how many requests had no reply. Only a client of `http.client` sends again, once, on a new
# connection.
Told = collections.namedtuple("Told", "waits again failed")


class Client:
    """Keeps its connection, and connects again where it has ended."""

    def __init__(self, port):
        self.connection = http.client.HTTPConnection("127.0.0.1", port, timeout=PATIENCE)
        self.waits, self.connected, self.failed = [], 0, 0

    def ask(self):
        begin = time.monotonic()
        if not (self.try_once() or self.try_once()):
            self.failed += 1
        self.waits.append(time.monotonic() - begin)

    def try_once(self):
        self.connected += self.connection.sock is None
        try:
            self.connection.request("POST", "/transfers", b"[]", {"x-ledger-key": KEY})
            self.connection.getresponse().read()
            return True
        except (OSError, http.client.HTTPException):
            self.connection.close()
            return False


def told(clients):
    return Told([wait for each in clients for wait in each.waits],
                sum(each.connected - 1 for each in clients), sum(each.failed for each in clients))


def by_node(way, first):
    """By node, which opens connections as it likes: so many are not counted."""
    def run(port):
        done = subprocess.run(["node", "--input-type=module", "-e", BY_NODE,
                               f"http://127.0.0.1:{port}/transfers", KEY, way], check=True,
                              capture_output=True, text=True, timeout=PATIENCE)
        waits, connected, failed = json.loads(done.stdout)
        return Told(waits, max(connected - first, 0), failed)
    return run


def in_turn(port):
    client = Client(port)
    for _ in range(200):
        client.ask()
    return told([client])


def by_ten_threads(work):
    with concurrent.futures.ThreadPoolExecutor(10) as threads:
        list(threads.map(work, range(10)))


def pool(port):
    """Ten threads, each with a connection of its own that it keeps."""
    clients = [Client(port) for _ in range(10)]

    def work(place):
        for _ in range(10):
            clients[place].ask()
            time.sleep(0.005)
    by_ten_threads(work)
    return told(clients)


def requests_pool(port):
    """Ten threads over one session of `requests` with a pool of ten, which sends nothing again."""
    import requests
    import urllib3.connection
    session, waits, failures, connected = requests.Session(), [], [], []
    session.mount("http://", requests.adapters.HTTPAdapter(pool_maxsize=10))
    connect = urllib3.connection.HTTPConnection.connect

    def work(_):
        for _ in range(10):
            begin = time.monotonic()
            try:
                session.post(f"http://127.0.0.1:{port}/transfers", "[]",
                             headers={"x-ledger-key": KEY}, timeout=10)
            except requests.RequestException as error:
                failures.append(error)
            waits.append(time.monotonic() - begin)
    with mock.patch.object(urllib3.connection.HTTPConnection, "connect", autospec=True,
                           side_effect=lambda it: (connected.append(it), connect(it))):
        by_ten_threads(work)
    return Told(waits, max(len(connected) - 10, 0), len(failures))


def beside(neighbour):
    """One client, once the neighbour has begun; the neighbour is then told to end."""
    def run(port):
        over = threading.Event()
        thread = threading.Thread(target=neighbour, args=(port, over))
        thread.start()
        time.sleep(0.3)
        client = Client(port)
        client.ask()
        over.set()
        thread.join()
        return told([client])
    return run


def busy(port, over):
    client, end = Client(port), time.monotonic() + NEIGHBOUR
    while time.monotonic() < end and not over.is_set():
        client.ask()


def silent(many):
    def run(port, over):
        held = [socket.create_connection(("127.0.0.1", port)) for _ in range(many)]
        over.wait(PATIENCE)
        for each in held:
            each.close()
    return run


def drip(text, ahead=b""):
    """Sends bytes ahead, and then one a second."""
    def run(port, over):
        end = time.monotonic() + NEIGHBOUR
        with socket.create_connection(("127.0.0.1", port)) as held:
            try:
                held.sendall(ahead)
                for byte in text.encode():
                    held.sendall(bytes([byte]))
                    if over.wait(1) or time.monotonic() > end:
                        return
            except OSError:
                over.wait(PATIENCE)
    return run


TRIALS = {
    "node's fetch, ten in turn": by_node("turn", 1),
    "node's fetch, ten at once": by_node("once", 10),
    "node's http.request, 200 in turn": by_node("request", 1),
    "one kept client, 200 in turn": in_turn,
    "ten threads with kept connections, ten each": pool,
    "ten threads with a pool of requests, ten each": requests_pool,
    "beside a busy kept client": beside(busy),
    "beside 1 silent connection": beside(silent(1)),
    "beside 10 silent connections": beside(silent(10)),
    "beside 50 silent connections": beside(silent(50)),
    "beside a byte a second": beside(drip(HEAD)),
    "beside a byte a second behind a refusal": beside(drip(HEAD, b"\r\n\r\n")),
}


def serve(program, db):
    with socket.socket() as probe:
        probe.bind(("127.0.0.1", 0))
        port = probe.getsockname()[1]
    subprocess.run([program, "tenant-add", "--db", db, "--name", "north", "--key", KEY],
                   check=True, stdout=subprocess.DEVNULL)
    served = subprocess.Popen(
        [program, "serve", "--db", db, "--port", str(port), "--requests", str(2**64 - 1)])
    for _ in range(600):
        try:
            socket.create_connection(("127.0.0.1", port)).close()
            break
        except ConnectionRefusedError:
            time.sleep(0.05)
    else:
        raise SystemExit("nothing is served")
    # The port may be bound before the file is open.
    Client(port).ask()
    return served, port


def line(name, found):
    middle, worst = statistics.median(found.waits), max(found.waits)
    return (f"| {name} | {len(found.waits)} | {middle * 1000:.1f} | {worst * 1000:.1f} | "
            f"{found.again} | {found.failed} |")


def lacks(name):
    """Whether what the trial needs is not there."""
    return ("node" in name and not shutil.which("node")
            or "requests" in name and not importlib.util.find_spec("requests"))


def main():
    program, word = os.path.abspath(sys.argv[1]), (sys.argv[2:] or [""])[0]
    print("| Trial | Requests | Wait in ms, median | Worst | Connected again | Failed |")
    print("|---|---|---|---|---|---|")
    for name, trial in TRIALS.items():
        if word not in name or lacks(name):
            continue
        with tempfile.TemporaryDirectory() as folder:
            served, port = serve(program, os.path.join(folder, "ledger.db"))
            try:
                print(line(name, trial(port)), flush=True)
            finally:
                served.kill()
                served.wait()


if __name__ == "__main__":
    main()
