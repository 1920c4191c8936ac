"""Runs two instances behind the proxy of this folder, with clients that keep their connections, and
looks whether a request was lost. The ports of haproxy.cfg must be free.

    python3 examples/operating/try_proxy.py LEDGERD [CLIENTS REQUESTS]"""

import http.client
import json
import os
import pathlib
import secrets
import socket
import statistics
import subprocess
import sys
import tempfile
import threading
import time

CONFIGURATION = pathlib.Path(__file__).with_name("haproxy.cfg")
PROXY = 8443
INSTANCES = {"north": 8081, "south": 8082}
ACCOUNTS = [{"id": "1", "ledger": 7, "code": 1}, {"id": "2", "ledger": 7, "code": 1}]


class Client:
    """A tenant with one kept connection to the proxy."""

    def __init__(self, place):
        self.name, self.key = f"client-{place}", secrets.token_hex(32)
        # Both cases of a key's digits are the same key, and must come to the same instance.
        self.keys = (self.key, self.key.upper())
        self.connection = http.client.HTTPConnection("127.0.0.1", PROXY, timeout=120)
        self.seconds, self.wrong = [], []

    def ask(self, method, path, body=None):
        text = json.dumps(body) if body is not None else None
        key = self.keys[len(self.seconds) % 2]
        self.connection.request(method, path, text, {"x-ledger-key": key})
        reply = self.connection.getresponse()
        return reply.status, reply.read(), reply.getheader("x-ledger-instance")

    def instance(self):
        """Where the proxy sends this key."""
        status, _, instance = self.ask("GET", "/statement/1")
        assert status == 401, status
        return instance

    def send(self, many):
        for place in range(many):
            event = {"id": str(place + 1), "debit_account_id": "1", "credit_account_id": "2",
                     "amount": "1", "ledger": 7, "code": 1}
            start = time.perf_counter()
            status, told, _ = self.ask("POST", "/transfers", [event])
            self.seconds.append(time.perf_counter() - start)
            if status != 200 or json.loads(told)["results"][0]["result"] != "ok":
                self.wrong.append((status, told))


def serve(ledgerd, folder):
    """The instances, once they listen."""
    instances = [subprocess.Popen([ledgerd, "serve", "--db", os.path.join(folder, f"{name}.db"),
                                   "--port", str(port)])
                 for name, port in INSTANCES.items()]
    for port in INSTANCES.values():
        wait_for(port)
    return instances


def wait_for(port):
    """Waits until something listens."""
    for _ in range(300):
        try:
            socket.create_connection(("127.0.0.1", port)).close()
            return
        except ConnectionRefusedError:
            time.sleep(0.1)
    sys.exit(f"nothing listens on {port}")


def add(ledgerd, folder, instance, name, key):
    subprocess.run([ledgerd, "tenant-add", "--db", os.path.join(folder, f"{instance}.db"),
                    "--name", name, "--key", key], check=True, stdout=subprocess.DEVNULL)


def end(processes):
    for process in processes:
        process.kill()
        process.wait()


def load(clients, many):
    """All clients at once. The seconds that it took."""
    for client in clients:
        assert client.ask("POST", "/accounts", ACCOUNTS)[0] == 200
    threads = [threading.Thread(target=client.send, args=(many,)) for client in clients]
    start = time.perf_counter()
    for thread in threads:
        thread.start()
    for thread in threads:
        thread.join()
    return time.perf_counter() - start


def tell(clients, many, seconds):
    lost = 0
    for client in clients:
        status, told, _ = client.ask("GET", "/statement/1")
        lost += many - told.count(b"\n") + 1 if status == 200 else many
        lost += len(client.wrong)
    each = sorted(one for client in clients for one in client.seconds)
    print(f"{len(clients)} clients, {len(each)} requests, {lost} lost, {seconds:.1f} s: "
          f"{len(each) / seconds:.0f} a second, median {1e3 * statistics.median(each):.1f} ms, "
          f"99 of 100 within {1e3 * each[len(each) * 99 // 100]:.1f} ms")
    return lost


def main():
    ledgerd = os.path.abspath(sys.argv[1])
    count, many = map(int, sys.argv[2:4] or (20, 200))
    clients = [Client(place) for place in range(count)]
    with tempfile.TemporaryDirectory() as folder:
        for name in INSTANCES:
            add(ledgerd, folder, name, "first", secrets.token_hex(32))
        proxy = subprocess.Popen(["haproxy", "-db", "-f", str(CONFIGURATION)])
        instances = serve(ledgerd, folder)
        try:
            wait_for(PROXY)
            places = [client.instance() for client in clients]
            end(instances)
            for client, instance in zip(clients, places):
                client.connection.close()
                add(ledgerd, folder, instance, client.name, client.key)
            instances = serve(ledgerd, folder)
            seconds = load(clients, many)
            print({name: places.count(name) for name in INSTANCES})
            lost = tell(clients, many, seconds)
        finally:
            end([*instances, proxy])
    sys.exit(1 if lost else 0)


main()
