"""A service of one's own for a trial: a new ledger with one tenant, on a free port."""

import contextlib
import http.client
import os
import secrets
import socket
import subprocess
import sys
import time

KEY = secrets.token_hex(32)


def free_port():
    with socket.socket() as probe:
        probe.bind(("127.0.0.1", 0))
        return probe.getsockname()[1]


def wait_for(port, process):
    """Waits until a process listens."""
    for _ in range(600):
        try:
            socket.create_connection(("127.0.0.1", port)).close()
            return
        except ConnectionRefusedError:
            if process.poll() is not None:
                break
            time.sleep(0.1)
    sys.exit(f"nothing listens on {port}")


def wait_for_reply(port):
    """Waits until the service has opened its file and replies."""
    with contextlib.closing(http.client.HTTPConnection("127.0.0.1", port, timeout=120)) as link:
        link.request("GET", "/health")
        link.getresponse().read()


@contextlib.contextmanager
def ended(process):
    """A process, which is ended behind it."""
    try:
        yield process
    finally:
        process.kill()
        process.wait()


@contextlib.contextmanager
def served(ledgerd, folder):
    """The port of a service over a new ledger in a folder."""
    db, port = os.path.join(folder, "ledger.db"), free_port()
    subprocess.run([ledgerd, "tenant-add", "--db", db, "--name", "first", "--key", KEY], check=True,
                   stdout=subprocess.DEVNULL)
    words = [ledgerd, "serve", "--db", db, "--port", str(port)]
    with ended(subprocess.Popen(words)) as service:
        wait_for(port, service)
        wait_for_reply(port)
        yield port
