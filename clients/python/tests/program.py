"""The program itself, `ledgerd`: a service over a file of its own, that may be killed."""

import atexit
import os
import pathlib
import signal
import socket
import subprocess
import tempfile
import time

from .fake import free_port
from .pages import TOP

PATIENCE = 60


def program():
    """The path of the program. What is missing fails the run."""
    path = pathlib.Path(os.environ.get("LEDGERD", TOP / "crates/ledgerd/out/ledgerd")).resolve()
    if not os.access(path, os.X_OK):
        raise AssertionError(f"there is no program {path}: build it with `make ledgerd`, or set "
                             "LEDGERD to its path")
    return str(path)


def run(*words):
    """The status and output of a command."""
    done = subprocess.run([program(), *words], capture_output=True, timeout=PATIENCE, text=True)
    return done.returncode, done.stdout, done.stderr


def wait_for(port, process):
    """Until the service listens."""
    end = time.monotonic() + PATIENCE
    while True:
        if process and process.poll() is not None:
            raise AssertionError(f"the service has ended with status {process.returncode}")
        try:
            socket.create_connection(("127.0.0.1", port)).close()
            return
        except ConnectionRefusedError:
            if time.monotonic() > end:
                raise AssertionError("the service does not listen") from None
            time.sleep(0.01)


def end_of(process):
    """Ends a process that may be nobody's child here, and waits until it has let go of its files."""
    os.kill(process, signal.SIGKILL)
    end = time.monotonic() + PATIENCE
    while time.monotonic() < end:
        try:
            state = pathlib.Path(f"/proc/{process}/stat").read_text().rsplit(")", 1)[1].split()[0]
        except (FileNotFoundError, ProcessLookupError):
            return
        if state == "Z":
            return
        time.sleep(0.01)
    raise AssertionError(f"process {process} does not end")


class Service:
    """A service with one tenant."""

    def __init__(self, key):
        self.folder = tempfile.TemporaryDirectory()
        self.db = os.path.join(self.folder.name, "ledger.db")
        told = run("tenant-add", "--db", self.db, "--name", "shop", "--key", key)
        if told != (0, "added shop\n", f"new ledger {self.db}\n"):
            raise AssertionError(f"tenant-add: {told}")
        self.port, self.process = free_port(), None
        self.url = f"http://127.0.0.1:{self.port}"
        atexit.register(self.kill)

    def start(self):
        self.process = subprocess.Popen(
            [program(), "serve", "--db", self.db, "--port", str(self.port)])
        wait_for(self.port, self.process)

    def kill(self):
        """Ends it as a crash does."""
        if self.process:
            self.process.kill()
            self.process.wait()
            self.process = None

    def check(self):
        """What the audit of the file says."""
        return run("check", "--db", self.db)

    def __enter__(self):
        self.start()
        return self

    def __exit__(self, *_):
        self.kill()
        atexit.unregister(self.kill)
        self.folder.cleanup()
