"""A service with a file of its own, which tests may kill."""

import os
import socket
import subprocess
import tempfile
import time

PATIENCE = 120


def free_port():
    with socket.create_server(("127.0.0.1", 0)) as taken:
        return taken.getsockname()[1]


class Service:
    """A service with one tenant."""

    def __init__(self, program, key):
        self.program, self.key, self.process = os.path.abspath(program), key, None
        self.folder = tempfile.TemporaryDirectory()
        self.db = os.path.join(self.folder.name, "ledger.db")
        self.port = free_port()
        self.url = f"http://127.0.0.1:{self.port}"

    def __enter__(self):
        subprocess.run([self.program, "tenant-add", "--db", self.db, "--name", "shop", "--key", "-"],
                       input=self.key, text=True, check=True, capture_output=True)
        self.start()
        return self

    def start(self):
        self.process = subprocess.Popen(
            [self.program, "serve", "--db", self.db, "--port", str(self.port)],
            stderr=subprocess.DEVNULL)
        end = time.monotonic() + PATIENCE
        while True:
            try:
                socket.create_connection(("127.0.0.1", self.port)).close()
                return
            except ConnectionRefusedError:
                if self.process.poll() is not None or time.monotonic() > end:
                    raise RuntimeError("the service does not listen") from None
                time.sleep(0.01)

    def kill(self):
        """Ends it like a crash."""
        if self.process:
            self.process.kill()
            self.process.wait()
            self.process = None

    def check(self):
        """What the audit of the file prints."""
        return subprocess.run([self.program, "check", "--db", self.db], capture_output=True,
                              text=True, timeout=PATIENCE).stdout.strip()

    def __exit__(self, *_):
        self.kill()
        self.folder.cleanup()
