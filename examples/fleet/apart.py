"""Runs a script apart from the rest of this machine: with processes, mounts and networks of its
own, all of which are gone once it has ended."""

import contextlib
import os
import shutil
import signal
import subprocess
import sys
import tempfile
import time

NEEDED = {"unshare": "util-linux", "nsenter": "util-linux", "setpriv": "util-linux",
          "ip": "iproute2",
          "glusterd": "glusterfs-server", "gluster": "glusterfs-cli",
          "mount.glusterfs": "glusterfs-client", "haproxy": "haproxy"}
PATHS = os.pathsep.join((os.environ.get("PATH", ""), "/usr/sbin", "/sbin"))


def lacking():
    """What this machine lacks, as a text for each."""
    lacks = [f"{command} (Debian's {package})" for command, package in NEEDED.items()
             if not shutil.which(command, path=PATHS)]
    if os.geteuid() != 0:
        lacks.append("root")
    if not os.path.exists("/dev/fuse"):
        lacks.append("/dev/fuse")
    return lacks


def look_for_all():
    """Ends where something is lacking, and tells all of it."""
    lacks = lacking()
    if lacks:
        sys.exit(f"a fleet needs {', '.join(lacks)}")
    os.environ["PATH"] = PATHS


def words(script, *given):
    """The command that runs a script apart."""
    return ["unshare", "--mount", "--net", "--pid", "--fork", "--mount-proc", "--kill-child",
            sys.executable, os.path.abspath(__file__), os.path.abspath(script), *given]


def run(script, *given):
    """Runs it, and answers its status. It ends with this process."""
    signal.signal(signal.SIGTERM, lambda *_: sys.exit(1))
    return subprocess.run(["setpriv", "--pdeathsig", "KILL", *words(script, *given)]).returncode


@contextlib.contextmanager
def scratch():
    """A new folder, which is taken away."""
    folder = tempfile.mkdtemp(prefix="fleet-")
    try:
        yield folder
    finally:
        take_away(folder)


def take_away(folder):
    """Takes a folder away, in which something that was ended may still be writing."""
    end = time.monotonic() + 10
    while os.path.exists(folder) and time.monotonic() < end:
        shutil.rmtree(folder, ignore_errors=True)
        time.sleep(0.1)


def wait_for_all(command):
    """What the first process has to do: it waits for whoever has nobody else that does."""
    own = os.fork()
    if own == 0:
        os.execv(command[0], command)
    while True:
        ended, status = os.wait()
        if ended == own:
            return os.waitstatus_to_exitcode(status)


if __name__ == "__main__":
    sys.exit(wait_for_all([sys.executable, *sys.argv[1:]]))
