"""A replicated volume of three bricks, each on a machine of its own, by Debian's GlusterFS."""

import os
import pathlib
import re
import signal
import time

from machines import PATIENCE, STORE, Machine, wait_until

VOLUME, WHERE = "ledger", "/mnt"
# What the volume of a ledger needs; README.md tells why.
OPTIONS = {
    # Whose lock has fallen writes no more.
    "client.strict-locks": "on",
    # A machine that is cut off gives up, and its lock falls.
    "network.ping-timeout": "10",
    "server.tcp-user-timeout": "10",
    "server.keepalive-time": "5",
    "server.keepalive-interval": "2",
    "server.keepalive-count": "3",
    # Nothing is kept back, and nothing is told out of a machine's memory.
    "performance.write-behind": "off",
    "performance.flush-behind": "off",
    "performance.stat-prefetch": "off",
    "performance.quick-read": "off",
    "performance.read-ahead": "off",
    "performance.readdir-ahead": "off",
    "performance.io-cache": "off",
    "performance.open-behind": "off",
    # Two bricks of three write, or nobody does.
    "cluster.quorum-type": "auto",
    # What a machine that was cut off left half done is healed soon.
    "cluster.heal-timeout": "10",
}
MOUNTED = "attribute-timeout=0,entry-timeout=0"


class Brick(Machine):
    """A machine with a brick."""

    def __init__(self, number, folder):
        super().__init__(f"brick{number}", number)
        self.folder = os.path.join(folder, self.name)
        self.plug(STORE)
        for own, place in (("lib", "/var/lib/glusterd"), ("log", "/var/log/glusterfs"),
                           ("run", "/run"), ("brick", None)):
            os.makedirs(os.path.join(self.folder, own))
            if place:
                self.run("mount", "--bind", os.path.join(self.folder, own), place)
        self.start("glusterd", "-N", "--pid-file=/run/glusterd.pid")
        wait_until(lambda: "Number of Peers" in self.gluster("peer", "status", check=False),
                   f"{self.name}: glusterd does not answer")

    def place(self):
        return f"{self.address(STORE)}:{os.path.join(self.folder, 'brick')}"

    def gluster(self, *words, check=True):
        return self.run("gluster", "--mode=script", *words, check=check)

    def process(self):
        """The number of the brick's own process, if it runs."""
        for file in pathlib.Path(self.folder, "run").glob("gluster/vols/*/*.pid"):
            number = file.read_text().strip()
            if number and not is_gone(number):
                return int(number)
        return None

    def kill(self):
        """Ends the brick as a crash does."""
        number = self.process()
        os.kill(number, signal.SIGKILL)
        wait_until(lambda: is_gone(number), f"{self.name} does not end")


class Volume:
    """The volume, and who has mounted it."""

    def __init__(self, folder, options=None):
        self.bricks = [Brick(number, folder) for number in (1, 2, 3)]
        first = self.first = self.bricks[0]
        for other in self.bricks[1:]:
            first.gluster("peer", "probe", other.address(STORE))
        wait_until(lambda: first.gluster("peer", "status").count("in Cluster (Connected)") == 2,
                   "the bricks' machines do not meet")
        first.gluster("volume", "create", VOLUME, "replica", "3",
                      *(brick.place() for brick in self.bricks), "force")
        for name, value in (OPTIONS if options is None else options).items():
            first.gluster("volume", "set", VOLUME, name, value)
        first.gluster("volume", "start", VOLUME)

    def mount(self, machine, log, mounted=MOUNTED):
        """Mounts the volume on a machine."""
        others = ":".join(brick.address(STORE) for brick in self.bricks[1:])
        machine.run("mount", "-t", "glusterfs", "-o",
                    f"backup-volfile-servers={others},log-file={log},{mounted}".rstrip(","),
                    f"{self.first.address(STORE)}:/{VOLUME}", WHERE)

    def start_brick(self, brick):
        """Starts a brick that was ended."""
        self.first.gluster("volume", "start", VOLUME, "force")
        wait_until(brick.process, f"{brick.name} does not start")

    def left_to_heal(self):
        """How many entries are not yet alike on all bricks, or None where that cannot be told."""
        told = self.first.gluster("volume", "heal", VOLUME, "info", check=False)
        counts = re.findall(r"^Number of entries: (\S+)$", told, re.M)
        if len(counts) != 3 or not all(count.isdigit() for count in counts):
            return None
        return sum(map(int, counts))

    def heal(self, patience=PATIENCE):
        """Waits until all bricks are alike. The seconds that it took."""
        begun = time.monotonic()
        while self.left_to_heal() != 0:
            if time.monotonic() - begun > patience:
                raise TimeoutError(self.first.gluster("volume", "heal", VOLUME, "info"))
            time.sleep(0.5)
        return time.monotonic() - begun


def is_gone(number):
    """Whether a process has ended; one that nobody has waited for has too."""
    try:
        return pathlib.Path(f"/proc/{number}/stat").read_text().rsplit(")", 1)[1].split()[0] == "Z"
    except OSError:
        return True
