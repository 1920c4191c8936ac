"""Machines within this one: each has a network and mounts of its own, and nothing else. All of it
is gone with the processes that hold it."""

import atexit
import os
import subprocess
import sys
import time

# The networks that join the machines: to the volume, and to clients.
STORE, FRONT = "store", "front"
NUMBERS = {STORE: 77, FRONT: 78}
PATIENCE = 120
# After how many seconds a wait is reported.
SLOW = 10


def run(*words, check=True):
    """What a command writes. Where it fails all ends, unless that is asked for. One that takes long is
    named: a `gluster` that its daemon does not answer gives up only after two minutes."""
    begun = subprocess.Popen(words, stdout=subprocess.PIPE, stderr=subprocess.STDOUT, text=True)
    try:
        told, _ = begun.communicate(timeout=SLOW)
    except subprocess.TimeoutExpired:
        waits_for(" ".join(words))
        told, _ = begun.communicate()
    if check and begun.returncode != 0:
        raise RuntimeError(f"{' '.join(words)}: {begun.returncode} {told}")
    return told


def wait_until(holds, text, patience=PATIENCE, pause=0.1):
    """Waits until something holds, and tells what it was. Where that takes long, the text is printed."""
    begun, is_slow = time.monotonic(), False
    while not (found := holds()):
        waited = time.monotonic() - begun
        if waited > patience:
            raise TimeoutError(text)
        if waited > SLOW and not is_slow:
            is_slow = True
            waits_for(text)
        time.sleep(pause)
    return found


def waits_for(text):
    print(f"still waiting after {SLOW} s: {text}", file=sys.stderr, flush=True)


def begin_networks():
    """The two networks, and this process's own place in that of the clients."""
    run("ip", "link", "set", "lo", "up")
    for network in NUMBERS:
        run("ip", "link", "add", network, "type", "bridge")
        run("ip", "link", "set", network, "up")
    run("ip", "address", "add", f"10.{NUMBERS[FRONT]}.0.254/24", "dev", FRONT)


class Machine:
    """A machine: its number is the end of its addresses."""

    def __init__(self, name, number):
        self.name, self.number, self.networks = name, number, []
        self.holder = subprocess.Popen(["unshare", "--net", "--mount", "sleep", "infinity"])
        atexit.register(self.holder.kill)
        wait_until(self.is_apart, f"{name} has no network of its own")
        self.run("ip", "link", "set", "lo", "up")

    def is_apart(self):
        """Whether the holder has left this process's network and mounts, and runs."""
        own, other = ([os.readlink(f"/proc/{process}/ns/{kind}") for kind in ("net", "mnt")]
                      for process in ("self", self.holder.pid))
        is_running = os.readlink(f"/proc/{self.holder.pid}/exe").endswith("sleep")
        return is_running and not set(own) & set(other)

    def words(self, *words):
        """A command as it is given to be run on this machine."""
        return ["nsenter", "--target", str(self.holder.pid), "--net", "--mount", *words]

    def run(self, *words, check=True):
        return run(*self.words(*words), check=check)

    def start(self, *words, **options):
        """A process on this machine, which ends with this one."""
        started = subprocess.Popen(self.words(*words), **options)
        atexit.register(started.kill)
        return started

    def address(self, network):
        return f"10.{NUMBERS[network]}.0.{self.number}"

    def plug(self, network):
        """Joins a network."""
        outside = f"{self.name}-{network}"
        run("ip", "link", "add", outside, "type", "veth", "peer", "name", network,
            "netns", str(self.holder.pid))
        run("ip", "link", "set", outside, "master", network, "up")
        self.run("ip", "address", "add", f"{self.address(network)}/24", "dev", network)
        self.run("ip", "link", "set", network, "up")
        self.networks.append(network)

    def cut(self, network):
        """What is sent over the network is lost from now on, without a sign of it."""
        run("ip", "link", "set", f"{self.name}-{network}", "nomaster")

    def join(self, network):
        """The network is there again."""
        run("ip", "link", "set", f"{self.name}-{network}", "master", network)
