"""A fleet on one machine: a volume of three bricks, two machines that have mounted it, two
instances of a ledger, each served by one machine while the other stands by, and a proxy in front.

    python3 examples/fleet/fleet.py up LEDGERD [FOLDER]
    python3 examples/fleet/fleet.py on MACHINE COMMAND..
    python3 examples/fleet/fleet.py down [FOLDER]

`up` builds it in a new folder, out/fleet unless told, and leaves it. `on` gives a command on `left`
or `right`, or at the proxy on `front`. `down` ends it and takes the folder away."""

import http.client
import os
import pathlib
import secrets
import signal
import subprocess
import sys

import apart
from instances import Instance
from machines import FRONT, STORE, Machine, begin_networks, wait_until
from volume import MOUNTED, Volume

CONFIGURATION = pathlib.Path(__file__).with_name("haproxy.cfg")
PROXY, PORTS = 8443, {"north": 8081, "south": 8082}
FOLDER = "out/fleet"


class Fleet:
    """All of it, in a folder. It ends with this process."""

    def __init__(self, program, folder, options=None, mounted=MOUNTED):
        self.program = os.path.abspath(program)
        begin_networks()
        self.volume = Volume(folder, options)
        self.machines = []
        for number, name in ((11, "left"), (12, "right")):
            machine = Machine(name, number)
            for network in (STORE, FRONT):
                machine.plug(network)
            self.volume.mount(machine, os.path.join(folder, f"{name}.log"), mounted)
            self.machines.append(machine)
        left, right = self.machines
        self.instances = [
            Instance(self.program, name, PORTS[name], machines, folder)
            for name, machines in (("north", (left, right)), ("south", (right, left)))]
        self.begin(os.path.join(folder, "haproxy.txt"))

    def begin(self, errors):
        """Serves both instances, and starts the proxy."""
        probes = {}
        for instance in self.instances:
            instance.probe = probes[f"PROBE_{instance.name.upper()}"] = secrets.token_hex(32)
            instance.posts[0].command("tenant-add", "--name", "probe", "--key", instance.probe)
            instance.begin()
        with open(errors, "wb") as file:
            self.proxy = subprocess.Popen(["haproxy", "-db", "-f", CONFIGURATION], stderr=file,
                                          stdout=file, env={**os.environ, **probes})
        for name in PORTS:
            wait_until(lambda: self.ask(secrets.token_hex(32)) == (401, name),
                       f"the proxy does not reach {name}", pause=0.01)

    def proxy_stands_still(self):
        """It asks nobody for anything, until it goes on."""
        self.proxy.send_signal(signal.SIGSTOP)

    def proxy_goes_on(self):
        self.proxy.send_signal(signal.SIGCONT)

    def ask(self, key):
        """What the proxy answers to a look-up of nothing: its status, and which instance it has
        asked where that knows no such key."""
        asked = http.client.HTTPConnection("127.0.0.1", PROXY, timeout=10)
        try:
            asked.request("POST", "/accounts/lookup", "[]", {"x-ledger-key": key})
            reply = asked.getresponse()
            return reply.status, reply.getheader("x-ledger-instance")
        except (OSError, http.client.HTTPException):
            return None, None
        finally:
            asked.close()

    def add(self, name, key):
        """Adds a tenant to the instance to which the proxy sends its key, which it answers."""
        name_of = wait_until(lambda: self.ask(key)[1], "no instance answers a key that nobody has")
        instance = next(each for each in self.instances if each.name == name_of)
        instance.add(name, key)
        return instance


def first_of(fleet):
    """The number of the first process of what runs apart, as this machine sees it."""
    return int(pathlib.Path(f"/proc/{fleet}/task/{fleet}/children").read_text().split()[0])


def is_there(folder):
    """The number of the process that has a fleet, if it runs."""
    file = pathlib.Path(folder, "fleet.pid")
    try:
        number = int(file.read_text())
        command = pathlib.Path(f"/proc/{number}/cmdline").read_text()
        return number if os.path.abspath(folder) in command else None
    except (OSError, ValueError):
        return None


def up(program, folder=FOLDER):
    apart.look_for_all()
    folder = os.path.abspath(folder)
    if os.path.exists(folder):
        sys.exit(f"{folder} is there: `down` ends a fleet and takes its folder away")
    os.makedirs(folder)
    with open(os.path.join(folder, "fleet.txt"), "wb") as told:
        fleet = subprocess.Popen(apart.words(__file__, "stay", os.path.abspath(program), folder),
                                 stdout=told, stderr=told, start_new_session=True)
    pathlib.Path(folder, "fleet.pid").write_text(str(fleet.pid))
    ready = pathlib.Path(folder, "ready")
    wait_until(lambda: ready.exists() or fleet.poll() is not None, "the fleet does not come up",
               300)
    if fleet.poll() is not None:
        sys.exit(pathlib.Path(folder, "fleet.txt").read_text())
    print(f"""the fleet is up, in {folder}
python3 {sys.argv[0]} on front curl http://127.0.0.1:{PROXY}/health
python3 {sys.argv[0]} on left {os.path.abspath(program)} status --db /mnt/north.db
python3 {sys.argv[0]} down""")


def stay(program, folder):
    """Builds a fleet, and keeps it until this process is ended."""
    fleet = Fleet(program, folder)
    for machine in fleet.machines:
        pathlib.Path(folder, f"{machine.name}.pid").write_text(str(machine.holder.pid))
    pathlib.Path(folder, "ready").touch()
    signal.pause()


def on(machine, *command):
    """Gives a command on one of the machines of the fleet that is up in out/fleet, in its root."""
    fleet = is_there(FOLDER)
    if not fleet:
        sys.exit(f"no fleet is up in {FOLDER}")
    words = ["nsenter", "--target", str(first_of(fleet)), "--mount", "--net", "--pid"]
    if machine != "front":
        holder = pathlib.Path(FOLDER, f"{machine}.pid").read_text()
        words += ["nsenter", "--target", holder, "--net", "--mount"]
    sys.exit(subprocess.run([*words, *command]).returncode)


def down(folder=FOLDER):
    if not os.path.exists(os.path.join(folder, "fleet.pid")):
        sys.exit(f"no fleet was made in {folder}")
    fleet = is_there(folder)
    if fleet:
        os.kill(first_of(fleet), signal.SIGKILL)
        wait_until(lambda: not is_there(folder), "the fleet does not end")
    apart.take_away(folder)


COMMANDS = {"up": up, "stay": stay, "on": on, "down": down}

if __name__ == "__main__":
    if len(sys.argv) < 2 or sys.argv[1] not in COMMANDS:
        sys.exit(__doc__)
    COMMANDS[sys.argv[1]](*sys.argv[2:])
