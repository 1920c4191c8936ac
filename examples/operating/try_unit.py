"""Tries the units of this folder under a systemd of its own, in a container that has no network but its
own loopback. It ends with 1 at the first thing that does not hold.

    python3 examples/operating/try_unit.py LEDGERD FOLDER [unit_trials | timer_trials]

LEDGERD is the program. It needs root, Debian's systemd-container and debootstrap, and 300 MB in
FOLDER, where the container's files stay for the next time. It takes some minutes, and touches
nothing of this machine's own systemd. `unit_trials.py`, for the service, and `timer_trials.py`, for
its copies and numbers, are what runs in the container; without a name both are run."""

import os
import pathlib
import shutil
import subprocess
import sys
import time

HERE = pathlib.Path(__file__).resolve().parent
TRIALS = ("unit_trials", "timer_trials")
PACKAGES = "systemd-sysv,dbus,iproute2,python3"
# It runs the trials once the system is up, and ends it.
TRIAL = """[Unit]
After=multi-user.target
[Service]
Type=oneshot
ExecStart=/usr/bin/python3 /trial/{}.py
ExecStopPost=/usr/bin/systemctl --no-block poweroff
[Install]
WantedBy=multi-user.target
"""
# What a systemd needs that filters addresses itself.
FILTERS = ("--capability=CAP_BPF,CAP_NET_ADMIN,CAP_PERFMON", "--system-call-filter=bpf")


def container(program, folder, trials):
    """The root folder of the container, with the program and the trials, as on a new machine."""
    root = pathlib.Path(folder).resolve() / "root"
    if not (root / "etc/debian_version").exists():
        subprocess.run(["debootstrap", "--variant=minbase", f"--include={PACKAGES}", "bookworm",
                        root], check=True, stdout=subprocess.DEVNULL)
    units = root / "etc/systemd/system"
    for left in (root / "trial", root / "var/lib/ledgerd", root / "srv/copies", root / "backup",
                 root / "var/lib/prometheus", root / "var/lib/systemd/timers", root / "var/log/journal",
                 *units.glob("ledgerd*.d"), *units.glob("*/ledgerd*"), *units.glob("ledgerd*.*")):
        if left.is_dir():
            shutil.rmtree(left)
        else:
            left.unlink(missing_ok=True)
    (root / "trial").mkdir()
    for it in (*HERE.glob("ledgerd*"), *(HERE / f"{name}.py" for name in TRIALS)):
        shutil.copy(it, root / "trial")
    shutil.copy(program, root / "usr/local/bin/ledgerd")
    os.chmod(root / "usr/local/bin/ledgerd", 0o755)
    (units / "trial.service").write_text(TRIAL.format(trials))
    subprocess.run(["systemctl", f"--root={root}", "--quiet", "enable", "trial"], check=True)
    return root


def boot(root):
    """Boots the container, and shows what is told in it. Whether all held."""
    log = root / "trial/log"
    log.touch()
    booted = subprocess.Popen(
        ["systemd-nspawn", "--quiet", f"--directory={root}", "--private-network", "--register=no",
         "--keep-unit", "--console=pipe", *FILTERS, "--boot"],
        stdin=subprocess.DEVNULL, stdout=subprocess.DEVNULL, stderr=subprocess.DEVNULL)
    with log.open() as told:
        try:
            while booted.poll() is None:
                print(told.read(), end="", flush=True)
                time.sleep(0.2)
        finally:
            booted.terminate()
            booted.wait()
        print(told.read(), end="")
    return log.read_text().endswith("\nall of it holds\n")


def main():
    if len(sys.argv) < 3 or not set(sys.argv[3:]) <= set(TRIALS) or os.geteuid() != 0:
        sys.exit(__doc__)
    program, folder, *names = sys.argv[1:]
    sys.exit(0 if all(boot(container(program, folder, it)) for it in names or TRIALS) else 1)


main()
