"""Measures what threads of the Python client get from one service, with default settings: first three
threads, then twenty, for a minute each, in batches of 1,000.

    python3 bench/python_crowd.py LEDGERD [--seconds N] [--client FOLDER] [--share S]

FOLDER has the package `cegarront`, by default `clients/python`. Each thread has its own `Ledger`, sends
batch after batch, and resends a batch that gets no answer. S limits the service to that share of the
time, so that it is slow on any machine. The exit status is 1 if twenty threads get less than nine tenths
of what three get."""

import argparse
import collections
import pathlib
import signal
import socket
import subprocess
import sys
import tempfile
import threading
import time

TOP = pathlib.Path(__file__).resolve().parents[1]
KEY = "0" * 64
BATCH, FEW, MANY, LEAST = 1000, 3, 20, 0.9
PERIOD = 0.1


def serve(program, db):
    """The service's process and address, once it listens."""
    with socket.create_server(("127.0.0.1", 0)) as taken:
        port = taken.getsockname()[1]
    subprocess.run([program, "tenant-add", "--db", db, "--name", "shop", "--key", KEY], check=True,
                   capture_output=True)
    process = subprocess.Popen([program, "serve", "--db", db, "--port", str(port)],
                               stderr=subprocess.DEVNULL)
    while True:
        try:
            socket.create_connection(("127.0.0.1", port)).close()
            return process, f"http://127.0.0.1:{port}"
        except ConnectionRefusedError:
            time.sleep(0.05)


def throttle(process, share):
    """Stops a process for all but a share of the time."""
    while process.poll() is None:
        process.send_signal(signal.SIGSTOP)
        time.sleep(PERIOD * (1 - share))
        process.send_signal(signal.SIGCONT)
        time.sleep(PERIOD * share)


def work(cegarront, url, until, told):
    """Sends batches until the time is over, and counts the answers."""
    with cegarront.Ledger(url, KEY) as ledger:
        while time.monotonic() < until:
            batch = [cegarront.Transfer(id=cegarront.new_id(), debit_account_id=1,
                                        credit_account_id=2, amount=1, ledger=7, code=1)
                     for _ in range(BATCH)]
            while time.monotonic() < until:
                try:
                    results = ledger.create_transfers(batch)
                except cegarront.Unanswered:
                    told["calls without an answer"] += 1
                    continue
                if time.monotonic() < until:
                    told["answered"] += sum(each.stands for each in results)
                break


def crowd(cegarront, url, threads, seconds):
    """The transfers per second that were answered to a number of threads."""
    told, until = collections.Counter(), time.monotonic() + seconds
    all_of = [threading.Thread(target=work, args=(cegarront, url, until, told))
              for _ in range(threads)]
    for each in all_of:
        each.start()
    for each in all_of:
        each.join()
    print(f"{threads} threads: {told['answered'] / seconds:.0f} transfers answered a second,"
          f" {told['calls without an answer']} calls without an answer", flush=True)
    return told["answered"] / seconds


def main():
    asked = argparse.ArgumentParser()
    asked.add_argument("program")
    asked.add_argument("--seconds", type=float, default=60)
    asked.add_argument("--client", default=str(TOP / "clients/python"))
    asked.add_argument("--share", type=float, default=1.0)
    words = asked.parse_args()
    sys.path.insert(0, words.client)
    import cegarront
    with tempfile.TemporaryDirectory() as folder:
        process, url = serve(words.program, f"{folder}/ledger.db")
        try:
            with cegarront.Ledger(url, KEY) as ledger:
                ledger.create_accounts([cegarront.Account(id=1, ledger=7, code=1),
                                        cegarront.Account(id=2, ledger=7, code=1)])
            if words.share < 1:
                threading.Thread(target=throttle, args=(process, words.share), daemon=True).start()
            few = crowd(cegarront, url, FEW, words.seconds)
            many = crowd(cegarront, url, MANY, words.seconds)
        finally:
            process.kill()
            process.wait()
    print(f"twenty get {many / few:.2f} of what three get")
    sys.exit(0 if many >= LEAST * few else 1)


if __name__ == "__main__":
    main()
