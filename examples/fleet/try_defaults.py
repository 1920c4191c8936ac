"""Shows what happens on a volume whose options are as they come: two processes that write one file.

    python3 examples/fleet/try_defaults.py LEDGERD [bricks|cut_off]

`bricks` kills the three bricks in turn and brings each back, healed, while a service writes.
`cut_off` cuts off a machine that nobody asks, and brings it back. It fails where neither happens:
then the page is wrong that says that the options are needed."""

import json
import os
import sys
import threading
import time

import apart


class Teller:
    """A tenant that counts what it was answered, whoever answers."""

    def __init__(self, instance):
        self.instance, self.key, self.sent, self.answered = instance, instance.probe, 0, 0
        accounts = [{"id": str(number), "ledger": 7, "code": 1} for number in (1, 2)]
        instance.active().ask(("POST", "/accounts", json.dumps(accounts)), self.key)

    def move(self, post):
        """Whether a transfer was answered."""
        self.sent += 1
        event = {"id": str(self.sent), "debit_account_id": "1", "credit_account_id": "2",
                 "amount": "1", "ledger": 7, "code": 1}
        told = post.ask(("POST", "/transfers", json.dumps([event])), self.key, 30)
        is_kept = told is not None and told[0] == 200 and '"ok"' in told[1]
        self.answered += is_kept
        return is_kept

    def kept(self):
        """How many are in the file, once nobody serves it."""
        for post in self.instance.posts:
            post.kill()
        told = self.instance.posts[0].command("check", check=False)
        if told != "ok\n":
            return f"check says {told.splitlines()[0]}"
        lines = self.instance.posts[0].command("statement", "--tenant", "probe", "--account", "1")
        return f"check says ok, {len(lines.splitlines()) - 1} are in the file"


def both_write(teller):
    """Both processes are asked in turn. Whether both have answered."""
    told = [[teller.move(post) for post in teller.instance.posts] for _ in range(20)]
    return all(any(answers) for answers in zip(*told))


def bricks(fleet, instance, teller):
    """Each brick is killed and brought back while a service writes."""
    post, is_over = instance.active(), threading.Event()

    def write():
        while not is_over.is_set():
            teller.move(post)
            time.sleep(0.05)

    writer = threading.Thread(target=write, daemon=True)
    writer.start()
    for brick in fleet.volume.bricks:
        brick.kill()
        time.sleep(4)
        fleet.volume.start_brick(brick)
        time.sleep(4)
        fleet.volume.heal()
    time.sleep(3)
    is_over.set()
    writer.join()


def cut_off(fleet, instance, _teller):
    """A machine that nobody asks is cut off until the other one serves, and brought back."""
    from machines import STORE, wait_until
    post = instance.active()
    fleet.proxy_stands_still()
    post.machine.cut(STORE)
    wait_until(instance.other(post).is_serving, "nobody takes over")
    post.machine.join(STORE)
    time.sleep(20)


CASES = {"bricks": (bricks, "three bricks killed and brought back in turn, each healed"),
         "cut_off": (cut_off, "cut off while nobody asked, and brought back")}


def show(program, folder, name):
    """Shows one case. It fails where no two processes have written."""
    from fleet import Fleet
    act, text = CASES[name]
    fleet = Fleet(program, folder, options={}, mounted="")
    instance = fleet.instances[0]
    teller = Teller(instance)
    act(fleet, instance, teller)
    is_shown = both_write(teller)
    print(f"{text}: {'two processes' if is_shown else 'no two processes'} write one file; of "
          f"{teller.answered} transfers that were answered ok {teller.kept()}", flush=True)
    sys.exit(0 if is_shown else 1)


def main():
    if len(sys.argv) < 2:
        sys.exit(__doc__)
    apart.look_for_all()
    statuses = []
    for name in sys.argv[2:] or CASES:
        with apart.scratch() as folder:
            program = os.path.abspath(sys.argv[1])
            statuses.append(apart.run(__file__, "apart", folder, program, name))
    sys.exit(max(statuses))


if __name__ == "__main__":
    if sys.argv[1:2] == ["apart"]:
        show(sys.argv[3], sys.argv[2], sys.argv[4])
    else:
        main()
