"""Builds a fleet, plays what may happen to it under the load of twenty tenants, and compares all
that they see with their plain ledgers.

    python3 examples/fleet/try_fleet.py LEDGERD [PLAY..]

With no play all are played: handed_over, killed, brick_killed, cut_off, cut_off_idle, unreachable.
Nothing is left of it. try_defaults.py shows what happens without the volume's options."""

import os
import pathlib
import sys
import time

import apart


def play(program, folder, names):
    """Plays by name, within what runs apart."""
    import plays
    from clients import TWENTY, Client
    from fleet import Fleet
    from service import check, want

    begun = time.monotonic()
    fleet = Fleet(program, folder)
    clients = [Client(fleet, place) for place in range(TWENTY)]
    here = [sum(each.instance is instance for each in clients) for instance in fleet.instances]
    print(f"up in {time.monotonic() - begun:.0f} s, {here[0]} and {here[1]} tenants", flush=True)
    for each in plays.PLAYS:
        if not names or each.__name__ in names:
            print(each(fleet, clients), flush=True)
    batches = sum(len(each.told) for each in clients)
    for instance in fleet.instances:
        for post in instance.posts:
            post.kill()
        told = instance.posts[0].command("check", check=False)
        want(told == "ok\n", f"check: {instance.name} {told}")
    print(f"{batches} replies in {time.monotonic() - begun:.0f} s, each answer as the plain "
          "ledgers'; both files are ok", flush=True)


def main():
    if len(sys.argv) < 2:
        sys.exit(__doc__)
    apart.look_for_all()
    with apart.scratch() as folder:
        program = os.path.abspath(sys.argv[1])
        status = apart.run(__file__, "apart", folder, program, *sys.argv[2:])
        if status:
            tell_all(folder)
    sys.exit(status)


def tell_all(folder):
    """What the programs and the proxy have told, where something went wrong."""
    for file in sorted(pathlib.Path(folder).glob("*.txt")):
        print(f"{file.name}:\n{file.read_text()[-2000:]}", file=sys.stderr)


if __name__ == "__main__":
    if sys.argv[1:2] == ["apart"]:
        play(sys.argv[3], sys.argv[2], sys.argv[4:])
    else:
        main()
