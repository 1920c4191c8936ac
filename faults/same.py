"""Compares two programs: what each answers to bodies drawn at random on standard input, byte for byte,
and with which status. One is the proved `ledgerd`, the other has run-time checks in place of proofs.

    python3 faults/same.py LEDGERD OTHER [--many N] [--seed N]

A body is a batch of transfers between accounts that there are or are not, with retries, chains, holds
and their ends. Every third body is damaged: cut, or with a byte changed, doubled or left out. The exit
status is 1 at the first difference, whose body is printed."""

import argparse
import random
import secrets
import subprocess
import sys

from drawn import Requests
from messages import body_of


def damaged(drawn, body):
    """The body, cut or with one byte changed, doubled or left out."""
    at = drawn.randrange(len(body))
    ways = (b"", body[at:at + 1] * 2 + body[at + 1:], body[at + 1:],
            bytes([drawn.randrange(256)]) + body[at + 1:])
    return body[:at] + drawn.choice(ways)


def bodies(seed, many):
    """Bodies drawn by a seed."""
    drawn = random.Random(seed)
    requests = Requests(drawn)
    for number in range(many):
        body = body_of(requests.batch(most=drawn.choice((1, 3, 12, 60))))
        yield damaged(drawn, body) if number % 3 == 2 else body


def answer(program, body):
    """What a program answers to a body, and its status."""
    ran = subprocess.run([program], input=body, capture_output=True, timeout=60)
    return ran.stdout, ran.stderr, ran.returncode


def main():
    asked = argparse.ArgumentParser(usage=__doc__)
    asked.add_argument("ledgerd")
    asked.add_argument("other")
    asked.add_argument("--many", type=int, default=2000)
    asked.add_argument("--seed", default=secrets.token_hex(4))
    words = asked.parse_args()
    print(f"seed {words.seed}", flush=True)
    statuses = {}
    for body in bodies(words.seed, words.many):
        one, other = answer(words.ledgerd, body), answer(words.other, body)
        if one != other:
            sys.exit(f"they differ on {body!r}:\n{one}\n{other}")
        statuses[one[2]] = statuses.get(one[2], 0) + 1
    ended = ", ".join(f"{many} with status {it}" for it, many in sorted(statuses.items()))
    print(f"{words.many} bodies are answered alike: {ended}")


if __name__ == "__main__":
    main()
