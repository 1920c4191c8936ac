"""Prints a port of 127.0.0.1 that is free, and ends with 1 where the one that is asked for is not.

    python3 examples/session/port.py [PORT]

It is drawn below the ports that a system gives to connections that go out, so that none takes it
before it is served."""

import random
import socket
import sys


def is_free(port):
    with socket.socket() as probe:
        probe.setsockopt(socket.SOL_SOCKET, socket.SO_REUSEADDR, 1)
        try:
            probe.bind(("127.0.0.1", port))
        except OSError:
            return False
    return True


def main():
    if len(sys.argv) > 1:
        asked = sys.argv[1]
        if not (asked.isdigit() and 0 < int(asked) < 65536 and is_free(int(asked))):
            sys.exit(f"port {asked} cannot be served: with no PORT= a free one is taken")
        return print(asked)
    for port in random.sample(range(20000, 32768), 1000):
        if is_free(port):
            return print(port)
    sys.exit("no port of 127.0.0.1 is free")


main()
