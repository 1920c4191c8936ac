"""How each client sends a batch of none, `[]`, to a place: the statuses that it is answered."""

import concurrent.futures
import http.client
import os
import pathlib
import re
import socket
import subprocess
import tempfile
import time

from served import KEY

HERE = pathlib.Path(__file__).resolve().parent
NONE = b"[]"
# More than curl sends without asking first, and more than nginx takes unless it is told so.
LARGE = b"[" + b" " * 1_500_000 + b"]"
PATIENCE = 120
# For so many seconds a client is quiet, and loses its connection by that.
QUIET = 3
GOOD, BAD_HEAD, TOO_LARGE = "200", "400", "413"


class Place:
    """Where a client sends to."""

    def __init__(self, port):
        self.port, self.url = port, f"http://127.0.0.1:{port}/transfers"


def told(*words, fed=""):
    """What a command prints."""
    return subprocess.run(words, input=fed, capture_output=True, text=True, timeout=PATIENCE,
                          env={**os.environ, "LEDGER_KEY": KEY}).stdout


def curl(*options, fed=""):
    words = ("curl", "-s", "-o", "/dev/null", "-w", "%{http_code}\n", "-H", f"x-ledger-key: {KEY}")
    return lambda place: told(*words, *options, place.url, fed=fed).split()


def curl_large(place):
    with tempfile.NamedTemporaryFile() as body:
        body.write(LARGE)
        body.flush()
        return curl("-H", "Expect:", "--data-binary", f"@{body.name}")(place)


def post(connection, body):
    connection.request("POST", "/transfers", body, {"x-ledger-key": KEY})
    reply = connection.getresponse()
    reply.read()
    return str(reply.status)


def post_again(connection):
    """The same, on a new connection where the service has ended the old one."""
    try:
        return post(connection, NONE)
    except ConnectionError:
        connection.close()
        return post(connection, NONE)


def kept(*pauses):
    """Python's http.client, which keeps its connection, with a request behind each pause."""
    def send(place):
        connection = http.client.HTTPConnection("127.0.0.1", place.port, timeout=PATIENCE)
        found = []
        for pause in pauses:
            time.sleep(pause)
            found.append(post_again(connection))
        return found
    return send


def in_pieces(place):
    """http.client with an iterator as the body."""
    connection = http.client.HTTPConnection("127.0.0.1", place.port, timeout=PATIENCE)
    return [post(connection, iter([NONE]))]


def generated(place):
    """requests with an iterator as the body."""
    import requests
    reply = requests.post(place.url, iter([NONE]), headers={"x-ledger-key": KEY}, timeout=PATIENCE)
    return [str(reply.status_code)]


def by_session():
    """What sends by a session of requests, which keeps ten connections."""
    import requests
    session = requests.Session()

    def send(place):
        reply = session.post(place.url, NONE, headers={"x-ledger-key": KEY}, timeout=PATIENCE)
        return str(reply.status_code)

    return send


def session_quiet(place):
    """A session that is quiet for a while."""
    send = by_session()
    found = [send(place)]
    time.sleep(QUIET)
    return [*found, send(place)]


def pool(place):
    """Ten threads that share a session."""
    send = by_session()
    with concurrent.futures.ThreadPoolExecutor(10) as threads:
        return list(threads.map(send, [place] * 100))


def node(way, count):
    script = str(HERE / "fetch.mjs")
    return lambda place: told("node", script, place.url, KEY, way, str(count)).split()


def java(way, count):
    script = str(HERE / "Post.java")
    return lambda place: told("java", script, place.url, KEY, way, str(count)).split()


def go(way, count):
    script = str(HERE / "post.go")
    return lambda place: told("go", "run", script, place.url, KEY, way, str(count)).split()


def php(count):
    script = str(HERE / "post.php")
    return lambda place: told("php", script, place.url, KEY, str(count)).split()


def to_the_end(value):
    """A bare socket that sends a request with this `connection` header, and behind it one for no
    route; it reads until the service ends the connection."""
    def send(place):
        first = (f"POST /transfers HTTP/1.1\r\nconnection: {value}\r\nx-ledger-key: {KEY}\r\n"
                 f"content-length: {len(NONE)}\r\n\r\n").encode() + NONE
        with socket.create_connection(("127.0.0.1", place.port), timeout=PATIENCE) as link:
            link.sendall(first + b"GET /nowhere HTTP/1.1\r\n\r\n")
            with link.makefile("rb") as replies:
                return [line.split()[1].decode() for line in replies if line.startswith(b"HTTP")]
    return send


def ab(place):
    with tempfile.NamedTemporaryFile() as body:
        body.write(NONE)
        body.flush()
        text = told("ab", "-n", "20", "-c", "2", "-p", body.name, "-T", "application/json",
                    "-H", f"x-ledger-key: {KEY}", place.url)
    done = int(re.search(r"Complete requests:\s+(\d+)", text).group(1))
    return statuses(done, re.search(r"Non-2xx responses:\s+(\d+)", text))


def wrk(place):
    text = told("wrk", "-t1", "-c4", "-d3", "-s", str(HERE / "post.lua"), place.url)
    done = int(re.search(r"(\d+) requests in", text).group(1))
    return statuses(done, re.search(r"Non-2xx or 3xx responses: (\d+)", text))


def statuses(done, found):
    """Of so many replies those that a tool counts as bad, and the others."""
    bad = int(found.group(1)) if found else 0
    return [GOOD] * (done - bad) + [BAD_HEAD] * bad
