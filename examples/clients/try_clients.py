"""Tries ordinary clients against a service of its own, on free ports, and shows what each is
answered. A client whose tool is not there is left out. Ends with 1 where one is answered otherwise
than it should be.

    python3 examples/clients/try_clients.py LEDGERD [WORD]

With WORD only the lines that have it are tried. Debian has the tools: apache2-utils (ab), curl,
golang-go, haproxy, nginx-light, nodejs, openjdk-17-jdk-headless (java), php-cli, python3-requests,
wrk. It was last run with curl 7.88, Python 3.11, requests 2.34, node 20, Java 17, Go 1.19, PHP 8.2,
wrk 4.1, ab 2.3, nginx 1.22 and haproxy 2.6."""

import collections
import importlib.util
import os
import pathlib
import re
import shutil
import subprocess
import sys
import tempfile
import time

import ways
from served import ended, free_port, served, wait_for
from ways import BAD_HEAD, GOOD, HERE, TOO_LARGE, Place, curl, go, java, node, php

PROXY = HERE.parent / "operating/haproxy.cfg"
# It is answered so, within so many seconds if that matters.
Case = collections.namedtuple("Case", "name tool way expected seconds", defaults=[None])
# A client that reads to the end of its connection waits for `--idle`, unless it is ended before.
QUICK = 10
CHUNKS = ("-X", "POST", "-T", "-")
ALONE = [
    Case("curl -d", "curl", curl("-d", "[]"), GOOD),
    Case("curl, 1.5 MB and -H 'Expect:'", "curl", ways.curl_large, GOOD),
    Case("curl -0", "curl", curl("-0", "-d", "[]"), BAD_HEAD),
    Case("curl -T -", "curl", curl(*CHUNKS, fed="[]"), BAD_HEAD),
    Case("http.client in turn", "python3", ways.kept(*[0] * 20), GOOD),
    Case("http.client, a pause", "python3", ways.kept(0, ways.QUIET), GOOD),
    Case("http.client, an iterator", "python3", ways.in_pieces, BAD_HEAD),
    Case("requests, a pool of 10", "requests", ways.pool, GOOD),
    Case("requests, a pause", "requests", ways.session_quiet, GOOD),
    Case("requests, an iterator", "requests", ways.generated, BAD_HEAD),
    Case("node, fetch in turn", "node", node("turn", 10), GOOD),
    Case("node, fetch at once", "node", node("once", 10), GOOD),
    Case("node, fetch, a pause", "node", node("pause", 2), GOOD),
    Case("node, fetch of a stream", "node", node("stream", 1), BAD_HEAD),
    Case("node, http.request, end(body)", "node", node("end", 3), GOOD),
    Case("node, http.request, write(body)", "node", node("write", 1), BAD_HEAD),
    Case("node, write(body), content-length", "node", node("length", 1), GOOD),
    Case("java, ofByteArray", "java", java("bytes", 10), GOOD),
    Case("java, ofInputStream", "java", java("stream", 1), BAD_HEAD),
    Case("go, a bytes.Reader in turn", "go", go("turn", 10), GOOD),
    Case("go, a bytes.Reader at once", "go", go("once", 10), GOOD),
    Case("go, another reader", "go", go("stream", 1), BAD_HEAD),
    Case("php, file_get_contents in turn", "php", php(10), GOOD, QUICK),
    Case("a socket, connection: close", "python3", ways.to_the_end("close"), GOOD, QUICK),
    Case("a socket, connection: te, Close", "python3", ways.to_the_end("te, Close"), GOOD, QUICK),
    Case("wrk", "wrk", ways.wrk, GOOD),
    Case("ab", "ab", ways.ab, BAD_HEAD),
]
BEHIND_NGINX = [
    Case("requests, a pool of 10", "requests", ways.pool, GOOD),
    Case("node, fetch at once", "node", node("once", 10), GOOD),
    Case("curl, 1.5 MB and -H 'Expect:'", "curl", ways.curl_large, GOOD),
    Case("curl -0", "curl", curl("-0", "-d", "[]"), GOOD),
    Case("curl -T -", "curl", curl(*CHUNKS, fed="[]"), GOOD),
    Case("wrk", "wrk", ways.wrk, GOOD),
    Case("ab", "ab", ways.ab, GOOD),
]
BEHIND_BARE_NGINX = [
    Case("curl -d", "curl", curl("-d", "[]"), BAD_HEAD),
    Case("curl, 1.5 MB and -H 'Expect:'", "curl", ways.curl_large, TOO_LARGE),
]
BEHIND_HAPROXY = [
    Case("requests, a pool of 10", "requests", ways.pool, GOOD),
    Case("node, fetch at once", "node", node("once", 10), GOOD),
    Case("curl, 1.5 MB and -H 'Expect:'", "curl", ways.curl_large, GOOD),
    Case("curl -0", "curl", curl("-0", "-d", "[]"), BAD_HEAD),
    Case("curl -T -", "curl", curl(*CHUNKS, fed="[]"), BAD_HEAD),
    Case("wrk", "wrk", ways.wrk, GOOD),
    Case("ab", "ab", ways.ab, BAD_HEAD),
]


def nginx(folder, port, front, is_bare):
    """nginx by the configuration of this folder, or without the two lines that it needs."""
    text = (HERE / "nginx.conf").read_text().replace("FRONT", str(front)).replace("BACK", str(port))
    if is_bare:
        text = re.sub(r"client_max_body_size .*|proxy_http_version .*", "", text)
    path = pathlib.Path(folder, f"nginx-{front}.conf")
    path.write_text(text)
    return subprocess.Popen(["nginx", "-p", folder, "-c", str(path), "-g",
                             "daemon off; master_process off;"])


def haproxy(folder, port, front):
    """haproxy by the configuration for operators, with the one instance that there is."""
    text = re.sub(r"bind 127\.0\.0\.1:\d+", f"bind 127.0.0.1:{front}", PROXY.read_text())
    text = re.sub(r"server north .*", f"server north 127.0.0.1:{port} maxconn 900", text)
    path = pathlib.Path(folder, "haproxy.cfg")
    path.write_text(re.sub(r"server south .*", "", text))
    return subprocess.Popen(["haproxy", "-db", "-f", str(path)])


def has(tool, name):
    """Whether a tool is there; says so where it is not."""
    if shutil.which(tool) or importlib.util.find_spec(tool):
        return True
    print(f"{name}: no {tool} here", flush=True)
    return False


def try_all(title, place, cases, word):
    """How many of the cases are answered otherwise than they should be."""
    wrong = 0
    for case in cases:
        name = f"{title}: {case.name}"
        if word not in name or not has(case.tool, name):
            continue
        start = time.perf_counter()
        found = collections.Counter(case.way(place))
        seconds = time.perf_counter() - start
        is_good = set(found) == {case.expected} and seconds <= (case.seconds or seconds)
        wrong += not is_good
        answers = ", ".join(f"{count} times {status}" for status, count in found.items())
        print(f"{name}: {answers or 'no answer'}, {seconds:.1f} s{'' if is_good else ', WRONG'}",
              flush=True)
    return wrong


def behind(proxy, title, front, cases, word):
    """The cases through a proxy, which is ended behind them."""
    with ended(proxy):
        wait_for(front, proxy)
        return try_all(title, Place(front), cases, word)


def try_proxies(folder, port, word):
    wrong = 0
    if has("nginx", "nginx"):
        front, bare = free_port(), free_port()
        wrong += behind(nginx(folder, port, front, False), "nginx", front, BEHIND_NGINX, word)
        wrong += behind(nginx(folder, port, bare, True), "nginx without its two lines", bare,
                        BEHIND_BARE_NGINX, word)
    if has("haproxy", "haproxy"):
        front = free_port()
        wrong += behind(haproxy(folder, port, front), "haproxy", front, BEHIND_HAPROXY, word)
    return wrong


def main():
    ledgerd, word = os.path.abspath(sys.argv[1]), (sys.argv[2:] or [""])[0]
    with tempfile.TemporaryDirectory() as folder, served(ledgerd, folder) as port:
        wrong = try_all("alone", Place(port), ALONE, word)
        wrong += try_proxies(folder, port, word)
    sys.exit(1 if wrong else 0)


main()
