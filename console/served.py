"""Serves the page of the console in front of a `ledgerd`, for development and tests: `GET /` is the
page with its headers, and every other request is handed on.

    python3 console/served.py LEDGERD_PORT [PORT]

The page is read anew each time, so that an edit shows once it is loaded again."""

import base64
import hashlib
import http.client
import http.server
import pathlib
import re
import sys

PAGE = pathlib.Path(__file__).with_name("page.html")
HANDED_ON = ("x-ledger-key", "content-type")


def hash_of(page, element):
    """What a policy allows an inline element by: the digest of its text."""
    text, = re.findall(rf"<{element}\b[^>]*>(.*?)</{element}>", page, re.S)
    return f"'sha256-{base64.b64encode(hashlib.sha256(text.encode()).digest()).decode()}'"


def policy_of(page):
    """Nothing but the page's own script and style, and requests to where it came from."""
    return "; ".join((
        "default-src 'none'", "connect-src 'self'", f"script-src {hash_of(page, 'script')}",
        f"style-src {hash_of(page, 'style')}", "img-src data:", "base-uri 'none'",
        "form-action 'none'", "frame-ancestors 'none'", "require-trusted-types-for 'script'",
        "trusted-types 'none'"))


def headers_of(page):
    return {"content-type": "text/html; charset=utf-8", "content-security-policy": policy_of(page),
            "x-content-type-options": "nosniff"}


def reply_of(page):
    """The whole reply, as `ledgerd` gives it."""
    headers = {"content-length": str(len(page)), **headers_of(page)}
    head = "".join(f"{name}: {value}\r\n" for name, value in headers.items())
    return f"HTTP/1.1 200 OK\r\n{head}\r\n{page}".encode()


class Handler(http.server.BaseHTTPRequestHandler):
    protocol_version = "HTTP/1.1"
    ledgerd_port = 0

    def log_message(self, *_):
        pass

    def tell(self, status, headers, body):
        self.send_response_only(status)
        for name, value in {"content-length": str(len(body)), **headers}.items():
            self.send_header(name, value)
        self.end_headers()
        self.wfile.write(body)

    def hand_on(self):
        """Asks ledgerd the same, on a connection of its own, and tells what it has told."""
        body = self.rfile.read(int(self.headers.get("content-length") or 0))
        headers = {name: self.headers[name] for name in HANDED_ON if name in self.headers}
        ledgerd = http.client.HTTPConnection("127.0.0.1", self.ledgerd_port, timeout=60)
        try:
            ledgerd.request(self.command, self.path, body or None, headers)
            reply = ledgerd.getresponse()
            kind = reply.getheader("content-type", "application/json")
            self.tell(reply.status, {"content-type": kind}, reply.read())
        except (OSError, http.client.HTTPException):
            self.tell(502, {"content-type": "text/plain"}, b"ledgerd does not answer\n")
        finally:
            ledgerd.close()

    def do_GET(self):
        if self.path == "/":
            page = PAGE.read_text(encoding="utf-8")
            self.tell(200, headers_of(page), page.encode())
        else:
            self.hand_on()

    do_POST = hand_on


class Server(http.server.ThreadingHTTPServer):
    """A browser that gives a request up, as it does for another view, is no fault."""

    def handle_error(self, request, client_address):
        if not isinstance(sys.exc_info()[1], ConnectionError):
            super().handle_error(request, client_address)


def server(ledgerd_port, port=0):
    """A server that is not running yet; with no port it takes a free one."""
    handler = type("Handler", (Handler,), {"ledgerd_port": ledgerd_port})
    return Server(("127.0.0.1", port), handler)


def main():
    ledgerd_port, *port = map(int, sys.argv[1:])
    with server(ledgerd_port, *port) as served:
        print(f"http://127.0.0.1:{served.server_port}/", flush=True)
        served.serve_forever()


if __name__ == "__main__":
    main()
