"""Checks docs/openapi.yaml against the program: it sends the requests of docs/RECIPES.md, and provokes
each refusal that an operation lists. Each reply has to fit the schema of its operation and status."""

import contextlib
import http.client
import json
import pathlib
import secrets
import socket
import sqlite3
import subprocess
import sys
import tempfile

EXAMPLES = pathlib.Path(__file__).resolve().parents[1]
sys.path[:0] = [str(EXAMPLES / "clients"), str(EXAMPLES.parent / "faults")]

import recipes  # noqa: E402
from served import ended, free_port, served, wait_for, wait_for_reply  # noqa: E402

PATIENCE = 60
NOBODY = "0" * 64
MOST_BYTES, MOST_EVENTS, MOST_CLOCK = 2_097_152, 1000, 2**62
# A body that each operation accepts, once the accounts 1 and 2 exist; only 1 has the flag history.
ACCOUNTS = [{"id": "1", "ledger": 7, "code": 10, "flags": 8}, {"id": "2", "ledger": 7, "code": 10}]
TRANSFER = {"id": "100", "debit_account_id": "1", "credit_account_id": "2", "amount": "1", "ledger": 7,
            "code": 1}
FILTER = {"account_id": "1", "flags": 3, "limit": 10}
BODIES = {"/accounts": ACCOUNTS, "/transfers": [TRANSFER], "/history/transfers": FILTER,
          "/history/balances": FILTER, "/query/accounts": {"limit": 10},
          "/query/transfers": {"limit": 10}, "/pending/open": {"limit": 10},
          "/lint/accounts": ACCOUNTS, "/lint/transfers": [TRANSFER]}
# Words that say where the body is refused, if the request asks for that.
OF_BODY = {"body_not_json", "bad_field", "too_many_events"}
# Words that need a state of the service, and not a request that is wrong.
BY_STATE = {"clock_exhausted", "unavailable"}


class Tenant:
    """A tenant of a served file."""

    def __init__(self, ledgerd, db, port, name):
        self.key, self.port, self.name = secrets.token_hex(32), port, name
        subprocess.run([ledgerd, "tenant-add", "--db", db, "--name", name, "--key", "-"], check=True,
                       input=self.key, text=True, stdout=subprocess.DEVNULL, stderr=subprocess.DEVNULL)

    def ask(self, method, path, body=""):
        """The status and body of a reply."""
        link = http.client.HTTPConnection("127.0.0.1", self.port, timeout=PATIENCE)
        with contextlib.closing(link):
            link.request(method, path, body, {"x-ledger-key": self.key})
            reply = link.getresponse()
            return reply.status, reply.read().decode()

    def send(self, message):
        """The same of the bytes of a message, after which the sending half is shut."""
        with socket.create_connection(("127.0.0.1", self.port), PATIENCE) as link:
            link.sendall(message)
            link.shutdown(socket.SHUT_WR)
            reply = http.client.HTTPResponse(link)
            reply.begin()
            return reply.status, reply.read().decode()


def path_of(template, account="1"):
    return template.replace("{account}", account)


def body_of(template):
    """A body that the operation accepts."""
    return json.dumps(BODIES.get(template, ["1", "100"])) if template.count("/") > 0 else ""


def message(method, path, key, body=b"", headers=(), length=None):
    """The bytes of a message. Without a body a GET states no length."""
    lines = [f"{method} {path} HTTP/1.1", f"x-ledger-key: {key}", *headers]
    if method != "GET" or length is not None:
        lines.append(f"content-length: {len(body) if length is None else length}")
    return "\r\n".join([*lines, "", ""]).encode() + body


def wrong_message(word, method, template, key):
    """A message that an operation refuses by the word, or None where no message is refused so."""
    path = path_of(template)
    body = body_of(template).encode() if method == "POST" else b""
    listed = isinstance(json.loads(body or b"0"), list)
    wrong = b'["x"]' if template.endswith("lookup") else b'[{"x":1}]' if listed else b'{"x":1}'
    many = json.dumps([*json.loads(body)[:1]] * (MOST_EVENTS + 1)).encode() if listed else b""
    no_account = json.dumps({**FILTER, "account_id": "999"}).encode() if method == "POST" else b""
    by_word = {
        "bad_head": message(method, path, key, body, ["no colon"]),
        "head_too_large": message(method, path, key, body, ["x: " + "y" * 20_000]),
        "length_required": message(method, path, key).replace(b"content-length: 0\r\n", b""),
        "body_too_large": message(method, path, key, b"", length=MOST_BYTES + 1),
        "truncated": message(method, path, key, b"[", length=9),
        "unknown_key": message(method, path, NOBODY, body),
        "body_not_json": message(method, path, key, b"{"),
        "bad_field": message(method, path_of(template, "01"), key, wrong if body else b""),
        "too_many_events": message(method, path, key, many),
        "no_account": message(method, path_of(template, "999"), key, no_account),
        "no_history": message(method, path, key, json.dumps({**FILTER, "account_id": "2"}).encode()),
        "no_route": message(method, path.rstrip("/") + "/x/y", key, body),
        "bad_method": message("PUT", path, key, body),
    }
    return by_word.get(word)


def expect(description, method, template, status, word, reply):
    """A reply is the refusal that an operation lists, and fits its schema."""
    told, body = reply
    answers = description.operation(method, path_of(template))["responses"]
    description.check(json.loads(body), answers[status]["content"]["application/json"]["schema"])
    wanted = {"no_route": 404, "bad_method": 405}.get(word) or int(status)
    if (told, json.loads(body)) != (wanted, {"error": word}):
        sys.exit(f"{method} {template}: {told} {body}, and the description has {status} {word}")


def expect_detail(description, method, template, status, word, reply):
    """A refusal of a body says what is wanted, and fits its schema."""
    told, body = reply
    answers = description.operation(method, path_of(template))["responses"]
    description.check(json.loads(body), answers[status]["content"]["application/json"]["schema"])
    given = json.loads(body)
    if told != int(status) or given["error"] != word or "want" not in given:
        sys.exit(f"{method} {template}: {told} {body}, and it should say what is wanted")


def refused(description, tenant):
    """Provokes each refusal of each operation that a message can provoke. How many these were."""
    many = 0
    for method, template, operation in description.operations():
        for status, word in description.words(operation):
            if word not in BY_STATE:
                sent = wrong_message(word, method, template, tenant.key)
                judges = template.startswith("/lint/") and word in OF_BODY
                looks = expect_detail if judges else expect
                looks(description, method, template, status, word, tenant.send(sent))
                many += 1
                if word in OF_BODY and method == "POST":
                    asking = sent.replace(b"\r\n", b"\r\nx-ledger-detail: 1\r\n", 1)
                    reply = tenant.send(asking)
                    expect_detail(description, method, template, status, word, reply)
                    many += 1
    return many


def with_required(operation, body):
    """The same body without the fields that are not required, or nothing where it has no fields."""
    schema = operation["requestBody"]["content"]["application/json"]["schema"]
    kind = schema.get("items", schema)
    if "required" not in kind:
        return []
    each = json.loads(body)
    less = [{field: it[field] for field in kind["required"]}
            for it in (each if isinstance(each, list) else [each])]
    return [json.dumps(less if isinstance(each, list) else less[0])]


def accepted(description, tenant):
    """Sends each operation a request that it accepts, and one without the fields that are not
    required. It checks both, and their replies."""
    for method, template, operation in description.operations():
        bodies = [body_of(template)] if method == "POST" else [""]
        bodies += with_required(operation, bodies[0]) if method == "POST" else []
        for body in bodies:
            description.check_request(method, path_of(template), body)
            status, reply = tenant.ask(method, path_of(template), body)
            if status != 200:
                sys.exit(f"{method} {template} {body}: {status} {reply}")
            description.check_reply(method, path_of(template), status, reply)


def play(description, ledgerd, db, port):
    """Sends the recipes' requests, each recipe by a tenant of its own. A pause is left out: the reply
    after it has other results, and the same form. How many requests these were."""
    many = 0
    for place, steps in enumerate(recipes.recipes()):
        tenant = Tenant(ledgerd, db, port, f"recipe-{place}")
        for path, body, _ in (it for it in steps if not isinstance(it, int)):
            description.check_request("POST", path, body)
            status, reply = tenant.ask("POST", path, body)
            if status != 200:
                sys.exit(f"{path} {body}: {status} {reply}")
            description.check_reply("POST", path, status, reply)
            many += 1
    return many


def never_accepted(tenant):
    """What the description says of events and filters without a field that it requires."""
    for path, good, names in (("/accounts", {"id": "9", "ledger": 7, "code": 1}, ("id", "ledger", "code")),
                              ("/transfers", {**TRANSFER, "id": "900"}, ("id",))):
        for name in names:
            body = json.dumps([{field: it for field, it in good.items() if field != name}])
            status, reply = tenant.ask("POST", path, body)
            if status != 200 or json.loads(reply)["results"][0]["result"] in ("ok", "exists"):
                sys.exit(f"{path} {body}: {status} {reply}")
    status, reply = tenant.ask("POST", "/history/transfers", '{"limit":1}')
    if (status, reply) != (404, '{"error":"no_account"}'):
        sys.exit(f"a filter without an account: {status} {reply}")


def unavailable(description, ledgerd, db, tenant):
    """A standby beside the service refuses all that an operation lists as `unavailable`. How many
    operations these were."""
    many, port = 0, free_port()
    words = [ledgerd, "serve", "--db", db, "--port", str(port), "--standby"]
    with ended(subprocess.Popen(words, stderr=subprocess.DEVNULL)) as standby:
        wait_for(port, standby)
        wait_for_reply(port)
        tenant.port = port
        for method, template, operation in description.operations():
            # The page for browsers is a constant, and refused only where memory is lacking.
            if template != "/":
                body = body_of(template) if method == "POST" else ""
                reply = tenant.ask(method, path_of(template), body)
                expect(description, method, template, "503", "unavailable", reply)
                many += 1
    return many


def exhausted(description, ledgerd, folder, db, name, key):
    """A tenant whose clock is at its end: its batches are refused, and nothing else. How many
    operations these were."""
    with contextlib.closing(sqlite3.connect(db)) as file:
        file.execute("UPDATE clock SET clock = ? WHERE tenant = (SELECT no FROM tenant WHERE name = ?)",
                     (MOST_CLOCK, name))
        file.commit()
    many, port = 0, free_port()
    with ended(subprocess.Popen([ledgerd, "serve", "--db", db, "--port", str(port)],
                                stderr=subprocess.DEVNULL)) as service:
        wait_for(port, service)
        wait_for_reply(port)
        tenant = Tenant.__new__(Tenant)
        tenant.key, tenant.port, tenant.name = key, port, name
        for method, template, operation in description.operations():
            if ("503", "clock_exhausted") in description.words(operation):
                reply = tenant.ask(method, template, body_of(template))
                expect(description, method, template, "503", "clock_exhausted", reply)
                many += 1
    return many


def check(description, ledgerd):
    """Ends with what differs."""
    before = description.checked
    with tempfile.TemporaryDirectory() as folder:
        db = str(pathlib.Path(folder) / "ledger.db")
        with served(ledgerd, folder) as port:
            tenant, late = Tenant(ledgerd, db, port, "desk"), Tenant(ledgerd, db, port, "late")
            accepted(description, tenant)
            many = refused(description, tenant)
            never_accepted(tenant)
            requests = play(description, ledgerd, db, port)
            many += unavailable(description, ledgerd, db, tenant)
        many += exhausted(description, ledgerd, folder, db, late.name, late.key)
    print(f"{requests} requests of the recipes and {many} refusals of the program: "
          f"{description.checked - before} bodies fit docs/openapi.yaml")
