"""The operator's desk: commands on a file that is served, beside clients that write, and the socket
by which they come. What each tells is what it tells on a file that nobody serves."""

import itertools
import os
import shutil
import subprocess
import tempfile

from asking import (asked, begin_writers, both, call, digest_of, drawn_key, end_writers, listed,
                    look_at_old_key, named, take_in, told_by, write)
from connection import Connection
from counted import COUNTS, callers, status_told, work_told
from drawn import moves
from runs import House
from service import NAME_TAKEN, NO_DESK, PATIENCE, add_tenant, change_key, check, run, want

NOT_SERVED = (1, "", "ledgerd: not_served\n")
DENIED = (4, "", "ledgerd: unreadable\nPermission denied (os error 13)\n")
IN_USE = (5, "", "ledgerd: in_use\n")
# The most bytes of a socket's path.
LONGEST = 107
# The user `nobody`.
NOBODY = 65534


def desk(trial):
    """All of it, beside two tenants that write."""
    house, still = House(trial.fresh(), 4), House(trial.fresh(), 0)
    for name, each in zip(house.names, house.desks):
        add_tenant(still.program, still.db, name, each.key)
    house.begin()
    writers = begin_writers(trial, house, (0, 1))
    for act in (list_tenants, add_tenants, refuse, change_keys, two_at_once, call_by_hand):
        act(house, still)
        trial.progress(act.__name__)
    as_nobody = ask_as_nobody(house)
    writes = end_writers(writers)
    house.compare()
    house.stop()
    unserved(house)
    check(house.program, house.db)
    look_at_paths(trial)
    taken = status_told(trial)
    work_told(trial)
    longest = callers(trial)
    return (f"{len(house.names)} tenants beside {writes} batches; {as_nobody}; status as it is "
            f"{taken}; beside callers that do not send or read a command took {longest:.2f} s")


def list_tenants(house, still):
    """Each tenant with the digest of its key, and its clock."""
    for each in (house, still):
        before = {name: desk.ledger.clock for name, desk in zip(house.names, house.desks)}
        told = listed(each)
        want(set(told) == set(before), f"tenants: {told}")
        for name, desk in zip(house.names, house.desks):
            digest, clock = told[name]
            want(digest == digest_of(desk.key), f"the digest of {name}: {digest}")
            want(clock == 0 if each is still else clock >= before[name], f"{name}: {clock}")
    write(house, 3, house.requests[3].batch())
    clock = listed(house)[house.names[3]][1]
    want(house.desks[3].ledger.reach(clock), f"the clock of {house.names[3]}: {clock}")


def add_tenants(house, still):
    """With a key that is drawn, read or told; each opens its tenant at once."""
    drawn = drawn_key(told_by(house, "tenant-add", "--name", "drawn"), "added", "drawn")
    take_in(house, "drawn", drawn)
    add_tenant(still.program, still.db, "drawn", drawn)
    for name, end in (("read", ""), ("read-line", "\n")):
        key = house.key()
        for each in (house, still):
            told = told_by(each, "tenant-add", "--name", name, "--key", "-",
                           text=f"{key}{end}".encode())
            want(told == (0, f"added {name}\n", ""), f"tenant-add --key -: {told}")
        take_in(house, name, key)
    for name in ("told", "n" * 64):
        key = house.key()
        for each in (house, still):
            add_tenant(each.program, each.db, name, key)
        take_in(house, name, key)


def look_at_paths(trial):
    """A socket's path has so many bytes at most. Where it has more that is told, and all goes on
    without it. A link leads to the socket beside the file itself."""
    house = House(trial.fresh(), 0)
    room = LONGEST - len(os.path.realpath(trial.folder)) - len("/.control")
    for length in (room, room + 1):
        house.db = os.path.join(trial.folder, "x" * length)
        house.add(f"desk-{length}")
        house.start()
        write(house, -1, house.requests[-1].accounts(), False)
        if length == room:
            link = f"{trial.folder}/link"
            os.symlink(house.db, link)
            told = [run(house.program, "tenants", "--db", db) for db in (house.db, link)]
            want(told[0] == told[1] and told[0][0] == 0, f"tenants, by a link too: {told}")
        else:
            house.service.wait_for_lines(2)
            want(house.service.lines()[0].startswith(NO_DESK),
                 f"a path that is too long: {house.service.lines()}")
            told = told_by(house, "tenants"), told_by(house, "status")
            want(told == (IN_USE, NOT_SERVED), f"tenants and status without a socket: {told}")
        write(house, -1, house.requests[-1].batch())
        house.stop()
        check(house.program, house.db)


def refuse(house, still):
    """Words that are refused: by the same words and statuses on a file that nobody serves."""
    name, key, new = house.names[3], house.desks[2].key, house.key()
    refusals = [(("tenant-add", "--name", name, "--key", new), 1, "name_taken"),
                (("tenant-add", "--name", name), 1, "name_taken"),
                (("tenant-add", "--name", "more", "--key", key), 1, "digest_taken"),
                (("tenant-add", "--name", "more", "--key", key.upper()), 1, "digest_taken"),
                (("tenant-key", "--name", name, "--key", key), 1, "digest_taken"),
                (("tenant-key", "--name", "more", "--key", new), 1, "no_tenant")]
    names, keys = ("", "a_b", "a b", "n" * 65, "ä", 'a"'), ("", "5" * 63, "5" * 65, "g" * 64)
    for command in ("tenant-add", "tenant-key"):
        refusals += [((command, "--name", each, "--key", new), 2, "bad_name") for each in names]
        refusals += [((command, "--name", "more", "--key", each), 2, "bad_key") for each in keys]
        refusals.append(((command, "--name", "more", "--key", "-"), 2, "bad_key"))
    before = listed(still)
    for words, status, word in refusals:
        for each in (house, still):
            told = told_by(each, *words, text=b"5" * 63)
            want(told == (status, "", f"ledgerd: {word}\n"), f"{words} on {each.db}: {told}")
    want(listed(still) == before, "words that are refused have changed the tenants")
    want(set(listed(house)) == set(before), "words that are refused have changed the tenants")


def change_keys(house, still):
    """From then on the old key is nobody's. A batch that was told before is told as a retry, and
    the same key again changes nothing."""
    for place, is_drawn in ((2, False), (3, True), (2, True)):
        name, desk, events = house.names[place], house.take_turn(place), moves(10**12 + place, 9)
        write(house, place, events)
        connection, desk.connection, old = desk.connection, None, desk.key
        if is_drawn:
            told = told_by(house, "tenant-key", "--name", name)
            desk.key = drawn_key(told, "changed", name)
            change_key(still.program, still.db, name, desk.key)
        else:
            desk.key = house.key()
            for each in (house, still, house):
                change_key(each.program, each.db, name, desk.key)
        look_at_old_key(house, old, connection)
        write(house, place, events)
        change_key(house.program, house.db, name, desk.key)
        write(house, place, events)
        desk.compare(house.service)
    digests = [{name: row[0] for name, row in listed(each).items()} for each in (house, still)]
    want(digests[0] == digests[1], f"other digests behind the same commands: {digests}")


def two_at_once(house, _still):
    """Of two that want the same name or key one has it; those that do not are both done."""
    for turn in range(5):
        name, keys = f"twin-{turn}", (house.key(), house.key())
        adds = [("tenant-add", "--name", name, "--key", key) for key in keys]
        told = both(house, *adds)
        done = (0, f"added {name}\n", "")
        want(sorted(told) == [done, NAME_TAKEN], f"one name twice at once: {told}")
        take_in(house, name, keys[told.index(done)])
        names = [f"left-{turn}", f"right-{turn}"]
        told = both(house, *(("tenant-add", "--name", each) for each in names))
        for each, heard in zip(names, told):
            take_in(house, each, drawn_key(heard, "added", each))
        key = house.key()
        told = both(house, *(("tenant-key", "--name", each, "--key", key) for each in names))
        changed = [heard[0] == 0 for heard in told]
        want(sorted(heard[2] for heard in told) == ["", "ledgerd: digest_taken\n"],
             f"one key twice at once: {told}")
        house.desks[house.names.index(names[changed.index(True)])].key = key


def call_by_hand(house, _still):
    """Each call over the socket, and what is none. The port knows none of them."""
    path, key, new = f"{house.db}.control", house.key(), house.key()
    done = call(path, asked("POST", "/control/tenants", named(name="by-hand", key=key)))
    want(done == ("200 OK", {"added": "by-hand"}), f"a tenant by hand: {done}")
    done = call(path, asked("POST", "/control/keys", named(name="by-hand", key=new)))
    want(done == ("200 OK", {"changed": "by-hand"}), f"a key by hand: {done}")
    take_in(house, "by-hand", new)
    status, told = call(path, asked("GET", "/control/tenants"))
    row = {"name": "by-hand", "digest": digest_of(new), "clock": str(house.desks[-1].ledger.clock)}
    want(status == "200 OK" and row in told["tenants"], f"tenants by hand: {status} {told}")
    status, told = call(path, asked("GET", "/control/status"))
    want(status == "200 OK" and sorted(told["status"]) == COUNTS, f"status by hand: {told}")
    before = set(listed(house))
    for request, status, word in refused_calls(house):
        heard = call(path, request)
        want(heard == (status, {"error": word}), f"{request}: {heard}")
    want(set(listed(house)) == before, "calls that are refused have changed the tenants")
    for request in (asked("GET", "/control/status"), asked("POST", "/control/stop", b"")):
        port = Connection(house.service.port)
        port.send(request)
        status, _, body = port.reply()
        want((status, body) == ("404 Not Found", b'{"error":"no_route"}'),
             f"the operator's route on the port: {status} {body}")
        port.close()


def refused_calls(house):
    """Messages that are refused, the status line of the reply, and its word."""
    key, bad = house.key(), "400 Bad Request"
    for path in ("/control/x", "/control/", "/control", "/control/status/", "/control/status?x",
                 "/transfers", "/health", "/"):
        yield asked("GET", path), "404 Not Found", "no_route"
    yield asked("POST", "/transfers", b"[]"), "404 Not Found", "no_route"
    for method, path in (("POST", "/control/status"), ("DELETE", "/control/tenants"),
                         ("PUT", "/control/stop"), ("DELETE", "/control/keys")):
        yield asked(method, path, b""), "405 Method Not Allowed", "bad_method"
    for path in ("/control/keys", "/control/stop", "/control/copy"):
        yield asked("GET", path), "405 Method Not Allowed", "bad_method"
    bodies = (b"", b"{", b"[]", b'"x"', b"{}", named(name="more"), named(key=key),
              named(name="more", key=5), named(name="more", key=key, more="1"),
              named(name="more", key=key) + b"x", b"\xff")
    for body, part in itertools.product(bodies, ("tenants", "keys")):
        yield asked("POST", f"/control/{part}", body), bad, "bad_request"
    yield b"garbage\r\n\r\n", bad, "bad_request"
    for part in ("tenants", "keys"):
        path = f"/control/{part}"
        yield asked("POST", path, named(name="a_b", key=key)), bad, "bad_name"
        yield asked("POST", path, named(name="more", key="5" * 63)), bad, "bad_key"
    taken = named(name=house.names[0], key=key), named(name="more", key=house.desks[0].key)
    for body, word in zip(taken, ("name_taken", "digest_taken")):
        yield asked("POST", "/control/tenants", body), "409 Conflict", word
    yield asked("POST", "/control/keys", named(name="more", key=key)), "404 Not Found", "no_tenant"


def ask_as_nobody(house):
    """As another user each command is refused, where the trial may be one."""
    if os.geteuid() != 0:
        return "not tried as another user"
    with tempfile.TemporaryDirectory() as folder:
        program = shutil.copy(house.program, os.path.join(folder, "ledgerd"))
        for path in (program, folder, *parents(house.db, 2)):
            os.chmod(path, 0o755)
        for words in (("tenants",), ("tenant-add", "--name", "more"), ("status",), ("stop",),
                      ("tenant-key", "--name", house.names[0]), ("check",),
                      ("statement", "--tenant", house.names[0], "--account", "1")):
            done = subprocess.run([program, *words, "--db", house.db], capture_output=True,
                                  user=NOBODY, group=NOBODY, extra_groups=(), timeout=PATIENCE)
            told = done.returncode, done.stdout.decode(), done.stderr.decode()
            want(told == DENIED, f"{words[0]} as another user: {told}")
    return "7 commands refused to another user"


def parents(path, many):
    for _ in range(many):
        path = os.path.dirname(path)
        yield path


def unserved(house):
    """What only a service can tell or do."""
    for words in (("status",), ("status", "--prometheus"), ("stop",)):
        for db in (house.db, f"{house.db}-none"):
            told = run(house.program, *words, "--db", db)
            want(told == NOT_SERVED, f"{words}, and nobody serves {db}: {told}")
