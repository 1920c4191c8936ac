"""Statements of a file that is served, beside clients that write: each is that of a copy which nobody
serves, and of who writes it is what the plain ledger had at one clock."""

import fcntl
import itertools
import struct
import termios
import time

from asking import (Writer, asked, be_there, both, call, drawn_key, end_writers, listed, named,
                    told_by)
from copies import remove
from drawn import moves, transfer
from indexed import Indexed
from model import MAX, PENDING, POST
from rounds import start_again
from runs import House
from service import PATIENCE, UNAVAILABLE, body_of, check, run, state, want
from stops import IN_USE, STOPPED, begun, heard
from use import OUTPUT, read_some

# Two that write, and one with many entries that does not.
WRITERS, STILL = (0, 1), 2
# Who writes sends up to so many transfers, and says nothing for so many seconds then. In a long run
# these are more, as its plain ledger tells a line of each in the end.
MOST, PAUSE, LONG_PAUSE = 4, 0.05, 0.5
# A command waits for its reader once it sleeps for so many seconds, with half of its pipe full.
CALM = 0.02
# The seconds within which the service ends beside one that is read.
SOON = 0.1
# How much room a pipe has, told and asked (fcntl(2), F_SETPIPE_SZ and F_GETPIPE_SZ).
SET_ROOM, GET_ROOM = 1031, 1032
# A file is asked for so many entries at a time.
PIECE = 1000
# One of each way to be made: row by row from either end, and in memory with a look-up.
WAYS = ((), ("--reversed",), ("--wide", "--balances", "--format", "json"))
CHOICES = (((), ("--reversed",)), ((), ("--balances",)), ((), ("--wide",)),
           ((), *(("--format", form) for form in ("csv", "sheet", "json"))))
FORMS = [sum(choice, ()) for choice in itertools.product(*CHOICES)]
# Four of each, which nobody reads, are more than may be connected to the socket at once.
UNREAD = WAYS * 4
# The statements of who writes.
WRITTEN = ((), ("--reversed",), ("--balances",))
OPENING = "0,0,,opening,0,0,0,0,0"


def statements(trial):
    """All of it beside two tenants that write, and then a service that ends in the middle."""
    house, many = House(trial.fresh(), 3), 100 if trial.is_long else 5
    house.begin()
    for batch in range(many):
        put(house, bulk(10**9 + PIECE * batch))
        trial.progress(f"{batch + 1} of {many} batches stored")
    writers = begin_calm(trial, house)
    copy = copied(house)
    unread, whole = begin_unread(house), ways(house, copy)
    forms, refusals = look_at_forms(trial, house, copy), refuse(house, copy)
    ask_by_hand(house)
    ask_twice(house, copy)
    leave(house, copy)
    told = told_of_writers(trial, house)
    for turn, form in enumerate(WAYS):
        change_meanwhile(house, copy, turn, form)
        remove(copy)
        copy = copied(house)
    end_unread(unread, whole)
    writes = end_writers(writers)
    for place in WRITERS:
        judge(house.desks[place].ledger, told[place])
        house.desks[place].compare(house.service)
    ended = end_meanwhile(trial, house, copy)
    house.stop()
    check(house.program, house.db)
    return (f"{forms} forms of a statement of {PIECE * many} entries, {refusals} refused, and "
            f"{sum(map(len, told.values()))} of who writes, beside {len(unread)} that nobody reads "
            f"and {writes} batches, of which none took more than {house.longest():.2f} s; {ended}")


def bulk(first):
    """A piece of entries of account 1, of every kind but a void one."""
    told = {"user_data_128": MAX, "user_data_64": first, "user_data_32": 7}
    holds = moves(first, 100, flags=PENDING, **told)
    posts = [transfer(first + 900 + place, pending_id=first + place, amount=MAX, flags=POST)
             for place in range(100)]
    back = moves(first + 800, 100, debit_account_id=2, credit_account_id=1)
    return [*holds, *moves(first + 100, 700, **told), *back, *posts]


def put(house, events):
    """A batch of who does not write otherwise."""
    told = house.take_turn(STILL).ask("POST", "/transfers", body_of(events))
    want(told and all(each["result"] == "ok" for each in told["results"]), f"a batch: {told}")
    house.desks[STILL].leave()


def begin_calm(trial, house):
    """Clients that write, beside plain ledgers with an index."""
    writers, pause = [], LONG_PAUSE if trial.is_long else PAUSE
    for place in WRITERS:
        writer = Writer(house, place, trial.random.getrandbits(64), MOST, pause)
        plain, writer.desk.ledger = writer.desk.ledger, Indexed()
        writer.desk.ledger.accounts, writer.desk.ledger.clock = plain.accounts, plain.clock
        writers.append(writer)
        writer.start()
    return writers


def copied(house):
    """A copy, which nobody serves."""
    copy = f"{house.db}-copy"
    told = told_by(house, "copy", "--to", copy)
    want(told[0] == 0, f"copy: {told}")
    return copy


def words(house, place, *form):
    return ("statement", "--tenant", house.names[place], "--account", "1", *form)


def look_at(house, copy, *command):
    """What is told of the file that is served, which is what is told of its copy."""
    told, expected = told_by(house, *command), run(house.program, *command, "--db", copy)
    want(told == expected, f"{command}: {shortened(told)}, and of a copy {shortened(expected)}")
    return told


def ways(house, copy):
    """What is told of a copy in each way."""
    return {form: run(house.program, *words(house, STILL, *form), "--db", copy) for form in WAYS}


def shortened(told):
    status, text, errors = told
    return status, len(text), text[:300], text[-300:], errors


def look_at_forms(trial, house, copy):
    """Options beside each other, and periods that end where a piece does. How many."""
    whole = look_at(house, copy, *words(house, STILL))[1]
    stamps = [int(line.split(",")[0]) for line in whole.splitlines()[1:]]
    want(stamps and len(stamps) % PIECE == 0, f"{len(stamps)} entries")
    forms = [*WAYS, *trial.random.sample(FORMS, len(FORMS) if trial.is_long else 6)]
    forms += [(*period, *trial.random.choice(FORMS)) for period in periods(stamps)]
    # A period that ends before it begins: its sums are those before it, of entries behind its end.
    forms.append(("--from", str(stamps[-1]), "--to", str(stamps[0]), "--balances"))
    for count, form in enumerate(forms):
        told = look_at(house, copy, *words(house, STILL, *form))
        want(told[0] == 0, f"{form}: {shortened(told)}")
        trial.progress(f"{count + 1} of {len(forms)} forms")
    return len(forms)


def periods(stamps):
    """A piece and a little more or less, nothing, and all."""
    for first, last in ((0, PIECE - 1), (0, PIECE), (1, PIECE), (1, PIECE + 1), (9, 3)):
        yield "--from", str(stamps[first]), "--to", str(stamps[last])
    yield "--to", str(stamps[0] - 1)
    yield "--from", str(stamps[-1])
    yield "--from", str(stamps[-1] + 1)
    yield "--from", "1970-01-01", "--to", "9999-12-31"


def refuse(house, copy):
    """A tenant and an account that are not there, and words that are none. How many."""
    name, refusals = house.names[STILL], []
    for form in WAYS:
        refusals += [(1, "no_tenant", "nobody", "1", *form), (1, "no_tenant", "nobody", "9", *form),
                     (1, "no_account", name, "9", *form)]
    refusals += [(2, "bad_name", "a_b", "1"), (2, "bad_account", name, str(2**128)),
                 (2, "bad_time", name, "1", "--from", "2023-02-29"),
                 (2, "bad_format", name, "1", "--format", "no")]
    for status, word, tenant, account, *form in refusals:
        told = look_at(house, copy, "statement", "--tenant", tenant, "--account", account, *form)
        want(told == (status, "", f"ledgerd: {word}\n"), f"{tenant} {account} {form}: {told}")
    told = look_at(house, copy, "statement", "--tenant", name, "--account", "3")
    want(told[0] == 0 and told[1].count("\n") == 1, f"an account with no entries: {told}")
    return len(refusals)


def ask_by_hand(house):
    """A piece over the socket has so many entries at most, and what is no call is refused."""
    path, whole = f"{house.db}.control", told_by(house, *words(house, STILL))[1].splitlines()[1:]
    piece = {"tenant": house.names[STILL], "account": "1", "from": "0", "to": str(2**64 - 1),
             "reversed": False}
    for is_reversed, lines in ((False, whole), (True, whole[::-1])):
        asks = named(**{**piece, "reversed": is_reversed})
        status, told = call(path, asked("POST", "/control/statement", asks))
        want(status == "200 OK", f"a piece by hand: {status} {told}")
        found = [(each["timestamp"], each["id"]) for each in told["entries"]]
        want(found == [tuple(line.split(",")[:2]) for line in lines[:PIECE]], f"a piece: {found}")
        want(int(told["clock"]) == listed(house)[house.names[STILL]][1], "the clock of a piece")
    bad = "400 Bad Request", {"error": "bad_request"}
    bodies = [{**piece, name: value} for name, value in
              (("more", "1"), ("account", 1), ("from", "01"), ("to", str(2**64)), ("reversed", "x"))]
    bodies += [{each: piece[each] for each in piece if each != name} for name in piece]
    for body in bodies:
        told = call(path, asked("POST", "/control/statement", named(**body)))
        want(told == bad, f"a piece by hand, {body}: {told}")
    for field, word in (("tenant", "no_tenant"), ("account", "no_account")):
        told = call(path, asked("POST", "/control/statement", named(**{**piece, field: "9"})))
        want(told == ("404 Not Found", {"error": word}), f"{field} 9 by hand: {told}")
    told = call(path, asked("GET", "/control/statement"))
    want(told == ("405 Method Not Allowed", {"error": "bad_method"}), f"GET of a piece: {told}")


def ask_twice(house, copy):
    """Two at once, of which each is as it is alone."""
    ample = ways(house, copy)
    for forms in itertools.combinations_with_replacement(WAYS, 2):
        told = both(house, *(words(house, STILL, *form) for form in forms))
        want(told == [ample[form] for form in forms],
             f"two at once, {forms}: {[*map(shortened, told)]}")


def leave(house, copy):
    """A reader that goes behind so many bytes has the beginning of a statement."""
    for (form, ample), most in itertools.product(ways(house, copy).items(), (0, 1, 30_000)):
        command = (*words(house, STILL, *form), "--db", house.db)
        read, told = read_some(house.program, command, most)
        want(told == OUTPUT and ample[1].encode().startswith(read),
             f"{form}, left behind {most}: {told}")


def told_of_writers(trial, house):
    """Statements of who writes, each with the clock of a reply that was there before."""
    told = {place: [] for place in WRITERS}
    for turn, place in itertools.product(range(30 if trial.is_long else 6), WRITERS):
        before, form = house.desks[place].ledger.clock, WRITTEN[turn % len(WRITTEN)]
        status, text, errors = told_by(house, *words(house, place, *form))
        want((status, errors) == (0, ""), f"{form} of who writes: {status} {errors}")
        told[place].append((before, form, text))
        time.sleep(PAUSE)
    return told


def judge(ledger, told):
    """Each has the first entries of the plain ledger's, up to the end of a batch: all those that
    were answered before."""
    entries = ledger.entries(1)
    lines, clocks = [ledger.line(1, each) for each in entries], [each["at"] for each in entries]
    for before, form, text in told:
        rows = text.splitlines()[1:]
        if form == ("--balances",):
            first, *rows, last = rows
            sums = rows[-1].split(",")[5:] if rows else ["0"] * 4
            want((first, last) == (OPENING, ",".join(("0,0,,closing,0", *sums))),
                 f"sums of who writes: {first} and {last}, behind {rows[-1:]}")
        if form == ("--reversed",):
            rows.reverse()
        many = len(rows)
        want(rows == lines[:many], f"{form} of who writes is not the plain ledger's: {rows[-9:]}")
        want(many >= sum(clock <= before for clock in clocks), f"{many} entries, and an answer more")
        want(many in (0, len(lines)) or clocks[many - 1] < clocks[many], "half of a batch")


def wait_until_full(command):
    """Until a command sleeps, with its pipe nearly full: it can write no more."""
    room = fcntl.fcntl(command.stdout, GET_ROOM)
    end, before, since = time.monotonic() + PATIENCE, None, 0.0
    while True:
        many, now = waiting_bytes(command), time.monotonic()
        want(now < end and command.poll() is None, f"a statement ends or hangs at {many} bytes")
        if many < room / 2 or state(command.pid) != "S" or many != before:
            before, since = many, now
        elif now - since >= CALM:
            return
        time.sleep(CALM / 10)


def waiting_bytes(command):
    """How many bytes of a command's output nobody has read yet."""
    return struct.unpack("i", fcntl.ioctl(command.stdout, termios.FIONREAD, bytes(4)))[0]


def begin_unread(house):
    """Statements that have begun, one after the other, and that nobody reads."""
    unread = []
    for form in UNREAD:
        command = begun(house, *words(house, STILL, *form))
        wait_until_full(command)
        unread.append((form, command))
    return unread


def end_unread(unread, whole):
    """Every other one is read in the end, and has what the ledger had when it was begun, whatever
    came since. The others are killed."""
    for place, (form, command) in enumerate(unread):
        if place % 2:
            command.kill()
        told = heard(command)
        want(place % 2 or told == whole[form], f"{form}, read in the end: {shortened(told)}")


def change_meanwhile(house, copy, turn, form):
    """Behind the beginning of a statement come a batch, another key and one more batch: it is what
    the ledger had when it was begun."""
    command, desk = words(house, STILL, *form), house.desks[STILL]
    ample = run(house.program, *command, "--db", copy)
    with begun(house, *command) as running:
        wait_until_full(running)
        put(house, moves(10**12 + 10 * turn, 5))
        desk.key = drawn_key(told_by(house, "tenant-key", "--name", house.names[STILL]), "changed",
                             house.names[STILL])
        put(house, moves(10**12 + 10 * turn + 5, 5))
        told = heard(running)
    want(told == ample, f"{form}, with entries and another key meanwhile: {shortened(told)}, not "
                        f"{shortened(ample)}")
    told = told_by(house, *command)
    want(told[1].count("\n") == ample[1].count("\n") + 10, f"behind ten entries: {shortened(told)}")


def end_meanwhile(trial, house, copy):
    """The service is killed or stopped at a random moment of a statement, or where it waits for its
    reader: it is whole, or `unavailable` is told behind a beginning."""
    amples, times, cut = ways(house, copy), 4 if trial.is_long else 2, 0
    turns = [*itertools.product((kill, stop), (True, False), amples.items())] * times
    for count, (ends, waits, (form, ample)) in enumerate(turns):
        with begun(house, *words(house, STILL, *form)) as running:
            if waits:
                wait_until_full(running)
            else:
                time.sleep(house.random.uniform(0, SOON))
            ends(house)
            told = heard(running)
        status, text, errors = told
        want(told == ample or (status, "", errors) in (UNAVAILABLE, IN_USE)
             and ample[1].startswith(text) and (text == "" or status == UNAVAILABLE[0]),
             f"{form}, and the service ended: {shortened(told)}")
        cut += told != ample
        start_again(house)
        be_there(house)
        trial.progress(f"ended {count + 1} times beside a statement")
    for form, ample in amples.items():
        told = told_by(house, *words(house, STILL, *form))
        want(told == ample, f"{form}, and the service is there again: {shortened(told)}")
    return f"{len(turns)} times the service ended meanwhile, {cut} of them cut short"


def kill(house):
    house.service.served.kill()


def stop(house):
    told = told_by(house, "stop")
    want(told == STOPPED, f"stop beside a statement: {told}")
