"""Twenty tenants whose batches are there at once, so that the service may keep them by one commit:
each reply is its own plain ledger's, and a fault leaves each batch whole or not there."""

import itertools
import signal
import threading

from connection import Lost
from control import ALL, DISK, KILL, MEMORY, SENT, Control, places
from runs import House
from service import body_of, check, message, want

TWENTY, HUNDREDS = 20, 200
# So many rounds with an allocation refused are over one file.
ON_ONE_FILE = 300


class Crowd(House):
    """A house of twenty tenants or more, each with a kept connection, and with at most so many
    events in a batch."""

    def __init__(self, trial, many=TWENTY, most=12):
        super().__init__(trial, 0)
        self.many, self.most = many, most
        for place in range(many):
            self.add(f"desk-{place}")

    def gather(self):
        """Every tenant on a connection that the service is reading from."""
        for place in range(self.many):
            desk = self.take_turn(place)
            want(desk.until_well() is not None, "unavailable at first")

    def send_at_once(self, batches):
        """Sends each tenant's batch while the service stands still: all are there at once."""
        self.service.stand_still()
        for desk, events in zip(self.desks, batches):
            desk.asked |= {event["id"] for event in events}
            desk.connection.send(message("POST", "/transfers", desk.key, body_of(events)))
        self.service.served.send_signal(signal.SIGCONT)

    def draw_all(self):
        return [requests.marked(self.most) for requests in self.requests]

    def hear(self, batches):
        """The places of those that were answered, each as its plain ledger says."""
        answered = set()
        for place, (desk, events) in enumerate(zip(self.desks, batches)):
            try:
                told = desk.answer("POST", "/transfers")
            except Lost:
                continue
            if told is not None:
                desk.judge(events, True, told)
                answered.add(place)
        return answered

    def meet(self, control, *refusal):
        """New batches, sent at once while a call is refused, and the places of those answered."""
        self.gather()
        batches = self.draw_all()
        control.refuse(*refusal)
        self.send_at_once(batches)
        return batches, self.hear(batches)

    def found(self, batches, answered):
        """The places of those that were not answered, and are done nevertheless."""
        return {place for place in range(self.many)
                if place not in answered and self.take_turn(place).settle(batches[place])}


def rounds(trial):
    """Batches of twenty at once; then with each call of the disk and each allocation refused."""
    house = Crowd(trial.fresh())
    control = Control(trial.folder)
    house.begin(control.env)
    house.gather()
    many = 200 if trial.is_long else 20
    for turn in range(many):
        batches = house.draw_all()
        house.send_at_once(batches)
        want(len(house.hear(batches)) == TWENTY, "unavailable, with all at hand")
        trial.progress(f"{turn + 1} times twenty")
    house.compare()
    failed, done = disks_fail(trial, house, control)
    house.stop()
    check(house.program, house.db)
    wanting = memory_fails(trial, control)
    return (f"{many} times twenty batches at once; {failed} times with a failing call of the disk, "
            f"{done} times all found done, {wanting} times with an allocation refused")


def disks_fail(trial, house, control):
    """A call of the disk fails, alone or with all behind it: what was not answered is found done by
    the next opening, all of it or nothing."""
    failed = done = 0
    for many in (1, ALL):
        for place in places(trial):
            batches, answered = house.meet(control, DISK, place, many)
            if not control.end(DISK):
                want(len(answered) == TWENTY, "unavailable, and no call has failed")
                break
            found = house.found(batches, answered)
            want(not found or len(found) + len(answered) == TWENTY,
                 f"of those that were not answered only {sorted(found)} are done, at {place}")
            failed, done = failed + 1, done + bool(found)
            trial.progress(f"the disk: {place}")
        house.compare()
    return failed, done


def memory_fails(trial, control):
    """An allocation is refused: at most one tenant is told so, and nothing of its batch is done.
    The batches are of one event, so that each allocation of a round can be tried. A file has no more
    than so many of them, as what is compared is summed anew for each entry."""
    tried, refused, is_refused = places(trial), 0, True
    while is_refused:
        house = Crowd(trial.fresh(), most=1)
        house.begin(control.env)
        for place in itertools.islice(tried, ON_ONE_FILE):
            is_refused = refuse_memory(house, control, place)
            refused += is_refused
            if not is_refused:
                break
            trial.progress(f"memory: {place}")
        house.compare()
        house.stop()
        check(house.program, house.db)
    return refused


def refuse_memory(house, control, place):
    """Whether an allocation was refused."""
    batches, answered = house.meet(control, MEMORY, place)
    if not control.end(MEMORY):
        want(len(answered) == TWENTY, "unavailable, and no allocation was refused")
        return False
    want(len(answered) >= TWENTY - 1, f"only {len(answered)} answered, at {place}")
    want(not house.found(batches, answered), f"not answered and yet done, at {place}")
    return True


def killed_between(trial):
    """The process is killed before a call of the disk, and before a reply: a batch whose reply was
    about to be sent is there."""
    house = Crowd(trial.fresh())
    control = Control(trial.folder)
    house.begin(control.env)
    before = {DISK: "calls of the disk", SENT: "replies"}
    killed, done = dict.fromkeys(before, 0), dict.fromkeys(before, 0)
    for kind in before:
        for place in places(trial):
            batches, answered = house.meet(control, kind, place, KILL)
            if not control.end(kind):
                want(len(answered) == TWENTY, "not answered, and not killed")
                break
            start_again(house, control)
            found = house.found(batches, answered)
            want(found or kind == DISK, f"killed before a reply, {place}, and no batch is there")
            killed[kind], done[kind] = killed[kind] + 1, done[kind] + bool(found)
            trial.progress(f"killed before {place} of the {before[kind]}")
        house.compare()
    house.stop()
    told = (f"{killed[kind]} times before {before[kind]}, {done[kind]} times with batches there "
            "that were not answered" for kind in before)
    return f"twenty batches at once, killed {', '.join(told)}"


def start_again(house, control=None):
    """Behind a kill: the file is ok, and it is served."""
    house.service.gone()
    check(house.program, house.db)
    house.start(control and control.env)


def killed_crowd(trial):
    """`kill -9` under twenty clients at once, and under two hundred."""
    told = [killed_under(trial, many, times) for many, times in
            ((TWENTY, 30 if trial.is_long else 5), (HUNDREDS, 5 if trial.is_long else 1))]
    return "; ".join(told)


def killed_under(trial, many, times):
    """`kill -9` under so many clients at once, each a tenant of its own."""
    house = Crowd(trial.fresh(), many)
    house.begin()
    told = kept = 0
    for turn in range(times):
        house.gather()
        batches = {}
        threads = [threading.Thread(target=send_on, args=(house, place, batches))
                   for place in range(many)]
        killer = threading.Timer(house.random.uniform(0.05, 0.5), house.service.served.kill)
        for thread in (*threads, killer):
            thread.start()
        for thread in (*threads, killer):
            thread.join()
        start_again(house)
        for place, (answered, events, surprise) in batches.items():
            if surprise:
                raise surprise
            told += answered
            kept += house.take_turn(place).settle(events)
        house.compare()
        trial.progress(f"killed {turn + 1} times under {many}")
    house.stop()
    return (f"{times} times killed under {many} clients: {told} answered batches are there, of "
            f"those that were not answered {kept} whole and the others not at all, and nobody "
            f"waited for more than {house.longest():.2f} s")


def send_on(house, place, batches):
    """Sends a tenant's batches until the service is gone: how many were answered, and the one that
    was not."""
    desk, answered, events, surprise = house.desks[place], 0, [], None
    try:
        while True:
            events = house.requests[place].marked()
            want(desk.batch(events), "unavailable, with all at hand")
            answered += 1
    except Lost:
        pass
    except Exception as error:
        surprise = error
    batches[place] = answered, events, surprise
