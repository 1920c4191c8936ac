"""Lost replies to batches of which nothing is there, beside a hold that has come due. The clock cannot
tell then whether such a batch was kept and all of it has failed. Worked by hand from docs/MODEL.md: a
transfer that failed for want of an account is answered 60 when it is sent again."""

from drawn import LEDGER, account, moves, transfer
from service import BATCHES, TRANSFER_RESULTS, Desk, want

SECOND = 10**9
NO_ACCOUNT, ALREADY_FAILED, DONE = 45, 60, 0


class Scripted(Desk):
    """A tenant whose service answers from a script."""

    def __init__(self):
        super().__init__("")
        self.script = []
        self.ledger.batch([account(1), account(2)], 10 * SECOND, False)
        hold = transfer(5, debit_account_id=1, credit_account_id=2, amount=1, ledger=LEDGER, code=1,
                        flags=2, timeout=3)
        self.ledger.batch([hold], 11 * SECOND, True)

    def ask(self, method, path, body=b""):
        told = self.script.pop(0)
        if path not in BATCHES:
            for ledger in self.ledgers():
                ledger.reach(int(told["clock"]))
        return told

    def lose(self, events):
        """A batch whose reply is lost, and a look at it: nothing is there, and the hold has ended."""
        self.before = self.ledger.clock
        self.script = [{"clock": str(14 * SECOND), "transfers": []}]
        want(not self.settle(events), "kept, of which nothing is there")

    def answered(self, events, seconds, *numbers):
        """A batch that is answered with these results."""
        stamps = range(seconds * SECOND - len(events) + 1, seconds * SECOND + 1)
        self.script = [{"clock": str(seconds * SECOND), "results": [
            {"number": number, "result": TRANSFER_RESULTS[number], "timestamp": str(stamp)}
            for number, stamp in zip(numbers, stamps)]}]
        return self.batch(events)


def failing(number):
    """A transfer to an account that is not there."""
    return moves(number, credit_account_id=9)


def doubted():
    """How many courses have ended as they should."""
    for is_kept in (True, False):
        number = ALREADY_FAILED if is_kept else NO_ACCOUNT
        for between in (False, True):
            desk = Scripted()
            desk.lose(failing(7))
            if between:
                # This answer fits both.
                desk.answered(moves(8), 15, DONE)
            desk.answered(failing(7), 16, number)
            want(not desk.others, "a doubt is left by an answer that ends it")
            desk.answered(failing(7), 17, ALREADY_FAILED)
        # Another one, after which the clock has not moved: it was not kept.
        desk = Scripted()
        desk.lose(failing(7))
        desk.lose(failing(8))
        desk.answered(failing(7) + failing(8), 16, number, NO_ACCOUNT)
    return 6
