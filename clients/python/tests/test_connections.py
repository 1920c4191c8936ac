"""Which connections are kept, and which are trusted."""

import threading
import time
import unittest
from unittest import mock

from cegarront import Outcome, Refused, Transfer, Unanswered, transport

from . import pages
from .fake import Act, Fake, cut, ok, refusal, results, say, statement_bytes

EMPTY = ok({"accounts": [], "clock": "5"})
EXISTS = 18


class Kept(unittest.TestCase):
    def test_one_connection_for_many_messages(self):
        with Fake([say(EMPTY)] * 20) as fake:
            ledger = fake.ledger(max_idle=5)
            for _ in range(20):
                ledger.lookup_accounts([1])
            self.assertEqual(fake.places, [1] * 20)

    def test_one_that_was_idle_for_too_long_is_not_used(self):
        with Fake([say(EMPTY)] * 3) as fake:
            ledger = fake.ledger(max_idle=0.2)
            ledger.lookup_accounts([1])
            ledger.lookup_accounts([1])
            time.sleep(0.25)
            ledger.lookup_accounts([1])
            self.assertEqual(fake.places, [1, 1, 2])

    def test_none_is_kept_where_none_is_wanted(self):
        with Fake([say(EMPTY)] * 3) as fake:
            ledger = fake.ledger(max_idle=0)
            for _ in range(3):
                ledger.lookup_accounts([1])
            self.assertEqual(fake.places, [1, 2, 3])

    def test_one_is_kept_behind_a_statement(self):
        statement = statement_bytes(*pages.long_statement(501))
        with Fake([say(statement), say(EMPTY), say(statement)]) as fake:
            ledger = fake.ledger(max_idle=5)
            first = list(ledger.statement(1))
            ledger.lookup_accounts([1])
            self.assertEqual(list(ledger.statement(1)), first)
            self.assertEqual(fake.places, [1] * 3)

    def test_none_is_kept_behind_a_refusal(self):
        with Fake([say(refusal(404, "no_account")), say(EMPTY)]) as fake:
            ledger = fake.ledger(max_idle=5)
            with self.assertRaises(Refused):
                ledger.statement(1)
            ledger.lookup_accounts([1])
            self.assertEqual(fake.places, [1, 2])

    def test_none_is_kept_behind_a_close(self):
        with Fake([say(EMPTY), say(EMPTY)]) as fake:
            ledger = fake.ledger(max_idle=5)
            ledger.lookup_accounts([1])
            ledger.close()
            ledger.lookup_accounts([1])
            self.assertEqual(fake.places, [1, 2])


class ClosedByTheService(unittest.TestCase):
    def test_between_messages(self):
        """It is seen before anything is sent: `exists` is another's."""
        with Fake([cut(EMPTY), say(results(EXISTS))]) as fake:
            ledger = fake.ledger(max_idle=5)
            ledger.lookup_accounts([1])
            time.sleep(0.1)
            (result,) = ledger.create_transfers([Transfer(id=1)])
            self.assertEqual(fake.places, [1, 2])
        self.assertIs(result.outcome, Outcome.EXISTED)

    def test_as_the_next_message_comes(self):
        """It is sent again at once, and the earlier sending may have been done."""
        with Fake([say(EMPTY), cut(), say(results(EXISTS))]) as fake:
            ledger = fake.ledger(max_idle=5)
            ledger.lookup_accounts([1])
            with mock.patch.object(transport, "pause_before") as pause:
                (result,) = ledger.create_transfers([Transfer(id=1)])
            pause.assert_not_called()
            self.assertEqual(fake.places, [1, 1, 2])
        self.assertIs(result.outcome, Outcome.FOUND)

    def test_after_each_second_reply(self):
        """As a service that lets go of a connection after so many replies, to be fair."""
        with Fake([say(EMPTY), cut(EMPTY)] * 20) as fake:
            ledger = fake.ledger(max_idle=5)
            for _ in range(40):
                ledger.lookup_accounts([1])
            self.assertEqual(fake.connections, 20)


class Threads(unittest.TestCase):
    def run_all(self, count, act):
        failed = []

        def run(place):
            try:
                act(place)
            except BaseException as error:
                failed.append(error)
        threads = [threading.Thread(target=run, args=(place,)) for place in range(count)]
        for each in threads:
            each.start()
        for each in threads:
            each.join()
        self.assertEqual(failed, [])

    def test_each_gets_its_own_reply(self):
        with Echo() as fake:
            ledger = fake.ledger(max_idle=5, connections=4)

            def ask(place):
                for each in range(20):
                    number = place * 100 + each + 1
                    (found,) = ledger.lookup_transfers([number])
                    self.assertEqual(found.id, number)
            self.run_all(16, ask)
            self.assertEqual(len(fake.messages), 320)
            self.assertLessEqual(fake.connections, 4)

    def test_who_finds_all_connections_busy_waits_until_the_deadline(self):
        with Fake([say(EMPTY)]) as fake:
            ledger = fake.ledger(connections=1, deadline=0.3)
            slots = ledger._transport._slots
            with slots, self.assertRaises(Unanswered) as raised:
                ledger.create_transfers([Transfer(id=1)])
            self.assertFalse(raised.exception.may_be_booked)
            self.assertEqual(fake.connections, 0)
            ledger.lookup_accounts([1])


class Echo(Fake):
    """Answers a look-up of one transfer with that transfer."""

    def __init__(self):
        super().__init__([])

    def act_on(self, message, place):
        with self.lock:
            self.messages.append(message)
        number = message.rpartition(b"\r\n\r\n")[2].strip(b'["]').decode()
        wide = ("debit_account_id", "credit_account_id", "amount", "pending_id", "user_data_128",
                "user_data_64", "timestamp")
        narrow = ("user_data_32", "timeout", "ledger", "code", "flags")
        found = {"id": number, **dict.fromkeys(wide, "0"), **dict.fromkeys(narrow, 0)}
        return Act(ok({"clock": "1", "transfers": [found]}))


if __name__ == "__main__":
    unittest.main()
