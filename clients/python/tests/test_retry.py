"""When a message is sent again, and when not."""

import http.client
import threading
import time
import unittest
from unittest import mock

from cegarront import (
    Account,
    AccountResult,
    BadReply,
    Ledger,
    Outcome,
    Refused,
    Transfer,
    Unanswered,
    transport,
)

from . import pages
from .fake import (
    KEY,
    Fake,
    cut,
    free_port,
    ok,
    refusal,
    reply_bytes,
    results,
    say,
    silence,
    statement_bytes,
)
from .relay import Relay

PAID = Transfer(id=100, debit_account_id=1, credit_account_id=2, amount=10, ledger=7, code=1)
EXISTS, FAILED = 18, 60
# The shortest pauses, where a test is not about them.
QUICK = mock.patch.object(transport, "FIRST_PAUSE", 0.001)


def lookup_reply():
    return ok({"accounts": [], "clock": "5"})


def statement_reply():
    """One of a transfer, in two chunks and the last."""
    return statement_bytes(*pages.statement().splitlines(keepends=True))


# What ends a reply in chunks.
LAST_CHUNK = b"0\r\n\r\n"


class SentAgain(unittest.TestCase):
    def setUp(self):
        QUICK.start()
        self.addCleanup(QUICK.stop)

    def outcome(self, script, **options):
        """The outcome of a transfer, whose every sending was the same bytes."""
        with Fake(script) as fake:
            (result,) = fake.ledger(**options).create_transfers([PAID])
            self.assertEqual(fake.script, [])
            self.assertEqual(len(set(fake.messages)), 1)
        return result.outcome

    def test_accepted_at_once_or_later(self):
        self.assertIs(self.outcome([say(results(0))]), Outcome.ACCEPTED)
        self.assertIs(self.outcome([cut(), say(results(0))]), Outcome.ACCEPTED)

    def test_exists_is_told_apart(self):
        self.assertIs(self.outcome([say(results(EXISTS))]), Outcome.EXISTED)
        self.assertIs(self.outcome([cut(), say(results(EXISTS))]), Outcome.FOUND)

    def test_a_connection_that_is_cut_at_each_byte_of_a_reply(self):
        whole = results(EXISTS)
        for count in range(len(whole)):
            script = [cut(whole[:count]), say(whole)]
            with self.subTest(whole[:count][-20:]):
                self.assertIs(self.outcome(script), Outcome.FOUND)

    def test_a_refusal_that_is_cut_is_none(self):
        whole = refusal(503, "clock_exhausted")
        for count in range(len(whole)):
            with self.subTest(whole[:count][-20:]):
                self.assertIs(self.outcome([cut(whole[:count]), say(results(0))]), Outcome.ACCEPTED)

    def test_no_byte_in_time(self):
        script = [silence(0.5), say(results(EXISTS))]
        self.assertIs(self.outcome(script, timeout=0.1), Outcome.FOUND)

    def test_a_reply_that_stops_in_the_middle(self):
        script = [silence(0.5, results(0)[:40]), say(results(EXISTS))]
        self.assertIs(self.outcome(script, timeout=0.1), Outcome.FOUND)

    def test_unavailable(self):
        unavailable = say(refusal(503, "unavailable"))
        script = [unavailable, unavailable, say(results(EXISTS))]
        self.assertIs(self.outcome(script), Outcome.FOUND)

    def test_a_proxy_without_an_answer(self):
        for status in (408, 502, 503, 504):
            for body in (b"<html>", b"", b"{}", b"[1]", b'{"error":1}'):
                with self.subTest(status=status, body=body):
                    script = [say(reply_bytes(status, body, "text/html")), say(results(EXISTS))]
                    self.assertIs(self.outcome(script), Outcome.FOUND)

    def test_what_failed_for_good_behind_a_lost_reply(self):
        self.assertIs(self.outcome([cut(), say(results(FAILED))]), Outcome.REFUSED)

    def test_accounts(self):
        exists = say(results(int(AccountResult.EXISTS)))
        for script, outcome in (([exists], Outcome.EXISTED), ([cut(), exists], Outcome.FOUND)):
            with Fake(list(script)) as fake:
                (result,) = fake.ledger().create_accounts([Account(1, 7, 10)])
            self.assertIs(result.outcome, outcome)

    def test_reads(self):
        with Fake([cut(), say(refusal(503, "unavailable")), say(lookup_reply())]) as fake:
            self.assertEqual(fake.ledger().lookup_accounts([1]).clock, 5)
            self.assertEqual(len(set(fake.messages)), 1)

    def test_a_statement_that_is_cut_at_each_byte(self):
        whole = statement_reply()
        for count in range(len(whole)):
            with self.subTest(whole[:count][-20:]), Fake([cut(whole[:count]), say(whole)]) as fake:
                entries = list(fake.ledger().statement(1))
                self.assertEqual([each.transfer_id for each in entries], [100])
                if count <= len(whole) - len(LAST_CHUNK):
                    self.assertEqual(len(fake.messages), 2)

    def test_a_statement_that_stops_between_its_chunks(self):
        whole = statement_reply()
        beginning = whole[:whole.index(b"\n\r\n") + 3]
        with Fake([silence(0.5, beginning), say(whole)]) as fake:
            (entry,) = fake.ledger(timeout=0.1).statement(1)
            self.assertEqual(len(fake.messages), 2)
        self.assertEqual(entry.transfer_id, 100)

    def test_statements_behind_what_cuts_at_random(self):
        """Each of more bytes than the relay reads at once."""
        with Fake([say(statement_bytes(*pages.long_statement(2001)))] * 1000) as fake:
            relay = Relay(fake.port, seed=1, one_in=2)
            self.addCleanup(relay.close)
            with Ledger(relay.url, KEY) as ledger:
                for _ in range(20):
                    entries = [each.timestamp for each in ledger.statement(1)]
                    self.assertEqual(entries, list(range(1, 2002)))
            self.assertGreater(min(relay.cuts.values()), 0)

    def test_a_service_that_comes_later(self):
        """What could not be sent does not make `exists` another's."""
        port, fakes = free_port(), []
        script = [say(results(EXISTS))]
        timer = threading.Timer(0.3, lambda: fakes.append(Fake(script, port)))
        timer.start()
        with Ledger(f"http://127.0.0.1:{port}", KEY, deadline=10) as ledger:
            (result,) = ledger.create_transfers([PAID])
        timer.join()
        with fakes[0]:
            self.assertIs(result.outcome, Outcome.EXISTED)


class NotSentAgain(unittest.TestCase):
    def test_clock_exhausted(self):
        for script, may_be in (([], False), ([cut()], True)):
            with Fake(script + [say(refusal(503, "clock_exhausted"))]) as fake:
                with self.assertRaises(Refused) as raised:
                    fake.ledger().create_transfers([PAID])
                self.assertEqual(len(fake.messages), len(script) + 1)
            self.assertEqual(raised.exception.name, "clock_exhausted")
            self.assertIs(raised.exception.may_be_booked, may_be)

    def test_each_other_refusal_behind_a_cut(self):
        for status, name in pages.refusals():
            if name == "unavailable":
                continue
            with self.subTest(name), Fake([cut(), say(refusal(status, name))]) as fake:
                with self.assertRaises(Refused) as raised:
                    fake.ledger().create_transfers([PAID])
                self.assertEqual(len(fake.messages), 2)
                self.assertTrue(raised.exception.may_be_booked)

    def test_a_read_books_nothing(self):
        with Fake([cut(), say(refusal(401, "unknown_key"))]) as fake:
            with self.assertRaises(Refused) as raised:
                fake.ledger().lookup_transfers([1])
        self.assertFalse(raised.exception.may_be_booked)

    def test_a_statement_that_another_key_has_cut(self):
        beginning = statement_reply()[:-len(LAST_CHUNK)]
        with Fake([cut(beginning), say(refusal(401, "unknown_key"))]) as fake:
            with self.assertRaises(Refused) as raised:
                fake.ledger().statement(1)
        self.assertEqual(raised.exception.name, "unknown_key")

    def test_another_server(self):
        for status in (200, 301, 403, 404, 500):
            with self.subTest(status), Fake([say(reply_bytes(status, b"<html>"))]) as fake:
                with self.assertRaises(BadReply):
                    fake.ledger().create_transfers([PAID])
                self.assertEqual(len(fake.messages), 1)


class Deadlines(unittest.TestCase):
    def unanswered(self, script, call, **options):
        with Fake(script) as fake:
            with self.assertRaises(Unanswered) as raised:
                # A machine with other work may do nothing for some tenths of a second.
                call(fake.ledger(deadline=2, **options))
            self.assertIsNotNone(raised.exception.__cause__)
            return raised.exception, fake

    def test_a_service_that_is_silent(self):
        """It is not waited for: it would be silent for an hour."""
        error, fake = self.unanswered([silence(3600)], lambda each: each.create_transfers([PAID]))
        self.assertTrue(error.may_be_booked)
        self.assertEqual(len(fake.messages), 1)

    def test_a_service_that_cuts(self):
        error, fake = self.unanswered([], lambda each: each.create_transfers([PAID]))
        self.assertTrue(error.may_be_booked)
        self.assertGreater(len(fake.messages), 2)
        self.assertEqual(len(set(fake.messages)), 1)

    def test_health_is_asked_once(self):
        with Fake([say(refusal(503, "unavailable")), say(ok({"serving": True})), cut(),
                   say(ok({"accounts": []}))]) as fake:
            ledger = fake.ledger()
            self.assertFalse(ledger.health())
            self.assertTrue(ledger.health())
            with self.assertRaises(Unanswered) as raised:
                ledger.health()
            with self.assertRaises(BadReply):
                ledger.health()
        self.assertFalse(raised.exception.may_be_booked)
        self.assertEqual(len(fake.messages), 4)

    def test_a_service_that_stays_unavailable(self):
        script = [say(refusal(503, "unavailable"))] * 100
        error, fake = self.unanswered(script, lambda each: each.create_transfers([PAID]))
        self.assertTrue(error.may_be_booked)
        self.assertIn("unavailable", str(error))
        self.assertGreater(len(fake.messages), 2)

    def test_a_read(self):
        error, _ = self.unanswered([], lambda each: each.lookup_accounts([1]))
        self.assertFalse(error.may_be_booked)

    def test_a_statement_that_is_cut_each_time(self):
        """Also where all of its rows were there: only the last chunk says so."""
        cuts = [cut(statement_reply()[:-len(LAST_CHUNK)])] * 1000
        error, fake = self.unanswered(cuts, lambda each: each.statement(1))
        self.assertFalse(error.may_be_booked)
        self.assertIsInstance(error.__cause__.__cause__, http.client.IncompleteRead)
        self.assertGreater(len(fake.messages), 2)

    def test_no_service(self):
        with self.assertRaises(Unanswered) as raised:
            Ledger(f"http://127.0.0.1:{free_port()}", KEY, deadline=0.3).create_transfers([PAID])
        self.assertFalse(raised.exception.may_be_booked)
        self.assertIn("ConnectionRefusedError", str(raised.exception))


class Pauses(unittest.TestCase):
    def test_they_grow_up_to_a_bound(self):
        for sending, longest in ((1, 0.05), (2, 0.1), (3, 0.2), (6, 1.6), (7, 2.0), (10**6, 2.0)):
            drawn = [transport.pause_before(sending) for _ in range(200)]
            self.assertLessEqual(max(drawn), longest)
            self.assertGreaterEqual(min(drawn), longest / 2)
            self.assertGreater(len(set(drawn)), 100)

    def test_what_the_service_asks_for_is_kept_and_spread(self):
        cause = transport.NoAnswer("busy (503)", was_sent=False, retry_after=3)
        drawn = [transport.Attempts(transport.Message("POST", "/transfers"), time.monotonic() + 60)
                 .pause_after(cause) for _ in range(200)]
        self.assertGreaterEqual(min(drawn), 3)
        self.assertLessEqual(max(drawn), 4.5)
        self.assertGreater(len(set(drawn)), 100)

    def test_they_are_kept(self):
        with Fake([cut(), cut(), cut(), say(results(0))]) as fake, \
                mock.patch.object(transport.time, "sleep", wraps=time.sleep) as slept:
            fake.ledger().create_transfers([PAID])
        mine = [call.args[0] for call in slept.call_args_list if call.args[0] > 0.02]
        self.assertEqual(len(mine), 3)
        for wait, least in zip(mine, (0.025, 0.05, 0.1)):
            self.assertGreaterEqual(wait, least)


if __name__ == "__main__":
    unittest.main()
