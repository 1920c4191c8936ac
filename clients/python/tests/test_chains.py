"""A chain that was sent again stands only where a look-up finds all of it."""

import dataclasses
import json
import unittest
from unittest import mock

from cegarront import (
    MAX_128,
    Account,
    AccountFlag,
    LedgerError,
    Outcome,
    Refused,
    Transfer,
    TransferFlag,
    Unanswered,
    transport,
)

from .fake import Fake, body_of, cut, ok, refusal, results, say
from cegarront.records import is_string

EXISTS, FAILED = 18, 2
LINKED = TransferFlag.LINKED
FIRST = Transfer(id=100, debit_account_id=1, credit_account_id=2, amount=10, ledger=7, code=1,
                 flags=LINKED)
SECOND = Transfer(id=101, debit_account_id=2, credit_account_id=3, amount=5, ledger=7, code=1)
CHAIN = [FIRST, SECOND]


def shown(record, **changed):
    """A record as a reply shows it."""
    values = vars(dataclasses.replace(record, **changed))
    return {name: str(value) if is_string(name) else int(value) for name, value in values.items()}


def transfers(*records):
    return say(ok({"clock": "200", "transfers": [shown(each, timestamp=50) for each in records]}))


class Chains(unittest.TestCase):
    def setUp(self):
        quick = mock.patch.object(transport, "FIRST_PAUSE", 0.001)
        quick.start()
        self.addCleanup(quick.stop)

    def outcomes(self, script, events=None):
        with Fake(script) as fake:
            told = fake.ledger().create_transfers(CHAIN if events is None else events)
            self.assertEqual(fake.script, [])
            self.messages = fake.messages
        return [each.outcome for each in told]

    def test_accepted(self):
        self.assertEqual(self.outcomes([say(results(0, 0))]), [Outcome.ACCEPTED] * 2)

    def test_found_behind_a_retry(self):
        script = [cut(), say(results(EXISTS, FAILED)), transfers(*CHAIN)]
        self.assertEqual(self.outcomes(script), [Outcome.FOUND] * 2)
        self.assertEqual(body_of(self.messages[-1]), b'["100","101"]')

    def test_found_at_the_first_sending(self):
        script = [say(results(EXISTS, FAILED)), transfers(*CHAIN)]
        self.assertEqual(self.outcomes(script), [Outcome.EXISTED] * 2)

    def test_the_results_stay_as_they_were_told(self):
        with Fake([say(results(EXISTS, FAILED)), transfers(*CHAIN)]) as fake:
            told = fake.ledger().create_transfers(CHAIN)
        self.assertEqual([each.number for each in told], [EXISTS, FAILED])
        told.raise_for_refused()

    def test_not_all_of_it_is_there(self):
        for found in ([], [FIRST], [SECOND]):
            script = [cut(), say(results(EXISTS, FAILED)), transfers(*found)]
            self.assertEqual(self.outcomes(script), [Outcome.REFUSED] * 2)

    def test_another_value_in_any_field(self):
        for name in ("debit_account_id", "credit_account_id", "amount", "pending_id",
                     "user_data_128", "user_data_64", "user_data_32", "timeout", "ledger", "code",
                     "flags"):
            for changed in CHAIN:
                value = getattr(changed, name)
                other = TransferFlag(value ^ 2) if name == "flags" else value + 1
                found = [dataclasses.replace(each, **{name: other}) if each is changed else each
                         for each in CHAIN]
                script = [cut(), say(results(EXISTS, FAILED)), transfers(*found)]
                with self.subTest(name):
                    self.assertEqual(self.outcomes(script), [Outcome.REFUSED] * 2)

    def test_other_results_are_not_looked_up(self):
        for numbers in ((FAILED, EXISTS), (FAILED, 55), (45, FAILED), (EXISTS, 1), (FAILED, 60)):
            script = [cut(), say(results(*numbers))]
            with self.subTest(numbers):
                self.assertEqual(self.outcomes(script), [Outcome.REFUSED] * 2)

    def test_a_batch_of_several(self):
        events = [dataclasses.replace(FIRST, id=1, flags=TransferFlag(0)), FIRST, SECOND,
                  dataclasses.replace(FIRST, id=102), dataclasses.replace(SECOND, id=103),
                  dataclasses.replace(SECOND, id=104), dataclasses.replace(FIRST, id=105)]
        script = [cut(), say(results(EXISTS, EXISTS, FAILED, FAILED, 55, 0, 1)), transfers(*CHAIN)]
        self.assertEqual(self.outcomes(script, events), [
            Outcome.FOUND, Outcome.FOUND, Outcome.FOUND, Outcome.REFUSED, Outcome.REFUSED,
            Outcome.ACCEPTED, Outcome.REFUSED])

    def test_the_look_up_is_sent_again_too(self):
        script = [cut(), say(results(EXISTS, FAILED)), cut(), say(refusal(503, "unavailable")),
                  transfers(*CHAIN)]
        self.assertEqual(self.outcomes(script), [Outcome.FOUND] * 2)

    def test_a_look_up_that_is_not_answered(self):
        for more, kind in ((refusal(401, "unknown_key"), Refused), (b"", Unanswered)):
            script = [say(results(EXISTS, FAILED))] + [cut(more)] * 100
            with self.subTest(kind), Fake(script) as fake:
                with self.assertRaises(kind) as raised:
                    fake.ledger(deadline=0.3).create_transfers(CHAIN)
                self.assertIsInstance(raised.exception, LedgerError)
                self.assertTrue(raised.exception.may_be_booked)

    def test_a_long_chain_is_looked_up_in_parts(self):
        hold = dataclasses.replace(FIRST, flags=TransferFlag.PENDING, amount=9)
        post = Transfer(id=0, amount=MAX_128, flags=LINKED | TransferFlag.POST_PENDING_TRANSFER)
        sent = [dataclasses.replace(post, id=5000 + each, pending_id=1000 + each)
                for each in range(1000)]
        sent[-1] = dataclasses.replace(sent[-1], flags=TransferFlag.POST_PENDING_TRANSFER)
        posted = [dataclasses.replace(each, amount=9) for each in sent]
        holds = [dataclasses.replace(hold, id=1000 + each) for each in range(1000)]
        script = [say(results(EXISTS, *[FAILED] * 999)), transfers(*posted), transfers(*holds)]
        self.assertEqual(set(self.outcomes(script, sent)), {Outcome.EXISTED})
        self.assertEqual([len(json.loads(body_of(each))) for each in self.messages], [1000] * 3)


class FieldsAsTheLedgerComparesThem(unittest.TestCase):
    """The rules of `exists` in docs/RESULTS.md, rows 7 to 18."""

    def stands(self, sent, stored, *more):
        chain = [dataclasses.replace(sent, id=100, flags=sent.flags | LINKED), SECOND]
        found = dataclasses.replace(stored, id=100, flags=stored.flags | LINKED)
        script = [say(results(EXISTS, FAILED)), transfers(found, SECOND, *more)]
        with Fake(script) as fake:
            told = fake.ledger().create_transfers(chain)
        return told[0].stands

    def test_a_post_or_void_takes_what_it_leaves_0(self):
        for kind in (TransferFlag.POST_PENDING_TRANSFER, TransferFlag.VOID_PENDING_TRANSFER):
            sent = Transfer(id=100, pending_id=99, amount=7, flags=kind)
            taken = dict(debit_account_id=1, credit_account_id=2, ledger=7, code=1,
                         user_data_128=3, user_data_64=4, user_data_32=5)
            self.assertTrue(self.stands(sent, dataclasses.replace(sent, **taken)))
            for name, value in taken.items():
                with self.subTest(name):
                    given = dataclasses.replace(sent, **{name: value})
                    self.assertTrue(self.stands(given, dataclasses.replace(sent, **taken)))
                    other = dataclasses.replace(sent, **{name: value + 1})
                    self.assertFalse(self.stands(other, dataclasses.replace(sent, **taken)))

    def test_a_post_of_the_whole(self):
        sent = Transfer(id=100, pending_id=99, amount=MAX_128,
                        flags=TransferFlag.POST_PENDING_TRANSFER)
        hold = Transfer(id=99, amount=70, flags=TransferFlag.PENDING)
        self.assertTrue(self.stands(sent, dataclasses.replace(sent, amount=70), hold))
        self.assertFalse(self.stands(sent, dataclasses.replace(sent, amount=69), hold))
        self.assertFalse(self.stands(sent, dataclasses.replace(sent, amount=70)))

    def test_a_void_of_0(self):
        sent = Transfer(id=100, pending_id=99, flags=TransferFlag.VOID_PENDING_TRANSFER)
        stored = dataclasses.replace(sent, amount=100)
        self.assertTrue(self.stands(sent, stored))
        self.assertTrue(self.stands(stored, stored))
        self.assertFalse(self.stands(dataclasses.replace(sent, amount=99), stored))

    def test_a_balancing_transfer(self):
        for flag in (TransferFlag.BALANCING_DEBIT, TransferFlag.BALANCING_CREDIT):
            for amount, stands in ((29, False), (30, True), (31, True), (MAX_128, True)):
                sent = dataclasses.replace(FIRST, amount=amount, flags=flag)
                stored = dataclasses.replace(sent, amount=30)
                self.assertIs(self.stands(sent, stored), stands)


class ChainsOfAccounts(unittest.TestCase):
    CHAIN = [Account(id=5, ledger=7, code=10, flags=AccountFlag.LINKED, user_data_64=1),
             Account(id=6, ledger=7, code=11)]

    def outcomes(self, found):
        exists = 13
        script = [cut(), say(results(exists, FAILED)),
                  say(ok({"accounts": [shown(each, debits_posted=9, timestamp=3) for each in found],
                          "clock": "9"}))]
        with Fake(script) as fake:
            told = fake.ledger().create_accounts(self.CHAIN)
        return [each.outcome for each in told]

    def test_found(self):
        self.assertEqual(self.outcomes(self.CHAIN), [Outcome.FOUND] * 2)

    def test_not_found(self):
        first, second = self.CHAIN
        self.assertEqual(self.outcomes([first]), [Outcome.REFUSED] * 2)
        for name in ("flags", "user_data_128", "user_data_64", "user_data_32", "ledger", "code"):
            value = getattr(second, name)
            other = AccountFlag(8) if name == "flags" else value + 1
            found = [first, dataclasses.replace(second, **{name: other})]
            with self.subTest(name):
                self.assertEqual(self.outcomes(found), [Outcome.REFUSED] * 2)


if __name__ == "__main__":
    unittest.main()
