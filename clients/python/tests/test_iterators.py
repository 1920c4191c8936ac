"""Histories page by page."""

import dataclasses
import json
import unittest

from cegarront import AccountFilter, Balance, FilterFlag, Refused, Transfer

from .fake import Fake, body_of, cut, ok, refusal, say
from .test_chains import shown


def page(name, records):
    return say(ok({"clock": "200", name: [shown(each) for each in records]}))


def made(*timestamps):
    return [Transfer(id=1000 + each, timestamp=each) for each in timestamps]


class Pages(unittest.TestCase):
    def asked(self, script, asked, balances=False):
        with Fake(script) as fake:
            ledger = fake.ledger()
            call = ledger.iter_account_balances if balances else ledger.iter_account_transfers
            found = [each.timestamp for each in call(asked)]
            self.assertEqual(fake.script, [])
            return found, [json.loads(body_of(each)) for each in fake.messages]

    def test_oldest_first(self):
        script = [page("transfers", made(5, 7)), page("transfers", made(8, 12)),
                  page("transfers", made(13))]
        found, sent = self.asked(script, AccountFilter(9, timestamp_max=20, limit=2))
        self.assertEqual(found, [5, 7, 8, 12, 13])
        first = {"account_id": "9", "timestamp_max": "20", "limit": 2, "flags": 3}
        self.assertEqual(sent, [first, {**first, "timestamp_min": "8"},
                                {**first, "timestamp_min": "13"}])

    def test_newest_first(self):
        flags = FilterFlag.DEBITS | FilterFlag.NEWEST_FIRST
        script = [page("transfers", made(13, 12)), page("transfers", made(8, 7)),
                  page("transfers", [])]
        found, sent = self.asked(script, AccountFilter(9, timestamp_min=6, limit=2, flags=flags))
        self.assertEqual(found, [13, 12, 8, 7])
        first = {"account_id": "9", "timestamp_min": "6", "limit": 2, "flags": 5}
        self.assertEqual(sent, [first, {**first, "timestamp_max": "11"},
                                {**first, "timestamp_max": "6"}])

    def test_a_bound_of_0_would_be_none(self):
        asked = AccountFilter(9, limit=1, flags=FilterFlag(7))
        self.assertEqual(self.asked([page("transfers", made(1))], asked)[0], [1])

    def test_balances(self):
        script = [page("balances", [Balance(5, 1, 2, 3, 4)]), page("balances", [])]
        self.assertEqual(self.asked(script, AccountFilter(9, limit=1), balances=True)[0], [5])

    def test_nothing_is_asked_before_it_is_needed(self):
        script = [page("transfers", made(5, 7)), cut(), page("transfers", made(8))]
        with Fake(script) as fake:
            iterator = fake.ledger().iter_account_transfers(AccountFilter(9, limit=2))
            self.assertEqual(len(fake.messages), 0)
            self.assertEqual([next(iterator).timestamp, next(iterator).timestamp], [5, 7])
            self.assertEqual(len(fake.messages), 1)
            self.assertEqual([each.timestamp for each in iterator], [8])
            self.assertEqual(len(fake.messages), 3)

    def test_refused(self):
        with Fake([say(refusal(409, "no_history"))]) as fake:
            with self.assertRaisesRegex(Refused, "no_history"):
                list(fake.ledger().iter_account_balances(AccountFilter(9)))


class Shapes(unittest.TestCase):
    def test_records_are_frozen_and_compared_by_value(self):
        (first,) = made(5)
        with self.assertRaises(dataclasses.FrozenInstanceError):
            first.amount = 3
        self.assertEqual(first, made(5)[0])
        self.assertEqual(len({first, made(5)[0]}), 1)


if __name__ == "__main__":
    unittest.main()
