"""Queries and holds page by page, and following a ledger."""

import json
import unittest

from cegarront import (
    Account,
    AccountFlag,
    BadReply,
    Hold,
    HoldState,
    LedgerError,
    OpenHold,
    PageFilter,
    QueryFilter,
    QueryFlag,
    Refused,
    Transfer,
)

from .fake import Fake, body_of, cut, ok, refusal, say
from .test_chains import shown

NEWEST = QueryFlag.NEWEST_FIRST


def made(*timestamps):
    return [Transfer(id=1000 + each, timestamp=each) for each in timestamps]


def page(timestamps, then, clock=200):
    """The reply to a query of transfers."""
    return say(ok({"clock": str(clock), "next": str(then),
                   "transfers": [shown(each) for each in made(*timestamps)]}))


class Queries(unittest.TestCase):
    def asked(self, reply, call):
        """What a call answers, the path and the body that it has sent."""
        with Fake([say(ok(reply))]) as fake:
            told = call(fake.ledger())
            (sent,) = fake.messages
            return told, sent.split()[1].decode(), json.loads(body_of(sent))

    def test_accounts(self):
        account = Account(id=3, ledger=978, code=3, flags=AccountFlag(10), user_data_64=9,
                          credits_posted=5000, timestamp=7)
        told, path, sent = self.asked(
            {"accounts": [shown(account)], "clock": "12", "next": "8"},
            lambda ledger: ledger.query_accounts(QueryFilter(ledger=978, limit=1)))
        self.assertEqual((path, sent), ("/query/accounts", {"ledger": 978, "limit": 1}))
        self.assertEqual((told.items, told.clock, told.next), ((account,), 12, 8))

    def test_transfers(self):
        told, path, sent = self.asked(
            {"clock": "12", "next": "0", "transfers": []},
            lambda ledger: ledger.query_transfers(QueryFilter(
                user_data_128=2**128 - 1, user_data_64=2, user_data_32=3, code=4, timestamp_min=5,
                timestamp_max=6, limit=10, flags=NEWEST)))
        self.assertEqual(path, "/query/transfers")
        self.assertEqual(sent, {
            "user_data_128": str(2**128 - 1), "user_data_64": "2", "user_data_32": 3, "code": 4,
            "timestamp_min": "5", "timestamp_max": "6", "limit": 10, "flags": 1})
        self.assertEqual((told.items, told.clock, told.next), ((), 12, 0))

    def test_holds(self):
        listed = [{"due": "1005", "id": "100", "state": state}
                  for state in ("open", "posted", "voided", "expired")]
        told, path, sent = self.asked({"clock": "12", "pending": listed},
                                      lambda ledger: ledger.lookup_pending([100, 9]))
        self.assertEqual((path, sent), ("/pending/lookup", ["100", "9"]))
        self.assertEqual(list(told), [Hold(100, 1005, state) for state in HoldState])

    def test_open_holds(self):
        told, path, sent = self.asked(
            {"clock": "12", "next": "6",
             "pending": [{"due": "0", "id": "100", "state": "open", "timestamp": "5"}]},
            lambda ledger: ledger.open_pending(PageFilter(limit=1)))
        self.assertEqual((path, sent), ("/pending/open", {"limit": 1}))
        self.assertEqual((list(told), told.next), ([OpenHold(100, 0, HoldState.OPEN, 5)], 6))

    def test_what_no_ledger_answers(self):
        hold = {"due": "0", "id": "1", "state": "open"}
        for reply in ({"clock": "1", "transfers": []}, {"clock": "1", "next": 0, "transfers": []},
                      {"clock": "1", "next": "-1", "transfers": []}, {"clock": "1", "next": "0"}):
            with self.subTest(reply), self.assertRaises(BadReply):
                self.asked(reply, lambda ledger: ledger.query_transfers(QueryFilter()))
        for wrong in ({"state": "lost"}, {"due": 0}, {"id": None}):
            with self.subTest(wrong), self.assertRaises(BadReply):
                self.asked({"clock": "1", "pending": [{**hold, **wrong}]},
                           lambda ledger: ledger.lookup_pending([1]))

    def test_before_sending(self):
        for kind in (PageFilter, QueryFilter):
            for wrong in ({"limit": 0}, {"limit": 1001}, {"flags": QueryFlag(2)},
                          {"timestamp_min": 2**64}, {"timestamp_max": -1}):
                with self.subTest(wrong), self.assertRaises(ValueError):
                    kind(**wrong)
        for wrong in ({"code": 2**16}, {"ledger": 2**32}, {"user_data_32": 2**32},
                      {"user_data_64": 2**64}, {"user_data_128": 2**128}):
            with self.subTest(wrong), self.assertRaises(ValueError):
                QueryFilter(**wrong)
        with Fake([]) as fake:
            with self.assertRaisesRegex(ValueError, "1001 ids"):
                fake.ledger().lookup_pending(range(1001))
        self.assertEqual(fake.connections, 0)


class Pages(unittest.TestCase):
    def walked(self, script, asked):
        with Fake(script) as fake:
            found = [each.timestamp for each in fake.ledger().iter_transfers(asked)]
            self.assertEqual(fake.script, [])
            return found, [json.loads(body_of(each)) for each in fake.messages]

    def test_oldest_first(self):
        script = [page((5, 7), 8), page((), 2008), page((2009,), 0)]
        found, sent = self.walked(script, QueryFilter(code=4, timestamp_max=9999, limit=2))
        self.assertEqual(found, [5, 7, 2009])
        first = {"code": 4, "timestamp_max": "9999", "limit": 2}
        self.assertEqual(sent, [first, {**first, "timestamp_min": "8"},
                                {**first, "timestamp_min": "2008"}])

    def test_newest_first(self):
        script = [page((13, 12), 11), page((3, 2), 1), page((), 0)]
        found, sent = self.walked(script, QueryFilter(timestamp_max=20, limit=2, flags=NEWEST))
        self.assertEqual(found, [13, 12, 3, 2])
        first = {"timestamp_max": "20", "limit": 2, "flags": 1}
        self.assertEqual(sent, [first, {**first, "timestamp_max": "11"},
                                {**first, "timestamp_max": "1"}])

    def test_accounts_and_holds(self):
        account, hold = Account(id=3, ledger=978, code=3), OpenHold(100, 0, HoldState.OPEN, 5)
        told = {"due": "0", "id": "100", "state": "open", "timestamp": "5"}
        script = [say(ok({"accounts": [shown(account)], "clock": "9", "next": "0"})),
                  say(ok({"clock": "9", "next": "6", "pending": [told]})),
                  say(ok({"clock": "9", "next": "0", "pending": []}))]
        with Fake(script) as fake:
            ledger = fake.ledger()
            self.assertEqual(list(ledger.iter_accounts()), [account])
            self.assertEqual(list(ledger.iter_open_pending()), [hold])
        self.assertEqual([json.loads(body_of(each)) for each in fake.messages],
                         [{"limit": 1000}, {"limit": 1000}, {"limit": 1000, "timestamp_min": "6"}])

    def test_nothing_is_asked_before_it_is_needed(self):
        with Fake([page((5, 7), 8), cut(), page((8,), 0)]) as fake:
            iterator = fake.ledger().iter_transfers(QueryFilter(limit=2))
            self.assertEqual(len(fake.messages), 0)
            self.assertEqual([next(iterator).timestamp, next(iterator).timestamp], [5, 7])
            self.assertEqual(len(fake.messages), 1)
            self.assertEqual([each.timestamp for each in iterator], [8])
            self.assertEqual(len(fake.messages), 3)


class Following(unittest.TestCase):
    def followed(self, script, *words):
        """The pages: times and the number to keep; and the numbers that were asked with."""
        with Fake(script) as fake:
            told = [([each.timestamp for each in transfers], number)
                    for transfers, number in fake.ledger().follow(*words)]
            self.assertEqual(fake.script, [])
            bodies = [json.loads(body_of(each)) for each in fake.messages]
        return told, [each.get("timestamp_min", "0") for each in bodies]

    def test_pages_to_the_end(self):
        script = [page((5, 7), 8), page((8, 9), 10), page((12,), 0, clock=20)]
        told, sent = self.followed(script, 0, 2)
        self.assertEqual(told, [([5, 7], 8), ([8, 9], 10), ([12], 21)])
        self.assertEqual(sent, ["0", "8", "10"])

    def test_nothing_new(self):
        self.assertEqual(self.followed([page((), 0, clock=20)], 21), ([], ["21"]))
        # Events that were refused have moved the clock.
        self.assertEqual(self.followed([page((), 0, clock=30)], 21), ([([], 31)], ["21"]))
        # A ledger in which nothing was sent yet.
        self.assertEqual(self.followed([page((), 0, clock=0)]), ([([], 1)], ["0"]))

    def test_a_page_is_asked_for_when_the_one_before_is_dealt_with(self):
        with Fake([page((5,), 6), page((6,), 0)]) as fake:
            pages = fake.ledger().follow(0, 1)
            self.assertEqual(next(pages)[1], 6)
            self.assertEqual(len(fake.messages), 1)

    def test_an_older_ledger(self):
        with self.assertRaisesRegex(LedgerError, "the clock 20 is behind 40"):
            self.followed([page((), 0, clock=20)], 40)

    def test_refused(self):
        with Fake([say(refusal(401, "unknown_key"))]) as fake:
            with self.assertRaisesRegex(Refused, "unknown_key"):
                list(fake.ledger().follow())


if __name__ == "__main__":
    unittest.main()
