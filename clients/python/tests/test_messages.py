"""Messages, replies and records are those of docs/."""

import dataclasses
import re
import unittest

from cegarront import (
    MAX_128,
    Account,
    AccountFilter,
    AccountFlag,
    AccountResult,
    BadReply,
    Balance,
    Entry,
    EntryKind,
    EventsRefused,
    FilterFlag,
    Ledger,
    Outcome,
    PageFilter,
    QueryFilter,
    Refused,
    Side,
    Transfer,
    TransferFlag,
    TransferResult,
)
from cegarront.records import is_string

from . import pages
from .fake import (
    KEY,
    Fake,
    body_of,
    ok,
    refusal,
    reply_bytes,
    results,
    say,
    statement_bytes,
)

PAID = Transfer(id=100, debit_account_id=1, credit_account_id=2, amount=10, ledger=7, code=1)


def lines_of(message):
    head = message.partition(b"\r\n\r\n")[0].split(b"\r\n")
    return head[0], {line for line in head[1:]}


class Messages(unittest.TestCase):
    def test_the_worked_message_and_its_reply(self):
        wanted = pages.worked_message()
        with Fake([say(pages.worked_reply())]) as fake:
            ledger = fake.ledger()
            told = ledger.create_transfers([PAID])
        (sent,) = fake.messages
        self.assertEqual(body_of(sent), body_of(wanted))
        first, headers = lines_of(sent)
        self.assertEqual(first, lines_of(wanted)[0])
        host = f"Host: 127.0.0.1:{fake.port}".encode()
        own = {host, b"x-ledger-detail: 1"}
        self.assertEqual(headers, lines_of(wanted)[1] | own)
        self.assertEqual(told.clock, 3)
        (result,) = told
        self.assertEqual((result.number, result.name, result.timestamp), (0, "ok", 3))
        self.assertIs(result.outcome, Outcome.ACCEPTED)

    def test_each_route(self):
        asked = AccountFilter(account_id=9)
        empty = {"clock": "0", "next": "0", "results": [], "accounts": [], "transfers": [],
                 "balances": [], "pending": [], "events": 0}
        script = [say(ok(empty)) for _ in range(12)] + [say(statement_bytes(pages.statement()))]
        script.append(say(ok({"serving": True})))
        with Fake(script) as fake:
            ledger = fake.ledger()
            ledger.create_accounts([])
            ledger.create_transfers([])
            ledger.lookup_accounts([])
            ledger.lookup_transfers([])
            ledger.get_account_transfers(asked)
            ledger.get_account_balances(asked)
            ledger.query_accounts(QueryFilter())
            ledger.query_transfers(QueryFilter())
            ledger.lookup_pending([])
            ledger.lint_accounts([])
            ledger.lint_transfers([])
            ledger.open_pending()
            ledger.statement(9)
            self.assertTrue(ledger.health())
        sent = [re.match(rb"(\w+) (\S+) HTTP/1.1\r\n", each).groups() for each in fake.messages]
        wanted = [(method.encode(), path.replace("{account}", "9").encode())
                  for method, path in pages.routes()]
        self.assertEqual(sorted(sent), sorted(wanted))
        self.assertNotIn(b"content-length", fake.messages[-1])

    def test_bodies(self):
        with Fake([say(results(0)), say(results(0)), say(ok({"clock": "0", "accounts": []})),
                   say(ok({"clock": "0", "transfers": []}))]) as fake:
            ledger = fake.ledger()
            limits = AccountFlag.DEBITS_MUST_NOT_EXCEED_CREDITS | AccountFlag.HISTORY
            ledger.create_accounts([Account(id=MAX_128, ledger=2**32 - 1, code=3, flags=limits)])
            ledger.create_transfers([Transfer(id=102, pending_id=101, amount=1500, timestamp=1,
                                              flags=TransferFlag.POST_PENDING_TRANSFER)])
            ledger.lookup_accounts([1, MAX_128])
            ledger.get_account_transfers(AccountFilter(1, timestamp_max=2**62, limit=10,
                                                       flags=FilterFlag.NEWEST_FIRST))
        self.assertEqual([body_of(each) for each in fake.messages], [
            b'[{"id":"340282366920938463463374607431768211455","ledger":4294967295,"code":3,'
            b'"flags":10}]',
            b'[{"id":"102","amount":"1500","pending_id":"101","flags":4,"timestamp":"1"}]',
            b'["1","340282366920938463463374607431768211455"]',
            b'{"account_id":"1","timestamp_max":"4611686018427387904","limit":10,"flags":4}'])

    def test_each_refusal_has_its_name_and_is_not_sent_again(self):
        listed = pages.refusals()
        self.assertEqual(len(listed), 15)
        for status, name in listed:
            if name == "unavailable":
                continue
            with self.subTest(name), Fake([say(refusal(status, name))]) as fake:
                with self.assertRaises(Refused) as raised:
                    fake.ledger().create_transfers([PAID])
                self.assertEqual((raised.exception.status, raised.exception.name), (status, name))
                self.assertFalse(raised.exception.may_be_booked)
                self.assertEqual(len(fake.messages), 1)

    def test_a_path_of_a_proxy(self):
        with Fake([say(results())]) as fake:
            fake.ledger("/ledger/").create_transfers([])
        self.assertTrue(fake.messages[0].startswith(b"POST /ledger/transfers HTTP/1.1\r\n"))


class Replies(unittest.TestCase):
    def told(self, reply, call):
        with Fake([say(reply)]) as fake:
            return call(fake.ledger())

    def test_records(self):
        account = {"code": 3, "credits_pending": "0", "credits_posted": "5000",
                   "debits_pending": "1000", "debits_posted": str(MAX_128), "flags": 10, "id": "3",
                   "ledger": 978, "timestamp": "1795377586131771809", "user_data_128": "7",
                   "user_data_32": 8, "user_data_64": "9"}
        page = self.told(ok({"accounts": [account], "clock": "12"}),
                         lambda ledger: ledger.lookup_accounts([3]))
        self.assertEqual(page.clock, 12)
        self.assertEqual(page.items, (Account(
            id=3, ledger=978, code=3, flags=AccountFlag(10), user_data_128=7, user_data_64=9,
            user_data_32=8, debits_pending=1000, debits_posted=MAX_128, credits_pending=0,
            credits_posted=5000, timestamp=1795377586131771809),))
        balance = {"credits_pending": "1", "credits_posted": "2", "debits_pending": "3",
                   "debits_posted": "4", "timestamp": "5"}
        page = self.told(ok({"balances": [balance], "clock": "12"}),
                         lambda ledger: ledger.get_account_balances(AccountFilter(3)))
        self.assertEqual(page[0], Balance(timestamp=5, debits_pending=3, debits_posted=4,
                                          credits_pending=1, credits_posted=2))

    def test_a_statement(self):
        entries = self.told(statement_bytes(pages.statement()),
                            lambda ledger: list(ledger.statement(1)))
        self.assertEqual(entries, [Entry(3, 100, Side.DEBIT, EntryKind.SINGLE, 10, 0, 10, 0, 0)])

    def test_a_statement_of_several_chunks(self):
        for many in (0, 1, 500, 501, 1000, 1001):
            with self.subTest(many):
                entries = self.told(statement_bytes(*pages.long_statement(many)),
                                    lambda ledger: list(ledger.statement(1)))
                self.assertEqual(entries, [
                    Entry(place, 99 + place, Side.DEBIT, EntryKind.SINGLE, 10, 0, 10 * place, 0, 0)
                    for place in range(1, many + 1)])

    def test_what_no_ledger_answers(self):
        replies = [
            reply_bytes(200, b"<html>"), ok([]), ok({"clock": "1"}), reply_bytes(404, b"<html>"),
            ok({"clock": 1, "results": []}), ok({"clock": "1", "results": {}}),
            ok({"clock": "1", "results": []}), ok({"clock": "-1", "results": [1]}),
            ok({"clock": "1", "results": [{"number": "0", "result": "ok", "timestamp": "1"}]}),
            ok({"clock": "1", "results": [{"number": 0, "result": "ok", "timestamp": 1}]})]
        for reply in replies:
            with self.subTest(reply), self.assertRaises(BadReply) as raised:
                self.told(reply, lambda ledger: ledger.create_transfers([PAID]))
            self.assertTrue(raised.exception.may_be_booked)

    def test_what_failed_first_is_told_first(self):
        told = self.told(results(0, 2, 55, 2, 44), lambda ledger: ledger.create_transfers(
            [PAID, *[dataclasses.replace(PAID, id=each, flags=TransferFlag.LINKED)
                     for each in (1, 2)], dataclasses.replace(PAID, id=3),
             dataclasses.replace(PAID, id=4)]))
        with self.assertRaises(EventsRefused) as raised:
            told.raise_for_refused()
        self.assertEqual(str(raised.exception), "event 2: result_55, one of 4 events refused")
        self.assertEqual([place for place, _ in raised.exception.refused], [1, 2, 3, 4])

    def test_a_result_of_a_later_version(self):
        reply = ok({"clock": "1", "results": [
            {"number": 61, "result": "account_closed", "timestamp": "1", "more": True}]})
        (result,) = self.told(reply, lambda ledger: ledger.create_transfers([PAID]))
        self.assertEqual((result.number, result.name, result.outcome),
                         (61, "account_closed", Outcome.REFUSED))


class Tables(unittest.TestCase):
    def test_results(self):
        for kind, names in zip((AccountResult, TransferResult), pages.result_names()):
            self.assertEqual({int(each): each.name.lower() for each in kind}, names)

    def test_flags(self):
        for kind, name in ((AccountFlag, "Account"), (TransferFlag, "Transfer")):
            told = {each.value.bit_length() - 1: each.name.lower() for each in kind}
            self.assertEqual(told, pages.flags(name))

    def test_fields(self):
        told = pages.objects()
        for name, kind in (("account", Account), ("transfer", Transfer), ("filter", AccountFilter),
                           ("query", QueryFilter), ("page", PageFilter)):
            names = {each.name for each in dataclasses.fields(kind)}
            strings = {each for each in names if is_string(each)}
            self.assertEqual((strings, names - strings), told[name])


class BeforeSending(unittest.TestCase):
    def test_numbers(self):
        for value in (1.0, "1", None, True):
            with self.subTest(value), self.assertRaisesRegex(TypeError, "Transfer.amount: "):
                Transfer(id=1, amount=value)
        for name, bits in (("id", 128), ("amount", 128), ("user_data_64", 64), ("timeout", 32),
                           ("ledger", 32), ("code", 16)):
            Transfer(**{"id": 1, name: 2**bits - 1})
            for value in (-1, 2**bits):
                with self.subTest(name), self.assertRaisesRegex(ValueError, f"Transfer.{name}: "):
                    Transfer(**{"id": 1, name: value})
        for limit in (0, 1001):
            with self.assertRaisesRegex(ValueError, "limit"):
                AccountFilter(1, limit=limit)
        with self.assertRaisesRegex(ValueError, "flags"):
            AccountFilter(1, flags=FilterFlag(8))

    def test_nothing_is_sent(self):
        with Fake([]) as fake:
            ledger = fake.ledger()
            with self.assertRaisesRegex(ValueError, "1001 events"):
                ledger.create_transfers([PAID] * 1001)
            with self.assertRaisesRegex(ValueError, "1001 events"):
                ledger.create_accounts(Account(each, 1, 1) for each in range(1, 1002))
            with self.assertRaisesRegex(ValueError, "1001 ids"):
                ledger.lookup_transfers(range(1001))
            with self.assertRaisesRegex(ValueError, r"ids\[1\]"):
                ledger.lookup_accounts([1, -1])
            with self.assertRaisesRegex(TypeError, "no Transfer"):
                ledger.create_transfers([Account(1, 1, 1)])
            with self.assertRaises(TypeError):
                ledger.statement("1")
        self.assertEqual(fake.connections, 0)

    def test_a_ledger(self):
        for key in ("0" * 63, "0" * 65, "g" * 64, "0" * 64 + "\n"):
            with self.assertRaises(ValueError) as raised:
                Ledger("http://127.0.0.1:1", key)
            self.assertNotIn(key.strip(), str(raised.exception))
        for url in ("127.0.0.1:8080", "ftp://host", "http://", "http://u:p@host", "http://host/?x"):
            with self.subTest(url), self.assertRaises(ValueError):
                Ledger(url, KEY)
        self.assertNotIn(KEY, repr(Ledger("http://127.0.0.1:1", KEY)))


if __name__ == "__main__":
    unittest.main()
