"""What cases cannot show of the form for asyncio: concurrent tasks, and cancelled calls."""

import asyncio
import socket
import threading
import time
import unittest

from cegarront import AsyncLedger, Outcome, Transfer, Unanswered

from .fake import KEY, Fake, ok, read_message, results, say
from .test_connections import Echo

EMPTY = ok({"accounts": [], "clock": "5"})
PAID = Transfer(id=100, debit_account_id=1, credit_account_id=2, amount=10, ledger=7, code=1)


class Silent:
    """Reads one message, does not answer, and records how the client leaves."""

    def __init__(self):
        self.listener = socket.create_server(("127.0.0.1", 0))
        self.url = f"http://127.0.0.1:{self.listener.getsockname()[1]}"
        self.came, self.left, self.how = threading.Event(), threading.Event(), None
        threading.Thread(target=self.serve, daemon=True).start()

    def serve(self):
        connection, _ = self.listener.accept()
        with connection, self.listener:
            read_message(connection)
            self.came.set()
            try:
                connection.recv(1)
                self.how = "end"
            except ConnectionResetError:
                self.how = "reset"
            self.left.set()


class Tasks(unittest.IsolatedAsyncioTestCase):
    async def test_each_gets_its_own_reply(self):
        with Echo() as fake:
            async with AsyncLedger(fake.url, KEY, max_idle=5, connections=4) as ledger:
                async def ask(place):
                    for each in range(20):
                        number = place * 100 + each + 1
                        (found,) = await ledger.lookup_transfers([number])
                        self.assertEqual(found.id, number)
                await asyncio.gather(*(ask(place) for place in range(16)))
            self.assertEqual(len(fake.messages), 320)
            self.assertLessEqual(fake.connections, 4)

    async def test_who_finds_all_connections_busy_waits_until_the_deadline(self):
        ledger = AsyncLedger(Silent().url, KEY, deadline=0.5)
        ledger._transport._slots = asyncio.Semaphore(0)
        with self.assertRaises(Unanswered) as raised:
            await ledger.create_transfers([PAID])
        self.assertFalse(raised.exception.may_be_booked)

    async def test_a_batch_without_an_answer_by_the_deadline_may_be_booked(self):
        ledger = AsyncLedger(Silent().url, KEY, deadline=2)
        with self.assertRaises(Unanswered) as raised:
            await ledger.create_transfers([PAID])
        self.assertTrue(raised.exception.may_be_booked)

    async def test_a_call_that_is_cancelled_resets_its_connection(self):
        silent = Silent()
        ledger = AsyncLedger(silent.url, KEY)
        call = asyncio.create_task(ledger.create_transfers([PAID]))
        await asyncio.to_thread(silent.came.wait, 10)
        call.cancel()
        with self.assertRaises(asyncio.CancelledError):
            await call
        await asyncio.to_thread(silent.left.wait, 10)
        self.assertEqual(silent.how, "reset")

    async def test_bytes_of_no_reply_end_a_kept_connection(self):
        with Fake([say(EMPTY + b"HTTP/1.1 200"), say(results(18))]) as fake:
            async with AsyncLedger(fake.url, KEY) as ledger:
                await ledger.lookup_accounts([1])
                await asyncio.sleep(0.1)
                (result,) = await ledger.create_transfers([PAID])
            self.assertEqual(fake.places, [1, 2])
        self.assertIs(result.outcome, Outcome.EXISTED)

    async def test_one_that_was_idle_for_too_long_is_not_used(self):
        with Fake([say(EMPTY)] * 3) as fake:
            async with AsyncLedger(fake.url, KEY, max_idle=0.2) as ledger:
                await ledger.lookup_accounts([1])
                await ledger.lookup_accounts([1])
                await asyncio.sleep(0.25)
                await ledger.lookup_accounts([1])
            self.assertEqual(fake.places, [1, 1, 2])

    async def test_others_run_while_one_waits(self):
        with Fake([say(EMPTY)]) as fake:
            silent = Silent()
            waiting = asyncio.create_task(
                AsyncLedger(silent.url, KEY, deadline=2).lookup_accounts([1]))
            begun = time.monotonic()
            async with AsyncLedger(fake.url, KEY) as ledger:
                await ledger.lookup_accounts([1])
            self.assertLess(time.monotonic() - begun, 1.5)
            with self.assertRaises(Unanswered):
                await waiting


if __name__ == "__main__":
    unittest.main()
