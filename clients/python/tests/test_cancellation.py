"""Cancellations of the client of asyncio: none is lost, none breaks the client, and each ends soon."""
import asyncio
import random
import time
import unittest

from table_case import ACQUIRE, ASK, RELEASE, SHARE, TableCase
from locks_client import AsyncClient, LocksError


class CancellationTest(TableCase, unittest.IsolatedAsyncioTestCase):
    def one(self, **how):
        return self.client(kind=AsyncClient, **how)

    async def test_a_cancellation_in_the_turn_of_its_answer_is_not_lost(self):
        """The reply is there, and the task that waits for it is cancelled before it runs again."""
        client, loop = self.one(), asyncio.get_running_loop()
        self.reply_late(client)
        for _ in range(20):
            with self.hearing(ACQUIRE):  # the reply arrives while this task runs
                holding = asyncio.create_task(self.hold(client))
                while not (client.stop_reading and self.node.heard[-1:] == [ACQUIRE] or holding.done()):
                    await asyncio.sleep(0)
            loop.call_soon(loop.call_soon, holding.cancel)
            with self.assertRaises(asyncio.CancelledError):
                await holding
            self.assertEqual(self.holders("db"), [])

    async def hold(self, client):
        """Holds the lock; a task that was cancelled does not come to its end."""
        async with client.lock("db"):
            await asyncio.sleep(30)

    async def test_no_cancellation_about_one_round_trip_after_the_start_is_lost(self):
        client, lost = self.one(), 0
        await client.ask("db")
        for _ in range(150):
            holding = asyncio.create_task(self.briefly(client))
            await asyncio.sleep(random.uniform(0.0, 0.002))
            is_cancelled = holding.cancel()
            try:
                await holding
                lost += is_cancelled
            except asyncio.CancelledError:
                pass
            self.assertEqual(self.holders("db"), [])
        self.assertEqual(lost, 0)

    async def briefly(self, client):
        """Holds the lock for a moment, and ends once the release was answered."""
        async with client.lock("db"):
            await asyncio.sleep(0.01)
        await asyncio.sleep(0.01)

    async def test_an_acquire_or_share_that_is_cancelled_is_withdrawn(self):
        client = self.one()
        client.cleanup = 30.0
        for take, body in ((client.acquire, ACQUIRE), (client.share, SHARE)):
            self.node.replies = lambda it: it != body  # it is granted, and the answer is lost
            taking = asyncio.create_task(take("db"))
            while self.node.done[-1:] != [body] and not taking.done():
                await asyncio.sleep(0.001)
            self.node.replies = lambda it: True
            taking.cancel()
            with self.assertRaises(asyncio.CancelledError):
                await taking
            self.assertEqual((self.holders("db"), client.is_open, client.core.grants), ([], False, {}))

    async def test_an_acquire_that_is_cancelled_without_an_answer_is_told(self):
        client = self.one()
        await client.ask("other")
        client.cleanup, self.node.takes = 0.2, lambda body: body == ASK
        with self.assertRaises(TimeoutError) as raised, self.assertLogs("locks_client", "WARNING"):
            async with asyncio.timeout(0.3):
                await client.acquire("db")
        self.assertRegex(raised.exception.__cause__.__notes__[0], "db was not released by client 7: no answer")
        self.node.takes = lambda body: True
        self.assertTrue(await client.withdraw("db"))

    async def test_a_cancelled_first_call_leaves_a_client_that_works(self):
        self.node.takes = lambda body: False  # so that the call is still under way when it is cancelled
        client = self.one()
        first = asyncio.create_task(client.acquire("db"))
        await asyncio.sleep(0)
        self.assertTrue(first.cancel())
        self.node.takes = lambda body: True
        with self.assertRaises(asyncio.CancelledError):
            await first
        self.assertEqual(await client.withdraw("db"), False)
        self.assertEqual(await client.acquire("db"), 1)

    async def test_a_lock_that_was_never_asked_for_is_given_up_at_once(self):
        self.node.takes = lambda body: False
        client, start = self.one(), time.monotonic()
        with self.assertRaises(TimeoutError) as raised, self.assertNoLogs("locks_client", "WARNING"):
            async with asyncio.timeout(0):
                await self.hold(client)
        self.assertFalse(hasattr(raised.exception.__cause__, "__notes__"))
        self.assertLess(time.monotonic() - start, 4.0)
        self.node.takes = lambda body: True
        self.assertEqual(await client.acquire("db"), 1)

    async def test_a_timeout_ends_soon_and_has_a_note(self):
        client = self.one(patience=30.0)
        await client.ask("other")
        self.node.takes = lambda body: body == ASK
        start = time.monotonic()
        with self.assertRaises(TimeoutError) as raised, self.assertLogs("locks_client", "WARNING"):
            async with asyncio.timeout(0.3):
                await self.hold(client)
        self.assertLess(time.monotonic() - start, 10.0)
        note = raised.exception.__cause__.__notes__[0]
        self.assertRegex(note, "db was not released by client 7: no answer.*it may stay held")
        self.node.takes = lambda body: True
        self.assertTrue(await client.withdraw("db"))

    def test_a_second_event_loop_goes_on(self):
        client = self.one()
        self.reply_late(client)

        async def hold():
            async with client.lock("db") as fence:
                return fence

        self.assertEqual([asyncio.run(hold()) for _ in range(3)], [1, 2, 3])
        self.assertEqual(self.holders("db"), [])
        client.close()
        self.assertTrue(client.numbers.is_closed)

    async def test_a_close_ends_a_call_that_waits(self):
        self.node.takes = lambda body: False
        client = self.one(patience=30.0)
        asking = asyncio.create_task(client.ask("db"))
        await asyncio.sleep(0.05)
        client.close()
        with self.assertRaisesRegex(LocksError, "closed"):
            await asyncio.wait_for(asking, 10.0)

    async def test_a_block_that_is_cancelled_while_it_releases_is_released_or_told(self):
        client = self.one()
        for _ in range(20):
            holding = asyncio.create_task(self.briefly(client))
            releases = self.node.heard.count(RELEASE)
            while self.node.heard.count(RELEASE) == releases and not holding.done():
                await asyncio.sleep(0)
            holding.cancel()
            with self.assertRaises(asyncio.CancelledError):
                await holding
            self.assertEqual(self.holders("db"), [])


if __name__ == "__main__":
    unittest.main()
