"""The client of asyncio, against nodes that the tests script."""
import asyncio
import unittest

from fake_node import (
    ACQUIRE,
    BUSY,
    GRANTED,
    OTHERS,
    RELEASE,
    RELEASED,
    Node,
    elsewhere,
    numbered,
    once,
    plain,
    polling,
    waiting,
)
from locks_client import AsyncClient, Busy, NoAnswer, Unanswered


class AsyncClientTest(unittest.IsolatedAsyncioTestCase):
    def setUp(self):
        self.enterContext(once())

    def client(self, *ports, patience=30.0):
        client = AsyncClient(5, 7, ports, first=1, patience=patience)
        client.core.has_begun = True
        self.addCleanup(client.close)
        self.addCleanup(client.core.forget)  # before that, since some of these tests leave a lock held
        return client

    async def test_the_exchange_of_the_page(self):
        node = Node([*OTHERS, GRANTED], [RELEASED])
        async with self.client(node.port) as client, client.lock("db") as fence:
            self.assertEqual(fence, 1)
        self.assertEqual(node.heard, [plain(ACQUIRE), plain(RELEASE)])

    async def test_elsewhere_is_followed_and_silence_is_not_waited_for(self):
        with waiting(0.1, 60.0):
            leader = Node([GRANTED])
            self.assertEqual(await self.client(Node([]).port, Node([elsewhere(leader.port)]).port).acquire("db"), 1)

    async def test_nobody_answers(self):
        with self.assertRaises(NoAnswer):
            await self.client(Node([]).port, patience=0.2).acquire("db")

    async def test_a_refusal_is_raised(self):
        with self.assertRaises(Busy) as busy:
            await self.client(Node([BUSY]).port).acquire("db")
        self.assertEqual((busy.exception.holder, busy.exception.fence), (8, 3))

    async def test_a_lock_is_waited_for_while_other_tasks_run(self):
        with polling(0.05):
            node = Node([BUSY], [numbered(BUSY, 2)], [numbered(GRANTED, 3)])
            fence, _ = await asyncio.gather(self.client(node.port).acquire("db", wait=30.0), asyncio.sleep(0))
        self.assertEqual(fence, 1)

    async def test_a_cancelled_acquire_is_withdrawn(self):
        node = Node([], [GRANTED], [RELEASED])
        client = self.client(node.port)

        async def holds():
            async with client.lock("db"):
                self.fail("the lock was not granted")

        client.cleanup = 30.0
        with self.assertRaises(TimeoutError):
            await asyncio.wait_for(holds(), 0.2)
        self.assertEqual(node.heard, [plain(ACQUIRE), plain(ACQUIRE), plain(RELEASE)])

    async def test_a_cancelled_block_releases(self):
        node = Node([GRANTED], [RELEASED])
        client, is_held = self.client(node.port), asyncio.Event()

        async def holds():
            async with client.lock("db"):
                is_held.set()
                await asyncio.sleep(60)

        holding = asyncio.create_task(holds())
        await is_held.wait()
        with self.assertRaises(TimeoutError):
            await asyncio.wait_for(holding, 0.0)
        self.assertEqual(node.heard, [plain(ACQUIRE), plain(RELEASE)])

    async def test_two_calls_at_once_are_refused(self):
        node = Node([], [GRANTED])
        client = self.client(node.port)
        with waiting(0.5, 60.0):
            first = asyncio.create_task(client.acquire("db"))
            await asyncio.sleep(0)
            with self.assertRaises(Unanswered):
                await client.ask("db")
            self.assertEqual(await first, 1)


if __name__ == "__main__":
    unittest.main()
