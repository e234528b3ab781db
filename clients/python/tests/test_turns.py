"""Calls of one client beside and within each other."""
import asyncio
import contextlib
import gc
import os
import threading
import time
import unittest

from table_case import ASK, TableCase
from locks_client import AsyncClient, LocksError, NoAnswer, Unanswered


class Box:
    """What a cycle is made of."""


class TurnsTest(TableCase):
    @contextlib.contextmanager
    def checking(self, client):
        """A thread checks without a pause while the block runs."""
        is_over = threading.Event()

        def check():
            while not is_over.is_set():
                with contextlib.suppress(Unanswered):
                    client.check("db", 1)

        thread = threading.Thread(target=check)
        thread.start()
        try:
            yield
        finally:
            is_over.set()
            thread.join()

    def test_a_release_waits_for_a_call_of_another_thread(self):
        client = self.client()
        for fence in range(1, 11):
            hold = client.lock("db")
            self.assertEqual(hold.__enter__(), fence)
            with self.checking(client):
                time.sleep(0.02)
                hold.__exit__(None, None, None)
                self.assertEqual(self.holders("db"), [])

    def test_a_failing_block_releases_beside_a_call_of_another_thread(self):
        client = self.client()
        client.ask("db")
        self.node.takes = lambda body: body != ASK
        beside = threading.Thread(target=lambda: self.assertRaises(Exception, client.ask, "other"))
        with self.assertRaises(KeyError), client.lock("db"):
            client.patience = 1.0
            with self.hearing(ASK):
                beside.start()
            client.patience = 30.0
            raise KeyError
        beside.join()
        self.assertEqual(self.holders("db"), [])

    def test_a_release_and_a_withdrawal_by_hand_wait_for_a_call_of_another_thread(self):
        client = self.client(patience=30.0)
        fence = client.acquire("db")
        for call in (lambda: self.assertRaisesRegex(LocksError, "holds db at fence 1", client.withdraw, "db"),
                     lambda: client.release("db", fence)):
            self.node.takes = lambda body: body != ASK
            beside = threading.Thread(target=client.ask, args=("other",))
            with self.hearing(ASK):
                beside.start()
            answering = threading.Timer(0.2, setattr, (self.node, "takes", lambda body: True))
            answering.start()
            call()
            beside.join()
        self.assertEqual(self.holders("db"), [])

    def test_a_call_lets_those_go_first_that_wait_to_release(self):
        client = self.client()
        client.ask("db")
        client.releasing.add(0)  # a thread that waits, while no call is under way
        with self.assertRaisesRegex(Unanswered, "another thread is in a call"):
            client.ask("db")
        client.releasing.discard(0)
        client.ask("db")

    def test_a_release_waits_no_longer_than_patience(self):
        client = self.client(patience=3.0)
        client.ask("db")
        self.node.takes = lambda body: body != ASK
        with self.assertRaises(Unanswered) as raised, self.assertLogs("locks_client", "WARNING"), client.lock("db"):
            beside = threading.Thread(target=lambda: self.assertRaises(Exception, client.ask, "other"))
            with self.hearing(ASK):
                beside.start()
            client.patience = 0.2
        self.assertIn("db was not released at fence 1 by client 7", raised.exception.__notes__[0])
        beside.join()

    def test_a_guard_that_is_collected_within_a_call_is_told_and_harms_nothing(self):
        client = self.client()
        box = Box()
        box.hold, box.me = client.lock("lost"), box
        box.hold.__enter__()
        del box
        receive = client.receive

        def collecting(until):
            client.receive = receive
            gc.collect()
            return receive(until)

        client.receive = collecting
        with self.assertLogs("locks_client", "WARNING") as logs:
            self.assertEqual(client.acquire("db"), 1)
        self.assertIn("lost was not released at fence 1 by client 7: a call of this client", logs.output[0])
        client.release("lost", 1)

    def test_a_child_that_is_forked_within_a_call_is_refused_at_once(self):
        client = self.client(patience=2.0)
        client.ask("db")
        self.node.takes = lambda body: False
        beside = threading.Thread(target=lambda: self.assertRaises(NoAnswer, client.ask, "other"))
        with self.hearing(ASK):
            beside.start()
        reader, writer = os.pipe()
        if os.fork() == 0:
            try:
                client.release("db", 1)
            except Exception as error:
                os.write(writer, type(error).__name__.encode())
            os._exit(0)
        os.close(writer)
        os.wait()
        with os.fdopen(reader) as said:
            self.assertEqual(said.read(), "Forked")
        beside.join()

    def test_a_call_within_a_call_is_refused(self):
        client = self.client()
        client.receive = lambda until: client.ask("other")
        with self.assertRaisesRegex(Unanswered, "under way in this thread"):
            client.acquire("db")


class AsyncTurnsTest(TableCase, unittest.IsolatedAsyncioTestCase):
    async def test_a_release_waits_for_a_call_of_another_task(self):
        client = self.client(kind=AsyncClient)

        async def check():
            while True:
                try:
                    await client.check("db", 1)
                except Unanswered:
                    await asyncio.sleep(0.001)

        await client.ask("db")
        for fence in range(1, 11):
            async with client.lock("db") as found:
                task = asyncio.create_task(check())
                self.assertEqual(found, fence)
                await asyncio.sleep(0.01)
            task.cancel()
            await asyncio.wait([task])
            if client.is_open:
                await client.again()
            self.assertEqual(self.holders("db"), [])

    async def test_a_failing_block_releases_beside_a_call_of_another_task(self):
        client = self.client(kind=AsyncClient)
        await client.ask("db")
        self.node.takes = lambda body: body != ASK
        with self.assertRaises(KeyError):
            async with client.lock("db"):
                client.patience = 1.0
                with self.hearing(ASK):
                    asking = asyncio.create_task(client.ask("other"))
                    await asyncio.sleep(0)
                client.patience = 30.0
                raise KeyError
        with self.assertRaises(NoAnswer):
            await asking
        self.assertEqual(self.holders("db"), [])

    async def test_a_cancelled_release_lets_the_next_one_go_on(self):
        client = self.client(kind=AsyncClient)
        one, two = await client.acquire("one"), await client.acquire("two")
        self.node.takes = lambda body: body != ASK
        asking = asyncio.create_task(client.ask("db"))
        await asyncio.sleep(0.05)
        first, second = (asyncio.create_task(client.release(*it)) for it in (("one", one), ("two", two)))
        await asyncio.sleep(0.05)
        first.cancel()
        self.node.takes = lambda body: True
        await asyncio.gather(asking, second)
        self.assertEqual((self.holders("one"), self.holders("two")), ([7], []))


if __name__ == "__main__":
    unittest.main()
