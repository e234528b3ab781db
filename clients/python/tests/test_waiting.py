"""Waiting without polling, against nodes with a queue: each way to wait, and notices that are lost, forged or late."""
import asyncio
import os
import signal
import socket
import subprocess
import sys
import tempfile
import threading
import time
import unittest
import warnings

from fake_node import FREE_NEWS
from table_case import ACQUIRE, QueueNode, Table
from locks_client import AsyncClient, Busy, Client
from locks_client.seals import client_key

KEY = client_key(bytes(32), 7)


def notice_to(watch, news, place=1, node=1):
    """The notice that says so to a watch."""
    front = b"LW\x01\x0a" + watch[4:12] + node.to_bytes(4, "big")
    return front + watch[16:68] + bytes([news]) + place.to_bytes(2, "big")


class WaitingCase(unittest.TestCase):
    def setUp(self):
        self.enterContext(warnings.catch_warnings())
        warnings.simplefilter("ignore", ResourceWarning)  # some of these tests leave their locks held
        self.node = self.queue_node()

    def queue_node(self, **how):
        node = QueueNode(**how)
        self.addCleanup(node.stop)
        return node

    def client(self, number=7, kind=Client, first=1, node=None, **how):
        client = kind(5, number, [(node or self.node).port], first=first, patience=30.0, **how)
        self.addCleanup(client.close)
        self.addCleanup(client.core.forget)
        return client

    def hold(self, seconds, name="db"):
        """Client 9 holds the lock for so long, a minute for as long as the test lasts."""
        table, node = self.node.table, self.node
        table.holders[name], table.fences[name] = (9,), 1
        if seconds < 60.0:
            timer = threading.Timer(seconds, table.holders.pop, (name,))
            timer.start()
            self.addCleanup(timer.join)
        return node

    def wait_for(self, is_so):
        """Waits until that is so."""
        end = time.monotonic() + 30.0
        while not is_so():
            self.assertLess(time.monotonic(), end)
            time.sleep(0.01)

    def last_periods(self):
        """How long the last watch lives that the node has heard."""
        return self.node.watched[-1][68] if self.node.watched else None

    def asked(self):
        """How often the lock was asked for."""
        return self.node.heard.count(ACQUIRE)

    def run_hold(self, *options):
        """The program, which waits for the lock."""
        known = ["--cluster", "5", "--client", "7", "--first", "1", "--port", str(self.node.port), "--patience", "30"]
        words = [*known, *options, "hold", "db", "--", "sh", "-c", "echo $LOCKS_FENCE"]
        command = [sys.executable, "-m", "locks_client", *words]
        process = subprocess.Popen(command, stdout=subprocess.PIPE, text=True)
        self.addCleanup(process.communicate)
        self.addCleanup(process.kill)
        return process


class WaitingTest(WaitingCase):
    """A lock that is held for two seconds would be asked for seven times by polls alone."""

    def test_each_way_to_wait_asks_again_at_a_notice(self):
        def held(client):
            with client.lock("db") as fence:
                return fence

        for number, take in ((7, lambda it: it.acquire("db", wait=30.0)), (8, held)):
            self.hold(2.0)
            before, start = self.asked(), time.monotonic()
            self.assertEqual(take(self.client(number)), 2)
            self.assertGreater(time.monotonic() - start, 1.5)
            self.assertLessEqual(self.asked() - before, 3)
            self.node.table.holders.clear()

    def test_tasks_wait(self):
        async def held():
            async with self.client(kind=AsyncClient).lock("db") as fence:
                return fence

        self.hold(2.0)
        self.assertEqual(asyncio.run(held()), 2)
        self.assertLessEqual(self.asked(), 3)

    def test_the_program_waits(self):
        self.hold(2.0)
        process = self.run_hold()
        self.assertEqual((process.communicate(timeout=60)[0], process.returncode), ("2\n", 0))
        self.assertLessEqual(self.asked(), 3)

    def test_a_program_that_a_signal_ends_withdraws(self):
        self.hold(60.0)
        process = self.run_hold()
        self.wait_for(lambda: self.last_periods() == 20)
        process.send_signal(signal.SIGTERM)
        self.assertEqual(process.wait(timeout=60), 128 + signal.SIGTERM)
        self.wait_for(lambda: self.last_periods() == 0)

    def test_a_wait_that_is_interrupted_or_cancelled_is_withdrawn(self):
        self.hold(60.0)
        client = self.client()
        receive = client.receive

        def interrupted(until):
            if self.last_periods() == 20:
                client.receive = receive
                raise KeyboardInterrupt
            return receive(until)

        client.receive = interrupted
        with self.assertRaises(KeyboardInterrupt), client.lock("db"):
            self.fail("the lock is held")
        self.wait_for(lambda: self.last_periods() == 0)
        asyncio.run(self.cancelled())
        self.wait_for(lambda: self.last_periods() == 0)
        self.assertFalse(any(it.waits for it in self.node.queue.entries))

    async def cancelled(self):
        """A wait of asyncio that is cancelled."""
        client, watched = self.client(8, AsyncClient), len(self.node.watched)
        waiting = asyncio.create_task(client.acquire("db", wait=60.0))
        while len(self.node.watched) == watched:
            await asyncio.sleep(0.01)
        waiting.cancel()
        with self.assertRaises(asyncio.CancelledError):
            await waiting

    def test_an_interrupted_wait_by_hand_is_watched_no_more(self):
        self.hold(60.0)
        client = self.client()

        def interrupted(until):
            del client.receive
            raise KeyboardInterrupt

        client.ask("db")
        client.core.waiter = None
        receive = client.receive
        client.receive = lambda until: receive(until) if self.last_periods() is None else interrupted(until)
        with self.assertRaises(KeyboardInterrupt):
            client.acquire("db", wait=60.0)
        watched, end = len(self.node.watched), time.monotonic() + 1.2
        while time.monotonic() < end:
            client.ask("other")
        self.assertEqual(len(self.node.watched), watched)
        self.assertFalse(client.withdraw("db"))
        self.wait_for(lambda: self.last_periods() == 0)

    def test_repeated_late_and_reordered_notices_bring_nothing(self):
        letters = []

        def posts(new):
            letters.extend(new)
            return [*new, *letters[::-1]][:40]

        self.node.posts = posts
        self.hold(2.0)
        self.assertEqual(self.client().acquire("db", wait=30.0), 2)
        self.assertLessEqual(self.asked(), 3)

    def test_a_notice_of_an_earlier_watch_or_from_elsewhere_is_dropped(self):
        self.hold(60.0)
        client = self.client()
        waiting = threading.Thread(target=lambda: self.assertRaises(Busy, client.acquire, "db", wait=2.0))
        waiting.start()
        self.wait_for(lambda: self.node.watched)
        with socket.socket(socket.AF_INET, socket.SOCK_DGRAM) as other:
            for _ in range(50):
                other.sendto(notice_to(self.node.watched[-1], FREE_NEWS), client.socket.getsockname())
                earlier = bytearray(notice_to(self.node.watched[-1], FREE_NEWS))
                earlier[18:26] = (int.from_bytes(earlier[18:26], "big") - 1).to_bytes(8, "big")
                self.node.socket.sendto(earlier, client.socket.getsockname())
                time.sleep(0.01)
        self.assertLessEqual(self.asked(), 2)
        waiting.join()

    def test_with_a_key_both_are_sealed(self):
        path = os.path.join(self.enterContext(tempfile.TemporaryDirectory()), "key")
        with open(os.open(path, os.O_CREAT | os.O_WRONLY, 0o600), "w", encoding="ascii") as file:
            file.write(KEY.hex() + "\n")
        self.node = self.queue_node(key=KEY)
        self.hold(2.0)
        client, forged = self.client(key=path), []
        self.node.posts = lambda letters: forged.extend(letters) or letters
        waiting = threading.Thread(target=client.acquire, args=("db", 30.0))
        waiting.start()
        self.wait_for(lambda: self.node.watched)
        bare = notice_to(self.node.watched[-1], FREE_NEWS)
        for _ in range(20):
            self.node.socket.sendto(bare, client.socket.getsockname())
            time.sleep(0.01)
        self.assertLessEqual(self.asked(), 2)
        waiting.join()
        self.assertEqual((self.node.table.holders["db"], self.asked() <= 3), ((7,), True))

    def test_another_node_that_leads_is_asked(self):
        table = Table()
        old, new = self.queue_node(table=table), self.queue_node(table=table, number=2, leads=False)
        table.holders["db"], table.fences["db"] = (9,), 1
        with Client(5, 7, [old.port, new.port], first=1, patience=30.0) as client:
            waiting = threading.Thread(target=client.acquire, args=("db", 30.0))
            waiting.start()
            self.wait_for(lambda: old.watched and new.watched)
            self.assertEqual(old.watched[0], new.watched[0])
            old.stop()
            new.leads = True
            table.holders.clear()
            waiting.join(10.0)
            self.assertFalse(waiting.is_alive())
            self.assertIn(ACQUIRE, new.heard)
            client.core.forget()


class PollingTest(WaitingCase):
    """A client that wants no notices sends no watch to a node that knows them: neither waiting nor after a release."""

    def client(self, number=7, **how):
        return super().client(number, notices=False, **how)

    def hold(self, seconds=60.0, name="db"):
        """Client 9 holds the lock until it was asked for five times more."""
        before = self.asked()

        def takes(body):
            if body == ACQUIRE and self.asked() == before + 5:
                self.node.table.holders.pop(name)
            return True

        self.node.takes = takes
        return super().hold(seconds, name)

    def check_no_watch(self):
        self.assertEqual((self.node.watched, self.node.sent), ([], []))

    def test_a_client_sends_requests_only(self):
        self.hold()
        client = self.client()
        for take in (client.lock, client.lock, lambda name: client.lock_all([name, "other"])):
            with take("db") as held:
                pass
        self.assertEqual(held, {"db": 4, "other": 1})
        self.hold()
        with self.assertRaises(Busy):
            client.share("db", wait=0.5)
        self.check_no_watch()

    def test_a_client_of_asyncio_sends_requests_only(self):
        async def held(client):
            for take in (client.lock, client.lock, lambda name: client.lock_all([name, "other"])):
                async with take("db") as held:
                    pass
            return held

        self.hold()
        self.assertEqual(asyncio.run(held(self.client(kind=AsyncClient))), {"db": 4, "other": 1})
        self.check_no_watch()

    def test_the_program_sends_requests_only(self):
        self.hold()
        process = self.run_hold("--no-notices")
        self.assertEqual((process.communicate(timeout=60)[0], process.returncode), ("2\n", 0))
        self.check_no_watch()


if __name__ == "__main__":
    unittest.main()
