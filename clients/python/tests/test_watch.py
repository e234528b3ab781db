"""A lock that is watched while it is held, several locks at once, and keys and ports that change meanwhile."""
import asyncio
import os
import tempfile
import threading
import time
import unittest
from unittest import mock

from table_case import CHECK, TableCase, TableNode
from locks_client import AsyncClient, Busy, LocksError, NoAnswer, NotHeld, asynchronous, client
from locks_client.seals import client_key


class WatchTest(TableCase):
    def setUp(self):
        super().setUp()
        for module in (client, asynchronous):
            self.enterContext(mock.patch.object(module, "WATCH_EVERY", 0.05))

    def test_a_loss_is_told_once(self):
        told, is_told = [], threading.Event()

        def lost(name, fence):
            told.append((name, fence))
            is_told.set()

        with self.assertRaises(NotHeld), self.assertLogs("locks_client", "WARNING"):
            with self.client().lock("db", on_lost=lost) as fence:
                self.client(8).break_lock("db", fence)
                self.assertTrue(is_told.wait(20.0))
                time.sleep(0.3)
        self.assertEqual(told, [("db", 1)])

    def test_a_hold_that_ends_is_no_loss(self):
        told, one = [], self.client()
        for _ in range(20):
            with one.lock("db", on_lost=lambda *it: told.append(it)):
                time.sleep(0.06)
        time.sleep(0.2)
        self.assertEqual((told, self.holders("db"), one.watches), ([], [], set()))

    def test_a_check_whose_turn_comes_after_the_hold_refuses_no_call(self):
        one = self.client()
        with one.lock("db", on_lost=print):
            with one.guard:  # the check waits for its turn
                self.wait_for(lambda: one.releasing)
        for _ in range(20):
            one.ask("other")
        self.assertEqual(self.holders("db"), [])

    def test_calls_beside_a_watch_wait_for_it(self):
        one = self.client()
        with one.lock("db", on_lost=print):
            end = time.monotonic() + 20.0
            while self.node.heard.count(CHECK) < 3 and time.monotonic() < end:
                one.ask("other")
        self.assertGreater(self.node.heard.count(CHECK), 2)

    def test_a_check_goes_before_other_calls(self):
        one = self.client()
        with one.lock("db", on_lost=print):
            with one.guard:  # another call is under way
                self.wait_for(lambda: one.releasing)
            self.wait_for(lambda: CHECK in self.node.heard)

    def test_no_answer_is_no_loss(self):
        told, one = [], self.client()
        with one.lock("db", on_lost=lambda *it: told.append(it)):
            self.node.takes = lambda body: body != CHECK
            time.sleep(1.5)
            self.assertEqual(one.ask("db").fence, 1)
        self.assertEqual((told, self.holders("db")), ([], []))

    def test_a_check_that_fails_is_made_again(self):
        is_told, one = threading.Event(), self.client()
        is_valid, failing = one.core.is_valid, iter(range(3))

        def check(name, fence):
            if next(failing, None) is not None:
                raise LocksError("of this check")
            return is_valid(name, fence)

        one.core.is_valid = check
        with self.assertRaises(NotHeld), self.assertLogs("locks_client", "WARNING"):
            with one.lock("db", on_lost=lambda *it: is_told.set()):
                self.client(8).break_lock("db", 1)
                self.assertTrue(is_told.wait(20.0))

    def test_a_failing_call_back_is_logged(self):
        def lost(name, fence):
            raise KeyError(name)

        with self.assertLogs("locks_client", "ERROR") as logs, self.assertRaises(NotHeld):
            with self.client().lock("db", on_lost=lost):
                self.client(8).break_lock("db", 1)
                while not logs.output:
                    time.sleep(0.02)

    def test_the_loss_of_each_of_several_locks_is_told(self):
        told, one = [], self.client()
        with self.assertRaises(NotHeld), self.assertLogs("locks_client", "WARNING"):
            with one.lock_all(["a", "b"], on_lost=lambda *it: told.append(it)):
                self.lose_both(one)
                self.wait_for(lambda: len(told) == 2)
        self.assertEqual(sorted(told), [("a", 1), ("b", 1)])

    def lose_both(self, one):
        """Breaks two locks of a client."""
        other = self.client(8)
        for name in "ab":
            other.break_lock(name, 1)

    def wait_for(self, is_so):
        """Waits until that is so."""
        end = time.monotonic() + 20.0
        while not is_so():
            self.assertLess(time.monotonic(), end)
            time.sleep(0.02)

    def test_a_task_watches(self):
        asyncio.run(self.watched())

    async def watched(self):
        """The loss of a lock of asyncio, told to a coroutine."""
        told, is_told, one = [], asyncio.Event(), self.client(kind=AsyncClient)

        async def lost(name, fence):
            told.append((name, fence))
            is_told.set()

        with self.assertRaises(NotHeld), self.assertLogs("locks_client", "WARNING"):
            async with one.lock("db", on_lost=lost):
                self.client(8).break_lock("db", 1)
                await asyncio.wait_for(is_told.wait(), 20.0)
                await asyncio.sleep(0.3)
        self.assertEqual(told, [("db", 1)])
        async with one.lock("db", on_lost=lost):
            await asyncio.sleep(0.2)


    def test_a_task_watches_several_locks_beside_calls(self):
        asyncio.run(self.several_watched())

    async def several_watched(self):
        """The loss of two locks of asyncio; each call beside the watch waits for it."""
        told, one = [], self.client(kind=AsyncClient)
        with self.assertRaises(NotHeld), self.assertLogs("locks_client", "WARNING"):
            async with one.lock_all(["a", "b"], on_lost=lambda *it: told.append(it)):
                self.lose_both(one)
                end = time.monotonic() + 20.0
                while len(told) < 2 and time.monotonic() < end:
                    await one.ask("other")
        self.assertEqual(sorted(told), [("a", 1), ("b", 1)])


class NamesTest(TableCase):
    def test_all_names_are_held_in_order(self):
        with self.client().lock_all(["b", "a", "c", "a"]) as fences:
            self.assertEqual((fences, list(fences)), ({"a": 1, "b": 1, "c": 1}, ["a", "b", "c"]))
            self.assertEqual([self.holders(name) for name in "abc"], [[7]] * 3)
        self.assertEqual(self.node.table.holders, {})

    def freed_at_last(self):
        """Frees all names after a while, so that a client that waits for ever fails."""
        timer = threading.Timer(30.0, self.node.table.holders.clear)
        timer.start()
        self.addCleanup(timer.cancel)

    def test_none_is_held_where_one_is_busy(self):
        self.freed_at_last()
        self.client(8).acquire("b")
        one = self.client()
        for how in ({"blocking": False}, {"wait": 0.2}):
            with self.assertRaises(Busy), one.lock_all(list("cba"), **how):
                self.fail("b was not granted")
            self.assertEqual(self.node.table.holders, {"b": (8,)})

    def test_the_wait_is_for_all_names_together(self):
        for number, kind in enumerate((client.Client, AsyncClient), 7):
            one, waits = self.client(number, kind), []

            def granting(name, wait, shared, adopt, core=one.core, known=waits):
                known.append(wait)
                time.sleep(0.2)
                return type(core).granting(core, name, wait, shared, adopt)

            one.core.granting = granting
            if kind is AsyncClient:
                asyncio.run(self.hold_two(one))
            else:
                with one.lock_all(["ab", "c"], wait=9.0):
                    pass
            self.assertLessEqual(waits[1], waits[0] - 0.2)

    async def hold_two(self, one):
        """Holds two locks of asyncio for a moment."""
        async with one.lock_all(["ab", "c"], wait=9.0):
            pass

    def test_what_is_no_list_of_names_is_refused(self):
        for wrong in ("db", [], [b"db"], ["DB"]):
            with self.subTest(wrong=wrong), self.assertRaises((TypeError, ValueError)):
                self.client().lock_all(wrong).__enter__()
        self.assertEqual(self.node.heard, [])

    def test_tasks_hold_all_names(self):
        async def hold():
            async with self.client(kind=AsyncClient).lock_all(["b", "a"]) as fences:
                return fences

        self.assertEqual((asyncio.run(hold()), self.node.table.holders), ({"a": 1, "b": 1}, {}))

    def test_a_call_that_does_not_block_asks_once(self):
        self.freed_at_last()
        self.client(8).acquire("db")
        one = self.client()
        for call in (lambda: one.acquire("db", blocking=False), lambda: one.lock("db", blocking=False).__enter__()):
            with self.assertRaises(Busy):
                call()
        with self.assertRaisesRegex(ValueError, "exclude each other"):
            one.acquire("db", wait=1.0, blocking=False)
        self.client(8, first=100).release("db", 1)
        self.assertEqual(one.acquire("db", blocking=True), 2)


class ChangeTest(TableCase):
    def test_other_ports_are_asked_from_then_on(self):
        other = TableNode()
        self.addCleanup(other.stop)
        one = self.client(patience=30.0)
        one.acquire("db")
        self.node.takes = lambda body: False
        one.patience = 0.2
        with self.assertRaises(NoAnswer):
            one.ask("db")
        other.table = self.node.table
        one.set_ports([other.port])
        one.patience = 5.0
        self.assertEqual(one.again().fence, 1)
        one.release("db", 1)
        self.assertEqual(one.leader, other.port)

    def test_ports_of_other_machines_have_a_socket_of_their_own(self):
        for kind in (AsyncClient, client.Client):
            one = self.client(kind=kind)
            before = one.socket
            one.set_ports([("127.0.0.2", 7001)])
            self.assertEqual((before.fileno(), one.socket.getsockname()[0]), (-1, "0.0.0.0"))
            with self.assertRaises(ValueError):
                one.set_ports([])
            with self.assertRaisesRegex(ValueError, "IPv4 and fd00::1 is IPv6"):
                one.set_ports([("10.0.0.1", 1), ("fd00::1", 1)])

    def test_another_key_seals_the_open_request_too(self):
        path = os.path.join(self.enterContext(tempfile.TemporaryDirectory()), "key")
        sent = []
        one = self.client(patience=0.2)
        one.send = lambda data, port: sent.append(data)
        with self.assertRaises(NoAnswer):
            one.ask("db")
        with open(os.open(path, os.O_CREAT | os.O_WRONLY, 0o600), "w", encoding="ascii") as file:
            file.write(client_key(bytes(32), 7).hex() + "\n")
        one.set_key(path)
        with self.assertRaises(NoAnswer):
            one.again()
        self.assertEqual((sent[0][:2], sent[-1][:2], sent[-1][36:]), (b"LK", b"LS", sent[0]))


if __name__ == "__main__":
    unittest.main()
