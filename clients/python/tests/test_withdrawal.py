"""What becomes of an acquire without an answer, and what is said of it."""
import asyncio
import time
import unittest
import warnings
from unittest import mock

from fake_node import FREE, PASSED, Node
from table_case import ACQUIRE, ASK, RELEASE, SHARE, TableCase
from locks_client import AsyncClient, Busy, Client, LocksError, NoAnswer, Passed, Unknown, core


class WithdrawalTest(TableCase):
    def unanswered(self, client, name="db"):
        """An acquire that is granted and gets no answer."""
        self.node.replies = lambda body: body != ACQUIRE
        client.patience = 0.3
        with self.hearing(ACQUIRE), self.assertRaises(NoAnswer):
            client.acquire(name)
        client.patience = 30.0
        self.node.replies = lambda body: True

    def test_an_acquire_that_was_passed_is_told_as_one_without_an_answer(self):
        client = self.client()
        client.ask("db")
        self.unanswered(client)
        self.client(first=100).ask("other")
        with self.assertRaises(Passed) as raised:
            client.again()
        self.assertIn("whether the acquire of db took effect is unknown", str(raised.exception))
        client.skip_to(raised.exception.next_number)
        with self.assertRaisesRegex(Unknown, r"client 7 may hold db at fence 1.*release\('db', 1\) frees it"):
            client.withdraw("db")
        client.release("db", 1)
        self.assertFalse(client.withdraw("db"))

    def test_an_acquire_that_a_block_left_open_is_not_said_to_be_refused(self):
        client = self.client()
        with self.assertLogs("locks_client", "WARNING") as logs, client.lock("x"):
            self.unanswered(client, "y")
        self.assertIn("the acquire of y was dropped without an answer", logs.output[0])
        self.assertEqual((self.holders("x"), self.holders("y")), ([], [7]))
        with self.assertRaisesRegex(Unknown, "y at fence 1"):
            client.withdraw("y")
        client.release("y", 1)
        self.assertFalse(client.withdraw("y"))

    def test_an_acquire_that_was_given_up_is_not_said_to_be_refused(self):
        client = self.client()
        client.ask("db")
        self.unanswered(client)
        client.give_up()
        with self.assertRaises(Unknown):
            client.withdraw("db")
        self.client(8).break_lock("db", 1)
        self.assertFalse(client.withdraw("db"))

    def test_an_interrupt_of_an_acquire_ends_soon_and_has_a_note(self):
        client = self.client(patience=60.0)
        client.ask("other")
        self.node.takes = lambda body: body == ASK
        receive = client.receive

        def interrupted(until):
            client.receive = receive
            raise KeyboardInterrupt

        client.receive, start = interrupted, time.monotonic()
        with self.assertLogs("locks_client", "WARNING"), self.assertRaises(KeyboardInterrupt) as raised:
            with client.lock("db"):
                self.fail("the lock was not granted")
        self.assertLess(time.monotonic() - start, 20.0)
        self.assertIn("db was not released by client 7: no answer", raised.exception.__notes__[0])

    def test_a_withdrawal_whose_release_has_no_answer_is_made_again(self):
        for takes in (True, False):
            client = self.client(7 + takes)
            fence = client.acquire("db")
            self.node.takes = lambda body: takes or body != RELEASE
            self.node.replies = lambda body: body != RELEASE
            client.patience = 0.3
            with self.hearing(RELEASE), self.assertRaises(NoAnswer):
                client.withdraw("db")
            self.node.takes = self.node.replies = lambda body: True
            client.patience = 30.0
            self.assertTrue(client.withdraw("db"))
            self.assertEqual((self.holders("db"), client.core.grants, fence), ([], {}, 2 - takes))

    def test_a_lock_that_is_held_is_not_said_to_be_refused(self):
        client = self.client()
        client.acquire("db")
        client.ask("other")
        with self.assertRaisesRegex(LocksError, r"client 7 holds db at fence 1.*release\('db', 1\)"):
            client.withdraw("db")
        client.release("db", 1)
        self.assertFalse(client.withdraw("db"))

    def test_a_lock_is_tried_again_after_no_answer(self):
        client = self.client()
        client.ask("db")
        self.unanswered(client)
        with client.lock("db") as fence:
            self.assertEqual(fence, 2)
        self.node.replies = lambda body: body != RELEASE
        with self.hearing(RELEASE), self.assertRaises(NoAnswer), client.lock("db"):
            client.patience = 0.3
        self.node.replies, client.patience = lambda body: True, 30.0
        with client.lock("db") as fence:
            self.assertEqual(fence, 4)
        self.assertEqual(self.holders("db"), [])

    def test_passed_names_a_number_that_helps_after_a_clock_was_ahead(self):
        ahead = self.client(first=5_000_000_000_000)
        ahead.acquire("rc")
        client = self.client(first=1_700_000_000_000)
        with self.assertRaises(Passed) as raised:
            client.acquire("rd")
        self.assertIn(f"continue above it: skip_to({raised.exception.next_number})", str(raised.exception))
        client.skip_to(raised.exception.next_number)
        self.assertEqual(client.acquire("rd"), 1)

    def test_passed_near_the_last_number_names_another_client_number(self):
        node = Node([PASSED[:-16] + f"{2**48:016x}"])
        with Client(5, 7, [node.port], first=1, patience=3.0) as client:
            with self.assertRaisesRegex(Passed, "use another client number") as raised:
                client.ask("db")
        self.assertIsNone(raised.exception.next_number)

    def test_a_client_that_is_closed_while_it_holds_says_so(self):
        client = self.client()
        client.acquire("db")
        self.closed_while_it_holds(client)

    def test_a_client_of_asyncio_that_is_closed_while_it_holds_says_so(self):
        client = self.client(kind=AsyncClient)
        asyncio.run(client.acquire("db"))
        self.closed_while_it_holds(client)

    def closed_while_it_holds(self, client):
        """Closes a client that holds `db`: it says so, the first time."""
        with self.assertWarnsRegex(ResourceWarning, "client 7 is closed while it holds db at fence 1"):
            with self.assertLogs("locks_client", "WARNING"):
                client.close()
        with warnings.catch_warnings():
            warnings.simplefilter("error")
            client.close()

    def test_a_client_that_is_closed_while_an_acquire_has_no_answer_says_so(self):
        dropped, unanswered = self.client(), self.client(8, first=1)
        for client in (dropped, unanswered):
            client.ask("other")
            self.unanswered(client, f"db/{client.client}")
        dropped.give_up()
        for client in (dropped, unanswered):
            told = f"client {client.client} is closed while it may hold db/{client.client}, or may still be granted it"
            with self.assertWarnsRegex(ResourceWarning, told), self.assertLogs("locks_client", "WARNING"):
                client.close()

    def test_a_client_that_is_closed_after_a_withdrawal_says_nothing(self):
        client = self.client()
        client.ask("other")
        self.unanswered(client)
        self.assertTrue(client.withdraw("db"))
        with self.assertNoLogs("locks_client", "WARNING"):
            client.close()

    def test_a_lock_that_is_known_to_be_lost_is_not_warned_of(self):
        client = self.client()
        for end in (client.break_lock, client.check):
            fence = client.acquire("db")
            self.client(8, first=fence * 100).break_lock("db", fence) if end == client.check else None
            end("db", fence)
        with self.assertNoLogs("locks_client", "WARNING"):
            client.close()


class SharesTest(TableCase):
    def test_two_shares_of_one_name_are_refused(self):
        client = self.client()
        self.assertEqual(client.share("db"), 1)
        with self.assertRaisesRegex(Busy, "client 7 holds db itself"):
            client.share("db")
        client.release("db", 1)
        self.assertEqual(client.share("db"), 2)

    def test_what_this_client_shares_is_not_waited_for(self):
        self.client(5).share("db")  # the lower of both, whom the node names
        client = self.client()
        client.share("db")
        with self.assertRaisesRegex(Busy, r"client 7 holds db itself.*release\('db', 1\) frees it"):
            client.acquire("db", wait=30.0)
        self.assertEqual(self.node.heard.count(ACQUIRE), 1)

    def test_the_share_of_an_earlier_run_is_told_and_left_alone(self):
        self.client(first=1).share("db")
        client = self.client(first=100)
        with self.assertRaisesRegex(Busy, r"client 7 holds db itself.*release\('db', 1\) frees it"):
            with client.lock("db", shared=True):
                self.fail("the hold of another run was taken over")
        self.assertEqual((self.holders("db"), client.core.grants), ([7], {}))
        with client.lock("db", shared=True, adopt=True) as fence:
            self.assertEqual(fence, 1)
        self.assertEqual(self.holders("db"), [])

    def test_the_share_of_an_earlier_run_is_not_withdrawn(self):
        self.client(first=1).share("db")
        client = self.client(first=100)
        client.ask("db")
        self.node.replies, client.patience = lambda body: body == ASK, 1.0
        with self.hearing(SHARE), self.assertRaises(NoAnswer):
            client.share("db")
        self.node.replies, client.patience = lambda body: True, 30.0
        with self.assertRaises(Busy):
            client.withdraw("db")
        self.assertEqual(self.holders("db"), [7])

    def test_a_share_beside_others_is_taken(self):
        self.client(8).share("db")
        client = self.client()
        for _ in range(2):
            with client.lock("db", shared=True):
                self.assertEqual(self.holders("db"), [8, 7])
        self.assertEqual(self.holders("db"), [8])


class LogTest(TableCase):
    def test_an_unreachable_cluster_is_told_every_few_seconds(self):
        node = Node([FREE], *[[]] * 9)
        with Client(5, 7, [node.port], first=1, patience=4.0) as client, mock.patch.object(core, "WARN_EVERY", 1.0):
            with self.assertLogs("locks_client", "WARNING") as logs, self.assertRaises(NoAnswer):
                client.acquire("db")
        self.assertGreaterEqual(len(logs.output), 2)
        self.assertIn("client 7: no answer for another 1 s to the acquire of db", logs.output[0])


if __name__ == "__main__":
    unittest.main()
