"""The blocking client, against nodes that the tests script."""
import os
import time
import unittest
from concurrent.futures import ThreadPoolExecutor

from fake_node import (
    ACQUIRE,
    ALREADY_RAISED,
    BROKEN,
    BUSY,
    FREE,
    GRANTED,
    HELD,
    HELD_SHARED,
    NOT_HELD,
    OTHERS,
    PASSED,
    RAISED,
    RELEASE,
    RELEASED,
    SHARED,
    STALE,
    Node,
    elsewhere,
    numbered,
    once,
    plain,
    polling,
    waiting,
)
from locks_client import (
    Busy,
    Client,
    Closed,
    Free,
    Held,
    HeldShared,
    NoAnswer,
    NotHeld,
    OtherAnswer,
    Passed,
    Unanswered,
)


def by(client, text):
    """The same answer with another holder."""
    return text.replace("0008", f"{client:04x}")


def interrupted_once(client):
    """A wait for a datagram in the place of the client's, which ^C ends; the waits after it are the client's."""

    def receive(until):
        del client.receive
        time.sleep(0.1)
        raise KeyboardInterrupt

    return receive


def in_child(call):
    """The name of the error that a call raises in a forked child; empty if it raises none."""
    reader, writer = os.pipe()
    if os.fork() == 0:
        try:
            call()
        except BaseException as error:
            os.write(writer, type(error).__name__.encode())
        os._exit(0)
    os.close(writer)
    os.wait()
    with os.fdopen(reader) as said:
        return said.read()


class ClientTest(unittest.TestCase):
    def setUp(self):
        self.enterContext(once())

    def client(self, *ports, first=1, patience=30.0):
        client = Client(5, 7, ports, first=first, patience=patience)
        client.cleanup = 30.0
        client.core.has_begun = True  # so that these tests need not script the first Ask
        self.addCleanup(client.close)
        self.addCleanup(client.core.forget)  # before that, since some of these tests leave a lock held
        return client

    def asks_once(self, reply, ask):
        """What a call gives that is replied to so, and the op that it sent."""
        node = Node([reply])
        given = ask(self.client(node.port))
        return given, node.heard[0][52:]

    def test_the_exchange_of_the_page(self):
        node = Node([GRANTED], [RELEASED])
        client = self.client(node.port)
        self.assertEqual(client.acquire("db"), 1)
        self.assertIsNone(client.release("db", 1))
        self.assertEqual(node.heard, [plain(ACQUIRE), plain(RELEASE)])

    def test_the_same_bytes_are_sent_again_and_other_replies_dropped(self):
        node = Node([], OTHERS, [GRANTED])
        with waiting(0.2, 0.2, 60.0):
            self.assertEqual(self.client(node.port).acquire("db"), 1)
        self.assertEqual(node.heard, [plain(ACQUIRE)] * 3)

    def test_elsewhere_is_followed(self):
        leader = Node([GRANTED])
        node = Node([elsewhere(leader.port)])
        self.assertEqual(self.client(node.port).acquire("db"), 1)
        self.assertEqual(leader.heard, [plain(ACQUIRE)])

    def test_answers_are_told(self):
        for reply, ask in [(HELD, Held(8, 3)), (FREE, Free(0))]:
            self.assertEqual(self.client(Node([reply]).port).ask("db"), ask)
        with self.assertRaises(Busy) as busy:
            self.client(Node([BUSY]).port).acquire("db")
        self.assertEqual((busy.exception.holder, busy.exception.fence), (8, 3))
        with self.assertRaises(NotHeld):
            self.client(Node([NOT_HELD]).port).release("db", 1)
        with self.assertRaises(Passed) as passed:
            self.client(Node([PASSED]).port).acquire("db")
        self.assertEqual(passed.exception.last, 2)

    def test_a_raised_table_is_asked(self):
        rows = [
            (SHARED, lambda it: it.share("db", adopt=True), 1, "00 04 05026462"),
            (HELD_SHARED, lambda it: it.ask("db"), HeldShared(2, 1), "00 04 03026462"),
            (BROKEN, lambda it: it.break_lock("db", 1), True, "00 0c 06026462 0000000000000001"),
            (STALE, lambda it: it.break_lock("db", 1), False, "00 0c 06026462 0000000000000001"),
            (RAISED, lambda it: it.raise_table(), True, "03 02"),
            (ALREADY_RAISED, lambda it: it.raise_table(), False, "03 02"),
        ]
        for reply, ask, given, op in rows:
            self.assertEqual(self.asks_once(reply, ask), (given, plain(op)))

    def test_an_answer_to_something_else_is_no_answer(self):
        for reply, ask in [(RELEASED, lambda it: it.acquire("db")), (GRANTED, lambda it: it.check("db", 1))]:
            with self.assertRaises(OtherAnswer):
                self.asks_once(numbered(reply, 1), ask)

    def test_a_node_that_is_silent_is_left_for_the_next(self):
        silent, node = Node([], []), Node([GRANTED], [numbered(RELEASED, 2)])
        client = self.client(silent.port, node.port)
        with waiting(0.5, 60.0):
            self.assertEqual(client.acquire("db"), 1)
        client.release("db", 1)
        self.assertEqual((len(silent.heard), len(node.heard)), (1, 2))

    def test_a_lock_is_asked_for_until_it_is_granted(self):
        with polling(0.05):
            node = Node([BUSY], [numbered(BUSY, 2)], [numbered(GRANTED, 3)])
            self.assertEqual(self.client(node.port).acquire("db", wait=30.0), 1)
        self.assertEqual(len(node.heard), 3)

    def test_a_lock_is_asked_for_until_a_deadline(self):
        with polling(0.05):
            node = Node([BUSY], *[[numbered(BUSY, number)] for number in range(2, 30)])
            start = time.monotonic()
            with self.assertRaises(Busy):
                self.client(node.port).acquire("db", wait=1.0)
            self.assertTrue(1.0 <= time.monotonic() - start < 20.0)
        self.assertTrue(2 <= len(node.heard) <= 22)

    def test_what_this_client_holds_itself_is_not_waited_for(self):
        node = Node([by(7, BUSY)])
        with self.assertRaises(Busy):
            self.client(node.port).acquire("db", wait=60.0)

    def test_a_lock_is_held_while_a_block_runs(self):
        node = Node([GRANTED], [RELEASED])
        client = self.client(node.port)
        with client.lock("db") as fence:
            self.assertEqual((fence, len(node.heard)), (1, 1))
        self.assertEqual(node.heard, [plain(ACQUIRE), plain(RELEASE)])

    def test_a_block_that_fails_releases(self):
        node = Node([GRANTED], [RELEASED])
        with self.assertRaises(KeyError), self.client(node.port).lock("db"):
            raise KeyError
        self.assertEqual(node.heard, [plain(ACQUIRE), plain(RELEASE)])

    def test_an_acquire_without_an_answer_is_withdrawn(self):
        node = Node([], [GRANTED], [RELEASED])
        client = self.client(node.port, patience=0.2)
        with self.assertRaises(NoAnswer):
            client.acquire("db")
        client.patience = 30.0
        self.assertTrue(client.withdraw("db"))
        self.assertEqual(node.heard, [plain(ACQUIRE), plain(ACQUIRE), plain(RELEASE)])

    def test_a_share_without_an_answer_is_withdrawn(self):
        node = Node([FREE], [], [numbered(SHARED, 2)], [numbered(RELEASED, 3)])
        client = self.client(node.port, patience=2.0)
        with self.assertRaises(NoAnswer):
            client.share("db")
        client.patience = 30.0
        self.assertTrue(client.withdraw("db"))
        self.assertEqual(node.heard[3], numbered(RELEASE, 3))

    def test_the_grant_of_an_earlier_run_is_not_withdrawn(self):
        node = Node([], [by(7, BUSY)])
        client = self.client(node.port, patience=0.2)
        with self.assertRaises(NoAnswer):
            client.acquire("db")
        client.patience = 30.0
        self.assertFalse(client.withdraw("db"))
        self.assertFalse(client.withdraw("db"))
        self.assertEqual(node.heard, [plain(ACQUIRE)] * 2)

    def test_an_interrupt_of_an_acquire_withdraws_it(self):
        node = Node([], [GRANTED], [RELEASED])
        client = self.client(node.port)
        client.receive = interrupted_once(client)
        with self.assertRaises(KeyboardInterrupt), client.lock("db"):
            self.fail("the lock was not granted")
        self.assertEqual(node.heard, [plain(ACQUIRE), plain(ACQUIRE), plain(RELEASE)])

    def test_a_request_that_a_block_leaves_open_does_not_keep_the_lock(self):
        node = Node([GRANTED], [], [numbered(RELEASED, 3)])
        client = self.client(node.port)
        with client.lock("db"):
            client.patience = 0.2
            with self.assertRaises(NoAnswer):
                client.ask("db")
            client.patience = 30.0
        self.assertEqual(node.heard[2], numbered(RELEASE, 3))

    def test_a_failing_release_does_not_hide_the_error_of_a_block(self):
        node = Node([GRANTED])
        client = self.client(node.port)
        with self.assertRaises(KeyError) as raised, self.assertLogs("locks_client", "WARNING"), client.lock("db"):
            client.patience = 0.2
            raise KeyError("of the block")
        self.assertIn("db was not released at fence 1 by client 7: no answer", raised.exception.__notes__[0])

    def test_a_release_that_fails_is_told(self):
        node = Node([GRANTED], [numbered(NOT_HELD, 2)])
        with self.assertRaises(NotHeld), self.client(node.port).lock("db"):
            pass

    def test_a_lock_within_itself_is_refused_and_does_not_free_it(self):
        node = Node([FREE], [numbered(SHARED, 2)], [numbered(RELEASED, 3)])
        client = self.client(node.port)
        with client.lock("db", shared=True):
            with self.assertRaises(Busy), client.lock("db", shared=True):
                self.fail("the lock was shared twice")
            self.assertEqual(len(node.heard), 2)

    def test_an_interrupt_within_a_lock_does_not_free_it(self):
        node = Node([GRANTED], [], [numbered(by(7, BUSY), 2)], [numbered(RELEASED, 3)])
        client = self.client(node.port)
        with client.lock("db"):
            client.receive = interrupted_once(client)
            with self.assertRaises(KeyboardInterrupt), client.lock("db"):
                self.fail("the lock was granted twice")
            self.assertEqual(len(node.heard), 3)
        self.assertEqual(node.heard[3], numbered(RELEASE, 3))

    def test_a_forked_child_is_refused(self):
        node = Node([GRANTED], [RELEASED])
        client = self.client(node.port)
        with client.lock("db"):
            self.assertEqual(in_child(lambda: client.acquire("other")), "Forked")
            self.assertEqual(in_child(lambda: client.release("db", 1)), "Forked")
            self.assertEqual(in_child(client.close), "")
        self.assertEqual(node.heard, [plain(ACQUIRE), plain(RELEASE)])

    def test_a_closed_client_is_refused(self):
        client = self.client(1)
        client.close()
        with self.assertRaises(Closed):
            client.acquire("db")

    def test_two_threads_at_once_are_refused(self):
        node = Node([], [GRANTED])
        client = self.client(node.port)
        with waiting(2.0, 60.0), ThreadPoolExecutor(1) as pool:
            first = pool.submit(client.acquire, "db")
            while not node.heard:
                time.sleep(0.01)
            with self.assertRaises(Unanswered):
                client.ask("db")
            self.assertEqual(first.result(), 1)
        self.assertEqual(node.heard, [plain(ACQUIRE)] * 2)

    def test_a_wait_is_bounded_without_an_answer(self):
        start = time.monotonic()
        with self.assertRaises(NoAnswer):
            self.client(Node([]).port, patience=0.2).acquire("db", wait=0.6)
        self.assertTrue(0.6 <= time.monotonic() - start < 20.0)

    def test_numbers_skip_after_passed(self):
        node = Node([PASSED], [numbered(FREE, 9)], [numbered(GRANTED, 10)])
        client = self.client(node.port)
        with self.assertRaises(Passed):
            client.acquire("db")
        for number in (0, 1 << 48):
            with self.assertRaises(ValueError):
                client.skip_to(number)
        client.skip_to(9)
        self.assertEqual(client.acquire("db"), 1)

    def test_what_has_no_answer_is_asked_again_or_given_up(self):
        node = Node([])
        client = self.client(node.port, patience=0.2)
        with self.assertRaises(NoAnswer):
            client.acquire("db")
        with self.assertRaises(Unanswered):
            client.acquire("db")
        client.core.turn, client.patience = iter([Node([GRANTED]).port]), 30.0
        self.assertEqual(client.again(), 1)


if __name__ == "__main__":
    unittest.main()
