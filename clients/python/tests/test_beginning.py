"""How a run begins: with one Ask, so that a stored answer to another request is never believed."""
import os
import shutil
import tempfile
import unittest

from cluster_case import PROGRAM, ClusterCase
from fake_node import ACQUIRE, FREE, GRANTED, PASSED, Node, numbered, once, plain
from table_case import ASK, TableCase
from locks_client import Client, Held, NoAnswer, OtherAnswer, Passed

ASK_FIRST = "4c4b0109 0000000000000005 00000000 0007 0000000000000001 00 07 0305626567696e"


class BeginningTest(TableCase):
    def setUp(self):
        super().setUp()
        self.enterContext(once())

    def of_node(self, *rows, patience=30.0):
        """A scripted node, and a client of it that has not begun."""
        node = Node(*rows)
        client = Client(5, 7, [node.port], first=1, patience=patience)
        self.addCleanup(client.close)
        return node, client

    def test_a_run_begins_with_one_ask(self):
        node, client = self.of_node([FREE], [numbered(GRANTED, 2)], [numbered(FREE, 3)])
        self.assertEqual(client.acquire("db"), 1)
        client.ask("db")
        self.assertEqual(node.heard[:2], [plain(ASK_FIRST), numbered(ACQUIRE, 2)])

    def test_a_stored_grant_is_not_believed(self):
        node, client = self.of_node([GRANTED])
        with self.assertRaises(OtherAnswer) as raised:
            client.acquire("other")
        self.assertIn("the acquire of other was not sent", str(raised.exception))
        self.assertIn(f"continue above it: skip_to({raised.exception.next_number})", str(raised.exception))
        self.assertEqual((len(node.heard), client.is_open, client.core.grants), (1, False, {}))

    def test_a_passed_first_ask_says_that_nothing_was_sent(self):
        node, client = self.of_node([PASSED])
        with self.assertRaises(Passed) as raised:
            client.acquire("db")
        self.assertIn("the acquire of db was not sent", str(raised.exception))
        self.assertFalse(client.withdraw("db"))
        self.assertEqual(len(node.heard), 1)

    def test_what_was_not_sent_is_sent_by_again(self):
        self.node.takes = lambda body: False
        client = self.client(patience=0.2)
        with self.assertRaises(NoAnswer) as raised:
            client.acquire("db")
        self.assertIn("the acquire of db was not sent", str(raised.exception))
        self.assertEqual(set(self.node.heard), {ASK})
        self.node.takes = lambda body: True
        client.patience = 5.0
        self.assertEqual(client.again(), 1)

    def test_what_was_not_sent_is_withdrawn_at_once(self):
        self.node.takes = lambda body: False
        client = self.client(patience=0.2)
        with self.hearing(ASK), self.assertRaises(NoAnswer):
            client.acquire("db")
        self.assertFalse(client.withdraw("db"))
        self.assertEqual((self.node.heard, client.is_open), ([ASK], False))

    def test_a_run_begins_again_after_skip_to(self):
        client = self.client()
        client.acquire("db")
        client.skip_to(9)
        client.ask("db")
        self.assertEqual(self.node.heard, [ASK, 1, ASK, ASK])

    def test_a_run_begins_again_after_passed(self):
        """The next number is the one that another run used last, for an acquire."""
        passed = f"{numbered(PASSED, 2)[:-16]}{3:016x}"
        node, client = self.of_node([FREE], [passed], [numbered(GRANTED, 3)])
        with self.assertRaises(Passed):
            client.acquire("db")
        with self.assertRaises(OtherAnswer):
            client.acquire("db")
        self.assertEqual((node.heard[2], client.core.grants), (numbered(plain(ASK_FIRST), 3), {}))


@unittest.skipUnless(PROGRAM, "LOCKS_PROGRAM does not tell the program")
class RestoredTest(ClusterCase):
    def test_a_restored_state_file_grants_nothing(self):
        with tempfile.TemporaryDirectory() as folder:
            state = os.path.join(folder, "state")
            with Client(5, 7, self.ports, first=1, state=state, patience=30.0) as client:
                client.ask("db")
            shutil.copy(state, state + ".old")
            with Client(5, 7, self.ports, state=state, patience=30.0) as client:
                self.assertEqual(client.acquire("ra"), 1)
                last = client.numbers.last
            for back in (0, 1):  # the last request of the lost run had this number, or one more
                with open(state, "w", encoding="ascii") as file:
                    file.write(f"{last - 1 - back}\n")
                with Client(5, 7, self.ports, state=state, patience=30.0) as client:
                    with self.assertRaises((OtherAnswer, Passed)) as raised:
                        client.acquire("rb")
                    self.assertEqual(client.core.grants, {})
                    number = raised.exception.next_number
                    client.skip_to(number)
                    self.assertEqual(client.ask("ra"), Held(7, 1))
                last = client.numbers.last


if __name__ == "__main__":
    unittest.main()
