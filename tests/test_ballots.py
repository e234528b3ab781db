"""What a node promises above its snapshot, and what it proposes for the votes that promises report."""
import os
import tempfile
import unittest

from harness.by_bytes import Node, received

PROGRAM = os.environ.get("LOCKS_PROGRAM")

# The Base of node 2 of three with alpha 1, up to its promise, and a Base that has executed nothing.
MEMBERS = "03 00000001 1b59 00000002 1b5a 00000003 1b5b"
BASE = f"00000072 01 0000000000000001 02 0000000000000005 00000002 01 {MEMBERS}"
STATE = f"01 {MEMBERS} 00000003 0000000000000000 0000 0000"
BEGUN = f"{BASE} 0000000000000000 00000000 0000000000000000 0000002c 0000000000000000 {STATE} 0000 0000"

# It has promised (1, 1), or that and a snapshot of 256 positions.
PROMISED = "0000000d 02 0000000000000001 00000001"
AT_256 = f"{BASE} 0000000000000001 00000001 0000000000000100 0000002c 0000000000000100 {STATE} 0000 0000"

# Node 1 asks for a promise of (3, 1) from position 100 on, and is refused in 48 bytes.
LOW_PREPARE = "4c4b0101 0000000000000005 00000001 0000000000000003 00000001 0000000000000064"
LOW_NACK = "4c4b0105 0000000000000005 00000002 0000000000000003 00000001 0000000000000001 00000001 0000000000000100"

# Node 2 asks for promises of its ballot (2, 2).
PREPARE = "4c4b0101 0000000000000005 00000002 0000000000000002 00000002 0000000000000001"

# Node 1 promises, and tells a vote for A in (1, 1) at position 1. Node 3 promises, and tells none.
A = "01 0007 0000000000000001 00 03 01 01 61"
B = "01 0008 0000000000000001 00 03 01 01 62"
WITH_VOTE = (
    "4c4b0102 0000000000000005 00000001 0000000000000002 00000002 0000000000000001"
    f" 01 0000000000000001 0000000000000001 00000001 {A}"
)
WITHOUT = "4c4b0102 0000000000000005 00000003 0000000000000002 00000002 0000000000000001 00"

# Client 8 asks for B; and the vote that node 2 asks for.
ASKED = "4c4b0109 0000000000000005 00000000 0008 0000000000000001 00 03 01 01 62"
ACCEPT = "4c4b0103 0000000000000005 00000002 0000000000000002 00000002 0000000000000001"

# Who promises beside node 2, and what is proposed.
PROPOSED = [(WITH_VOTE, A), (WITHOUT, B)]


@unittest.skipUnless(PROGRAM, "LOCKS_PROGRAM does not tell the program")
class BallotTest(unittest.TestCase):
    def up(self, *texts):
        """Node 2, which came up on such a file."""
        node = self.enterContext(Node(PROGRAM, self.enterContext(tempfile.TemporaryDirectory())))
        node.write(node.bytes_of(*texts))
        self.assertEqual(node.start(), f"port {node.ports[1]}")
        return node

    def test_a_prepare_below_the_snapshot_gets_a_nack_and_writes_nothing(self):
        node = self.up(AT_256)
        nack = node.asked(node.bytes_of(LOW_PREPARE))
        self.assertEqual((len(nack), nack.hex()), (48, node.bytes_of(LOW_NACK).hex()))
        self.assertEqual((node.read("a"), node.read("b")), (node.bytes_of(AT_256), b""))

    def wait_for(self, it, text, node):
        """Takes what comes to a socket until these bytes come. Before them only a Prepare or a Lead may come."""
        while (data := received(it)) != node.bytes_of(text):
            self.assertIn(data[3], (1, 13), data.hex())

    def test_the_vote_that_is_told_is_proposed_and_else_the_request_that_waits(self):
        for promise, command in PROPOSED:
            with self.subTest(command=command):
                node = self.up(BEGUN, PROMISED)
                self.wait_for(node.third, PREPARE, node)  # it begins at its eighth tick, as the second of three
                node.send(node.bytes_of(ASKED))
                node.send(node.bytes_of(promise))
                for it in (node.socket, node.third):
                    self.wait_for(it, f"{ACCEPT} {command}", node)
                node.kill()


if __name__ == "__main__":
    unittest.main()
