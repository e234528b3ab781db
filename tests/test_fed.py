"""A node that was sent commands or parts of a snapshot asks its leader for more at once."""
import os
import tempfile
import time
import unittest

from harness.by_bytes import Node, bytes_of, received

PROGRAM = os.environ.get("LOCKS_PROGRAM")
WANT = 7
QUIET = 0.25  # seconds: less than it takes node 2 to seek votes

HEADER = "4c4b01{kind:02x} 0000000000000005 00000001"
BALLOT = "0000000000000003 00000001"


def lead(executed):
    """The notice of node 1, which leads and has executed so many positions."""
    return bytes_of(HEADER.format(kind=13), BALLOT, f"{executed:016x}")


def decided(first, count):
    """So many no-ops, the first at that position."""
    return bytes_of(HEADER.format(kind=6), f"{first:016x} {count:02x}", "00" * count)


def part(offset, total=3000, position=300):
    """1,024 bytes of a snapshot."""
    return bytes_of(HEADER.format(kind=8), f"{position:016x} {total:08x} {offset:08x} 0400", "aa" * 1024)


@unittest.skipUnless(PROGRAM, "LOCKS_PROGRAM does not tell the program")
class FedTest(unittest.TestCase):
    """Node 2 of three is a process; the test stands at the port of node 1."""

    def setUp(self):
        folder = self.enterContext(tempfile.TemporaryDirectory())
        self.node = self.enterContext(Node(PROGRAM, folder))
        self.node.start()

    def wants(self, seconds=QUIET):
        """The position and the offset of each Want that node 1 is sent in that time."""
        found, end = [], time.monotonic() + seconds
        while (left := end - time.monotonic()) > 0:
            self.node.socket.settimeout(left)
            try:
                data = received(self.node.socket)
            except TimeoutError:
                break
            if data[3] == WANT:
                found.append((int.from_bytes(data[16:24], "big"), int.from_bytes(data[24:28], "big")))
        return found

    def asked(self, data):
        """The first Want for a datagram."""
        self.node.send(data)
        end = time.monotonic() + 10
        while time.monotonic() < end:
            if found := self.wants(0.05):
                return found[0]
        return self.fail("no Want")

    def test_commands_are_asked_for_until_they_come_one_by_one(self):
        self.assertEqual(self.asked(lead(40)), (1, 0))
        self.assertEqual(self.asked(decided(1, 16)), (17, 0))
        self.assertEqual(self.asked(decided(17, 2)), (19, 0))
        self.node.send(decided(19, 1))
        self.assertEqual(self.wants(), [])

    def test_each_part_asks_for_what_follows(self):
        self.assertEqual(self.asked(lead(400)), (1, 0))
        self.assertEqual(self.asked(part(0)), (1, 1024))
        self.assertEqual(self.asked(part(1024)), (1, 2048))
        self.node.send(part(1024))  # once more: it brings nothing
        self.assertEqual(self.wants(), [])

    def test_a_node_that_knows_no_leader_asks_nobody(self):
        self.node.send(decided(1, 16))
        self.assertEqual(self.wants(), [])


if __name__ == "__main__":
    unittest.main()
