"""Three nodes that answer, are killed and taken up again, and are joined by a fourth, by bytes."""
import contextlib
import os
import socket
import tempfile
import time
import unittest

from harness.by_bytes import bytes_of
from harness.cluster import Cluster, free_ports

PROGRAM = os.environ.get("LOCKS_PROGRAM")

# Client 7 asks with number 1 to acquire `db`, and what nodes 1 and 3 answer.
ACQUIRE = "4c4b0109 0000000000000005 00000000 0007 0000000000000001 00 04 01026462"
GRANTED_BY_1 = "4c4b010a 0000000000000005 00000001 0007 0000000000000001 01 0000000000000001"
GRANTED_BY_3 = "4c4b010a 0000000000000005 00000003 0007 0000000000000001 01 0000000000000001"

# Client 8 asks with number 1 to acquire `db`, and what node 1 answers.
SECOND = "4c4b0109 0000000000000005 00000000 0008 0000000000000001 00 04 01026462"
BUSY = "4c4b010a 0000000000000005 00000001 0008 0000000000000001 02 0007 0000000000000001"

# Client 7 asks with number 2 to release `db`, and what node 1 answers.
RELEASE = "4c4b0109 0000000000000005 00000000 0007 0000000000000002 00 0c 02026462 0000000000000001"
RELEASED_BY_1 = "4c4b010a 0000000000000005 00000001 0007 0000000000000002 03"

# Client 8 asks with a number to acquire `db`, what the node that leads answers, and what another one answers.
BESIDE = "4c4b0109 0000000000000005 00000000 0008 {:016x} 00 04 01026462"
HELD = "4c4b010a 0000000000000005 {:08x} 0008 {:016x} 02 0007 0000000000000001"
ELSEWHERE = "4c4b010b 0000000000000005 {:08x} 0008 {:016x} {:08x} {:04x}"

# Client 9 asks with number 1 that node 4 join, but for its port, and what nodes 1 and 4 answer.
JOIN = "4c4b0109 0000000000000005 00000000 0009 0000000000000001 01 00000004"
JOINED_BY_1 = "4c4b010a 0000000000000005 00000001 0009 0000000000000001 20"
JOINED_BY_4 = "4c4b010a 0000000000000005 00000004 0009 0000000000000001 20"


@unittest.skipUnless(PROGRAM, "LOCKS_PROGRAM does not tell the program")
class ServingTest(unittest.TestCase):
    def setUp(self):
        self.cluster = self.enterContext(Cluster(PROGRAM, self.enterContext(tempfile.TemporaryDirectory()), alpha=2))
        self.socket = self.enterContext(socket.socket(socket.AF_INET, socket.SOCK_DGRAM))

    def hears(self, wanted, seconds=0.2):
        """Whether that comes within so many seconds."""
        end = time.monotonic() + seconds
        while (left := end - time.monotonic()) > 0:
            self.socket.settimeout(left)
            with contextlib.suppress(TimeoutError, ConnectionRefusedError):
                if self.socket.recv(9000) == wanted:
                    return True
        return False

    def answers(self, node, request, answer):
        """Asks all nodes, since any may lead, again and again until this one answers so."""
        end = time.monotonic() + 30.0
        while True:
            self.assertLess(time.monotonic(), end, f"no answer {answer} of node {node}")
            for port in self.cluster.ports.values():
                self.socket.sendto(bytes_of(request), ("127.0.0.1", port))
            if self.hears(bytes_of(answer)):
                return

    def test_three_nodes_answer(self):
        self.answers(1, ACQUIRE, GRANTED_BY_1)
        self.answers(1, SECOND, BUSY)
        self.answers(1, ACQUIRE, GRANTED_BY_1)
        self.answers(1, RELEASE, RELEASED_BY_1)

    def reply_of(self, node, number):
        """Client 8 asks this node alone, by a request that no other node has. Its reply, once it knows who leads."""
        with socket.socket(socket.AF_INET, socket.SOCK_DGRAM) as asking:
            asking.settimeout(0.5)
            for _ in range(40):
                asking.sendto(bytes_of(BESIDE.format(number)), ("127.0.0.1", self.cluster.ports[node]))
                with contextlib.suppress(TimeoutError):
                    return asking.recv(9000)
        self.fail(f"no reply of node {node}")

    def test_a_node_that_does_not_lead_names_the_leader(self):
        self.answers(1, ACQUIRE, GRANTED_BY_1)
        ports = self.cluster.ports
        replies = {node: self.reply_of(node, number) for number, node in enumerate(ports, 1)}
        held = {node: bytes_of(HELD.format(node, number)) for number, node in enumerate(ports, 1)}
        [leader] = [node for node in ports if replies[node] == held[node]]
        for number, node in enumerate(ports, 1):
            if node != leader:
                self.assertEqual(replies[node], bytes_of(ELSEWHERE.format(node, number, leader, ports[leader])))

    def test_a_revived_node_gives_the_same_answer(self):
        self.answers(1, ACQUIRE, GRANTED_BY_1)
        self.answers(3, ACQUIRE, GRANTED_BY_3)
        self.cluster.kill(3)
        self.answers(1, SECOND, BUSY)
        self.cluster.start(3)
        self.answers(3, ACQUIRE, GRANTED_BY_3)

    def test_a_node_joins(self):
        [self.cluster.ports[4]] = free_ports(1)
        join = f"{JOIN} {self.cluster.ports[4]:04x}"
        self.answers(1, join, JOINED_BY_1)
        self.cluster.start(4)
        self.answers(4, join, JOINED_BY_4)


if __name__ == "__main__":
    unittest.main()
