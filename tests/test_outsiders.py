"""Without keys a Want of a number that never joined brings nobody more bytes than it has."""
import os
import socket
import tempfile
import unittest

from harness.cluster import Cluster, free_ports
from locks_client import Client

PROGRAM = os.environ.get("LOCKS_PROGRAM")
PAIRS = 200  # 400 positions: each node has made a snapshot by then, and keeps no command of the first 256


def want(node):
    """What a node of cluster 5 sends that asks for the commands from the first one on."""
    return b"LK\1\7" + (5).to_bytes(8, "big") + node.to_bytes(4, "big") + (1).to_bytes(8, "big") + bytes(4)


@unittest.skipUnless(PROGRAM, "LOCKS_PROGRAM does not tell the program")
class OutsidersTest(unittest.TestCase):
    def setUp(self):
        self.cluster = self.enterContext(Cluster(PROGRAM, self.enterContext(tempfile.TemporaryDirectory())))
        self.client = self.enterContext(self.cluster.client(Client, 1, patience=60.0))

    def asker(self):
        """A socket from which a Want comes."""
        it = self.enterContext(socket.socket(socket.AF_INET, socket.SOCK_DGRAM))
        it.bind(("127.0.0.1", 0))
        it.settimeout(0.1)
        return it

    def received(self, it):
        """How many bytes have come to a socket."""
        count = 0
        while True:
            try:
                count += len(it.recv(9000))
            except TimeoutError:
                return count

    def test_a_want_brings_no_more_than_it_is_long_unless_its_number_has_joined(self):
        (port,) = free_ports(1)
        self.client.join(4, port)
        self.client.leave(4)
        for _ in range(PAIRS):
            self.client.release("db", self.client.acquire("db"))
        for node in (1, 2, 3):
            with self.subTest(node=node):
                outsider, former = self.asker(), self.asker()
                place = ("127.0.0.1", self.cluster.ports[node])
                sent = brought = 0
                while brought <= 2 * len(want(4)):  # until the node has answered the number that has joined
                    for number in (5, 6, 1_000_000, 2**31 - 1):
                        sent += outsider.sendto(want(number), place)
                    former.sendto(want(4), place)
                    brought += self.received(former)
                self.assertLessEqual(self.received(outsider), sent)


if __name__ == "__main__":
    unittest.main()
