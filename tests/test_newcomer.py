"""A node that joins late is given the state."""
import os
import socket
import tempfile
import time
import unittest

from harness.cluster import Cluster, free_ports
from locks_client import Answer, Client, Held
from locks_client.wire import read_reply, request_bytes

PROGRAM = os.environ.get("LOCKS_PROGRAM")
LONG = 120  # seconds that only a hang takes
PAIRS = 300  # 600 positions: each node has made two snapshots by then, and keeps no command of the first 256


@unittest.skipUnless(PROGRAM, "LOCKS_PROGRAM does not tell the program")
class NewcomerTest(unittest.TestCase):
    """Three nodes that have compacted, and a fourth that joins them on an empty folder."""

    def setUp(self):
        folder = self.enterContext(tempfile.TemporaryDirectory())
        self.cluster = self.enterContext(Cluster(PROGRAM, folder))
        self.client = self.enterContext(self.cluster.client(Client, 1, patience=60.0))
        for _ in range(PAIRS):
            self.client.release("db", self.client.acquire("db"))

    def newcomer(self, is_early=False):
        """A fourth node joins, and is started, or the other way round."""
        (port,) = free_ports(1)
        if not is_early:
            self.client.join(4, port)
        self.cluster.ports[4] = port
        self.cluster.start(4)
        if is_early:
            time.sleep(2.0)  # it asks for commands while its number has not joined
            self.client.join(4, port)

    def wait_until_known(self, node):
        """Waits until the node answers the client's last request as it was answered: until it has executed it."""
        number, op = self.client.core.last[:2]
        data = request_bytes(self.cluster.cluster, self.client.client, number, op)
        start = time.perf_counter()
        with socket.socket(socket.AF_INET, socket.SOCK_DGRAM) as it:
            it.settimeout(0.02)
            while time.perf_counter() - start < LONG:
                it.sendto(data, ("127.0.0.1", self.cluster.ports[node]))
                try:
                    reply = read_reply(it.recv(8192), self.cluster.cluster, self.client.client, number)
                except OSError:  # nothing came, or nothing listens there yet
                    time.sleep(0.02)
                    continue
                if isinstance(reply, Answer):
                    return
        self.fail(f"node {node} has not caught up in {LONG} s")

    def test_a_newcomer_is_given_the_state_and_is_in_each_majority(self):
        self.newcomer()
        self.wait_until_known(4)
        for node in (1, 2, 3):  # three of four are a majority, so the newcomer is in each
            self.cluster.kill(node)
            fence = self.client.acquire("db")
            self.assertEqual(self.client.ask("db"), Held(1, fence))
            self.client.release("db", fence)
            self.cluster.start(node)
            self.wait_until_known(node)
        self.assertEqual(self.client.acquire("db"), PAIRS + 4)

    def test_a_newcomer_that_starts_before_it_joins_is_given_the_state(self):
        self.newcomer(is_early=True)
        self.wait_until_known(4)


if __name__ == "__main__":
    unittest.main()
