"""Nodes whose ticks go by the clock: they elect and answer, and what strangers send makes ticks no faster or slower."""
import os
import pathlib
import re
import socket
import tempfile
import time
import unittest

import locks_client
from harness.cluster import Cluster

PROGRAM = os.environ.get("LOCKS_PROGRAM")
LONG = 60  # seconds that only a hang takes
PROBE = b"LP\1\x09" + (5).to_bytes(8, "big") + bytes(162)
BEGUN = re.compile(r"term \d+\.\d+ begun")


@unittest.skipUnless(PROGRAM, "LOCKS_PROGRAM does not tell the program")
class TicksTest(unittest.TestCase):
    def setUp(self):
        self.folder = self.enterContext(tempfile.TemporaryDirectory())

    def cluster(self):
        """Three nodes whose ticks go by the clock, and which of them leads."""
        cluster = self.enterContext(Cluster(PROGRAM, self.folder, options=("--ticks", "clock", "--verbose"), logs=True))
        with cluster.client(locks_client.Client, 7, patience=30.0) as client:
            self.assertTrue(client.acquire("db"))
            return cluster, next(node for node, port in cluster.ports.items() if port == client.leader)

    def terms(self, cluster):
        """How many terms have begun at all nodes."""
        return sum(len(BEGUN.findall(pathlib.Path(cluster.log(node)).read_text())) for node in cluster.ports)

    def periods(self, port):
        """How many periods a node has counted since its start."""
        with socket.socket(socket.AF_INET, socket.SOCK_DGRAM) as it:
            it.settimeout(LONG)
            it.sendto(PROBE, ("127.0.0.1", port))
            return int.from_bytes(it.recv(9000)[123:131], "big")

    def send(self, ports, many):
        """Sends so many datagrams that do not read to each of these ports."""
        with socket.socket(socket.AF_INET, socket.SOCK_DGRAM) as stranger:
            for port in ports * many:
                stranger.sendto(b"nothing", ("127.0.0.1", port))

    def test_a_cluster_elects_and_grants(self):
        cluster, leader = self.cluster()
        cluster.kill(leader)
        with cluster.client(locks_client.Client, 8, patience=30.0) as client:
            self.assertTrue(client.acquire("other"))

    def test_what_comes_fast_brings_no_ticks(self):
        cluster, leader = self.cluster()
        port = next(port for node, port in cluster.ports.items() if node != leader)
        began, before = time.monotonic(), self.periods(port)
        for _ in range(100):  # by datagrams each 64 bring a tick
            self.send([port], 64)
            time.sleep(0.005)
        self.assertLess(self.periods(port) - before, 10 * (time.monotonic() - began) + 2)

    def test_what_comes_without_a_pause_prevents_no_ticks(self):
        cluster, leader = self.cluster()
        ports = [port for node, port in cluster.ports.items() if node != leader]
        before, end = self.terms(cluster), time.monotonic() + LONG
        cluster.kill(leader)
        while self.terms(cluster) == before:
            self.assertLess(time.monotonic(), end)
            self.send(ports, 1)
            time.sleep(0.05)


if __name__ == "__main__":
    unittest.main()
