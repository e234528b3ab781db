"""Nodes that have executed as much report one digest of their states; one that has executed other commands is named."""
import collections
import os
import re
import shutil
import socket
import struct
import subprocess
import tempfile
import time
import unittest

from harness.cluster import Cluster
from harness.peers import probe
from locks_client import Client

PROGRAM = os.environ.get("LOCKS_PROGRAM")
SECONDS = 60  # only a hang takes as long

APART = re.compile(
    r"\[WARN  locks\] \S+ node \d has executed other commands than node (\d) up to position \d+: "
    r"`locks status` says which to stop(?: \.\. and \d more)?"
)


@unittest.skipUnless(PROGRAM, "LOCKS_PROGRAM does not tell the program")
class DigestsTest(unittest.TestCase):
    def cluster_of(self, *nodes, **how):
        """A cluster of three, of which these nodes are started."""
        cluster = self.enterContext(Cluster(PROGRAM, self.enterContext(tempfile.TemporaryDirectory()), **how))
        for node in set(cluster.ports) - set(nodes):
            cluster.kill(node)
        return cluster

    def client(self, cluster, number):
        return self.enterContext(cluster.client(Client, number, patience=float(SECONDS)))

    def asks(self, client, requests):
        """So many requests, one after another."""
        for _ in range(requests):
            client.ask("db")

    def digest(self, cluster, node):
        """The position and the digest that a node reports; nothing while it is silent."""
        with socket.socket(socket.AF_INET, socket.SOCK_DGRAM) as it:
            it.settimeout(0.5)
            it.sendto(probe(2), ("127.0.0.1", cluster.ports[node]))
            try:
                report = it.recv(9000)
            except OSError:
                return None
        return struct.unpack(">Q16s", report[182:206])

    def digests(self, cluster, client, position):
        """The digest of each node, once all have taken that of one position, this one or a later."""
        end = time.monotonic() + SECONDS
        while True:
            told = {node: self.digest(cluster, node) or (0, None) for node in cluster.ports}
            positions = {at for at, _ in told.values()}
            if len(positions) == 1 and positions.pop() >= position:
                return {node: digest for node, (_, digest) in told.items()}
            self.assertLess(time.monotonic(), end, told)
            client.ask("db")

    def status(self, cluster):
        """The status and the output of `locks status`."""
        command = [PROGRAM, "status", "--cluster", "5", "--port", *map(str, cluster.ports.values())]
        told = subprocess.run(command, stdin=subprocess.DEVNULL, capture_output=True, text=True)
        return told.returncode, told.stdout

    def test_nodes_that_have_executed_as_much_tell_one_digest(self):
        cluster = self.cluster_of(1, 2, 3)
        client = self.client(cluster, 7)
        client.acquire("db")
        told = next(filter(None, (self.digest(cluster, 1) for _ in range(2 * SECONDS))), None)
        self.assertEqual(told, (0, bytes(16)))
        self.asks(client, 199)
        digests = set(self.digests(cluster, client, 192).values())
        self.assertEqual(len(digests), 1)
        self.assertNotEqual(digests, {bytes(16)})
        # A node that restarts tells none before the next multiple, and then the same as the others.
        cluster.kill(3)
        cluster.start(3)
        self.assertEqual(len(set(self.digests(cluster, client, 256).values())), 1)
        self.assertNotIn("other commands", self.status(cluster)[1])

    def apart(self, **how):
        """A cluster whose node 1 has executed other commands than the others, and the digests that show it."""
        cluster = self.cluster_of(1, 2, **how)
        self.client(cluster, 7).acquire("db")
        for node in (1, 2):
            cluster.kill(node)
        # Node 2 forgets what it has voted, which is forbidden: a majority that lacks the grant makes another one.
        shutil.rmtree(os.path.join(cluster.folder, "2"))
        for node in (2, 3):
            cluster.start(node)
        client = self.client(cluster, 8)
        client.acquire("db")
        cluster.start(1)
        digests = self.digests(cluster, client, 64)
        self.assertNotEqual(digests[1], digests[2])
        self.assertEqual(digests[2], digests[3])
        return cluster

    def events(self, cluster, node):
        """Of which nodes a node has told that they have executed other commands, and how often."""
        with open(cluster.log(node)) as told:
            return collections.Counter(int(it[1]) for it in map(APART.fullmatch, told.read().splitlines()) if it)

    def test_a_node_that_has_executed_other_commands_is_named(self):
        cluster = self.apart()
        status, told = self.status(cluster)
        self.assertEqual(status, 1, told)
        # The others are named in the order in which they answer.
        self.assertRegex(told, "why: node 1 has executed other commands than nodes (2 3|3 2): stop it\n")

    def test_nodes_tell_of_each_other_that_they_have_executed_other_commands(self):
        cluster = self.apart(options=("--ticks", "clock", "--events"), logs=True)
        end = time.monotonic() + SECONDS
        while not (self.events(cluster, 2) and self.events(cluster, 3) and self.events(cluster, 1)):
            self.assertLess(time.monotonic(), end, [self.events(cluster, node) for node in cluster.ports])
            time.sleep(0.1)
        # They ask each other each five seconds, and tell it once.
        time.sleep(6)
        self.assertEqual(self.events(cluster, 2), {1: 1})
        self.assertEqual(self.events(cluster, 3), {1: 1})
        # Node 1 tells of both, by one line if both reports came within a second.
        self.assertLessEqual(sum(self.events(cluster, 1).values()), 2)


if __name__ == "__main__":
    unittest.main()
