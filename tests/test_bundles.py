"""Bundles: what nodes send with --bundle, what a node takes out of one, and which payloads are none."""
import os
import socket
import tempfile
import unittest

import locks_client
from harness.by_bytes import Node, bytes_of, received
from harness.cluster import Cluster

PROGRAM = os.environ.get("LOCKS_PROGRAM")
HEAD = b"LB\1\0"

# Node 1 asks node 2 for two promises, and gets them.
PREPARE = "4c4b0101 0000000000000005 00000001 {:016x} 00000001 0000000000000001"
PROMISE = "4c4b0102 0000000000000005 00000002 {:016x} 00000001 0000000000000001 00"

# A client of cluster 5 asks with number 1 who holds `db`.
ASK = "4c4b0109 0000000000000005 00000000 {:04x} 0000000000000001 00 04 03026462"


def bundle(*datagrams):
    """Their bundle."""
    return HEAD + b"".join(len(it).to_bytes(2, "big") + it for it in datagrams)


def pieces(payload):
    """The datagrams of a bundle."""
    rest, found = payload[len(HEAD) :], []
    while rest:
        end = 2 + int.from_bytes(rest[:2], "big")
        found.append(rest[2:end])
        rest = rest[end:]
    return found


@unittest.skipUnless(PROGRAM, "LOCKS_PROGRAM does not tell the program")
class BundlesTest(unittest.TestCase):
    def setUp(self):
        self.folder = self.enterContext(tempfile.TemporaryDirectory())

    def node(self, *words):
        """Node 2 of three, on empty files."""
        it = self.enterContext(Node(PROGRAM, self.folder))
        it.words = words
        it.write(b"")
        it.start()
        return it

    def prepares(self, it, *rounds):
        return [it.bytes_of(PREPARE.format(one)) for one in rounds]

    def promise(self, it, one):
        return it.bytes_of(PROMISE.format(one))

    def test_a_node_takes_each_datagram_of_a_bundle(self):
        it = self.node()
        it.send(bundle(*self.prepares(it, 3, 4)))
        self.assertEqual([received(it.socket), received(it.socket)], [self.promise(it, 3), self.promise(it, 4)])

    def test_damaged_bundles_give_nothing(self):
        it = self.node()
        first, second, last = self.prepares(it, 3, 4, 5)
        whole = bundle(first, second)
        other_heads = [b"LB\2\0" + whole[4:], b"LB\1\1" + whole[4:]]
        short = [bundle(first, b""), bundle(first, bytes(15), second)]
        for payload in (whole[:-1], whole + b"\0", bundle(first), HEAD, *other_heads, *short):
            it.send(payload)
        it.send(last)
        self.assertEqual(received(it.socket), self.promise(it, 5))

    def test_a_node_sends_bundles_if_asked(self):
        it = self.node("--bundle")
        it.send(bundle(*self.prepares(it, 3, 4)))
        self.assertEqual(pieces(received(it.socket)), [self.promise(it, 3), self.promise(it, 4)])

    def test_a_single_datagram_goes_bare(self):
        it = self.node("--bundle")
        it.send(self.prepares(it, 3)[0])
        self.assertEqual(received(it.socket), self.promise(it, 3))

    def test_clients_get_no_bundles(self):
        cluster = self.enterContext(Cluster(PROGRAM, self.folder, options=("--bundle", "--ticks", "clock")))
        with cluster.client(locks_client.Client, 7, patience=30.0) as client:
            self.assertTrue(client.acquire("db"))
            leader = client.leader
        requests = [bytes_of(ASK.format(one)) for one in (8, 9)]
        with socket.socket(socket.AF_INET, socket.SOCK_DGRAM) as both:
            both.settimeout(10.0)
            both.sendto(bundle(*requests), ("127.0.0.1", leader))
            answers = {received(both)[3:4] for _ in requests}
        self.assertEqual(answers, {b"\x0a"})

    def test_nodes_with_and_without_bundles_are_one_cluster(self):
        cluster = self.enterContext(Cluster(PROGRAM, self.folder, options=("--ticks", "clock")))
        for node in (1, 2):
            cluster.kill(node)
            cluster.options = ("--ticks", "clock", "--bundle")
            cluster.start(node)
        with cluster.client(locks_client.Client, 7, patience=30.0) as client:
            self.assertTrue(client.acquire("db"))
        cluster.kill(next(node for node, port in cluster.ports.items() if port == client.leader))
        with cluster.client(locks_client.Client, 8, patience=30.0) as client:
            self.assertTrue(client.acquire("other"))


if __name__ == "__main__":
    unittest.main()
