"""A node answers a probe by a report of its form, as long as it, and passes over what only begins as one."""
import hashlib
import os
import socket
import struct
import tempfile
import time
import unittest

from harness.by_bytes import Node, bytes_of
from harness.cluster import Cluster, free_ports

PROGRAM = os.environ.get("LOCKS_PROGRAM")

LENGTH, LONG = 174, 206
REPORT = struct.Struct(">4sQIHQ32s3sBBBIQQIQQB")
CLUSTER = 5

# The first Base of node 2 of three with alpha 2, and entries: node 4 joins at position 1, and node 1 leaves at 2.
MEMBERS = "03 00000001 1b59 00000002 1b5a 00000003 1b5b"
BEGUN = (
    f"00000085 01 0000000000000001 02 0000000000000005 00000002 02 {MEMBERS} 0000000000000000 00000000 0000000000000000"
    f" 0000003f 0000000000000000 02 {MEMBERS} {MEMBERS} 00000003 0000000000000000 0000 0000 0000 0000"
)
JOIN = "0000001b 04 0000000000000001 01 0009 0000000000000001 01 00000004 1b5c"
LEAVE = "00000019 04 0000000000000002 01 0009 0000000000000002 02 00000001"

# What it reports then: up to the digest of its genesis, the program and the store; two positions executed, no snapshot,
# and one position until the leave is in force; and the members of position 3.
FRONT = "4c50010a 0000000000000005 00000002 0000 0000000000000007"
PROGRESS = "0000000000000002 0000000000000000 01"
NEXT = "04 00000001 1b59 00000002 1b5a 00000003 1b5b 00000004 1b5c"


def probe(cluster=CLUSTER, node=0, client=0, token=1, form=1):
    """The bytes of a probe."""
    front = b"LP" + bytes([form, 9]) + struct.pack(">QIHQ", cluster, node, client, token)
    return front.ljust(LENGTH if form == 1 else LONG, b"\0")


@unittest.skipUnless(PROGRAM, "LOCKS_PROGRAM does not tell the program")
class ProbesTest(unittest.TestCase):
    def setUp(self):
        self.cluster = self.enterContext(Cluster(PROGRAM, self.enterContext(tempfile.TemporaryDirectory()), alpha=2))
        self.socket = self.enterContext(socket.socket(socket.AF_INET, socket.SOCK_DGRAM))

    def report(self, node, datagram, seconds):
        """What a node answers, or nothing. No late answer to an earlier probe comes to this socket."""
        with socket.socket(socket.AF_INET, socket.SOCK_DGRAM) as it:
            it.settimeout(seconds)
            it.sendto(datagram, ("127.0.0.1", self.cluster.ports[node]))
            try:
                return it.recv(9000)
            except TimeoutError:
                return None

    def awaited(self, node, datagram):
        """What a node answers that may be starting."""
        end = time.monotonic() + 60.0
        while time.monotonic() < end:
            if answer := self.report(node, datagram, 2.0):
                return answer
        self.fail(f"node {node} does not answer")

    def test_each_node_tells_of_itself(self):
        for node in self.cluster.ports:
            answer = self.awaited(node, probe(token=node))
            self.assertEqual(len(answer), LENGTH)
            magic, cluster, told, client, token, *_ = REPORT.unpack(answer[: REPORT.size])
            self.assertEqual((magic, cluster, told, client, token), (b"LP\x01\x0a", CLUSTER, node, 0, node))
            self.assertEqual(answer[131], 3)

    def test_a_report_of_form_2_tells_what_its_node_reads(self):
        for node in self.cluster.ports:
            answer = self.awaited(node, probe(token=node, form=2))
            self.assertEqual((len(answer), answer[:4]), (LONG, b"LP\x02\x0a"))
            self.assertEqual(answer[174:].hex(), "0000010000000000" + "00" * 24)
            short = self.awaited(node, probe(token=node))
            self.assertEqual((short[:4], short[4:58]), (b"LP\x01\x0a", answer[4:58]))

    def counts(self, node):
        """How many datagrams a node could not read, and how many ticks it has counted."""
        unread, _, ticks = struct.unpack(">QQQ", self.awaited(node, probe())[107:131])
        return unread, ticks

    def test_a_report_counts_what_does_not_read_and_ticks(self):
        before = self.counts(1)
        of_cluster_6 = b"LK\x01\x09" + (6).to_bytes(8, "big") + bytes(4)
        for datagram in (b"", b"LK", b"\0" * 16, b"LK\x01\x0d" + bytes(28), of_cluster_6):
            self.socket.sendto(datagram, ("127.0.0.1", self.cluster.ports[1]))
        end = time.monotonic() + 30.0
        while (after := self.counts(1))[0] < before[0] + 5 or after[1] < before[1] + 2:
            self.assertLess(time.monotonic(), end, (before, after))
            time.sleep(0.05)
        self.assertEqual(after[0], before[0] + 5)

    def test_all_nodes_tell_one_genesis(self):
        self.assertEqual(len({self.awaited(node, probe())[26:58] for node in self.cluster.ports}), 1)

    def test_what_is_no_probe_of_the_cluster_is_passed_over(self):
        self.awaited(1, probe())
        of_nobody = probe()[:57] + b"\1" + bytes(116)  # a digest without a node
        others = (
            probe(cluster=6),
            probe()[:-1],
            probe() + b"\0",
            probe()[:-1] + b"\1",
            of_nobody,
            b"LP",
            b"LP\x01\x0a" + probe()[4:],
            probe(form=2)[:LENGTH],
            probe() + bytes(4),
            probe() + bytes(8),
            probe(form=2)[:182],
            probe(form=2)[:-1] + b"\1",
            probe(form=2) + b"\0",
            probe(form=3),
        )
        for datagram in others:
            self.assertIsNone(self.report(1, datagram, 0.2), datagram)
        self.awaited(1, probe())


@unittest.skipUnless(PROGRAM, "LOCKS_PROGRAM does not tell the program")
class ReportTest(unittest.TestCase):
    """Node 2 of three, whose others are silent."""

    def test_a_report_has_these_bytes(self):
        node = self.enterContext(Node(PROGRAM, self.enterContext(tempfile.TemporaryDirectory()), alpha=2))
        node.ports += free_ports(1)
        node.write(node.bytes_of(BEGUN, JOIN, LEAVE))
        self.assertEqual((node.start(), node.runs), (f"port {node.ports[1]}", [1, 2]))
        it = self.enterContext(node.bound(0))
        it.sendto(probe(token=7), ("127.0.0.1", node.ports[1]))
        report = it.recv(9000)
        genesis = hashlib.sha256(node.bytes_of("0000000000000005 02", MEMBERS)).digest()
        self.assertEqual((len(report), report[:26].hex(), report[26:58]), (LENGTH, bytes_of(FRONT).hex(), genesis))
        # It does not lead, and knows no leader.
        self.assertEqual((report[58:62].hex(), report[63:68].hex()), ("00010002", "0000000000"))
        self.assertEqual((report[88:105].hex(), report[105:107]), (bytes_of(PROGRESS).hex(), b"\0\0"))
        self.assertEqual(report[131:].hex(), node.bytes_of(NEXT).hex().ljust(2 * (LENGTH - 131), "0"))

    def test_a_report_of_form_2_tells_whom_its_node_hears(self):
        node = self.enterContext(Node(PROGRAM, self.enterContext(tempfile.TemporaryDirectory()), alpha=2))
        node.ports += free_ports(1)
        node.write(node.bytes_of(BEGUN, JOIN, LEAVE))
        node.words = ("--ticks", "clock", "--bundle")
        self.assertEqual(node.start(), f"port {node.ports[1]}")
        it = self.enterContext(node.bound(0))
        it.sendto(probe(token=7, form=2), ("127.0.0.1", node.ports[1]))
        report = it.recv(9000)
        self.assertEqual((len(report), report[:26].hex()), (LONG, bytes_of(FRONT.replace("4c5001", "4c5002")).hex()))
        self.assertEqual(report[131:174].hex(), node.bytes_of(NEXT).hex().ljust(2 * (LENGTH - 131), "0"))
        # It hears itself alone, reads bundles and sends them, keeps no watch and no name, and has no digest yet.
        self.assertEqual(report[174:].hex(), "0002010100000000" + "00" * 24)


if __name__ == "__main__":
    unittest.main()
