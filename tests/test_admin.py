"""With --admin a node drops joins, leaves, raises and breaks of all clients but the listed ones, and takes all else."""
import os
import re
import socket
import struct
import subprocess
import tempfile
import time
import unittest

from harness.cluster import Cluster

PROGRAM = os.environ.get("LOCKS_PROGRAM")

CLUSTER = 5
SECONDS = 60.0  # for what comes on a busy machine
QUIET = 1.5  # for what must not come, asked again and again
ADMIN, OTHER = 8, 9

# The ops that only an admin may ask for, and what the first and a later request are answered.
RAISE, BREAK = bytes([3, 2]), bytes([0, 12, 6, 2]) + b"db" + struct.pack(">Q", 1)
JOIN, LEAVE = struct.pack(">BIH", 1, 4, 7004), struct.pack(">BI", 2, 3)
ADMINISTRATIVE = {"raise": RAISE, "break": BREAK, "join": JOIN, "leave": LEAVE}
ACQUIRE, ASK = bytes([0, 4, 1, 2]) + b"db", bytes([0, 4, 3, 2]) + b"db"
GRANTED, BROKEN, JOINED, LEFT, RAISED, USED, STALE, ALREADY = 1, 0x0E, 0x20, 0x23, 0x26, 0x21, 8, 0x27
ELSEWHERE = 11


class Asker:
    """A client that sends its own bytes to the node that it chooses."""

    def __init__(self, cluster, client):
        self.cluster, self.client, self.number = cluster, client, 0
        self.socket = socket.socket(socket.AF_INET, socket.SOCK_DGRAM)

    def __enter__(self):
        return self

    def __exit__(self, *_):
        self.socket.close()

    def replies(self, node, op, seconds):
        """What a node replies to a new request, sent each 100 ms: its kind, and the tag of an answer."""
        self.number += 1
        bytes_ = struct.pack(">3sBQIHQ", b"LK\1", 9, CLUSTER, 0, self.client, self.number) + op
        self.socket.settimeout(0.1)
        end = time.monotonic() + seconds
        while time.monotonic() < end:
            self.socket.sendto(bytes_, ("127.0.0.1", self.cluster.ports[node]))
            try:
                reply = self.socket.recv(9000)
            except TimeoutError:
                continue
            if struct.unpack(">HQ", reply[16:26]) == (self.client, self.number):
                yield reply[3], reply[26]

    def answered(self, node, op, tag):
        """Whether the leader answers by that tag."""
        return any(reply == (10, tag) for reply in self.replies(node, op, SECONDS))

    def is_silent(self, node, op):
        """Whether nothing comes back from a node."""
        return not list(self.replies(node, op, QUIET))


@unittest.skipUnless(PROGRAM, "LOCKS_PROGRAM does not tell the program")
class AdminTest(unittest.TestCase):
    def cluster_with(self, *options):
        """Three nodes with these options and events."""
        folder = self.enterContext(tempfile.TemporaryDirectory())
        options = ("--ticks", "clock", "--events", "--verbose", *options)
        return self.enterContext(Cluster(PROGRAM, folder, alpha=2, options=options, logs=True))

    def asker(self, cluster, client):
        return self.enterContext(Asker(cluster, client))

    def leader(self, asker):
        """The node that answers; all others name it."""
        end = time.monotonic() + SECONDS
        while time.monotonic() < end:
            for node in asker.cluster.ports:
                if any(kind == 10 for kind, _ in asker.replies(node, ASK, 0.3)):
                    return node
        self.fail("no node leads")

    def told(self, cluster, node):
        """What a node has told so far."""
        with open(cluster.log(node), encoding="utf-8") as file:
            return file.read()

    def await_told(self, cluster, node, text):
        end = time.monotonic() + SECONDS
        while text not in self.told(cluster, node):
            self.assertLess(time.monotonic(), end, f"{text!r} is not in {self.told(cluster, node)[-2000:]!r}")
            time.sleep(0.1)

    def test_only_the_listed_clients_change_the_cluster(self):
        cluster = self.cluster_with("--admin", f"7,{ADMIN}")
        admin, other = self.asker(cluster, ADMIN), self.asker(cluster, OTHER)
        leader = self.leader(other)
        self.assertTrue(other.answered(leader, ACQUIRE, GRANTED))
        for name, op in ADMINISTRATIVE.items():
            with self.subTest(name):
                self.assertTrue(other.is_silent(leader, op))
        # Nothing of it happened: each of them is new to the admin.
        self.assertTrue(admin.answered(leader, RAISE, RAISED))
        self.assertTrue(admin.answered(leader, BREAK, BROKEN))
        self.assertTrue(admin.answered(leader, JOIN, JOINED))
        # An older request of the other client was not executed either, and its next one is taken.
        self.assertTrue(any(kind == 10 for kind, _ in other.replies(leader, ASK, SECONDS)))

    def test_a_follower_drops_them_too(self):
        cluster = self.cluster_with("--admin", str(ADMIN))
        admin, other = self.asker(cluster, ADMIN), self.asker(cluster, OTHER)
        leader = self.leader(other)
        follower = next(node for node in cluster.ports if node != leader)
        for name, op in ADMINISTRATIVE.items():
            with self.subTest(name):
                self.assertTrue(other.is_silent(follower, op))
        # It names the leader to whoever asks for something else, and to an admin.
        self.assertTrue(any(kind == ELSEWHERE for kind, _ in other.replies(follower, ASK, SECONDS)))
        self.assertTrue(any(kind == ELSEWHERE for kind, _ in admin.replies(follower, LEAVE, SECONDS)))

    def test_a_node_tells_what_it_drops(self):
        cluster = self.cluster_with("--admin", str(ADMIN))
        other = self.asker(cluster, OTHER)
        leader = self.leader(other)
        self.assertTrue(other.is_silent(leader, JOIN))
        self.await_told(cluster, leader, "datagrams that only an admin may send: 8")
        # One a minute is an event, which names the client.
        event = f"node {leader} dropped an administrative request of client {OTHER}"
        self.await_told(cluster, leader, event)
        self.assertEqual(len(re.findall(f"{event}\n", self.told(cluster, leader))), 1)

    def test_without_the_option_each_client_may(self):
        cluster = self.cluster_with()
        other = self.asker(cluster, OTHER)
        leader = self.leader(other)
        self.assertTrue(other.answered(leader, RAISE, RAISED))
        self.assertTrue(other.answered(leader, ACQUIRE, GRANTED))
        self.assertTrue(other.answered(leader, BREAK, BROKEN))
        self.assertTrue(other.answered(leader, JOIN, JOINED))
        self.assertNotIn("admin", self.told(cluster, leader))

    def test_a_list_that_is_none_is_refused(self):
        for word in ("", "0", "257", "7,", ",7", "7 8", "7;8", "all", "07"):
            with self.subTest(word):
                words = ["--genesis", "5,2,1:7001", "--number", "1", "--port", "7001", "--dir", "/nowhere"]
                command = [PROGRAM, "node", *words, f"--admin={word}"]
                ran = subprocess.run(command, capture_output=True, text=True, timeout=60)
                told = f"error: invalid value '{word}' for '--admin <admin>': must be CLIENT,.., each from 1 to 256"
                self.assertEqual((ran.returncode, ran.stderr.splitlines()[:1]), (2, [told]))


if __name__ == "__main__":
    unittest.main()
