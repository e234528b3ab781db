"""The files of a single node, byte by byte, when it begins, is stopped, and restarts."""
import os
import socket
import subprocess
import tempfile
import time
import unittest

from harness.by_bytes import bytes_of, received
from harness.cluster import free_ports

PROGRAM = os.environ.get("LOCKS_PROGRAM")

# The state of node 1 at port 7001 with alpha 2 that has executed nothing (39 bytes), and the Base that holds it (101).
STATE = bytes_of("0000000000000000 02 01 00000001 1b59 01 00000001 1b59 00000001 0000000000000000 0000 0000")
HEADER = bytes_of(
    "00000061 01 0000000000000001 02 0000000000000005 00000001 02 01 00000001 1b59"
    " 0000000000000000 00000000 0000000000000000 00000027"
)
BASE = HEADER + STATE + bytes_of("0000 0000")

# The same Base as a program that knew format 1 alone wrote it, and the Base that replaces it once (1, 1) is promised.
OLD_HEADER = bytes_of(
    "00000061 01 0000000000000001 01 0000000000000005 00000001 02 01 00000001 1b59"
    " 0000000000000000 00000000 0000000000000000 00000027"
)
OLD = OLD_HEADER + STATE + bytes_of("0000 0000")
RENEWED_HEADER = bytes_of(
    "00000061 01 0000000000000002 02 0000000000000005 00000001 02 01 00000001 1b59"
    " 0000000000000001 00000001 0000000000000000 00000027"
)
RENEWED = RENEWED_HEADER + STATE + bytes_of("0000 0000")

# Entries: the promises of its first and second ballots (17 bytes each), and a vote for a no-op at position 1 (26).
PROMISED = bytes_of("0000000d 02 0000000000000001 00000001")
PROMISED_NEXT = bytes_of("0000000d 02 0000000000000002 00000001")
VOTED = bytes_of("00000016 03 0000000000000001 0000000000000001 00000001 00")

# Node 2, which is no member, asks it for that vote, and gets it; and for a promise, which holds no vote.
ACCEPT = bytes_of("4c4b0103 0000000000000005 00000002 0000000000000001 00000001 0000000000000001 00")
ACCEPTED = bytes_of("4c4b0104 0000000000000005 00000001 0000000000000001 00000001 0000000000000001 00")
PREPARE = bytes_of("4c4b0101 0000000000000005 00000002 0000000000000003 00000002 0000000000000001")
PROMISE = bytes_of("4c4b0102 0000000000000005 00000001 0000000000000003 00000002 0000000000000001 00")

# What stands after the Base, and whether that is cut off, or else told as damage.
RESTS = [("000000", True), ("00010000", True), ("00010001", False), ("00000000", False), ("00000001 09", False)]


@unittest.skipUnless(PROGRAM, "LOCKS_PROGRAM does not tell the program")
class FirstStoreTest(unittest.TestCase):
    """Node 1 of cluster 5, whose genesis names it at port 7001; it listens at another port."""

    def setUp(self):
        self.folder = self.enterContext(tempfile.TemporaryDirectory())
        self.socket = self.enterContext(socket.socket(socket.AF_INET, socket.SOCK_DGRAM))
        self.socket.settimeout(10.0)
        [self.port] = free_ports(1)

    def path(self, name):
        return os.path.join(self.folder, name)

    def read(self, name="a"):
        """What stands in a file."""
        with open(self.path(name), "rb") as file:
            return file.read()

    def write(self, data):
        """Puts these bytes into the file a, and nothing into b."""
        for name, text in (("a", data), ("b", b"")):
            with open(self.path(name), "wb") as file:
                file.write(text)

    def start(self):
        """Starts the node on what its folder holds."""
        words = ["--genesis", "5,2,1:7001", "--number", "1", "--port", str(self.port), "--dir", self.folder]
        node = subprocess.Popen([PROGRAM, "node", *words], stdin=subprocess.DEVNULL, stderr=subprocess.PIPE, text=True)
        self.addCleanup(node.communicate)
        self.addCleanup(node.kill)
        return node

    def stop(self, node):
        node.kill()
        node.wait()

    def wait_for(self, data, name="a"):
        """Waits until a file has these bytes."""
        end = time.monotonic() + 10.0
        while not os.path.exists(self.path(name)) or self.read(name) != data:
            self.assertLess(time.monotonic(), end, f"not {data.hex()}")
            time.sleep(0.02)

    def asked(self, data):
        """What it sends for a datagram of node 2."""
        self.socket.sendto(data, ("127.0.0.1", self.port))
        return received(self.socket)

    def test_the_first_bytes_have_these_lengths(self):
        lengths = [len(it) for it in (STATE, BASE, BASE + PROMISED, VOTED, OLD, RENEWED)]
        self.assertEqual(lengths, [39, 101, 118, 26, 101, 101])

    def test_a_torn_vote_is_cut_off_and_was_never_cast(self):
        node = self.start()
        self.wait_for(BASE + PROMISED)  # it begins its first ballot at its fourth tick
        self.assertEqual(self.asked(ACCEPT).hex(), ACCEPTED.hex())
        self.stop(node)
        self.assertEqual(self.read().hex(), (BASE + PROMISED + VOTED).hex())
        self.write(self.read()[:123])
        node = self.start()
        self.wait_for(BASE + PROMISED + PROMISED_NEXT)
        self.assertEqual(self.asked(PREPARE).hex(), PROMISE.hex())
        self.stop(node)

    def test_a_store_of_format_1_is_written_anew_in_the_other_file(self):
        for rest in (b"", VOTED[:5]):
            with self.subTest(rest=rest.hex()):
                self.write(OLD + PROMISED + rest)
                node = self.start()
                self.wait_for(RENEWED + PROMISED_NEXT, "b")  # it begins its second ballot at its fourth tick
                self.assertEqual(self.read("a"), b"")
                self.stop(node)

    def test_each_rest_is_cut_off_or_damage(self):
        for rest, is_torn in RESTS:
            with self.subTest(rest=rest):
                self.write(BASE + bytes_of(rest))
                node = self.start()
                if is_torn:
                    self.wait_for(BASE + PROMISED)
                    self.stop(node)
                else:
                    told = node.communicate(timeout=60)[1].splitlines()[-1]
                    self.assertEqual((told, node.returncode), ("fault 9", 1))
                    self.assertEqual(self.read(), BASE + bytes_of(rest))


if __name__ == "__main__":
    unittest.main()
