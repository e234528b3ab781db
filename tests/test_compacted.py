"""A snapshot of two nodes that have compacted at one position."""
import os
import socket
import subprocess
import tempfile
import time
import unittest

from harness.by_bytes import bytes_of
from harness.cluster import free_ports

PROGRAM = os.environ.get("LOCKS_PROGRAM")
PIECE = 1024  # bytes of a text in each part but the last
WISH = 8 * PIECE  # bytes that are sent for one Want
REBASED_AT = 131_072  # bytes of a file after which a node writes its snapshot


def number(value, size):
    """A number as it is spelled in so many bytes."""
    return value.to_bytes(size, "big")


def name(client):
    """The name of 32 letters that a client acquires, after its length."""
    return number(32, 1) + b"%032d" % client


def acquire(client):
    """The request of a client, as a command."""
    body = b"\1" + name(client)
    return b"\1" + number(client, 2) + number(1, 8) + b"\0" + number(len(body), 1) + body


def entry(body):
    """An entry of a file, after its length."""
    return number(len(body), 4) + body


class Files:
    """The files of three nodes of cluster 5 with alpha 1, at these ports, and what their state packs to."""

    def __init__(self, ports):
        self.members = b"\3" + b"".join(number(node, 4) + number(port, 2) for node, port in enumerate(ports, 1))

    def state(self, executed, sessions, names):
        """The packed text of such a state, whose greatest number is 3 and whose members never changed."""
        return number(executed, 8) + b"\1" + self.members + number(3, 4) + number(0, 8) + sessions + names

    def begun(self, node):
        """The Base of a node that has executed nothing."""
        state = self.state(0, number(0, 2), number(0, 2))
        genesis = number(5, 8) + number(node, 4) + b"\1" + self.members
        head = b"\1" + number(1, 8) + b"\2" + genesis + bytes(12) + number(0, 8)
        return entry(head + number(len(state), 4) + state + bytes(4))

    def filled(self, node):
        """That, and 256 decided commands, by each of which another client acquires another name."""
        decided = (entry(b"\4" + number(client, 8) + acquire(client)) for client in range(1, 257))
        return self.begun(node) + b"".join(decided)

    def text(self):
        """What the state packs to after these: each client was granted fence 1 at its number 1."""
        sessions = b"".join(number(client, 2) + number(1, 8) + b"\1" + number(1, 8) for client in range(1, 257))
        names = b"".join(name(client) + number(1, 8) + number(client, 2) for client in range(1, 257))
        return self.state(256, number(256, 2) + sessions, number(256, 2) + names)


def votes():
    """Votes for one request in rising ballots at position 257, as many bytes of them as make a snapshot due."""
    one = [entry(b"\3" + number(257, 8) + number(ballot, 8) + number(1, 4) + acquire(1)) for ballot in range(1, 1600)]
    return b"".join(one[: 1 + REBASED_AT // len(one[0])])


@unittest.skipUnless(PROGRAM, "LOCKS_PROGRAM does not tell the program")
class CompactedTest(unittest.TestCase):
    """The test stands at the ports that the genesis names; the nodes listen at others."""

    def setUp(self):
        self.folder = self.enterContext(tempfile.TemporaryDirectory())
        named, self.own = free_ports(3), free_ports(3)
        self.genesis = "5,1," + ",".join(f"{node}:{port}" for node, port in enumerate(named, 1))
        self.files, self.processes = Files(named), {}
        self.third = self.enterContext(socket.socket(socket.AF_INET, socket.SOCK_DGRAM))
        self.third.bind(("127.0.0.1", named[2]))
        self.third.settimeout(10.0)

    def path(self, node, file):
        return os.path.join(self.folder, str(node), file)

    def start(self, node, data=None):
        """Starts a node, on a file of these bytes if any are given."""
        folder = os.path.join(self.folder, str(node))
        os.makedirs(folder, exist_ok=True)
        if data is not None:
            for file, text in (("a", data), ("b", b"")):
                with open(self.path(node, file), "wb") as to:
                    to.write(text)
        place = ["--port", str(self.own[node - 1]), "--dir", folder]
        command = [PROGRAM, "node", "--genesis", self.genesis, "--number", str(node), *place, "--verbose"]
        process = subprocess.Popen(command, stdin=subprocess.DEVNULL, stderr=subprocess.PIPE, text=True)
        self.addCleanup(process.communicate)
        self.addCleanup(process.kill)
        while not process.stderr.readline().endswith(f"] port {self.own[node - 1]}\n"):
            self.assertIsNone(process.poll())
        self.processes[node] = process

    def parts(self, node, length):
        """The parts of a text of that length that a node sends for Wants of node 3."""
        found = []
        for offset in range(0, length, WISH):
            want = bytes_of("4c4b0107 0000000000000005 00000003 0000000000000001", f"{offset:08x}")
            self.third.sendto(want, ("127.0.0.1", self.own[node - 1]))
            until = min(length, offset + WISH)
            while len(found) * PIECE < until:
                data = self.third.recv(9000)
                found += [data] * (data[3] == 8 and data[12:16] == number(node, 4))
        return found

    def spelled(self, node, text):
        """The parts of a text as a node spells them."""
        head = bytes_of("4c4b0108 0000000000000005", f"{node:08x}", "0000000000000100") + number(len(text), 4)
        pieces = [(at, text[at:at + PIECE]) for at in range(0, len(text), PIECE)]
        return [head + number(at, 4) + number(len(piece), 2) + piece for at, piece in pieces]

    def wait_for(self, node, file, text, votes):
        """Waits until the text is the snapshot of the Base in that file, before so many votes."""
        self.wait_until(lambda: text + number(votes, 2) in self.read(node, file), f"not in {file} of node {node}")

    def wait_for_cut(self, node, file):
        """Waits until the file is empty, which a node makes it after it has written the other one."""
        self.wait_until(lambda: not self.read(node, file), f"{file} of node {node} was not cut")

    def wait_until(self, is_so, problem):
        """Waits for a condition."""
        end = time.monotonic() + 30.0
        while not is_so():
            self.assertLess(time.monotonic(), end, problem)
            time.sleep(0.02)

    def read(self, node, file):
        with open(self.path(node, file), "rb") as data:
            return data.read()

    def test_a_newcomer_is_given_parts_of_both_and_packs_to_the_same(self):
        text = self.files.text()
        for node in (1, 2):
            self.start(node, self.files.filled(node))
        one, two = self.parts(1, len(text)), self.parts(2, len(text))
        self.assertEqual((one, two), (self.spelled(1, text), self.spelled(2, text)))
        self.start(3)
        for part in (one[0], two[1], *one[2:]):
            self.third.sendto(part, ("127.0.0.1", self.own[2]))
        self.wait_for(3, "b", text, 0)
        self.wait_for_cut(3, "a")
        self.processes[3].kill()
        self.processes[3].wait()
        self.start_full()
        self.wait_for(3, "a", text, 1)

    def start_full(self):
        """Starts node 3 once its file has grown so long that it writes its snapshot, with the last of its votes."""
        with open(self.path(3, "b"), "ab") as file:
            file.write(votes())
        self.start(3)


if __name__ == "__main__":
    unittest.main()
