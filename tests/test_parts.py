"""A snapshot in parts, datagram by datagram."""
import contextlib
import os
import select
import socket
import subprocess
import tempfile
import time
import unittest

from harness.cluster import Cluster, free_ports

PROGRAM = os.environ.get("LOCKS_PROGRAM")
WANT, PART = 7, 8
POSITION = 100_000
PIECE = 1024  # bytes of a text in each part but the last


def number(value, size):
    """A number as it is spelled in so many bytes."""
    return value.to_bytes(size, "big")


def members(ports):
    """Members as they are spelled: their count, and the number and the port of each."""
    return number(len(ports), 1) + b"".join(number(node, 4) + number(port, 2) for node, port in ports.items())


def longest_text(ports):
    """The longest packed state of a table that was never raised: seven members at each of the next sixteen positions,
    256 clients who were told Busy last, and 512 names of 32 bytes, each held by client 1 at fence 9."""
    head = number(POSITION, 8) + number(16, 1) + 16 * members(ports) + number(7, 4) + number(0, 8)
    sessions = b"".join(
        number(client, 2) + number(5, 8) + number(2, 1) + number(1, 2) + number(9, 8) for client in range(1, 257)
    )
    names = b"".join(number(32, 1) + b"%032d" % place + number(9, 8) + number(1, 2) for place in range(512))
    return head + number(256, 2) + sessions + number(512, 2) + names


def file_of(cluster, ports, node, text):
    """A file whose Base has that text as its snapshot, and nothing else."""
    genesis = number(cluster, 8) + number(node, 4) + number(16, 1) + members(ports)
    head = number(1, 1) + number(1, 8) + number(2, 1) + genesis
    body = head + number(0, 8) + number(0, 4) + number(POSITION, 8) + number(len(text), 4) + text + number(0, 4)
    return number(len(body), 4) + body


class Nodes(Cluster):
    """Seven members, of which nodes 1 and 2 are processes. They listen at other ports than the genesis names, at
    which the test stands."""

    def __init__(self, folder):
        super().__init__(PROGRAM, folder, nodes=7, alpha=16)
        self.own = dict(zip((1, 2), free_ports(2)))

    def begin(self, node, files):
        """Starts a node on these files."""
        folder = os.path.join(self.folder, str(node))
        os.makedirs(folder)
        for name, data in files.items():
            with open(os.path.join(folder, name), "wb") as file:
                file.write(data)
        words = ["--genesis", self.genesis, "--number", str(node), "--port", str(self.own[node]), "--dir", folder]
        command = [PROGRAM, "node", *words]
        self.processes[node] = subprocess.Popen(command, stdin=subprocess.DEVNULL, stderr=subprocess.DEVNULL)

    def files_of(self, node):
        """What stands in both files of a node."""
        both = b""
        for name in "ab":
            with open(os.path.join(self.folder, str(node), name), "rb") as file:
                both += file.read()
        return both

    def named_socket(self, node):
        """A socket at the port at which the genesis names a node."""
        it = socket.socket(socket.AF_INET, socket.SOCK_DGRAM)
        it.bind(("127.0.0.1", self.ports[node]))
        return it


@unittest.skipUnless(PROGRAM, "LOCKS_PROGRAM does not tell the program")
class PartsTest(unittest.TestCase):
    """Node 1 has the longest text and node 2 has nothing. All that they tell one another goes through the test."""

    def setUp(self):
        folder = self.enterContext(tempfile.TemporaryDirectory())
        self.nodes = Nodes(folder)
        self.addCleanup(self.nodes.__exit__)
        self.text = longest_text(self.nodes.ports)
        self.named = {self.enterContext(self.nodes.named_socket(node)): node for node in (1, 2)}
        self.offsets, self.parts = [], []
        self.nodes.begin(1, {"a": file_of(5, self.nodes.ports, 1, self.text), "b": b""})
        self.nodes.begin(2, {})

    def pass_on(self, data, node):
        """Hands a datagram to its node. Every second part comes in the name of node 3."""
        if data[3] == WANT and node == 1:
            self.offsets.append(int.from_bytes(data[24:28], "big"))
        if data[3] == PART and node == 2:
            self.parts.append(data[16:])
            if len(self.parts) % 2 == 0:
                data = data[:12] + number(3, 4) + data[16:]
        with contextlib.suppress(OSError):  # the node may still be starting
            self.out.sendto(data, ("127.0.0.1", self.nodes.own[node]))

    def relay_until_installed(self, seconds=30.0):
        """Passes on what comes until the text stands in a file of node 2."""
        self.out = self.enterContext(socket.socket(socket.AF_INET, socket.SOCK_DGRAM))
        end = time.monotonic() + seconds
        while self.text not in self.nodes.files_of(2):
            self.assertLess(time.monotonic(), end, f"wanted from {self.offsets} on")
            for it in select.select(list(self.named), [], [], 0.1)[0]:
                self.pass_on(it.recv(8192), self.named[it])

    def test_the_longest_text_goes_in_28_parts_of_two_nodes(self):
        self.assertEqual(len(self.text), 28_105)
        while not os.path.exists(os.path.join(self.nodes.folder, "2", "b")):
            time.sleep(0.02)
        self.relay_until_installed()
        self.assertEqual(self.offsets[0], 0)
        self.assertEqual([offset for offset in self.offsets if offset % PIECE], [])
        pieces = [self.text[at:at + PIECE] for at in range(0, len(self.text), PIECE)]
        spelled = [
            number(POSITION, 8) + number(28_105, 4) + number(place * PIECE, 4) + number(len(piece), 2) + piece
            for place, piece in enumerate(pieces)
        ]
        self.assertEqual((len(spelled), len(pieces[-1])), (28, 457))
        self.assertEqual(list(dict.fromkeys(self.parts)), spelled)


if __name__ == "__main__":
    unittest.main()
