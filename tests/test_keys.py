"""What `locks ask` sends and hears with the key of a client."""
import os
import socket
import subprocess
import tempfile
import unittest

from harness import frames
from harness.by_bytes import bytes_of
from locks_client.seals import client_key

PROGRAM = os.environ.get("LOCKS_PROGRAM")
KEY, MASTER = bytes([0x11]) * 32, bytes([0x22]) * 32

# Client 7 of cluster 5 asks with number 1 to acquire `db`, and is granted it at fence 1 or at fence 9.
ASKED = bytes_of("4c4b0109 0000000000000005 00000000 0007 0000000000000001 00 04 01026462")
GRANTED = bytes_of("4c4b010a 0000000000000005 00000001 0007 0000000000000001 01 0000000000000001")
FORGED = bytes_of("4c4b010a 0000000000000005 00000001 0007 0000000000000001 01 0000000000000009")


def sealed(purpose, datagram, client=7, key=None, cluster=5):
    """The frame of a datagram of that client, or to it."""
    return frames.seal(key or client_key(MASTER, 7), purpose, cluster, bytes(32), client, datagram)


# Replies that a client drops, by what is wrong with each.
WRONG = {
    "no frame": FORGED,
    "another key": sealed(frames.REPLY, FORGED, key=bytes([0x33]) * 32),
    "the nodes' key": sealed(frames.REPLY, FORGED, key=KEY),
    "the master": sealed(frames.REPLY, FORGED, key=MASTER),
    "the key of another client": sealed(frames.REPLY, FORGED, key=client_key(MASTER, 8)),
    "for another client": sealed(frames.REPLY, FORGED, client=8),
    "of another cluster": sealed(frames.REPLY, FORGED, cluster=6),
    "for another purpose": sealed(frames.REQUEST, FORGED),
    "a datagram that was changed": sealed(frames.REPLY, GRANTED)[:-1] + b"\x09",
    "cut": sealed(frames.REPLY, FORGED)[:-1],
}


@unittest.skipUnless(PROGRAM, "LOCKS_PROGRAM does not tell the program")
class KeysTest(unittest.TestCase):
    def setUp(self):
        self.node = self.enterContext(socket.socket(socket.AF_INET, socket.SOCK_DGRAM))
        self.node.bind(("127.0.0.1", 0))
        self.node.settimeout(10.0)
        self.key = os.path.join(self.enterContext(tempfile.TemporaryDirectory()), "key")
        with open(os.open(self.key, os.O_CREAT | os.O_WRONLY, 0o600), "w", encoding="ascii") as file:
            file.write(f"{client_key(MASTER, 7).hex()}\n")

    def told(self, *replies):
        """What `ask` sends, and what it prints of these replies."""
        words = ["--cluster", "5", "--port", str(self.node.getsockname()[1]), "--client", "7", "--request", "1"]
        words += ["--client-key", self.key, "acquire", "db"]
        with subprocess.Popen([PROGRAM, "ask", *words], stdout=subprocess.PIPE, text=True) as process:
            data, client = self.node.recvfrom(9000)
            for reply in replies:
                self.node.sendto(reply, client)
            return data, process.communicate(timeout=60)[0]

    def test_a_request_is_sealed_and_so_is_its_reply(self):
        self.assertEqual(self.told(sealed(frames.REPLY, GRANTED)), (sealed(frames.REQUEST, ASKED), "granted 1\n"))

    def test_a_forged_reply_is_dropped(self):
        self.assertEqual(self.told(*WRONG.values(), sealed(frames.REPLY, GRANTED))[1], "granted 1\n")
        for name, frame in WRONG.items():
            with self.subTest(name):
                self.assertEqual(self.told(*[frame] * 50)[1], "no answer\n")


if __name__ == "__main__":
    unittest.main()
