"""Tests of nodes as processes, of what a test within one process cannot show."""
import os
import select
import socket
import subprocess
import tempfile
import time
import unittest

from harness import frames
from harness.by_bytes import bytes_of
from harness.cluster import free_ports
from harness.relay import Forward
from locks_client import Client, Free, milliseconds

PROGRAM = os.environ.get("LOCKS_PROGRAM")

# The probe of node 1 to itself, up to the digest of its genesis.
ASKS = bytes_of("4c500109 0000000000000005 00000001 0000 0000000000000001")

# Client 9 asks with number 1 who holds `db`, and is told that nobody does.
ASK = bytes_of("4c4b0109 0000000000000005 00000000 0009 0000000000000001 00 04 03026462")


@unittest.skipUnless(PROGRAM, "LOCKS_PROGRAM does not tell the program")
class NodesTest(unittest.TestCase):
    def setUp(self):
        self.folder = self.enterContext(tempfile.TemporaryDirectory())
        self.ports = free_ports(2)

    def start(self, port, more="", options=()):
        """Starts node 1 of a cluster of its own at that port. The genesis names the first port, and further members."""
        genesis = f"5,8,1:{self.ports[0]}{more}"
        words = ["--genesis", genesis, "--number", "1", "--port", str(port), "--dir", self.folder, *options]
        node = subprocess.Popen([PROGRAM, "node", *words], stdin=subprocess.DEVNULL, stderr=subprocess.PIPE, text=True)
        self.addCleanup(node.communicate)
        self.addCleanup(node.kill)
        return node

    def probe(self, *others):
        """The probe of node 1 to itself, if the genesis names nodes at these other ports too."""
        digest = frames.genesis_digest(5, 8, dict(enumerate((self.ports[0], *others), 1)))
        return (ASKS + digest).ljust(174, b"\0")

    def bound(self, port):
        """A socket at a port."""
        it = self.enterContext(socket.socket(socket.AF_INET, socket.SOCK_DGRAM))
        it.bind(("127.0.0.1", port))
        it.settimeout(10.0)
        return it

    def key(self):
        """The options of a node with a key."""
        path = os.path.join(self.folder, "key")
        with open(os.open(path, os.O_CREAT | os.O_WRONLY, 0o600), "w", encoding="ascii") as file:
            file.write("11" * 32 + "\n")
        return "--key", path

    def wait_until_up(self):
        """Waits until the node at the first port answers."""
        with Client(5, 1, self.ports[:1], first=milliseconds(), patience=30.0) as client:
            self.assertEqual(client.ask("db"), Free(0))

    def test_a_folder_has_one_process(self):
        first = self.start(self.ports[0])
        self.wait_until_up()
        second = self.start(self.ports[1])
        self.assertIn("cannot open", second.communicate(timeout=60)[1].splitlines())
        self.assertEqual(second.returncode, 1)
        dumped = subprocess.run([PROGRAM, "dump", "--dir", self.folder], stdout=subprocess.PIPE, text=True)
        self.assertEqual((dumped.returncode, dumped.stdout.split("\n")[0]), (0, "generation 1"))
        first.kill()
        first.wait()
        self.start(self.ports[0])
        self.wait_until_up()

    def test_a_decided_command_is_in_the_file_before_it_is_answered(self):
        self.start(self.ports[0])
        self.wait_until_up()
        with Client(5, 2, self.ports[:1], first=milliseconds(), patience=30.0) as client:
            for _ in range(8):
                fence = client.acquire("db")
                told = subprocess.run([PROGRAM, "inspect", "--dir", self.folder], stdout=subprocess.PIPE, text=True)
                self.assertIn(f"held db 2 {fence}", told.stdout.splitlines())
                client.release("db", fence)

    def test_a_port_that_is_taken_cannot_be_opened(self):
        with socket.socket(socket.AF_INET, socket.SOCK_DGRAM) as taken:
            taken.bind(("127.0.0.1", self.ports[0]))
            node = self.start(self.ports[0])
            self.assertIn("cannot open", node.communicate(timeout=60)[1].splitlines())
        self.assertEqual((node.returncode, os.listdir(self.folder)), (1, []))

    def test_a_node_at_another_port_says_so(self):
        node = self.start(self.ports[1])
        said = node.stderr.readline()
        self.assertEqual(
            said, f"warning: the genesis names node 1 at port {self.ports[0]}, and it listens at port {self.ports[1]}\n"
        )
        time.sleep(0.5)
        self.assertIsNone(node.poll())

    def is_silent(self, node, seconds):
        """Whether a node says nothing within so many seconds."""
        return not select.select([node.stderr], [], [], seconds)[0]

    def carried(self, relay):
        """What a relay has carried once something came, and nothing for half a second after that."""
        end = time.monotonic() + 10.0
        while not relay.carried and time.monotonic() < end:
            time.sleep(0.01)
        time.sleep(0.5)
        return relay.carried

    def test_a_node_that_a_relay_carries_its_probe_to_says_nothing(self):
        with Forward(self.ports[0], self.ports[1]) as relay:
            [other] = free_ports(1)
            node = self.start(self.ports[1], f",2:{other}")
            self.assertEqual(self.carried(relay), [self.probe(other)])
            self.assertFalse(self.ticks_until_it_says(node, "warning"))
            self.assertEqual(relay.carried, [self.probe(other)])

    def test_with_a_key_the_probe_is_sealed(self):
        options = self.key()
        with Forward(self.ports[0], self.ports[1]) as relay:
            node = self.start(self.ports[1], options=options)
            self.assertEqual([(data[:2], data[36:]) for data in self.carried(relay)], [(b"LS", self.probe())])
            self.assertTrue(self.is_silent(node, 0.5))
            node.kill()
            node.wait()
        self.assertIn("warning: the genesis names node 1", self.start(self.ports[1], options=options).stderr.readline())

    def test_only_the_very_probe_tells_that_a_node_is_heard(self):
        named = self.bound(self.ports[0])
        node = self.start(self.ports[1])
        data, sender = named.recvfrom(9000)
        self.assertEqual((data, sender), (self.probe(), ("127.0.0.1", self.ports[1])))
        others = (
            data[:-1],
            data + b"\0",
            data[:25] + b"\2" + data[26:],
            data[:58].ljust(174, b"\1"),
            b"LP\1\x0a" + data[4:],
            b"",
        )
        for other in others:
            named.sendto(other, sender)
        self.assertIn("warning: the genesis names node 1", node.stderr.readline())
        named.settimeout(0.5)
        with self.assertRaises(TimeoutError):
            named.recv(9000)

    def test_what_comes_before_the_probe_comes_back_is_lost(self):
        named, client = self.bound(self.ports[0]), self.bound(0)
        node = self.start(self.ports[1])
        data, sender = named.recvfrom(9000)
        client.sendto(ASK, sender)
        named.sendto(data, sender)
        client.settimeout(1.0)
        with self.assertRaises(TimeoutError):
            client.recv(9000)
        client.sendto(ASK, sender)
        self.assertEqual(client.recv(9000)[3], 10)
        self.assertTrue(self.is_silent(node, 0.1))

    def ticks_until_it_says(self, node, text, minutes=1.5):
        """Sends datagrams that do not read, of which every 64th brings a tick, until the node says a line of that or so
        many minutes of ticks have passed. Whether it has."""
        with socket.socket(socket.AF_INET, socket.SOCK_DGRAM) as it:
            for _ in range(int(minutes * 600)):
                for _ in range(64):
                    it.sendto(b"nothing", ("127.0.0.1", self.ports[1]))
                if select.select([node.stderr], [], [], 0.002)[0] and text in node.stderr.readline():
                    return True
        return False

    def test_a_node_at_another_port_says_so_each_minute_until_it_hears_of_a_leader(self):
        for more, says in ((f",2:{free_ports(1)[0]}", True), ("", False)):
            with self.subTest(more=more):
                node = self.start(self.ports[1], more)
                node.stderr.readline()
                self.assertEqual(self.ticks_until_it_says(node, "warning: node 1 has heard of no leader"), says)
                node.kill()
                node.wait()
                for name in "ab":
                    os.remove(os.path.join(self.folder, name))

    def test_the_version_is_told(self):
        told = subprocess.run([PROGRAM, "--version"], stdout=subprocess.PIPE, text=True)
        self.assertEqual((told.returncode, told.stdout.split()[0]), (0, "locks"))


if __name__ == "__main__":
    unittest.main()
