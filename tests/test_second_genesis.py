"""Nodes of two geneses: what a node asks the nodes that it hears, when it ends, and what it says."""
import os
import socket
import subprocess
import tempfile
import time
import unittest

from harness import frames
from harness.by_bytes import PROBE, Node, bytes_of
from harness.cluster import Cluster, free_ports
from locks_client import Client, Held, milliseconds

PROGRAM = os.environ.get("LOCKS_PROGRAM")
KEY = bytes([0x11]) * 32
OTHER = bytes([0x33]) * 32  # the digest of another genesis

# Node 1 asks node 2 for promises in its first and its ninth ballot, and gets them.
PREPARE = "4c4b0101 0000000000000005 00000001 0000000000000001 00000001 0000000000000001"
PROMISE = "4c4b0102 0000000000000005 00000002 0000000000000001 00000001 0000000000000001 00"
NEXT_PREPARE = "4c4b0101 0000000000000005 00000001 0000000000000009 00000001 0000000000000001"
NEXT_PROMISE = "4c4b0102 0000000000000005 00000002 0000000000000009 00000001 0000000000000001 00"

# Node 3 wants what it has missed, and gets the first position of the store of node 2: a no-op.
MEMBERS = "03 00000001 1b59 00000002 1b5a 00000003 1b5b"
BEGUN = (
    f"00000072 01 0000000000000001 02 0000000000000005 00000002 01 {MEMBERS} 0000000000000000 00000000 0000000000000000"
    f" 0000002c 0000000000000000 01 {MEMBERS} 00000003 0000000000000000 0000 0000 0000 0000"
)
NO_OP = "0000000a 04 0000000000000001 00"
WANT = "4c4b0107 0000000000000005 00000003 0000000000000001 00000000"
DECIDED = "4c4b0106 0000000000000005 00000002 0000000000000001 01 00"

# Node 3 asks node 2 for a promise in its ninth ballot.
THIRD_PREPARE = "4c4b0101 0000000000000005 00000003 0000000000000009 00000003 0000000000000001"

# Clients 9 and 8 ask with number 1 to acquire `db`.
ACQUIRE = bytes_of("4c4b0109 0000000000000005 00000000 0009 0000000000000001 00 04 01026462")
OTHER_ACQUIRE = ACQUIRE[:17] + b"\x08" + ACQUIRE[18:]

# Whoever is nobody asks what a node counts.
QUERY = bytes_of("4c500109 0000000000000005 00000000 0000 0000000000000001").ljust(174, b"\0")

REPORT = b"LP\1\x0a"  # what a report begins with

# What nodes send each other.
PREPARES, PROMISES, ACCEPTS, ACCEPTEDS, ANSWERS, LEADS = 1, 2, 3, 4, 10, 13

# What a report tells after the digest: program, format and table, counts that are 0, and one member.
REST = bytes_of("000100 02 01") + bytes(68) + bytes_of("01 00000001 1b59")


def asks(node, genesis):
    """The question of a node of that genesis which genesis the node at an address has: its number is the token too."""
    front = bytes_of("4c500109 0000000000000005") + node.to_bytes(4, "big") + bytes(2) + node.to_bytes(8, "big")
    return (front + genesis).ljust(174, b"\0")


def report(node, genesis, question):
    """The report by which a node of that genesis answers a question."""
    head = b"LP\1\x0a" + question[4:12] + node.to_bytes(4, "big") + question[16:26]
    return (head + genesis + REST).ljust(174, b"\0")


def reply(node, kind, data):
    """What a node says by the fields of a datagram."""
    return data[:3] + bytes([kind]) + data[4:12] + node.to_bytes(4, "big") + data[16:]


def ended(own, own_genesis, other, other_genesis):
    """The last line of a node that was led by a node of another genesis."""
    own, other = f"node {own} of genesis {own_genesis.hex()}", f"node {other} of genesis {other_genesis.hex()}"
    return f"another genesis: {own} was led by {other}"


@unittest.skipUnless(PROGRAM, "LOCKS_PROGRAM does not tell the program")
class QuestionsTest(unittest.TestCase):
    """Node 2 of three. The test stands at the ports of the others."""

    def setUp(self):
        self.node = self.enterContext(Node(PROGRAM, self.enterContext(tempfile.TemporaryDirectory())))
        self.genesis = frames.genesis_digest(5, 1, dict(enumerate(self.node.ports, 1)))
        self.question = asks(2, self.genesis)

    def start(self, *texts):
        """Starts it, on such a file if one is given."""
        if texts:
            self.node.write(self.node.bytes_of(*texts))
        self.assertEqual(self.node.start(), f"port {self.node.ports[1]}")

    def came(self, it, seconds):
        """What comes to a socket within so many seconds."""
        end, found = time.monotonic() + seconds, []
        while (left := end - time.monotonic()) > 0:
            it.settimeout(left)
            try:
                found.append(it.recv(9000))
            except TimeoutError:
                break
        it.settimeout(10.0)
        return found

    def questions(self, it, seconds):
        """How many questions come to a socket within so many seconds."""
        found = [data for data in self.came(it, seconds) if data.startswith(PROBE)]
        self.assertEqual(set(found) - {self.question}, set())
        return len(found)

    def led(self):
        """Node 1 asks for a promise, gets it, and is asked a question after that."""
        self.node.send(self.node.bytes_of(PREPARE))
        self.assertEqual(self.node.socket.recv(9000).hex(), self.node.bytes_of(PROMISE).hex())
        self.assertEqual(self.node.socket.recv(9000).hex(), self.question.hex())

    def third_tells_another(self):
        """Node 3, which does not lead, is asked a question after what it wanted, and tells another genesis."""
        self.from_third(self.node.bytes_of(WANT))
        self.assertEqual(self.node.third.recv(9000).hex(), self.node.bytes_of(DECIDED).hex())
        self.assertEqual(self.node.third.recv(9000).hex(), self.question.hex())
        self.from_third(report(3, OTHER, self.question))

    def from_third(self, data):
        """Sends it a datagram from the address of node 3."""
        self.node.third.sendto(data, ("127.0.0.1", self.node.ports[1]))

    def ticks(self, it):
        """How many ticks it counts."""
        it.sendto(QUERY, ("127.0.0.1", self.node.ports[1]))
        return int.from_bytes(it.recv(9000)[123:131], "big")

    def is_asked_once_more(self):
        self.assertEqual(self.questions(self.node.socket, 1.0), 1)
        self.assertEqual(self.questions(self.node.socket, 1.0), 0)

    def test_who_is_silent_is_asked_once_more_after_a_tick_and_heard_as_before(self):
        self.start()
        self.led()
        self.is_asked_once_more()
        self.node.send(self.node.bytes_of(NEXT_PREPARE))
        self.assertIn(self.node.bytes_of(NEXT_PROMISE), self.came(self.node.socket, 0.5))
        self.assertEqual(self.questions(self.node.socket, 0.5), 0)
        self.assertIsNone(self.node.process.poll())

    def test_nothing_is_asked_at_the_start_and_of_clients(self):
        self.start()
        client = self.enterContext(self.node.bound(0))
        client.sendto(ACQUIRE, ("127.0.0.1", self.node.ports[1]))
        self.assertEqual([self.questions(it, 0.5) for it in (client, self.node.socket, self.node.third)], [0, 0, 0])

    def test_a_datagram_of_another_cluster_brings_no_question(self):
        self.start()
        self.node.send(self.node.bytes_of(PREPARE.replace("0000000000000005", "0000000000000006")))
        self.assertEqual(self.questions(self.node.socket, 0.5), 0)

    def test_who_has_the_same_genesis_is_asked_once(self):
        self.start()
        self.led()
        self.node.send(report(1, self.genesis, self.question))
        self.assertEqual(self.questions(self.node.socket, 1.0), 0)
        self.node.send(self.node.bytes_of(NEXT_PREPARE))
        self.assertIn(self.node.bytes_of(NEXT_PROMISE), self.came(self.node.socket, 0.5))

    def test_a_node_ends_that_was_led_by_another_genesis(self):
        self.start()
        self.led()
        self.node.send(report(1, OTHER, self.question))
        told = self.node.process.communicate(timeout=60)[1].splitlines()
        self.assertEqual((told[-1], self.node.process.returncode), (ended(2, self.genesis, 1, OTHER), 1))

    def test_what_does_not_answer_the_question_tells_nothing(self):
        self.start()
        self.led()
        stranger = self.enterContext(self.node.bound(0))
        whole = report(1, OTHER, self.question)
        for data in (report(1, OTHER, self.question[:25] + b"\3"), whole[:-1], whole + b"\0"):
            self.node.send(data)
        stranger.sendto(whole, ("127.0.0.1", self.node.ports[1]))
        self.is_asked_once_more()
        self.assertIsNone(self.node.process.poll())

    def test_a_node_that_was_not_led_says_so_and_goes_on(self):
        self.node.words = ("--events",)
        self.start(BEGUN, NO_OP)
        self.third_tells_another()
        for _ in range(2):
            self.from_third(self.node.bytes_of(WANT))
        self.assertEqual(self.questions(self.node.third, 0.5), 0)
        self.node.send(self.node.bytes_of(NEXT_PREPARE))
        self.assertIn(PROMISES, [data[3] for data in self.came(self.node.socket, 0.5)])
        self.node.process.kill()
        self.assertEqual(self.node.process.stderr.read().count("node 2 hears node 3 of another genesis\n"), 1)

    def a_minute_passes(self):
        """Sends it datagrams until it has counted 601 more ticks: each 64th brings one."""
        it = self.enterContext(self.node.bound(0))
        end = self.ticks(it) + 601
        while self.ticks(it) < end:
            for _ in range(128):
                it.sendto(b"?", ("127.0.0.1", self.node.ports[1]))

    def third_gets(self, data):
        """How often node 3 is asked a question, gets a report, and gets what it wanted, by a datagram that it sends."""
        self.from_third(data)
        found = self.came(self.node.third, 0.5)
        reports = sum(it.startswith(REPORT) for it in found)
        return found.count(self.question), reports, found.count(self.node.bytes_of(DECIDED))

    def test_a_stranger_is_never_asked_again_and_heard_once_it_asks_with_the_right_genesis(self):
        self.node.words = ("--events",)
        self.start(BEGUN, NO_OP)
        self.third_tells_another()
        want = self.node.bytes_of(WANT)
        for genesis in (OTHER, bytes(32)):
            self.assertEqual(self.third_gets(want), (0, 0, 0))
            self.a_minute_passes()
            self.came(self.node.third, 0.5)
            found = [self.third_gets(data) for data in (want, asks(3, genesis), want)]
            self.assertEqual(found, [(0, 0, 0), (0, 1, 0), (0, 0, 0)])
        self.from_third(asks(3, self.genesis))
        while self.node.third.recv(9000) != self.question:
            pass
        self.from_third(report(3, self.genesis, self.question))
        found = [self.third_gets(data) for data in (want, asks(3, self.genesis), want)]
        self.assertEqual(found, [(0, 0, 1), (0, 1, 0), (0, 0, 1)])
        self.node.process.kill()
        self.assertEqual(self.node.process.stderr.read().count("node 2 hears node 3 of another genesis\n"), 3)

    def test_a_node_that_is_started_anew_with_the_right_genesis_is_heard_without_a_restart_of_others(self):
        self.start(BEGUN, NO_OP)
        self.third_tells_another()
        self.node.third.close()
        folder = self.enterContext(tempfile.TemporaryDirectory())
        words = ["--genesis", self.node.genesis, "--number", "3", "--port", str(self.node.ports[2]), "--dir", folder]
        third = subprocess.Popen([PROGRAM, "node", *words], stdin=subprocess.DEVNULL, stderr=subprocess.DEVNULL)
        self.addCleanup(third.wait)
        self.addCleanup(third.kill)
        with Client(5, 9, self.node.ports[1:], first=milliseconds(), patience=30.0) as client:
            self.assertEqual(client.acquire("db"), 1)  # nodes 2 and 3 are a majority
        self.assertEqual((self.node.process.poll(), third.poll()), (None, None))

    def test_what_comes_from_the_address_of_a_stranger_changes_nothing(self):
        self.start(BEGUN, NO_OP)
        self.third_tells_another()
        for data in (self.node.bytes_of(WANT), self.node.bytes_of(THIRD_PREPARE), OTHER_ACQUIRE):
            self.from_third(data)
        end = time.monotonic() + 2.0
        while time.monotonic() < end:  # it asks for promises again and again, and gets none that counts
            for data in self.came(self.node.third, 0.1):
                self.assertIn(data[3], (PREPARES, LEADS), data.hex())
                if data[3] == PREPARES:
                    self.from_third(reply(3, PROMISES, data) + b"\0")
        found = self.came(self.node.socket, 0.1)
        self.assertEqual({data[3] for data in found}, {PREPARES, LEADS})
        self.is_led_by_node_2()

    def is_led_by_node_2(self):
        """Node 1 promises and votes, and client 9 is served."""
        client = self.enterContext(self.node.bound(0))
        client.sendto(ACQUIRE, ("127.0.0.1", self.node.ports[1]))
        while (data := self.node.socket.recv(9000))[3] != ACCEPTS:
            if data[3] == PREPARES:
                self.node.send(reply(1, PROMISES, data) + b"\0")
        self.assertEqual(data[37:39], ACQUIRE[16:18])
        self.node.send(reply(1, ACCEPTEDS, data))
        self.assertEqual(client.recv(9000)[3], ANSWERS)

    def test_what_is_dropped_brings_no_tick(self):
        self.start(BEGUN, NO_OP)
        self.third_tells_another()
        it = self.enterContext(self.node.bound(0))
        began, before = time.monotonic(), self.ticks(it)
        for _ in range(40):  # of others each 64 bring a tick
            for _ in range(64):
                self.from_third(self.node.bytes_of(WANT))
            time.sleep(0.005)
        self.assertLess(self.ticks(it) - before, 10 * (time.monotonic() - began) + 2)

    def test_with_a_key_no_genesis_is_asked(self):
        key = self.node.path("key")
        with open(os.open(key, os.O_CREAT | os.O_WRONLY, 0o600), "w", encoding="ascii") as file:
            file.write(f"{KEY.hex()}\n")
        self.node.words = ("--key", key)
        self.start()
        seal = lambda bound, text: frames.seal(KEY, frames.NODE, 5, self.genesis, bound, self.node.bytes_of(text))
        self.node.send(seal(2, PREPARE))
        self.assertEqual(self.node.socket.recv(9000).hex(), seal(1, PROMISE).hex())
        found = self.came(self.node.socket, 1.0)
        self.assertEqual([data for data in found if data[:2] != b"LS"], [])
        probes = [data[36:] for data in found if data[36:38] == b"LP"]
        self.assertTrue(probes)  # by which it hears the member, each with a token of its own
        tokens = [int.from_bytes(probe[18:26], "big") for probe in probes]
        self.assertEqual(len(set(tokens)), len(tokens))
        self.assertNotIn(2, tokens)  # that of the question is its own number


@unittest.skipUnless(PROGRAM, "LOCKS_PROGRAM does not tell the program")
class ProcessesTest(unittest.TestCase):
    """Three nodes of one genesis, of which client 8 holds a lock, and a fourth of another."""

    def setUp(self):
        self.cluster = self.enterContext(Cluster(PROGRAM, self.enterContext(tempfile.TemporaryDirectory()), logs=True))
        self.genesis = frames.genesis_digest(5, 8, self.cluster.ports)
        self.holder = self.enterContext(self.cluster.client(Client, 8, patience=60.0))
        self.other = self.enterContext(self.cluster.client(Client, 10, patience=60.0))
        self.fence = self.holder.acquire("db")
        [self.port] = free_ports(1)

    def fourth(self, ports):
        """Node 4 of a genesis of these nodes, and the digest of that."""
        folder = os.path.join(self.cluster.folder, "other")
        os.makedirs(folder, exist_ok=True)
        members = ",".join(f"{node}:{port}" for node, port in ports.items())
        words = ["--genesis", f"5,8,{members}", "--number", "4", "--port", str(self.port), "--dir", folder]
        pipes = {"stdin": subprocess.DEVNULL, "stderr": subprocess.PIPE, "text": True}
        process = subprocess.Popen([PROGRAM, "node", *words], **pipes)
        self.addCleanup(process.communicate)
        self.addCleanup(process.kill)
        return process, frames.genesis_digest(5, 8, ports)

    def asked_until_it_ends(self, process):
        """Asks node 4 again and again for the lock, and gives what it answers."""
        found, end = [], time.monotonic() + 30.0
        with socket.socket(socket.AF_INET, socket.SOCK_DGRAM) as it:
            it.settimeout(0.05)
            while process.poll() is None:
                self.assertLess(time.monotonic(), end)
                try:
                    it.sendto(ACQUIRE, ("127.0.0.1", self.port))
                    found.append(it.recv(9000))
                except OSError:
                    time.sleep(0.01)
        return found

    def serves_on(self):
        """The lock is held as before, and then given to one who waits for it."""
        self.assertEqual(self.other.ask("db"), Held(8, self.fence))
        self.holder.release("db", self.fence)
        self.assertEqual(self.other.acquire("db"), self.fence + 1)

    def last_line(self, node):
        """What a node said last."""
        with open(self.cluster.log(node), encoding="utf-8") as log:
            return log.read().splitlines()[-1]

    def test_a_newcomer_that_names_only_itself_ends_and_grants_nothing(self):
        self.holder.join(4, self.port)
        for _ in range(3):
            process, genesis = self.fourth({4: self.port})
            answers = self.asked_until_it_ends(process)
            self.assertEqual([data.hex() for data in answers if data[3] == 10], [])
            line = process.stderr.read().splitlines()[-1]
            self.assertEqual(process.returncode, 1, line)
            self.assertIn(line, [ended(4, genesis, node, self.genesis) for node in self.cluster.ports])
        self.assertEqual([self.cluster.processes[node].poll() for node in self.cluster.ports], [None] * 3)
        self.serves_on()

    def test_all_end_that_a_node_of_another_genesis_has_led(self):
        process, genesis = self.fourth({**self.cluster.ports, 4: self.port})
        for node in self.cluster.ports:
            self.assertEqual(self.cluster.processes[node].wait(30), 1)
            self.assertEqual(self.last_line(node), ended(node, self.genesis, 4, genesis))
        self.assertIsNone(process.poll())
        process.kill()
        process.wait()
        for node in self.cluster.ports:
            self.cluster.start(node)
        self.serves_on()


if __name__ == "__main__":
    unittest.main()
