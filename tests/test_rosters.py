"""The answers to joins and leaves, and which members a node counts afterwards."""
import os
import re
import subprocess
import tempfile
import threading
import time
import unittest

from harness.by_bytes import Node, received
from harness.cluster import free_ports

PROGRAM = os.environ.get("LOCKS_PROGRAM")

# How many members stand at first, and what is asked one after another and answered.
ROWS = [
    (1, [("leave 1", "last"), ("join 2 9", "joined")]),
    (2, [
        ("leave 2", "left"),
        ("join 2 9", "used"),
        ("leave 2", "not a member"),
        ("leave 1", "last"),
        ("join 3 9", "joined"),
    ]),
    (7, [
        ("join 8 9", "full"),
        ("join 7 9", "used"),
        ("leave 9", "not a member"),
        ("leave 7", "left"),
        ("join 8 9", "joined"),
        ("join 9 9", "full"),
    ]),
]

# The ballot (1, 2), from position 3 on: node 2 asks for a promise, and nodes 3 and 4 give it.
PREPARE = "4c4b0101 0000000000000005 00000002 0000000000000001 00000002 0000000000000003"
PROMISE_3 = "4c4b0102 0000000000000005 00000003 0000000000000001 00000002 0000000000000003 00"
PROMISE_4 = "4c4b0102 0000000000000005 00000004 0000000000000001 00000002 0000000000000003 00"

# The votes that it asks for: a no-op at each of positions 3 and 4.
AT_3 = "0000000000000001 00000002 0000000000000003 00"
AT_4 = "0000000000000001 00000002 0000000000000004 00"

# What is told as decided once they are counted.
DECIDED_3 = "4c4b0106 0000000000000005 00000002 0000000000000003 01 00"
DECIDED_4 = "4c4b0106 0000000000000005 00000002 0000000000000004 01 00"

# Who has accepted one, how many positions are executed then, and what each other node of the window is told by that:
# nodes 1, 3 and 4.
ACCEPTED = [
    ("00000003", AT_3, 2, [None, None, None]),
    ("00000004", AT_3, 3, [DECIDED_3, DECIDED_3, DECIDED_3]),
    ("00000001", AT_4, 3, [None, None, None]),
    ("00000003", AT_4, 4, [None, DECIDED_4, DECIDED_4]),
]

# A smaller ballot of node 9, which is no member, and what it gets, up to how many positions are executed.
SMALLER = "4c4b0101 0000000000000005 00000009 0000000000000001 00000001 0000000000000001"
NACK = "4c4b0105 0000000000000005 00000002 0000000000000001 00000001 0000000000000001 00000002"

# The first Base of node 2 in formats 2 and 1, and entries by which node 4 joins at position 1 and node 1 leaves at 2.
# On a file of format 1 the node writes a snapshot as it comes up, at 2.
MEMBERS = "03 00000001 1b59 00000002 1b5a 00000003 1b5b"
REST = (
    f"0000000000000005 00000002 02 {MEMBERS} 0000000000000000 00000000 0000000000000000"
    f" 0000003f 0000000000000000 02 {MEMBERS} {MEMBERS} 00000003 0000000000000000 0000 0000 0000 0000"
)
BEGUN, OLD = f"00000085 01 0000000000000001 02 {REST}", f"00000085 01 0000000000000001 01 {REST}"
JOIN = "0000001b 04 0000000000000001 01 0009 0000000000000001 01 00000004 1b5c"
LEAVE = "00000019 04 0000000000000002 01 0009 0000000000000002 02 00000001"

# Node 4, which has nothing, asks for what it lacks, and gets the state of 80 bytes in one datagram of 114.
WANT = "4c4b0107 0000000000000005 00000004 0000000000000001 00000000"
STATE = (
    f"0000000000000002 02 04 00000001 1b59 00000002 1b5a 00000003 1b5b 00000004 1b5c"
    f" 03 00000002 1b5a 00000003 1b5b 00000004 1b5c 00000004 0000000000000002 0001 0009 0000000000000002 23 0000"
)
PART = f"4c4b0108 0000000000000005 00000002 0000000000000002 00000050 00000000 0050 {STATE}"


def printed(lines):
    """What a script prints."""
    script = "".join(f"{line}\n" for line in lines)
    run = subprocess.run([PROGRAM, "sim"], input=script, capture_output=True, text=True, timeout=60)
    return run.stdout


def delivered(lines, done):
    """The script, and after it each datagram to a node beyond the first so many, one after another as they come about;
    and how many there are then."""
    while True:
        sent = re.findall(r"(?m)^sent (\d+) \S+ (n[1-7]) ", printed(lines))
        more = [f"deliver {k}" for k, _ in sent if int(k) > done]
        if not more:
            return lines, done
        lines, done = lines + more, max(int(k) for k, _ in sent)


def answers(count, asked):
    """What client 9 is answered by node 1, the leader of so many."""
    nodes = range(1, count + 1)
    genesis = " ".join(f"{node}:{7000 + node}" for node in nodes)
    lines, done = delivered([f"genesis 5 1 {genesis}", *(f"start {node}" for node in nodes), "tick 1 4"], 0)
    for number, op in enumerate(asked, 1):
        lines, done = delivered([*lines, f"client 1 9 {number} {op}"], done)
    return re.findall(r"(?m)^answered 1 9 \d+ (.*)$", printed(lines))


@unittest.skipUnless(PROGRAM, "LOCKS_PROGRAM does not tell the program")
class RosterTest(unittest.TestCase):
    def test_each_join_and_leave_is_answered(self):
        for count, asked in ROWS:
            with self.subTest(members=count):
                self.assertEqual(answers(count, [op for op, _ in asked]), [text for _, text in asked])


@unittest.skipUnless(PROGRAM, "LOCKS_PROGRAM does not tell the program")
class MajorityTest(unittest.TestCase):
    """Node 2 of three with alpha 2. Its members are four at position 3, and nodes 2 to 4 at position 4."""

    def setUp(self):
        self.node = self.enterContext(Node(PROGRAM, self.enterContext(tempfile.TemporaryDirectory()), alpha=2))
        self.node.ports += free_ports(1)
        self.fourth, self.ninth = self.node.bound(self.node.ports[3]), self.node.bound(0)
        for it in (self.fourth, self.ninth):
            self.addCleanup(it.close)

    def came(self, it, count=1):
        """The next datagrams to a node, but for Prepares and Leads, which come again at each tick."""
        found = []
        while len(found) < count:
            data = received(it)
            found += [data.hex()] * (data[3] not in (1, 13))
        return found

    def hex_of(self, *texts):
        return self.node.bytes_of(*texts).hex()

    def barrier(self, executed):
        """Node 9 is refused: the node has taken all that it was sent before."""
        self.ninth.sendto(self.node.bytes_of(SMALLER), ("127.0.0.1", self.node.ports[1]))
        self.assertEqual(self.came(self.ninth), [self.hex_of(f"{NACK} {executed:016x}")])

    def is_told(self, datagrams):
        """Nodes 1, 3 and 4 are sent these, each or nothing, beside Prepares and Leads."""
        for it, text in zip((self.node.socket, self.node.third, self.fourth), datagrams):
            if text:
                self.assertEqual(self.came(it), [self.hex_of(text)])
            it.setblocking(False)
            with self.assertRaises(BlockingIOError):
                self.came(it)
            it.settimeout(10.0)

    def lead(self):
        """The node executes the join and the leave as it comes up, and begins a ballot at its eighth tick."""
        self.node.write(self.node.bytes_of(BEGUN, JOIN, LEAVE))
        self.assertEqual((self.node.start(), self.node.runs), (f"port {self.node.ports[1]}", [1, 2]))
        for it in (self.node.socket, self.node.third, self.fourth):
            self.assertEqual(it.recv(9000).hex(), self.hex_of(PREPARE))

    def test_the_members_of_each_position_make_its_majorities(self):
        self.lead()
        self.node.send(self.node.bytes_of(PROMISE_3))
        self.barrier(2)
        self.is_told([None, None, None])  # two of four have promised
        self.node.send(self.node.bytes_of(PROMISE_4))
        votes = [self.hex_of("4c4b0103 0000000000000005 00000002", vote) for vote in (AT_3, AT_4)]
        for it, count in ((self.node.socket, 1), (self.node.third, 2), (self.fourth, 2)):
            self.assertEqual(self.came(it, count), votes[:count])
        for sender, vote, executed, told in ACCEPTED:
            self.node.send(self.node.bytes_of("4c4b0104 0000000000000005", sender, vote))
            self.barrier(executed)
            self.is_told(told)
        self.barrier(executed)  # of a later turn: a turn is logged after its letters
        self.assertEqual(self.logged(), ["counted 3", "ran 3", "counted 4", "ran 4"])

    def logged(self):
        """What was logged as counted and run after the node came up."""
        self.node.process.kill()
        return re.findall(r"(?m)^\[INFO .*\] ((?:counted|ran) \d+)$", self.node.process.stderr.read())

    def test_a_newcomer_is_served_the_state_in_one_part(self):
        self.node.write(self.node.bytes_of(OLD, JOIN, LEAVE))
        self.assertEqual(self.node.start(), f"port {self.node.ports[1]}")
        self.fourth.sendto(self.node.bytes_of(WANT), ("127.0.0.1", self.node.ports[1]))
        part = self.fourth.recv(9000)
        self.assertEqual((len(part), len(part[34:]), part.hex()), (114, 80, self.hex_of(PART)))


@unittest.skipUnless(PROGRAM, "LOCKS_PROGRAM does not tell the program")
class LogTest(unittest.TestCase):
    """A node that stands alone, told to log."""

    def test_each_position_that_is_counted_and_run_is_logged(self):
        folder, [port] = self.enterContext(tempfile.TemporaryDirectory()), free_ports(1)
        words = ["--genesis", f"5,2,1:{port}", "--number", "1", "--port", str(port), "--dir", folder, "--log"]
        node = subprocess.Popen([PROGRAM, "node", *words], stdin=subprocess.DEVNULL, stderr=subprocess.PIPE, text=True)
        self.addCleanup(node.communicate)
        self.addCleanup(node.kill)
        time.sleep(0.8)  # it begins a ballot at its fourth tick
        asked = ["--cluster", "5", "--port", str(port), "--client", "7", "--request"]
        for number, op in enumerate(("acquire db", "release db 1"), 1):
            for _ in range(3):
                command = [PROGRAM, "ask", *asked, str(number), *op.split()]
                told = subprocess.run(command, capture_output=True, text=True)
                if told.returncode == 0:
                    break
        late = threading.Timer(10, node.kill)  # the node may log after it has answered
        late.start()
        lines = [node.stderr.readline().rstrip("\n") for _ in range(4)]
        late.cancel()
        node.kill()
        self.assertEqual(node.communicate(timeout=60)[1], "", lines)
        for line, message in zip(lines, ("counted 1", "ran 1", "counted 2", "ran 2")):
            self.assertRegex(line, rf"\A\[INFO [^\]]*\] {message}\Z")


if __name__ == "__main__":
    unittest.main()
