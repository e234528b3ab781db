"""What a node tells an operator with --events: each event, its time, and how many lines."""
import contextlib
import datetime
import os
import re
import signal
import subprocess
import tempfile
import threading
import time
import unittest

from harness import frames
from harness.by_bytes import Node, bytes_of
from harness.cluster import Cluster, free_ports

PROGRAM = os.environ.get("LOCKS_PROGRAM")

LONG = 60  # seconds that only a hang takes
TWO_AND_MORE, FOUR_AND_MORE = r"([2-9]|\d\d+)", r"([4-9]|\d\d+)"  # seconds, as a busy machine is late

LINE = re.compile(r"\[(INFO |WARN |ERROR) locks\] (\d{4}-\d\d-\d\dT\d\d:\d\d:\d\d\.\d{3}Z) node (\d+) (.*)")

# Node 1 leads in its first ballot and has executed one position, which is a no-op.
LEAD = "4c4b010d 0000000000000005 00000001 0000000000000001 00000001 0000000000000001"
# The same in its ninth round, and in another cluster.
LATER = "4c4b010d 0000000000000005 00000001 0000000000000009 00000001 0000000000000001"
FOREIGN = "4c4b010d 0000000000000006 00000001 0000000000000001 00000001 0000000000000001"
DECIDED = "4c4b0106 0000000000000005 00000001 0000000000000001 01 00"
# It has executed two positions, at which nodes 4 and 5 join.
JOINS = (
    "4c4b0106 0000000000000005 00000001 0000000000000001 02"
    " 01 0007 0000000000000001 01 00000004 1b5c 01 0008 0000000000000001 01 00000005 1b5d"
)


def acquires(first, count):
    """Client 7 acquires so many names, at the positions from this one on: that many new names of the table."""
    names = {at: f"n{at:03}".encode().hex() for at in range(first, first + count)}
    requests = "".join(f" 01 0007 {at:016x} 00 06 01 04 {name}" for at, name in names.items())
    return f"4c4b0106 0000000000000005 00000001 {first:016x} {count:02x}{requests}"


class Told(Cluster):
    """A cluster whose nodes tell their events into a file each, beside their folders."""

    def start(self, node):
        folder = os.path.join(self.folder, str(node))
        os.makedirs(folder, exist_ok=True)
        place = ["--port", str(self.ports[node]), "--dir", folder]
        words = ["--genesis", self.genesis, "--number", str(node), *place, "--events", *self.options]
        with open(f"{folder}.events", "a") as told:
            command = [self.program, "node", *words]
            self.processes[node] = subprocess.Popen(command, stdin=subprocess.DEVNULL, stderr=told)

    def events(self, node):
        """What a node has told: level, time and text of each line."""
        with open(os.path.join(self.folder, f"{node}.events")) as told:
            lines = told.read().splitlines()
        found = [LINE.fullmatch(line) for line in lines]
        assert all(found), lines
        assert all(it[3] == str(node) for it in found), lines
        return [(it[1].strip(), datetime.datetime.fromisoformat(it[2].replace("Z", "+00:00")), it[4]) for it in found]

    def waits(self, node, pattern, seconds=LONG):
        """Waits until a node has told that, and gives the match."""
        end = time.monotonic() + seconds
        while time.monotonic() < end:
            for _, _, text in self.events(node):
                if it := re.fullmatch(pattern, text):
                    return it
            time.sleep(0.05)
        raise AssertionError(f"node {node} never told {pattern}: {self.events(node)}")


@unittest.skipUnless(PROGRAM, "LOCKS_PROGRAM does not tell the program")
class EventsTest(unittest.TestCase):
    def setUp(self):
        self.cluster = Told(PROGRAM, self.enterContext(tempfile.TemporaryDirectory()), alpha=2)

    def leader(self):
        """The node that has told last that it leads, and its ballot."""
        end = time.monotonic() + 20.0
        while time.monotonic() < end:
            for node in self.cluster.processes:
                leads = [text for _, _, text in self.cluster.events(node) if "leads in ballot" in text]
                if leads and leads[-1].startswith("leads"):
                    return node, leads[-1].split()[-1]
            time.sleep(0.05)
        raise AssertionError("nobody leads")

    def asks(self, *words, first=1):
        """The answer to an operation, which all ports are asked in turn."""
        ports = [word for port in self.cluster.ports.values() for word in ("--port", str(port))]
        place = ["--cluster", "5", *ports, "--client", "7", "--request", str(first)]
        command = [PROGRAM, "ask", *place, *words]
        return subprocess.run(command, stdin=subprocess.DEVNULL, stdout=subprocess.PIPE, text=True).stdout

    def test_a_leader_that_pauses_is_followed_by_another(self):
        with self.cluster as cluster:
            old, ballot = self.leader()
            others = [node for node in (1, 2, 3) if node != old]
            for node in others:
                cluster.waits(node, f"follows node {old}")
            cluster.processes[old].send_signal(signal.SIGSTOP)
            end = time.monotonic() + 20.0
            taken = None
            while taken is None and time.monotonic() < end:
                for node in others:
                    if any(text.startswith("leads in ballot") for _, _, text in cluster.events(node)):
                        taken = node
                time.sleep(0.05)
            self.assertIsNotNone(taken)
            cluster.processes[old].send_signal(signal.SIGCONT)
            why = f"(node {taken} began|there is) a greater ballot"
            cluster.waits(old, f"no longer leads in ballot {re.escape(ballot)}: {why}")
            cluster.waits(old, f"follows node {taken}")

    def test_one_of_three_hears_of_no_leader(self):
        cluster = self.cluster
        with contextlib.ExitStack() as stack:
            stack.callback(cluster.__exit__)
            cluster.start(1)
            cluster.waits(1, "began with an empty store")
            for seconds in (TWO_AND_MORE, FOUR_AND_MORE):
                cluster.waits(1, f"has heard of no leader for {seconds} s")
            self.assertFalse([text for _, _, text in cluster.events(1) if "leads in" in text])
            self.assertEqual({level for level, _, text in cluster.events(1) if "no leader" in text}, {"WARN"})

    def test_who_is_no_member_says_so(self):
        cluster = self.cluster
        with contextlib.ExitStack() as stack:
            stack.callback(cluster.__exit__)
            self.add(4)
            cluster.start(4)
            for seconds in (TWO_AND_MORE, FOUR_AND_MORE):
                cluster.waits(4, f"is not a member, and has had no leader for {seconds} s")
            told = [(level, text) for level, _, text in cluster.events(4) if "leader" in text]
            self.assertEqual({level for level, _ in told}, {"INFO"})
            self.assertFalse([text for _, text in told if "has heard of no leader" in text])

    def test_members_stores_and_snapshots_are_told(self):
        with self.cluster as cluster:
            self.leader()
            for number in range(1, 301):
                self.assertIn(self.asks("ask", "db", first=number).split()[0], ("free",))
            for node in (1, 2, 3):
                cluster.waits(node, r"wrote a snapshot, \d+ positions")
            self.assertEqual(self.asks("join", "4", str(self.add(4)), first=400), "joined\n")
            cluster.start(4)
            members = " ".join(f"{node}:{port}" for node, port in cluster.ports.items())
            cluster.waits(1, f"node 4 joined, members {members}")
            cluster.waits(4, r"installed a snapshot of node [123], \d+ positions")
            self.assertEqual(self.asks("leave", "4", first=401), "left\n")
            cluster.waits(1, "node 4 left, members .*")
            cluster.waits(4, f"is not a member, and has had no leader for {TWO_AND_MORE} s")
            cluster.kill(4)
            cluster.kill(1)
            cluster.start(1)
            cluster.waits(1, r"found its store, \d+ positions executed")

    def test_a_leader_that_leaves_leads_no_more(self):
        with self.cluster as cluster:
            old, ballot = self.leader()
            self.assertEqual(self.asks("leave", str(old)), "left\n")
            cluster.waits(old, f"no longer leads in ballot {re.escape(ballot)}: it is not a member")
            self.assertNotEqual(self.leader()[0], old)

    def test_what_cannot_be_sent_is_told_once_a_second(self):
        """Node 3 lives at the address of all machines, to which the system lets nobody send."""
        texts = {"hosts": "1 127.0.0.1\n2 127.0.0.1\n3 255.255.255.255\n", "key": "11" * 32 + "\n"}
        for name, text in texts.items():
            path = os.path.join(self.cluster.folder, name)
            with open(os.open(path, os.O_CREAT | os.O_WRONLY, 0o600), "w", encoding="ascii") as file:
                file.write(text)
            self.cluster.options = [*self.cluster.options, f"--{name}", path]
        with contextlib.ExitStack() as stack:
            stack.callback(self.cluster.__exit__)
            for node in (1, 2):
                self.cluster.start(node)
            leader, _ = self.leader()
            self.cluster.waits(leader, r"could not send to node 3 \.\. and \d+ more")
            time.sleep(2.0)
            told = [it for it in self.cluster.events(leader) if it[2].startswith("could not send to node 3")]
            self.assertEqual({level for level, _, _ in told}, {"WARN"})
            self.assertLessEqual(len(told), 2 + (told[-1][1] - told[0][1]).total_seconds(), told)

    def add(self, node):
        """A port for one node more."""
        [self.cluster.ports[node]] = free_ports(1)
        return self.cluster.ports[node]


@unittest.skipUnless(PROGRAM, "LOCKS_PROGRAM does not tell the program")
class LagTest(unittest.TestCase):
    """Node 2 of three. The test stands at the port of node 1, which leads."""

    def setUp(self):
        self.node = self.enterContext(Node(PROGRAM, self.enterContext(tempfile.TemporaryDirectory())))
        self.node.words = ("--events",)

    def start(self):
        """Starts the node, and reads what it tells."""
        self.node.start()
        self.lines, process = [], self.node.process
        self.reader = threading.Thread(target=lambda: [self.lines.append(line) for line in process.stderr], daemon=True)
        self.reader.start()

    def waits(self, pattern, count=1, lead=None):
        """Waits until the node has told that so many times. Meanwhile node 1 leads, if that is given, and answers
        nothing."""
        end = time.monotonic() + LONG
        while len(re.findall(pattern, "".join(self.lines))) < count:
            self.assertLess(time.monotonic(), end, self.lines)
            if lead:
                self.node.send(self.node.bytes_of(lead))
            time.sleep(0.05)

    def told(self, pattern):
        """All that the node has told of a kind, once it is killed."""
        self.node.process.kill()
        self.reader.join()
        return re.findall(f"node 2 ({pattern})", "".join(self.lines))

    def test_a_node_is_behind_until_it_has_caught_up(self):
        self.start()
        self.waits("is behind", lead=LEAD)
        self.node.send(self.node.bytes_of(DECIDED))
        self.waits("has caught up", lead=LEAD)
        told = self.told("is behind.*|has caught up.*")
        self.assertEqual(told, ["is behind, asks node 1", "has caught up, 1 position"])

    def test_two_nodes_that_join_in_one_turn_are_told(self):
        self.start()
        self.waits("follows node 1", lead=LEAD)
        self.node.send(self.node.bytes_of(JOINS))
        self.waits("joined", lead=LEAD)
        told = self.told(r"node \d joined.*")
        members = " ".join(f"{node}:{port}" for node, port in enumerate(self.node.ports, 1))
        self.assertEqual(told, [f"node 5 joined, members {members} 4:7004 5:7005 .. and 1 more"])

    def ends(self):
        """The last two lines of node 1 on the folder of node 2."""
        place = ["--port", str(*free_ports(1)), "--dir", self.node.folder]
        command = [PROGRAM, "node", "--genesis", self.node.genesis, "--number", "1", *place, "--events"]
        done = subprocess.run(command, stdin=subprocess.DEVNULL, stderr=subprocess.PIPE, text=True)
        return done.stderr.splitlines()[-2:]

    def test_a_fault_is_told_with_its_time(self):
        self.node.start()
        self.node.kill()
        told, last = self.ends()
        it = LINE.fullmatch(told)
        self.assertTrue(it, told)
        self.assertEqual((it[1], it[3], it[4], last), ("ERROR", "1", "ends: fault 10", "fault 10"))

    def test_a_leader_is_followed_again_after_a_silence(self):
        self.start()
        self.waits("follows node 1", lead=LEAD)
        self.waits("has heard of no leader")
        self.waits("follows node 1", 2, lead=LATER)
        told = self.told("follows node 1|has heard of no leader")
        self.assertEqual(told, ["follows node 1", "has heard of no leader", "follows node 1"])

    def test_datagrams_of_another_cluster_are_told_each_time_that_they_double(self):
        self.start()
        for many in (1, 2, 2, 3, 3):  # how often it has told then
            self.node.send(self.node.bytes_of(FOREIGN))
            self.waits("heard .* of another cluster", many)
        time.sleep(1.1)
        told = self.told(r"heard \d+ datagrams? of another cluster")
        counts = ("1 datagram", "2 datagrams", "4 datagrams")
        self.assertEqual(told, [f"heard {count} of another cluster" for count in counts])

    def test_a_table_that_fills_up_is_told(self):
        self.start()
        self.waits("follows node 1", lead=LEAD)
        for first in range(1, 461, 10):
            self.node.send(self.node.bytes_of(acquires(first, 10)))
            self.waits(f"ran {first + 9}\\b")
        time.sleep(0.5)
        self.node.send(self.node.bytes_of(acquires(461, 1)))
        self.waits("WARN .* fills up", lead=LEAD)
        told = self.told("fills up.*")
        self.assertEqual(told, ["fills up: names 461 of 512"])


@unittest.skipUnless(PROGRAM, "LOCKS_PROGRAM does not tell the program")
class UnopenedTest(unittest.TestCase):
    """Node 2 of three, with a key. The test stands at the port of node 1, and sends frames."""

    KEY, OTHER = bytes([0x11]) * 32, bytes([0x22]) * 32

    def setUp(self):
        self.folder = self.enterContext(tempfile.TemporaryDirectory())
        self.node = self.enterContext(Node(PROGRAM, self.folder))
        key = os.path.join(self.enterContext(tempfile.TemporaryDirectory()), "key")
        with open(os.open(key, os.O_CREAT | os.O_WRONLY, 0o600), "w", encoding="ascii") as file:
            file.write(f"{self.KEY.hex()}\n")
        self.node.words = ("--events", "--key", key)

    def frame(self, key=KEY, cluster=5, alpha=1):
        """Node 1 leads, in a frame for node 2 of a genesis with this cluster and alpha under this key."""
        genesis = frames.genesis_digest(cluster, alpha, dict(enumerate(self.node.ports, 1)))
        return frames.seal(key, frames.NODE, cluster, genesis, 2, bytes_of(LEAD if cluster == 5 else FOREIGN))

    def told(self, frame):
        """What node 2 tells of frames that it cannot open, while this one comes again and again."""
        self.node.start()
        told, last = [], ""
        while "follows node 1" not in last:  # until the right frames behind it are heard
            for _ in range(5):
                self.node.send(frame)
            if told:
                self.node.send(self.frame())
            last = self.node.process.stderr.readline()
            told += re.findall(r"node 2 (cannot open frames.*)", last)
        self.node.kill()
        return told

    def test_frames_under_another_key_or_of_another_genesis_are_told_once(self):
        place = f"127.0.0.1:{self.node.ports[0]}"
        why = "another --key, or another genesis under the same key"
        for frame in (self.frame(key=self.OTHER), self.frame(alpha=2)):
            self.assertEqual(self.told(frame), [f"cannot open frames of a node at {place}: {why}"])

    def test_frames_of_another_cluster_are_told_as_such(self):
        place = f"127.0.0.1:{self.node.ports[0]}"
        told = self.told(self.frame(cluster=6))
        self.assertEqual(told, [f"cannot open frames of a node at {place}: it is of cluster 6"])


if __name__ == "__main__":
    unittest.main()
