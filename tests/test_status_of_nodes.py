"""What `locks status` tells of nodes as processes: who is up, who leads, who is behind or at a wrong port, what is
raised, and a second genesis."""
import json
import os
import resource
import signal
import subprocess
import tempfile
import time
import unittest

from harness.cluster import TOP, Cluster, free_ports
from locks_client import Client

PROGRAM = os.environ.get("LOCKS_PROGRAM")
UNIT = os.path.join(TOP, "tools", "systemd", "locks@.service")
FILE = 4096  # bytes, at most, of a file on a disk that is full soon
PAIRS = 150  # 300 positions: a node that is behind by so many is given a snapshot


@unittest.skipUnless(PROGRAM, "LOCKS_PROGRAM does not tell the program")
class NodesStatusTest(unittest.TestCase):
    def setUp(self):
        self.folder = self.enterContext(tempfile.TemporaryDirectory())
        self.cluster = self.enterContext(Cluster(PROGRAM, self.folder, alpha=2))
        self.number = 0

    def status(self, *words, ports=None):
        """The status of the program, and what it prints."""
        ports = ports or self.cluster.ports.values()
        command = [PROGRAM, "status", "--cluster", "5", "--port", *map(str, ports), *words]
        run = subprocess.run(command, stdin=subprocess.DEVNULL, capture_output=True, text=True, timeout=120)
        self.assertEqual(run.stderr, "")
        return run.returncode, run.stdout

    def ready(self, ports=None):
        status, text = self.status("--until", "ready", "60", ports=ports)
        self.assertEqual(status, 0, text)
        return text

    def comes(self, status, *parts, ports=None, count=("", None)):
        """Asks again and again until the status is that, each of these is printed, and one so often."""
        part, times = count
        end = time.monotonic() + 60.0
        while True:
            found, text = self.status(ports=ports)
            if found == status and all(it in text for it in parts) and times in (None, text.count(part)):
                return text
            self.assertLess(time.monotonic(), end, text)
            time.sleep(0.2)

    def ask(self, *words):
        """Asks until it is answered, each time with the next number."""
        end = time.monotonic() + 60.0
        while True:
            self.number += 1
            port = str(list(self.cluster.ports.values())[self.number % 2])
            place = ["--cluster", "5", "--port", port, "--client", "7", "--request", str(self.number)]
            command = [PROGRAM, "ask", *place, *words]
            run = subprocess.run(command, stdin=subprocess.DEVNULL, capture_output=True, text=True, timeout=60)
            if run.returncode == 0:
                return run.stdout.strip()
            self.assertLess(time.monotonic(), end)

    def test_three_nodes_and_then_fewer(self):
        self.ready()
        text = self.comes(0, "majority: 3 of 3 up; names ", count=(": follows ", 2))
        self.assertEqual(text.count(": leads"), 1, text)
        self.assertNotIn("why:", text)
        self.cluster.kill(3)
        self.comes(0, f"port {self.cluster.ports[3]}: no answer", "majority: 2 of 3 up; names ", ": leads")
        self.cluster.kill(2)
        self.comes(1, "majority: 1 of 3 up; names ", "why: no majority")

    def test_while_a_leader_that_died_is_followed_no_cause_is_named(self):
        folder = os.path.join(self.folder, "clock")
        cluster = self.enterContext(Cluster(PROGRAM, folder, options=("--ticks", "clock")))
        ports = cluster.ports.values()
        self.ready(ports)
        told = json.loads(self.status("--json", ports=ports)[1])
        leader = next(node["node"] for node in told["nodes"] if node["leads"])
        cluster.kill(leader)
        texts, end = [self.status(ports=ports)], time.monotonic() + 60.0
        while texts[-1][0] != 0:
            self.assertLess(time.monotonic(), end, texts[-1])
            texts.append(self.status(ports=ports))
        why = f"why: nobody leads: an election takes seconds; if it lasts, node {leader}, which others follow, does not"
        early = [text for _, text in texts if why in text]
        self.assertTrue(early, texts)
        for text in early:
            self.assertEqual(text.count("why:"), 1, text)

    def test_who_comes_back_catches_up(self):
        self.ready()
        self.cluster.kill(3)
        for _ in range(5):
            self.assertIn(self.ask("ask", "db"), ("free 0",))
        self.cluster.start(3)
        self.assertNotIn("behind", [line for line in self.ready().splitlines() if line.startswith("node 3")][0])

    def restarts_at_another_port(self, node):
        """The node comes back at a port that the others do not know. That which they know."""
        named = self.cluster.ports[node]
        self.cluster.kill(node)
        [self.cluster.ports[node]] = free_ports(1)
        self.cluster.start(node)
        return named

    def test_a_node_that_sends_and_does_not_hear_is_named_until_it_is_stopped(self):
        self.ready()
        named = self.restarts_at_another_port(3)
        why = "why: nobody leads: an election takes seconds; if it lasts, node 3 sends and hears nobody"
        self.comes(1, f"node 3, port {self.cluster.ports[3]}: ", ": follows 3, ", "majority: 3 of 3 up; names ", why)
        self.cluster.kill(3)
        self.cluster.ports[3] = named
        self.comes(0, f"port {named}: no answer", "majority: 2 of 3 up; names ", ": leads")
        self.cluster.start(3)
        self.ready()
        self.comes(0, "majority: 3 of 3 up; names ", count=("why:", 0))

    def test_a_newcomer_that_hears_nobody_is_named(self):
        self.ready()
        self.assertIn(self.ask("join", "4", str(free_ports(1)[0])), ("joined", "used"))
        [self.cluster.ports[4]] = free_ports(1)
        self.cluster.start(4)
        why = "why: node 4 hears nobody: check its --port, the hosts and the keys\n"
        text = self.comes(0, "majority: 4 of 4 up; names ", why)
        line = r"node 4, port \d+: is not a member, executed 0 \(\d+ behind\), promised 0\.0,"
        self.assertRegex(text, line)

    def test_a_node_that_has_left_is_named_until_it_is_stopped(self):
        self.ready()
        self.assertIn(self.ask("leave", "3"), ("left", "not a member"))
        up, why = "majority: 2 of 2 up; names ", "why: node 3 is not a member: it has left, or has to join\n"
        self.comes(0, up, why, ": leads")
        self.cluster.kill(3)
        self.assertNotIn("why:", self.comes(0, f"port {self.cluster.ports[3]}: no answer", up))

    def test_nobody_answers(self):
        for node in (1, 2, 3):
            self.cluster.kill(node)
        why = "why: nobody answers: no node runs there, or it has another cluster number or other keys\n"
        text = self.comes(1, why)
        self.assertEqual(text.count(": no answer from 127.0.0.1\n"), 3, text)

    def starts_on_a_full_disk(self, node):
        """The node comes back where no file may have more bytes than that. Its process, whose errors are piped."""
        def limit():
            signal.signal(signal.SIGXFSZ, signal.SIG_IGN)
            resource.setrlimit(resource.RLIMIT_FSIZE, (FILE, FILE))

        place = ["--port", str(self.cluster.ports[node]), "--dir", os.path.join(self.folder, str(node))]
        words = ["--genesis", self.cluster.genesis, "--number", str(node), *place]
        pipes = {"stdin": subprocess.DEVNULL, "stderr": subprocess.PIPE, "text": True}
        process = subprocess.Popen([PROGRAM, "node", *words], preexec_fn=limit, **pipes)
        self.addCleanup(process.communicate)
        self.addCleanup(process.kill)
        return process

    def test_a_node_whose_disk_is_full_ends_and_comes_back_with_what_it_had(self):
        self.ready()
        self.cluster.kill(3)
        process = self.starts_on_a_full_disk(3)
        with self.cluster.client(Client, 9, patience=60.0) as client:
            while process.poll() is None:
                client.release("db", client.acquire("db"))
        found = process.communicate(timeout=60)[1].splitlines()
        self.assertRegex(found[-2], rf"^{self.folder}/3/[ab]: File too large \(os error 27\)$")
        self.assertEqual((found[-1], process.returncode), ("fault 7", 1))
        self.comes(0, f"port {self.cluster.ports[3]}: no answer", "majority: 2 of 3 up; names ", ": leads")
        self.cluster.start(3)
        self.assertNotIn("why:", self.ready())

    def test_the_unit_waits_until_all_are_ready(self):
        with open(UNIT) as unit:
            [line] = [line for line in unit if line.startswith("ExecStartPost=")]
        *words, last = line.split()[1:]
        self.assertEqual(last, "$READY")
        ready = ["--cluster", "5", "--port", *map(str, self.cluster.ports.values())]
        command = [PROGRAM, *words, *ready]
        run = subprocess.run(command, stdin=subprocess.DEVNULL, capture_output=True, text=True, timeout=120)
        self.assertEqual((run.returncode, run.stderr), (0, ""))
        self.assertIn("majority: 3 of 3 up; names ", run.stdout)

    def tables(self):
        """The version of its table that each node tells which answers."""
        told = json.loads(self.status("--json")[1])
        return [node["table_version"] for node in told["nodes"] if node["up"]]

    def test_a_raised_table_is_told_by_each_node(self):
        self.ready()
        self.assertEqual(self.tables(), [1, 1, 1])
        self.assertEqual(self.ask("raise", "2"), "raised")
        self.ready()
        self.comes(0, "majority: 3 of 3 up; names ", "; raised\n")
        self.assertEqual(self.tables(), [2, 2, 2])
        self.cluster.kill(3)
        self.cluster.start(3)
        self.ready()
        self.assertEqual(self.tables(), [2, 2, 2])

    def test_a_raised_table_that_came_in_a_snapshot_is_told(self):
        self.ready()
        self.assertEqual(self.tables(), [1, 1, 1])
        self.comes(0, ": leads", count=(": follows ", 2))
        follower = next(node["node"] for node in json.loads(self.status("--json")[1])["nodes"] if not node["leads"])
        self.cluster.processes[follower].send_signal(signal.SIGSTOP)
        client = self.enterContext(self.cluster.client(Client, 9, patience=60.0))
        client.raise_table()
        for _ in range(PAIRS):
            client.release("db", client.acquire("db"))
        self.cluster.processes[follower].send_signal(signal.SIGCONT)
        self.ready()
        self.assertEqual(self.tables(), [2, 2, 2])

    def test_a_second_genesis_is_told(self):
        self.ready()
        port = free_ports(1)[0]
        folder = os.path.join(self.folder, "other")
        os.makedirs(folder)
        words = ["--genesis", f"5,2,4:{port}", "--number", "4", "--port", str(port), "--dir", folder]
        process = subprocess.Popen([PROGRAM, "node", *words], stdin=subprocess.DEVNULL)
        self.addCleanup(lambda: (process.kill(), process.wait()))
        self.comes(1, "; genesis differs: 4\n", "why: two geneses", ports=[*self.cluster.ports.values(), port])


if __name__ == "__main__":
    unittest.main()
