"""When `locks ask` sends a join or a leave, and what it prints if it does not."""
import os
import subprocess
import tempfile
import time
import unittest

from harness.by_bytes import bytes_of
from harness.cluster import Cluster
from harness.peers import OTHER_GENESIS, Peers, node, silent

PROGRAM = os.environ.get("LOCKS_PROGRAM")

REQUEST = bytes_of("4c4b0109")
LEFT = bytes_of("4c4b010a 0000000000000005 00000001 0007 0000000000000001 23")  # to number 1 of client 7
NO_MAJORITY = ": the change would leave no majority that has caught up\n"
WITHHELD = "nothing was sent: wait, or send it all the same with --force\n"


def executed(number):
    """A node that has executed so many positions."""
    return {"executed": number}


@unittest.skipUnless(PROGRAM, "LOCKS_PROGRAM does not tell the program")
class LookTest(unittest.TestCase):
    """The nodes are sockets that report what the test wants. They are numbered from 1, and all are members."""

    def asks(self, nodes, *words):
        """What the first node is asked, with the status, the output and the errors of the program. Each node is a
        report's fields, or None if it is silent; the answer to a request is `left`."""
        with Peers([silent for _ in nodes]) as peers:
            ports = enumerate(peers.ports, 1)
            members = f"{len(nodes):02x}" + "".join(f" {number:08x} {port:04x}" for number, port in ports)
            peers.answers = [self.peer(*it, members) for it in enumerate(nodes, 1)]
            place = ["--cluster", "5", "--port", f"{peers.ports[0]}", "--client", "7", "--request", "1"]
            command = [PROGRAM, "ask", *place, *words]
            process = subprocess.Popen(command, stdout=subprocess.PIPE, stderr=subprocess.PIPE, text=True)
            status, out, err = peers.serve(process)
            self.requests = [it for it in peers.came if it.startswith(REQUEST)]
            self.probes = len(peers.came) - len(self.requests)
            return status, out, err

    def peer(self, number, fields, members):
        """What a node answers."""
        reports = node(number, **{"pending": 0, "members": members, **fields}) if fields is not None else silent
        return lambda data: [LEFT] if data.startswith(REQUEST) else reports(data)

    def is_sent(self, nodes, *words):
        self.assertEqual(self.asks(nodes, *words), (0, "left\n", ""))
        self.assertEqual(len(self.requests), 1)

    def is_withheld(self, nodes, words, *lines):
        self.assertEqual(self.asks(nodes, *words), (1, "", "".join(lines) + WITHHELD))
        self.assertEqual(self.requests, [])

    def test_a_majority_that_has_caught_up_is_left(self):
        self.is_sent([executed(61), executed(61), executed(61), executed(12)], "leave", "2")
        self.is_sent([executed(61), executed(61), None], "leave", "3")

    def test_who_has_not_caught_up_is_named(self):
        nodes = [executed(61), executed(61), None, executed(12)]
        lines = [f"node 3 does not report{NO_MAJORITY}", f"node 4 has executed 12 of 61{NO_MAJORITY}"]
        self.is_withheld(nodes, ("leave", "2"), *lines)

    def test_sixteen_positions_are_not_behind(self):
        self.is_sent([executed(61), executed(61), executed(45)], "leave", "2")
        line = f"node 3 has executed 44 of 61{NO_MAJORITY}"
        self.is_withheld([executed(61), executed(61), executed(44)], ("leave", "2"), line)

    def test_a_node_of_another_genesis_does_not_count(self):
        nodes = [executed(61), executed(61), {"executed": 61, "genesis": OTHER_GENESIS}]
        self.is_withheld(nodes, ("leave", "2"), f"node 3 does not report{NO_MAJORITY}")

    def test_the_cluster_may_be_busy(self):
        """The nodes execute a thousand positions from each round to the next, and two of them report late."""
        began = time.monotonic()

        def busy(number, behind, members):
            def replies(data):
                if data.startswith(REQUEST):
                    return [LEFT]
                passed = int(1000 * (time.monotonic() - began) / 0.1)
                return node(number, pending=0, members=members, executed=max(passed - behind, 0))(data)
            return replies

        self.peer = lambda number, behind, members: busy(number, behind, members)
        self.is_sent([0, 900, 900], "leave", "1")

    def test_a_join_leaves_a_majority_without_the_newcomer(self):
        self.is_sent([executed(61), executed(61), executed(61)], "join", "4", "1")
        self.is_sent([executed(61), executed(61)], "join", "3", "1")
        lines = [f"node 3 has executed 3 of 61{NO_MAJORITY}", f"node 4 does not report{NO_MAJORITY}"]
        self.is_withheld([executed(61), executed(61), executed(3)], ("join", "4", "1"), *lines)

    def test_a_join_far_above_the_members_is_sent_with_a_warning(self):
        """Nothing is said of twice the greatest member, and of a join that is withheld nothing more."""
        nodes = [executed(61)] * 3
        self.is_sent(nodes, "join", "6", "1")
        warning = "warning: node 7 is above twice the greatest member: no smaller number can join after it\n"
        self.assertEqual(self.asks(nodes, "join", "7", "1"), (0, "left\n", warning))
        self.assertEqual(self.asks([executed(61)], "join", "3", "1"), (0, "left\n", warning.replace("7", "3")))
        self.is_sent(nodes, "leave", "7")
        self.is_sent(nodes, "--force", "join", "7", "1")
        lines = [f"node 3 has executed 3 of 61{NO_MAJORITY}", f"node 7 does not report{NO_MAJORITY}"]
        self.is_withheld([executed(61), executed(61), executed(3)], ("join", "7", "1"), *lines)

    def test_a_single_node_may_grow(self):
        self.is_sent([executed(61)], "join", "2", "1")
        line = "an earlier join or leave has not taken effect yet\n"
        self.is_withheld([{"executed": 61, "pending": 3}], ("join", "2", "1"), line)

    def test_what_the_cluster_does_not_grant_is_sent(self):
        self.is_sent([executed(61), None, None], "leave", "9")
        self.is_sent([executed(61), None, None], "join", "2", "1")
        self.is_sent([executed(61)], "leave", "1")
        self.is_sent([executed(61), *[None] * 6], "join", "8", "1")

    def test_an_earlier_change_has_to_take_effect(self):
        line = "an earlier join or leave has not taken effect yet\n"
        self.is_withheld([{"executed": 61, "pending": 3}] * 3, ("leave", "2"), line)

    def test_somebody_has_to_report(self):
        line = "no node reports its members: it is not known what the change would leave\n"
        self.is_withheld([None], ("leave", "2"), line)

    def test_a_forced_change_is_sent_at_once(self):
        self.is_sent([executed(61), None, None], "--force", "leave", "2")
        self.assertEqual(self.probes, 0)

    def test_no_other_request_waits_for_a_look(self):
        self.is_sent([executed(61), None, None], "acquire", "db")
        self.assertEqual(self.probes, 0)


@unittest.skipUnless(PROGRAM, "LOCKS_PROGRAM does not tell the program")
class ChangeTest(unittest.TestCase):
    """The same with three nodes as processes."""

    def setUp(self):
        folder = self.enterContext(tempfile.TemporaryDirectory())
        self.cluster = self.enterContext(Cluster(PROGRAM, folder, alpha=2))
        self.number = 0

    def ask(self, *words):
        """The status, the output and the errors of a request to node 1, with the next number."""
        self.number += 1
        place = ["--cluster", "5", "--port", str(self.cluster.ports[1]), "--client", "7", "--request", str(self.number)]
        run = subprocess.run([PROGRAM, "ask", *place, *words], capture_output=True, text=True, timeout=60)
        return run.returncode, run.stdout, run.stderr

    def comes(self, expected, *words):
        """Asks until that comes."""
        end = time.monotonic() + 60.0
        while (found := self.ask(*words)) != expected:
            self.assertLess(time.monotonic(), end, found)
            time.sleep(0.2)

    def test_a_leave_that_would_lose_the_majority_is_withheld_unless_forced(self):
        self.comes((0, "free 0\n", ""), "ask", "db")
        self.cluster.kill(3)
        lines = f"node 3 does not report{NO_MAJORITY}{WITHHELD}"
        self.comes((1, "", lines), "leave", "2")
        self.comes((0, "free 0\n", ""), "ask", "db")
        self.comes((0, "left\n", ""), "--force", "leave", "2")


if __name__ == "__main__":
    unittest.main()
