"""A node reads the file of its hosts again while it runs."""
import os
import re
import subprocess
import tempfile
import time
import unittest

from harness.cluster import Cluster

PROGRAM = os.environ.get("LOCKS_PROGRAM")
WRONG = "1 127.0.0.1\n2 127.0.0.1\n3 127.0.0.2\n"
INVALID = "1 127.0.0.1\n2 here\n3 127.0.0.3\n"
RIGHT = "1 127.0.0.1\n2 127.0.0.1\n3 127.0.0.3\n"


class Hosted(Cluster):
    """A cluster whose nodes have a file of hosts each, and tell their events into N.log."""

    def start(self, node):
        self.options = ["--ticks", "clock", "--events", "--hosts", self.path(node)]
        super().start(node)

    def path(self, node):
        """The file of a node's hosts."""
        return os.path.join(self.folder, f"{node}.hosts")

    def write(self, node, text):
        """Writes a node's hosts."""
        with open(self.path(node), "w", encoding="ascii") as file:
            file.write(text)

    def waits(self, node, pattern, seconds=60.0):
        """Waits until a node has told that."""
        end = time.monotonic() + seconds
        while time.monotonic() < end:
            with open(self.log(node)) as told:
                if re.search(pattern, told.read()):
                    return
            time.sleep(0.05)
        raise AssertionError(f"node {node} never told {pattern}")


@unittest.skipUnless(PROGRAM, "LOCKS_PROGRAM does not tell the program")
class HostsTest(unittest.TestCase):
    """Nodes 2 and 3 of three, which need each other. Node 2 is told a wrong address of node 3."""

    def setUp(self):
        folder = self.enterContext(tempfile.TemporaryDirectory())
        self.cluster = Hosted(PROGRAM, folder, logs=True)
        self.addCleanup(self.cluster.__exit__)
        self.cluster.write(2, WRONG)
        self.cluster.write(3, RIGHT)
        self.cluster.start(2)
        self.cluster.start(3)
        self.cluster.waits(2, "began with an empty store")  # it has read its hosts by then

    def asks(self, number):
        """What node 2 answers to an acquire of this number."""
        place = ["--cluster", "5", "--port", str(self.cluster.ports[2]), "--client", "7", "--request", str(number)]
        command = [PROGRAM, "ask", *place, "acquire", f"n{number}"]
        return subprocess.run(command, stdin=subprocess.DEVNULL, stdout=subprocess.PIPE, text=True).stdout

    def test_an_address_that_is_mended_is_used_without_a_restart(self):
        self.assertEqual(self.asks(1), "no answer\n")
        self.cluster.write(2, RIGHT)
        self.cluster.waits(2, "has read other hosts in the hosts file")
        end = time.monotonic() + 60.0
        while (answer := self.asks(2)) != "granted 1\n" and time.monotonic() < end:
            self.assertEqual(answer, "no answer\n")
        self.assertEqual(answer, "granted 1\n")

    def test_a_file_that_cannot_be_used_changes_nothing(self):
        self.cluster.write(2, RIGHT)
        self.cluster.waits(2, "has read other hosts in the hosts file")
        self.cluster.waits(2, "leads in ballot|follows node")
        self.cluster.write(2, INVALID)
        self.cluster.waits(2, "cannot read the hosts file, or it is invalid")
        self.assertEqual(self.asks(1), "granted 1\n")


if __name__ == "__main__":
    unittest.main()
