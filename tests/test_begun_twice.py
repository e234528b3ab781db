"""The lines of docs/OPERATING.md that set a cluster up, run again while a lock is held: no store is begun anew."""
import os
import re
import signal
import subprocess
import tempfile
import time
import unittest

from harness.cluster import TOP, free_ports

PROGRAM = os.environ.get("LOCKS_PROGRAM")

BLOCK = re.compile(r"(?s)\n## Starting one\n.*?```sh\n(.*?)```")
FRESH = "at=$(mktemp -d)\n"
SECONDS = 120  # only a hang takes as long


def lines_of_the_page():
    """The lines that begin three stores and start their nodes."""
    with open(os.path.join(TOP, "docs/OPERATING.md"), encoding="utf-8") as page:
        return BLOCK.search(page.read())[1]


@unittest.skipUnless(PROGRAM, "LOCKS_PROGRAM does not tell the program")
class BegunTwiceTest(unittest.TestCase):
    """The lines as they stand on the page, but in a folder and at ports of the test."""

    def setUp(self):
        self.folder = self.enterContext(tempfile.TemporaryDirectory())
        self.ports, page = free_ports(3), lines_of_the_page()
        self.assertEqual((page.count(FRESH), page.count("./locks init"), page.count("./locks node")), (1, 1, 3))
        self.lines = page.replace(FRESH, f"at={self.folder}\n").replace("./locks", PROGRAM)
        for node, port in enumerate(self.ports, 1):
            self.lines = self.lines.replace(f"700{node}", str(port))

    def begin(self, name):
        """Runs the lines in a shell, which ends once its nodes have. Standard error goes to a file of that name."""
        with open(os.path.join(self.folder, name), "wb") as err:
            settings = {"stdin": subprocess.DEVNULL, "stdout": err, "stderr": err, "start_new_session": True}
            shell = subprocess.Popen(["sh", "-c", f"{self.lines}wait\n"], **settings)
        self.addCleanup(self.end, shell)
        return shell

    def end(self, shell):
        """Kills the nodes of a shell, and the shell."""
        if shell.poll() is None:
            os.killpg(shell.pid, signal.SIGKILL)
            shell.wait()

    def told(self, name):
        """What a run wrote. Its three nodes may write between each other's words."""
        with open(os.path.join(self.folder, name), encoding="utf-8") as file:
            return file.read()

    def asks(self, client, number, *words):
        """What the cluster answers. The request is repeated under its number until an answer comes."""
        ports = [it for port in self.ports for it in ("--port", str(port))]
        command = [PROGRAM, "ask", "--cluster", "5", *ports, "--client", str(client), "--request", str(number), *words]
        piped = {"stdin": subprocess.DEVNULL, "capture_output": True, "text": True, "timeout": SECONDS}
        end = time.monotonic() + SECONDS
        while True:
            answer = subprocess.run(command, **piped).stdout.strip()
            if answer not in ("", "no answer") or time.monotonic() > end:
                return answer

    def begins_no_store(self, text):
        """The run has to tell first that each of the three stores is there."""
        why = "exists; init begins a store only in a folder without files a and b"
        wanted = [line for node in (1, 2, 3) for line in (f"{self.folder}/{node}/a: {why}", "cannot open")]
        self.assertEqual([it for it in text.splitlines() if not it.startswith("mkdir: ")][:6], wanted)

    def no_other_holds_it(self):
        self.assertEqual(self.asks(8, 1, "acquire", "db"), "busy 7 1")
        self.assertEqual(self.asks(7, 2, "check", "db", "1"), "valid")

    def test_while_the_nodes_run(self):
        self.begin("first")
        self.assertEqual(self.asks(7, 1, "acquire", "db"), "granted 1")
        self.begin("second").wait(SECONDS)
        told = self.told("second")
        self.begins_no_store(told)
        self.assertEqual([told.count(f"127.0.0.1:{port}: ") for port in self.ports], [1, 1, 1])
        self.assertEqual((told.count("Address already in use"), told.count("cannot open")), (3, 6))
        self.no_other_holds_it()

    def test_after_all_nodes_were_killed(self):
        first = self.begin("first")
        self.assertEqual(self.asks(7, 1, "acquire", "db"), "granted 1")
        self.end(first)
        self.begin("second")
        self.no_other_holds_it()
        self.begins_no_store(self.told("second"))


if __name__ == "__main__":
    unittest.main()
