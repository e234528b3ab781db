"""Three nodes for a test, and the client as a program that asks them."""
import os
import signal
import subprocess
import sys
import tempfile
import time
import unittest
import warnings

from harness.cluster import Cluster
from locks_client import Client, milliseconds

PROGRAM = os.environ.get("LOCKS_PROGRAM")


class ClusterCase(unittest.TestCase):
    """Three nodes; a client number for each client of the tests."""

    def setUp(self):
        self.folder = self.enterContext(tempfile.TemporaryDirectory())
        self.cluster = self.enterContext(Cluster(PROGRAM, self.folder))
        self.ports = list(self.cluster.ports.values())
        with self.cluster.client(Client, 256, patience=60.0) as first:
            first.ask("ready")  # so that no test has to wait for the first leader
        self.enterContext(warnings.catch_warnings())
        warnings.simplefilter("ignore", ResourceWarning)  # many of these tests leave their locks held
        # A shell lets what it runs in the background ignore an interrupt, and so would what the tests start.
        before = signal.signal(signal.SIGINT, signal.default_int_handler)
        self.addCleanup(signal.signal, signal.SIGINT, before)

    def client(self, number, **how):
        how.setdefault("patience", 60.0)
        return self.enterContext(self.cluster.client(Client, number, **how))

    def all_nodes(self, number):
        """Sends a signal to each node."""
        for it in self.cluster.processes.values():
            it.send_signal(number)

    def run_program(self, number, *words, first=None, ports=None, **how):
        """Starts the client as a program."""
        known = ["--patience", "60", "--port", *map(str, ports or self.ports)]
        who = ["--cluster", "5", "--client", str(number), "--first", str(first or milliseconds())]
        command = [sys.executable, "-m", "locks_client", *known, *who, *words]
        process = subprocess.Popen(command, stdout=subprocess.PIPE, stderr=subprocess.PIPE, text=True, **how)
        self.addCleanup(process.communicate)
        self.addCleanup(process.kill)
        return process

    def ended(self, process):
        """The status, the output and what stands on standard error of a run."""
        out, err = process.communicate(timeout=300)
        return process.returncode, out, err

    def said(self, number, *words, **how):
        """The same of a run from its start."""
        return self.ended(self.run_program(number, *words, **how))

    def wait_until_asking(self, process):
        """Waits until the process has a handler for SIGTERM, and then a little, in which it normally asks."""
        with open(f"/proc/{process.pid}/status", encoding="ascii") as status:
            while not self.caught(status) >> (signal.SIGTERM - 1) & 1:
                self.assertIsNone(process.poll(), "it has ended")
                time.sleep(0.02)
        time.sleep(0.3)

    def caught(self, status):
        """The set of signals for which there is a handler."""
        status.seek(0)
        return next(int(line.split()[1], 16) for line in status if line.startswith("SigCgt"))
