"""When a node writes its snapshot."""
import os
import subprocess
import tempfile
import time
import unittest

from harness.cluster import Cluster
from locks_client import Client

PROGRAM = os.environ.get("LOCKS_PROGRAM")


@unittest.skipUnless(PROGRAM, "LOCKS_PROGRAM does not tell the program")
class SnapshotTest(unittest.TestCase):
    """A node that stands alone."""

    def setUp(self):
        self.folder = self.enterContext(tempfile.TemporaryDirectory())

    def dumped(self):
        """The lines of `locks dump` that tell the generation, the snapshot and how many commands stand above it."""
        command = [PROGRAM, "dump", "--dir", os.path.join(self.folder, "1")]
        told = subprocess.run(command, capture_output=True, text=True, check=True)
        lines = told.stdout.splitlines()
        return lines[0], lines[2], lines[4]

    def written_at_the_tick_after(self, requests, alpha):
        """A snapshot is written at the tick after so many requests, and not before."""
        cluster = self.enterContext(Cluster(PROGRAM, self.folder, nodes=1, alpha=alpha))
        with cluster.client(Client, 1, patience=30.0) as client:
            for _ in range(requests // 2 - 2):
                client.release("db", client.acquire("db"))
            client.ask("db")  # the third request that is no pair's: the run began with one
            fence = client.acquire("db")
            time.sleep(0.5)  # some ticks
            self.assertEqual(self.dumped(), ("generation 1", "snapshot 0", f"decided {requests - 1}"))
            client.release("db", fence)
        end = time.monotonic() + 10.0
        while self.dumped() != ("generation 2", f"snapshot {requests}", "decided 0"):
            self.assertLess(time.monotonic(), end, self.dumped())
            time.sleep(0.05)

    def test_it_comes_after_256_requests(self):
        self.written_at_the_tick_after(256, alpha=16)

    def test_it_comes_after_16_times_alpha_in_a_wide_cluster(self):
        self.written_at_the_tick_after(16 * 17, alpha=17)


if __name__ == "__main__":
    unittest.main()
