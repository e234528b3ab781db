"""Runs of bench/flood.py: watches from 100,000 addresses to a cluster without keys, from 20,000 to one with them."""
import os
import re
import subprocess
import sys
import unittest

from harness.cluster import TOP

PROGRAM = os.environ.get("LOCKS_PROGRAM")
FLOOD = os.path.join(TOP, "bench", "flood.py")
WORDS = "--watches --rate 10000"


@unittest.skipUnless(PROGRAM, "LOCKS_PROGRAM does not tell the program")
class FloodTest(unittest.TestCase):
    """The memory of a flooded node does not grow, it answers requests meanwhile, and no node stops."""

    def flood(self, count, *more):
        """Runs it with so many addresses, which has to end well."""
        words = [sys.executable, FLOOD, *WORDS.split(), "--datagrams", str(count), *more, "--program", PROGRAM]
        run = subprocess.run(words, stdin=subprocess.DEVNULL, capture_output=True, text=True, timeout=600)
        self.assertEqual(run.returncode, 0, run.stdout + run.stderr)
        self.assertIn(f"{count:,} datagrams sent", run.stdout)
        self.assertRegex(run.stdout, re.compile(r"^after the flood: 1 pairs", re.M))

    def test_watches_without_a_key(self):
        self.flood(100_000)

    def test_watches_that_a_strange_key_seals(self):
        self.flood(20_000, "--sealed")


if __name__ == "__main__":
    unittest.main()
