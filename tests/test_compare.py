"""A short run of bench/compare.py of locks alone, and the tests of its load generator."""
import collections
import csv
import os
import pathlib
import shutil
import subprocess
import sys
import tempfile
import unittest
import xml.etree.ElementTree

from harness.cluster import TOP

PROGRAM = os.environ.get("LOCKS_PROGRAM")
BENCH = pathlib.Path(TOP) / "bench"
WORDS = "--systems locks --disks plain --clients 1,2 --rounds 1 --seconds 0.2 --warm 0.1 --deaths 0 --growth 40"


@unittest.skipUnless(PROGRAM, "LOCKS_PROGRAM does not tell the program")
@unittest.skipUnless(shutil.which("cargo"), "cargo is not on the path")
class CompareTest(unittest.TestCase):
    """What the comparison measures and draws."""

    def ran(self, *words):
        """Runs a command, which has to end well."""
        run = subprocess.run(
            words, stdin=subprocess.DEVNULL, stdout=subprocess.PIPE, stderr=subprocess.STDOUT, text=True
        )
        self.assertEqual(run.returncode, 0, run.stdout)

    def test_each_load_is_measured_and_drawn(self):
        out = pathlib.Path(self.enterContext(tempfile.TemporaryDirectory()))
        self.ran(sys.executable, BENCH / "compare.py", *WORDS.split(), "--program", PROGRAM, "--out", out)
        with open(out / "compare.csv", newline="", encoding="utf-8") as file:
            rows = list(csv.DictReader(file))
        kinds = collections.Counter(row["what"] for row in rows)
        self.assertEqual(kinds, {"note": 3, "start": 1, "load": 2, "growth": 21})
        for row in rows:
            if row["what"] == "load":
                self.assertEqual(row["errors"], "0", row["error"])
                self.assertGreater(float(row["pairs"]), 0)
        drawn = xml.etree.ElementTree.parse(out / "compare.svg").getroot()
        self.assertGreater(len(list(drawn.iter("{http://www.w3.org/2000/svg}circle"))), 20)

    def test_the_generator_sums_up_what_clients_did(self):
        self.ran("cargo", "test", "--offline", "--quiet", "--manifest-path", BENCH / "load" / "Cargo.toml")


if __name__ == "__main__":
    unittest.main()
