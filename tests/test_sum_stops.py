"""Stops of a node with sums, at calls that change its files."""
import os
import shutil
import unittest

from harness.stops import ALL, Alone, sweep

PROGRAM = os.environ.get("LOCKS_PROGRAM")
SUMS = ("--sums",)
# Of a node that has executed 253 requests: its start, and what it changes before and at its next snapshot.
NEAR = range(1, 25)


@unittest.skipUnless(PROGRAM, "LOCKS_PROGRAM does not tell the program")
@unittest.skipUnless(shutil.which("cc"), "no cc")
class StopTest(unittest.TestCase):
    def test_a_stop_in_the_change_to_sums_loses_nothing(self):
        count, wrong = sweep(PROGRAM, (), SUMS, requests=253, numbers=NEAR, left=(3,))
        self.assertEqual((wrong, count), ([], len(NEAR)))

    def test_a_stop_of_a_store_with_sums_loses_nothing(self):
        count, wrong = sweep(PROGRAM, SUMS, (), requests=253, numbers=NEAR, left=(3,))
        self.assertEqual((wrong, count), ([], len(NEAR)))

    def test_a_stop_beside_a_damaged_older_file_loses_nothing(self):
        count, wrong = sweep(PROGRAM, SUMS, (), requests=509, numbers=NEAR, left=(3,), prepare=Alone.spoil)
        self.assertEqual((wrong, count), ([], len(NEAR)))

    def test_a_stop_beside_an_older_file_without_sums_loses_nothing(self):
        count, wrong = sweep(PROGRAM, (), (), requests=253, numbers=NEAR, left=(0, 3, ALL), prepare=Alone.outdate)
        self.assertEqual((wrong, count), ([], 3 * len(NEAR)))


if __name__ == "__main__":
    unittest.main()
