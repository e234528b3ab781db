"""The example of one writer prints what stands beside it."""
import os
import subprocess
import sys
import unittest

HERE = os.path.dirname(os.path.abspath(__file__))
FOLDER = os.path.join(HERE, "..", "examples", "one_writer")
PROGRAM = os.environ.get("LOCKS_PROGRAM")


@unittest.skipUnless(PROGRAM, "LOCKS_PROGRAM does not tell the program")
class ExampleTest(unittest.TestCase):
    def test_a_late_write_is_refused(self):
        command = [sys.executable, os.path.join(FOLDER, "run.py"), PROGRAM]
        ran = subprocess.run(command, stdout=subprocess.PIPE, text=True, timeout=60)
        with open(os.path.join(FOLDER, "run.out"), encoding="utf-8") as expected:
            self.assertEqual((ran.returncode, ran.stdout), (0, expected.read()))


if __name__ == "__main__":
    unittest.main()
