"""Random schedules run to their ends."""
import concurrent.futures
import os
import re
import subprocess
import unittest

PROGRAM = os.environ.get("LOCKS_PROGRAM")


EVENTS = 2000


def ended(start, *more):
    """The status of a schedule, and what it printed."""
    words = ["fuzz", "--start", str(start), "--events", str(EVENTS), *more]
    ran = subprocess.run([PROGRAM, *words], stdin=subprocess.DEVNULL, capture_output=True, text=True, timeout=60)
    return ran.returncode, ran.stdout, ran.stderr


def replayed(start):
    """What a schedule with groups prints, and the same of a run of its script: event count and greatest position. Every
    other one has nudges."""
    words = ["--groups", *["--nudges"] * (start % 2)]
    script = ended(start, *words, "--script")[1]
    ran = subprocess.run([PROGRAM, "sim"], input=script, capture_output=True, text=True, timeout=60)
    done = re.search(r"done (\d+)\n\Z", ran.stdout)
    positions = [int(position) for position in re.findall(r"(?m)^ran \d+ (\d+) ", ran.stdout)]
    told = f"done {int(done[1]) - 3} positions {max(positions, default=0)}\n" if done else ran.stdout[-200:]
    return ended(start, *words)[1], told


@unittest.skipUnless(PROGRAM, "LOCKS_PROGRAM does not tell the program")
class ScheduleTest(unittest.TestCase):
    def test_fifty_schedules_are_refused_no_event(self):
        with concurrent.futures.ThreadPoolExecutor(os.cpu_count()) as pool:
            for start, (status, out, err) in enumerate(pool.map(ended, range(1, 51)), 1):
                with self.subTest(start=start):
                    self.assertRegex(out, re.compile(rf"\Adone {EVENTS} positions [0-9]+\n\Z"))
                    self.assertEqual((status, err), (0, ""))

    def test_twenty_scripts_of_schedules_come_to_the_same(self):
        with concurrent.futures.ThreadPoolExecutor(os.cpu_count()) as pool:
            for start, (printed, told) in enumerate(pool.map(replayed, range(1, 21)), 1):
                with self.subTest(start=start):
                    self.assertEqual(printed, told)


if __name__ == "__main__":
    unittest.main()
