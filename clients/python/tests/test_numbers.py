"""The numbers of requests, and the file that keeps them."""
import errno
import os
import tempfile
import unittest
from unittest import mock

from locks_client import Changed, Client, Closed, InUse, OutOfNumbers, StateError, milliseconds
from locks_client.numbers import BLOCK, MAX_NUMBER, SPARE, Numbers

FULL = OSError(errno.ENOSPC, "No space left on device")


class NumbersTest(unittest.TestCase):
    def setUp(self):
        self.folder = self.enterContext(tempfile.TemporaryDirectory())
        self.path = os.path.join(self.folder, "number")

    def numbers(self, **how):
        numbers = Numbers(**how)
        self.addCleanup(numbers.close)
        return numbers

    def took(self, **how):
        """The first number that a client takes."""
        with Client(5, 7, [1], **how) as client:
            return client.numbers.take()

    def text(self):
        with open(self.path, encoding="ascii") as file:
            return file.read()

    def write(self, text):
        with open(self.path, "w", encoding="ascii") as file:
            file.write(text)

    def refused(self, **how):
        """What is said of a state that is refused."""
        with self.assertRaises(StateError) as raised:
            Numbers(path=self.path, **how)
        self.assertIn(self.path, str(raised.exception))
        return str(raised.exception)

    def test_a_number_or_a_file_is_demanded(self):
        with self.assertRaises(ValueError):
            Client(5, 7, [1])

    def test_a_number_near_the_last_is_refused_before_it_is_used(self):
        for first in (0, 2**48 - 2**32 + 1, 2**48, 2**48 + 1):
            with self.assertRaises(ValueError):
                Client(5, 7, [1], first=first)
        self.write(f"{2**48}\n")
        self.assertIn("--first", self.refused())
        last = self.numbers(first=MAX_NUMBER)
        self.assertEqual(last.take(), 2**48 - 2**32)
        with self.assertRaises(OutOfNumbers):
            last.take()

    def test_the_first_number_is_that_of_the_first_request(self):
        self.assertEqual(self.took(first=9), 9)

    def test_numbers_rise_over_restarts(self):
        self.assertEqual(self.took(first=1, state=self.path), 1)
        self.assertEqual(self.took(state=self.path), 2)
        self.assertEqual(self.took(first=9, state=self.path), 9)
        self.assertEqual(self.took(first=1, state=self.path), 10)
        self.assertEqual(self.text(), "10\n")

    def test_numbers_rise_over_a_kill(self):
        killed = Numbers(1, self.path)
        self.assertEqual((killed.take(), self.text()), (1, f"{BLOCK}\n"))
        killed.close_file()
        self.assertEqual(self.took(state=self.path), BLOCK + 1)

    def test_a_closed_file_is_not_written_again(self):
        numbers = self.numbers(first=1, path=self.path)
        numbers.take()
        numbers.close()
        self.write("17\n")
        numbers.close()
        with self.assertRaises(Closed):
            numbers.take()
        self.assertEqual(self.text(), "17\n")

    def test_a_block_of_numbers_is_written_once(self):
        numbers = self.numbers(first=1, path=self.path)
        with mock.patch("os.fsync") as sync:
            for _ in range(BLOCK):
                numbers.take()
        self.assertEqual(sync.call_count, 2)  # of the file and of its folder

    def test_a_full_disk_refuses_an_acquire_and_not_its_release(self):
        numbers = self.numbers(first=1, path=self.path)
        numbers.take(SPARE)
        with mock.patch.object(numbers.state, "write", side_effect=StateError(self.path, "full")):
            for _ in range(BLOCK - 1 - SPARE):
                numbers.take(SPARE)
            with self.assertRaises(StateError):
                numbers.take(SPARE)
            for _ in range(SPARE):
                numbers.take()

    def test_a_failure_of_the_disk_names_the_file_and_takes_no_number(self):
        numbers = self.numbers(first=1, path=self.path)
        with mock.patch("os.fsync", side_effect=FULL), self.assertRaises(StateError) as raised:
            numbers.take()
        self.assertIn(self.path, str(raised.exception))
        self.assertEqual(numbers.last, 0)

    def test_a_file_that_is_not_there_wants_a_first_number(self):
        self.assertIn("it is not there", self.refused())
        self.assertEqual(os.listdir(self.folder), [])
        now = milliseconds()
        self.assertEqual(self.took(first=now, state=self.path), now)

    def test_a_file_that_keeps_no_number_is_refused(self):
        for text in ("", "\n", "17", "17\n18\n", "-1\n", "0\n", "seventeen\n", " 17\n", "\0" * 16, "9" * 90 + "\n"):
            with self.subTest(text=text):
                self.write(text)
                self.assertIn("keeps no number", self.refused())
                self.assertIn("keeps no number", self.refused(first=1))

    def test_what_is_no_file_is_refused(self):
        os.mkdir(self.path)
        self.refused()
        self.path = os.path.join(self.folder, "missing", "number")
        self.assertIn("its folder is there", self.refused(first=1))

    def test_a_file_that_another_program_has_raised_is_not_written_over(self):
        numbers = self.numbers(first=1000, path=self.path)
        numbers.take()
        self.write("999999999\n")
        with self.assertRaisesRegex(Changed, "another program has written it; end that one, and open it again"):
            numbers.take(BLOCK)
        with self.assertLogs("locks_client", "WARNING"):
            numbers.close()
        self.assertEqual(self.text(), "999999999\n")

    def test_a_file_has_one_owner(self):
        self.numbers(first=1, path=self.path)
        with self.assertRaises(InUse):
            Client(5, 7, [1], first=1, state=self.path)

    def test_a_file_is_free_though_its_lock_was_copied(self):
        numbers = self.numbers(first=1, path=self.path)
        copied = os.dup(numbers.state.lock.fileno())  # as a process has that is being started
        self.addCleanup(os.close, copied)
        numbers.close()
        self.numbers(first=1, path=self.path)

    def test_a_file_by_another_path_is_the_same(self):
        os.symlink(self.path, self.path + ".link")
        self.numbers(first=1, path=self.path).take()
        with self.assertRaises(InUse):
            Numbers(path=self.path + ".link")

    def test_a_file_with_two_names_is_refused(self):
        self.write("17\n")
        os.link(self.path, self.path + ".second")
        self.assertIn("second name", self.refused())


if __name__ == "__main__":
    unittest.main()
