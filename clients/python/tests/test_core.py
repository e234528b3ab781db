"""The protocol without a socket: plans, carried out by hand under a clock of the test."""
import os
import tempfile
import unittest
from unittest import mock

from fake_node import ACQUIRE, BUSY, FREE, GRANTED, RELEASE, RELEASED, elsewhere, numbered, plain, waiting
from locks_client import Busy, NoAnswer, StateError, calls
from locks_client.calls import Calls
from locks_client.plans import Datagram, Listen, Send, Sleep
from locks_client.numbers import BLOCK, SPARE, Numbers
from locks_client.seals import REPLY
from locks_client.waits import POLLS, Polls, waits
from locks_client.wire import join_op


JOINED = "4c4b010a 0000000000000005 00000001 0007 0000000000000001 20"


class Clock:
    """A clock that the test sets."""

    now = 0.0

    def __call__(self):
        return self.now


class CoreTest(unittest.TestCase):
    def setUp(self):
        self.enterContext(waiting(0.5))
        self.clock, self.done, self.source = Clock(), [], None
        self.core = Calls(5, 7, [7001, 7002], patience=1.2, clock=self.clock)
        self.core.numbers = Numbers(first=1)
        self.core.has_begun = True

    def carry_out(self, plan, *heard):
        """Carries the plan out; each wait hears the next of these datagrams. The result; `done` has what was sent."""
        replies, told = iter(heard), None
        while True:
            try:
                effect = plan.send(told)
            except StopIteration as end:
                return end.value
            told = self.step(effect, replies)

    def step(self, effect, replies):
        """Notes what a plan yields, and gives what it hears."""
        if isinstance(effect, Send):
            if effect.data[:2] != b"LW":
                self.done.append((self.clock.now, effect.port, effect.data.hex()))
            return None
        text = next(replies, None) if isinstance(effect, Listen) else None
        if text:
            return Datagram(bytes.fromhex(text), self.source or self.done[-1][1])
        self.clock.now = effect.until if isinstance(effect, Listen) else self.clock.now + effect.seconds
        return None

    def busy_each_time(self):
        """Each request is answered, and in the pause after it nothing comes."""
        return [it for number in range(1, 9) for it in (numbered(BUSY, number), None)]

    def test_an_acquire_is_sent_and_answered(self):
        self.assertEqual(self.carry_out(self.core.poll("acquire", "db", 0.0), GRANTED), 1)
        self.assertEqual(self.done, [(0.0, 7001, plain(ACQUIRE))])
        self.assertEqual((self.core.leader, self.core.grants), (7001, {"db": (1, 1)}))

    def test_a_reply_from_where_nothing_was_asked_is_dropped(self):
        self.source = 7009
        with self.assertRaises(NoAnswer):
            self.carry_out(self.core.poll("acquire", "db", 0.0), GRANTED, elsewhere(7003))
        self.assertEqual({it[1] for it in self.done}, {7001, 7002})

    def test_a_reply_from_where_an_earlier_request_was_asked_is_dropped(self):
        self.carry_out(self.core.poll("acquire", "db", 0.0), GRANTED)
        self.core.set_ports([7002])
        self.source = 7001
        with self.assertRaises(NoAnswer):
            self.carry_out(self.core.ask("db"), numbered(FREE, 2))

    def test_with_a_key_the_seal_decides_and_not_the_address(self):
        self.core.set_keys([bytes(32)])
        self.source = 7009
        frame = self.core.seals.frame(REPLY, bytes(32), bytes.fromhex(GRANTED))
        self.assertEqual(self.carry_out(self.core.poll("acquire", "db", 0.0), GRANTED, frame.hex()), 1)

    def test_the_same_bytes_go_to_one_port_after_the_other(self):
        with self.assertRaises(NoAnswer):
            self.carry_out(self.core.poll("acquire", "db", 0.0))
        self.assertEqual([it[:2] for it in self.done], [(0.0, 7001), (0.5, 7002), (1.0, 7001)])
        self.assertEqual({it[2] for it in self.done}, {plain(ACQUIRE)})
        self.assertEqual(self.clock.now, 1.2)

    def test_an_elsewhere_is_followed_at_once(self):
        self.carry_out(self.core.poll("acquire", "db", 0.0), elsewhere(7003), GRANTED)
        self.assertEqual([it[:2] for it in self.done], [(0.0, 7001), (0.0, 7003)])

    def test_a_join_far_above_the_hosts_is_sent_with_a_warning(self):
        warning = "node 7 is above twice the greatest other node of the hosts: no smaller number can join after it"
        known = {1: "127.0.0.1", 3: "127.0.0.1"}
        for node, hosts, texts in (
            (7, known, [warning]),
            (7, {**known, 7: "127.0.0.1"}, [warning]),
            (6, known, []),
            (7, {**known, 4: "127.0.0.1"}, []),
            (7, {}, []),
            (7, {7: "127.0.0.1"}, []),
        ):
            self.core.hosts, self.done = hosts, []
            number = self.core.last.number + 1 if self.core.last else 1
            with self.subTest(node=node, hosts=hosts), mock.patch.object(calls.log, "warning") as warn:
                self.carry_out(self.core.request(join_op(node, 7001)), numbered(JOINED, number))
                self.assertEqual([it.args[0] % it.args[1:] for it in warn.call_args_list], texts)
                self.assertEqual(len(self.done), 1)

    def test_an_elsewhere_is_followed_where_the_hosts_say_or_to_the_address_of_its_teller(self):
        for hosts, address in (({2: "10.0.0.2"}, "10.0.0.2"), ({3: "10.0.0.3"}, "10.0.0.1")):
            self.core.hosts, self.done = hosts, []
            self.core.set_ports([("10.0.0.1", 7001)])
            number = self.core.numbers.last + 1
            heard = numbered(elsewhere(7003), number), numbered(FREE, number)
            self.carry_out(self.core.ask("db"), *heard)
            self.assertEqual([it[1] for it in self.done], [("10.0.0.1", 7001), (address, 7003)])

    def test_elsewheres_are_counted_anew_after_each_wait(self):
        heard = [*[elsewhere(7003)] * 8, None] * 3
        with self.assertRaises(NoAnswer):
            self.carry_out(self.core.poll("acquire", "db", 0.0), *heard)
        followed = [7003] * 7
        self.assertEqual([it[1] for it in self.done], [7001, *followed, 7002, *followed, 7001, *followed])
        self.assertEqual([it[0] for it in self.done[::8]], [0.0, 0.5, 1.0])

    def test_a_lock_is_asked_for_until_a_deadline(self):
        self.core.patience = 9.0
        heard = self.busy_each_time()
        with self.assertRaises(Busy):
            self.carry_out(self.core.poll("acquire", "db", 1.2), *heard)
        self.assertEqual([it[0] for it in self.done], [0.0, 0.5, 1.0, 1.2])

    def test_a_release_forgets_the_grant(self):
        self.carry_out(self.core.poll("acquire", "db", 0.0), GRANTED)
        self.carry_out(self.core.release("db", 1), RELEASED)
        self.assertEqual((self.done[1][2], self.core.grants), (plain(RELEASE), {}))

    def test_no_request_is_begun_too_late_to_be_answered(self):
        heard = self.busy_each_time()
        with self.assertRaises(Exception) as raised:
            self.carry_out(self.core.poll("acquire", "db", 3.0), *heard)
        self.assertEqual((raised.exception.brief, self.clock.now, self.done[-1][0]), ("busy 8 3", 2.5, 2.5))

    def test_a_full_disk_keeps_no_lock_held(self):
        path = os.path.join(self.enterContext(tempfile.TemporaryDirectory()), "number")
        numbers = self.core.numbers = Numbers(first=1, path=path)
        self.addCleanup(numbers.close_file)
        self.carry_out(self.core.poll("acquire", "db", 0.0), GRANTED)
        with mock.patch.object(numbers.state, "write", side_effect=StateError(path, "full")):
            with self.assertRaises(StateError):
                while True:
                    self.carry_out(self.core.ask("db"), numbered(FREE, numbers.last + 1))
            last = numbers.last + 1
            self.carry_out(self.core.release("db", 1), numbered(RELEASED, last))
        self.assertEqual(last, BLOCK - SPARE + 1)


class WaitsTest(unittest.TestCase):
    def test_waits_grow_and_are_scattered(self):
        for wait, most in zip(waits(), [0.5, 1.0, 2.0, 4.0, 4.0, 4.0]):
            self.assertTrue(0.75 * most <= wait <= 1.25 * most)


class PollsTest(unittest.TestCase):
    def setUp(self):
        self.enterContext(mock.patch("locks_client.waits.SCATTER", (1.0, 1.0)))

    def test_waits_begin_short_and_stay_below_a_second_while_the_holder_changes(self):
        polls = Polls()
        self.assertEqual([polls.after(1) for _ in range(6)], [0.05, 0.1, 0.2, 0.4, 0.8, 0.8])
        self.assertLess(max(polls.after(fence) for fence in range(2, 200)), 1.0)

    def test_waits_grow_while_one_holder_stays(self):
        polls = Polls()
        self.assertEqual([polls.after(1) for _ in range(len(POLLS) + 2)][-4:], [1.6, 3.2, 3.2, 3.2])
        self.assertLessEqual(max(POLLS) * 1.25, 4.0)
        self.assertLess(polls.after(2), 1.0)


if __name__ == "__main__":
    unittest.main()
