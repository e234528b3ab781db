"""Waiting without polling, under a simulated clock: who is told, what is sent, and what if no notice comes."""
import math
import random
import unittest
from unittest import mock

from simulation import LATENCY, PERIOD, Simulation
from locks_client import Busy, NoAnswer
from locks_client.calls import Calls
from locks_client.notices import LAYOUT, News
from locks_client.plans import Datagram
from locks_client.seals import REPLY, REQUEST
from locks_client.waiter import Waiter

ROUND_TRIP = 2 * LATENCY


def periods(data):
    """How long a watch lives."""
    return LAYOUT.unpack(data)[-2]


class WaiterCase(unittest.TestCase):
    def setUp(self):
        self.enterContext(mock.patch("locks_client.waits.SCATTER", (1.0, 1.0)))
        self.sim = Simulation()

    def waits(self, number, begin, hold=0.05, times=1, notices=True, **how):
        """A client that waits for the lock from that time on."""
        return self.sim.client(number, self.sim.holder("db", hold, times, begin, **how), notices)

    def order(self):
        """The clients in the order of their holds."""
        return [number for number, *_ in sorted(self.sim.held, key=lambda it: it[1])]

    def watches(self, client, port=1):
        """When a client sent watches to a node, and how long they live."""
        return [(at, periods(data)) for at, to, data in client.sent if to == port and data[:2] == b"LW"]

    def requests(self, client):
        """When a client sent requests."""
        return [at for at, _, data in client.sent if data[:2] == b"LK"]


class WaiterTest(WaiterCase):
    """Clients that watch."""

    def test_who_waits_is_told_at_once(self):
        self.waits(1, 0.0, hold=5.0)
        waiter = self.waits(2, 0.1)
        self.sim.run(20.0)
        self.assertLess(self.sim.free()[0], 3 * ROUND_TRIP)
        self.assertEqual(len([at for at in self.requests(waiter) if at < 5.0]), 1)

    def test_a_client_whose_place_is_kept_asks_once_a_minute(self):
        self.waits(1, 0.0, hold=200.0)
        waiter = self.waits(2, 0.1)
        self.sim.run(300.0)
        self.assertEqual([round(at, 1) for at in self.requests(waiter)], [0.1, 60.1, 120.1, 180.1, 200.0, 200.1])

    def test_those_who_wait_are_served_in_turn(self):
        self.waits(1, 0.0, hold=2.0)
        for number in range(2, 22):
            self.waits(number, number * 0.01)
        self.sim.run(60.0)
        self.assertEqual(self.order(), list(range(1, 22)))
        self.assertLess(max(self.sim.free()), 3 * ROUND_TRIP)

    def test_each_node_is_watched_and_each_watch_renewed(self):
        self.waits(1, 0.0, hold=3.0)
        waiter = self.waits(2, 0.1)
        self.sim.run(20.0)
        first, *later = [at for at, _ in self.watches(waiter)]
        self.assertAlmostEqual(first, 0.1 + ROUND_TRIP)
        self.assertEqual([round(it - first, 6) for it in later[:2]], [0.8, 1.6])
        for port in (2, 3):
            self.assertEqual(self.watches(waiter, port), self.watches(waiter))
        numbers = [data[18:26] for _, to, data in waiter.sent if data[:2] == b"LW" and to == 1]
        self.assertEqual((numbers, len(set(numbers))), (sorted(numbers), len(numbers)))

    def test_a_wait_that_ends_without_the_lock_is_withdrawn(self):
        self.waits(1, 0.0, hold=3.0)

        def script(client):
            with self.assertRaises(Busy):
                yield from client.core.poll("acquire", "db", 1.0)
            self.assertEqual(client.core.waiter, None)

        waiter = self.sim.client(2, script)
        self.sim.run(1.5)
        self.assertEqual([it[1] for it in self.watches(waiter)], [20, 20, 0])
        self.assertFalse(any(it.waits for node in self.sim.nodes.values() for it in node.queue.entries))

    def test_what_was_granted_is_not_withdrawn(self):
        self.waits(1, 0.0, hold=1.0)
        waiter = self.waits(2, 0.1, hold=3.0)
        self.sim.run(20.0)
        self.assertEqual({it[1] for it in self.watches(waiter)}, {20})
        self.assertLess(self.watches(waiter)[-1][0], 1.0)

    def test_a_withdrawal_after_a_grant_releases_and_sends_no_watch(self):
        self.waits(1, 0.0, hold=1.0)

        def script(client):
            yield from client.core.poll("acquire", "db", 9.0)
            self.assertTrue((yield from client.core.withdraw("db")))

        self.assertEqual({it[1] for it in self.sent_by(script)}, {20})
        self.assertEqual(self.sim.table.holders, {})

    def test_a_client_that_does_not_wait_sends_no_watch(self):
        self.waits(1, 0.0, hold=1.0)

        def script(client):
            with self.assertRaises(Busy):
                yield from client.core.poll("acquire", "db", 0.0)

        self.assertEqual(self.sent_by(script), [])

    def test_an_acquire_that_does_not_wait_gives_no_way(self):
        def script(client):
            for _ in range(2):
                fence = yield from client.core.poll("acquire", "db", 0.0)
                yield from client.core.release("db", fence)

        self.assertEqual(self.sent_by(script), [])

    def sent_by(self, script):
        """The watches of a client of that script."""
        client = self.sim.client(2, script)
        self.sim.run(20.0)
        return self.watches(client)

    def test_what_this_client_holds_itself_is_not_watched(self):
        self.sim.table.holders["db"], self.sim.table.fences["db"] = (2,), 1

        def script(client):
            with self.assertRaises(Busy):
                yield from client.core.poll("acquire", "db", 9.0)

        self.assertEqual(self.sent_by(script), [])

    def test_a_lost_notice_costs_one_period(self):
        self.waits(1, 0.0, hold=2.0)
        self.waits(2, 0.1)
        lost = iter([True])
        self.sim.is_lost = lambda data, is_request: data[:2] == b"LW" and data[68] == 1 and next(lost, False)
        self.sim.run(20.0)
        self.assertLessEqual(self.sim.free()[0], PERIOD + 3 * ROUND_TRIP)

    def test_a_client_that_hears_no_more_of_its_place_asks_after_two_watches(self):
        self.waits(1, 0.0, hold=4.0)
        waiter = self.waits(2, 0.1)
        self.sim.is_lost = lambda data, is_request: data[:2] == b"LW" and not is_request and data[68] == 1
        self.sim.run(20.0)
        self.assertEqual([round(at, 1) for at in self.requests(waiter)[:2]], [0.1, 5.0])  # it was last told at 3.3

    def test_a_client_whose_turn_was_told_in_vain_asks_after_two_watches(self):
        """It shares a lock, and one that waits for it alone comes before. Only answers to its watches arrive."""
        self.hold_by_another()
        self.waits(2, 0.1)
        sharer, answered = self.waits(3, 0.2, word="share"), set()

        def is_lost(data, is_request):
            is_told = data[:4] == b"LW\x01\x0a" and data[12:68] in answered
            answered.add(data[12:68])
            return is_told

        self.sim.is_lost = is_lost
        self.sim.at(0.5, lambda: self.sim.table.holders.update(db=[9]))
        self.sim.at(0.5, lambda: self.sim.table.fences.update(db=2))
        self.sim.at(0.5, self.sim.executed)
        self.sim.run(5.0)
        self.assertEqual([round(at, 1) for at in self.requests(sharer)[:2]], [0.2, 1.8])

    def test_each_dead_waiter_costs_one_period_at_most(self):
        self.waits(1, 0.0, hold=2.0)
        for number in range(2, 7):
            self.waits(number, number * 0.01)
        for number in (2, 3):
            self.sim.at(1.95, lambda number=number: setattr(self.sim.clients[number], "plan", None))
        self.sim.run(20.0)
        self.assertEqual(self.order(), [1, 4, 5, 6])
        self.assertLess(self.sim.free()[0], 2 * PERIOD + 3 * ROUND_TRIP)

    def test_losses_cost_time_and_nothing_else(self):
        draw = random.Random(1)
        self.sim.is_lost = lambda data, is_request: draw.random() < 0.1
        for number in range(1, 11):
            self.waits(number, number * 0.01, times=3)
        self.sim.run(300.0)
        self.assertEqual(sorted(self.order()), sorted([*range(1, 11)] * 3))

    def test_a_holder_that_reacquires_lets_others_go_first(self):
        self.waits(1, 0.0, hold=0.05, times=20)
        for number in (2, 3):
            self.waits(number, 0.01 * number, hold=0.05, times=20)
        self.sim.run(60.0)
        order = self.order()
        self.assertEqual(order[:40], [*[1, 2, 3] * 14][:40])

    def test_a_client_that_reacquires_asks_when_its_turn_has_come(self):
        """Its watch comes while the lock is free for another one, which has asked and is not yet granted it."""
        self.sim.commit = 4 * ROUND_TRIP
        clients = [self.waits(number, 0.01 * number, hold=0.05, times=20) for number in (1, 2, 3)]
        self.sim.run(60.0)
        self.assertEqual(self.order(), [1, 2, 3] * 20)
        busy = 2  # the first requests of two clients
        self.assertEqual(sum(len(self.requests(it)) for it in clients), 2 * 60 + busy)

    def test_a_client_that_is_alone_is_answered_at_once_when_it_reacquires(self):
        client = self.waits(1, 0.0, hold=0.01, times=5)
        self.sim.run(10.0)
        self.assertLess(max(self.sim.free()), 4 * ROUND_TRIP)
        self.assertEqual(len(self.watches(client)), 4)

    def test_answers_that_come_after_the_grant_are_counted(self):
        self.sim.latencies = {2: 0.005, 3: 0.005}
        client = self.waits(1, 0.0, hold=0.02, times=8)
        self.sim.run(10.0)
        self.assertEqual([len(self.watches(client, port)) for port in (1, 2, 3)], [7, 7, 7])

    def test_after_the_death_of_a_leader_the_new_one_has_the_queue(self):
        self.waits(1, 0.0, hold=4.0)
        for number in (2, 3, 4):
            self.waits(number, number * 0.01)
        self.sim.at(1.0, lambda: self.lead(0))
        self.sim.at(3.0, lambda: self.lead(2))
        self.sim.run(60.0)
        self.assertEqual(self.order(), [1, 2, 3, 4])
        self.assertLess(max(self.sim.free()[1:]), 3 * ROUND_TRIP)

    def test_the_node_that_tells_is_asked(self):
        """The one that answered last is dead by then."""
        self.hold_by_another()
        waiter = self.waits(2, 0.1)
        self.sim.at(1.0, lambda: self.lead(3))
        self.sim.at(1.5, lambda: self.sim.table.holders.clear())
        self.sim.at(1.5, self.sim.executed)
        self.sim.run(20.0)
        self.assertAlmostEqual(self.sim.held[0][1], 1.5 + LATENCY + ROUND_TRIP)
        asked = [to for at, to, data in waiter.sent if data[:2] == b"LK" and at > 1.0]
        self.assertEqual(set(asked), {3})

    def lead(self, port):
        """The former leader dies, and another one leads."""
        for node in self.sim.nodes.values():
            node.is_up = node.is_up and not node.leads()
        self.sim.leader = port

    def test_an_acquire_that_a_dead_leader_has_dropped_goes_to_the_new_one(self):
        """It was told that the lock is free, and its own resends come seconds later."""
        self.hold_by_another()
        waiter = self.waits(2, 0.1)
        self.sim.at(1.0, lambda: self.sim.table.holders.clear())
        self.sim.at(1.0, self.sim.executed)
        self.sim.is_lost = lambda data, is_request: data[:2] == b"LK" and self.sim.now > 1.0 and self.sim.leader != 2
        self.sim.at(1.1, lambda: self.lead(0))
        self.sim.at(6.0, lambda: self.lead(2))
        self.sim.run(60.0)
        self.assertAlmostEqual(self.requests(waiter)[1], 1.0 + LATENCY)
        self.assertLess(self.sim.held[0][1] - 6.0, 0.8 + 3 * ROUND_TRIP)

    def hold_by_another(self):
        """A client that the simulation has not holds the lock."""
        self.sim.table.holders["db"], self.sim.table.fences["db"] = (9,), 1

    def test_old_nodes_are_asked_at_intervals_as_before(self):
        self.sim = Simulation(old=(1, 2, 3))
        self.waits(1, 0.0, hold=5.0)
        waiter = self.waits(2, 0.1)
        self.sim.run(60.0)
        gaps = [after - before for before, after in zip(self.requests(waiter), self.requests(waiter)[1:])]
        self.assertEqual([round(it, 2) for it in gaps[:7]], [0.05, 0.1, 0.2, 0.4, 0.8, 0.8, 0.8])
        self.assertEqual(len(self.watches(waiter)), 3)  # the first two, and the eighth after them

    def test_a_reacquire_of_old_nodes_waits_twice_for_a_notice(self):
        self.sim = Simulation(old=(1, 2, 3))
        client = self.waits(1, 0.0, hold=0.01, times=50)
        self.sim.run(60.0)
        self.assertEqual([round(it, 4) for it in self.sim.free()], [0.051] * 2 + [0.001] * 47)
        self.assertEqual(len(self.watches(client)), 2)

    def test_a_full_queue_is_asked_at_intervals(self):
        for node in self.sim.nodes.values():
            node.queue.room = 0
        self.waits(1, 0.0, hold=3.0)
        waiter = self.waits(2, 0.1)
        self.sim.run(20.0)
        self.assertGreater(len(self.requests(waiter)), 7)

    def test_a_node_that_falls_silent_is_gone_after_two_watches(self):
        self.waits(1, 0.0, hold=9.0)
        waiter = self.waits(2, 0.1)
        self.sim.at(1.0, lambda: setattr(self.sim.nodes[1], "knows_watches", False))
        self.sim.run(20.0)
        asked = [at for at in self.requests(waiter) if at > 0.2]
        self.assertTrue(1.0 + 1.6 - 0.8 <= asked[0] <= 1.0 + 1.7 + 0.01, asked)

    def test_forged_notices_bring_no_flood(self):
        """A node that says of each watch that the name is free, which another client holds."""
        self.waits(1, 0.0, hold=5.0)
        waiter = self.waits(2, 0.1)
        for node in self.sim.nodes.values():
            node.queue.places = lambda mode, who: 1
        self.sim.run(20.0)
        self.assertLessEqual(len([at for at in self.requests(waiter) if at < 5.0]), 12)

    def test_sharers_are_told_together(self):
        self.waits(1, 0.0, hold=2.0)
        for number in range(2, 10):
            self.waits(number, number * 0.01, hold=1.0, word="share")
        self.sim.run(20.0)
        starts = [start for number, start, _ in self.sim.held if number > 1]
        self.assertEqual(len(starts), 8)
        self.assertLess(max(starts) - min(starts), 3 * ROUND_TRIP)

    def test_no_answer_ends_the_wait(self):
        self.hold_by_another()

        def script(client):
            client.core.patience = 2.0
            with self.assertRaises(NoAnswer):
                yield from client.core.poll("acquire", "db", 4.0)

        waiter = self.sim.client(2, script)
        self.sim.at(1.0, lambda: self.lead(0))
        self.sim.run(20.0)
        self.assertEqual(self.watches(waiter, 2)[-1][1], 0)


class PollingTest(WaiterCase):
    """A client that wants no notices, while nodes that know watches have others in their queues."""

    def test_only_requests_are_sent_and_a_held_lock_is_asked_for_at_intervals(self):
        self.waits(1, 0.0, hold=1.0)
        client = self.waits(2, 0.1, notices=False)
        self.sim.run(20.0)
        self.assertEqual({data[:2] for _, _, data in client.sent}, {b"LK"})
        *asked, _ = self.requests(client)  # the last one releases
        gaps = [after - before for before, after in zip(asked, asked[1:])]
        self.assertEqual([round(it - ROUND_TRIP, 3) for it in gaps], [0.05, 0.1, 0.2, 0.4, 0.8])

    def test_nobody_goes_first_after_a_release(self):
        client = self.waits(1, 0.0, hold=0.5, times=3, notices=False)
        self.waits(2, 0.1)
        self.sim.run(20.0)
        self.assertEqual({data[:2] for _, _, data in client.sent}, {b"LK"})
        self.assertEqual(self.order(), [1, 1, 1, 2])
        for free in self.sim.free()[:2]:
            self.assertAlmostEqual(free, ROUND_TRIP)

    def test_a_wait_ends_in_time(self):
        self.waits(1, 0.0, hold=9.0)
        ends = []

        def script(client):
            with self.assertRaises(Busy):
                yield from client.core.poll("acquire", "db", 1.0)
            ends.append(self.sim.now)

        client = self.sim.client(2, script, notices=False)
        self.sim.run(20.0)
        self.assertEqual({data[:2] for _, _, data in client.sent}, {b"LK"})
        self.assertAlmostEqual(ends[0], 1.0 + ROUND_TRIP)


class NoticeTest(unittest.TestCase):
    """Which notices are taken."""

    def setUp(self):
        self.core = Calls(5, 7, [7001, 7002])
        self.waiter = Waiter(self.core, "acquire", "db")

    def notice(self):
        """Sends a watch, and gives a notice to it."""
        self.assertEqual({it.port for it in self.waiter.send()}, {7001, 7002})
        return self.saying(News.FREE, 1)

    def saying(self, news, place, node=1):
        """A notice to the last watch."""
        watch = self.waiter.watch
        return b"LW\x01\x0a" + watch[4:12] + bytes([0, 0, 0, node]) + watch[16:68] + bytes([news, 0, place])

    def taken(self, data, port):
        return self.waiter.notice_in(Datagram(data, port))

    def test_without_a_key_the_address_decides(self):
        self.assertIsNone(self.taken(b"", 7001))
        notice = self.notice()
        self.assertIsNone(self.taken(notice, 7003))
        self.assertEqual(self.taken(notice, 7002), (1, News.FREE, 1))
        self.notice()
        self.assertIsNone(self.taken(notice, 7002))

    def test_with_a_key_the_seal_decides(self):
        key, other = bytes(32), bytes([1] * 32)
        self.core.set_keys([key])
        notice = self.notice()
        frame = self.core.seals.frame(REPLY, key, notice)
        self.assertEqual(self.taken(frame, 7003), (1, News.FREE, 1))
        wrong = [self.core.seals.frame(REPLY, other, notice), self.core.seals.frame(REQUEST, key, notice)]
        for data in [notice, *wrong, frame[:-1], frame + b"\0"]:
            self.assertIsNone(self.taken(data, 7001))

    def test_a_watch_has_the_fence_of_its_busy(self):
        for fence in (9, 10):
            sent = next(self.waiter.pause(fence, math.inf))
            self.assertEqual(sent.data[26:34], fence.to_bytes(8, "big"))

    def test_a_node_that_leads_no_more_keeps_no_place(self):
        self.notice()
        for news, place, node, is_kept in (
            (News.HELD, 2, 1, True),
            (News.NOT_HERE, 2, 2, True),
            (News.NOT_HERE, 2, 1, False),
            (News.HELD, 0, 1, False),
            (News.HELD, 2, 2, True),
        ):
            self.taken(self.saying(news, place, node), 7001)
            self.assertEqual(self.waiter.kept_until > self.core.clock(), is_kept)

    def test_a_lock_that_is_free_for_others_counts_as_held_until_a_second_notice(self):
        for place, first in ((1, News.FREE), (2, News.HELD)):
            self.notice()
            news = [self.taken(self.saying(News.FREE, place), 7001).news for _ in range(2)]
            self.assertEqual(news, [first, News.FREE])

    def test_answers_that_a_lock_is_free_for_others_count_as_free_at_the_same_place(self):
        free, held = News.FREE, News.HELD
        for answers, meant in (
            ([(free, 3), (free, 3), (free, 3), (free, 3)], [held, free, held, free]),
            ([(free, 3), (free, 2), (free, 2)], [held, held, free]),
            ([(free, 3), (held, 3), (free, 3), (free, 3)], [held, held, held, free]),
        ):
            self.waiter = Waiter(self.core, "acquire", "db")
            found = []
            for answer in answers:
                self.assertTrue(list(self.waiter.send()))
                found.append(self.taken(self.saying(*answer), 7001).news)
            self.assertEqual(found, meant)

    def test_each_node_is_believed_by_itself_that_a_lock_is_free_for_others(self):
        for node in (1, 2, 1):
            self.assertTrue(list(self.waiter.send()))
            news = self.taken(self.saying(News.FREE, 3, node), 7001).news
        self.assertEqual(news, News.FREE)

    def test_a_leader_that_was_not_given_is_watched_too(self):
        self.core.leader = 7003
        self.assertEqual({it.port for it in self.waiter.send()}, {7001, 7002, 7003})

    def test_a_node_that_does_not_answer_gets_each_eighth_watch(self):
        sent = []
        for _ in range(20):
            sent.append({it.port for it in self.waiter.send()})
            if 7001 in sent[-1]:
                self.taken(self.saying(News.NOT_HERE, 0), 7001)
        self.assertTrue(all(7001 in it for it in sent))
        self.assertEqual([at for at, it in enumerate(sent) if 7002 in it], [0, 1, 8, 16])


if __name__ == "__main__":
    unittest.main()
