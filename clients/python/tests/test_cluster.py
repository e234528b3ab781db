"""The clients against nodes that the tests start."""
import asyncio
import threading
import time
import unittest

from cluster_case import PROGRAM, ClusterCase
from harness.cluster import free_ports
from locks_client import (
    AsyncClient,
    Bad,
    Busy,
    Client,
    Free,
    Held,
    HeldShared,
    NoAnswer,
    NotHeld,
    NotMember,
    OtherAnswer,
    Passed,
    Used,
)


@unittest.skipUnless(PROGRAM, "LOCKS_PROGRAM does not tell the program")
class ClusterTest(ClusterCase):
    def test_a_lock_goes_from_hand_to_hand(self):
        one, two = self.client(1), self.client(2)
        self.assertEqual(one.acquire("db"), 1)
        with self.assertRaises(Busy) as busy:
            two.acquire("db")
        self.assertEqual((busy.exception.holder, busy.exception.fence), (1, 1))
        self.assertEqual(two.ask("db"), Held(1, 1))
        self.assertTrue(two.check("db", 1))
        one.release("db", 1)
        with self.assertRaises(NotHeld):
            one.release("db", 1)
        self.assertEqual(two.ask("db"), Free(1))
        self.assertEqual(two.acquire("db", wait=5.0), 2)
        self.assertFalse(one.check("db", 1))

    def test_each_node_may_be_asked(self):
        self.client(1).acquire("db")
        for number, port in enumerate(self.ports, 2):
            with Client(5, number, [port], first=1, patience=60.0) as client:
                self.assertEqual(client.ask("db"), Held(1, 1))

    def test_a_number_that_was_used_is_noticed(self):
        self.assertEqual(self.client(1, first=1).acquire("db"), 1)
        with self.assertRaises(OtherAnswer):
            self.client(1, first=2).check("db", 1)
        self.client(1, first=9).ask("db")
        with self.assertRaises(Passed) as passed:
            self.client(1, first=8).ask("db")
        self.assertEqual(passed.exception.last, 10)

    def test_the_death_of_each_node_is_survived(self):
        client = self.client(1)
        for fence, node in enumerate(list(self.cluster.ports), 1):
            self.assertEqual(client.acquire("db"), fence)
            self.cluster.kill(node)
            client.release("db", fence)
            self.cluster.start(node)

    def test_members_join_and_leave(self):
        client, [port] = self.client(1), free_ports(1)
        with self.assertRaises(Used):
            client.join(3, port)
        self.assertIsNone(client.join(4, port))
        self.cluster.ports[4] = port
        self.cluster.start(4)
        self.assertIsNone(client.leave(4))
        with self.assertRaises(NotMember):
            client.leave(9)

    def test_a_raised_table_is_shared_and_broken(self):
        one, two, three = self.client(1), self.client(2), self.client(3)
        with self.assertRaises(Bad):
            one.share("db")
        self.assertTrue(one.raise_table())
        self.assertFalse(two.raise_table())
        with one.lock("db", shared=True) as fence:
            self.assertEqual((fence, two.share("db")), (1, 1))
            self.assertEqual(three.ask("db"), HeldShared(2, 1))
            with self.assertRaises(Busy):
                three.acquire("db")
        self.assertTrue(three.break_lock("db", 1))
        self.assertFalse(three.break_lock("db", 1))
        self.assertEqual(three.acquire("db"), 2)

    def test_nobody_answers(self):
        for node in list(self.cluster.ports):
            self.cluster.kill(node)
        with self.assertRaises(NoAnswer):
            self.client(1, patience=1.0).acquire("db")

    def test_who_waits_has_a_place_in_the_queue_of_the_leader(self):
        holder, waiter, fences = self.client(1), self.client(2), []
        holder.acquire("db")
        waiting = threading.Thread(target=lambda: fences.append(waiter.acquire("db", wait=120.0)), daemon=True)
        waiting.start()
        end = time.monotonic() + 60.0
        while not (waiter.core.waiter and waiter.core.waiter.kept_by):
            self.assertLess(time.monotonic(), end)
            time.sleep(0.01)
        holder.release("db", 1)
        waiting.join(120.0)
        self.assertEqual((waiting.is_alive(), fences), (False, [2]))

    def test_tasks_take_a_lock_in_turn(self):
        fences = asyncio.run(self.fences_of_tasks(3))
        self.assertEqual(sorted(fences), [1, 2, 3])

    async def fences_of_tasks(self, count):
        """The fences of so many tasks, each with a client of its own, which want one lock at once."""

        async def fence(number):
            async with self.cluster.client(AsyncClient, number, patience=60.0) as client, client.lock("db") as fence:
                await asyncio.sleep(0.1)
                return fence

        return await asyncio.gather(*(fence(number) for number in range(1, count + 1)))


if __name__ == "__main__":
    unittest.main()
