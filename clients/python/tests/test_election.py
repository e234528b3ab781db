"""Elections: who leads, who takes over, and who learns of it."""
import asyncio
import contextlib
import os
import signal
import subprocess
import sys
import threading
import time
import unittest

from cluster_case import PROGRAM, ClusterCase
from table_case import ACQUIRE, TableCase
from locks_client import AsyncClient, AsyncElection, Busy, Election, Held, NotHeld

LEADER = """
import sys, time
from locks_client import Client, Election, NotHeld, milliseconds
ports = [int(port) for port in sys.argv[2:]]
with Client(5, int(sys.argv[1]), ports, first=milliseconds(), patience=30.0) as client:
    try:
        election = Election(client, "job", beat=0.3, dead=3.0)
        with election.lead(on_deposed=lambda *it: print("deposed", flush=True)) as fence:
            print("leads", fence, flush=True)
            time.sleep(60)
    except NotHeld:
        pass
"""


class ElectionTest(TableCase):
    def election(self, number, **how):
        return Election(self.client(number, **how), "job", beat=0.2, dead=2.0)

    def beats(self):
        """The fence of the heartbeat."""
        return self.node.table.fences.get("job/b", 0)

    def test_a_leader_beats_and_stays(self):
        one, two = self.election(7), self.election(8)
        self.assertIsNone(two.leader())
        with one.lead() as fence:
            self.assertEqual((fence, two.leader()), (1, Held(7, 1)))
            with self.assertRaises(Busy), two.lead(wait=4.0):
                self.fail("the leader beats")
            self.assertGreater(self.beats(), 3)
        self.assertEqual((self.holders("job"), one.client.core.grants), ([], {}))
        with two.lead() as fence:
            self.assertEqual(fence, 2)

    def test_a_leader_that_stands_still_is_deposed_and_told(self):
        told, is_told, one, two = [], threading.Event(), self.election(7), self.election(8)
        with self.assertRaises(NotHeld), self.assertLogs("locks_client", "WARNING"):
            with one.lead(on_deposed=lambda *it: (told.append(it), is_told.set())):
                with one.client.guard:  # the leader's calls stand still, as under SIGSTOP
                    with contextlib.ExitStack() as stack:
                        self.assertEqual(self.elected(two, stack), 2)
                        two_leads = self.holders("job")
                self.assertTrue(is_told.wait(20.0))
        self.assertEqual((told, two_leads), ([("job", 1)], [8]))

    def elected(self, election, stack):
        """The fence of an election in a thread of its own, since this one holds the other client's guard."""
        found = []
        thread = threading.Thread(target=lambda: found.append(stack.enter_context(election.lead())), daemon=True)
        thread.start()
        thread.join(30.0)
        return found[0]

    def test_a_beat_that_was_left_held_is_freed(self):
        self.client(9).acquire("job/b")
        with self.election(7).lead():
            end = time.monotonic() + 20.0
            while self.beats() < 3 and time.monotonic() < end:
                time.sleep(0.02)
        self.assertGreaterEqual(self.beats(), 3)

    def test_a_run_takes_over_from_an_earlier_one_with_its_number(self):
        self.client(7).acquire("job")
        with self.election(7, first=100).lead() as fence:
            self.assertEqual(fence, 2)

    def test_an_interrupted_campaign_leaves_nothing_held(self):
        one = self.election(7)
        one.client.ask("db")
        self.node.replies = lambda body: body != ACQUIRE
        receive = one.client.receive

        def interrupted(until):
            one.client.receive = receive
            receive(time.monotonic() + 0.2)
            self.node.replies = lambda body: True
            raise KeyboardInterrupt

        one.client.receive = interrupted
        with self.assertRaises(KeyboardInterrupt), one.lead():
            self.fail("the campaign was interrupted")
        self.assertEqual(self.holders("job"), [])

    def test_beat_and_dead_are_checked(self):
        for beat, dead in ((0.0, 1.0), (1.0, 1.0), (float("nan"), 1.0)):
            with self.subTest(beat=beat), self.assertRaises(ValueError):
                Election(self.client(7), "job", beat, dead)

    def test_tasks_elect(self):
        asyncio.run(self.elect())

    async def elect(self):
        """Two candidates of asyncio, of which the second takes over from one that stands still."""
        told = asyncio.Event()
        one, two = (AsyncElection(self.client(number, AsyncClient), "job", 0.2, 2.0) for number in (7, 8))
        with self.assertRaises(NotHeld):
            async with one.lead(on_deposed=lambda *it: told.set()) as fence:
                self.assertEqual((fence, await two.leader()), (1, Held(7, 1)))
                self.client(9).break_lock("job", 1)
                async with two.lead() as fence:
                    self.assertEqual(fence, 2)
                    await asyncio.wait_for(told.wait(), 20.0)
        self.assertEqual(self.holders("job"), [])


@unittest.skipUnless(PROGRAM, "LOCKS_PROGRAM does not tell the program")
class ElectionOfProcessesTest(ClusterCase):
    def leader(self, number):
        """A process that leads, or will."""
        command = [sys.executable, "-c", LEADER, str(number), *map(str, self.ports)]
        process = subprocess.Popen(command, stdout=subprocess.PIPE, text=True)
        self.addCleanup(process.communicate)
        self.addCleanup(process.kill)
        return process

    def test_another_one_leads_after_a_kill_and_after_a_stop(self):
        self.client(3, patience=30.0).raise_table()
        first = self.leader(1)
        self.assertEqual(first.stdout.readline(), "leads 1\n")
        second = self.leader(2)
        first.kill()
        self.assertEqual(second.stdout.readline(), "leads 2\n")
        third = self.leader(4)
        os.kill(second.pid, signal.SIGSTOP)
        self.assertEqual(third.stdout.readline(), "leads 3\n")
        os.kill(second.pid, signal.SIGCONT)
        self.assertEqual(second.stdout.readline(), "deposed\n")


if __name__ == "__main__":
    unittest.main()
