"""Clients that wait for a lock, at nodes of which some know no watches, and behind a network that loses, repeats and
reorders watches and notices, or in which somebody forges them. They have to get the lock, one at a time."""
import os
import random
import subprocess
import tempfile
import threading
import time
import unittest

from harness.cluster import Cluster
from harness.relay import Between
from locks_client import Client

PROGRAM = os.environ.get("LOCKS_PROGRAM")
SECONDS = 120.0  # for what comes on a busy machine
WATCH, NOTICE = b"LW\x01\x09", b"LW\x01\x0a"
FREE = 1


@unittest.skipUnless(PROGRAM, "LOCKS_PROGRAM does not tell the program")
class WaitersTest(unittest.TestCase):
    def setUp(self):
        self.cluster = self.enterContext(Cluster(PROGRAM, self.enterContext(tempfile.TemporaryDirectory())))
        self.between = self.enterContext(Between(self.cluster.ports))
        self.notices = 0
        self.between.carries = self.carried
        self.old = set()
        self.holder = self.client(1)
        self.holder.acquire("db")

    def client(self, number, **how):
        """A client that reaches the nodes only through the relay."""
        first = time.time_ns() // 1_000_000
        client = Client(5, number, list(self.between.ports.values()), first=first, patience=SECONDS, **how)
        self.addCleanup(client.close)
        self.addCleanup(client.core.forget)
        return client

    def carried(self, node, data, is_asked):
        """What the relay carries: an old node drops watches."""
        self.notices += data[:4] == NOTICE
        return [] if node in self.old and data[:4] == WATCH else [data]

    def leader(self):
        """The node that answered the holder last."""
        return next(node for node, port in self.between.ports.items() if port == self.holder.leader)

    def wait_for(self, is_so):
        end = time.monotonic() + SECONDS
        while not is_so():
            self.assertLess(time.monotonic(), end)
            time.sleep(0.01)

    def waiting(self, client):
        """Begins to wait for the lock. Returns what ends the wait, and gives the fence."""
        fences = []
        thread = threading.Thread(target=lambda: fences.append(client.acquire("db", wait=SECONDS)), daemon=True)
        thread.start()

        def ended():
            thread.join(2 * SECONDS)
            return fences

        return ended

    def is_kept(self, client):
        """Whether a node keeps a place for the client."""
        waiter = client.core.waiter
        return bool(waiter and waiter.kept_by)

    def is_busy(self, client):
        """Whether the client has found the lock held, and waits."""
        waiter = client.core.waiter
        return bool(waiter and waiter.fence and waiter.watch)

    def test_old_nodes_are_asked_at_intervals(self):
        self.old = set(self.cluster.ports)
        waiter = self.client(2)
        ended = self.waiting(waiter)
        self.wait_for(lambda: self.is_busy(waiter))
        self.holder.release("db", 1)
        self.assertEqual((ended(), self.notices), ([2], 0))

    def test_an_old_leader_is_asked_at_intervals(self):
        self.old = {self.leader()}
        waiter = self.client(2)
        ended = self.waiting(waiter)
        self.wait_for(lambda: self.is_busy(waiter) and self.notices)
        self.holder.release("db", 1)
        self.assertEqual(ended(), [2])
        self.assertFalse(self.is_kept(waiter))

    def test_a_leader_tells_beside_old_nodes(self):
        self.old = {*self.cluster.ports} - {self.leader()}
        waiter = self.client(2)
        ended = self.waiting(waiter)
        self.wait_for(lambda: self.is_kept(waiter))
        self.holder.release("db", 1)
        self.assertEqual(ended(), [2])

    def test_a_node_that_becomes_new_tells(self):
        self.old = set(self.cluster.ports)
        waiter = self.client(2)
        ended = self.waiting(waiter)
        self.wait_for(lambda: self.is_busy(waiter))
        self.old = set()
        self.wait_for(lambda: self.is_kept(waiter))
        self.holder.release("db", 1)
        self.assertEqual(ended(), [2])

    def test_a_waiter_survives_a_restart_of_all_nodes(self):
        waiter = self.client(2)
        ended = self.waiting(waiter)
        self.wait_for(lambda: self.is_kept(waiter))
        for node in list(self.cluster.ports):
            self.cluster.kill(node)
        waiter.core.waiter.kept_by = 0
        for node in self.cluster.ports:
            self.cluster.start(node)
        self.wait_for(lambda: self.is_kept(waiter))
        self.holder.release("db", 1)
        self.assertEqual(ended(), [2])

    def test_a_waiter_survives_the_death_of_the_leader(self):
        waiter = self.client(2)
        ended = self.waiting(waiter)
        self.wait_for(lambda: self.is_kept(waiter))
        self.cluster.kill(self.leader())
        self.holder.release("db", 1)
        self.assertEqual(ended(), [2])

    def test_lost_repeated_and_reordered_hints_cost_no_lock(self):
        draws, kept = random.Random(7), []

        def carried(node, data, is_asked):
            if data[:2] != b"LW":
                return [data]
            kept.append((node, is_asked, data))
            others = [old for at, side, old in draws.choices(kept, k=2) if (at, side) == (node, is_asked)]
            return draws.sample([data, data, *others], draws.randrange(3))

        self.between.carries = carried
        inside, most, done = [], [], []

        def work(client):
            for _ in range(3):
                with client.lock("db", wait=SECONDS):
                    inside.append(client.client)
                    most.append(len(inside))
                    time.sleep(0.02)
                    inside.remove(client.client)
            done.append(client.client)

        threads = [threading.Thread(target=work, args=(self.client(number),), daemon=True) for number in range(2, 7)]
        for thread in threads:
            thread.start()
        self.holder.release("db", 1)
        for thread in threads:
            thread.join(2 * SECONDS)
        self.assertEqual((sorted(done), set(most), len(most)), ([2, 3, 4, 5, 6], {1}, 15))
        self.assertGreater(len(kept), 15)

    def test_forged_notices_bring_no_flood(self):
        forged, asked = [], []

        def carried(node, data, is_asked):
            if data[:4] == NOTICE:
                forged.append(data)
                return [data[:68] + bytes([FREE]) + (1).to_bytes(2, "big")] * 50
            if is_asked and data[:4] != WATCH:
                asked.append(data)
            return [data]

        self.between.carries = carried
        waiter = self.client(2)
        ended = self.waiting(waiter)
        self.wait_for(lambda: len(forged) >= 20)
        self.assertLessEqual(len(asked), len(forged) + 4)  # each Busy and each renewal brings three of them
        self.between.carries = self.carried
        self.holder.release("db", 1)
        self.assertEqual(ended(), [2])


@unittest.skipUnless(PROGRAM, "LOCKS_PROGRAM does not tell the program")
class SealedWaitersTest(unittest.TestCase):
    def test_with_keys_a_waiter_has_a_place(self):
        folder = self.enterContext(tempfile.TemporaryDirectory())
        for name, key in (("nodes", 0x11), ("clients", 0x22)):
            self.write(os.path.join(folder, name), bytes([key]).hex() * 32 + "\n")
        options = ["--key", os.path.join(folder, "nodes"), "--client-key", os.path.join(folder, "clients")]
        cluster = self.enterContext(Cluster(PROGRAM, folder, options=options))
        one, two = (self.client(cluster, folder, number) for number in (1, 2))
        one.acquire("db")
        fences = []
        waiting = threading.Thread(target=lambda: fences.append(two.acquire("db", wait=SECONDS)), daemon=True)
        waiting.start()
        end = time.monotonic() + SECONDS
        while not (two.core.waiter and two.core.waiter.kept_by):
            self.assertLess(time.monotonic(), end)
            time.sleep(0.01)
        one.release("db", 1)
        waiting.join(SECONDS)
        self.assertEqual(fences, [2])

    def write(self, path, text):
        with open(os.open(path, os.O_CREAT | os.O_WRONLY, 0o600), "w", encoding="ascii") as it:
            it.write(text)

    def client(self, cluster, folder, number):
        """A client with its key."""
        command = [PROGRAM, "client-key", "--master", os.path.join(folder, "clients"), "--client", str(number)]
        key = os.path.join(folder, f"client{number}")
        self.write(key, subprocess.run(command, stdin=subprocess.DEVNULL, capture_output=True, text=True).stdout)
        client = cluster.client(Client, number, patience=SECONDS, key=key)
        self.addCleanup(client.close)
        self.addCleanup(client.core.forget)
        return client


if __name__ == "__main__":
    unittest.main()
