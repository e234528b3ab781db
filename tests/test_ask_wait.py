"""How `locks ask --wait` waits for a lock: what it sends, when it asks again, and what it prints."""
import contextlib
import os
import socket
import statistics
import struct
import subprocess
import tempfile
import threading
import time
import unittest

from harness.by_bytes import bytes_of
from harness.cluster import Cluster, free_ports

PROGRAM = os.environ.get("LOCKS_PROGRAM")

SECONDS = 60  # for what comes on a busy machine
TICKET = struct.Struct(">HQQB33s")  # client, number, fence, mode and name of a watch
EXCLUSIVE, SHARE = 1, 2
FREE, HELD, NOT_HERE = 1, 2, 3


def started(*words):
    """A process of the program that asks with these words."""
    pipes = {"stdin": subprocess.DEVNULL, "stdout": subprocess.PIPE, "stderr": subprocess.PIPE}
    return subprocess.Popen([PROGRAM, "ask", "--cluster", "5", *map(str, words)], text=True, **pipes)


def ended(process):
    """The status of a process, and what it printed."""
    out, err = process.communicate(timeout=SECONDS)
    return process.returncode, out, err


@unittest.skipUnless(PROGRAM, "LOCKS_PROGRAM does not tell the program")
class SentTest(unittest.TestCase):
    """What client 7 sends to two ports, where the test answers in place of nodes."""

    def setUp(self):
        self.nodes = [self.bound(), self.bound()]

    def bound(self):
        it = self.enterContext(socket.socket(socket.AF_INET, socket.SOCK_DGRAM))
        it.bind(("127.0.0.1", 0))
        it.settimeout(SECONDS)
        return it

    def asks(self, *words, seconds=SECONDS):
        ports = [word for it in self.nodes for word in ("--port", it.getsockname()[1])]
        process = started(*ports, "--client", 7, "--request", 1, "--wait", seconds, *words)
        return self.enterContext(self.killed(process))

    @contextlib.contextmanager
    def killed(self, process):
        with process:
            yield process
            process.kill()

    def request(self, node, number, op="04 01026462"):
        """Takes a request of that number, after any watches. Where to answer it."""
        while True:
            data, client = self.nodes[node].recvfrom(9000)
            if data[:2] == b"LK":
                asked = bytes_of(f"4c4b0109 0000000000000005 00000000 0007 {number:016x} 00", op)
                self.assertEqual(data.hex(), asked.hex())
                return client

    def answer(self, node, client, number, answer):
        self.nodes[node].sendto(bytes_of(f"4c4b010a 0000000000000005 00000001 0007 {number:016x}", answer), client)

    def busy(self, node, number, fence, op="04 01026462"):
        """Answers the request of that number: client 2 holds the lock."""
        client = self.request(node, number, op)
        self.answer(node, client, number, f"02 0002 {fence:016x}")
        return client

    def watch(self, node):
        """Takes a watch. Its ticket and its periods."""
        data = self.nodes[node].recv(9000)
        self.assertEqual((len(data), data[:16], data[69:]), (71, b"LW\x01\x09" + struct.pack(">QI", 5, 0), b"\0\0"))
        return data[16:68], data[68]

    def notice(self, node, client, ticket, news, place, cluster=5):
        data = b"LW\x01\x0a" + struct.pack(">QI", cluster, node + 1) + ticket + struct.pack(">BH", news, place)
        self.nodes[node].sendto(data, client)

    def silent(self, node, seconds):
        """Whether neither a request nor a watch comes."""
        self.nodes[node].settimeout(seconds)
        try:
            self.nodes[node].recv(9000)
        except TimeoutError:
            return True
        finally:
            self.nodes[node].settimeout(SECONDS)
        return False

    def kept(self, node, seconds):
        """Keeps a place at that node for so many seconds. The numbers of the watches that come, and the requests."""
        numbers, requests, end = [], [], time.monotonic() + seconds
        while time.monotonic() < end:
            data, client = self.nodes[node].recvfrom(9000)
            if data[:2] == b"LK":
                requests.append(data)
            else:
                numbers.append(TICKET.unpack(data[16:68])[1])
                self.notice(node, client, data[16:68], HELD, 1)
        return numbers, requests

    def test_a_grant_is_printed_and_nothing_else_sent(self):
        process = self.asks("acquire", "db")
        self.answer(0, self.request(0, 1), 1, "01 0000000000000003")
        self.assertEqual(ended(process), (0, "granted 3\n", "last request 1\n"))
        self.assertTrue(self.silent(0, 0.2) and self.silent(1, 0.2))

    def test_a_busy_is_followed_by_a_watch_to_each_node(self):
        for words, op, mode in (("acquire", "04 01026462", EXCLUSIVE), ("share", "04 05026462", SHARE)):
            with self.subTest(words=words):
                process = self.asks(words, "db")
                self.busy(0, 1, 9, op)
                tickets = [self.watch(node) for node in (0, 1)]
                self.assertEqual(tickets[0], tickets[1])
                client, number, fence, its_mode, name = TICKET.unpack(tickets[0][0])
                self.assertEqual((client, fence, its_mode, name), (7, 9, mode, b"\2db".ljust(33, b"\0")))
                self.assertAlmostEqual(number / 1e9, time.time(), delta=SECONDS)
                self.assertEqual(tickets[0][1], 20)
                process.kill()

    def test_free_is_followed_by_a_request_to_who_said_so(self):
        process = self.asks("acquire", "db")
        client = self.busy(0, 1, 9)
        ticket, _ = self.watch(1)
        self.notice(1, client, ticket, HELD, 1)
        self.assertTrue(self.silent(1, 0.4))
        self.notice(1, client, ticket, FREE, 1)
        start = time.monotonic()
        self.answer(1, self.request(1, 2), 2, "01 000000000000000a")
        self.assertLess(time.monotonic() - start, 1.0)  # without a notice it would ask 1.7 s after the last one
        self.assertEqual(ended(process), (0, "granted 10\n", "last request 2\n"))
        self.assertTrue(self.silent(1, 0.2))

    def test_free_for_others_is_held_until_it_is_said_again(self):
        self.asks("acquire", "db")
        client = self.busy(0, 1, 9)
        ticket, _ = self.watch(1)
        self.notice(1, client, ticket, FREE, 2)
        self.assertTrue(self.silent(1, 0.4))
        self.notice(1, client, ticket, FREE, 2)
        self.request(1, 2)

    def test_free_for_others_at_two_watches_and_the_same_place_is_asked_for(self):
        self.asks("acquire", "db")
        client = self.busy(0, 1, 9)
        for place in (3, 2):
            ticket, _ = self.watch(1)
            self.notice(1, client, ticket, FREE, place)
            self.assertTrue(self.silent(1, 0.4))
        ticket, _ = self.watch(1)
        self.notice(1, client, ticket, FREE, 2)
        start = time.monotonic()
        self.request(1, 2)
        self.assertLess(time.monotonic() - start, 1.0)

    def test_a_kept_place_is_watched_each_800_ms_and_not_asked_for(self):
        process = self.asks("acquire", "db")
        client = self.busy(0, 1, 9)
        numbers, requests = self.kept(0, 5.0)
        self.assertEqual(requests, [])
        self.assertIn(len(numbers), range(5, 10))
        self.assertEqual(numbers, sorted(set(numbers)))
        ticket, _ = self.watch(0)
        self.notice(0, client, ticket, FREE, 1)
        self.answer(0, self.request(0, 2), 2, "0a")
        self.assertEqual(ended(process), (0, "bad\n", "last request 2\n"))

    def test_a_kept_place_that_no_notice_keeps_is_asked_for_after_two_watches(self):
        self.asks("acquire", "db")
        self.busy(0, 1, 9)
        self.kept(0, 2.0)
        start = time.monotonic()
        self.request(0, 2)
        took = time.monotonic() - start
        self.assertTrue(1.6 < took < 3.0, took)

    def test_other_notices_are_ignored(self):
        self.asks("acquire", "db")
        client = self.busy(0, 1, 9)
        ticket, _ = self.watch(0)
        self.notice(0, client, ticket, HELD, 1)
        other = ticket[:9] + bytes([ticket[9] ^ 1]) + ticket[10:]
        self.notice(0, client, ticket, FREE, 1, cluster=6)
        self.notice(0, client, other, FREE, 1)
        with socket.socket(socket.AF_INET, socket.SOCK_DGRAM) as stranger:
            data = b"LW\x01\x0a" + struct.pack(">QI", 5, 1) + ticket + struct.pack(">BH", FREE, 1)
            stranger.sendto(data, client)
            for wrong in (data[:-1], data + b"\0", b"LW\x01\x09" + data[4:]):
                self.nodes[0].sendto(wrong, client)
        self.assertTrue(self.silent(0, 0.5))

    def test_false_notices_are_followed_twice(self):
        self.asks("acquire", "db")
        for number in (1, 2, 3):
            client = self.busy(0, number, 9)
            ticket, _ = self.watch(0)
            self.notice(0, client, ticket, FREE, 1)
        self.assertTrue(self.silent(0, 0.1))

    def test_without_notices_it_asks_at_intervals(self):
        process = self.asks("acquire", "db", seconds=3)
        came = []
        with contextlib.suppress(TimeoutError):
            for number in range(1, 100):
                self.nodes[0].settimeout(1.5)
                self.busy(0, number, 9)
                came.append(time.monotonic())
        status, out, err = ended(process)
        self.assertEqual((status, out, err), (0, "busy 2 9\n", f"last request {len(came)}\n"))
        gaps = [after - before for before, after in zip(came, came[1:])]
        self.assertLess(gaps[0], 0.4)
        self.assertGreater(len(came), 4)
        self.assertLess(len(came), 12)

    def test_what_ends_the_wait_is_withdrawn_unless_it_is_a_grant(self):
        process = self.asks("acquire", "db", seconds=1)
        client = self.busy(0, 1, 9)
        ticket, _ = self.watch(0)
        self.notice(0, client, ticket, HELD, 1)
        number, periods = TICKET.unpack(ticket)[1], 20
        while periods:
            ticket, periods = self.watch(0)
        self.assertGreater(TICKET.unpack(ticket)[1], number)
        self.assertEqual(ended(process), (0, "busy 2 9\n", "last request 1\n"))

    def test_a_request_without_an_answer_is_not_taken_for_a_busy(self):
        process = self.asks("acquire", "db", seconds=1)
        self.busy(0, 1, 9)
        self.request(0, 2)
        self.assertEqual(ended(process), (1, "no answer\n", "last request 2\n"))

    def test_the_own_lock_is_not_waited_for(self):
        process = self.asks("acquire", "db")
        self.answer(0, self.request(0, 1), 1, "02 0007 0000000000000009")
        self.assertEqual(ended(process), (0, "busy 7 9\n", "last request 1\n"))
        self.assertTrue(self.silent(0, 0.2))

    def test_a_passed_request_ends_the_wait(self):
        process = self.asks("acquire", "db")
        client = self.request(0, 1)
        passed = "4c4b010c 0000000000000005 00000001 0007 0000000000000001 0000000000000002"
        self.nodes[0].sendto(bytes_of(passed), client)
        self.assertEqual(ended(process), (0, "passed 2\n", "last request 1\n"))

    def test_a_wait_has_to_be_one(self):
        for words in (["--wait", "0", "acquire", "db"], ["--wait", "86401", "acquire", "db"],
                      ["--wait", "x", "acquire", "db"], ["--wait", "1", "release", "db", "1"],
                      ["--wait", "1", "join", "4", "7004"], ["--wait", "1", "acquire", "DB"]):
            with self.subTest(words=words):
                status, out, err = ended(started("--port", 1, "--client", 7, "--request", 1, *words))
                self.assertEqual((status, out), (2, ""))
                self.assertIn(f"error: invalid value '{words[1]}' for '--wait <wait>'", err)


@unittest.skipUnless(PROGRAM, "LOCKS_PROGRAM does not tell the program")
class WaitingTest(unittest.TestCase):
    """Clients of a cluster, each a process."""

    def cluster_of(self, nodes):
        return self.enterContext(Cluster(PROGRAM, self.enterContext(tempfile.TemporaryDirectory()), nodes=nodes))

    def setUp(self):
        self.number = 1000

    def ask(self, ports, client, *words):
        """What a request prints, asked again until it is answered."""
        self.number += 1000
        end = time.monotonic() + SECONDS
        while time.monotonic() < end:
            status, out, _ = ended(self.asks(ports, client, *words))
            if not status:
                return out.strip()
        self.fail(f"no answer to {words}")

    def asks(self, ports, client, *words):
        """The process of a request."""
        places = [word for port in ports for word in ("--port", port)]
        return started(*places, "--client", client, "--request", self.number, *words)

    def waits(self, ports, client, *words, seconds=SECONDS):
        """The process of a request that waits, under the next number."""
        self.number += 1000
        return self.asks(ports, client, "--wait", seconds, *words)

    def taken(self, process):
        """The fence that a process prints as granted, and when."""
        line = process.stdout.readline()
        end = time.monotonic()
        self.assertEqual(line[:8], "granted ")
        self.assertEqual(ended(process)[0], 0)
        return int(line[8:]), end

    def test_a_free_lock_is_granted_at_once(self):
        ports = self.cluster_of(3).ports.values()
        self.ask(ports, 1, "ask", "db")
        found = ended(self.waits(ports, 1, "acquire", "db"))
        self.assertEqual(found, (0, "granted 1\n", f"last request {self.number}\n"))

    def test_a_released_lock_is_granted_to_who_waits(self):
        ports = list(self.cluster_of(3).ports.values())
        self.ask(ports, 1, "acquire", "db")
        holder, fence = 1, 1
        for asked in (ports, ports[:1], ports[1:2]):  # one of the last two does not lead
            took = []
            for _ in range(5):
                waiter = holder + 1  # a node takes no watch of a client from another port for two seconds
                process = self.waits(asked, waiter, "acquire", "db")
                time.sleep(0.5)
                self.number += 1000
                release = self.asks(ports, holder, "release", "db", fence)
                self.assertEqual(release.stdout.readline(), "released\n")
                start = time.monotonic()
                found, end = self.taken(process)
                ended(release)
                self.assertEqual(found, fence + 1)
                took.append(end - start)
                holder, fence = waiter, found
            self.assertLess(statistics.median(took), 0.2, took)  # asking at intervals it takes longer

    def test_a_wait_ends_with_the_last_answer(self):
        ports = self.cluster_of(3).ports.values()
        self.assertEqual(self.ask(ports, 1, "acquire", "db"), "granted 1")
        start = time.monotonic()
        status, out, _ = ended(self.waits(ports, 2, "acquire", "db", seconds=2))
        self.assertEqual((status, out), (0, "busy 1 1\n"))
        self.assertGreater(time.monotonic() - start, 1.9)
        self.assertEqual(self.ask(ports, 2, "ask", "db"), "held 1 1")

    def test_sharers_wait_for_a_lock(self):
        ports = self.cluster_of(3).ports.values()
        self.assertEqual(self.ask(ports, 1, "raise", "2"), "raised")
        self.assertEqual(self.ask(ports, 1, "acquire", "db"), "granted 1")
        process = self.waits(ports, 2, "share", "db")
        time.sleep(0.5)
        self.assertEqual(self.ask(ports, 1, "release", "db", 1), "released")
        self.assertEqual(ended(process)[:2], (0, "shared 2\n"))

    def test_a_leader_is_killed_meanwhile(self):
        cluster = self.cluster_of(3)
        ports = cluster.ports.values()
        self.assertEqual(self.ask(ports, 1, "acquire", "db"), "granted 1")
        process = self.waits(ports, 2, "acquire", "db")
        time.sleep(0.5)
        lines = subprocess.run([PROGRAM, "status", "--cluster", "5", "--port", *map(str, ports)],
                               stdin=subprocess.DEVNULL, capture_output=True, text=True, timeout=SECONDS).stdout
        [leader] = [node for node, line in zip(cluster.ports, lines.splitlines()) if " leads" in line]
        cluster.kill(leader)
        time.sleep(0.5)
        self.assertEqual(self.ask(ports, 1, "release", "db", 1), "released")
        fence, _ = self.taken(process)
        self.assertEqual(fence, 2)

    def test_nodes_that_know_no_watches_are_asked_at_intervals(self):
        [port] = self.cluster_of(1).ports.values()
        self.ask([port], 1, "acquire", "db")
        with OldNode(port) as node:
            process = self.waits([node.port], 2, "acquire", "db")
            time.sleep(1.0)
            self.assertEqual(self.ask([port], 1, "release", "db", 1), "released")
            fence, _ = self.taken(process)
        self.assertEqual(fence, 2)
        self.assertGreater(node.dropped, 0)


class OldNode:
    """Carries what comes from one client to a node, and back, but no watches."""

    def __init__(self, to):
        [self.port] = free_ports(1)
        self.to, self.client, self.dropped = ("127.0.0.1", to), None, 0
        self.front, self.back = (socket.socket(socket.AF_INET, socket.SOCK_DGRAM) for _ in range(2))
        self.front.bind(("127.0.0.1", self.port))
        self.is_over = False
        self.threads = [threading.Thread(target=run, daemon=True) for run in (self.carry, self.carry_back)]

    def __enter__(self):
        for it in (self.front, self.back):
            it.settimeout(0.05)
        for thread in self.threads:
            thread.start()
        return self

    def __exit__(self, *_):
        self.is_over = True
        for thread in self.threads:
            thread.join()
        self.front.close()
        self.back.close()

    def carry(self):
        while not self.is_over:
            with contextlib.suppress(TimeoutError):
                data, self.client = self.front.recvfrom(9000)
                if data[:2] == b"LW":
                    self.dropped += 1
                else:
                    self.back.sendto(data, self.to)

    def carry_back(self):
        while not self.is_over:
            with contextlib.suppress(TimeoutError, OSError):
                self.front.sendto(self.back.recv(9000), self.client)


if __name__ == "__main__":
    unittest.main()
