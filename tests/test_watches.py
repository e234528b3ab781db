"""Whoever waits for a name is told when it is free, by watches and notices beside the protocol: in order of arrival, by
the node that leads alone, and within the bounds of the queue."""
import os
import select
import socket
import struct
import subprocess
import tempfile
import time
import unittest

from harness.cluster import Cluster
from harness.frames import REPLY, REQUEST, seal

PROGRAM = os.environ.get("LOCKS_PROGRAM")

CLUSTER = 5
FIELDS = struct.Struct(">4sQIHQQB33sBH")
WATCH, NOTICE = b"LW\x01\x09", b"LW\x01\x0a"
FIVE = [f"n{number}" for number in range(5)]  # one name more than a client may wait for
EXCLUSIVE, SHARE = 1, 2
FREE, HELD, NOT_HERE = 1, 2, 3
SECONDS = 60.0  # for what comes on a busy machine
QUIET = 1.0  # for what must not come: ten periods


def watch(client, number, fence, name="db", mode=EXCLUSIVE, periods=20, cluster=CLUSTER):
    """The bytes of a watch."""
    field = bytes([len(name)]) + name.encode().ljust(32, b"\0")
    return FIELDS.pack(WATCH, cluster, 0, client, number, fence, mode, field, periods, 0)


class Notice:
    """What a notice says."""

    def __init__(self, datagram):
        magic, self.cluster, self.node, self.client, self.number, self.fence, mode, name, self.news, self.place = (
            FIELDS.unpack(datagram))
        assert magic == NOTICE and mode in (EXCLUSIVE, SHARE), datagram.hex()
        self.name = name[1 : 1 + name[0]].decode()

    def __repr__(self):
        return f"notice {self.news} of {self.name} to {self.client}, number {self.number}, place {self.place}"


@unittest.skipUnless(PROGRAM, "LOCKS_PROGRAM does not tell the program")
class WatchesTest(unittest.TestCase):
    def setUp(self):
        folder = self.enterContext(tempfile.TemporaryDirectory())
        self.cluster = self.enterContext(Cluster(PROGRAM, folder, options=["--events"], logs=True))
        self.numbers, self.sockets = {}, {}

    def ask(self, client, *words):
        """The answer to a client's request."""
        self.numbers[client] = self.numbers.get(client, 0) + 1
        ports = [str(port) for node, port in self.cluster.ports.items() if node in self.cluster.processes]
        end = time.monotonic() + SECONDS
        while True:
            for port in ports:
                place = ["--cluster", str(CLUSTER), "--port", port, "--client", str(client)]
                run = subprocess.run([PROGRAM, "ask", *place, "--request", str(self.numbers[client]), *words],
                                     stdin=subprocess.DEVNULL, capture_output=True, text=True, timeout=120)
                if run.returncode == 0:
                    return run.stdout.strip()
            self.assertLess(time.monotonic(), end, run.stderr)

    def socket(self, client):
        """The socket of a client."""
        if client not in self.sockets:
            self.sockets[client] = self.enterContext(socket.socket(socket.AF_INET, socket.SOCK_DGRAM))
        return self.sockets[client]

    def send(self, client, datagram, nodes=None):
        """Sends a datagram of a client to these nodes, else to all."""
        for node in nodes or self.cluster.processes:
            self.socket(client).sendto(datagram, ("127.0.0.1", self.cluster.ports[node]))

    def next(self, *clients, seconds=SECONDS):
        """The client that a notice comes to first, and what it says; or nothing."""
        found, _, _ = select.select([self.socket(client) for client in clients], [], [], seconds)
        for client in clients:
            if self.socket(client) in found:
                return client, Notice(self.socket(client).recv(9000))
        return None

    def told(self, *clients, seconds=SECONDS):
        """The same of a notice that says something of the name."""
        end = time.monotonic() + seconds
        while (left := end - time.monotonic()) > 0:
            came = self.next(*clients, seconds=left)
            if came and came[1].news != NOT_HERE:
                return came
        return None

    def wait_in_line(self, client, fence, name="db", mode=EXCLUSIVE, first=1):
        """Watches until the leader says that the name is held. Returns its notice, and the number of the watch."""
        end = time.monotonic() + SECONDS
        number = first
        while time.monotonic() < end:
            self.send(client, watch(client, number, fence, name, mode))
            if came := self.told(client, seconds=1.0):
                self.assertEqual((came[1].client, came[1].name, came[1].fence), (client, name, fence))
                return came[1], number
            number += 1
        self.fail("no node says anything of the name")

    def order(self, *clients):
        """Who is told that the name is free, each with the first notice, in order. Each is told once more later."""
        order = {}
        while len(order) < len(clients):
            came = self.told(*clients)
            self.assertIsNotNone(came, order)
            client, notice = came
            self.assertEqual(notice.news, FREE)
            order.setdefault(client, notice)
        return order

    def drain(self, *clients):
        """Takes all that has come."""
        while self.next(*clients, seconds=0.2):
            pass

    def test_who_waits_is_told_in_order(self):
        self.assertEqual(self.ask(1, "acquire", "db"), "granted 1")
        for place, client in enumerate((2, 3, 4), 1):
            notice, _ = self.wait_in_line(client, 1)
            self.assertEqual((notice.news, notice.place), (HELD, place))
        self.drain(2, 3, 4)
        self.assertEqual(self.ask(1, "release", "db", "1"), "released")
        order = self.order(2, 3, 4)
        self.assertEqual([(client, notice.place) for client, notice in order.items()], [(2, 1), (3, 2), (4, 3)])
        self.assertEqual(self.ask(2, "acquire", "db"), "granted 2")
        self.drain(2, 3, 4)
        for client in (3, 4):
            self.wait_in_line(client, 2, first=100)
        self.drain(2, 3, 4)
        self.assertEqual(self.ask(2, "release", "db", "2"), "released")
        client, notice = self.told(2, 3, 4)
        self.assertEqual((client, notice.news, notice.place), (3, FREE, 1))

    def test_who_withdraws_is_not_told(self):
        self.assertEqual(self.ask(1, "acquire", "db"), "granted 1")
        _, number = self.wait_in_line(2, 1)
        self.wait_in_line(3, 1)
        self.send(2, watch(2, number + 1, 1, periods=0))
        client, notice = self.told(2)
        self.assertEqual((notice.number, notice.news, notice.place), (number + 1, HELD, 0))
        self.drain(2, 3)
        self.ask(1, "release", "db", "1")
        client, notice = self.told(2, 3)
        self.assertEqual((client, notice.news, notice.place), (3, FREE, 1))
        self.assertIsNone(self.told(2, seconds=QUIET))

    def test_a_watch_that_ended_is_forgotten(self):
        self.assertEqual(self.ask(1, "acquire", "db"), "granted 1")
        _, number = self.wait_in_line(2, 1)
        self.send(2, watch(2, number + 1, 1, periods=1))
        self.assertEqual(self.told(2)[1].number, number + 1)
        time.sleep(2 * QUIET)
        self.drain(2)
        self.ask(1, "release", "db", "1")
        self.assertIsNone(self.told(2, seconds=QUIET))

    def test_late_repeated_and_strange_watches_are_ignored(self):
        self.assertEqual(self.ask(1, "acquire", "db"), "granted 1")
        _, number = self.wait_in_line(2, 1, first=10)
        self.drain(2)
        for datagram in (watch(2, number, 1), watch(2, number - 1, 1, periods=0)):
            self.send(2, datagram)
        strange = watch(2, number + 1, 1, periods=0)
        self.send(3, strange)  # from another address
        for datagram in (watch(2, number + 1, 1, cluster=6), strange[:-1], strange + b"\0", strange[:-1] + b"\1"):
            self.send(2, datagram)
        self.assertIsNone(self.told(2, 3, seconds=QUIET))
        self.ask(1, "release", "db", "1")
        client, notice = self.told(2, 3)
        self.assertEqual((client, notice.number, notice.news), (2, number, FREE))

    def test_a_node_that_does_not_lead_says_nothing_of_the_name(self):
        self.assertEqual(self.ask(1, "acquire", "db"), "granted 1")
        self.wait_in_line(2, 1)
        self.drain(2)
        self.send(2, watch(2, 1000, 1))
        notices = {}
        while len(notices) < 3:
            _, notice = self.next(2)
            notices[notice.node] = notice
        self.assertEqual(sorted(notice.news for notice in notices.values()), [HELD, NOT_HERE, NOT_HERE])
        leader = next(node for node, notice in notices.items() if notice.news == HELD)
        self.ask(1, "release", "db", "1")
        _, notice = self.told(2)
        self.assertEqual((notice.node, notice.news), (leader, FREE))

    def test_a_watch_of_a_later_fence_is_told_nothing(self):
        self.assertEqual(self.ask(1, "acquire", "db"), "granted 1")
        _, number = self.wait_in_line(2, 1)
        self.drain(2)
        self.send(3, watch(3, 1, 2))
        for _ in range(3):
            _, notice = self.next(3)
            self.assertEqual(notice.news, NOT_HERE)

    def test_a_free_name_is_told_so_at_once(self):
        self.ask(1, "acquire", "db")
        self.wait_in_line(2, 1)
        self.send(2, watch(2, 1000, 1, periods=0))
        self.ask(1, "release", "db", "1")
        self.drain(2)
        notice, _ = self.wait_in_line(3, 1)
        self.assertEqual((notice.news, notice.place), (FREE, 0))

    def test_sharers_are_told_together(self):
        self.assertEqual(self.ask(1, "raise", "2"), "raised")
        self.assertEqual(self.ask(1, "acquire", "db"), "granted 1")
        for client in (2, 3):
            self.wait_in_line(client, 1, mode=SHARE)
        self.wait_in_line(4, 1)
        self.drain(2, 3, 4)
        self.ask(1, "release", "db", "1")
        order = list(self.order(2, 3, 4))
        self.assertEqual((set(order[:2]), order[2]), ({2, 3}, 4))

    def round(self, number, clients, names):
        """These clients watch these names at the leader: the places of each, by its number, as far as it answers."""
        places = {client: [] for client in clients}
        leader = "127.0.0.1", self.cluster.ports[self.leader]
        for sent, client in enumerate(clients, 1):
            for name in names:
                self.socket(0).sendto(watch(client, number, 1, name), leader)
            missing = 16 * len(names) if sent < len(clients) else 0  # so that no buffer is full
            while sum(map(len, places.values())) < sent * len(names) - missing and (came := self.next(0, seconds=0.5)):
                if came[1].number == number:
                    places[came[1].client].append(came[1].place)
        return places

    def fill(self, clients, names, is_full):
        """Client 1 holds these names, and these clients watch them until their places are as they should be."""
        for name in ["free", *names]:
            self.assertEqual(self.ask(1, "acquire", name), "granted 1")
        self.ask(1, "release", "free", "1")
        self.leader = self.wait_in_line(1, 1, "free")[0].node  # which keeps no watch of a free name
        end, number = time.monotonic() + 2 * SECONDS, 1
        while not is_full(places := self.round(number, clients, names)):
            self.assertLess(time.monotonic(), end, places)
            number += 1

    def test_every_client_has_a_place_for_a_name(self):
        """There are 256 clients, so no name has more than 256 watches, and a watch of another client is dropped."""
        wanted = [[place] for place in range(1, 256)]
        self.fill(range(2, 257), ["db"], lambda places: sorted(places.values()) == wanted)
        self.assertEqual(self.round(5000, range(257, 258), ["db"]), {257: []})

    def test_a_client_waits_for_four_names_at_most(self):
        """The fifth is an event of the leader."""
        self.fill([2], FIVE, lambda places: places[2] == [1, 1, 1, 1, 0])
        end, told = time.monotonic() + SECONDS, ""
        while "has no room for a watch" not in told:
            self.assertLess(time.monotonic(), end, told)
            time.sleep(0.1)
            with open(self.cluster.log(self.leader), encoding="utf-8") as log:
                told = log.read()

    def test_every_client_has_places_for_four_names(self):
        """So no more than 1,024 watches are kept. Nobody makes place for a fifth name."""
        wanted = [True, True, True, True, False]
        self.fill(range(2, 257), FIVE, lambda places: all([*map(bool, it)] == wanted for it in places.values()))
        self.assertEqual(self.ask(1, "release", FIVE[4], "1"), "released")

    def test_a_watch_lives_twenty_periods_at_most(self):
        self.assertEqual(self.ask(1, "acquire", "db"), "granted 1")
        _, number = self.wait_in_line(2, 1)
        self.send(2, watch(2, number + 1, 1, periods=255))
        self.assertEqual(self.told(2)[1].number, number + 1)
        time.sleep(2.0 + QUIET)
        self.drain(2)
        self.ask(1, "release", "db", "1")
        self.assertIsNone(self.told(2, seconds=QUIET))

    def test_four_notices_answer_a_watch_at_most(self):
        self.assertEqual(self.ask(1, "acquire", "db"), "granted 1")
        _, number = self.wait_in_line(2, 1)
        self.drain(2)
        for fence in range(1, 7):
            self.ask(1, "release", "db", str(fence))
            self.assertEqual(self.ask(1, "acquire", "db"), f"granted {fence + 1}")
        told = []
        while came := self.told(2, seconds=QUIET):
            told.append(came[1])
        self.assertLessEqual(len(told), 3)  # beside the first, by which it waits
        self.assertLessEqual({it.number for it in told}, {number})

    def test_watches_change_nothing_of_the_protocol(self):
        self.assertEqual(self.ask(1, "acquire", "db"), "granted 1")
        self.wait_in_line(2, 1)
        for number in range(100, 1100):
            self.send(2, watch(2, number, 1))
        self.assertEqual(self.ask(2, "acquire", "db"), "busy 1 1")
        self.assertEqual(self.ask(1, "release", "db", "1"), "released")
        self.assertEqual(self.ask(2, "acquire", "db"), "granted 2")

    def test_a_node_that_comes_back_has_an_empty_queue(self):
        self.assertEqual(self.ask(1, "acquire", "db"), "granted 1")
        notice, _ = self.wait_in_line(2, 1)
        leader = notice.node
        self.cluster.kill(leader)
        self.drain(2)
        notice, number = self.wait_in_line(2, 1, first=1000)
        self.assertNotEqual(notice.node, leader)
        self.assertEqual((notice.news, notice.place), (HELD, 1))
        self.cluster.start(leader)
        self.drain(2)
        self.ask(1, "release", "db", "1")
        _, notice = self.told(2)
        self.assertEqual(notice.news, FREE)
        self.assertNotEqual(notice.node, leader)


@unittest.skipUnless(PROGRAM, "LOCKS_PROGRAM does not tell the program")
class SealedWatchesTest(unittest.TestCase):
    """With keys a watch is sealed as a request is, and a notice as the reply to it."""

    NODES, CLIENTS = bytes([0x11]) * 32, bytes([0x22]) * 32

    def setUp(self):
        self.folder = self.enterContext(tempfile.TemporaryDirectory())
        for name, key in (("nodes", self.NODES), ("clients", self.CLIENTS)):
            with open(os.open(self.at(name), os.O_CREAT | os.O_WRONLY, 0o600), "w") as it:
                it.write(key.hex() + "\n")
        options = ["--key", self.at("nodes"), "--client-key", self.at("clients")]
        self.cluster = self.enterContext(Cluster(PROGRAM, self.folder, options=options))

    def at(self, name):
        return os.path.join(self.folder, name)

    def key(self, client):
        """The key of a client."""
        command = [PROGRAM, "client-key", "--master", self.at("clients"), "--client", str(client)]
        return bytes.fromhex(subprocess.run(command, stdin=subprocess.DEVNULL, capture_output=True, text=True,
                                            check=True).stdout.strip())

    def test_a_watch_is_answered_under_its_own_key_alone(self):
        key = self.key(2)
        with socket.socket(socket.AF_INET, socket.SOCK_DGRAM) as it:
            it.settimeout(1.0)
            datagram = watch(2, 1, 1)
            for frame in (datagram, seal(self.key(3), REQUEST, CLUSTER, b"", 3, datagram)):
                for port in self.cluster.ports.values():
                    it.sendto(frame, ("127.0.0.1", port))
            self.assertRaises(TimeoutError, it.recv, 9000)
            end, number = time.monotonic() + SECONDS, 1
            while time.monotonic() < end:
                number += 1
                datagram = watch(2, number, 1)
                for port in self.cluster.ports.values():
                    it.sendto(seal(key, REQUEST, CLUSTER, b"", 2, datagram), ("127.0.0.1", port))
                try:
                    frame = it.recv(9000)
                    break
                except TimeoutError:
                    pass
            self.assertEqual(frame, seal(key, REPLY, CLUSTER, b"", 2, frame[36:]))
            self.assertEqual(Notice(frame[36:]).number, number)


if __name__ == "__main__":
    unittest.main()
