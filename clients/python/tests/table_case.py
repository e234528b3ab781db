"""A lock table in memory, asked by a client at once or through a socket: for tests that make many calls."""
import contextlib
import socket
import threading
import time
import unittest
import warnings

from fake_node import WatchQueue
from locks_client import Client
from locks_client.plans import Datagram, Send
from locks_client.seals import REPLY, REQUEST, Seals
from locks_client.wire import HEADER


def count(number):
    """A fence or a number, as eight bytes."""
    return number.to_bytes(8, "big")


class Table:
    """Holders and fences, by docs/WIRE.md, of a raised table."""

    def __init__(self):
        self.last, self.kept, self.holders, self.fences = {}, {}, {}, {}

    def reply(self, data):
        """The reply to a request."""
        cluster, _, client, number = HEADER.unpack_from(data)[3:]
        last = self.last.get(client, 0)
        if number < last:
            return self.framed(12, cluster, client, number, count(last))
        if number > last:
            self.last[client], self.kept[client] = number, self.answer(client, data[HEADER.size + 2:])
        return self.framed(10, cluster, client, number, self.kept[client])

    def framed(self, kind, cluster, client, number, rest):
        return HEADER.pack(b"LK", 1, kind, cluster, 1, client, number) + rest

    def answer(self, client, body):
        """Executes a body. What shares a name is a list, what holds it alone a tuple."""
        name, fence = body[2:2 + body[1]].decode(), int.from_bytes(body[2 + body[1]:], "big")
        held, who = self.fences.get(name, 0), self.holders.get(name, ())
        is_at = bool(who) and held == fence
        if body[0] in (1, 5) and not who:
            self.holders[name], self.fences[name] = (client,) if body[0] == 1 else [client], held + 1
            return (b"\x01" if body[0] == 1 else b"\x0c") + count(held + 1)
        if body[0] == 5 and isinstance(who, list):
            who += [] if client in who else [client]
            return b"\x0c" + count(held)
        if body[0] == 2:
            self.free(name, client) if is_at and client in who else None
            return b"\x03" if is_at and client in who else b"\x04"
        if body[0] == 3:
            return self.told(held, who)
        if body[0] == 4:
            return b"\x07" if is_at else b"\x08"
        if body[0] == 6:
            self.holders.pop(name if is_at else "", None)
            return b"\x0e" if is_at else b"\x08"
        return b"\x02" + min(who).to_bytes(2, "big") + count(held)

    def free(self, name, client):
        """Ends the hold of a client."""
        left = [it for it in self.holders[name] if it != client]
        self.holders[name] = left
        if not left:
            del self.holders[name]

    def told(self, held, who):
        """The answer to an Ask."""
        if not who:
            return b"\x05" + count(held)
        if isinstance(who, list):
            return b"\x0d" + bytes([len(who)]) + count(held)
        return b"\x06" + who[0].to_bytes(2, "big") + count(held)


class TableClient(Client):
    """A client that asks a table in memory, and is answered at once."""

    def __init__(self, table, first=1, notices=False):
        super().__init__(5, 7, [1], first=first, patience=0.05, notices=notices)
        self.table, self.waiting = table, []

    def perform(self, effect):
        """Answers what is sent."""
        if isinstance(effect, Send):
            if effect.data[:2] == b"LK":
                self.waiting.append(self.table.reply(effect.data))
            return None
        return Datagram(self.waiting.pop(0), 1) if self.waiting else super().perform(effect)


class TableNode(threading.Thread):
    """A node that answers for a table in memory, an old one: it drops watches.

    takes: whether a request arrives. replies: whether the reply to it does. Both are given the first byte of the body.
    heard: that byte of each request. done: the same, once the node is done with it.
    """

    def __init__(self):
        super().__init__(daemon=True)
        self.table, self.heard, self.done = Table(), [], []
        self.takes = self.replies = lambda body: True
        self.socket = socket.socket(socket.AF_INET, socket.SOCK_DGRAM)
        self.socket.bind(("127.0.0.1", 0))
        self.port = self.socket.getsockname()[1]
        self.start()

    def run(self):
        while True:
            data, sender = self.socket.recvfrom(128)
            if not data:
                return self.socket.close()
            if data[:2] != b"LK":
                continue
            body = data[HEADER.size + 2]
            self.heard.append(body)
            if self.takes(body):
                reply = self.table.reply(data)
                if self.replies(body):
                    self.socket.sendto(reply, sender)
            self.done.append(body)

    def stop(self):
        with socket.socket(socket.AF_INET, socket.SOCK_DGRAM) as it:
            it.sendto(b"", ("127.0.0.1", self.port))
        self.join()


class QueueNode(threading.Thread):
    """A node with the queue of those who wait, for a table that it may have in common with others.

    leads: whether it answers requests, and tells who waits. period: seconds of one. posts: what is made of its notices
    before they are sent, a list of bytes and addresses. key: that of a client, if what it takes and sends is sealed.
    heard: the first byte of the body of each request. watched: each watch. sent: each notice.
    """

    def __init__(self, table=None, number=1, leads=True, period=0.1, key=None):
        super().__init__(daemon=True)
        self.table, self.leads, self.period, self.key = table or Table(), leads, period, key
        self.queue = WatchQueue(number, self.standing)
        self.posts = lambda letters: letters
        self.takes = lambda body: True
        self.heard, self.watched, self.sent, self.is_over = [], [], [], False
        self.socket = socket.socket(socket.AF_INET, socket.SOCK_DGRAM)
        self.socket.bind(("127.0.0.1", 0))
        self.socket.settimeout(0.01)
        self.port = self.socket.getsockname()[1]
        self.start()

    def standing(self, name):
        """Who holds a name, and its last fence."""
        return self.table.holders.get(name, ()), self.table.fences.get(name, 0)

    def run(self):
        due = time.monotonic() + self.period
        while not self.is_over:
            with contextlib.suppress(TimeoutError):
                data, sender = self.socket.recvfrom(128)
                self.take(self.opened(data), sender)
            if time.monotonic() >= due:
                self.queue.pass_period()
                due += self.period
            self.queue.speaks = self.leads
            self.post(self.queue.letters())
        self.socket.close()

    def opened(self, frame):
        """What a frame has of a client, bare if there is no key."""
        if not self.key:
            return frame
        datagram = frame[36:]
        return datagram if self.seals(datagram).frame(REQUEST, self.key, datagram) == frame else b""

    def sealed(self, datagram):
        """The frame of a datagram to a client."""
        return self.seals(datagram).frame(REPLY, self.key, datagram) if self.key else datagram

    def seals(self, datagram):
        return Seals(5, int.from_bytes(datagram[16:18], "big"), [])

    def take(self, data, sender):
        """Takes a watch or a request."""
        if data[:2] == b"LW":
            self.watched.append(data)
            self.queue.speaks = self.leads
            return self.post(self.queue.hear(data, sender))
        if data[:2] != b"LK":
            return None
        body = data[HEADER.size + 2]
        self.heard.append(body)
        if self.leads and self.takes(body):
            self.answer(data, sender)

    def answer(self, data, sender):
        """Executes a request and replies. Whoever holds a name now waits no more."""
        reply = self.table.reply(data)
        for name, who in list(self.table.holders.items()):
            for client in who:
                self.queue.granted(client, name)
        self.socket.sendto(self.sealed(reply), sender)

    def post(self, letters):
        """Sends notices."""
        for notice, sender in self.posts(letters) if letters else []:
            self.sent.append(notice)
            self.socket.sendto(self.sealed(notice), sender)

    def stop(self):
        self.is_over = True
        self.join()


ACQUIRE, RELEASE, ASK, CHECK, SHARE, BREAK = range(1, 7)


class TableCase(unittest.TestCase):
    """A node for a test, and clients that ask it."""

    def setUp(self):
        self.node = TableNode()
        self.addCleanup(self.node.stop)
        self.enterContext(warnings.catch_warnings())
        warnings.simplefilter("ignore", ResourceWarning)  # many of these tests leave their locks held

    def client(self, number=7, kind=Client, first=1, patience=5.0, **how):
        client = kind(5, number, [self.node.port], first=first, patience=patience, **how)
        self.addCleanup(client.close)
        return client

    def reply_late(self, client):
        """From now on the node replies once that client of asyncio waits for it, and not before."""

        def replies(_):
            end = time.monotonic() + 30.0
            while client.stop_reading is None and time.monotonic() < end:
                time.sleep(0.001)
            return True

        self.node.replies = replies

    def holders(self, name):
        """Who holds a name."""
        return list(self.node.table.holders.get(name, ()))

    @contextlib.contextmanager
    def hearing(self, body):
        """Waits at the end of the block until the node is done with one more such request."""
        before, end = self.node.done.count(body), time.monotonic() + 30.0
        yield
        while self.node.done.count(body) == before:
            self.assertLess(time.monotonic(), end, "the node has not heard it")
            time.sleep(0.005)
