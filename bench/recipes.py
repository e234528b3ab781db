"""Clients that wait for a lock, by the recipe of each service: what bench/waiters.py measures.

A client waits in `acquire`, keeps the lock in `rest`, and gives it back by `release`. `touch` asks something that needs
a majority. All ask the first port first, and the next one where its connection breaks or, of locks, where no answer
comes. `counts` are the datagrams of a client of locks.
"""
import collections
import functools
import random
import socket
import struct
import time

from cluster import locks_client

CLUSTER = 5  # of locks
FOREVER = 600.0  # seconds
PAUSE = 0.01  # seconds, after a connection that failed
ALIVE = 3.0  # seconds between two signs of life
SAID = slice(68, 71)  # the bytes of a notice that say what it tells, and the place


class LocksClient:
    """A client of locks. It watches the lock that it waits for, if it is to, and loses some datagrams both ways."""

    def __init__(self, ports, number, *, notices=True, loss=0.0, patience=60.0):
        first, self.ports = locks_client.milliseconds(), collections.deque(ports)
        self.client = Counting(CLUSTER, number, self.ports, first=first, patience=patience, notices=notices)
        self.client.loss, self.counts = loss, self.client.counts
        self.name, self.fence = "", 0

    def acquire(self, name):
        self.name, self.fence = name, self.client.acquire(name, wait=FOREVER)

    def rest(self, seconds):
        time.sleep(seconds)

    def release(self):
        self.client.release(self.name, self.fence)

    def touch(self):
        """Asks one node after the other, each as long as the client's patience."""
        ask = functools.partial(self.client.ask, "touch")
        while True:
            try:
                return ask()
            except locks_client.NoAnswer:
                self.ports.rotate()
                self.client.set_ports(self.ports)
                ask = self.client.again


class Counting(locks_client.Client):
    """A client that counts its datagrams by kind, and loses some."""

    def __init__(self, *words, **how):
        super().__init__(*words, **how)
        self.counts, self.loss = collections.Counter(), 0.0

    def send(self, data, endpoint):
        self.counts["watches" if data[:2] == b"LW" else "requests"] += 1
        if random.random() >= self.loss:
            super().send(data, endpoint)

    def receive(self, until):
        while came := super().receive(until):
            if random.random() >= self.loss:
                self.counts[kind_of(came.data)] += 1
                return came
        return None


def kind_of(data):
    """What came to a client: a reply, a notice that its turn has come, or one that answers its watch."""
    if data[:2] != b"LW":
        return "replies"
    news, place = struct.unpack(">BH", data[SAID])
    return "told" if news == locks_client.notices.News.FREE and place < 2 else "kept"


class OverTcp:
    """A client of a service over TCP. A subclass says what is done on a connection."""

    def __init__(self, ports, number):
        self.number, self.ports, self.counts = number, ports, collections.Counter()
        self.connection = None

    def connect(self):
        self.connection = socket.create_connection(("127.0.0.1", self.ports[0]), timeout=ALIVE)
        self.connection.setsockopt(socket.IPPROTO_TCP, socket.TCP_NODELAY, 1)

    def read(self, count):
        """So many bytes. Signs of life are given while nothing comes."""
        data = b""
        while len(data) < count:
            try:
                more = self.connection.recv(count - len(data))
            except TimeoutError:
                self.show_life()
                continue
            if not more:
                raise ConnectionError("the connection has ended")
            data += more
        return data

    def show_life(self):
        """What the service wants of a client that waits."""

    def until_done(self, what, *words):
        """Does something on a connection, and again on the next one where it breaks."""
        while True:
            try:
                if not self.connection:
                    self.connect()
                return what(*words)
            except OSError:
                self.connection, self.ports = None, [*self.ports[1:], self.ports[0]]
                time.sleep(PAUSE)

    def acquire(self, name):
        self.until_done(self.acquire_once, name)

    def release(self):
        self.until_done(self.release_once)

    def touch(self):
        self.until_done(self.touch_once)


class EtcdClient(OverTcp):
    """A client of etcd's own lock service (v3lockpb), which waits by its recipe in the member that is asked."""

    LEASE = 300  # seconds: longer than any hold, so that none is kept alive

    def __init__(self, ports, number):
        super().__init__(ports, number)
        self.lease = self.key = None

    def connect(self):
        super().connect()
        self.stream, preface = -1, b"PRI * HTTP/2.0\r\n\r\nSM\r\n\r\n"
        self.connection.sendall(preface + frame(SETTINGS, 0, 0, b""))

    def acquire_once(self, name):
        if not self.lease:
            self.lease = field_of(self.call("/etcdserverpb.Lease/LeaseGrant", number_field(1, self.LEASE)), 2)
        asked = bytes_field(1, name.encode()) + number_field(2, self.lease)
        self.key = field_of(self.call("/v3lockpb.Lock/Lock", asked), 2)

    def rest(self, seconds):
        time.sleep(seconds)

    def release_once(self):
        self.call("/v3lockpb.Lock/Unlock", bytes_field(1, self.key))

    def touch_once(self):
        self.call("/etcdserverpb.KV/Range", bytes_field(1, b"touch"))

    def call(self, path, message):
        """The answer to a message, by gRPC."""
        self.stream += 2
        data = b"\0" + len(message).to_bytes(4, "big") + message
        head = frame(HEADERS, END_HEADERS, self.stream, header(path))
        self.connection.sendall(head + frame(DATA, END_STREAM, self.stream, data))
        body = self.body()
        if len(body) < 5:
            raise ConnectionError("the member refuses")
        return body[5:]

    def body(self):
        """The data that comes until the stream ends. They are given back to the member's window."""
        body, is_over = b"", False
        while not is_over:
            length, kind, flags = int.from_bytes(self.read(3), "big"), *self.read(2)
            stream, payload = int.from_bytes(self.read(4), "big"), self.read(length)
            if kind in (SETTINGS, PING) and not flags & ACK:
                self.connection.sendall(frame(kind, ACK, 0, payload if kind == PING else b""))
            if kind in (RST_STREAM, GOAWAY):
                raise ConnectionError("the member ends the stream")
            if kind == DATA and length:
                self.connection.sendall(frame(WINDOW_UPDATE, 0, 0, length.to_bytes(4, "big")))
                body += payload
            is_over = stream == self.stream and kind in (DATA, HEADERS) and flags & END_STREAM
        return body


DATA, HEADERS, RST_STREAM, SETTINGS, PING, GOAWAY, WINDOW_UPDATE = 0, 1, 3, 4, 6, 7, 8  # frames of HTTP/2
ACK, END_STREAM, END_HEADERS = 1, 1, 4  # and their flags


def frame(kind, flags, stream, payload):
    """A frame of HTTP/2."""
    return len(payload).to_bytes(3, "big") + bytes([kind, flags]) + stream.to_bytes(4, "big") + payload


def header(path):
    """The header of a request: POST and http by the static table, the rest written out."""
    fields = (b"\x04", path.encode()), (b"\x01", b"localhost"), (b"\x0f\x10", b"application/grpc")
    written = [index + bytes([len(value)]) + value for index, value in fields]
    return b"\x83\x86" + b"".join(written) + b"\0\x02te\x08trailers"


def varint(number):
    """A number in the form of a protocol buffer."""
    low, rest = number & 0x7F, number >> 7
    return bytes([low | 0x80]) + varint(rest) if rest else bytes([low])


def number_field(field, number):
    return varint(field << 3) + varint(number)


def bytes_field(field, value):
    return varint(field << 3 | 2) + varint(len(value)) + value


def field_of(message, wanted):
    """The bytes or the number of a field of a protocol buffer."""
    at = 0

    def number():
        nonlocal at
        value = shift = 0
        while True:
            value, byte, at, shift = value | (message[at] & 0x7F) << shift, message[at], at + 1, shift + 7
            if byte < 0x80:
                return value

    while at < len(message):
        tag, value = number(), number()
        if tag & 7 == 2:
            value, at = message[at : at + value], at + value
        if tag >> 3 == wanted:
            return value
    raise ConnectionError("a field is missing")


class ZooKeeperClient(OverTcp):
    """A client of ZooKeeper by its recipe for locks: each creates an ephemeral node with the next number, and watches
    the one before its own."""

    SESSION = 10_000  # milliseconds that a session outlives its connection: as a client in Python (kazoo) has it
    CREATE, DELETE, EXISTS, SET, CHILDREN, PING = 1, 2, 3, 5, 8, 11
    NO_NODE, NODE_EXISTS = -101, -110
    PERSISTENT, NUMBERED = 0, 3  # flags of a new node; 3 is ephemeral too

    def __init__(self, ports, number):
        super().__init__(ports, number)
        self.session, self.password, self.change = bytes(8), bytes(16), bytes(8)
        self.request, self.folder, self.node = 0, "", ""

    def connect(self):
        super().connect()
        asked = bytes(4) + self.change + self.SESSION.to_bytes(4, "big") + self.session + counted(self.password) + b"\0"
        self.connection.sendall(counted(asked))
        answer = self.packet()
        self.session, self.password = answer[8:16], answer[20:36]
        if self.session == bytes(8):
            raise RuntimeError("the session has expired")

    def packet(self):
        """What comes next."""
        return self.read(int.from_bytes(self.read(4), "big"))

    def show_life(self):
        self.connection.sendall(counted((-2).to_bytes(4, "big", signed=True) + self.PING.to_bytes(4, "big")))

    def ask(self, kind, body):
        """The error and the bytes that answer a request."""
        self.request += 1
        self.connection.sendall(counted(self.request.to_bytes(4, "big") + kind.to_bytes(4, "big") + body))
        while True:
            answer = self.packet()
            if int.from_bytes(answer[:4], "big", signed=True) == self.request:
                self.change = answer[4:12]
                return int.from_bytes(answer[12:16], "big", signed=True), answer[16:]

    def create(self, path, flags):
        rights = (1).to_bytes(4, "big") + (31).to_bytes(4, "big") + counted(b"world") + counted(b"anyone")
        return self.ask(self.CREATE, counted(path.encode()) + counted(b"") + rights + flags.to_bytes(4, "big"))

    def children(self):
        """The nodes of those who wait, in order."""
        _, answer = self.ask(self.CHILDREN, counted(self.folder.encode()) + b"\0")
        found, at = [], 4
        while at < len(answer):
            length = int.from_bytes(answer[at : at + 4], "big")
            found.append(answer[at + 4 : at + 4 + length].decode())
            at += 4 + length
        return sorted(found, key=lambda it: it[-10:])

    def acquire_once(self, name):
        if self.folder != f"/{name}":
            self.folder = f"/{name}"
            self.create(self.folder, self.PERSISTENT)
        own = f"c{self.number}-"
        while True:
            found = self.children()
            mine = [it for it in found if it.startswith(own)]
            if not mine:
                self.create(f"{self.folder}/{own}", self.NUMBERED)
            elif found[0] == mine[0]:
                self.node = f"{self.folder}/{mine[0]}"
                return
            else:
                self.wait_for(f"{self.folder}/{found[found.index(mine[0]) - 1]}")

    def wait_for(self, path):
        """Waits until that node is gone."""
        error, _ = self.ask(self.EXISTS, counted(path.encode()) + b"\1")
        while error != self.NO_NODE and int.from_bytes(self.packet()[:4], "big", signed=True) != -1:
            pass

    def rest(self, seconds):
        """Shows signs of life meanwhile."""
        end = time.monotonic() + seconds
        while (left := end - time.monotonic()) > ALIVE:
            time.sleep(ALIVE)
            self.until_done(self.touch_once)
        time.sleep(max(0.0, left))

    def release_once(self):
        self.ask(self.DELETE, counted(self.node.encode()) + (-1).to_bytes(4, "big", signed=True))

    def touch_once(self):
        path = self.folder or "/"
        error, _ = self.ask(self.SET, counted(path.encode()) + counted(b"") + (-1).to_bytes(4, "big", signed=True))
        if error:
            raise ConnectionError(f"error {error}")


def counted(data):
    """Bytes after their length."""
    return len(data).to_bytes(4, "big") + data


if __name__ == "__main__":
    print(__doc__)
