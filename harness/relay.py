"""Relays on loopback: one between nodes cuts, loses, delays, repeats and reorders; one carries a port to another; one
stands between clients and nodes."""
import contextlib
import heapq
import itertools
import random
import selectors
import socket
import threading
import time


class Relay:
    """Carries what node a sends to b at `address(a, b)` on to where b listens, by rules that may change at any time. It
    comes to b from `address(b, a)`, so that b may answer there.

    cut: pairs of which nothing is carried. loss, repeats: which part is lost, and which comes twice. delay: seconds
    that each waits at most; several wait differently, so that they come in another order. kept: the last frames of
    each pair."""

    KEPT = 64  # frames of each pair

    def __init__(self, nodes, port, address_of, seed=1):
        self.cut, self.loss, self.repeats, self.delay = set(), 0.0, 0.0, 0.0
        self.kept = {pair: [] for pair in itertools.permutations(nodes, 2)}
        self.addresses = {node: (address_of(node), port) for node in nodes}
        self.random, self.late, self.count = random.Random(seed), [], itertools.count()
        self.selector, self.is_over = selectors.DefaultSelector(), False
        self.sockets = {pair: socket.socket(socket.AF_INET, socket.SOCK_DGRAM) for pair in self.kept}
        for pair, it in self.sockets.items():
            it.bind((self.address(*pair), port))
            it.setblocking(False)
            self.selector.register(it, selectors.EVENT_READ, pair)
        self.thread = threading.Thread(target=self.run, daemon=True)
        self.thread.start()

    @staticmethod
    def address(sender, receiver):
        """Where that node sends what is bound for that other one."""
        return f"127.10.{sender}.{receiver}"

    def run(self):
        while not self.is_over:
            for key, _ in self.selector.select(0.005):
                self.take(key.fileobj, key.data)
            while self.late and self.late[0][0] <= time.monotonic():
                _, _, it, data, address = heapq.heappop(self.late)
                it.sendto(data, address)

    def take(self, it, pair):
        """Takes a datagram of that pair."""
        data = it.recv(9000)
        self.kept[pair] = [*self.kept[pair][1 - self.KEPT:], data]
        if pair in self.cut or self.random.random() < self.loss:
            return
        for _ in range(1 + (self.random.random() < self.repeats)):
            due = time.monotonic() + self.random.random() * self.delay
            back = self.sockets[pair[::-1]]
            heapq.heappush(self.late, (due, next(self.count), back, data, self.addresses[pair[1]]))

    def end(self):
        self.is_over = True
        self.thread.join()
        for key in list(self.selector.get_map().values()):
            key.fileobj.close()


class Forward:
    """Carries what comes to a port of 127.0.0.1 on to another port there. `carried` are the datagrams so far."""

    def __init__(self, port, to):
        self.to, self.carried = ("127.0.0.1", to), []
        self.socket = socket.socket(socket.AF_INET, socket.SOCK_DGRAM)
        self.socket.bind(("127.0.0.1", port))
        self.socket.settimeout(0.05)
        self.is_over = False
        self.thread = threading.Thread(target=self.run, daemon=True)
        self.thread.start()

    def __enter__(self):
        return self

    def __exit__(self, *_):
        self.is_over = True
        self.thread.join()
        self.socket.close()

    def run(self):
        while not self.is_over:
            with contextlib.suppress(TimeoutError):
                data = self.socket.recv(9000)
                self.carried.append(data)
                self.socket.sendto(data, self.to)


class Between:
    """Carries datagrams between clients and the nodes of these ports, each by a port of `ports`, both ways. A client
    that is told where the leader listens is told the port here.

    carries: the datagrams that are carried in place of one, given the node, the bytes, and whether a client sent it."""

    ELSEWHERE = b"LK\x01\x0b"

    def __init__(self, nodes):
        self.carries = lambda node, data, is_asked: [data]
        self.nodes, self.fronts, self.backs = dict(nodes), {}, {}
        self.selector, self.is_over = selectors.DefaultSelector(), False
        for node in self.nodes:
            self.fronts[node] = self.bound((node, None))
        self.ports = {node: it.getsockname()[1] for node, it in self.fronts.items()}
        self.thread = threading.Thread(target=self.run, daemon=True)
        self.thread.start()

    def __enter__(self):
        return self

    def __exit__(self, *_):
        self.is_over = True
        self.thread.join()
        for key in list(self.selector.get_map().values()):
            key.fileobj.close()

    def bound(self, pair):
        """A socket for a node, and for a client if it is one that speaks to the node."""
        made = socket.socket(socket.AF_INET, socket.SOCK_DGRAM)
        made.bind(("127.0.0.1", 0))
        self.selector.register(made, selectors.EVENT_READ, pair)
        return made

    def run(self):
        while not self.is_over:
            for key, _ in self.selector.select(0.02):
                with contextlib.suppress(OSError):
                    self.take(key.fileobj, *key.data)

    def take(self, it, node, client):
        """Takes a datagram of a client, or of a node for that client."""
        data, sender = it.recvfrom(9000)
        if client is None:
            if (node, sender) not in self.backs:
                self.backs[node, sender] = self.bound((node, sender))
            it, to = self.backs[node, sender], ("127.0.0.1", self.nodes[node])
        else:
            it, to, data = self.fronts[node], client, self.told(data)
        for carried in self.carries(node, data, client is None):
            it.sendto(carried, to)

    def told(self, data):
        """The datagram of a node as a client gets it."""
        if data[:4] != self.ELSEWHERE:
            return data
        port = int.from_bytes(data[-2:], "big")
        here = next((self.ports[node] for node, its in self.nodes.items() if its == port), port)
        return data[:-2] + here.to_bytes(2, "big")
