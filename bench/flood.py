#!/usr/bin/env python3
"""Floods a node that runs, from five senders at once, while one client works.

Usage: bench/flood.py [--watches [--sealed]] [--datagrams N] [--rate R] [--seconds S] [--dir FOLDER] [--program PATH]

Three nodes run as processes on loopback. What the others send to node 1 comes over a relay, which keeps some of it.
A client acquires and releases a name, first alone for S seconds (5 if not given), and then for as long as five senders
send N datagrams (1,000,000 if not given) to node 1, R a second in all (100,000 if not given). A sixth each are random
bytes, what the relay kept, the same cut, the same with bytes after it, the same of another cluster, and probes, some
of them broken.

With --watches the flood goes to the node that leads, and each datagram is a watch from an address of its own (100,000
and 2,000 a second if not given): of any client but the one that works, for one of five names that this client holds,
for a free one, or for the one that it acquires and releases. With --sealed the nodes have keys, and each watch is
sealed by a key that no client has. Before it the same datagrams go to a socket that nobody reads, so that what the
senders take of the machine shows by itself.

It prints how many datagrams were sent and how many the socket of the node dropped, how many pairs the client did a
second and how long the slowest took, without the flood and with it, and how the memory of the node grew. The status is
1 where a node stopped, a request stayed without an answer, or the memory grew by more than a MiB."""
import argparse
import multiprocessing
import os
import random
import socket
import sys
import tempfile
import threading
import time

from cluster import Cluster, built, free_ports
from locks_client import Client, milliseconds, notices, seals
from systems import Locks

SENDERS = 5
BATCH = 50  # datagrams between two looks at the clock
KEPT = 2_000  # datagrams that the relay keeps
MOST_GROWTH = 1024  # KiB
CLIENT, FENCE = 1, 1  # the client that works, and the fence of the names that it holds
WORKED, HELD = "flooded", ("held-1", "held-2", "held-3", "held-4", "held-5")


class Relay(threading.Thread):
    """Passes on what comes to one port to another one, and keeps some of it."""

    def __init__(self, port, to):
        super().__init__(daemon=True)
        self.to, self.kept = ("127.0.0.1", to), []
        self.socket = socket.socket(socket.AF_INET, socket.SOCK_DGRAM)
        self.socket.bind(("127.0.0.1", port))

    def run(self):
        while True:
            data = self.socket.recv(65_535)
            self.socket.sendto(data, self.to)
            if len(self.kept) < KEPT:
                self.kept.append(data)


class Flooded(Cluster):
    """A cluster whose node 1 has a port that no other node is told."""

    def __init__(self, program, folder):
        super().__init__(program, folder)
        self.flooded = free_ports(1)[0]
        self.relay = Relay(self.ports[1], self.flooded)
        self.relay.start()
        self.ports[1] = self.flooded


def memory(process):
    """The KiB that a process has in memory."""
    with open(f"/proc/{process.pid}/status", encoding="ascii") as status:
        return next(int(line.split()[1]) for line in status if line.startswith("VmRSS:"))


def dropped(port):
    """How many datagrams the socket of a port has dropped."""
    with open("/proc/net/udp", encoding="ascii") as sockets:
        rows = [line.split() for line in sockets][1:]
    return sum(int(row[-1]) for row in rows if row[1].endswith(f":{port:04X}"))


def probe(cluster, draw):
    """A probe of that cluster, or its beginning with bytes of chance behind it."""
    whole = b"LP\x01\x09" + cluster + bytes(6) + draw.randbytes(8) + bytes(148)
    at = draw.choice((len(whole), draw.randrange(2, len(whole))))
    return whole[:at] + draw.randbytes(draw.randrange(200) if at < len(whole) else 0)


def bad(said, draw):
    """A datagram to be sent, of one that was said."""
    case = draw.randrange(6)
    if case == 0:
        return draw.randbytes(draw.randrange(200))
    if case == 1:
        return said[: draw.randrange(len(said))]
    if case == 2:
        return said + draw.randbytes(draw.choice((1, 2, 8, 9_000)))
    if case == 3:
        return said[:4] + draw.randbytes(8) + said[12:]
    if case == 4:
        return probe(said[4:12], draw)
    return said


def paced(count, rate):
    """So many numbers from 0 on, so many a second."""
    start = time.monotonic()
    for done in range(count):
        if done % BATCH == 0:
            time.sleep(max(0.0, start + done / rate - time.monotonic()))
        yield done


def send(port, said, count, rate, number):
    """Sends so many datagrams to the port, so many a second."""
    draw = random.Random(number)
    it = socket.socket(socket.AF_INET, socket.SOCK_DGRAM)
    for _ in paced(count, rate):
        it.sendto(bad(draw.choice(said), draw), ("127.0.0.1", port))


def forged(keys, draw):
    """A watch that some client might send, sealed by these keys."""
    client, name = draw.randrange(CLIENT + 1, 257), draw.choice((*HELD, "free", WORKED))
    ticket = notices.Ticket(client, time.time_ns(), FENCE, draw.choice(list(notices.MODES)), name)
    watch = notices.watch_bytes(Locks.cluster, ticket, draw.randrange(22))
    return seals.Seals(Locks.cluster, client, keys).sealed(watch)


def send_watches(port, keys, count, rate, number):
    """Sends so many watches to the port, so many a second, each from an address of its own."""
    draw = random.Random(number)
    for done in paced(count, rate):
        with socket.socket(socket.AF_INET, socket.SOCK_DGRAM) as it:
            it.bind((f"127.{16 + number}.{done >> 8 & 255}.{done & 255}", 0))
            it.sendto(forged(keys, draw), ("127.0.0.1", port))


def pairs(client, goes_on):
    """The seconds of each pair that the client does while that is so, one at least."""
    seconds = []
    while not seconds or goes_on():
        start = time.perf_counter()
        client.release(WORKED, client.acquire(WORKED))
        seconds.append(time.perf_counter() - start)
    return seconds


def told(what, seconds):
    """Prints how fast pairs were, and gives how many were done a second."""
    each = len(seconds) / sum(seconds)
    print(f"{what}: {len(seconds)} pairs, {each:,.0f} a second, the slowest {max(seconds) * 1e3:,.0f} ms", flush=True)
    return each


def during(what, client, senders):
    """How many pairs a second the client does while these send."""
    for sender in senders:
        sender.start()
    return told(what, pairs(client, lambda: any(sender.is_alive() for sender in senders)))


def senders(target, args, *words):
    """The processes that send a flood."""
    share = args.datagrams // SENDERS, args.rate / SENDERS
    return [multiprocessing.Process(target=target, args=(*words, *share, number)) for number in range(SENDERS)]


def flood(cluster, client, node, senders, args):
    """Sends the flood to a node while the client works. How many pairs a second this does, and how the memory grew."""
    port, process = cluster.ports[node], cluster.processes[node]
    before, drops = memory(process), dropped(port)
    beside = during("with the flood", client, senders)
    after = memory(process)
    print(f"{args.datagrams // SENDERS * SENDERS:,} datagrams sent, {dropped(port) - drops:,} dropped by the socket")
    print(f"memory of the node: {before:,} KiB before, {after:,} KiB after")
    return beside, after - before


def flood_of_bad(cluster, client, args):
    """The flood of what a node does not read. How much slower the client was, and how the memory grew."""
    end = time.monotonic() + args.seconds
    alone = told("without the flood", pairs(client, lambda: time.monotonic() < end))
    sent = senders(send, args, cluster.flooded, list(cluster.relay.kept))
    beside, growth = flood(cluster, client, 1, sent, args)
    return alone / beside, growth


def flood_of_watches(cluster, client, args):
    """The flood of watches, after the same to a socket that nobody reads."""
    for name in HELD:
        client.acquire(name)
    keys = [os.urandom(32)] if args.sealed else []
    with socket.socket(socket.AF_INET, socket.SOCK_DGRAM) as nobody:
        nobody.bind(("127.0.0.1", 0))
        aside = senders(send_watches, args, nobody.getsockname()[1], keys)
        alone = during("with the flood to nobody", client, aside)
    sent, leader = senders(send_watches, args, client.leader, keys), cluster.leader()
    beside, growth = flood(cluster, client, leader, sent, args)
    return alone / beside, growth


def cluster_of(program, folder, args):
    """The nodes."""
    return Locks(folder, program=program, alpha=8, is_sealed=args.sealed) if args.watches else Flooded(program, folder)


def arguments():
    """The command line."""
    parser = argparse.ArgumentParser(description="Floods a node that runs, from five senders, while one client works.")
    add = parser.add_argument
    add("--watches", action="store_true", help="watches from as many addresses, to the node that leads")
    add("--sealed", action="store_true", help="these are sealed by a key that no client has")
    add("--datagrams", type=int, help="datagrams in all, 1000000 if not given, 100000 watches")
    add("--rate", type=float, help="datagrams a second in all, 100000 if not given, 2000 watches")
    add("--seconds", type=float, default=5, help="how long the client works by itself, 5 if not given")
    add("--dir", help="where the folders of the nodes are made")
    add("--program", help="the built program; the wrapper builds it if none is given")
    args = parser.parse_args()
    if args.sealed and not args.watches:
        parser.error("--sealed needs --watches")
    args.datagrams = args.datagrams or (100_000 if args.watches else 1_000_000)
    args.rate = args.rate or (2_000 if args.watches else 100_000)
    return args


def main():
    args = arguments()
    program = built(args.program)
    with tempfile.TemporaryDirectory(dir=args.dir) as folder, cluster_of(program, folder, args) as cluster:
        ports = list(cluster.ports.values()) if args.watches else [cluster.flooded]
        key = cluster.key(str(CLIENT)) if args.sealed else None
        with Client(cluster.cluster, CLIENT, ports, first=milliseconds(), patience=60, key=key) as client:
            client.ask(WORKED)
            slower, growth = (flood_of_watches if args.watches else flood_of_bad)(cluster, client, args)
            told("after the flood", pairs(client, lambda: False))
        print(f"{slower:.2f} times slower; load {os.getloadavg()[0]:.1f}, cores {os.cpu_count()}")
        stopped = [node for node, process in cluster.processes.items() if process.poll() is not None]
        print(f"stopped: {stopped or 'none'}")
        sys.exit(bool(stopped) or growth > MOST_GROWTH)


if __name__ == "__main__":
    main()
