#!/usr/bin/env python3
"""Measures whether a node that is behind catches up with a busy leader, and how long it takes.

Usage: bench/catching_up.py [--alpha N,N] [--clients N] [--names N] [--away S] [--patience S] [--dir FOLDER]
                            [--program PATH]

Three nodes run as processes on loopback, their ticks by the clock. A client takes and gives back as many locks as
--names says, with names of 32 bytes, so that a snapshot is that long, and bench/load loads the leader all the while.
Then, for each alpha:

- a follower is killed, and started again after --away seconds;
- a fourth node is started, and a client asks for its join.

Ten times a second both the leader and that node are asked how much they have executed. Behind says how much later the
node has executed a position than the leader. A node has caught up once it was less than 0.3 s behind for a second. A
line tells after how many seconds that was so, or how far it was behind in the end, at the median of the last five
seconds; how many positions a second the leader ran before and meanwhile; and how many bytes its snapshot had. At last
the load ends, and a line tells how long it then took.
"""
import argparse
import bisect
import json
import os
import socket
import statistics
import struct
import subprocess
import sys
import tempfile
import time

from cluster import Cluster, built, free_ports, locks_client
from systems import generator

FILLER, JOINER, ASKER = 201, 202, 203  # clients beside those of the load
EVERY = 0.1  # seconds between two looks
NEAR, STAYS, LAST = 0.3, 1.0, 5.0  # seconds: behind at most, for how long, and of what is told in the end


class Looks:
    """What a node and the leader had executed, again and again, beginning with what was seen before."""

    def __init__(self, cluster, leader, node, before=((), (), ())):
        self.cluster, self.leader, self.node = cluster, leader, node
        self.socket, self.token = socket.socket(socket.AF_INET, socket.SOCK_DGRAM), 0
        self.socket.settimeout(0.2)
        self.times, self.led, self.own = ([*it] for it in before)

    def report(self, node):
        """How many positions a node has executed. None without an answer."""
        self.token += 1
        probe = b"LP\x01\x09" + struct.pack(">QIHQ", self.cluster.cluster, 0, 0, self.token)
        self.socket.sendto(probe.ljust(174, b"\0"), ("127.0.0.1", self.cluster.ports[node]))
        try:
            while True:
                told = self.socket.recv(9000)
                if struct.unpack_from(">Q", told, 18)[0] == self.token:
                    return struct.unpack_from(">Q", told, 88)[0]
        except OSError:
            return None

    def look(self):
        """Asks both, if both answer."""
        own, led = self.report(self.node), self.report(self.leader)
        if own is not None and led is not None:
            self.times.append(time.monotonic())
            self.own.append(own)
            self.led.append(led)

    def behind(self, at):
        """How many seconds before that look the leader had executed what the node has executed then."""
        place = bisect.bisect_right(self.led, self.own[at], 0, at + 1)
        return self.times[at] - self.times[place - 1] if place else float("inf")

    def is_near(self, begin):
        """Whether the node was near for a second, all of it after that time."""
        first = bisect.bisect_left(self.times, max(begin, self.times[-1] - STAYS))
        return self.times[-1] - begin > STAYS and all(self.behind(it) < NEAR for it in range(first, len(self.times)))

    def rate(self, first, last):
        """How many positions a second the leader executed from one look to another."""
        return (self.led[last] - self.led[first]) / max(0.001, self.times[last] - self.times[first])

    def told(self, begin, caught):
        """What came of it, in words."""
        last, came = (bisect.bisect_left(self.times, it) for it in (self.times[-1] - LAST, begin))
        behind = statistics.median(self.behind(it) for it in range(last, len(self.times)))
        lacks = statistics.median(self.led[it] - self.own[it] for it in range(last, len(self.times)))
        how = f"caught up after {caught - begin:.1f} s" if caught else (
            f"NOT caught up in {self.times[-1] - begin:.0f} s, {behind:.1f} s and {lacks:,.0f} positions behind")
        before, meanwhile = self.rate(0, came - 1), self.rate(min(came, len(self.led) - 1), -1)
        return f"{how}; the leader ran {before:,.0f} positions a second before and {meanwhile:,.0f} meanwhile"


def watched(cluster, leader, node, before, patience):
    """Looks until the node has caught up or the patience is over. What came of it, in words."""
    looks, begin = Looks(cluster, leader, node, before), time.monotonic()
    while time.monotonic() < begin + patience:
        time.sleep(EVERY)
        looks.look()
        if looks.is_near(begin):
            return looks.told(begin, looks.times[-1] - STAYS)
    return looks.told(begin, None)


def led_by(cluster):
    """The node that leads, by a client whom it answers."""
    with cluster.client(locks_client.Client, ASKER, patience=60.0) as client:
        client.ask("leader")
        return next(node for node, port in cluster.ports.items() if port == client.leader)


def fill(cluster, names):
    """Takes and gives back so many locks."""
    with cluster.client(locks_client.Client, FILLER, patience=60.0) as client:
        for number in range(names):
            name = f"{number:04}".ljust(32, "x")
            client.release(name, client.acquire(name))


class Load:
    """The clients that load a cluster until it is left."""

    def __init__(self, cluster, leader, clients, seconds):
        ports = [cluster.ports[leader], *(port for node, port in cluster.ports.items() if node != leader)]
        words = [generator(), "locks", "--ports", ",".join(map(str, ports)), "--clients", str(clients)]
        self.process = subprocess.Popen([*words, "--seconds", str(seconds)], stdout=subprocess.PIPE, text=True)

    def __enter__(self):
        return self

    def __exit__(self, *_):
        self.process.kill()
        self.process.communicate()


def seen(cluster, leader, seconds):
    """What the leader has executed for so long, as if it were the node that is looked at."""
    looks, end = Looks(cluster, leader, leader), time.monotonic() + seconds
    while time.monotonic() < end:
        time.sleep(EVERY)
        looks.look()
    return looks.times, looks.led, looks.own


def snapshot_bytes(cluster, node):
    """The length of a node's snapshot: a file of a store begins with it, behind its length."""
    found = []
    for name in "ab":
        with open(os.path.join(cluster.folder, str(node), name), "rb") as file:
            found.append(int.from_bytes(file.read(4), "big"))
    return max(found)


def join(cluster, node):
    """Starts a node more, and a client asks for its join."""
    cluster.ports[node] = free_ports(1)[0]
    cluster.start(node)
    with cluster.client(locks_client.Client, JOINER, patience=60.0) as client:
        client.join(node, cluster.ports[node])


def story(cluster, args, alpha):
    """A follower that was away, and then a newcomer."""
    fill(cluster, args.names)
    leader = led_by(cluster)
    with Load(cluster, leader, args.clients, 10 * (args.away + args.patience) + 60):
        time.sleep(2.0)
        follower = next(node for node in cluster.ports if node != leader)
        cluster.kill(follower)
        before = seen(cluster, leader, args.away)
        cluster.start(follower)
        told = watched(cluster, leader, follower, before, args.patience)
        about = f"alpha {alpha}, a snapshot of {snapshot_bytes(cluster, leader):,} bytes"
        print(f"{about}, a follower that was away for {args.away:.0f} s: {told}", flush=True)
        before = seen(cluster, leader, 1.0)
        join(cluster, 4)
        told = watched(cluster, leader, 4, before, args.patience)
        print(f"{about}, a node that joined: {told}", flush=True)
    looks, begin = Looks(cluster, leader, 4), time.monotonic()
    while looks.report(4) != looks.report(leader):
        time.sleep(0.05)
    print(f"{about}, without load: level after {time.monotonic() - begin:.1f} s", flush=True)


def numbers(word):
    return [int(it) for it in word.split(",")]


def main():
    parser = argparse.ArgumentParser(description=__doc__, formatter_class=argparse.RawDescriptionHelpFormatter)
    parser.add_argument("--alpha", type=numbers, default=[2, 8, 16], help="of each genesis, 2,8,16 if not given")
    parser.add_argument("--clients", type=int, default=64, help="the clients of the load, 64 if not given")
    parser.add_argument("--names", type=int, default=0, help="names that are taken before, none if not given")
    parser.add_argument("--away", type=float, default=5.0, help="seconds that the follower is away, 5 if not given")
    parser.add_argument("--patience", type=float, default=20.0, help="seconds to catch up, 20 if not given")
    parser.add_argument("--dir", help="where the folders of the nodes are made")
    parser.add_argument("--program", help="the built program; the wrapper builds it if none is given")
    args = parser.parse_args()
    program, options = built(args.program), ("--ticks", "clock")
    for alpha in args.alpha:
        with tempfile.TemporaryDirectory(dir=args.dir) as folder:
            with Cluster(program, folder, alpha=alpha, options=options) as cluster:
                story(cluster, args, alpha)


if __name__ == "__main__":
    sys.exit(main())
