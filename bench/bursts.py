#!/usr/bin/env python3
"""Replaces all members of a cluster in one burst, again and again, under load and with kills.

Usage: bench/bursts.py [--times N] [--clients N] [--alpha N] [--seed N] [--dir FOLDER] [--program PATH]

Three nodes run as processes on loopback, and clients acquire and release the same few names all the while. Three new
nodes are started, and six clients at once ask for the joins of these and the leaves of the three members; meanwhile one
of the six nodes is killed as by `kill -9`, and started again within a second. Once the six are answered and
`locks status --until ready` says that the new nodes have caught up, the old ones are killed for good, and a request is
asked of the new ones. All that happens N times (20 if not given), to other nodes each time.

It prints how many seconds passed from the burst until its six answers, from then until the new nodes were ready, and
from the death of the old ones until an answer. It fails where one of these takes longer than 10 s, where a client stays
without an answer, or where a fence of a name was granted twice or out of order.
"""
import argparse
import contextlib
import random
import subprocess
import sys
import tempfile
import threading
import time

from cluster import Cluster, built, free_ports
from kill import NAMES, Watch
from locks_client import Busy, Client, Last

LIMIT = 10.0  # seconds: two nudges, each 3.1 s, and two elections
PATIENCE = 60.0  # seconds of a client that waits
CHANGERS = range(101, 108)  # the clients that ask for joins and leaves, and last the one that asks the new nodes
SIZE = 3
GAP = 0.02  # seconds between two of the six requests, as a join of a number below another one is refused


class Load(threading.Thread):
    """A client that acquires and releases until the run ends, and how often it did."""

    def __init__(self, cluster, number, watch):
        super().__init__()
        self.client, self.watch, self.count = cluster.client(Client, number, patience=PATIENCE), watch, 0

    def run(self):
        with self.client:
            while not self.watch.ended.is_set():
                try:
                    self.once(NAMES[(self.client.client + self.count) % len(NAMES)])
                except Exception as error:  # whatever it is, it is told
                    self.watch.said(f"client {self.client.client}: {error!r}")
                    return

    def once(self, name):
        """Takes a name and gives it back, if it is free."""
        with contextlib.suppress(Busy):
            fence = self.client.acquire(name)
            self.watch.granted(name, fence)
            self.client.release(name, fence)
        self.count += 1
        self.watch.count()


def seconds(call, *words):
    """How long a call takes."""
    start = time.monotonic()
    call(*words)
    return time.monotonic() - start


class Bursts:
    """A cluster whose members are replaced again and again, and the clients that ask for that."""

    def __init__(self, cluster, drawn, watch, load):
        self.cluster, self.drawn, self.watch, self.load = cluster, drawn, watch, load
        self.members = list(cluster.ports)
        self.clients = [cluster.client(Client, number, patience=PATIENCE) for number in CHANGERS]

    def start_new(self):
        """Starts as many nodes as are members, and returns them. Each client knows their ports, and who leads."""
        last = self.members[-1]
        for node, port in enumerate(free_ports(SIZE), last + 1):
            self.cluster.ports[node] = port
            self.cluster.start(node)
        self.tell_ports()
        for it in self.clients:
            it.ask("db")
        return list(range(last + 1, last + 1 + SIZE))

    def tell_ports(self):
        """Tells all clients the ports of the nodes that are there."""
        for it in [*self.clients, *(it.client for it in self.load)]:
            it.set_ports(list(self.cluster.ports.values()))

    def asks(self, client, change, *words):
        """Asks for a join or a leave, and again where it would be the leave of the only member."""
        try:
            while True:
                try:
                    return getattr(client, change)(*words)
                except Last:
                    time.sleep(0.1)
        except Exception as error:  # whatever it is, it is told
            self.watch.said(f"{change} {words}: {error!r}")

    def kill_one(self, nodes):
        """Kills one of these nodes and starts it again, each after a short time. Which."""
        node = self.drawn.choice(nodes)
        time.sleep(self.drawn.uniform(0, 0.5))
        self.cluster.kill(node)
        time.sleep(self.drawn.uniform(0, 1.0))
        self.cluster.start(node)
        return node

    def burst(self):
        """One burst: which node was killed meanwhile, and how many seconds each part took."""
        new = self.start_new()
        changes = [("join", node, self.cluster.ports[node]) for node in new] + [("leave", it) for it in self.members]
        asking = [threading.Thread(target=self.asks, args=(it, *words)) for it, words in zip(self.clients, changes)]
        start = time.monotonic()
        for it in asking:
            it.start()
            time.sleep(GAP)
        killed = self.kill_one(self.members + new)
        for it in asking:
            it.join()
        took = [time.monotonic() - start, seconds(self.wait_ready, new)]
        for node in self.members:
            self.cluster.kill(node)
            del self.cluster.ports[node]
        self.members = new
        self.tell_ports()
        return killed, [*took, seconds(self.asks, self.clients[-1], "ask", "db")]

    def wait_ready(self, nodes):
        """Waits until these nodes have caught up."""
        ports = [str(self.cluster.ports[node]) for node in nodes]
        words = ["--cluster", str(self.cluster.cluster), "--port", *ports, "--until", "ready", str(int(PATIENCE))]
        told = subprocess.run([self.cluster.program, "status", *words], capture_output=True, text=True)
        if told.returncode:
            self.watch.said(f"nodes {nodes} are not ready: {told.stdout}{told.stderr}")

    def end(self):
        """Ends the clients."""
        for it in self.clients:
            it.close()


def told(took):
    """The seconds of a burst in words."""
    return "{:.1f} s until answered, {:.1f} until ready, {:.1f} without the old ones".format(*took)


def run(cluster, args, watch):
    """The bursts, and the seconds that each part of each took."""
    load = [Load(cluster, number, watch) for number in range(1, args.clients + 1)]
    bursts, all_took = Bursts(cluster, random.Random(args.seed), watch, load), []
    for it in load:
        it.start()
    for count in range(1, args.times + 1):
        time.sleep(1.0)
        members, before = list(bursts.members), watch.answered
        killed, took = bursts.burst()
        all_took.append(took)
        rounds = watch.answered - before
        print(f"burst {count}, of {members}, {killed} killed: {told(took)}; {rounds} rounds", flush=True)
        if max(took) > LIMIT:
            watch.said(f"burst {count} took longer than {LIMIT:.0f} s")
    watch.ended.set()
    for it in load:
        it.join()
    bursts.end()
    return all_took


def main():
    parser = argparse.ArgumentParser(description=__doc__.split("\n\n")[0])
    parser.add_argument("--times", type=int, default=20, help="how many bursts, 20 if not given")
    parser.add_argument("--clients", type=int, default=8, help="the clients, 8 if not given")
    parser.add_argument("--alpha", type=int, default=16, help="the genesis' alpha, 16 if not given")
    parser.add_argument("--seed", type=int, default=1, help="the number that the kills are drawn from, 1 if not given")
    parser.add_argument("--dir", help="where the folders of the nodes are made")
    parser.add_argument("--program", help="the built program; the wrapper builds it if none is given")
    args, watch = parser.parse_args(), Watch()
    options = {"nodes": SIZE, "alpha": args.alpha, "options": ("--ticks", "clock")}
    program = built(args.program)
    with tempfile.TemporaryDirectory(dir=args.dir) as folder, Cluster(program, folder, **options) as cluster:
        all_took = run(cluster, args, watch)
    for name in NAMES:
        fences = sorted(watch.fences.get(name, ()))
        if fences != list(range(1, len(fences) + 1)):
            watch.said(f"fences of {name} are left out")
    print(f"{len(all_took)} bursts, {watch.answered} rounds answered; slowest: {told(map(max, zip(*all_took)))}")
    print("\n".join(watch.wrong) or "nothing went wrong")
    return 1 if watch.wrong else 0


if __name__ == "__main__":
    sys.exit(main())
