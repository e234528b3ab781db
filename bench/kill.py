#!/usr/bin/env python3
"""Kills nodes while clients ask, and looks whether a fence is given twice or an answer is lost.

Usage: bench/kill.py [--times N] [--seconds S] [--together] [--sums] [--dir FOLDER] [--program PATH]

Three nodes run as processes on loopback. Clients acquire and release the same few names for as long as the run lasts.
Each node in turn is killed as by `kill -9` and started again on its folder, N times each (10 if not given), S seconds
apart. With --together all nodes are killed at once. With --sums they have stores with sums. In the end it prints how
many requests were answered. It fails where a fence of a name was granted twice or out of order, where a request stayed
without an answer, or where a repeated request had another answer.
"""
import argparse
import contextlib
import sys
import tempfile
import threading
import time

from cluster import Cluster, built
from locks_client import Answer, Busy, Client, NotHeld

NAMES = ["db", "queue", "leader"]


class Watch:
    """What all clients were granted, by name: the fences, each but once."""

    def __init__(self):
        self.lock, self.fences, self.wrong, self.answered = threading.Lock(), {}, [], 0
        self.ended = threading.Event()

    def granted(self, name, fence):
        with self.lock:
            if fence in self.fences.setdefault(name, set()):
                self.wrong.append(f"{name} was granted at {fence} twice")
            self.fences[name].add(fence)

    def count(self):
        with self.lock:
            self.answered += 1

    def said(self, what):
        with self.lock:
            self.wrong.append(what)


class Repeating(Client):
    """A client that can ask once more with the bytes of its last request."""

    def is_kept(self, fence):
        """Whether the last request, which was granted at that fence, is answered as before."""
        asked = self.core.exchange(self.core.last, time.monotonic() + self.patience)
        return self.run(asked) == Answer("granted", (fence,))


def works(cluster, number, watch):
    """Acquires and releases until the run ends."""
    turn = number
    with cluster.client(Repeating, number, patience=60.0) as client:
        while not watch.ended.is_set():
            name = NAMES[turn % len(NAMES)]
            turn += 1
            try:
                fence = client.acquire(name)
                watch.granted(name, fence)
                if not client.is_kept(fence):
                    watch.said(f"client {number} was answered otherwise when it asked again")
                client.release(name, fence)
            except Busy:
                pass
            except NotHeld:
                watch.said(f"client {number} did not hold what it was granted")
            except Exception as error:  # whatever it is, it is told
                watch.said(f"client {number}: {error!r}")
                return
            watch.count()


def kills(cluster, times, seconds, together):
    """Kills each node in turn, or all of them at once, and starts it again."""
    groups = [[*cluster.ports]] if together else [[node] for node in cluster.ports]
    for group in groups * times:
        time.sleep(seconds)
        for node in group:
            cluster.kill(node)
        time.sleep(seconds / 2)
        for node in group:
            cluster.start(node)


def main():
    parser = argparse.ArgumentParser(description="Kills nodes while clients ask, and looks for a fence given twice.")
    parser.add_argument("--times", type=int, default=10, help="how often each node is killed, 10 if not given")
    parser.add_argument("--seconds", type=float, default=2.0, help="the seconds between two of that, 2 if not given")
    parser.add_argument("--clients", type=int, default=4, help="the clients, 4 if not given")
    parser.add_argument("--together", action="store_true", help="all nodes are killed at once")
    parser.add_argument("--sums", action="store_true", help="the nodes have stores with sums")
    parser.add_argument("--dir", help="where the folders of the nodes are made")
    parser.add_argument("--program", help="the built program; the wrapper builds it if none is given")
    args = parser.parse_args()
    watch, options = Watch(), ["--sums"] * args.sums
    with contextlib.ExitStack() as held:
        folder = held.enter_context(tempfile.TemporaryDirectory(dir=args.dir))
        cluster = held.enter_context(Cluster(built(args.program), folder, options=options))
        numbers = range(1, args.clients + 1)
        threads = [threading.Thread(target=works, args=(cluster, number, watch)) for number in numbers]
        for it in threads:
            it.start()
        kills(cluster, args.times, args.seconds, args.together)
        watch.ended.set()
        for it in threads:
            it.join()
    for name in NAMES:
        fences = sorted(watch.fences.get(name, ()))
        whole = fences == list(range(1, len(fences) + 1))
        print(f"{name}: {len(fences)} fences, {'1 to the last, none left out' if whole else 'some left out'}")
        if not whole:
            watch.said(f"fences of {name} are left out")
    print(f"{args.times * len(cluster.ports)} kills, {watch.answered} rounds answered")
    print("\n".join(watch.wrong) or "nothing went wrong")
    return 1 if watch.wrong else 0


if __name__ == "__main__":
    sys.exit(main())
