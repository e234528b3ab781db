#!/usr/bin/env python3
"""Changes the nodes of a cluster to another program one by one while a client works, and then raises its table.

Usage: bench/rolling.py --old PROGRAM [--new PROGRAM] [--dir FOLDER]

Three nodes of the old program run as processes on loopback. A client acquires and releases a name all the while. Each
node in turn is stopped, and started again by the new program on its folder; the next one follows when it has executed
what the others had. Then the table is raised, two clients share a name, and one of them breaks the lock. The status is
1 where a fence is not one more than the last, a request stays without an answer, or a store ends in another format
than 2."""
import argparse
import os
import subprocess
import sys
import tempfile
import threading
import time

from cluster import Cluster, built
from locks_client import Client


class Worker(threading.Thread):
    """A client that acquires and releases a name until it is told to end, and what it was granted."""

    def __init__(self, cluster):
        super().__init__()
        self.cluster, self.fences, self.is_over = cluster, [], threading.Event()

    def run(self):
        with self.cluster.client(Client, 1, patience=60.0) as client:
            while not self.is_over.is_set():
                fence = client.acquire("db")
                self.fences.append(fence)
                client.release("db", fence)


def dumped(program, folder):
    """What `locks dump` prints of a folder, by its words."""
    told = subprocess.run([program, "dump", "--dir", folder], capture_output=True, text=True, check=True)
    return dict(line.split(" ", 1) for line in told.stdout.splitlines())


def executed(program, folder):
    """How many positions stand in a folder."""
    told = subprocess.run([program, "inspect", "--dir", folder], capture_output=True, text=True, check=True)
    return int(told.stdout.splitlines()[0].split()[1])


def changed(cluster, node, new):
    """Restarts a node by the new program. The seconds until it has executed what the others had when it was stopped."""
    cluster.kill(node)
    others = [other for other in cluster.ports if other != node]
    far = max(executed(new, os.path.join(cluster.folder, str(other))) for other in others)
    cluster.program = new
    start = time.perf_counter()
    cluster.start(node)
    while executed(new, os.path.join(cluster.folder, str(node))) < far:
        time.sleep(0.05)
    return time.perf_counter() - start


def raised(cluster):
    """What comes of a raise, two shares, a break and an acquire."""
    with cluster.client(Client, 2, patience=60.0) as one, cluster.client(Client, 3, patience=60.0) as other:
        one.raise_table()
        shared = (one.share("page"), other.share("page"))
        one.break_lock("page", shared[0])
        return (*shared, other.acquire("page"))


def main():
    parser = argparse.ArgumentParser(description=__doc__.split("\n\n")[0])
    parser.add_argument("--old", required=True, help="the program that the nodes run at first")
    parser.add_argument("--new", help="the built program; the wrapper builds it if none is given")
    parser.add_argument("--dir", help="where the folders of the nodes are made")
    words = parser.parse_args()
    new = built(words.new)
    with tempfile.TemporaryDirectory(dir=words.dir) as folder, Cluster(words.old, folder) as cluster:
        worker = Worker(cluster)
        worker.start()
        time.sleep(5.0)
        for node in cluster.ports:
            formats = [dumped(new, os.path.join(folder, str(each)))["format"] for each in cluster.ports]
            told = f"{len(worker.fences)} fences, stores of format {' '.join(formats)}"
            print(f"{told}; node {node} is changed", flush=True)
            print(f"it has caught up after {changed(cluster, node, new):.1f} s", flush=True)
            time.sleep(2.0)
        came = raised(cluster)
        worker.is_over.set()
        worker.join()
        formats = [dumped(new, os.path.join(folder, str(each)))["format"] for each in cluster.ports]
    is_whole = worker.fences == list(range(1, len(worker.fences) + 1))
    is_right = is_whole and came == (1, 1, 2) and formats == ["2", "2", "2"]
    print(
        f"{len(worker.fences)} fences in all; raised: shared at {came[0]} and {came[1]}, broken, granted {came[2]}; "
        f"stores of format {' '.join(formats)}"
    )
    print("nothing went wrong" if is_right else "WRONG")
    sys.exit(not is_right)


if __name__ == "__main__":
    main()
