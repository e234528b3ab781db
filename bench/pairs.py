#!/usr/bin/env python3
"""Measures how long a client waits for an acquire and a release of three nodes on this machine.

Usage: bench/pairs.py [--pairs N] [--dir FOLDER] [--program PATH]

Three nodes run as processes on loopback, with their files in fresh folders below FOLDER (the system's folder for
temporary files if none is given). One client, and then eight at once, acquire and release a name of their own, N times
each (1,000 if not given). The same run measures the limit that they are compared with: a pair is two requests, and a
request cannot be answered before two datagrams went to and fro and a majority of three processes, which all sync at
once in the same file system, has synced.
"""
import argparse
import os
import socket
import statistics
import subprocess
import sys
import tempfile
import time
from concurrent.futures import ProcessPoolExecutor

from cluster import Cluster, built
from locks_client import Client, milliseconds

ECHO = """
import os, socket, sys
it = socket.socket(socket.AF_INET, socket.SOCK_DGRAM)
it.bind(("127.0.0.1", 0))
print(it.getsockname()[1], flush=True)
file = os.open(sys.argv[1], os.O_WRONLY | os.O_CREAT | os.O_APPEND) if len(sys.argv) > 1 else None
while True:
    data, place = it.recvfrom(64)
    if file is not None:
        os.write(file, b"x" * 64)
        os.fsync(file)
    it.sendto(data, place)
"""


def timed(what):
    """How many seconds a call takes."""
    start = time.perf_counter()
    what()
    return time.perf_counter() - start


def echo(*file):
    """A process that echoes datagrams, once it has synced a file if one is given, and where it is reached."""
    process = subprocess.Popen([sys.executable, "-c", ECHO, *file], stdout=subprocess.PIPE, text=True)
    return process, ("127.0.0.1", int(process.stdout.readline()))


def limits(folder, count):
    """The seconds of so many rounds: a datagram to an echo and back, then one to each of three that write and sync at
    once, as three nodes do, and back from the first two of them."""
    leader, *others = echoes = [echo(), *(echo(os.path.join(folder, f"limit-{number}")) for number in range(3))]
    it = socket.socket(socket.AF_INET, socket.SOCK_DGRAM)

    def round_of(data, asked, wanted):
        for _, place in asked:
            it.sendto(data, place)
        while wanted:
            wanted -= it.recv(64) == data

    def one(number):
        round_of(b"to the leader %d" % number, [leader], 1)
        round_of(b"to three %d" % number, others, 2)

    try:
        return [timed(lambda: one(number)) for number in range(count)]
    finally:
        it.close()
        for process, _ in echoes:
            process.kill()
            process.wait()


def pairs(cluster, ports, number, count):
    """The seconds of so many pairs of one client."""
    with Client(cluster, number, ports, first=milliseconds()) as client:
        name = f"name-{number}"
        client.ask(name)  # now it knows who leads

        def one():
            client.release(name, client.acquire(name))

        return [timed(one) for _ in range(count)]


def together(cluster, numbers, count):
    """The seconds of all pairs of clients that ask at once, each in a process of its own, and those by the clock."""
    with ProcessPoolExecutor(len(numbers)) as pool:
        start = time.perf_counter()
        ports = list(cluster.ports.values())
        runs = [pool.submit(pairs, cluster.cluster, ports, number, count) for number in numbers]
        seconds = [it for run in runs for it in run.result()]
        return seconds, time.perf_counter() - start


def told(name, seconds):
    """Prints the median and the 99th of a hundred, and gives the median."""
    median, last = statistics.median(seconds), statistics.quantiles(seconds, n=100)[98]
    print(
        f"{name}: median {median * 1e6:,.0f} us, 99th of a hundred {last * 1e6:,.0f} us, "
        f"{last / median:.1f} times the median"
    )
    return median


def main():
    parser = argparse.ArgumentParser(description="Measures acquire and release pairs of three nodes on this machine.")
    parser.add_argument("--pairs", type=int, default=1000, help="pairs of each client, 1000 if not given")
    parser.add_argument("--dir", help="where the folders of the nodes are made")
    parser.add_argument("--program", help="the built program; the wrapper builds it if none is given")
    args = parser.parse_args()
    program = built(args.program)
    with tempfile.TemporaryDirectory(dir=args.dir) as folder, Cluster(program, folder) as cluster:
        limit = told("two echoes, three syncs at once", limits(folder, args.pairs))
        alone, _ = together(cluster, [1], args.pairs)
        median = told("a pair, one client", alone)
        print(f"that is {median / (2 * limit):.2f} times twice the limit")
        eight, clock = together(cluster, range(2, 10), args.pairs)
        told("a pair, eight clients", eight)
        print(f"eight clients: {len(eight) / clock:,.0f} pairs a second; cores: {os.cpu_count()}")


if __name__ == "__main__":
    main()
