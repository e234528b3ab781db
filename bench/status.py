#!/usr/bin/env python3
"""Measures how long `locks status` takes of three nodes, each call as a process.

Usage: bench/status.py [--times N] [--busy N] [--ticks HOW] [--dir FOLDER] [--program PATH]

Three nodes run as processes on loopback. Once one leads, all three are asked by N calls (300 if not given), one after
another. It prints how long a call took from its start to its end: the median, the 99th of a hundred, and the slowest.
It also prints how long one process waits for the answers to three probes, and how long the program takes to print its
version, which is what starting a process costs. With --busy, N clients in Python acquire and release locks of their own
meanwhile. With --ticks datagrams, nodes tick by datagrams.
"""
import argparse
import contextlib
import multiprocessing
import os
import socket
import struct
import subprocess
import tempfile
import time

from cluster import Cluster, built, locks_client

QUIET = {"stdin": subprocess.DEVNULL, "stdout": subprocess.DEVNULL}


def seconds_of(command):
    """How long a process takes, and its status."""
    begin = time.perf_counter()
    status = subprocess.run(command, **QUIET, stderr=subprocess.DEVNULL).returncode
    return time.perf_counter() - begin, status


def seconds_to_reports(it, cluster, token):
    """How long it takes until each node has reported that is probed through this socket."""
    begin = time.perf_counter()
    for place, port in enumerate(cluster.ports.values()):
        probe = b"LP\x01\x09" + struct.pack(">QIHQ", cluster.cluster, 0, 0, token + place)
        it.sendto(probe.ljust(174, b"\0"), ("127.0.0.1", port))
    for _ in cluster.ports:
        it.recv(9000)
    return time.perf_counter() - begin


def row(name, seconds):
    """A line of the table."""
    ordered = sorted(seconds)
    at = lambda share: ordered[min(len(ordered) - 1, int(share * len(ordered)))] * 1000
    print(f"{name:<30} {at(0.5):8.1f} {at(0.99):8.1f} {ordered[-1] * 1000:8.1f}", flush=True)


def work(cluster, number):
    """Takes and gives back a lock until it is killed, in a process of its own: threads would slow what measures."""
    with cluster.client(locks_client.Client, number) as client:
        while True:
            with contextlib.suppress(locks_client.NoAnswer):
                client.release(f"lock-{number}", client.acquire(f"lock-{number}"))


def main():
    parser = argparse.ArgumentParser(description=__doc__, formatter_class=argparse.RawDescriptionHelpFormatter)
    parser.add_argument("--times", type=int, default=300, metavar="N", help="calls (default: %(default)s)")
    parser.add_argument(
        "--busy",
        type=int,
        default=0,
        metavar="N",
        help="clients that work meanwhile (default: %(default)s)",
    )
    parser.add_argument(
        "--ticks",
        default="clock",
        choices=["clock", "datagrams"],
        help="what the nodes tick by (default: %(default)s)",
    )
    parser.add_argument("--dir", metavar="FOLDER", help="where the nodes' folders are made (default: a new one)")
    parser.add_argument("--program", metavar="PATH", help="the program (default: that which ./locks runs)")
    words = parser.parse_args()
    program = built(words.program)
    with contextlib.ExitStack() as stack:
        folder = words.dir or stack.enter_context(tempfile.TemporaryDirectory())
        cluster = stack.enter_context(Cluster(program, folder, options=["--ticks", words.ticks]))
        asks = [program, "status", "--cluster", str(cluster.cluster), "--port", *map(str, cluster.ports.values())]
        subprocess.run([*asks, "--until", "ready", "60"], **QUIET, check=True)
        numbers = range(1, words.busy + 1)
        clients = [multiprocessing.Process(target=work, args=(cluster, number), daemon=True) for number in numbers]
        for it in clients:
            it.start()
            stack.callback(it.kill)
        calls = [seconds_of(asks) for _ in range(words.times)]
        with socket.socket(socket.AF_INET, socket.SOCK_DGRAM) as it:
            it.settimeout(10)
            reports = [seconds_to_reports(it, cluster, 1000 * turn) for turn in range(words.times)]
        starts = [seconds_of([program, "--version"]) for _ in range(words.times)]
    print(f"{'milliseconds':<30} {'median':>8} {'p99':>8} {'slowest':>8}")
    row("status of three nodes", [seconds for seconds, _ in calls])
    row("three probes of one process", reports)
    row("--version", [seconds for seconds, _ in starts])
    failed = sum(status != 0 for _, status in calls)
    print(f"{failed} of {words.times} calls had another status than 0; load {os.getloadavg()[0]:.1f}")


if __name__ == "__main__":
    main()
