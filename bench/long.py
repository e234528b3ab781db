#!/usr/bin/env python3
"""Runs a cluster for a long time, and checks that a node's memory and its files stay small.

Usage: bench/long.py [--pairs N] [--ticks WORD] [--dir FOLDER] [--program PATH]

Three nodes run as processes on loopback, and one client acquires and releases a name N times (200,000 if not given).
After each tenth it prints the resident memory of each node, the greatest that it had, and the bytes of its two files.
Then the last node is killed as by `kill -9` and started again, and it prints how long the node takes to give the
client's last answer once more. It fails where a node holds 8 MB or more, where a file is longer than 262,144 bytes, or
where the node takes 0.3 s or longer.
"""
import argparse
import os
import socket
import sys
import tempfile
import time

from cluster import Cluster, built
from locks_client import Answer, Client
from locks_client.wire import read_reply, request_bytes

MOST_MEMORY = 8 << 10  # KiB
MOST_BYTES = 262_144
MOST_SECONDS = 0.3


def memory_of(process):
    """The resident memory of a process and the greatest that it had, in KiB."""
    with open(f"/proc/{process.pid}/status", encoding="ascii") as status:
        words = dict(line.split(":", 1) for line in status)
    return int(words["VmRSS"].split()[0]), int(words["VmHWM"].split()[0])


def lengths_of(cluster, node):
    """The bytes of each file in the node's folder, by their names."""
    folder = os.path.join(cluster.folder, str(node))
    return [os.path.getsize(os.path.join(folder, name)) for name in sorted(os.listdir(folder))]


def tell(cluster, done):
    """Prints what each node holds, and gives what is wrong with it."""
    wrong = []
    for node, process in sorted(cluster.processes.items()):
        resident, peak = memory_of(process)
        lengths = lengths_of(cluster, node)
        files = " and ".join(map(str, lengths))
        print(f"{done} pairs, node {node}: {resident} KiB, at most {peak} KiB; files of {files} bytes", flush=True)
        if peak >= MOST_MEMORY:
            wrong.append(f"node {node} held {peak} KiB")
        wrong += [f"node {node} has a file of {length} bytes" for length in lengths if length > MOST_BYTES]
    return wrong


def seconds_to_answer(cluster, client, node):
    """The seconds from the start of the node until it gives the client's last answer once more."""
    number, op = client.core.last[:2]
    data = request_bytes(cluster.cluster, client.client, number, op)
    with socket.socket(socket.AF_INET, socket.SOCK_DGRAM) as it:
        it.settimeout(0.01)
        start = time.perf_counter()
        cluster.start(node)
        while time.perf_counter() - start < 60:
            it.sendto(data, ("127.0.0.1", cluster.ports[node]))
            try:
                reply = read_reply(it.recv(8192), cluster.cluster, client.client, number)
            except OSError:  # nothing came, or nothing listens there yet
                time.sleep(0.002)
                continue
            if isinstance(reply, Answer):
                break
        return time.perf_counter() - start


def main():
    parser = argparse.ArgumentParser(
        description="Runs three nodes for long, and looks whether memory and files stay as they are."
    )
    parser.add_argument("--pairs", type=int, default=200_000, help="pairs of acquire and release, 200,000 if not given")
    parser.add_argument(
        "--ticks",
        choices=["datagrams", "clock"],
        default="datagrams",
        help="what the ticks of a node go by, datagrams if not given",
    )
    parser.add_argument("--dir", help="where the folders of the nodes are made")
    parser.add_argument("--program", help="the built program; the wrapper builds it if none is given")
    args = parser.parse_args()
    wrong = []
    program, options = built(args.program), ("--ticks", args.ticks)
    with tempfile.TemporaryDirectory(dir=args.dir) as folder, Cluster(program, folder, options=options) as cluster:
        with cluster.client(Client, 1, patience=60.0) as client:
            for tenth in range(1, 11):
                for _ in range(args.pairs // 10):
                    client.release("db", client.acquire("db"))
                wrong += tell(cluster, tenth * (args.pairs // 10))
            node = max(cluster.ports)
            cluster.kill(node)
            seconds = seconds_to_answer(cluster, client, node)
    print(f"node {node} was killed, and answered {seconds:.3f} s after it was started again")
    if seconds >= MOST_SECONDS:
        wrong.append(f"node {node} took {seconds:.3f} s")
    print("\n".join(wrong) or "nothing went wrong")
    return 1 if wrong else 0


if __name__ == "__main__":
    sys.exit(main())
