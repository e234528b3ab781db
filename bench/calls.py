#!/usr/bin/env python3
"""Counts the system calls and the syncs of a request at the leader and at a follower, by clients.

strace counts them while bench/load works, of locks and of peers. It slows the nodes down, so the rates say nothing. A
node that takes several requests at once makes fewer calls for each of them."""
import contextlib
import os
import pathlib
import re
import signal
import subprocess
import tempfile
import time

from compare import PEERS, add_cluster_options, numbers, variants_of, words_of
from scripting import need, parser
from systems import generator

ATTACHED = 0.5  # seconds that strace is given
SYNCS = "fsync", "fdatasync"
ROW = re.compile(r"^ *[\d.]+ +[\d.]+ +\d+ +(\d+) +(?:\d+ +)?(\w+)$")


@contextlib.contextmanager
def counted(pid, path):
    """Counts the calls of a process into a file while the block runs."""
    counting = subprocess.Popen(["strace", "-c", "-f", "-qq", "-o", path, "-p", str(pid)], stdin=subprocess.DEVNULL)
    try:
        time.sleep(ATTACHED)
        yield
    finally:
        counting.send_signal(signal.SIGINT)
        counting.wait()


def calls(path):
    """How often each call was made."""
    found = map(ROW.match, pathlib.Path(path).read_text().splitlines())
    return {row[2]: int(row[1]) for row in found if row and row[2] != "total"}


def measured(program, system, folder, clients, seconds):
    """The calls and the syncs of a request, at the leader and at a follower: four numbers."""
    leader = system.leader()
    nodes = [leader, next((node for node in system.ports if node != leader), leader)]
    paths = [os.path.join(folder, f"calls-{node}") for node in nodes]
    with contextlib.ExitStack() as counting:
        for node, path in dict(zip(nodes, paths)).items():
            counting.enter_context(counted(system.processes[node].pid, path))
        pairs = system.load(program, leader, clients, "--seconds", seconds)["pairs"] + clients
    made = map(calls, paths)
    return [it / (2 * pairs) for one in made for it in (sum(one.values()), sum(one.get(name, 0) for name in SYNCS))]


def arguments():
    made = parser(__doc__)
    made.add_argument(
        "--systems",
        type=words_of(["locks", *PEERS]),
        default=["locks", "etcd"],
        help="locks,etcd if not given",
    )
    made.add_argument("--clients", type=numbers, default=[1, 8, 32, 64], help="1,8,32,64 if not given")
    made.add_argument("--alpha", type=numbers, default=[2, 8, 16], help="2,8,16 if not given")
    add_cluster_options(made)
    made.add_argument("--seconds", type=float, default=3, help="how long each load lasts, 3 if not given")
    return made.parse_args()


def main():
    args = arguments()
    need("cargo", "strace")
    program = generator()
    print("Of a request, at the leader and at a follower:\n")
    print("| system | clients | calls | syncs | calls, follower | syncs, follower |", flush=True)
    print("|---|---:|---:|---:|---:|---:|", flush=True)
    for variant in variants_of(args):
        with tempfile.TemporaryDirectory(dir=args.dir) as folder, variant.make(folder) as system:
            system.load(program, 1, 1, "--pairs", 1)
            for clients in args.clients:
                found = measured(program, system, folder, clients, args.seconds)
                print(f"| {variant.name} | {clients} | " + " | ".join(f"{it:.2f}" for it in found) + " |", flush=True)


if __name__ == "__main__":
    main()
