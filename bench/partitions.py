#!/usr/bin/env python3
"""Parts three nodes on three machines at random while clients hold locks, and checks that no fence is given twice and
no two clients hold a lock.

Each time a random set of the six ways between two nodes is cut for 0.5 to 4 s, and mended for up to 2 s. The machines
are those of bench/machines.py. With --bare the nodes and the clients have no keys: the nodes serve loopback alone, so
the machines are addresses of 127/8. The last line is `N passed, M failed`; the status is 0 where none failed.
"""

import argparse
import itertools
import os
import random
import sys
import tempfile
import time

from machines import NODES, Cluster, Score, Work, faults, go_on, machines


def part(world, drawn, minutes):
    """Cuts and mends ways until so much time is over. How often it did."""
    ways, end, count = list(itertools.permutations(NODES, 2)), time.monotonic() + 60 * minutes, 0
    while time.monotonic() < end:
        cut = [way for way in ways if drawn.random() < 0.5]
        world.block(*cut)
        time.sleep(drawn.uniform(0.5, 4))
        world.unblock(*cut)
        time.sleep(drawn.uniform(0, 2))
        count += 1
    return count


def tell(cluster, world, score, options):
    """All of it, one after another."""
    for node in NODES:
        cluster.start(node)
    work = Work(cluster)
    go_on(work, score, "at first")
    count = part(world, random.Random(options.seed), options.minutes)
    go_on(work, score, f"after {count} partitions")
    work.end()
    wrong, terms = faults(work.holds), sum(cluster.log(node).count(" begun") for node in NODES)
    fences = f"{len(work.holds)} fences of {len({hold[0] for hold in work.holds})} locks in {terms} terms"
    score.check("no fence was given twice, and no lock held by two", not wrong, f"{fences} {wrong[:3] or ''}")


def main():
    parser = argparse.ArgumentParser(description=__doc__, formatter_class=argparse.RawDescriptionHelpFormatter)
    parser.add_argument("program", help="the built program")
    parser.add_argument("--minutes", type=float, default=10, help="how long, 10 by default")
    parser.add_argument(
        "--seed",
        type=int,
        default=1,
        help="the number that the partitions are drawn from, 1 by default",
    )
    parser.add_argument("--loopback", action="store_true", help="use addresses of 127/8 and no namespaces")
    parser.add_argument("--bare", action="store_true", help="give no keys; uses addresses of 127/8")
    options = parser.parse_args()
    world, score = machines(options.loopback or options.bare), Score()
    with tempfile.TemporaryDirectory(prefix="partitions-") as folder:
        cluster = Cluster(os.path.abspath(options.program), world, folder, options.bare)
        keys = "without keys" if options.bare else "with keys"
        print(f"machines are {world.kind}, {keys}; logs are in {folder}", flush=True)
        try:
            tell(cluster, world, score, options)
        finally:
            cluster.end()
            world.end()
    print(f"{score.passed} passed, {score.failed} failed")
    return score.failed > 0


if __name__ == "__main__":
    sys.exit(main())
