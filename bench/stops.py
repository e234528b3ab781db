#!/usr/bin/env python3
"""Stops a node at each call that changes its files, from its start over its next snapshot on, and restarts it.

Usage: bench/stops.py [--workers N] [PROGRAM]

The node is a cluster by itself. tools/stopping.c, compiled by `cc` and loaded in front of the C library, stops it as a
stop of the machine does: each file keeps what was synced, and 0, 1, 7 or all of the bytes after that. Then `scrub` has
to find no damage, and a restart has to know each answer. A store without sums is swept, one with sums, the change from
the one to the other, and a store with sums that has a damaged older file, which its next snapshot replaces: of that
`scrub` may report the rest. The last line says how many stops there were, and the status is 1 if one went wrong.
"""
import argparse
import sys

from cluster import built
from harness.stops import ALL, Alone, sweep

SWEEPS = (
    ("format 2", (), (), {}),
    ("format 3", ("--sums",), (), {}),
    ("from 2 to 3", (), ("--sums",), {}),
    ("format 3, a damaged older file", ("--sums",), (), {"requests": 504, "prepare": Alone.spoil}),
)


def main():
    parser = argparse.ArgumentParser(description=__doc__.splitlines()[0])
    parser.add_argument("program", nargs="?", help="the built program")
    parser.add_argument("--workers", type=int, default=4, help="how many nodes run at once")
    args = parser.parse_args()
    stops = failed = 0
    for name, before, after, more in SWEEPS:
        count, wrong = sweep(built(args.program), before, after, left=(0, 1, 7, ALL), workers=args.workers, **more)
        print(f"{name}: {count} stops", *wrong, sep="\n  ", flush=True)
        stops, failed = stops + count, failed + len(wrong)
    print(f"{stops} stops, {failed} wrong")
    return 1 if failed else 0


if __name__ == "__main__":
    sys.exit(main())
