#!/usr/bin/env python3
"""Measures how long a leader's death lasts for clients that wait.

Usage: bench/elect.py [--clients N ..] [--times N] [--ticks WORD] [--fixed] [--dir FOLDER] [--program PATH]

Three nodes run as processes on loopback, and N clients have asked (1, 20, 60, 120 and 250 if nothing is given). Then
the leader is killed, and at that moment each client asks again. It prints how many seconds passed until the first of
them was answered, and until all were: the median and the slowest of several deaths (7 if not given), each of a new
cluster. With --fixed the clients wait half a second each time and follow twenty Elsewheres, all in step, as a client
does whose author has read too little of docs/WIRE.md.
"""
import argparse
import contextlib
import os
import statistics
import tempfile
import threading
import time

from cluster import Cluster, built, locks_client
from locks_client import core, waits

PATIENCE = 60.0  # seconds, as long as a death is measured


def asks(client, start, seconds, place):
    """Asks once all are there, and notes how long that took."""
    start.wait()
    begin = time.monotonic()
    with contextlib.suppress(locks_client.NoAnswer):
        client.ask("db")
    seconds[place] = time.monotonic() - begin


def death(cluster, count):
    """The seconds that each of so many clients waits for its answer, from the death of the leader on."""
    with contextlib.ExitStack() as stack:
        made = (cluster.client(locks_client.Client, number, patience=PATIENCE) for number in range(1, count + 1))
        clients = [stack.enter_context(it) for it in made]
        for it in clients:
            it.ask("db")  # now it knows who leads
        [leader] = {node for node, port in cluster.ports.items() if port == clients[-1].leader}
        start, seconds = threading.Barrier(count + 1), [PATIENCE] * count
        threads = [threading.Thread(target=asks, args=(it, start, seconds, place)) for place, it in enumerate(clients)]
        for it in threads:
            it.start()
        cluster.kill(leader)
        start.wait()
        for it in threads:
            it.join()
        return seconds


def measured(program, folder, count, times, ticks):
    """The line of the table for so many clients."""
    firsts, lasts = [], []
    for turn in range(times):
        room = os.path.join(folder, f"{count}-{turn}")
        with Cluster(program, room, options=("--ticks", ticks)) as cluster:
            seconds = death(cluster, count)
        firsts.append(min(seconds))
        lasts.append(max(seconds))
    cells = [statistics.median(firsts), max(firsts), statistics.median(lasts), max(lasts)]
    return f"| {count} | " + " | ".join(f"{it:.1f}" for it in cells) + " |"


def main():
    parser = argparse.ArgumentParser(description="Measures how long a leader's death lasts for clients that wait.")
    parser.add_argument("--clients", type=int, nargs="+", default=[1, 20, 60, 120, 250], help="the numbers of clients")
    parser.add_argument("--times", type=int, default=7, help="the deaths for each of them, 7 if not given")
    parser.add_argument(
        "--ticks",
        choices=["datagrams", "clock"],
        default="datagrams",
        help="what the ticks of a node go by, datagrams if not given",
    )
    parser.add_argument(
        "--fixed",
        action="store_true",
        help="half a second between two sends, not scattered, twenty Elsewheres",
    )
    parser.add_argument("--dir", help="where the folders of the nodes are made")
    parser.add_argument("--program", help="the built program; the wrapper builds it if none is given")
    args = parser.parse_args()
    if args.fixed:
        waits.WAITS, waits.SCATTER, core.MAX_ELSEWHERE = (0.5,), (1.0, 1.0), 20
    program = built(args.program)
    print("| clients | first answered, median | slowest | all answered, median | slowest |")
    print("|---:|---:|---:|---:|---:|")
    with tempfile.TemporaryDirectory(dir=args.dir) as folder:
        for count in args.clients:
            print(measured(program, folder, count, args.times, args.ticks), flush=True)
    print(f"cores: {os.cpu_count()}; load in the last minutes: {os.getloadavg()[0]:.1f}")


if __name__ == "__main__":
    main()
