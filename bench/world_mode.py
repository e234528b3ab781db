#!/usr/bin/env python3
"""Measures `locks sim` in world mode on generated events: events per second and peak memory.

One node is elected. Then clients ask in turn, and each request, its Accept and its Accepted are delivered, so that four
events execute one position and send four datagrams. After 99,000 datagrams, the remaining events inject bytes that are
no datagram. The script is made before the clock starts, so each run measures the same input.
"""
import argparse
import os
import subprocess
import sys
import tempfile
import time

from cluster import built

MOST = 99_000


def events(count):
    """So many lines, each one event, for one node that leads after the seventh."""
    yield from ("start 1", "tick 1", "tick 1", "tick 1", "tick 1", "deliver 1", "deliver 2")
    sent, done, asked = 2, 7, 0
    while done + 4 <= count and sent + 4 <= MOST:
        client, number = asked % 256 + 1, asked // 256 + 1
        yield f"client 1 {client} {number} {'acquire' if asked % 2 else 'ask'} name-{asked % 500}"
        yield from (f"deliver {sent + step}" for step in (1, 2, 3))
        sent, done, asked = sent + 4, done + 4, asked + 1
    yield from ("inject 1 00" for _ in range(done, count))


def measure(program, script):
    """The status, the last line of output, the seconds and the peak memory in KiB of one run."""
    with open(script, "rb") as source, tempfile.TemporaryFile() as sink:
        start = time.perf_counter()
        run = subprocess.Popen([program, "sim"], stdin=source, stdout=sink)
        peak = 0
        while run.poll() is None:
            peak = max(peak, peak_of(run.pid))
            time.sleep(0.005)
        seconds = time.perf_counter() - start
        sink.seek(0)
        last = (sink.read().splitlines() or [b""])[-1].decode()
    return run.returncode, last, seconds, peak


def peak_of(process):
    """The greatest memory that the process has held, in KiB."""
    try:
        with open(f"/proc/{process}/status") as status:
            return max((int(line.split()[1]) for line in status if line.startswith("VmHWM")), default=0)
    except FileNotFoundError:
        return 0


def main():
    parser = argparse.ArgumentParser(description=__doc__, formatter_class=argparse.RawDescriptionHelpFormatter)
    parser.add_argument("events", nargs="?", type=int, default=100_000, help="how many, 100,000 by default")
    count = parser.parse_args().events
    program = built()
    with tempfile.TemporaryDirectory() as folder:
        for part in (count // 4, count // 2, count):
            script = os.path.join(folder, "script.txt")
            with open(script, "w") as file:
                file.write("genesis 5 2 1:7001\n")
                file.writelines(line + "\n" for line in events(part))
            status, last, seconds, peak = measure(program, script)
            print(
                f"{part} events: status {status}, `{last}`, {seconds:.2f} s, "
                f"{part / seconds:,.0f} events per second, {peak / 1024:.1f} MiB"
            )


if __name__ == "__main__":
    main()
