#!/usr/bin/env python3
"""Measures `locks sim` in table mode on generated requests: requests per second and peak memory.

The input mixes grants, refusals, repeated numbers and unreadable datagrams of 256 clients over 512 names. It is made
before the clock starts, from a fixed start, so each run measures the same input.
"""
import argparse
import os
import random
import resource
import subprocess
import sys
import tempfile
import time

from cluster import built

HEADER = "4c4b0109" + "%016x" % 5 + "00000000"


def body(draw, client, number):
    name = b"name-%03d" % draw.randrange(512)
    kind = draw.choice((1, 1, 1, 2, 3, 4))
    text = bytes((kind, len(name))) + name
    if kind in (2, 4):
        text += (1 + number // 512).to_bytes(8, "big")
    return text


def lines(count):
    draw = random.Random(1)
    numbers = [0] * 257
    yield "table 5\n"
    for _ in range(count):
        client = draw.randrange(1, 257)
        if draw.random() < 0.9 or numbers[client] == 0:
            numbers[client] += 1
        number = numbers[client] if draw.random() < 0.97 else max(1, numbers[client] - 1)
        text = body(draw, client, number)
        line = HEADER + "%04x%016x00%02x" % (client, number, len(text)) + text.hex()
        yield (line[:-2] if draw.random() < 0.02 else line) + "\n"


def main():
    parser = argparse.ArgumentParser(description=__doc__, formatter_class=argparse.RawDescriptionHelpFormatter)
    parser.add_argument("requests", nargs="?", type=int, default=1_000_000, help="how many, 1,000,000 by default")
    count = parser.parse_args().requests
    program = built()
    with tempfile.TemporaryDirectory() as folder:
        script = os.path.join(folder, "script.txt")
        with open(script, "w") as file:
            file.writelines(lines(count))
        size = os.path.getsize(script)
        before = resource.getrusage(resource.RUSAGE_CHILDREN)
        with open(script, "rb") as source, open(os.devnull, "wb") as sink:
            start = time.perf_counter()
            run = subprocess.Popen([program, "sim"], stdin=source, stdout=sink)
            peak = 0
            while run.poll() is None:
                peak = max(peak, peak_of(run.pid))
                time.sleep(0.01)
            seconds = time.perf_counter() - start
        after = resource.getrusage(resource.RUSAGE_CHILDREN)
    used = after.ru_utime + after.ru_stime - before.ru_utime - before.ru_stime
    print(f"{count} requests, {size} bytes of input, status {run.returncode}")
    print(f"{seconds:.2f} s by the clock: {count / seconds:,.0f} requests per second")
    print(f"{used:.2f} s of one core: {count / used:,.0f} requests per second")
    print(f"peak memory: {peak / 1024:.1f} MiB; cores: {os.cpu_count()}, one used")


def peak_of(process):
    """The greatest memory that the process has held, in KiB."""
    try:
        with open(f"/proc/{process}/status") as status:
            return max((int(line.split()[1]) for line in status if line.startswith("VmHWM")), default=0)
    except FileNotFoundError:
        return 0


if __name__ == "__main__":
    main()
