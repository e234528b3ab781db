#!/usr/bin/env python3
"""Changes stores with sums at random, and looks whether the program notices each change.

Usage: bench/flips.py [--flips N] [--seconds T] [--workers W] [--seed S] [PROGRAM]

Three nodes with sums work for three clients, and are killed and started again in turn; each time the files of the
killed node are kept. Then one of them is changed, N times (10,000 if not given) or as often as T seconds allow, and
`locks inspect` reads it, and in the same way a tenth as often the same entries without sums. The kinds of changes:

  bits    one, two or eight bits are flipped
  bytes   one to eight bytes are replaced
  block   512 bytes at a multiple of 512 become zeros, random bytes, or another block of this or another file
  range   a range of bytes is moved, repeated or removed
  frames  a frame, or an entry if there are no sums, is moved, repeated or removed, or is one of another file
  rest    from some byte on it is another file, of which it has as many bytes
  length  the length of a frame or entry is replaced by four random bytes

Another file is of another node or generation. A change is noticed if the command ends with fault 9. Otherwise either
the last frame or entry is lost and no other (`last`), more of the last ones are lost (`more`), the folder seems to have
no store (`none`), or what is read is not the beginning of what was written (`other`). No change makes a file the
beginning of itself or of another one that was kept.

A tenth as often a file is read that is older than the sound one beside it. That has to end with fault 9, or to print
what is printed if it was not changed, and which sum differs. The status is 1 if it did not, or if there is any `other`
of a file with sums. tools/forking.c lets a process read some thousand stores a second, and needs `cc`.
"""
import argparse
import collections
import concurrent.futures
import itertools
import os
import random
import sys
import tempfile
import threading
import time

from cluster import Cluster, built
from harness.forking import Reader
from harness.summed import MAGIC, OTHER, Damage, entries, frames, of_generation, pieces
from locks_client import Client

KILLS = 24
BLOCK = 512
BATCH = 100  # stores that are written before they are read
ENDS = ("noticed", "last", "more", "none", "other")


class Kept:
    """A file in parts: its frames, or its entries if it has no sums."""

    def __init__(self, name, whose, head, parts):
        self.name, self.whose, self.head, self.parts = name, whose, head, parts
        self.data = head + b"".join(parts)

    def store(self, data):
        """The files of a folder that has these bytes in the place of this file, and nothing in the other one."""
        return (data, b"") if self.name == "a" else (b"", data)


def parts_of(file, data):
    """The parts that are read of a file of that kind with these bytes."""
    try:
        return frames(file.name, data) if file.head else entries(data)
    except Damage:
        return [b"none"]


def bits(choose, file, _):
    changed = bytearray(file.data)
    for bit in choose.sample(range(8 * len(changed)), choose.choice((1, 1, 2, 8))):
        changed[bit // 8] ^= 1 << bit % 8
    return bytes(changed)


def some_bytes(choose, file, _):
    changed, count = bytearray(file.data), choose.randint(1, 8)
    at = choose.randrange(len(changed) - count + 1)
    changed[at : at + count] = choose.randbytes(count)
    return bytes(changed)


def block(choose, file, other):
    at, source = BLOCK * choose.randrange(-(-len(file.data) // BLOCK)), choose.choice((file, other)).data
    count = min(BLOCK, len(file.data) - at)
    begin = BLOCK * choose.randrange(-(-len(source) // BLOCK))
    new = choose.choice((bytes(count), choose.randbytes(count), source[begin : begin + count].ljust(count, b"\0")))
    return file.data[:at] + new + file.data[at + count :]


def piece(choose, data):
    """Where a range begins and ends."""
    at = choose.randrange(len(data))
    return at, min(len(data), at + choose.randint(1, choose.choice((8, 64, BLOCK))))


def some_range(choose, file, _):
    at, end = piece(choose, file.data)
    rest = file.data if choose.randrange(3) == 0 else file.data[:at] + file.data[end:]
    if choose.randrange(3) == 0:
        return rest if end < len(file.data) else file.data
    to = choose.randrange(len(rest) + 1)
    return rest[:to] + file.data[at:end] + rest[to:]


def some_frames(choose, file, other):
    parts, at = list(file.parts), choose.randrange(len(file.parts))
    way = choose.choice(("move", "repeat", "remove", "swap"))
    if way == "swap":
        parts[at] = choose.choice(other.parts)
    elif way != "remove" or at + 1 < len(parts):
        part = parts[at] if way == "repeat" else parts.pop(at)
        if way != "remove":
            parts.insert(choose.randrange(len(parts) + 1), part)
    return file.head + b"".join(parts)


def rest(choose, file, other):
    at = choose.randrange(len(file.data))
    count = len(file.data) - at
    to = at if choose.randrange(2) else choose.randrange(len(other.data))
    return file.data[:at] + other.data[to : to + count] if to + count <= len(other.data) else file.data


def length(choose, file, _):
    ends = [len(file.head), *itertools.accumulate(map(len, file.parts), initial=len(file.head))]
    at = choose.choice(ends[1:-1])
    return file.data[:at] + choose.randbytes(4) + file.data[at + 4 :]


KINDS = {
    "bits": bits,
    "bytes": some_bytes,
    "block": block,
    "range": some_range,
    "frames": some_frames,
    "rest": rest,
    "length": length,
}


def changes(choose, files):
    """Random changes without an end: the kind, the file, and its new bytes, which are not the beginning of any file."""
    others = {it.whose: [more for more in files if more.whose != it.whose] for it in files}
    while True:
        kind, file = choose.choice([*KINDS]), choose.choice(files)
        data = KINDS[kind](choose, file, choose.choice(others[file.whose]))
        if not any(it.data.startswith(data) for it in files):
            yield kind, file, data


def works(cluster, number, ended):
    """Acquires and releases names until the run ends."""
    with cluster.client(Client, number, patience=60.0) as client:
        while not ended.is_set():
            name = f"name-{number}-{random.randrange(20)}"
            client.release(name, client.acquire(name))


def taken(cluster, node):
    """The files with sums that a killed node has, those that are not empty."""
    for name in "ab":
        with open(os.path.join(cluster.folder, str(node), name), "rb") as file:
            data = file.read()
        found = frames(name, data)
        if found:
            yield Kept(name, (node, int.from_bytes(pieces(name, data)[0][5:13], "big")), MAGIC[name], found)


def stores(program):
    """The files of killed nodes."""
    found, ended = [], threading.Event()
    with tempfile.TemporaryDirectory() as folder:
        with Cluster(program, folder, options=("--sums",), logs=True) as cluster:
            workers = [threading.Thread(target=works, args=(cluster, number, ended)) for number in (1, 2, 3)]
            for it in workers:
                it.start()
            for turn in range(KILLS):
                ended.wait(1.0)
                node = turn % 3 + 1
                cluster.kill(node)
                found += taken(cluster, node)
                cluster.start(node)
            ended.set()
            for it in workers:
                it.join()
    return found


def without_sums(file):
    """The file with the same entries and no sums."""
    return Kept(file.name, file.whose, b"", entries(b"".join(pieces(file.name, file.data))))


def is_noticed(told):
    """Whether a command ended with fault 9. It has to end so, or well, or to say that there is no store."""
    status, out, err = told
    noticed = status == 1 and err.endswith(b"fault 9\n")
    if status and not noticed and (status, out) != (1, b"no store\n"):
        raise RuntimeError(f"status {status}, {out!r}, {err!r}")
    return noticed


def end_of(reader, file, data, told):
    """What was made of a changed file that was read without a fault."""
    if told[1] == b"no store\n":
        return "none"
    count, found = len(file.parts), parts_of(file, data)
    if found != file.parts[: len(found)]:
        return "other"
    beginning = file.store(file.head + b"".join(found))
    pairs = [[*reader.read(command, (file.store(data), beginning))] for command in reader.processes]
    if any(one[:2] != other[:2] for one, other in pairs):
        return "other"
    return "last" if len(found) >= count - 1 else "more"


def tried(reader, choose, files, count, counts):
    """Counts how so many changes ended, by their kinds."""
    part = [*itertools.islice(changes(choose, files), count)]
    told = [*reader.read("inspect", [file.store(data) for _, file, data in part])]
    for (kind, file, data), it in zip(part, told):
        counts[kind, "noticed" if is_noticed(it) else end_of(reader, file, data, it)] += 1


def beside(choose, file):
    """A store of this file and one of the generation before it with the same entries: sound, and with bits of the older
    one changed."""
    other, held = OTHER[file.name], pieces(file.name, file.data)
    live, older = of_generation(2, file.name, held), of_generation(1, other, held)
    spoilt = bits(choose, Kept(other, None, older, []), None)
    return [tuple({file.name: live, other: it}[name] for name in "ab") for it in (older, spoilt)]


def of_older(reader, choose, files, count, ends):
    """Counts how so many changes of an older file ended: with fault 9, read without that file, or unreported."""
    for file in choose.choices(files, k=count):
        sound, told = reader.read("inspect", beside(choose, file))
        line = f"./{OTHER[file.name]}: wrong sum at byte ".encode()
        opened = "opened" if told[:2] == sound[:2] and line in told[2] else "unreported"
        ends["noticed" if is_noticed(told) else opened] += 1


def worker(program, files, count, seed, seconds):
    """One worker's changes, of files with sums and without, and of older files."""
    choose, found, end = random.Random(seed), [collections.Counter() for _ in range(3)], time.monotonic() + seconds
    plain = [without_sums(file) for file in files]
    with Reader(program, ("inspect", "dump"), BATCH) as reader:
        for _ in range(0, count, BATCH):
            if time.monotonic() < end:
                tried(reader, choose, files, BATCH, found[0])
                tried(reader, choose, plain, BATCH // 10, found[1])
                of_older(reader, choose, files, BATCH // 10, found[2])
    return found


def show(name, counts):
    """Prints a table of how the changes of each kind ended."""
    print(f"{name + ':':24}", *(f"{end:>10}" for end in ENDS))
    for kind in KINDS:
        print(f"  {kind:22}", *(f"{counts[kind, end]:10,}" for end in ENDS))
    print(f"  {'all':22}", *(f"{sum(counts[kind, end] for kind in KINDS):10,}" for end in ENDS), flush=True)


def main():
    parser = argparse.ArgumentParser(description=__doc__.splitlines()[0])
    parser.add_argument("program", nargs="?", help="the built program")
    parser.add_argument("--flips", type=int, default=10_000, help="how many changes, 10000 if not given")
    parser.add_argument("--seconds", type=float, default=float("inf"), help="how long at most, for ever if not given")
    parser.add_argument("--workers", type=int, default=4, help="how many at once, 4 if not given")
    parser.add_argument("--seed", type=int, default=1, help="the seed of the changes, 1 if not given")
    args = parser.parse_args()
    program = built(args.program)
    files, count = stores(program), args.flips // args.workers
    sizes, begun = sorted(len(it.data) for it in files), time.monotonic()
    print(f"{len(files)} files of {sizes[0]} to {sizes[-1]} bytes, {len({it.whose for it in files})} generations")
    with concurrent.futures.ProcessPoolExecutor(args.workers) as pool:
        parts = [pool.submit(worker, program, files, count, args.seed + it, args.seconds) for it in range(args.workers)]
    summed, plain, older = (sum(counts, collections.Counter()) for counts in zip(*(it.result() for it in parts)))
    show("with sums", summed)
    show("without sums", plain)
    print(f"an older file: {older['noticed']:,} fault 9, {older['opened']:,} read without it and reported,", end=" ")
    print(f"{older['unreported']:,} not reported")
    print(f"{time.monotonic() - begun:,.0f} s")
    return 1 if older["unreported"] or any(summed[kind, "other"] for kind in KINDS) else 0


if __name__ == "__main__":
    sys.exit(main())
