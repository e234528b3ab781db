#!/usr/bin/env python3
"""Compares locks with etcd, ZooKeeper and Redis on this machine, and draws what it measured.

The same loads run at each system in turn, round by round: pairs of an acquire and a release by 1 to 64 clients, on the
disk as it is and with 2 ms more for each sync, and the death of a leader under load. At last a long run at each shows
how memory and files grow. FOLDER/compare.csv gets all figures, FOLDER/compare.svg is drawn from them, and the medians
of the loads are printed, with the least and the greatest of the rounds.

With --journal the folders stand on ext4 with a journal, on a loop device whose file is in memory, as only root can make
it: what the slowest pairs then wait for is not the disk.

The load is made by bench/load, which cargo builds. The peers are Debian's packages etcd-server, zookeeper and
redis-server. What is not installed is left out with a line, and so is the slow disk where strace is missing."""
import argparse
import contextlib
import csv
import dataclasses
import datetime
import json
import os
import pathlib
import platform
import re
import shutil
import subprocess
import sys
import tempfile
import time
from collections.abc import Callable

import journal
import plots
from cluster import built
from scripting import a_program, is_proved, need, parser
from systems import SLOWED, Etcd, Locks, Redis, ZooKeeper, generator

PEERS = {"etcd": Etcd, "zookeeper": ZooKeeper, "redis": Redis}
DISKS = {"plain": [], "slow": SLOWED}
TICKS = ["datagrams", "clock"]
FEW, MANY = 8, 32  # clients of a start or a death; and of a warm-up or the long run
LEGS = 20  # looks at memory and files in the long run
DEATH, BEFORE, REST = 8, 1.5, 2  # seconds: of the load around a death, before it, and after it
COLUMNS = ["what", "system", "disk", "round", "clients", "seconds", "pairs", "pairs_per_second"]
COLUMNS += ["p50_ms", "p99_ms", "p999_ms", "slowest_ms"]
COLUMNS += ["gap_ms", "ready_ms", "repeated", "errors", "error", "processor_seconds", "nodes_processor_seconds"]
COLUMNS += ["memory_bytes", "file_bytes", "load", "note"]
TOLD = {
    "note": "{note}",
    "start": "{system}, {disk} disk: first answer {ready_ms:,.0f} ms after the start",
    "load": (
        "{system}, {disk} disk, {clients} clients: {pairs_per_second:,.0f} pairs per second, "
        "p50 {p50_ms:.2f} ms, p99 {p99_ms:.2f} ms"
    ),
    "death": "{system}: no answer for {gap_ms:,.0f} ms after the death of the leader",
    "growth": "{system}, {pairs:,} pairs: {memory_bytes:,} bytes of memory, {file_bytes:,} bytes in files",
}
SYNC = """
import os, statistics, sys, time
file, took = os.open(sys.argv[1], os.O_WRONLY | os.O_CREAT | os.O_APPEND), []
for _ in range(100):
    os.write(file, bytes(64))
    start = time.perf_counter()
    os.fdatasync(file)
    took.append(time.perf_counter() - start)
print(statistics.median(took) * 1e3)
"""


@dataclasses.dataclass(frozen=True)
class Variant:
    """A system with its options, by the name that the picture gives it."""

    name: str
    make: Callable
    is_long: bool = True  # whether the long run has it


class Sheet:
    """The rows of compare.csv, each written as it comes."""

    def __init__(self, file):
        self.file, self.rows = file, csv.DictWriter(file, COLUMNS, restval="", extrasaction="ignore")
        self.rows.writeheader()

    def add(self, what, **figures):
        row = {"what": what, **figures, "load": f"{os.getloadavg()[0]:.1f}"}
        self.rows.writerow(row)
        self.file.flush()
        failed = f"({row['errors']} failed: {row['error']})" if row.get("errors") else ""
        print(TOLD[what].format(**row), failed, flush=True)


class Comparison:
    """What is measured at a system, with a sheet for it."""

    def __init__(self, args, sheet):
        self.args, self.sheet, self.program = args, sheet, generator()

    def round_of(self, variant, disk, number):
        """All of one round at one system, in fresh folders."""
        about = {"system": variant.name, "disk": disk, "round": number}
        with tempfile.TemporaryDirectory(dir=self.args.dir) as folder, variant.make(folder, DISKS[disk]) as system:
            self.sheet.add("start", **about, **system.load(self.program, 1, FEW, "--pairs", 1))
            self.loads(system, about)
            for _ in range(self.args.deaths if disk == "plain" and system.size > 1 else 0):
                self.sheet.add("death", **about, **self.death(system))

    def loads(self, system, about):
        """A warm-up, and then the load of each number of clients."""
        leader, length = system.leader(), ("--seconds", self.args.seconds)
        system.load(self.program, leader, MANY, "--seconds", self.args.warm)
        for clients in self.args.clients:
            before = system.busy()
            figures = system.load(self.program, leader, clients, *length)
            self.sheet.add("load", **about, **figures, nodes_processor_seconds=round(system.busy() - before, 2))

    def death(self, system):
        """What clients see while the leader is killed. It is started again afterwards."""
        leader = system.leader()
        words = system.load_words(self.program, leader, FEW, "--seconds", DEATH)
        with subprocess.Popen(words, stdout=subprocess.PIPE, text=True) as load:
            time.sleep(BEFORE)
            system.kill(leader)
            figures = json.loads(load.stdout.read())
        system.start(leader)
        time.sleep(REST)
        return figures

    def long_run(self, variant):
        """How the memory and the files of one system grow."""
        leg = self.args.growth // LEGS
        with tempfile.TemporaryDirectory(dir=self.args.dir) as folder, variant.make(folder) as system:
            system.load(self.program, 1, FEW, "--pairs", 1)
            leader = system.leader()
            for done in range(LEGS):
                self.look(variant, system, done * leg)
                system.load(self.program, leader, MANY, "--pairs", leg)
            self.look(variant, system, LEGS * leg)

    def look(self, variant, system, pairs):
        held = {"memory_bytes": system.memory(), "file_bytes": system.bytes()}
        self.sheet.add("growth", system=variant.name, disk="plain", clients=MANY, pairs=pairs, **held)

    def run(self, variants, disks):
        """All rounds, of which each begins with another system, and then the long runs."""
        for number in range(self.args.rounds):
            for disk in disks:
                first = number % len(variants)
                for variant in variants[first:] + variants[:first]:
                    tried(self.round_of, variant, disk, number + 1)
        for variant in variants if self.args.growth else []:
            if variant.is_long:
                tried(self.long_run, variant)


def tried(measure, variant, *more):
    """Measures a system. Where that fails, a line says so, and the run goes on with the next one."""
    try:
        measure(variant, *more)
    except (OSError, ValueError, StopIteration, subprocess.CalledProcessError) as error:
        print(f"{variant.name}, {more}: not measured: {error!r}", flush=True)


def programs(args):
    """The programs of locks by the names that the picture gives them."""
    args.program = built(args.program)
    return {"locks": str(args.program), **({"locks before": str(args.before)} if args.before else {})}


def cluster_of(program, alpha, options=(), is_sealed=False):
    """What makes a cluster of locks."""
    of = {"program": program, "alpha": alpha, "options": options, "is_sealed": is_sealed}
    return lambda folder, before=(): Locks(folder, before, **of)


def options_of(args, name):
    """The options of the clusters of a program, each with what the picture says of them. An older program is given
    none."""
    for ticks in args.ticks if name == "locks" else ["datagrams"]:
        word, options = ("", ()) if ticks == "datagrams" else (f", {ticks}", ("--ticks", ticks))
        if not args.only_bundles or name != "locks":
            yield word, options
        if args.bundle and name == "locks":
            yield f"{word}, bundles", (*options, "--bundle")
        if args.sums and name == "locks":
            yield f"{word}, sums", (*options, "--sums")


def clusters_of(args):
    """The clusters of locks, and with keys too: those tick by the clock, whatever the option says, so once each."""
    for alpha, (name, program) in ((alpha, it) for alpha in args.alpha for it in programs(args).items()):
        for index, (word, options) in enumerate(options_of(args, name)):
            is_long = alpha == max(args.alpha) and index == 0
            yield Variant(f"{name}, alpha {alpha}{word}", cluster_of(program, alpha, options), is_long)
            if args.sealed and ("--ticks" not in options or "datagrams" not in args.ticks):
                sealed = cluster_of(program, alpha, options, is_sealed=True)
                yield Variant(f"{name}, alpha {alpha}{word}, sealed", sealed, is_long=False)


def variants_of(args):
    """All that is compared. Only the greatest alpha has a long run. What is not installed is left out, with a line."""
    for word in args.systems:
        kind = PEERS.get(word)
        if kind and kind.missing():
            print(f"{word} is left out: {kind.missing()}", flush=True)
        elif kind:
            yield Variant(kind.name, kind)
        else:
            yield from clusters_of(args)


def disks_of(args):
    """The disks that can be had."""
    if shutil.which("strace") or "slow" not in args.disks:
        return args.disks
    print(
        "the slow disk is left out: strace, which delays syncs, is not on the path; Debian: apt-get install strace",
        flush=True,
    )
    return [it for it in args.disks if it == "plain"]


def printed(*words):
    """What a command prints."""
    return subprocess.run(words, stdin=subprocess.DEVNULL, capture_output=True, text=True).stdout


def sync_ms(args, disk):
    """The milliseconds of a sync at the median."""
    with tempfile.TemporaryDirectory(dir=args.dir) as folder:
        return float(printed(*DISKS[disk], sys.executable, "-c", SYNC, os.path.join(folder, "file")))


def processors():
    """How many processors there are, and of what model."""
    found = re.search(r"model name\s*: (.*)", pathlib.Path("/proc/cpuinfo").read_text())
    return f"{len(os.sched_getaffinity(0))} processors ({found[1] if found else platform.machine()})"


def builds(args):
    """Whether each program of locks is a proved one."""
    if "locks" not in args.systems:
        return []
    return [f"{name}: {'proved' if is_proved(it) else 'quick'} build" for name, it in programs(args).items()]


def versions(args):
    """The versions of what is compared."""
    peers = (PEERS[it] for it in args.systems if it in PEERS)
    return builds(args) + [f"{it.name} {it.version()}" for it in peers if not it.missing()]


def notes(args, disks):
    """Lines on the machine and the programs, for the picture."""
    load = os.getloadavg()[0]
    yield f"{datetime.date.today()}, {processors()}, Linux {platform.release()}, load before the run {load:.1f}."
    yield "; ".join(versions(args)) + ". All nodes and clients on this machine."
    syncs = (f"{sync_ms(args, disk):.2f} ms ({plots.DISKS[disk]})" for disk in disks)
    where = "on ext4 with a journal, on a loop device in memory, " if args.journal else ""
    yield f"A sync takes {where}{', '.join(syncs)} at the median."


def minutes(args, variants, disks):
    """About how long the run takes. A long run does a thousand pairs a second."""
    load = len(args.clients) * (args.seconds + 0.3) + args.warm + 4
    rounds = args.rounds * len(variants) * (len(disks) * load + args.deaths * (DEATH + REST + 1))
    return (rounds + args.growth / 1000 * sum(it.is_long for it in variants)) / 60


def numbers(word):
    """Whole numbers that are separated by commas."""
    return [int(it) for it in word.split(",")]


def words_of(known):
    """A reader of words that are separated by commas, each of them known."""

    def read(text):
        unknown = [it for it in text.split(",") if it not in known]
        if unknown:
            raise argparse.ArgumentTypeError(f"unknown: {', '.join(unknown)}")
        return text.split(",")

    return read


def add_cluster_options(made):
    """Adds the options that say which clusters of locks are measured, beside `--alpha`, and where."""
    made.add_argument("--sealed", action="store_true", help="the clusters of locks with keys too, beside those without")
    made.add_argument("--bundle", action="store_true", help="the clusters of locks with bundles too")
    made.add_argument("--sums", action="store_true", help="the clusters of locks with sums too")
    made.add_argument(
        "--ticks",
        type=words_of(TICKS),
        default=TICKS[:1],
        help="of the clusters of locks, as datagrams,clock; datagrams if not given",
    )
    made.add_argument("--only-bundles", action="store_true", help="with --bundle none without bundles")
    made.add_argument("--program", type=a_program, help="the program of locks; what ./locks runs if not given")
    made.add_argument("--before", type=a_program, help="an older program of locks, beside the other")
    made.add_argument("--dir", help="where the folders of the nodes are made")


def arguments():
    made = parser(__doc__)
    made.add_argument(
        "--systems",
        type=words_of(["locks", *PEERS]),
        default=["locks", *PEERS],
        help="locks,etcd,zookeeper,redis if not given",
    )
    made.add_argument("--disks", type=words_of(DISKS), default=list(DISKS), help="plain,slow if not given")
    made.add_argument("--clients", type=numbers, default=[1, 2, 4, 8, 16, 32, 64], help="1,2,4,8,16,32,64 if not given")
    made.add_argument("--alpha", type=numbers, default=[8], help="of the clusters of locks, as 2,8,16; 8 if not given")
    add_cluster_options(made)
    made.add_argument("--journal", action="store_true", help="the folders are on ext4 in memory, with a journal: root")
    made.add_argument("--rounds", type=int, default=3, help="3 if not given")
    made.add_argument("--seconds", type=float, default=3, help="how long each load lasts, 3 if not given")
    made.add_argument("--warm", type=float, default=10, help="how long each system is loaded before, 10 if not given")
    made.add_argument("--deaths", type=int, default=2, help="deaths of a leader in each round, 2 if not given")
    made.add_argument(
        "--growth",
        type=int,
        default=200_000,
        help="pairs of the long run, 200000 if not given; 0 for none",
    )
    made.add_argument(
        "--out",
        type=pathlib.Path,
        default=plots.PICTURES,
        help="where the two files go, docs/pictures if not given",
    )
    return made.parse_args()


def compare(args):
    """The whole comparison, in the folder of the arguments."""
    variants, disks = list(variants_of(args)), disks_of(args)
    if not variants or not disks:
        sys.exit("compare.py: there is nothing to compare")
    print(f"this takes about {minutes(args, variants, disks):.0f} minutes", flush=True)
    args.out.mkdir(parents=True, exist_ok=True)
    new = args.out / "compare.csv.new"  # so that a run that ends early leaves the older figures
    with open(new, "w", newline="", encoding="utf-8") as file:
        sheet = Sheet(file)
        for note in notes(args, disks):
            sheet.add("note", note=note)
        Comparison(args, sheet).run(variants, disks)
    new.replace(args.out / "compare.csv")
    plots.draw(args.out)
    print(*plots.table(args.out), sep="\n", flush=True)


def main():
    args = arguments()
    need("cargo")
    if args.journal and journal.missing():
        sys.exit(f"compare.py: --journal: {journal.missing()}")
    with journal.journaled() if args.journal else contextlib.nullcontext(args.dir) as args.dir:
        compare(args)


if __name__ == "__main__":
    main()
