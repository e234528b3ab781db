#!/usr/bin/env python3
"""Measures how long a lock stands free while clients wait for it, how long they wait, and what that costs.

Of locks, clients watch the lock (watches) or ask at intervals (polling); etcd and ZooKeeper have their own recipes.

Three nodes run as processes on loopback, and each client is a process. In most rows all clients of a lock want it again
and again for some seconds, and each keeps it for a while. Where one waits behind a hold it does so once, at each of ten
locks. All rows run at one system after the other, round by round. A line tells, and so does a table of all rounds,

- how long the lock was free, from the answer to a release until the next client has its grant: the median and the 99th
  percentile, in milliseconds
- the longest wait of a client that watches, in turns: a turn is the holds of all the others together
- of locks, the datagrams of all clients for each grant: requests, replies and notices that a client's turn has come;
  then those that keep places in the queue, watches and the notices that answer them
- where the leader is killed, how long nobody was granted the lock, and how long nobody was answered

Etcd's lock service waits in the member that is asked. The peers are Debian's packages etcd-server and zookeeper; what
is not installed is left out with a line."""
import argparse
import collections
import dataclasses
import functools
import itertools
import json
import math
import multiprocessing
import os
import pathlib
import signal
import statistics
import sys
import tempfile
import threading
import time
from collections.abc import Callable

import systems
from cluster import built
from recipes import EtcdClient, LocksClient, ZooKeeperClient

APART = 0.02  # seconds between the starts of two clients
BEHIND = 0.5  # seconds after which a client begins to wait behind a hold
READY = 2.0  # seconds that all clients have to connect
DYING = 0.3  # seconds after which the second wait of a client ends that is to be killed
SPARE = 120.0  # seconds that a row may take longer than it should
ASKER = 200  # the number of the client that asks all the time while a leader dies
ASKS = 0.02  # seconds between two of its questions
ALPHA = 16
FORK = multiprocessing.get_context("fork")
clock = time.monotonic  # one for all processes


@dataclasses.dataclass(frozen=True)
class Row:
    """What is measured: so many clients of each of so many locks.

    hold: seconds that each keeps its lock. seconds: how long they want it; 0 if a client waits once, behind a hold.
    old: how many of them ask at intervals. killed: how many are killed as they wait. loss: which part of its datagrams
    a client loses. has_death: whether the leader is killed meanwhile.
    """

    what: str
    clients: int
    hold: float
    seconds: float = 10.0
    locks: int = 1
    old: int = 0
    killed: int = 0
    loss: float = 0.0
    has_death: bool = False

    def turn(self):
        """The seconds of a turn."""
        return (self.clients - 1) * self.hold


ROWS = {
    "behind": Row("1 waiter behind 5 s", 2, 5.0, 0, locks=10),
    "long": Row("1 waiter behind 45 s", 2, 45.0, 0, locks=10),
    "again": Row("1 waiter, a holder of 50 ms that reacquires", 2, 0.05, 6.0, locks=4),
    "short": Row("20 clients, 50 ms", 20, 0.05),
    "second": Row("20 clients, 1 s", 20, 1.0, 30.0),
    "killed": Row("20 clients, 50 ms, 5 killed", 20, 0.05, killed=5),
    "loss": Row("20 clients, 50 ms, 10 % lost", 20, 0.05, loss=0.1),
    "old": Row("20 clients, 50 ms, 10 polling", 20, 0.05, old=10),
    "death": Row("20 clients, 50 ms, leader killed", 20, 0.05, has_death=True),
}
PEERS = {"etcd": (systems.Etcd, EtcdClient), "zookeeper": (systems.ZooKeeper, ZooKeeperClient)}
ONCE = ("long",)  # rows of the first round alone


@dataclasses.dataclass(frozen=True)
class Way:
    """A system, and what makes a client of it: the ports of its nodes, its number, the row, and whether it is old."""

    name: str
    system: Callable
    client: Callable
    is_locks: bool = False


@dataclasses.dataclass(frozen=True)
class Plan:
    """What one client does."""

    number: int
    lock: str
    start: float  # of the clock, as `until`: a turn that ends by then is not the last
    hold: float
    until: float = 0.0
    is_old: bool = False
    dies: bool = False


@dataclasses.dataclass
class Result:
    """What came of a row: of the locks how long they were free, in seconds, and of those who watch how many turns they
    waited. gaps: seconds without a grant, and without an answer, while a leader died. stuck: clients that did not end.
    """

    free: list = dataclasses.field(default_factory=list)
    waits: list = dataclasses.field(default_factory=list)
    counts: collections.Counter = dataclasses.field(default_factory=collections.Counter)
    grants: int = 0
    gaps: list = dataclasses.field(default_factory=list)
    stuck: int = 0

    def add(self, other):
        """Adds what came of the row in another round."""
        for it in dataclasses.fields(self):
            setattr(self, it.name, getattr(self, it.name) + getattr(other, it.name))

    def each(self, *kinds):
        """The datagrams of these kinds for each grant."""
        return sum(self.counts[it] for it in kinds) / self.grants

    def times(self):
        """How long the lock was free, at the median and the 99th percentile, and the longest wait, in words."""
        if not self.free:
            return "no handover"
        middle, most = statistics.median(self.free), percentile(self.free, 0.99)
        return f"{middle * 1e3:,.1f}, {most * 1e3:,.1f} ms; {max(self.waits):.2f}"

    def datagrams(self):
        """The datagrams of a grant, in words; none of a service over TCP."""
        if not self.counts or not self.grants:
            return ""
        return f"; {self.each('requests', 'replies', 'told'):.1f} + {self.each('watches', 'kept'):.1f}"

    def more(self):
        """What else there is to say."""
        gaps = "".join(f"; no grant {served:.1f} s, no answer {answered:.1f}" for served, answered in self.gaps)
        return gaps + (f"; {self.stuck} clients stuck" if self.stuck else "")

    def text(self):
        """All of it."""
        return self.times() + self.datagrams() + self.more()


def percentile(values, share):
    """The value that so large a share of the values does not exceed."""
    return sorted(values)[math.ceil(share * len(values)) - 1]


def longest_gap(times):
    """The longest time between two of these."""
    rising = sorted(times)
    return max((later - it for it, later in itertools.pairwise(rising)), default=math.inf)


def work(make, plan, path):
    """What the process of a client does. It writes a line for each turn."""
    client = make()
    client.touch()  # connects
    client.counts.clear()
    time.sleep(max(0.0, plan.start - clock()))
    with open(path, "w", buffering=1, encoding="ascii") as file:
        for turn in range(sys.maxsize):
            asked, death = clock(), threading.Timer(DYING, os.kill, (os.getpid(), signal.SIGKILL))
            if plan.dies and turn == 1:
                death.start()
            client.acquire(plan.lock)
            death.cancel()
            granted = clock()
            client.rest(plan.hold)
            client.release()
            print(json.dumps([plan.lock, plan.is_old, asked, granted, clock(), client.counts]), file=file)
            if clock() >= plan.until:
                return


def ask_on(make, path):
    """What the process of the asker does: it asks all the time, and writes a line for each answer."""
    client = make()
    with open(path, "w", buffering=1, encoding="ascii") as file:
        while True:
            client.touch()
            print(clock(), file=file)
            time.sleep(ASKS)


def lines(path):
    """What a process has written, but for a line that was cut."""
    return [json.loads(line) for line in path.read_text().splitlines(True) if line.endswith("\n")]


def in_turn(system):
    """The ports of the nodes, that of the leader first."""
    leader = system.leader()
    return [system.ports[leader], *(port for node, port in system.ports.items() if node != leader)]


class Measurement:
    """A row at a system that runs, in a folder of its own."""

    def __init__(self, way, row, system, folder):
        self.way, self.row, self.system, self.folder = way, row, system, pathlib.Path(folder)
        self.ports, self.begin, self.files = in_turn(system), clock() + READY, []

    def plans(self):
        """What each client does. In a lock's queue the old ones come first, and those that die last."""
        row = self.row
        for lock in range(row.locks):
            for index in range(row.clients):
                number = 1 + lock * row.clients + index
                plan = Plan(number, f"{self.folder.name}-{lock}", self.begin + number * APART, row.hold)
                if row.seconds:
                    until, dies = self.begin + row.seconds, index >= row.clients - row.killed
                    yield dataclasses.replace(plan, until=until, is_old=index < row.old, dies=dies)
                else:
                    yield dataclasses.replace(plan, start=plan.start + index * BEHIND, hold=(1 - index) * row.hold)

    def process(self, target, number, is_old, *words):
        """Starts the process of a client."""
        make = functools.partial(self.way.client, self.ports, number, self.row, is_old)
        self.files.append(self.folder / str(number))
        process = FORK.Process(target=target, args=(make, *words, self.files[-1]))
        process.start()
        return process

    def run(self):
        """The result."""
        processes = [self.process(work, it.number, it.is_old, it) for it in self.plans()]
        gap = self.death() if self.row.has_death else None
        end = self.begin + self.row.seconds + 2 * self.row.turn() + SPARE
        stuck = [it for it in processes if not has_ended(it, end)]
        for it in stuck:
            it.kill()
        result = self.result()
        result.stuck = len(stuck)
        if gap:
            result.gaps = [(longest_gap(it[3] for it in self.turns()), gap)]
        return result

    def death(self):
        """Kills the leader, and starts it again. How long nobody was answered."""
        asker = self.process(ask_on, ASKER, False)
        time.sleep(max(0.0, self.begin + self.row.seconds / 2 - clock()))
        leader = self.system.leader()
        self.system.kill(leader)
        time.sleep(self.row.seconds / 2)
        self.system.start(leader)
        asker.kill()
        return longest_gap(lines(self.files.pop()))

    def turns(self):
        """All turns, as the clients wrote them."""
        return [turn for path in self.files if path.exists() for turn in lines(path)]

    def result(self):
        """What the clients wrote, summed up."""
        result, by_lock = Result(), collections.defaultdict(list)
        for path in self.files:
            turns = lines(path) if path.exists() else []
            for lock, is_old, asked, granted, released, counts in turns:
                by_lock[lock].append((granted, released))
                if not is_old:
                    result.waits.append((granted - asked) / self.row.turn())
            result.counts.update(counts if turns else {})
        for holds in by_lock.values():
            result.free += [later[0] - it[1] for it, later in itertools.pairwise(sorted(holds))]
            result.grants += len(holds)
        return result


def has_ended(process, end):
    """Whether a process has ended by then."""
    process.join(max(0.0, end - clock()))
    return not process.is_alive()


def cluster_of(program):
    """What makes a cluster of locks."""
    return functools.partial(systems.Locks, program=program, alpha=ALPHA, options=("--ticks", "clock"))


def waits_of(notices):
    """What makes a client of locks; it asks at intervals if it is old, or without notices."""

    def make(ports, number, row, is_old):
        patience = 0.1 if number == ASKER else 60.0
        return LocksClient(ports, number, notices=notices and not is_old, loss=row.loss, patience=patience)

    return make


def ways(args):
    """The systems that are measured. What is not installed is left out, with a line."""
    for name in args.systems:
        if name in PEERS:
            kind, client = PEERS[name]
            if kind.missing():
                print(f"{name} is left out: {kind.missing()}", flush=True)
            else:
                yield Way(name, kind, lambda ports, number, row, is_old, client=client: client(ports, number))
        else:
            program = args.before if name == "before" else args.program
            yield Way(name, cluster_of(program), waits_of(name == "watches"), True)


def rows_of(way, args, number):
    """The rows of a way in a round, by name."""
    for name in args.rows:
        row = ROWS[name]
        if row.loss and not way.is_locks or row.old and way.name != "watches" or name in ONCE and number > 1:
            continue
        yield name, dataclasses.replace(row, seconds=args.seconds) if row.seconds and args.seconds else row


def measure_round(way, args, number, results):
    """All rows of a round at one system."""
    with tempfile.TemporaryDirectory(dir=args.dir) as folder, way.system(folder) as system:
        for name, row in rows_of(way, args, number):
            room = pathlib.Path(folder) / f"{name}-{number}"
            room.mkdir()
            result = Measurement(way, row, system, room).run()
            results[name, way].add(result)
            told = f"{result.text()}; {result.grants} grants, load {os.getloadavg()[0]:.1f}"
            print(f"{row.what}, {way.name}: {told}", flush=True)


def print_table(rows, ways, results):
    """All rounds as a table."""
    print(f"\n| clients, holds | {' | '.join(it.name for it in ways)} |\n|---|{'---|' * len(ways)}")
    for name in rows:
        cells = [results[name, it].text() if (name, it) in results else "" for it in ways]
        print(f"| {ROWS[name].what} | {' | '.join(cells)} |")


def words_of(known):
    """A reader of words that are separated by commas, each of them known."""

    def read(text):
        unknown = [it for it in text.split(",") if it not in known]
        if unknown:
            raise argparse.ArgumentTypeError(f"unknown: {', '.join(unknown)}")
        return text.split(",")

    return read


def arguments():
    """The command line."""
    parser = argparse.ArgumentParser(description=__doc__, formatter_class=argparse.RawDescriptionHelpFormatter)
    add = parser.add_argument
    systems = ["watches", "polling", *PEERS]
    known, usual = words_of([*systems, "before"]), f"{','.join(systems)} if not given"
    add("--systems", type=known, default=systems, help=usual)
    add("--rows", type=words_of(ROWS), default=list(ROWS), help=f"some of {','.join(ROWS)}; all if not given")
    add("--rounds", type=int, default=2, help="2 if not given")
    add("--seconds", type=float, help="how long clients want a lock again and again, in place of what a row says")
    add("--before", help="an older program of locks, for the system `before`")
    add("--dir", help="where the folders of the nodes are made")
    add("--program", help="the built program; the wrapper builds it if none is given")
    args = parser.parse_args()
    if "before" in args.systems and not args.before:
        parser.error("--systems before needs --before")
    return args


def main():
    args = arguments()
    if set(args.systems) & {"watches", "polling"}:
        args.program = built(args.program)
    measured, results = list(ways(args)), collections.defaultdict(Result)
    for number in range(1, args.rounds + 1):
        first = number % max(1, len(measured))
        for way in measured[first:] + measured[:first]:
            measure_round(way, args, number, results)
    print_table(args.rows, measured, results)


if __name__ == "__main__":
    main()
