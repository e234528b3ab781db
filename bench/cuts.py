#!/usr/bin/env python3
"""Cuts and joins each way between nodes at random while clients hold locks, and measures how long nobody is answered.

Usage: bench/cuts.py PROGRAM [--seconds N] [--nodes N] [--joined S] [--cut S] [--alpha N] [--seed N] [--loopback]

Three nodes, or five, with keys, on the machines of bench/machines.py. A way is one direction between two nodes. Each
is joined and cut in turn, for times that are drawn: exponential, with the means --joined and --cut in seconds. All the
while four clients acquire two locks, check that they hold them, and release them, each time through a node that is
drawn; and one client asks all nodes ten times a second.

Some majority hears each other both ways while none of the ways between its nodes is cut. The last lines say how long
that client was without an answer at most: while one and the same majority heard each other; while at each moment some
majority did; and in all. It fails where a fence was given twice, a lock had two holders or a hold was not valid, and
where the first of these times is above 3 s; then the folder with the logs is kept. A slow disk or a busy machine makes
it longer: beside it the load, the longest sync of a file, how late a thread was woken that was due, how many threads
ran or waited to, and the part of the processors that was stolen are printed. TMPDIR=/dev/shm keeps the folders in
memory. The last line is `N passed, M failed`; the status is 0 where none failed.
"""

import argparse
import bisect
import datetime
import heapq
import itertools
import os
import pathlib
import random
import re
import shutil
import sys
import tempfile
import threading
import time

from machines import ASKER, CLUSTER, PORT, Cluster, Score, Work, beside, faults, go_on, machines

LIMIT = 3.0  # seconds without an answer while one majority hears each other both ways
REPORT = 60.0  # seconds between two lines about the run
QUIET = 5.0  # seconds at the start that are not measured: the first election
EVERY = 0.1  # seconds between two syncs of a file


class Probing:
    """The client that asks all nodes all the time, and when it was answered."""

    def __init__(self, cluster):
        endpoints = [(cluster.world.address(node), PORT) for node in cluster.nodes]
        plan = {"cluster": CLUSTER, "client": ASKER, "endpoints": endpoints, "key": f"{cluster.folder}/client{ASKER}"}
        self.answers = []
        self.process = beside(cluster.world, "harness.prober", plan)
        self.reader = threading.Thread(target=self.read, daemon=True)
        self.reader.start()

    def read(self):
        for line in self.process.stdout:
            self.answers.append(float(line))

    def end(self):
        self.process.stdin.close()
        self.process.wait()
        self.reader.join()


class Machine:
    """Syncs a small file beside the folders of the nodes all the time, and keeps how long that took, how late it was
    woken, and how busy the machine was."""

    def __init__(self, folder):
        self.path, self.looks, self.is_over = f"{folder}/synced", [], threading.Event()
        self.thread = threading.Thread(target=self.run, daemon=True)
        self.thread.start()

    def run(self):
        with open(self.path, "wb", buffering=0) as file:
            due = time.monotonic() + EVERY
            while not self.is_over.wait(max(0.0, due - time.monotonic())):
                begin = time.monotonic()
                file.write(b"x")
                os.fdatasync(file.fileno())
                end = time.monotonic()
                self.looks.append((begin, end - begin, begin - due, *processors()))
                due = end + EVERY

    def told(self, begin, end):
        """How busy the machine was in that time, in words."""
        looks = [it for it in list(self.looks) if it[0] < end and it[0] + it[1] > begin]
        if not looks:
            return "nothing was measured"
        _, took, late, running, *_ = map(max, zip(*looks))
        (*_, stolen, passed), (*_, stolen_then, passed_then) = looks[0], looks[-1]
        stolen = (stolen_then - stolen) / max(1, passed_then - passed)
        return (f"longest sync of a file {took:.2f} s; a thread that was due was woken {late:.2f} s late at most; "
                f"at most {running} threads ran or waited to; {stolen:.0%} of the processors stolen")

    def end(self):
        self.is_over.set()
        self.thread.join()


def processors():
    """How many threads run or wait to, the ticks of all processors that were stolen since the start, and all ticks."""
    text = pathlib.Path("/proc/stat").read_text()
    ticks = [int(it) for it in text.split("\n", 1)[0].split()[1:9]]
    return int(re.search(r"procs_running (\d+)", text)[1]), ticks[7], sum(ticks)


class Ways:
    """The ways between nodes, which of them are cut, and since when; and the silences that were reported."""

    def __init__(self, world, nodes):
        self.world, self.nodes, self.cut, self.reported = world, nodes, frozenset(), []
        self.changes = [(time.monotonic(), self.cut, os.getloadavg()[0])]

    def all(self):
        return list(itertools.permutations(self.nodes, 2))

    def note(self, cut):
        self.cut = cut
        self.changes.append((time.monotonic(), cut, os.getloadavg()[0]))

    def change(self, way):
        """Cuts a way, or joins it. It counts as cut from before the one until after the other."""
        if way in self.cut:
            self.world.unblock(way)
            self.note(self.cut - {way})
        else:
            self.note(self.cut | {way})
            self.world.block(way)

    def join_all(self):
        for way in sorted(self.cut):
            self.change(way)

    def majorities(self):
        """The smallest sets of nodes that are more than half of them."""
        return list(itertools.combinations(self.nodes, len(self.nodes) // 2 + 1))

    def spans(self, majorities, end):
        """From when until when one of these majorities heard each other both ways, again and again."""
        found = []
        for (begin, cut, _), (until, *_) in itertools.pairwise([*self.changes, (end,)]):
            if any(cut.isdisjoint(itertools.permutations(it, 2)) for it in majorities):
                begin = found.pop()[0] if found and found[-1][1] == begin else begin
                found.append((begin, until))
        return found

    def tell(self, begin, end):
        """Prints what was cut in that time, and how busy the machine was, a line for each change."""
        first = bisect.bisect_right([it[0] for it in self.changes], begin) - 1
        for moment, cut, load in self.changes[first:]:
            if moment < end:
                ways = ", ".join(f"{sender} to {receiver}" for sender, receiver in sorted(cut)) or "nothing"
                print(f"  from {clock(moment)}: cut {ways}; load {load:.1f}", flush=True)


def clock(moment):
    """A moment of the monotonic clock as the events of a node write it."""
    wall = datetime.datetime.fromtimestamp(time.time() - time.monotonic() + moment, datetime.timezone.utc)
    return wall.strftime("%H:%M:%S.%f")[:-3]


def silence(spans, answers):
    """The longest part of one of the spans without an answer, as its begin and end."""
    longest = (0.0, 0.0)
    for begin, end in spans:
        first, last = bisect.bisect_left(answers, begin), bisect.bisect_right(answers, end)
        gaps = itertools.pairwise([begin, *answers[first:last], end])
        longest = max(longest, *gaps, key=lambda gap: gap[1] - gap[0])
    return longest


class Silences:
    """The longest times without an answer, until now."""

    def __init__(self, ways, answers, begin):
        end, answers = time.monotonic(), list(answers)
        cut = lambda spans: [(max(it, begin), until) for it, until in spans if until > begin]
        spans = lambda majorities: cut(ways.spans(majorities, end))
        some = spans(ways.majorities())
        self.heard = sum(until - it for it, until in some)
        self.one = max((silence(spans([it]), answers) for it in ways.majorities()), key=lambda gap: gap[1] - gap[0])
        self.some, self.whole = silence(some, answers), silence([(begin, end)], answers)

    def tell_long(self, ways, machine):
        """Tells what was cut while a majority had no answer for the longest time, if that is too long."""
        begin, end = self.one
        if end - begin > LIMIT and self.one not in ways.reported:
            ways.reported.append(self.one)
            print(f"no answer from {clock(begin)} to {clock(end)}, a majority hearing each other", flush=True)
            print(f"  {machine.told(begin, end)}", flush=True)
            ways.tell(begin, end)

    def text(self):
        one, some, whole = (end - begin for begin, end in (self.one, self.some, self.whole))
        return f"{one:.1f} s while one majority heard each other, {some:.1f} s while some did, {whole:.1f} s in all"


def draw(ways, drawn, options, tell):
    """Cuts and joins ways until the time is over. Calls `tell` once a minute."""
    mean = lambda way: options.cut if way in ways.cut else options.joined
    begin = time.monotonic()
    due = [(begin + drawn.expovariate(1 / options.joined), way) for way in ways.all()]
    due += [(begin + minute * REPORT, None) for minute in range(1, int(options.seconds / REPORT) + 1)]
    heapq.heapify(due)
    while due[0][0] < begin + options.seconds:
        moment, way = heapq.heappop(due)
        time.sleep(max(0.0, moment - time.monotonic()))
        if way is None:
            tell()
            continue
        ways.change(way)
        heapq.heappush(due, (time.monotonic() + drawn.expovariate(1 / mean(way)), way))
    time.sleep(max(0.0, begin + options.seconds - time.monotonic()))


def tell_story(cluster, world, score, options):
    """All of it, one after another."""
    for node in cluster.nodes:
        cluster.start(node, "--events")
    work, probing, ways = Work(cluster, checks=True), Probing(cluster), Ways(world, cluster.nodes)
    go_on(work, score, "at first")
    time.sleep(QUIET)
    begin, machine = time.monotonic(), Machine(cluster.folder)
    silences = lambda: Silences(ways, probing.answers, begin)
    load = lambda: f"load {os.getloadavg()[0]:.1f}"
    counts = lambda: f"{len(ways.changes) - 1} changes, {len(probing.answers)} answers, {len(work.holds)} holds"

    def minute():
        found = silences()
        print(f"{time.monotonic() - begin:.0f} s: {counts()}; {found.text()}; {load()}", flush=True)
        found.tell_long(ways, machine)

    draw(ways, random.Random(options.seed), options, minute)
    found = silences()
    ways.join_all()
    go_on(work, score, "once all ways are joined")
    probing.end()
    work.end()
    terms = sum(cluster.log(node).count(" begun") for node in cluster.nodes)
    print(f"{options.seconds:.0f} s, of which some majority heard each other for {found.heard:.0f} s: {counts()}, "
          f"{terms} terms; {load()}")
    print(f"longest without an answer: {found.text()}")
    print(f"the machine: {machine.told(begin, time.monotonic())}")
    wrong = faults(work.holds)
    score.check("no fence was given twice, no lock had two holders, each hold was valid", not wrong, wrong[:3] or "")
    took = found.one[1] - found.one[0]
    score.check(f"an answer within {LIMIT:.0f} s while a majority hears each other", took <= LIMIT, f"{took:.1f} s")
    found.tell_long(ways, machine)
    machine.end()


def main():
    parser = argparse.ArgumentParser(description=__doc__, formatter_class=argparse.RawDescriptionHelpFormatter)
    parser.add_argument("program", help="the built program")
    parser.add_argument("--seconds", type=float, default=3600, help="how long, an hour by default")
    parser.add_argument("--nodes", type=int, choices=(3, 5), default=3, help="how many, 3 by default")
    parser.add_argument("--joined", type=float, default=12.0, help="how long a way is joined, 12 s by default")
    parser.add_argument("--cut", type=float, default=6.0, help="how long a way is cut, 6 s by default")
    parser.add_argument("--alpha", type=int, default=8, help="the genesis' alpha, 8 by default")
    parser.add_argument("--seed", type=int, default=1, help="the number that the cuts are drawn from, 1 by default")
    parser.add_argument("--loopback", action="store_true", help="use addresses of 127/8 and no namespaces")
    options = parser.parse_args()
    nodes = tuple(range(1, options.nodes + 1))
    world, score = machines(options.loopback, nodes), Score()
    folder = tempfile.mkdtemp(prefix="cuts-")
    cluster = Cluster(os.path.abspath(options.program), world, folder, nodes=nodes, alpha=options.alpha)
    print(f"{options.nodes} machines are {world.kind}; logs are in {folder}", flush=True)
    try:
        tell_story(cluster, world, score, options)
    finally:
        cluster.end()
        world.end()
        if not score.failed:
            shutil.rmtree(folder)
    print(f"{score.passed} passed, {score.failed} failed")
    return score.failed > 0


if __name__ == "__main__":
    sys.exit(main())
