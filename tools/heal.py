#!/usr/bin/env python3
"""Lets clusters heal after random schedules, and looks for states from which no request is answered any more.

`locks fuzz --groups --script` draws schedules of three nodes: datagrams that are lost, late and repeated, stops, failed
and cut writes, groups, joins and leaves. After each of them every node is restarted, each member that never started is
started, also one that joins meanwhile, and nothing is lost any more. A round is a tick of each node, each 31st a nudge,
and then all deliveries, in order, until nothing is left; in each round a client asks another node. A new request has to
be answered within 60 rounds. Then a minority of the members stops, and the request of another client has to be answered
within 60 rounds too.

This is a test and no theorem. The last line is `N passed, M failed`, of schedules, and the status is 1 if one failed.
The line in front of it has the slowest rounds."""
import concurrent.futures
import os
import re
import subprocess

from scripting import with_program

ROUNDS = 60
TICKS_A_NUDGE = 31  # as `locks node` has it
EVENTS = (40, 80, 160, 320)  # of a schedule, in turn
CLIENTS = (201, 202)  # no schedule draws them
AHEAD = 64  # numbers of datagrams that are tried before it is known whether they are sent
LATER = 1 << 40  # a call that no run comes to
SENT = re.compile(r"(?m)^sent (\d+) \w+ (\w+) \w+$")
WRONG = re.compile(r"(?m)^(?:fault \d+ (?:9|11) |refused (?!1[679] )).*$")


class Unhealed(Exception):
    """Why a cluster did not heal."""


def minority(members, sets):
    """Those of the members, the first ones first, without whom each set still has a majority."""
    without = set()
    for node in members:
        if all(2 * len(it - without - {node}) > len(it) for it in sets):
            without.add(node)
    return without


class Cluster:
    """A script of world mode that grows, and the nodes of its world."""

    def __init__(self, program, lines):
        self.program, self.lines, self.next, self.up = program, lines, 1, set()
        self.printed = self.run([])

    def run(self, more, *words):
        """What the script prints with these lines more."""
        text = "".join(f"{line}\n" for line in (*self.lines, *more))
        piped = {"input": text, "capture_output": True, "text": True, "timeout": 600}
        printed = subprocess.run([self.program, "sim", *words], **piped).stdout
        if wrong := WRONG.search(printed):
            raise Unhealed(wrong[0])
        return printed

    def left(self):
        """Each node that was started: whether it is up, how much it has executed, and the sets of its next members."""
        for text in self.run([], "--state").split("\nnode ")[1:]:
            node, life = text.split()[:2]
            sets = [set(re.findall(r" (\d+):\d+", line)) for line in re.findall(r"(?m)^members.*$", text)]
            executed = re.search(r"(?m)^executed (\d+)$", text)
            yield node, life == "up", int(executed[1]) if executed else -1, sets

    def restart(self):
        """Every node that was started is up, and no trap is set."""
        left = [*self.left()]
        self.lines += [f"fail {node} {LATER}" for node, *_ in left]
        self.lines += [f"restart {node}" for node, is_up, *_ in left if not is_up]
        self.up = {node for node, *_ in left}

    def start_members(self):
        """Starts each member that never started, also one whose join was executed only now."""
        left = [*self.left()]
        members = {member for *_, sets in left for it in sets for member in it}
        new = sorted(members - {node for node, *_ in left})
        self.lines += [f"start {node}" for node in new]
        self.up |= {*new}

    def stop_minority(self, first):
        """As many members stop as leave a majority at each next position. Whether any did."""
        self.start_members()
        _, _, _, sets = max(self.left(), key=lambda it: it[2])
        members = sorted(set().union(*sets))
        stopped = minority(members[first % len(members):] + members[:first % len(members)], sets)
        self.lines += [f"stop {node} 0 0" for node in sorted(stopped)]
        self.up -= stopped
        return bool(stopped)

    def deliver(self):
        """Delivers what is sent to nodes that are up, until nothing is left.

        A run ends at a datagram that is not sent yet or goes elsewhere, so each run shows where the next goes on."""
        while True:
            tried = range(self.next, self.next + AHEAD)
            self.printed = self.run(f"deliver {number}" for number in tried)
            bound = {int(number): to for number, to in SENT.findall(self.printed)}
            came = [*self.coming(tried, bound)]
            self.lines += [f"deliver {number}" for number in came]
            self.next += len(came)
            if len(came) < AHEAD and self.next not in bound:
                return
            self.next += len(came) < AHEAD

    def coming(self, numbers, bound):
        """The first of these datagrams that go to nodes that are up."""
        for number in numbers:
            if bound.get(number, "")[:1] != "n" or bound[number][1:] not in self.up:
                return
            yield number

    def time_of(self, node, turn, each):
        """The line by which the time of a node comes in a round."""
        return f"{'tick' if turn % each else 'nudge'} {node}"

    def rounds(self, client, most=ROUNDS, each=TICKS_A_NUDGE):
        """In which round a new request of a client is answered, if each so many ticks a nudge comes."""
        for turn in range(1, most + 1):
            self.start_members()
            nodes = sorted(self.up)
            asked = f"client {nodes[turn % len(nodes)]} {client} 1 acquire healed"
            self.lines += [asked, *(self.time_of(node, turn, each) for node in nodes)]
            self.deliver()
            if re.search(rf"(?m)^answered \d+ {client} 1 ", self.printed):
                return turn
        raise Unhealed(f"the request of client {client} is not answered in {most} rounds")


def healed(program, number):
    """In how many rounds the cluster of a schedule heals, and without a minority, if there is one; or why not."""
    words = ["fuzz", "--start", str(number), "--events", str(EVENTS[number % len(EVENTS)]), "--groups", "--script"]
    script = subprocess.run([program, *words], capture_output=True, text=True, timeout=600, check=True).stdout
    cluster = Cluster(program, script.splitlines())
    try:
        cluster.restart()
        first = cluster.rounds(CLIENTS[0])
        return first, cluster.rounds(CLIENTS[1]) if cluster.stop_minority(number) else None
    except Unhealed as why:
        return f"schedule {number}: {why}"


def main():
    arguments = with_program(__doc__)
    arguments.add_argument("--schedules", type=int, default=60, help="how many, 60 by default")
    arguments.add_argument("--first", type=int, default=1, help="the number of the first one")
    given = arguments.parse_args()
    numbers = range(given.first, given.first + given.schedules)
    with concurrent.futures.ThreadPoolExecutor(len(os.sched_getaffinity(0))) as pool:
        found = [*pool.map(lambda number: healed(given.program, number), numbers)]
    wrong = [it for it in found if isinstance(it, str)]
    rounds = [it for it in found if not isinstance(it, str)]
    again = [second for _, second in rounds if second]
    print(*wrong, sep="\n", end="\n" * bool(wrong))
    slowest = max((first for first, _ in rounds), default=0), max(again, default=0)
    print(
        f"{len(rounds)} healed, the slowest in {slowest[0]} rounds; "
        f"{len(again)} again without a minority, in {slowest[1]}"
    )
    print(f"{len(rounds)} passed, {len(wrong)} failed", flush=True)
    raise SystemExit(bool(wrong))


if __name__ == "__main__":
    main()
