#!/usr/bin/env python3
"""Lets the nodes that are left of a cluster go on, and checks that a request is still answered.

Every fourth schedule is drawn by `locks fuzz --groups --nudges`, the others here. Those have alpha 1 to 64 and seven
nodes, of which one to three are the first members. Datagrams are lost, late and repeated. Nodes stop with all or none
of their unsynced bytes, restart and compact. Members join and leave, and in two of three schedules all first members
are replaced, in one burst or one after another, often while 20 or 40 requests wait.

Then all datagrams under way are lost, and few nodes go on: one that has executed most, of all nodes or of those that
are up, and of each set of its next members a majority and no more. Those of them that are up are not restarted, and
those that are down are started. From then on nothing is lost. A round is a tick of each node, each 31st a nudge, and
then all deliveries, in order, until nothing is left. In each round a client asks another node. A node that is no longer
a member is switched off, except one that alone has executed most. Where a later set of members has no majority up, as
many as are missing are started. A new request has to be answered within 130 rounds.

This is a test and no theorem. The last line is `N passed, M failed`, of schedules, and the status is 1 if one failed.
The line in front of it has the slowest schedule, how many schedules left no first member, and in how many further
members were started; those before have the rounds by what happened: at the median and at most."""
import collections
import concurrent.futures
import itertools
import os
import random
import re
import statistics
import subprocess

from heal import CLIENTS, LATER, SENT, TICKS_A_NUDGE, Cluster, Unhealed, minority
from scripting import with_program

ROUNDS = 130
NODES = "1234567"
ANSWERED = re.compile(r"(?m)^answered \d+ (\d+) ")
FIRST_CHANGER = 100  # the clients from this one on ask for a join or a leave each; those below it for a lock each

Result = collections.namedtuple("Result", "rounds number is_replaced is_later kind")


class Survivors(Cluster):
    """A cluster in which datagrams that were sent before do not arrive, and in which few nodes go on."""

    def __init__(self, program, lines, draws):
        super().__init__(program, lines)
        self.draws, self.is_replaced, self.is_later, self.kind = draws, False, False, "drawn by locks fuzz"
        self.first = {it.split(":")[0] for it in lines[0].split()[3:]}
        self.ticks = collections.Counter({node: draws.randrange(TICKS_A_NUDGE) for node in NODES})
        self.up = {node for node, is_up, *_ in self.left() if is_up}

    def time_of(self, node, *_):
        self.ticks[node] += 1
        return f"{'tick' if self.ticks[node] % TICKS_A_NUDGE else 'nudge'} {node}"

    def switch_on(self, nodes):
        """Starts nodes, or restarts those that were started."""
        started = {node for node, *_ in self.left()}
        for node in (nodes := [*nodes]):
            self.lines.append(f"{'restart' if node in started else 'start'} {node}")
            self.ticks[node] = 0
        self.up |= {*nodes}

    def switch_off(self, nodes):
        """Stops nodes. Each disk keeps all or none of its unsynced bytes."""
        kept = [0, LATER]
        self.lines += [f"stop {node} {self.draws.choice(kept)} {self.draws.choice(kept)}" for node in nodes]
        self.up -= {*nodes}

    def leave_few(self):
        """Only a most advanced node goes on, and of each set of its next members a majority. All else is lost."""
        left = [*self.left()]
        self.lines += [f"fail {node} {LATER}" for node, *_ in left]
        among = [it for it in left if it[1]] if self.up and self.draws.random() < 0.5 else left
        most = max(it[2] for it in among)
        node, _, _, sets = self.draws.choice([it for it in among if it[2] == most])
        members, self.is_replaced = sorted(set().union(*sets)), self.first.isdisjoint(sets[-1])
        few = {node, *members} - (minority(self.draws.sample(members, len(members)), sets) - {node})
        self.switch_on(sorted(few - self.up))
        self.switch_off(sorted(self.up - few))
        self.next = 1 + len(SENT.findall(self.run([])))

    def start_members(self):
        """Keeps it so while members change: starts who is missing for a majority, and stops who is a member no more."""
        left = [it for it in self.left() if it[1]]
        most = max(it[2] for it in left)
        node, _, _, sets = max((it for it in left if it[2] == most), key=lambda it: it[0] in set().union(*it[3]))
        self.switch_off(sorted(self.up - {node}.union(*sets)))
        for members in sets:
            missing = len(members) // 2 + 1 - len(members & self.up)
            if missing > 0:
                self.switch_on(self.draws.sample(sorted(members - self.up), missing))
                self.is_later = True


class Drawn(Survivors):
    """A cluster with a random schedule that is drawn turn by turn."""

    def __init__(self, program, draws):
        first = NODES[:draws.randint(1, 3)]
        genesis = f"genesis 5 {draws.randint(1, 64)}w " + " ".join(f"{node}:700{node}" for node in first)
        super().__init__(program, [genesis, *(f"start {node}" for node in first)], draws)
        self.open, self.under_way, self.known = {}, [], 0
        self.clients, self.changers = itertools.count(1), itertools.count(FIRST_CHANGER)
        self.lost, self.late = draws.choice((0, 0, 0.05, 0.2, 0.4)), draws.choice((0, 0.1, 0.4))
        self.ticking, self.stopping = draws.choice((0.1, 0.2, 0.5)), draws.choice((0, 0.02, 0.1))

    def ask(self, words):
        """A further client asks for this, again and again until it is answered."""
        clients = self.changers if words[:2] in ("jo", "le") else self.clients
        self.open[next(clients)] = words

    def change(self):
        """A join or a leave of any node."""
        node = self.draws.choice(NODES)
        self.ask(self.draws.choice((f"join {node} 700{node}", f"leave {node}")))

    def replacement(self):
        """The joins and leaves by which all first members are replaced. Most of the new ones are up before."""
        new = NODES[len(self.first):][:self.draws.randint(1, 3)]
        self.switch_on(node for node in new if node not in self.up and self.draws.random() < 0.8)
        return [*(f"join {node} 700{node}" for node in new), *(f"leave {node}" for node in sorted(self.first))]

    def deliveries(self):
        """Delivers most of what is coming to nodes that are up: some is lost, late or comes again."""
        under_way, self.under_way = self.under_way, []
        for number, node in under_way:
            fate = self.draws.random()
            is_late = fate < self.late or node not in self.up and fate < 0.5
            if is_late or self.draws.random() < 0.05:
                self.under_way.append((number, node))
            if not is_late and node in self.up and self.draws.random() >= self.lost:
                yield f"deliver {number}"

    def lives(self):
        """Seldom a node stops, restarts, starts or compacts."""
        node, fate = self.draws.choice(NODES), self.draws.random()
        if node in self.up and fate < self.stopping:
            self.switch_off([node])
        elif node not in self.up and fate < 0.3:
            self.switch_on([node])
        elif node in self.up and fate > 0.98:
            self.lines.append(f"compact {node}")

    def turn(self):
        """Deliveries, ticks, requests, and what happens to nodes."""
        self.lines += self.deliveries()
        up = sorted(self.up)
        self.lines += [self.time_of(node) for node in up if self.draws.random() < self.ticking]
        for client, words in self.open.items() if up else ():
            if self.draws.random() < 0.4:
                self.lines.append(f"client {self.draws.choice(up)} {client} 1 {words}")
        self.lives()
        self.look()

    def look(self):
        """Sees what was sent, and which requests are answered."""
        self.printed = self.run([])
        if refused := re.search(r"(?m)^(?:refused|fault) .*$", self.printed):
            raise Unhealed(refused[0])
        sent = SENT.findall(self.printed)
        self.under_way += [(number, to[1:]) for number, to in sent[self.known:] if to[0] == "n"]
        self.known = len(sent)
        for client in {int(it) for it in ANSWERED.findall(self.printed)} & {*self.open}:
            del self.open[client]

    def go_on(self, count, each=lambda: None):
        """So many turns, in front of each of which something may happen."""
        for _ in range(count):
            each()
            self.turn()

    def busy(self):
        """Every other turn a client wants a lock, and seldom members change."""
        if self.draws.random() < 0.5:
            self.ask(f"acquire a{len(self.lines)}")
        if self.draws.random() < 0.03:
            self.change()

    def replace(self):
        """Replaces all members, in one burst, or each one where the last change is answered."""
        changes, is_burst = self.replacement(), self.draws.random() < 0.6
        self.kind = "all first members replaced " + ("in one burst" if is_burst else "one after another")
        while changes:
            for words in changes if is_burst else changes[:1]:
                self.ask(words)
            changes = [] if is_burst else changes[1:]
            self.go_on(1)
            for _ in range(40):
                if not any(client >= FIRST_CHANGER for client in self.open):
                    break
                self.go_on(1)

    def happen(self, is_replaced):
        """The whole schedule."""
        self.kind = "changes of single members"
        self.go_on(self.draws.randint(5, 40))
        for number in range(self.draws.choice((0, 0, 20, 40))):
            self.ask(f"acquire b{number}")
        self.go_on(self.draws.randint(0, 20), self.busy)
        if is_replaced:
            self.replace()
        self.go_on(self.draws.choice((0, 0, 2, 30)), self.busy)


def fuzzed(program, number, draws):
    """A cluster after a schedule that the program draws."""
    words = ["--start", str(number), "--events", str(draws.randint(40, 400)), "--groups", "--nudges", "--script"]
    script = subprocess.run([program, "fuzz", *words], capture_output=True, text=True, timeout=600, check=True).stdout
    return Survivors(program, script.splitlines(), draws)


def drawn(program, number, draws):
    """A cluster after a schedule that is drawn here."""
    cluster = Drawn(program, draws)
    cluster.happen(number % 4 < 3)
    return cluster


def survived(program, number):
    """In how many rounds what is left of a schedule answers; or why not."""
    try:
        cluster = (drawn if number % 4 else fuzzed)(program, number, random.Random(number))
        cluster.leave_few()
        rounds = cluster.rounds(CLIENTS[0], ROUNDS)
        return Result(rounds, number, cluster.is_replaced, cluster.is_later, cluster.kind)
    except Unhealed as why:
        return f"schedule {number}: {why}"


def by_kind(results):
    """A line for each kind of schedule."""
    for kind in sorted({it.kind for it in results}):
        rounds = [it.rounds for it in results if it.kind == kind]
        median, most = statistics.median(rounds), max(rounds)
        yield f"{kind}: {len(rounds)}, in {median:.0f} rounds at the median and {most} at most"


def main():
    arguments = with_program(__doc__)
    arguments.add_argument("--schedules", type=int, default=60, help="how many, 60 by default")
    arguments.add_argument("--first", type=int, default=1, help="the number of the first one")
    given = arguments.parse_args()
    numbers = range(given.first, given.first + given.schedules)
    with concurrent.futures.ThreadPoolExecutor(len(os.sched_getaffinity(0))) as pool:
        found = [*pool.map(lambda number: survived(given.program, number), numbers)]
    wrong = [it for it in found if isinstance(it, str)]
    right = [it for it in found if not isinstance(it, str)]
    print(*wrong, sep="\n", end="\n" * bool(wrong))
    print(*by_kind(right), sep="\n")
    slowest = max(right, default=Result(0, 0, False, False, ""))
    print(
        f"{len(right)} answered, the slowest, {slowest.number}, in {slowest.rounds} rounds; "
        f"{sum(it.is_replaced for it in right)} without a first member, "
        f"{sum(it.is_later for it in right)} with further members started"
    )
    print(f"{len(right)} passed, {len(wrong)} failed", flush=True)
    raise SystemExit(bool(wrong))


if __name__ == "__main__":
    main()
