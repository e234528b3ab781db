"""Clients and nodes without sockets, under a clock of the simulation: plans of clients, and the queues of nodes."""
import heapq
import itertools

from fake_node import WatchQueue
from table_case import Table
from locks_client.calls import Calls
from locks_client.numbers import Numbers
from locks_client.plans import Datagram, Listen, Send

LATENCY = 0.0005  # seconds from a client to a node, and back
PERIOD = 0.1


class SimulatedNode:
    """A node at a port. `knows_watches` is false of an old one; one that is not up drops all."""

    def __init__(self, simulation, port, knows_watches=True):
        self.simulation, self.port, self.knows_watches = simulation, port, knows_watches
        self.is_up, self.queue = True, WatchQueue(port, simulation.standing)

    def leads(self):
        return self.simulation.leader == self.port

    def take(self, data, client):
        """Takes a datagram of a client."""
        if not self.is_up or data[:2] == b"LW" and not self.knows_watches:
            return
        if data[:2] == b"LW":
            self.queue.speaks = self.leads()
            return self.post(self.queue.hear(data, client))
        if self.leads():
            self.simulation.at(self.simulation.now + self.simulation.commit, lambda: self.execute(data, client))

    def execute(self, data, client):
        """Executes a request. Notices go after its reply."""
        self.simulation.reply(self, self.simulation.table.reply(data), client)
        self.simulation.executed()

    def post(self, letters):
        """Sends notices."""
        for notice, client in letters:
            self.simulation.reply(self, notice, client)

    def turn(self):
        """Tells who is to be told."""
        self.queue.speaks = self.leads()
        if self.is_up and self.knows_watches:
            self.post(self.queue.letters())


class SimulatedClient:
    """A client that carries out a script: a generator of the steps of its plans. It watches, unless told not to."""

    def __init__(self, simulation, number, script, notices=True):
        ports = list(simulation.nodes)
        self.simulation, self.number, self.inbox, self.waits_for = simulation, number, [], None
        self.core = Calls(5, number, ports, patience=30.0, clock=lambda: simulation.now, notices=notices)
        self.core.numbers, self.core.has_begun, self.core.watch_number = Numbers(first=1), True, number << 32
        self.plan, self.sent = script(self), []
        simulation.at(0.0, lambda: self.go_on(None))

    def go_on(self, told):
        """Does the steps until one has to wait. A client that was killed does none."""
        self.waits_for = None
        while self.plan:
            try:
                effect = self.plan.send(told)
            except StopIteration:
                self.plan = None
                return
            told = None
            if isinstance(effect, Send):
                self.sent.append((self.simulation.now, effect.port, effect.data))
                self.simulation.send(self, effect)
            elif isinstance(effect, Listen) and self.inbox:
                told = self.inbox.pop(0)
            else:
                return self.wait(effect)

    def wait(self, effect):
        """Waits for a datagram or a time."""
        self.waits_for = effect
        until = effect.until if isinstance(effect, Listen) else self.simulation.now + effect.seconds
        self.simulation.at(until, lambda: self.go_on(None) if self.waits_for is effect else None)

    def hear(self, datagram):
        """A datagram comes."""
        if not self.plan:
            return
        if isinstance(self.waits_for, Listen):
            self.go_on(datagram)
        else:
            self.inbox.append(datagram)


class Simulation:
    """Nodes at the ports 1, 2 .. that share one table, of which `leader` answers; and clients.

    is_lost: whether a datagram is lost, given its bytes and whether a client sends it. latencies: seconds from a node
    to a client, where they are others. commit: seconds from the arrival of a request until it is executed. held: each
    hold of a client, as its number, and when it began and ended. notices: each notice that was sent, with its time,
    node and client.
    """

    def __init__(self, nodes=3, old=()):
        self.now, self.events, self.order = 0.0, [], itertools.count()
        self.table, self.leader, self.held, self.notices = Table(), 1, [], []
        self.is_lost, self.latencies, self.commit = lambda data, is_request: False, {}, 0.0
        self.nodes = {port: SimulatedNode(self, port, port not in old) for port in range(1, nodes + 1)}
        self.clients = {}
        self.at(PERIOD, self.pass_period)

    def standing(self, name):
        """Who holds a name, and its last fence."""
        return self.table.holders.get(name, ()), self.table.fences.get(name, 0)

    def at(self, time, action):
        heapq.heappush(self.events, (time, next(self.order), action))

    def client(self, number, script, notices=True):
        self.clients[number] = SimulatedClient(self, number, script, notices)
        return self.clients[number]

    def send(self, client, effect):
        """A datagram of a client, on its way to a node."""
        if effect.port in self.nodes and not self.is_lost(effect.data, True):
            node = self.nodes[effect.port]
            self.at(self.now + LATENCY, lambda: node.take(effect.data, client.number))

    def reply(self, node, data, number):
        """A datagram of a node, on its way to a client."""
        if data[:2] == b"LW":
            self.notices.append((self.now, node.port, number, data[68]))
        if not self.is_lost(data, False):
            delay = self.latencies.get(node.port, LATENCY)
            self.at(self.now + delay, lambda: self.clients[number].hear(Datagram(data, node.port)))

    def executed(self):
        """After a request: who holds a name waits no more, and who is to be told is told."""
        for node in self.nodes.values():
            for name, who in self.table.holders.items():
                for client in who:
                    node.queue.granted(client, name)
            node.turn()

    def pass_period(self):
        for node in self.nodes.values():
            node.queue.pass_period()
            node.turn()
        self.at(self.now + PERIOD, self.pass_period)

    def run(self, until):
        """Runs until that time, or until all scripts have ended."""
        while self.events[0][0] <= until and any(it.plan for it in self.clients.values()):
            time, _, action = heapq.heappop(self.events)
            self.now = max(self.now, time)
            action()

    def holder(self, name, seconds, times=1, begin=0.0, wait=600.0, word="acquire"):
        """The script of a client that takes a lock, keeps it, and gives it back, so many times."""

        def script(client):
            core = client.core
            yield from self.sleep(begin)
            for _ in range(times):
                fence = yield from core.granting(name, wait, word == "share", True)
                start = self.now
                yield from self.sleep(seconds)
                yield from core.end_hold(name, fence)
                self.held.append((client.number, start, self.now))

        return script

    def sleep(self, seconds):
        """What a client does meanwhile is no step of a plan: nothing is heard."""
        end = self.now + seconds
        while self.now < end:
            yield Wake(end - self.now)

    def free(self):
        """How long the lock stood free before each hold but the first."""
        held = sorted(self.held, key=lambda it: it[1])
        return [after[1] - before[2] for before, after in zip(held, held[1:])]


class Wake:
    """A step that waits, and hears nothing."""

    def __init__(self, seconds):
        self.seconds = seconds
