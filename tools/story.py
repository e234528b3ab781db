#!/usr/bin/env python3
"""Finds out what a script of world mode leads to, event by event, by asking only the program.

A node that stops and restarts executes what its disks hold. A node whose next write fails (`fail NODE 1`) repeats a
promise or a vote that it holds, and goes down by one that it lacks. A node that stands for election asks every member
for a promise. A leader that is given the votes for a position counts them there and executes it. What a table holds
after a position is what a cluster of one node answers that was asked the same requests. tools/explore.py shows it."""
import itertools
import re

from draw import carried, events, is_refused
from probing import Runs, asked_first, counted, datagrams, executed
from scripting import parser

ALL = 262144  # bytes of the longest file: a stop that keeps so many keeps all
TICKS = 28  # of silence, after which a member of any place stands for election
LATER = 99999  # a call that no run comes to
REPLIES = {"prepare": ("promise", "nack"), "accept": ("accepted", "nack")}
OPS = ("acquire", "release", "ask", "check", "share", "break")


def number_of(name):
    """The number of a node or a client by its name, as 2 of n2."""
    return int(name[1:])


class Datagram:
    """A datagram: the event that sent it, those that delivered it, and where they are known its ballot, its proposal,
    the datagram to which it replies, and what it says to a client or for one."""

    def __init__(self, number, sender, receiver, kind, event):
        self.number, self.sender, self.receiver, self.kind, self.event = number, sender, receiver, kind, event
        self.delivered, self.ballot, self.proposal, self.of, self.words = [], None, None, None, None


class Story:
    """A script: what each event printed, what was sent, and what each node holds after it. Event 0 is its first line.

    Ballots and proposals have no numbers in what is printed. A ballot is named by its node and the event that began it,
    a proposal by its place in a list."""

    def __init__(self, program, text):
        self.told = events(program, text)
        self.lines = [line for line, _, _ in self.told]
        self.runs = Runs(program, self.lines)
        self.sent, self.ballots, self.proposals, self.list, self.states = {}, [], [], {}, []
        self.life, self.reached, self.promises, self.held, self.trapped = {}, {}, {}, {}, set()
        for event, (line, output, calls) in enumerate(self.told):
            self.states.append(self.happen(event, line.split(), output, calls))

    def happen(self, event, words, output, calls):
        """Takes up an event. The states of all nodes after it: it changes the one that it names at most."""
        before = self.states[-1] if self.states else {}
        new = [Datagram(*it, event) for it in datagrams(output)]
        self.sent |= {it.number: it for it in new}
        self.say(new, words, output)
        if is_refused(output) or not event:
            return before
        node = self.touched(words)
        if node:
            self.live(node, words[0], output)
        for number in (int(word) for word in carried(words) if word.isdigit()):
            self.deliver(event, self.sent[number], new)
        self.name_ballots(event, new, self.is_begun(words, new, calls))
        self.name_proposals(event, new)
        return {**before, node: self.state(event, node)} if node else before

    def touched(self, words):
        """The node that an event names or that gets its datagram. A client's request only sets out."""
        if words[0] == "deliver":
            return number_of(self.sent[int(words[1])].receiver)
        return None if words[0] == "client" else int(words[1])

    def live(self, node, verb, output):
        """Notes whether the node is up, whether a trap is set for it, and how far it has executed. That is None where
        it is not printed."""
        if verb in ("start", "restart"):
            self.life[node], self.reached[node] = "up", 0 if verb == "start" else None
        if verb in ("fail", "arm"):
            self.trapped.add(node)
        for position, command in executed(output, node):
            self.list[position], self.reached[node] = command, position
        for line in (it.split() for it in output if it.startswith(("fault ", "stopped "))):
            self.life[node] = f"down by fault {line[2]}, {line[3]}" if line[0] == "fault" else "stopped by its trap"
        if verb == "stop":
            self.life[node] = "stopped"

    def deliver(self, event, came, new):
        """Notes that a datagram came, and which replies it got."""
        came.delivered.append(event)
        if came.kind == "part":
            self.reached[number_of(came.receiver)] = None
        kinds = REPLIES.get(came.kind, ())
        for it in [it for it in new if it.of is None and it.kind in kinds and it.receiver == came.sender][:1]:
            it.of, it.ballot, it.proposal = came.number, came.ballot, came.proposal

    def say(self, new, words, output):
        """Notes what requests ask and what answers say: the line in front of such a datagram tells."""
        before = {line: first for first, line in itertools.pairwise(output)}
        for it in new:
            first = before.get(f"sent {it.number} {it.sender} {it.receiver} {it.kind}", "").split(" ", 4)
            if it.kind == "request":
                it.words = f"{' '.join(words[4:])}, request {words[3]}"
            if it.kind in ("answer", "passed"):
                it.words = f"{'last request ' * (it.kind == 'passed')}{first[4]}, to request {first[3]}"

    # Ballots and proposals.

    def is_begun(self, words, new, calls):
        """Whether a ballot begins: a tick writes, or a tick of a group asks its own node for a promise."""
        asks_itself = any(it.kind == "prepare" and it.sender == it.receiver for it in new)
        return calls > 0 if words[0] == "tick" else words[0] == "group" and "t" in words[2:] and asks_itself

    def name_ballots(self, event, new, is_written):
        """Names the ballots of Prepares and Accepts. A ballot begins with a tick that writes its promise, and is the
        latest of its node."""
        for sender in {it.sender for it in new if it.kind == "prepare"}:
            if is_written or sender not in [name for name, _ in self.ballots]:
                self.ballots.append((sender, event))
        latest = {name: place for place, (name, _) in enumerate(self.ballots)}
        for it in new:
            if it.kind in ("prepare", "accept"):
                it.ballot = latest.get(it.sender)

    def name_proposals(self, event, new):
        """Names the proposals of Accepts: those of one position go to its members in rising order."""
        groups = []
        for it in (it for it in new if it.kind == "accept"):
            if not groups or number_of(groups[-1][-1].receiver) >= number_of(it.receiver):
                groups.append([])
            groups[-1].append(it)
        for group in groups:
            place = self.proposal(event, group)
            for it in group:
                it.proposal = place

    def proposal(self, event, group):
        """The place of the proposal that a group of Accepts asks votes for, a new one or one that is repeated."""
        position, command = self.proposed(event, group)
        ballot, to = group[0].ballot, [it.receiver for it in group]
        for place, known in enumerate(self.proposals):
            if position and (known["position"], known["ballot"]) == (position, ballot):
                known["to"] = sorted({*known["to"], *to}, key=number_of)
                return place
        self.proposals.append({"position": position, "command": command, "ballot": ballot, "to": to, "event": event})
        return len(self.proposals) - 1

    def proposed(self, event, group):
        """The position and the command of a group of Accepts, or None for each that a run does not show: the leader is
        given the votes for them, and then those for what it proposed before."""
        leader = group[0].sender
        votes = lambda sender, receiver, kind: (receiver, kind) == (leader, "accepted")
        output, more = self.runs.led_on(event + 1, [*self.all_up(), *self.delivered(group)], self.started(), votes)
        position = max(counted(output, number_of(leader)), default=None)
        older = [it for it in self.sent.values() if (it.kind, it.sender) == ("accept", leader)]
        its_own = lambda sender, receiver, kind: leader in (sender, receiver) and kind != "prepare"
        output, _ = self.runs.led_on(event + 1, [*more, *self.delivered(older)], self.started(), its_own)
        return position, dict(executed(output, number_of(leader))).get(position)

    def delivered(self, sent):
        """The lines that deliver these to the nodes that were ever started."""
        return [f"deliver {it.number}" for it in sent if it.receiver in self.started()]

    def started(self):
        return {f"n{node}" for node in self.life}

    # What a node holds.

    def state(self, event, node):
        """What a node holds after an event."""
        keeps, loses = self.again(node, ALL), self.again(node, 0)
        revived = self.runs.after(event + 1, [*keeps, f"tick {node} {TICKS}"])
        kept, synced = executed(revived, node), executed(self.runs.after(event + 1, loses), node)
        if self.reached[node] is None or not self.is_up(node):
            self.reached[node] = kept[-1][0] if kept else self.before_next(event, node)
        return {
            "at": event,
            "life": self.life[node],
            "executed": self.reached[node],
            "members": asked_first(revived, node),
            "kept": [position for position, _ in kept],
            "synced": [position for position, _ in synced],
            "promised": self.promised(event, node, loses),
            "votes": self.latest(self.votes(event, node, loses), self.reached[node], [it for it, _ in kept]),
            "asked": self.asked(event, node),
            "inspect": self.runs.inspected(event + 1, node),
            "runs": [{"more": more, "prints": self.runs.after(event + 1, more)} for more in (keeps, loses)],
        }

    def is_up(self, node):
        return self.life.get(node) == "up"

    def calm(self, node):
        """The lines that put off what the script has set a trap for."""
        return [f"fail {node} {LATER}", f"arm {node} {LATER} 0"] if node in self.trapped else []

    def here(self, node):
        """The lines that leave the node up, with all that it has written."""
        return self.calm(node) + ([] if self.is_up(node) else [f"restart {node}"])

    def all_up(self):
        return [line for node in sorted(self.life) for line in self.here(node)]

    def again(self, node, kept):
        """The lines that stop the node and restart it. Its disks keep so many of their unsynced bytes."""
        stop = [f"stop {node} {kept} {kept}"] if self.is_up(node) else []
        return [*self.calm(node), *stop, f"restart {node}"]

    def bound(self, node, kind):
        return [it for it in self.sent.values() if (it.kind, it.receiver) == (kind, f"n{node}")]

    def reply(self, event, node, before, datagram):
        """The kind of the node's reply to the datagram where it needs no write, or None."""
        output = self.runs.after(event + 1, [*before, f"fail {node} 1", f"deliver {datagram.number}"])
        return next((kind for _, sender, _, kind in datagrams(output) if sender == f"n{node}"), None)

    def promised(self, event, node, loses):
        """The ballot that the node has promised, the last event that showed it, and whether it is synced. A node that
        has a snapshot refuses each Prepare for positions within it, also that of the ballot which it has promised."""
        replies = {it: self.reply(event, node, self.here(node), it) for it in self.bound(node, "prepare")}
        for it in reversed(replies):
            if replies[it] == "promise":
                is_synced = self.reply(event, node, loses, it) == "promise"
                self.promises[node] = {"ballot": it.ballot, "shown": event, "synced": is_synced}
                return self.promises[node]
        refused = {it.ballot for it, kind in replies.items() if kind == "nack"}
        known = self.promises.get(node)
        return known if known and known["ballot"] in refused else None

    def votes(self, event, node, loses):
        """The votes that the node holds, for each the last event that showed it, and whether it is synced. A node that
        has promised a higher ballot refuses the Accepts of its votes, and holds them all the same."""
        before, held = self.held.get(node, {}), {}
        for it in self.bound(node, "accept"):
            kind = self.reply(event, node, self.here(node), it)
            if kind == "accepted":
                is_synced = self.reply(event, node, loses, it) == "accepted"
                held[it.proposal] = {"proposal": it.proposal, "shown": event, "synced": is_synced}
            elif kind == "nack" and it.proposal in before:
                held.setdefault(it.proposal, before[it.proposal])
        self.held[node] = held
        return held.values()

    def latest(self, votes, executed, kept):
        """The latest vote for each position that is not within the node's snapshot."""
        found = {}
        for vote in sorted(votes, key=lambda vote: vote["shown"]):
            position = self.proposals[vote["proposal"]]["position"]
            if position is None or position > (executed or 0) or position in kept:
                found[position or ("unknown", vote["proposal"])] = vote
        return list(found.values())

    def asked(self, event, node):
        """The kinds of what the node sends for a request of a client who is not in the script, or None: it is down."""
        number = max(self.sent, default=0) + 1
        more = [*self.here(node), f"client {node} {self.stranger()} 1 ask probe", f"deliver {number}"]
        sent = datagrams(self.runs.after(event + 1, more))
        return [kind for k, _, _, kind in sent if k > number] if self.is_up(node) else None

    def stranger(self):
        """The greatest client who asks nothing in the script."""
        asking = {int(line.split()[2]) for line in self.lines if line.startswith("client ")}
        return max({*range(1, 257)} - asking)

    def before_next(self, event, node):
        """The position before the one that the node executes next when all others help it to lead. None where it
        executes none, or is given a snapshot before."""
        whole = {"nodes": self.started(), "is_done": lambda output: executed(output, node)}
        others = [line for other in sorted(self.life) if other != node for line in self.here(other)]
        more = [*others, *self.again(node, ALL), f"tick {node} {TICKS}"]
        _, more = self.runs.led_on(event + 1, more, **whole)
        more = [*more, f"client {node} {self.stranger()} 1 ask probe"]
        output, _ = self.runs.led_on(event + 1, more, **whole)
        is_given = any((receiver, kind) == (f"n{node}", "part") for _, _, receiver, kind in datagrams(output))
        return None if is_given else next((position - 1 for position, _ in executed(output, node)), None)

    # What comes of the list, and of what is under way.

    def under_way(self, event):
        """The datagrams to nodes that were sent by then and have not arrived."""
        sent = (it for it in self.sent.values() if it.receiver[0] == "n" and it.event <= event)
        return [it for it in sent if not any(at <= event for at in it.delivered)]

    def if_it_came(self, event, datagram):
        """What is printed where the datagram arrives after this event."""
        return self.runs.after(event + 1, [f"deliver {datagram.number}"])

    def requests(self):
        """What each request of a client asks, in words, but for those that two lines ask in different words."""
        found = (re.fullmatch(r"client \d+ (\d+ \d+) (.*)", line) for line in self.lines)
        asked = {(it[1], it[2]) for it in found if it}
        return {request: op for request, op in asked if [it for it, _ in asked].count(request) == 1}

    def names(self):
        """The names of locks that the script asks about."""
        asked = (op.split() for op in self.requests().values())
        return sorted({words[1] for words in asked if words[0] in OPS})

    def tables(self):
        """What the table holds after each position, from 0 on: the answer for each name. It is None from the first
        request on that no line of the script asks in words."""
        world, lines, tables = Runs(self.runs.program, []), ["genesis 1 1 1:1", "start 1", "tick 1 4"], []
        for position in range(len(self.list) + 1):
            lines = lines and self.with_request(world, lines, self.list.get(position, "noop"))
            tables.append(lines and [[name, self.answer(world, lines, name)] for name in self.names()])
        return tables

    def with_request(self, world, lines, command):
        """The lines of a cluster of one node, and those by which it executes the command, or None where that is not
        known. A join and a leave are asked there as something that changes no member and no lock."""
        op = "noop" if command == "noop" else self.requests().get(command)
        if op and op != "noop":
            lines = [*lines, f"client 1 {command} {'ask probe' if re.match('join|leave', op) else op}"]
        return world.led_on(0, lines, {"n1"})[1] if op else None

    def answer(self, world, lines, name):
        """What the node of that cluster answers who asks for a name."""
        client = self.stranger()
        output, _ = world.led_on(0, [*lines, f"client 1 {client} 1 ask {name}"], {"n1"})
        found = [line.split(" ", 4)[4] for line in output if line.startswith(f"answered 1 {client} ")]
        return found[-1] if found else ""


if __name__ == "__main__":
    parser(__doc__).parse_args()
