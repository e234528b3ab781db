#!/usr/bin/env python3
"""Says in sentences what a line of a script of world mode does and what it prints, for the page of tools/explore.py."""
import itertools
import re

from draw import carried
from scripting import parser

KINDS = {
    "prepare": "asks for a promise to vote in no lower ballot",
    "promise": "promises to vote in no lower ballot, and tells the votes that its sender holds",
    "accept": "asks for a vote for a command at a position",
    "accepted": "is a vote for a command at a position",
    "nack": "refuses: its sender has promised a higher ballot",
    "decided": "tells which commands are chosen",
    "want": "asks for the commands that its sender lacks",
    "part": "is a part of a snapshot",
    "lead": "tells that its sender leads, and how far it has executed",
    "request": "asks for a command",
    "answer": "answers a request",
    "elsewhere": "names the node that leads",
    "passed": "tells that a later request of this client was executed",
}
# A line of a script, and what it does. The words of the line fill the sentence.
EVENTS = (
    (r"genesis (\d+) (\d+)w? (.*)", "Cluster {0} begins with alpha {1} and the members {2}, each as node:port."),
    (r"start (\d+)", "Node {0} starts on two empty disks."),
    (r"restart (\d+)", "Node {0} restarts on the disks that it left."),
    (r"tick (\d+)", "Some time passes at node {0}: one tick."),
    (r"tick (\d+) (\d+)", "Some time passes at node {0}: {1} ticks."),
    (r"nudge (\d+)", "Node {0} is nudged: it asks the others for what they know better, or tells them how far it has "
     "come."),
    (r"nudge (\d+) withheld", "Node {0}, whose ticks are withheld, is nudged: it asks the others for what they know "
     "better, or tells them how far it has come."),
    (r"nudge (\d+) fed", "Node {0}, which was fed, is nudged: it asks the leader that it knows for more."),
    (r"client (\d+) (\d+) (\d+) (.*)", "Client {1} asks node {0}: {3}. It is this client’s request {2}."),
    (r"inject (\d+) (.*)", "Node {0} is handed bytes that nobody has sent: {1}."),
    (r"stop (\d+) (\d+) (\d+)", "Node {0} stops. Its disks keep up to {1} and {2} of their unsynced bytes."),
    (r"compact (\d+)", "Node {0} is to write a snapshot of all that it has executed."),
    (r"fail (\d+) (\d+)", "A trap: call {1} of node {0} from now fails, counting appends, syncs and cuts."),
    (r"arm (\d+) (\d+) (\d+)", "A trap: node {0} stops at call {1} from now, counting appends, syncs, cuts and sends, "
     "and keeps up to {2} unsynced bytes."),
)
# What is answered to whoever asks for a lock.
ANSWERS = (
    (r"free 0", "free, never granted"),
    (r"free (\d+)", "free, last at fence {0}"),
    (r"held (\d+) (\d+)", "held by client {0} at fence {1}"),
    (r"held shared (\d+) (\d+)", "shared by {0} clients at fence {1}"),
)
# A printed line, and what it says.
PRINTED = (
    (r"counted (\d+) (\d+)", "Node {0} has seen a majority of votes at position {1}."),
    (r"ran (\d+) (\d+) noop", "Node {0} executes position {1}: a no-op."),
    (r"ran (\d+) (\d+) (\d+) (\d+)", "Node {0} executes position {1}: request {3} of client {2}."),
    (r"answered (\d+) (\d+) (\d+) (.*)", "Node {0} answers request {2} of client {1}: {3}."),
    (r"told (\d+) (\d+) (\d+) (\d+)", "Node {0} tells client {1} that request {3} came before its request {2}."),
    (r"fault (\d+) (\d+) (.*)", "Node {0} goes down by fault {1}: {2}."),
    (r"stopped (\d+)", "Node {0} comes to its trap and stops."),
    (r"refused (\d+) (.*)", "The world refuses this event: {1}, refusal {0}. The run ends."),
    (r"not understood", "The program does not understand this line. The run ends."),
)


def said(rows, line):
    """The sentence of the first row that the line fits, or the line itself."""
    found = ((re.fullmatch(pattern, line), sentence) for pattern, sentence in rows)
    return next((sentence.format(*fits.groups()) for fits, sentence in found if fits), line)


def party(name, sender=""):
    """A node or a client in words."""
    return "itself" if name == sender else f"{'node' if name[0] == 'n' else 'client'} {name[1:]}"


def listed(items):
    """Items as in a sentence."""
    return " and ".join([", ".join(items[:-1]), items[-1]] if items[1:] else items)


def sends(lines):
    """What one sender sends of one kind, in a sentence."""
    words = [line.split() for line in lines]
    sender, kind = words[0][2], words[0][4]
    each = [f"{number} to {party(to, sender)}" for _, number, _, to, _ in words]
    return f"{party(sender).capitalize()} sends {kind} {listed(each)}."


def arrives(line, sent):
    """What a line says that delivers a datagram."""
    it = sent.get(int(line.split()[1]))
    if not it:
        return f"Datagram {line.split()[1]} was never sent."
    return f"Datagram {it.number} arrives: {it.kind}, from {party(it.sender)} to {party(it.receiver, it.sender)}."


def taken(line, sent):
    """What a line says that gives a node several things at once."""
    node, words = line.split()[1], carried(line.split())
    known = {"t": "a tick", "nudge": "a nudge", "nudge withheld": "a nudge that says that its ticks are withheld",
             "nudge fed": "a nudge that says that it was fed"}
    known |= {str(number): f"{it.kind} {number} from {party(it.sender, f'n{node}')}" for number, it in sent.items()}
    each = [known.get(word, f"datagram {word}") for word in words]
    return f"Node {node} takes these as one group, and syncs at most once: {listed(each)}."


def line_said(line, sent):
    """What a line does."""
    if line.startswith("deliver "):
        return arrives(line, sent)
    return taken(line, sent) if line.startswith("group ") else said(EVENTS, line)


def done(line, asked):
    """What a printed line says, with what the executed request asks."""
    found = re.fullmatch(r"ran \d+ \d+ (\d+ \d+)", line)
    op = asked.get(found[1]) if found else None
    return said(PRINTED, line).removesuffix(".") + f", {op}." if op else said(PRINTED, line)


def sentences(line, output, sent, asked):
    """An event in sentences: what its line does, and what was printed. A request that sets out is told by its line.
    `asked` has what each request asks."""
    told = [line_said(line, sent)]
    heard = [it for it in output if not re.match(r"asked |sent .* request$", it)]
    of_one = lambda it: (it.split()[2], it.split()[4]) if it.startswith("sent ") else it
    for _, group in itertools.groupby(heard, of_one):
        lines = list(group)
        told += [sends(lines)] if lines[0].startswith("sent ") else [done(it, asked) for it in lines]
    return told if len(told) > 1 or heard or line.startswith("client ") else [*told, "Nothing is printed."]


if __name__ == "__main__":
    parser(__doc__).parse_args()
