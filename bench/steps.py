#!/usr/bin/env python3
"""Counts the instructions of a step of a node, by the kind of datagram that it takes.

Usage: bench/steps.py [--times N] [--node [--waiters W] [--sums]] [PROGRAM ..]

With --node it counts those of a pair of an acquire and a release at a node that runs, with its turns, its socket and
its disk, and is a cluster by itself: the difference between 2 N pairs and N pairs. Meanwhile W clients wait for another
name, which is held. Their watches are sent once, and live for some 80 pairs. With --sums the node has a store with
sums.

It needs valgrind, whose callgrind counts instructions, the same number for the same program and script, whatever else
the machine does. A script of world mode brings three nodes to where a datagram of the kind was sent. Then it is
delivered N times more (1,000 if not given), and 2 N times more. The difference is what N lines of a script take: N
steps and what they send. What a node wants it wants once: there the node is stopped before each delivery, which leaves
nothing of the one before it, and restarted, and what these two lines take by themselves is subtracted. Each PROGRAM is
measured on the same scripts; the built one if none is named.
"""
import argparse
import re
import shutil
import socket
import subprocess
import tempfile

from cluster import built
from locks_client import Client, milliseconds, notices
from systems import Locks

COUNTING = ["valgrind", "--tool=callgrind", "--callgrind-out-file=/dev/null"]
LONGEST = 128  # bytes that are read of a notice
COUNTED = re.compile(r"Collected : (\d+)")
SENT = re.compile(r"sent (\d+) (?:c\d+|n(\d)) n(\d) (\w+)")


def output(program, lines):
    """What the script prints, line by line."""
    script = "".join(f"{line}\n" for line in lines)
    done = subprocess.run([program, "sim"], input=script, capture_output=True, text=True, check=True)
    return done.stdout.splitlines()


def sent(program, lines):
    """The number, sender (0 for a client), receiver and kind of each datagram to a node that the script sends."""
    found = SENT.findall("\n".join(output(program, lines)))
    return [(int(number), int(here or 0), int(there), kind) for number, here, there, kind in found]


def settled(program, lines, nodes):
    """The script, after which each datagram among these nodes is delivered once, and so on until none is sent."""
    lines, delivered = list(lines), {int(line.split()[1]) for line in lines if line.startswith("deliver ")}
    while True:
        among = [number for number, here, there, _ in sent(program, lines) if {here, there} <= nodes | {0}]
        new = [number for number in among if number not in delivered]
        if not new:
            return lines
        delivered.update(new)
        lines += [f"deliver {number}" for number in new]


def last(program, lines, here, there, kind):
    """The line that delivers the last datagram of the kind from one node to another."""
    return f"deliver {[it[0] for it in sent(program, lines) if it[1:] == (here, there, kind)][-1]}"


def cases(program):
    """For each kind its script, the line that is repeated, and those that stand before it each time."""
    begun = ["genesis 5 16 1:7001 2:7002 3:7003", "start 1", "start 2", "start 3", "tick 1 4"]
    elected = settled(program, begun, {1, 2, 3})
    yield "Prepare", elected, last(program, elected, 1, 2, "prepare"), []
    asked = settled(program, [*elected, "client 1 7 1 acquire db"], {1, 2, 3})
    yield "Request, answered before", asked, last(program, asked, 0, 1, "request"), []
    yield "Accept", asked, last(program, asked, 1, 2, "accept"), []
    yield "Accepted", asked, last(program, asked, 2, 1, "accepted"), []
    many = elected
    for client in range(1, 33):
        many = settled(program, [*many, f"client 1 {client} 1 acquire name-{client}"], {1, 2})
    told = settled(program, [*many, "tick 1"], {1, 2})
    told += [last(program, told, 1, 3, "lead")]
    told += [last(program, told, 3, 1, "want")]
    told += [last(program, told, 1, 3, "decided")]
    yield "Decided with 16 commands, which the node has", told, told[-1], []
    yield "Decided with 16 commands, which the node wants", told, told[-1], ["stop 3 0 0", "restart 3"]
    ballot = [*many, "tick 3 12"]
    ballot += [last(program, ballot, 3, 2, "prepare")]
    yield "Promise with 32 votes", ballot, last(program, ballot, 2, 3, "promise"), []


def instructions(program, lines):
    """How many instructions the program takes for a script."""
    script = "".join(f"{line}\n" for line in lines)
    done = subprocess.run([*COUNTING, program, "sim"], input=script, capture_output=True, text=True, check=True)
    return int(COUNTED.search(done.stderr)[1])


def step(program, lines, line, before, times):
    """How many instructions it takes for the line, each time after those before it."""

    def of(repeated):
        if not repeated:
            return 0
        twice = instructions(program, lines + repeated * 2 * times)
        return twice - instructions(program, lines + repeated * times)

    return (of([*before, line]) - of(before)) / times


class Alone(Locks):
    """A node that is a cluster by itself."""

    size = 1


def wait_in_line(client, port, waiters):
    """Has so many other clients wait for a name that the client holds."""
    fence = client.acquire("held") if waiters else 0
    with socket.socket(socket.AF_INET, socket.SOCK_DGRAM) as it:
        it.connect(("127.0.0.1", port))
        for number in range(2, 2 + waiters):
            it.send(notices.watch_bytes(client.cluster, notices.Ticket(number, 1, fence, "acquire", "held")))
            it.recv(LONGEST)


def of_node(program, pairs, waiters, options):
    """How many instructions a node takes from its start until a client has done so many pairs."""
    what = {"program": program, "alpha": 8, "options": options}
    with tempfile.TemporaryDirectory() as folder, Alone(folder, COUNTING, **what) as node:
        with Client(node.cluster, 1, node.ports.values(), first=milliseconds(), patience=60) as client:
            wait_in_line(client, node.ports[1], waiters)
            for _ in range(pairs):
                client.release("db", client.acquire("db"))
        process = node.processes[1]
        process.terminate()
        process.wait()
        return int(COUNTED.search((node.folder / "1.log").read_text())[1])


def main():
    parser = argparse.ArgumentParser(description="Counts the instructions of a step, by the kind of datagram.")
    parser.add_argument("--times", type=int, default=1000, help="how often each is delivered, 1000 if not given")
    parser.add_argument("--node", action="store_true", help="those of a pair, at a node that runs")
    parser.add_argument("--waiters", type=int, default=0, help="how many clients wait meanwhile, 0 if not given")
    parser.add_argument("--sums", action="store_true", help="the node writes its store with sums")
    parser.add_argument("program", nargs="*", help="the programs; the wrapper builds one if none is given")
    args = parser.parse_args()
    if not shutil.which("valgrind"):
        parser.error("valgrind is not on the path; Debian: apt-get install valgrind")
    programs = args.program or [built()]
    if args.node:
        options = ["--sums"] if args.sums else []
        counts = [[of_node(it, times * args.times, args.waiters, options) for times in (1, 2)] for it in programs]
        each = [(twice - once) / args.times for once, twice in counts]
        print(f"A pair: {', '.join(f'{it:,.0f}' for it in each)} instructions")
        return
    for kind, *case in cases(programs[0]):
        print(f"{kind}: {', '.join(f'{step(it, *case, args.times):,.0f}' for it in programs)} instructions", flush=True)


if __name__ == "__main__":
    main()
