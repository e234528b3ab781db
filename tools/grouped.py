#!/usr/bin/env python3
"""Runs scripts again with their events as groups, and checks that nodes do the same with inputs taken in a group.

The scripts are those of examples/ and the schedules that `locks fuzz --script` draws, without groups and with them, and
with nudges where the number is odd. In each of them every delivery, tick and nudge becomes a group of one. The script
has to print and leave the same, byte for byte, also where a call of a device fails or a node stops in it. Then inputs
of one node that follow one another become one group, unless a trap counts the calls of a device. What is sent, counted,
executed and answered has to stay, each in its order, and so has what each node holds.

The last line is `N passed, M failed`, of scripts, and the status is 1 if one failed. The line in front of it says how
many groups were tried."""
import concurrent.futures
import itertools
import os
import re
import subprocess

from scripting import TOP, with_program

EVENTS = (40, 80, 160, 320)  # of a schedule, in turn
MOST = 8  # inputs of a group
SENT = re.compile(r"(?m)^sent (\d+) (\w+) n(\d+) \w+$")
TRAPS = ("arm ", "fail ")  # they count the calls of a device, of which a group has fewer
OF_DISKS = re.compile(r"(?m)^disk .*\n")  # a group syncs once, so it may sync more


def printed(program, lines):
    """What a script prints and leaves, and how it ends."""
    text = "".join(f"{line}\n" for line in lines)
    run = subprocess.run([program, "sim", "--state"], input=text, capture_output=True, text=True, timeout=600)
    return run.stdout, run.stderr, run.returncode


def by_kind(text):
    """The lines of each kind, in their order, and what is left."""
    events, done, left = text.partition("\ndone ")
    lines = sorted(events.splitlines(), key=lambda line: line.split()[0])
    return lines, done and OF_DISKS.sub("", left.partition("\n")[2])


def inputs(line, datagrams):
    """The node of an event, its input in a group, and who sent it, if a group can have the event."""
    word, *rest = line.split() or [""]
    if word == "tick" and len(rest) == 1:
        return rest[0], "t", None
    if word == "nudge" and rest:
        return rest[0], " ".join([word, *rest[1:]]), None
    if word == "deliver" and len(rest) == 1 and rest[0] in datagrams:
        sender, node = datagrams[rest[0]]
        return node, rest[0], sender
    return None


def groups_of(found, most):
    """The lines with their inputs as groups of at most so many, of one node each.

    What the node itself sent begins a group, since the same group may have sent it."""
    node, parts = None, []
    for line, it in [*found, (None, None)]:
        if parts and (not it or it[0] != node or len(parts) == most or it[2] == f"n{node}"):
            yield f"group {node} {' '.join(parts)}"
            node, parts = None, []
        if it:
            node, parts = it[0], [*parts, it[1]]
        elif line is not None:
            yield line


def differences(program, lines):
    """Why a script is not the same with its events as groups, if it is not; and how many groups were tried."""
    first = printed(program, lines)
    datagrams = {number: (sender, node) for number, sender, node in SENT.findall(first[0])}
    found = [(line, inputs(line, datagrams)) for line in lines]
    alone = [*groups_of(found, 1)]
    if printed(program, alone) != first:
        return ["as groups of one it prints or leaves something else"], 0
    if first[2] or any(line.startswith(TRAPS) for line in lines):
        return [], len(alone)
    together = [*groups_of(found, MOST)]
    same = by_kind(printed(program, together)[0]) == by_kind(first[0])
    return [] if same else ["in larger groups another list is left"], len(alone) + len(together)


def scripts(program, count):
    """The name and the lines of each script, with one event a line."""
    for path in sorted((TOP / "examples").glob("*.txt")):
        if "\ngenesis " in f"\n{path.read_text()}":
            yield path.name, path.read_text().splitlines()
    for number, word in itertools.product(range(1, count + 1), ((), ("--groups",))):
        events = str(EVENTS[number % len(EVENTS)])
        nudges = ["--nudges"] * (number % 2)
        words = [program, "fuzz", "--start", str(number), "--events", events, "--script", *word, *nudges]
        script = subprocess.run(words, capture_output=True, text=True, timeout=600, check=True).stdout
        yield f"schedule {number}", script.splitlines()


def main():
    arguments = with_program(__doc__)
    arguments.add_argument("--schedules", type=int, default=100, help="how many of each kind, 100 by default")
    given = arguments.parse_args()
    all_scripts = [*scripts(given.program, given.schedules)]
    with concurrent.futures.ThreadPoolExecutor(len(os.sched_getaffinity(0))) as pool:
        ended = [*pool.map(lambda it: differences(given.program, it[1]), all_scripts)]
    wrong = [f"{name}: {why}" for (name, _), (whys, _) in zip(all_scripts, ended) for why in whys]
    print(*wrong, sep="\n", end="\n" * bool(wrong))
    print(f"{sum(count for _, count in ended)} events and groups were tried")
    print(f"{len(ended) - len(wrong)} passed, {len(wrong)} failed", flush=True)
    raise SystemExit(bool(wrong))


if __name__ == "__main__":
    main()
