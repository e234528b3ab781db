#!/usr/bin/env python3
"""Runs the first lines of a script of world mode and a few lines more, and reads what the program prints.

`locks sim` prints what happens and, with `--state`, what the disks of nodes come to. What else a node holds
tools/story.py asks: each question is a run of the script up to an event and of a few more lines, and their output is
the answer."""
import functools
import itertools
import re

from draw import printed
from scripting import parser

ROUNDS = 12  # of deliveries, after which a run that is led on has ended
SENT = re.compile(r"sent (\d+) ([nc]\d+) ([nc]\d+) (\w+)")
RAN = re.compile(r"ran (\d+) (\d+) (.*)")


def datagrams(lines):
    """The datagrams that are printed as sent: number, sender, receiver and kind."""
    found = (SENT.fullmatch(line) for line in lines)
    return [(int(it[1]), it[2], it[3], it[4]) for it in found if it]


def executed(lines, node):
    """The positions that this node executes, in order, each with its command."""
    found = (RAN.fullmatch(line) for line in lines)
    return [(int(it[2]), it[3]) for it in found if it and int(it[1]) == node]


def counted(lines, node):
    """The positions at which this node counts a majority of votes."""
    return [int(line.split()[2]) for line in lines if line.startswith(f"counted {node} ")]


def asked_first(lines, node):
    """Whom a node asks for promises when it first stands for election in these lines: the members as it knows them."""
    asked = []
    for _, sender, receiver, kind in datagrams(lines):
        if receiver in asked:
            break
        if (sender, kind) == (f"n{node}", "prepare"):
            asked.append(receiver)
    return asked


def without_end(lines):
    """What was printed, without the number of events at its end."""
    return lines[:-1] if lines and lines[-1].startswith("done ") else lines


class Runs:
    """Runs of the first lines of a script and of some lines more."""

    def __init__(self, program, lines):
        self.program, self.lines = program, lines
        self.printed = functools.lru_cache(None)(lambda lines: printed(program, lines)[0])
        self.states = functools.lru_cache(None)(lambda count: printed(program, lines[:count], "--state")[0])

    def after(self, count, more):
        """What the lines more print, after this many lines of the script."""
        first = tuple(self.lines[:count])
        before, output = without_end(self.printed(first)), without_end(self.printed((*first, *more)))
        return output[len(before):]

    def inspected(self, count, node):
        """What `locks sim --state` prints of a node's disks after this many lines of the script."""
        states = self.states(count)
        at = next(place for place, line in enumerate(states) if re.fullmatch(rf"node {node} \w+", line))
        return list(itertools.takewhile(lambda line: not re.match("node |datagrams ", line), states[at + 1:]))

    def led_on(self, count, more, nodes, is_wanted=lambda *_: True, is_done=lambda output: False):
        """Goes on by delivering once what is sent to these nodes and wanted, until nothing more is sent or it is done.
        Gives what is printed, and all lines that were added."""
        given = {int(line.split()[1]) for line in more if line.startswith("deliver ")}
        for _ in range(ROUNDS):
            output = self.after(count, more)
            to_them = [it for it in datagrams(output) if it[2] in nodes and is_wanted(*it[1:])]
            new = [number for number, *_ in to_them if number not in given]
            if not new or is_done(output):
                break
            given |= {*new}
            more = [*more, *(f"deliver {number}" for number in new)]
        return output, more


if __name__ == "__main__":
    parser(__doc__).parse_args()
