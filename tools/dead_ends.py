#!/usr/bin/env python3
"""Lets clusters go on from states that ticks do not leave, and checks that nudges leave them.

Each script of runs/dead_ends/ leads to such a state. Afterwards nothing is lost, and nobody stops or starts. A round is
a tick of each node that is up and then all deliveries, in order, until nothing is left; in each round a client asks
another node. With ticks alone its request is not answered in 70 rounds. With a nudge in place of each 31st tick it has
to be answered within 70, and the script says in which.

This is a test and no theorem. The last line is `N passed, M failed`, of scripts, and the status is 1 if one failed."""
from heal import CLIENTS, SENT, TICKS_A_NUDGE, Cluster, Unhealed
from scripting import TOP, Tally, with_program

ROUNDS = 70


class Stuck(Cluster):
    """A cluster of which everything sent so far has arrived or is lost."""

    def __init__(self, program, lines):
        super().__init__(program, lines)
        self.next += len(SENT.findall(self.printed))
        self.up = {node for node, is_up, *_ in self.left() if is_up}


def answered(program, lines, each):
    """In which round the request is answered, if it is."""
    try:
        return Stuck(program, lines).rounds(CLIENTS[0], ROUNDS, each)
    except Unhealed:
        return None


def main():
    program, tally = with_program(__doc__).parse_args().program, Tally()
    for script in sorted((TOP / "runs/dead_ends").glob("*.txt")):
        lines = script.read_text().splitlines()
        without, with_nudges = (answered(program, lines, each) for each in (ROUNDS + 1, TICKS_A_NUDGE))
        wrong = "answered without a nudge" * bool(without) or "not answered" * (with_nudges is None)
        tally.row(f"{script.stem}, answered in round {with_nudges}", wrong)
    tally.end()


if __name__ == "__main__":
    main()
