#!/usr/bin/env python3
"""Runs `rt ci` in the current folder, in less time: `./prove` calls it in a copy of the crates.

`rt ci` gives a proof the processors that no other proof waits for, often a single one. Here the crate with the longest
chain of crates above it gets all processors. Others run beside it at a lower priority: two processors for a crate whose
chain is nearly as long, one for any other. What has to be proved, and how, is left to `rt ci`, and where the kit keeps
what it has proved, that as well. Where it does not, tools/keeping.py keeps it in the folder KEPT, and the hash of a
crate is computed once: such a kit computes it for each path through crates.txt, of which there are thousands.

The kit does not promise the functions that are replaced here. Where it has no such functions, this is plain `rt ci`."""
import contextlib
import functools
import os
import sys
from concurrent.futures import FIRST_COMPLETED, ThreadPoolExecutor, wait

from keeping import OwnStore, command_of, keeps
from scripting import need, parser

READING = 20  # lines of code that cost as much as reading a library
NEARLY = 2 / 3
MEMORY = 0.85  # the share of the free memory that proofs may take, as in `rt ci`
EACH_JOB = 0.3  # the memory of one more job of a proof, as a share of that of the first: they are forks of it
NICE = (0, 5, 10)  # of the longest chain, of one nearly as long, of the others


def is_known(rt):
    """Whether the kit has the functions that are replaced, and those that take their place call."""
    of_crate = ("stamp", "below")
    has_all = all(hasattr(rt, it) for it in ("in_lanes", "processors", "free", "rtlib"))
    return has_all and all(hasattr(rt.rtlib.Crate, it) for it in of_crate)


def are_known(tasks):
    """Whether the tasks of `rt ci` have the form that is expected here."""
    return all(len(key) == 2 and len(task) == 4 for key, task in tasks.items())


def chains(tasks):
    """The work of each task with the longest chain of tasks that wait for it."""
    behind = dict.fromkeys(tasks, 0)
    for key in reversed([*tasks]):  # a task comes after those that it waits for
        waits, lines, *_ = tasks[key]
        behind[key] += lines + READING * (5 + len(waits))
        for it in waits:
            behind[it] = max(behind[it], behind[key])
    return behind


class Lanes:
    """The tasks of `rt ci`, side by side. A task is what it waits for, its lines, its memory, and a call."""

    def __init__(self, rt, store, tasks):
        self.store, self.tasks, self.behind = store, tasks, chains(tasks)
        self.processors, self.memory = rt.processors(), MEMORY * rt.free()
        self.left = sorted(tasks, key=lambda it: -self.behind[it])
        self.running, self.given = {}, {}

    def run(self):
        """Runs all tasks, and returns what each has given."""
        with contextlib.ExitStack() as stack:
            pools = [stack.enter_context(self.pool(it)) for it in NICE]
            while self.left or self.running:
                for key in self.ready():
                    self.start(key, pools)
                for it in wait(self.running, return_when=FIRST_COMPLETED).done:
                    self.given[self.running.pop(it)[0]] = it.result()
        return self.given

    def pool(self, niceness):
        """Threads that start what they run with this niceness."""
        return ThreadPoolExecutor(self.processors + 1, initializer=os.nice, initargs=[niceness])

    def ready(self):
        """The tasks whose turn may have come, those with the longest chain first."""
        return [it for it in self.left if all(below in self.given for below in self.tasks[it][0])]

    def rank(self, key):
        """0 for the task with the longest chain of all that have not ended, 1 for one nearly as long, or else 2."""
        longest = max(map(self.behind.get, [*self.left, *(it for it, *_ in self.running.values())]))
        return 0 if self.behind[key] == longest else 1 if self.behind[key] >= NEARLY * longest else 2

    def start(self, key, pools):
        """Starts a task if it has the longest chain of all, or if there is memory and, unless its chain is nearly as
        long, a processor."""
        rank = self.rank(key)
        jobs = min((self.processors, 2, 1)[rank], self.processors)
        memory = self.tasks[key][2] * (1 + EACH_JOB * (jobs - 1))
        room = self.memory - sum(it for _, it in self.running.values())
        is_free = memory <= room and (rank == 1 or len(self.running) <= self.processors)
        if not self.running or rank == 0 or is_free:
            self.left.remove(key)
            self.running[pools[rank].submit(self.task, key, jobs)] = key, memory

    def task(self, key, jobs):
        """Proves a crate, or takes what is kept of it. Tests are left out."""
        (name, kind), call = key, self.tasks[key][3]
        if kind != "proof":
            return kind == "tests" or call(self.given, jobs)
        if not self.store:
            return call(self.given, jobs)
        if self.store.take(name):
            print(f"rt: {name} is kept", flush=True)
            return True
        is_proved = call(self.given, jobs)
        if is_proved:
            self.store.put(name)
        return is_proved


def main():
    arguments = parser(__doc__)
    arguments.add_argument("--anew", action="store_true", help="prove each crate, also those that are kept")
    arguments.add_argument("kept", metavar="KEPT", help="the folder of what was proved, where the kit keeps nothing")
    chosen = arguments.parse_args()
    need("rt")
    rt = command_of("rt")
    if not is_known(rt):
        os.execvp("rt", ["rt", "ci"])
    in_lanes = rt.in_lanes
    rt.rtlib.Crate.stamp = functools.cache(rt.rtlib.Crate.stamp)
    store_of = (lambda: None) if keeps(rt) else (lambda: OwnStore(chosen.kept, rt, chosen.anew))
    rt.in_lanes = lambda tasks: Lanes(rt, store_of(), tasks).run() if are_known(tasks) else in_lanes(tasks)
    sys.exit(rt.main(["ci", "--anew"] if chosen.anew and keeps(rt) else ["ci"]))


if __name__ == "__main__":
    main()
