#!/usr/bin/env python3
"""Two writers, one lock, and a page that looks at fences: the late write of a writer that was asleep does no harm.

Writer 1 holds the lock and is paused as by a machine that is overloaded (SIGSTOP). A lock has no time limit, so an
operator, who takes it for dead, breaks it; the table is raised for that. Writer 2 gets the lock, at a higher fence.
Then writer 1 wakes up and writes, since it has seen nothing of all this.
"""
import argparse
import os
import signal
import subprocess
import sys
import tempfile

HERE = os.path.dirname(os.path.abspath(__file__))
TOP = os.path.join(HERE, "..", "..")
sys.path[:0] = [TOP, os.path.join(TOP, "clients", "python")]
import page  # noqa: E402
from harness.cluster import Cluster, built  # noqa: E402
from locks_client import Client  # noqa: E402


class Writer:
    """A process of writer.py, whose lines are printed."""

    def __init__(self, cluster, number, path):
        words = [str(cluster.cluster), str(number), path, *map(str, cluster.ports.values())]
        script = os.path.join(HERE, "writer.py")
        self.process = subprocess.Popen(
            [sys.executable, script, *words], stdin=subprocess.PIPE, stdout=subprocess.PIPE, text=True
        )

    def __enter__(self):
        return self

    def __exit__(self, *_):
        self.process.kill()
        self.process.communicate()

    def says(self, lines):
        """Waits for so many lines of it, and prints them."""
        for _ in range(lines):
            print(self.process.stdout.readline(), end="", flush=True)

    def goes_on(self):
        """Its work is done: it writes once more, and ends."""
        self.process.stdin.write("\n")
        self.process.stdin.flush()
        print(self.process.stdout.read(), end="", flush=True)


def break_lock(cluster):
    """Frees the lock of whoever holds it: an operator, with a client number of its own."""
    with cluster.client(Client, 9) as operator:
        operator.raise_table()
        operator.break_lock("page", operator.ask("page").fence)


def late_write(cluster, path):
    """What happens, on a page that nobody has written."""
    with Writer(cluster, 1, path) as one:
        one.says(2)
        one.process.send_signal(signal.SIGSTOP)
        break_lock(cluster)
        print("writer 1 is paused, and an operator breaks its lock", flush=True)
        with Writer(cluster, 2, path) as two:
            two.says(2)
            print("writer 1 wakes up", flush=True)
            one.process.send_signal(signal.SIGCONT)
            one.goes_on()
            two.goes_on()


def main():
    parser = argparse.ArgumentParser(description=__doc__, formatter_class=argparse.RawDescriptionHelpFormatter)
    parser.add_argument("program", nargs="?", help="the program, by default the one that ./locks runs")
    program = built(parser.parse_args().program)
    with tempfile.TemporaryDirectory() as folder, Cluster(program, folder) as cluster:
        path = os.path.join(folder, "page.sqlite")
        page.make(path)
        late_write(cluster, path)
        fence, text = page.read(path)
        print(f"the page holds {text!r}, of fence {fence}")


if __name__ == "__main__":
    main()
