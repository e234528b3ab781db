"""Stops of a node, which is a cluster by itself, at each call that changes its files, while a client works."""
import concurrent.futures
import contextlib
import os
import subprocess
import tempfile
import time

from harness.cluster import Cluster
from harness.forking import library
from harness.summed import OTHER, entries, of_generation, one_before
from locks_client import Client, Held

STOPPED = 99  # the status of a node that tools/stopping.c has stopped
ALL = 1 << 30
PAIRS = 6  # of a release and an acquire, until a node counts as not stopped
SECONDS = 60  # at most for these


class Wrong(Exception):
    """What a node did that it may not do."""


class Alone(Cluster):
    """A node that is a cluster by itself, and client 7, which holds `db` at the last fence that it was told."""

    def __init__(self, program, folder, library_path):
        super().__init__(program, folder, nodes=1, alpha=2, logs=True)
        self.library, self.last, self.number, self.kept = library_path, 0, 1, None
        self.spoilt = None

    def prepare(self, options, requests):
        """Begins its store, and leaves it after so many requests."""
        self.options = options
        with self, self.asking(30.0) as client:
            self.last = client.acquire("db")
            for _ in range((requests - 1) // 2):
                client.release("db", self.last)
                self.last = client.acquire("db")
        self.kept = self.files(), self.last

    def spoil(self):
        """Puts a damaged file beside the live one: of the generation before, with a wrong sum at its end."""
        files, last = self.kept
        [(name, live)] = [(name, data) for name, data in zip("ab", files) if data]
        other, older = one_before(name, live)
        self.spoilt = other, older[:-1] + bytes([older[-1] ^ 1])
        self.kept = [self.spoilt[1] if name == other else data for name, data in zip("ab", files)], last

    def outdate(self):
        """Puts a newer file beside the live one: of the next generation, with the same entries, and with sums."""
        files, last = self.kept
        [(name, older)] = [(name, data) for name, data in zip("ab", files) if data]
        found = entries(older)
        newer = of_generation(int.from_bytes(found[0][5:13], "big") + 1, OTHER[name], found)
        self.kept = [older if it == name else newer for it in "ab"], last

    def is_spoilt_alone(self, text):
        """Whether `scrub` wrote only that the spoilt file is damaged, and this has nothing but its first bytes."""
        if self.spoilt is None:
            return False
        name, data = self.spoilt
        live = "b" if name == "a" else "a"
        with open(self.path(name), "rb") as file:
            left = file.read()
        return f"/{live}: sums right" in text and f"/{name}: wrong sum" in text and data.startswith(left)

    def asking(self, patience):
        """Client 7, whose numbers go on."""
        self.number += 10_000
        return self.client(Client, 7, first=self.number, patience=patience)

    def run(self, *words):
        """Runs the program on its folder. Its status and what it printed."""
        command = [self.program, *words, "--dir", os.path.join(self.folder, "1")]
        run = subprocess.run(command, stdin=subprocess.DEVNULL, capture_output=True, text=True)
        return run.returncode, run.stdout + run.stderr

    def path(self, name):
        return os.path.join(self.folder, "1", name)

    def files(self):
        """The bytes of its files."""
        found = []
        for name in "ab":
            with open(self.path(name), "rb") as file:
                found.append(file.read())
        return found

    def put_back(self):
        """Its files as they were prepared."""
        files, self.last = self.kept
        for name, data in zip("ab", files):
            with open(self.path(name), "wb") as file:
                file.write(data)

    def start_to_stop(self, at, more):
        """Starts it so that it stops at its change of that number."""
        told = {"LD_PRELOAD": self.library, "STOP_AT": str(at), "STOP_BYTES": str(more)}
        piped = {"stdin": subprocess.DEVNULL, "stderr": subprocess.DEVNULL, "env": {**os.environ, **told}}
        self.processes[1] = subprocess.Popen(self.command(1), **piped)

    def pair(self):
        """A release, if the client holds the name, and an acquire."""
        with self.asking(0.5) as client:
            held = client.ask("db")
            if isinstance(held, Held):
                client.release("db", held.fence)
            self.last = client.acquire("db")

    def works_until_it_stops(self):
        """Asks until the node stops. Whether it did."""
        process, end, done = self.processes[1], time.monotonic() + SECONDS, 0
        while process.poll() is None and done < PAIRS and time.monotonic() < end:
            with contextlib.suppress(Exception):
                self.pair()
                done += 1
        if process.poll() is None:
            self.kill(1)
            if done < PAIRS:
                raise Wrong("it answers too slowly")
            return False
        del self.processes[1]
        if process.returncode != STOPPED:
            raise Wrong(f"status {process.returncode}")
        return True

    def is_stopped(self, options, at, more):
        """Stops it at that change, if it comes so far, and looks whether a restart knows all that was answered."""
        self.put_back()
        self.options = options
        self.start_to_stop(at, more)
        if not self.works_until_it_stops():
            return False
        status, text = self.run("scrub")
        if status and not self.is_spoilt_alone(text):
            raise Wrong(f"scrub: {text}")
        with self, self.asking(30.0) as client:
            held = client.ask("db")
            if isinstance(held, Held) and held.fence < self.last:
                raise Wrong(f"fence {held.fence} after {self.last}")
            if client.acquire("other") < 1:
                raise Wrong("no fence")
        status, text = self.run("dump")
        if status:
            raise Wrong(f"dump: {text}")
        return True


def swept(program, before, after, requests, numbers, left, prepare):
    """One worker's part of a sweep."""
    count, wrong = 0, []
    with tempfile.TemporaryDirectory() as folder:
        node = Alone(program, folder, library(folder, "stopping"))
        node.prepare(before, requests)
        prepare(node)
        for at in numbers:
            for more in left:
                try:
                    if not node.is_stopped(after, at, more):
                        return count, wrong
                    count += 1
                except Exception as why:  # pylint: disable=broad-except
                    wrong.append(f"stop {at}, {more} bytes: {why!r}")
    return count, wrong


def as_it_is(_node):
    """Leaves the store as it was prepared."""


def sweep(program, before, after, requests=248, numbers=range(1, 200), left=(0, 1, ALL), workers=4, prepare=as_it_is):
    """Stops a node with the options `after` at each of these changes, on a store that one with the options `before` has
    left, and keeps so many of the bytes that were not synced. `prepare` changes the store before that: `Alone.spoil`,
    `Alone.outdate`. How many stops there were, and what went wrong."""
    with concurrent.futures.ThreadPoolExecutor(workers) as pool:
        parts = [
            pool.submit(swept, program, before, after, requests, numbers[first::workers], left, prepare)
            for first in range(workers)
        ]
    found = [part.result() for part in parts]
    return sum(count for count, _ in found), [it for _, wrong in found for it in wrong]
