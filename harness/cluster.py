"""Nodes of `locks` as processes on this machine, each with a folder of its own.

The tests in tests/ and clients/, the scripts in bench/ and the examples use this. It imports none of them.
"""
import contextlib
import os
import random
import signal
import socket
import subprocess
import sys
import time

TOP = os.path.dirname(os.path.dirname(os.path.abspath(__file__)))


def built(program=None):
    """The path of the given program, or of the one that ./locks runs."""
    if program:
        return program
    command = [os.path.join(TOP, "locks"), "--path"]
    told = subprocess.run(command, stdin=subprocess.DEVNULL, stdout=subprocess.PIPE, text=True)
    return told.stdout.strip() or sys.exit(told.returncode)


def free_ports(count):
    """So many ports of 127.0.0.1 that nothing is bound to now, below those that the system gives to clients."""
    found = {}
    while len(found) < count:
        port = random.randrange(10_000, 32_000)
        with socket.socket(socket.AF_INET, socket.SOCK_DGRAM) as it, contextlib.suppress(OSError):
            it.bind(("127.0.0.1", port))
            found[port] = None
    return list(found)


def genesis_text(cluster, alpha, ports):
    """The text of a genesis with these ports by node. An alpha above 16 is that of a wide one, and ends in a `w`."""
    members = ",".join(f"{node}:{port}" for node, port in ports.items())
    return f"{cluster},{alpha}{'w' * (alpha > 16)},{members}"


class Cluster:
    """Processes of `locks node`, numbered from 1, whose stores stand in folders below the one that is given.

    All get the same further options. With `logs`, what node N tells on standard error goes to the file N.log there."""

    environment = None  # of the processes, if it is another one than that of this process

    def __init__(self, program, folder, nodes=3, alpha=8, cluster=5, options=(), logs=False):
        self.program, self.folder, self.cluster, self.options, self.logs = program, folder, cluster, options, logs
        self.ports = dict(enumerate(free_ports(nodes), 1))
        self.genesis = genesis_text(cluster, alpha, self.ports)
        self.processes = {}

    def __enter__(self):
        for node in list(self.ports):
            self.start(node)
        return self

    def __exit__(self, *_):
        for node in list(self.processes):
            self.kill(node)

    def command(self, node):
        """The command line of a node."""
        folder = os.path.join(self.folder, str(node))
        words = ["--genesis", self.genesis, "--number", str(node), "--port", str(self.ports[node]), "--dir", folder]
        return [self.program, "node", *words, *self.options]

    def start(self, node):
        """Starts a node, on what its folder holds."""
        os.makedirs(os.path.join(self.folder, str(node)), exist_ok=True)
        with open(self.log(node), "ab") if self.logs else contextlib.nullcontext() as told:
            piped = {"stdin": subprocess.DEVNULL, "stderr": told, "env": self.environment}
            self.processes[node] = subprocess.Popen(self.command(node), **piped)

    def log(self, node):
        """The file of what a node tells on standard error."""
        return os.path.join(self.folder, f"{node}.log")

    def kill(self, node):
        """Kills a node: it has no time to do anything more."""
        process = self.processes.pop(node)
        process.send_signal(signal.SIGKILL)
        process.wait()

    def client(self, kind, number, **how):
        """A client of that kind which knows each node's port; its first number is the milliseconds since 1970."""
        how.setdefault("first", time.time_ns() // 1_000_000)
        return kind(self.cluster, number, list(self.ports.values()), **how)
