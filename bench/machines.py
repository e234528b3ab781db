#!/usr/bin/env python3
"""Runs three nodes on three machines while clients hold locks: elects, cuts the leader off, parts the nodes, cuts one
way alone, loses, delays, repeats and reorders datagrams, forges and replays them, misuses a client's key, and checks
that no fence is given twice and no two clients hold a lock.

A machine is a network namespace of its own, joined to the others by a bridge in a fourth; nothing leaves them. Where
namespaces are not allowed, or with --loopback, the machines are 127.0.0.1, 127.0.0.2 and 127.0.0.3, with a relay
between them, and a node is stopped in place of being cut off. The last line is `N passed, M failed`; the status is 0
where none failed.
"""

import argparse
import itertools
import json
import os
import re
import shutil
import signal
import socket
import subprocess
import sys
import tempfile
import threading
import time

from cluster import TOP, genesis_text
from harness import frames
from harness.holders import faults
from harness.relay import Relay
from locks_client.seals import client_key

CLUSTER, PORT, ALPHA = 5, 7101, 2
NODES = (1, 2, 3)
KEY, MASTER = bytes([0x11]) * 32, bytes([0x22]) * 32
MAC, NOBODY = "02:00:00:00:00:", "02:00:00:00:01:"  # where hardware addresses begin: of machines, and of none
ASKER, HOLDERS = 7, (1, 2, 3, 4)  # the client that asks one thing, and those that hold locks all the time


class Score:
    """How many checks passed, and how many failed."""

    def __init__(self):
        self.passed = self.failed = 0

    def check(self, name, is_well, more=""):
        """Counts a check, and prints it."""
        self.passed, self.failed = self.passed + bool(is_well), self.failed + (not is_well)
        print(f"{'ok' if is_well else 'FAILED'}: {name}{more and ': '}{more}", flush=True)


def seal(key, purpose, bound, datagram, cluster=CLUSTER, alpha=ALPHA):
    """The frame of a datagram."""
    digest = frames.genesis_digest(cluster, alpha, dict.fromkeys(NODES, PORT))
    return frames.seal(key, purpose, cluster, digest, bound, datagram)


def prepare(round, node, first):
    """A Prepare of a ballot of that node, from that position on."""
    number = lambda n, width: n.to_bytes(width, "big")
    return b"LK\1\1" + number(CLUSTER, 8) + number(node, 4) + number(round, 8) + number(node, 4) + number(first, 8)


def request(client, number, body):
    """A Request with that body."""
    head = b"LK\1\11" + CLUSTER.to_bytes(8, "big") + bytes(4) + client.to_bytes(2, "big")
    return head + number.to_bytes(8, "big") + bytes([0, len(body)]) + body


def acquire(name):
    """The body that acquires a name."""
    return bytes([1, len(name)]) + name


def release(name, fence):
    """The body that releases a name."""
    return bytes([2, len(name)]) + name + fence.to_bytes(8, "big")


def client_seal(purpose, client, datagram, key=None):
    """The frame of a request of that client, or of a reply to it."""
    return seal(key or client_key(MASTER, client), purpose, client, datagram)


def run(*words):
    return subprocess.run(words, check=True, capture_output=True, text=True).stdout


class Namespaces:
    """A machine is a network namespace."""

    kind = "network namespaces"

    def __init__(self, nodes=NODES):
        self.nodes = nodes
        self.tag = f"lk{os.getpid() % 10000}"
        self.made = []
        self.join()
        for at in (*nodes, 9):
            self.machine(at)

    def join(self):
        """Makes what carries frames between the machines."""
        self.space("hub")
        run("ip", "-n", self.name("hub"), "link", "add", "bridge", "type", "bridge")
        run("ip", "-n", self.name("hub"), "link", "set", "bridge", "up")

    def name(self, of):
        return f"{self.tag}-{of}"

    def space(self, of):
        run("ip", "netns", "add", self.name(of))
        self.made.append(self.name(of))

    def link(self, at):
        """Gives a machine its device, the other end of which is in the bridge."""
        own, hub = self.name(at), self.name("hub")
        run("ip", "-n", hub, "link", "add", f"to{at}", "type", "veth", "peer", "name", "wire", "netns", own)
        run("ip", "-n", hub, "link", "set", f"to{at}", "master", "bridge", "up")

    def machine(self, at):
        self.space(at)
        self.link(at)
        own = self.name(at)
        run("ip", "-n", own, "link", "set", "wire", "address", f"{MAC}{at:02}")
        run("ip", "-n", own, "address", "add", f"{self.address(at)}/24", "dev", "wire")
        for device in ("lo", "wire"):
            run("ip", "-n", own, "link", "set", device, "up")
        for other in (*self.nodes, 9):
            self.carry(at, other, MAC)

    def address(self, at):
        return f"10.77.0.{at}"

    def at(self, machine, *words):
        return ["ip", "netns", "exec", self.name(machine), *words]

    def seen_by(self, node, other):
        """The address at which a node reaches another one."""
        return self.address(other)

    def carry(self, sender, receiver, mac):
        """What that machine sends to that other one goes to this hardware address from now on."""
        neighbour = [self.address(receiver), "lladdr", f"{mac}{receiver:02}", "dev", "wire", "nud", "permanent"]
        run("ip", "-n", self.name(sender), "neighbour", "replace", *neighbour)

    def block(self, *pairs):
        """Nothing goes from the first to the second of each pair, and the first is not told so."""
        for pair in pairs:
            self.carry(*pair, NOBODY)

    def unblock(self, *pairs):
        for pair in pairs:
            self.carry(*pair, MAC)

    def recorded(self, receiver):
        """Frames that nodes have sent to that one, where they were recorded."""
        return []

    def cut(self, node, process):
        run("ip", "-n", self.name(node), "link", "set", "wire", "down")

    def heal(self, node, process):
        run("ip", "-n", self.name(node), "link", "set", "wire", "up")

    def worsen(self):
        """From now on each way loses a fifth of the datagrams, repeats a fifth, and delays and reorders others."""
        rules = ["loss", "20%", "duplicate", "20%", "delay", "20ms", "20ms", "reorder", "25%"]
        for node in self.nodes:
            run("tc", "-n", self.name(node), "qdisc", "replace", "dev", "wire", "root", "netem", *rules)

    def mend(self):
        for node in self.nodes:
            run("tc", "-n", self.name(node), "qdisc", "del", "dev", "wire", "root")

    def end(self):
        for name in self.made:
            subprocess.run(["ip", "netns", "del", name], capture_output=True)


class Loopback:
    """A machine is an address of 127/8."""

    kind = "addresses of 127/8"

    def __init__(self, nodes=NODES):
        self.relay = Relay(nodes, PORT, self.address)

    def seen_by(self, node, other):
        return self.address(other) if node == other else self.relay.address(node, other)

    def block(self, *pairs):
        self.relay.cut |= set(pairs)

    def unblock(self, *pairs):
        self.relay.cut -= set(pairs)

    def recorded(self, receiver):
        return [frame for (_, to), frames in self.relay.kept.items() if to == receiver for frame in frames]

    def address(self, at):
        return f"127.0.0.{at}"

    def at(self, machine, *words):
        return list(words)

    def cut(self, node, process):
        process.send_signal(signal.SIGSTOP)

    def heal(self, node, process):
        process.send_signal(signal.SIGCONT)

    def worsen(self):
        self.relay.loss, self.relay.repeats, self.relay.delay = 0.2, 0.2, 0.04

    def mend(self):
        self.relay.loss = self.relay.repeats = self.relay.delay = 0.0

    def end(self):
        self.relay.end()


def machines(is_loopback, nodes=NODES):
    if not is_loopback:
        try:
            return Namespaces(nodes)
        except (OSError, subprocess.CalledProcessError) as error:
            print(f"no namespaces ({error}), so addresses of 127/8")
    return Loopback(nodes)


class Cluster:
    """Nodes, one on each machine. They and the clients have keys, or none where it is bare."""

    def __init__(self, program, world, folder, is_bare=False, nodes=NODES, alpha=ALPHA):
        self.program, self.world, self.folder, self.is_bare = program, world, folder, is_bare
        self.nodes, self.alpha, self.number, self.processes = nodes, alpha, 0, {}
        self.write("hosts", "".join(f"{node} {world.address(node)}\n" for node in nodes))
        for node in nodes:
            self.write(f"hosts{node}", "".join(f"{other} {world.seen_by(node, other)}\n" for other in nodes))
        self.write("key", KEY.hex() + "\n")
        self.write("master", MASTER.hex() + "\n")
        for client in (ASKER, *HOLDERS):
            words = [program, "client-key", "--master", f"{folder}/master", "--client", str(client)]
            self.write(f"client{client}", run(*words))

    def write(self, name, text):
        with open(os.open(f"{self.folder}/{name}", os.O_CREAT | os.O_WRONLY | os.O_TRUNC, 0o600), "w") as it:
            it.write(text)

    def start(self, node, *more):
        genesis = genesis_text(CLUSTER, self.alpha, dict.fromkeys(self.nodes, PORT))
        folder = f"{self.folder}/d{node}"
        os.makedirs(folder, exist_ok=True)
        words = ["node", "--genesis", genesis, "--number", str(node), "--port", str(PORT)]
        words += ["--dir", folder, "--hosts", f"{self.folder}/hosts{node}"]
        words += [] if self.is_bare else ["--key", f"{self.folder}/key", "--client-key", f"{self.folder}/master"]
        words += ["--verbose", *more]
        with open(f"{self.folder}/log{node}", "a") as log:
            command = self.world.at(node, self.program, *words)
            self.processes[node] = subprocess.Popen(command, stderr=log, stdin=subprocess.DEVNULL)

    def stop(self, node):
        self.processes[node].terminate()
        self.processes[node].wait()

    def log(self, node):
        with open(f"{self.folder}/log{node}") as it:
            return it.read()

    def ask(self, node, *op, client=ASKER, key=f"client{ASKER}", number=None):
        if number is None:
            self.number += 1
            number = self.number
        words = ["ask", "--cluster", str(CLUSTER), "--port", str(PORT)]
        words += ["--client", str(client), "--request", str(number)]
        words += ["--address", self.world.address(node), "--hosts", f"{self.folder}/hosts"]
        words += ["--client-key", f"{self.folder}/{key}"] if key else []
        command = self.world.at(9, self.program, *words, *op)
        return subprocess.run(command, capture_output=True, text=True).stdout.strip()

    def leader(self):
        """The node of the highest term that was begun, and its round."""
        begun = [it for node in self.nodes for it in re.findall(r"term (\d+)\.(\d+) begun", self.log(node))]
        return max(((int(round), int(node)) for round, node in begun), default=(0, 0))

    def send(self, node, *frames):
        """Sends bytes from the outsider's machine, and tells what comes back within half a second."""
        code = (
            "import socket,sys\n"
            "s=socket.socket(socket.AF_INET,socket.SOCK_DGRAM); s.settimeout(0.5)\n"
            "for it in sys.argv[3:]: s.sendto(bytes.fromhex(it),(sys.argv[1],int(sys.argv[2])))\n"
            "try:\n"
            " while True: print(s.recv(9000).hex())\n"
            "except socket.timeout: pass\n"
        )
        words = [sys.executable, "-c", code, self.world.address(node), str(PORT), *(it.hex() for it in frames)]
        return subprocess.run(self.world.at(9, *words), capture_output=True, text=True).stdout.split()

    def end(self):
        for it in self.processes.values():
            it.send_signal(signal.SIGCONT)
            it.terminate()
            it.wait()


def until(seconds, is_so):
    began = time.time()
    while time.time() - began < seconds:
        found = is_so()
        if found:
            return found, time.time() - began
        time.sleep(0.05)
    return None, seconds


def elect(cluster, score):
    """The nodes start, and grant a lock."""
    for node in NODES:
        cluster.start(node)
    found, took = until(10, lambda: cluster.leader()[1])
    score.check("a leader is elected", found, f"node {found} after {took:.1f} s")
    score.check("a client with the key is granted a lock", cluster.ask(1, "acquire", "db") == "granted 1")
    told = [until(10, lambda: cluster.ask(it, "ask", "db") == "held 7 1")[0] for it in NODES]
    score.check("any node answers, or names the leader on another machine", all(told))


def cut_off(cluster, world, score):
    """The leader is cut off, and comes back."""
    leader = cluster.leader()[1]
    others = [it for it in NODES if it != leader]
    world.cut(leader, cluster.processes[leader])
    found, took = until(20, lambda: cluster.ask(others[0], "release", "db", "1") in ("released", "not held"))
    score.check("the others go on without their leader", found, f"after {took:.1f} s")
    score.check("and grant a higher fence", cluster.ask(others[1], "acquire", "db") == "granted 2")
    world.heal(leader, cluster.processes[leader])
    found, took = until(20, lambda: cluster.ask(leader, "ask", "db") == "held 7 2")
    score.check("the former leader knows of it once it is back", found, f"after {took:.1f} s")


def forged(ballot, leader, follower):
    """Frames that a node has to drop, by what is wrong with each."""
    good = seal(KEY, 1, leader, ballot)
    return {
        "a Prepare without a seal": ballot,
        "under another key": seal(bytes([0x33]) * 32, 1, leader, ballot),
        "under the clients' master": seal(MASTER, 1, leader, ballot),
        "as a request under a client's key": client_seal(2, int.from_bytes(ballot[16:18], "big"), ballot),
        "sealed for another node": seal(KEY, 1, follower, ballot),
        "sealed in another cluster": seal(KEY, 1, leader, ballot, cluster=6),
        "sealed at another genesis": seal(KEY, 1, leader, ballot, alpha=ALPHA + 1),
        "with a bit changed": good[:-1] + bytes([good[-1] ^ 1]),
        "cut": good[:-1],
        "with a byte after it": good + b"\0",
        "the tag alone": good[:36],
    }


def next_ballot(cluster, term, leader, node):
    """A Prepare of that node in the next round, above all positions that the leader runs before it comes."""
    return prepare(term + 1, node, 10_000 + max(int(it) for it in re.findall(r"ran (\d+)", cluster.log(leader))))


def forge(cluster, score):
    """An outsider sends what it has forged, and then what is right: a node that hears nothing does not pass."""
    time.sleep(1)
    term, leader = cluster.leader()
    follower = next(it for it in NODES if it != leader)
    ballot = next_ballot(cluster, term, leader, follower)
    for name, frame in forged(ballot, leader, follower).items():
        back = cluster.send(leader, frame)
        score.check(f"dropped: {name}", not back and cluster.leader() == (term, leader))
    ends = cluster.log(leader).count(f"ended by Prepare of node {follower}")
    cluster.send(leader, seal(KEY, 1, leader, next_ballot(cluster, term, leader, follower)))
    found, _ = until(5, lambda: cluster.log(leader).count(f"ended by Prepare of node {follower}") > ends)
    score.check("with the key and for that node it is taken", found)


def ask_without_key(cluster, score):
    """Only a client with its own key is answered."""
    leader = cluster.leader()[1]
    asked = request(8, 1, acquire(b"x"))
    wrong = {
        "without a key": asked,
        "with the nodes' key in its place": client_seal(2, 8, asked, KEY),
        "with the master in its place": client_seal(2, 8, asked, MASTER),
        "in the name of another one": client_seal(2, 7, asked),
        "in the name of another one, under its own key": client_seal(2, 8, asked, client_key(MASTER, 7)),
    }
    for name, frame in wrong.items():
        score.check(f"a client is not heard {name}", not cluster.send(leader, frame))
    right = cluster.send(leader, client_seal(2, 8, asked))
    reply = right and bytes.fromhex(right[0])
    body = right and reply[36:]
    is_sealed = right and reply == client_seal(3, 8, body) and body[:4] == b"LK\1\12"
    score.check("one with its key is, and its reply is sealed", is_sealed)
    score.check("ask without the key has no answer", cluster.ask(leader, "ask", "db", key=None) == "no answer")


def misuse(cluster, work, score):
    """A client with its own key releases what others hold, at fences that they have, or are about to have."""
    last = max(fence for name, fence, _, _ in work.holds if name == "one")
    bodies = [release(b"one", fence) for fence in range(last, last + 200)]
    requests = (request(8, number, body) for number, body in enumerate(bodies, 2))
    back = cluster.send(cluster.leader()[1], *(client_seal(2, 8, it) for it in requests))
    answers = [bytes.fromhex(it)[36:][26] for it in back]
    are_refused = answers and set(answers) == {4}
    score.check("a client cannot release what another one holds", are_refused, f"{len(answers)} answers")


def beside(world, module, plan):
    """A module of the harness as a process on the outsider's machine, which runs until its input ends."""
    paths = os.pathsep.join([TOP, os.path.join(TOP, "clients", "python")])
    piped = {"stdin": subprocess.PIPE, "stdout": subprocess.PIPE, "text": True}
    command = world.at(9, sys.executable, "-m", module, json.dumps(plan))
    return subprocess.Popen(command, env=os.environ | {"PYTHONPATH": paths}, **piped)


class Work:
    """Clients that hold locks on the outsider's machine, and what they have held."""

    def __init__(self, cluster, **how):
        world, folder = cluster.world, cluster.folder
        endpoints = [(world.address(node), PORT) for node in cluster.nodes]
        keys = {client: None if cluster.is_bare else f"{folder}/client{client}" for client in HOLDERS}
        plan = {"cluster": CLUSTER, "endpoints": endpoints, "hosts": f"{folder}/hosts", "keys": keys, **how}
        self.holds = []
        self.process = beside(world, "harness.holders", {"names": ["one", "two"], **plan})
        self.reader = threading.Thread(target=self.read, daemon=True)
        self.reader.start()

    def read(self):
        for line in self.process.stdout:
            name, fence, begin, end = line.split()
            self.holds.append((name, int(fence), float(begin), float(end)))

    def since(self, begun):
        """How many holds began after that."""
        return sum(begin > begun for _, _, begin, _ in self.holds)

    def end(self):
        self.process.stdin.close()
        self.process.wait()
        self.reader.join()


def go_on(work, score, name):
    """Three locks are granted, and it takes less than half a minute."""
    begun = time.monotonic()
    found, took = until(30, lambda: work.since(begun) >= 3)
    score.check(f"clients go on {name}", found, f"after {took:.1f} s")


def stand_still(work, score, name):
    """Nothing is granted, since no majority answers a leader."""
    time.sleep(0.5)
    begun = time.monotonic()
    time.sleep(1.5)
    score.check(f"nothing is granted {name}", not work.since(begun))


def deafen(cluster, work, score):
    """The leader is heard and does not hear: another one takes its place, and it may lead again once it hears."""
    leader = cluster.leader()[1]
    cut = [(node, leader) for node in NODES if node != leader]
    cluster.world.block(*cut)
    found, took = until(30, lambda: cluster.leader()[1] != leader)
    score.check("a leader that is heard and does not hear is replaced", found, f"after {took:.1f} s")
    go_on(work, score, "without it")
    cluster.world.unblock(*cut)
    go_on(work, score, "once it hears again")


def part(cluster, work, score):
    """The leader is cut off, one way after the other too, and then all are."""
    world, pairs = cluster.world, list(itertools.permutations(NODES, 2))
    for is_away, is_towards, name in ((1, 1, "without their leader"), (1, 0, "where it is not heard")):
        leader = cluster.leader()[1]
        cut = [pair for pair in pairs if pair[0] == leader and is_away or pair[1] == leader and is_towards]
        world.block(*cut)
        go_on(work, score, name)
        world.unblock(*cut)
        go_on(work, score, "after that")
    world.block(*pairs)
    stand_still(work, score, "where two of three are cut off")
    world.unblock(*pairs)
    go_on(work, score, "after that")


def worsen(world, work, score):
    """Datagrams are lost, late, repeated and reordered, where the kernel can do that."""
    try:
        world.worsen()
    except subprocess.CalledProcessError as error:
        print(f"no netem: {error.stderr.strip()}")
        return
    for _ in range(3):
        go_on(work, score, "where datagrams are lost, late, repeated and in another order")
    world.mend()


def replay(cluster, work, score):
    """What was sealed for one node comes to another one, which drops it, and to itself again, which does no harm."""
    time.sleep(1)
    term, leader = cluster.leader()
    third, other = [node for node in NODES if node != leader]
    made = [seal(KEY, 1, other, prepare(term + 1, leader, first)) for first in range(1, 65)]
    cluster.send(third, *(cluster.world.recorded(other) or made)[:64], *made)
    counts = [0, *map(int, re.findall(r"datagrams that do not read: (\d+)", cluster.log(third)))]
    are_dropped = max(counts) >= 64 and cluster.leader() == (term, leader)
    score.check("what was sealed for a node is dropped by another", are_dropped, f"{max(counts)} dropped")
    old = {node: cluster.world.recorded(node) for node in NODES}
    for node in [*NODES] * 2:
        cluster.send(node, *old[node])
    if any(old.values()):
        go_on(work, score, f"where nodes hear {sum(map(len, old.values()))} frames twice more")


def tell_story(cluster, world, score):
    """All of it, one after another."""
    elect(cluster, score)
    work = Work(cluster)
    go_on(work, score, "at first")
    cut_off(cluster, world, score)
    part(cluster, work, score)
    deafen(cluster, work, score)
    ask_without_key(cluster, score)
    misuse(cluster, work, score)
    forge(cluster, score)
    replay(cluster, work, score)
    worsen(world, work, score)
    go_on(work, score, "after all of it")
    work.end()
    wrong = faults(work.holds)
    holds = f"{len(work.holds)} holds {wrong[:3] or ''}"
    score.check("no fence was given twice, and no lock held by two", not wrong, holds)


def main():
    parser = argparse.ArgumentParser(description=__doc__, formatter_class=argparse.RawDescriptionHelpFormatter)
    parser.add_argument("program", help="the built program")
    parser.add_argument("--loopback", action="store_true", help="use addresses of 127/8 and no namespaces")
    parser.add_argument("--keep", action="store_true", help="keep the folder with the logs")
    options = parser.parse_args()
    world, score = machines(options.loopback), Score()
    folder = tempfile.mkdtemp(prefix="machines-")
    cluster = Cluster(os.path.abspath(options.program), world, folder)
    print(f"machines are {world.kind}; logs are in {folder}")
    try:
        tell_story(cluster, world, score)
    finally:
        cluster.end()
        world.end()
        if not options.keep:
            shutil.rmtree(folder)
    print(f"{score.passed} passed, {score.failed} failed")
    return score.failed > 0


if __name__ == "__main__":
    sys.exit(main())
