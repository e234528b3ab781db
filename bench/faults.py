#!/usr/bin/env python3
"""Faults of processes, disks and the network, each in a cluster of its own, as clients and an operator see them.

Usage: bench/faults.py PROGRAM [STORY ..] [--keep]

Each story starts nodes with keys on machines that are network namespaces, so it needs root and Linux. A way between two
of them can be cut, which no sender is told. Meanwhile clients hold locks, and one asks all nodes ten times a second.
A story prints what was seen, and checks how long nobody was answered, what `locks status` and the events say, and that
no fence or time was given twice. Without a STORY all are told; --help has their names. The last line is `N passed, M
failed`; the status is 0 where none failed. A busy machine makes times longer: its load is printed first.
"""
import contextlib
import itertools
import os
import re
import signal
import sys
import time

from machines import Work
from operating import LOST, SOON, Stories, run, until

MEMBERS = (1, 2, 3)
CROWD = range(21, 41)  # clients
STORIES = Stories()
story = STORIES.add


def others_of(leader, nodes=MEMBERS):
    return [node for node in nodes if node != leader]


def ways_to(node, nodes=MEMBERS):
    """The ways from the others to a node."""
    return [(other, node) for other in others_of(node, nodes)]


def ways_from(node, nodes=MEMBERS):
    return [(node, other) for other in others_of(node, nodes)]


# ---- processes


@story
def start(make):
    """Three nodes start, and a request is sent at once."""
    with make() as scene:
        began = time.monotonic()
        scene.cluster.start_all()
        answer = scene.cluster.does("acquire", "db")
        scene.check("a request right after the start is answered", answer == "granted 1", f"{answer}, after "
                    f"{time.monotonic() - began:.1f} s")
        scene.cluster.kill(3)
        status, text = scene.cluster.status()
        scene.check("status tells that one is down", status == 0 and "majority: 2 of 3 up" in text)
        scene.note(text.replace("\n", " | "))


@story
def kill_the_leader(make):
    """The leader is killed eight times under load."""
    with make() as scene:
        scene.begin()
        named = []
        for _ in range(8):
            leader, begin = scene.cluster.led()[0], time.monotonic()
            scene.cluster.kill(leader)
            until(SOON, lambda: scene.cluster.led(leader)[0] and scene.cluster.status()[0] == 0)
            named.append(time.monotonic() - begin)
            scene.served_within(f"node {leader} is killed", begin)
            scene.cluster.start(leader)
            scene.cluster.ready()
        scene.note(f"status 0 again after {min(named):.1f} to {max(named):.1f} s")


@story
def stop_the_leader(make):
    """The leader is stopped for four seconds, three times."""
    with make() as scene:
        scene.begin()
        for _ in range(3):
            leader, begin = scene.cluster.led()[0], time.monotonic()
            mark = scene.cluster.mark(leader)
            scene.cluster.processes[leader].send_signal(signal.SIGSTOP)
            time.sleep(4.0)
            scene.cluster.processes[leader].send_signal(signal.SIGCONT)
            scene.served_within(f"node {leader} is stopped", begin)
            scene.check("it says that it leads no more", scene.cluster.tells(leader, "no longer leads", mark))
            scene.cluster.ready()


# ---- disks


@story
def full_disk(make):
    """The disk of the leader, and of a follower, is full."""
    with make() as scene:
        places = [f"{scene.cluster.folder}/d{node}" for node in MEMBERS]
        for place in places:
            os.makedirs(place)
            run("mount", "-t", "tmpfs", "-o", "size=600k", "tmpfs", place)
        try:
            tell_full_disk(scene)
        finally:
            scene.cluster.end()
            for place in places:
                run("umount", "-l", place)


def tell_full_disk(scene):
    scene.begin()
    for is_leader in (True, False):
        leader = scene.cluster.led()[0]
        node = leader if is_leader else others_of(leader)[0]
        begin, fill = time.monotonic(), f"{scene.cluster.folder}/d{node}/fill"
        with open(fill, "wb", buffering=0) as it, contextlib.suppress(OSError):
            while it.write(bytes(4096)):
                pass
        process = scene.cluster.processes[node]
        ended = until(SOON, lambda: process.poll() is not None)
        scene.check(f"node {node}, whose disk is full, ends", ended[0], f"after {ended[1]:.1f} s")
        last = scene.cluster.log(node).splitlines()[-3:]
        scene.check("and says so", any("No space left" in it for it in last) and last[-1] == "fault 7", last[-1])
        scene.served_within("the others serve", begin)
        os.remove(fill)
        scene.cluster.start(node)
        status, text = scene.cluster.ready()
        scene.check("once there is room it starts with all that it had", status == 0, text.splitlines()[-1])


@story
def small_disks(make):
    """Three disks of 600 kB hold a cluster under load."""
    with make() as scene:
        places = [f"{scene.cluster.folder}/d{node}" for node in MEMBERS]
        for place in places:
            os.makedirs(place)
            run("mount", "-t", "tmpfs", "-o", "size=600k", "tmpfs", place)
        try:
            scene.begin()
            took = scene.watch(15)
            alive = all(it.poll() is None for it in scene.cluster.processes.values())
            scene.check("all run on", alive and took <= LOST, f"{took:.1f} s without an answer at most")
        finally:
            scene.cluster.end()
            for place in places:
                run("umount", "-l", place)


@story
def failing_disk(make):
    """A sync or a write of a follower fails."""
    for call in ("fdatasync", "write"):
        with make() as scene:
            scene.begin()
            node = others_of(scene.cluster.led()[0])[0]
            scene.cluster.kill(node)
            files = [word for it in "ab" for word in ("-P", f"{scene.cluster.folder}/d{node}/{it}")]
            inject = ["strace", "-qq", "-o", "/dev/null", *files, "-e", f"inject={call}:error=EIO:when=40+"]
            begin, process = time.monotonic(), scene.cluster.start(node, before=inject)
            until(SOON, lambda: process.poll() is not None)
            last = scene.cluster.log(node).splitlines()[-3:]
            well = any("Input/output error" in it for it in last) and last[-1] == "fault 7"
            scene.check(f"a node ends whose {call} fails", well, last)
            scene.served_within("the others serve", begin)
            scene.cluster.start(node)
            status, text = scene.cluster.ready()
            scene.check("it starts with all that it had", status == 0, text.splitlines()[-1])


# ---- one way, and both


@story
def parted_leader(make):
    """The leader is parted from its peers, and clients reach all."""
    with make() as scene:
        scene.begin()
        leader, begin = scene.cluster.led()[0], time.monotonic()
        mark = scene.cluster.mark(leader)
        scene.world.block(*ways_to(leader), *ways_from(leader))
        new, _ = scene.cluster.led(leader)
        took = time.monotonic() - begin
        scene.check("another one leads", new, f"node {new} after {took:.1f} s")
        scene.served_within("clients go on", begin)
        scene.check("the old one says whom it hears", scene.cluster.tells(leader, "hears 1 of 3 members, no", mark))
        scene.note(scene.cluster.status()[1].replace("\n", " | "))
        scene.world.unblock(*ways_to(leader), *ways_from(leader))
        scene.check("all are ready once they hear each other", scene.cluster.ready()[0] == 0)


@story
def mute_leader(make):
    """The leader hears its peers, and they do not hear it."""
    with make() as scene:
        scene.begin()
        leader, begin = scene.cluster.led()[0], time.monotonic()
        scene.world.block(*ways_from(leader))
        new, _ = scene.cluster.led(leader)
        scene.check("another one leads", new, f"after {time.monotonic() - begin:.1f} s")
        scene.served_within("clients go on", begin)
        scene.note(scene.cluster.status()[1].replace("\n", " | "))


@story
def deaf_leader(make):
    """The leader does not hear its peers, who hear it. Clients and the operator reach all."""
    with make() as scene:
        scene.begin()
        leader, begin = scene.cluster.led()[0], time.monotonic()
        mark = scene.cluster.mark(leader)
        scene.world.block(*ways_to(leader))
        seen, took = until(SOON, lambda: scene.cluster.status()[0] == 1)
        scene.check("status tells that nothing is decided", seen, f"after {took:.1f} s")
        new, _ = scene.cluster.led(leader)
        scene.check("another one leads", new, f"after {time.monotonic() - begin:.1f} s")
        scene.served_within("clients go on", begin)
        scene.check("the deaf one says so", scene.cluster.tells(leader, "hears 1 of 3 members, no majority", mark))
        took = scene.watch(20)
        scene.check("and it stays so", took <= LOST, f"{took:.1f} s without an answer at most")
        scene.note(scene.cluster.status()[1].replace("\n", " | "))
        scene.world.unblock(*ways_to(leader))
        scene.check("all are ready once it hears again", scene.cluster.ready()[0] == 0)


@story
def deaf_leader_of_two(make):
    """The same with one node down, so nobody can serve: the operator has to be told."""
    with make() as scene:
        scene.begin()
        leader = scene.cluster.led()[0]
        down, other = others_of(leader)
        scene.cluster.kill(down)
        mark = scene.cluster.mark(leader)
        scene.world.block((other, leader))
        seen, took = until(SOON, lambda: scene.cluster.status()[0] == 1)
        time.sleep(2)
        status, text = scene.cluster.status()
        scene.check("status tells that nothing is decided", seen and status == 1, f"after {took:.1f} s")
        scene.check("the leader says so", scene.cluster.tells(leader, "hears 1 of 3 members, no majority", mark))
        scene.note(text.replace("\n", " | "))
        begin = time.monotonic()
        scene.world.unblock((other, leader))
        scene.served_within("clients go on once it hears again", begin)


@story
def deaf_follower(make):
    """A follower does not hear the others, who hear it."""
    with make() as scene:
        scene.begin()
        leader = scene.cluster.led()[0]
        node, begin = others_of(leader)[0], time.monotonic()
        mark = scene.cluster.mark(node)
        scene.world.block(*ways_to(node))
        took = scene.watch(15)
        scene.check("clients go on", took <= 1.5, f"{took:.1f} s without an answer at most")
        scene.check("under the same leader", scene.cluster.leader() == leader)
        scene.check("the node says so", scene.cluster.tells(node, "hears 1 of 3 members, no majority", mark))
        text = scene.cluster.status()[1]
        named = re.findall(r"why: node (\d) hears no majority", text)
        scene.check("status names it, and no other", named == [str(node)] and text.count("why:") == 1, named)
        scene.note(text.replace("\n", " | "))


@story
def two_that_share_a_third(make):
    """Two nodes do not hear each other, and both hear and are heard by a third."""
    with make() as scene:
        scene.begin()
        leader = scene.cluster.led()[0]
        other = others_of(leader)[0]
        scene.world.block((leader, other), (other, leader))
        before = len(scene.probing.answers)
        took = scene.watch(30)
        answers = len(scene.probing.answers) - before
        scene.check("clients go on", took <= LOST, f"{answers} answers in 30 s, {took:.1f} s without one at most")
        begun = sum(scene.cluster.log(node).count(" begun") for node in MEMBERS)
        scene.note(f"{begun} terms since the start")


@story
def flapping(make):
    """All ways are cut and joined by turns."""
    with make() as scene:
        scene.begin()
        ways = list(itertools.permutations(MEMBERS, 2))
        for seconds in (0.5, 2.0):
            longest = 0.0
            for _ in range(int(16 / seconds / 2)):
                scene.world.block(*ways)
                time.sleep(seconds)
                scene.world.unblock(*ways)
                longest = max(longest, scene.watch(seconds))
            scene.note(f"{seconds} s: {longest:.1f} s without an answer at most while all hear each other")
        begin = time.monotonic()
        scene.served_within("clients go on after that", begin)


@story
def link_down(make):
    """The link of the leader is down for six seconds."""
    with make() as scene:
        scene.begin()
        leader, begin = scene.cluster.led()[0], time.monotonic()
        mark = scene.cluster.mark(leader)
        scene.world.cut(leader, None)
        time.sleep(6)
        scene.world.heal(leader, None)
        scene.served_within("clients go on", begin)
        scene.check("it could not send, and says so", scene.cluster.tells(leader, "could not send", mark))
        scene.check("all are ready after that", scene.cluster.ready()[0] == 0)


# ---- a bad network


@story
def delays(make):
    """Datagrams between nodes are late."""
    with make(switch={}) as scene:
        scene.begin()
        for least, most in ((0.15, 0.25), (0.45, 0.45)):
            terms = sum(scene.cluster.log(node).count(" begun") for node in MEMBERS)
            scene.world.impair(delay=(least, most))
            took = scene.watch(15)
            more = sum(scene.cluster.log(node).count(" begun") for node in MEMBERS) - terms
            scene.check(f"{least * 1000:.0f} to {most * 1000:.0f} ms each way: no election", more == 0,
                        f"{more} terms, {took:.1f} s without an answer at most")
            scene.world.switch.heal()
            scene.cluster.ready()


@story
def killed_at_a_distance(make):
    """The leader is killed where datagrams between nodes are late."""
    with make(switch={}) as scene:
        scene.begin()
        for delay in (0.1, 0.2, 0.3, 0.45):
            scene.world.impair(delay=(delay, delay))
            time.sleep(3)
            leader, begin = scene.cluster.led()[0], time.monotonic()
            scene.cluster.kill(leader)
            scene.served_within(f"{delay * 1000:.0f} ms each way", begin, limit=6.0)
            scene.world.switch.heal()
            scene.cluster.start(leader)
            scene.cluster.ready()


@story
def lossy(make):
    """A third of the datagrams is lost, others are repeated, changed and late."""
    with make(switch={}) as scene:
        scene.begin()
        for name, rules in (("30 % loss", {"loss": 0.3}), ("30 % repeats", {"repeats": 0.3}),
                            ("5 % changed", {"changes": 0.05}), ("up to 60 ms late", {"delay": (0.0, 0.06)}),
                            ("all of it", {"loss": 0.3, "repeats": 0.3, "changes": 0.05, "delay": (0.0, 0.06)})):
            scene.world.impair(**rules)
            begun = time.monotonic()
            took = scene.watch(12)
            scene.note(f"{name}: {took:.1f} s without an answer at most, {scene.work.since(begun)} holds in 12 s")
            scene.world.switch.heal()
        unread = sum(it["unread_datagrams_total"] for it in scene.cluster.reports().values())
        scene.check("what was changed is dropped", unread > 0, f"{unread} datagrams did not read")
        begin = time.monotonic()
        scene.served_within("clients go on after that", begin)


@story
def fragments(make):
    """Parts of datagrams are dropped, at an MTU of 1500 and of 576, with twenty clients more. A leader is killed."""
    for mtu in (1500, 576):
        with make(switch={"mtu": mtu}, alpha=16) as scene:
            scene.begin()
            for client in CROWD:
                scene.cluster.give_key(client)
            keys = {client: f"{scene.cluster.folder}/client{client}" for client in CROWD}
            crowd = Work(scene.cluster, names=[f"name-{number:027}" for number in CROWD], keys=keys)
            scene.world.impair(delay=(0.02, 0.04))  # so that many positions are open
            time.sleep(5)
            scene.world.switch.fragments = False
            leader, begin = scene.cluster.led()[0], time.monotonic()
            scene.cluster.kill(leader)
            time.sleep(8)
            status, text = scene.cluster.status()
            why = [line for line in text.splitlines() if "why" in line or "seeks" in line]
            scene.note(f"MTU {mtu}: {scene.stall(begin):.1f} s without an answer; status {status}: {' | '.join(why)}")
            if status:
                scene.check("status names fragments", "fragments" in text)
            begin = time.monotonic()
            scene.world.switch.heal()
            scene.served_within("clients go on once fragments pass", begin)
            crowd.end()


if __name__ == "__main__":
    sys.exit(STORIES.main(__doc__))
