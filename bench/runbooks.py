#!/usr/bin/env python3
"""What an operator does, and gets wrong: members, keys, folders and names, each story in a cluster of its own.

Usage: bench/runbooks.py PROGRAM [STORY ..] [--keep]

The machines, the clients and the last lines are those of bench/faults.py, which see.
"""
import json
import os
import re
import shutil
import subprocess
import sys
import time

from cluster import TOP
from faults import MEMBERS, others_of
from operating import ADMIN, CLUSTER, PORT, SOON, Stories, until

STORIES = Stories()
story = STORIES.add
SEVEN = (1, 2, 3, 4, 5, 6, 7)
NAMES = """
import json, sys, time
from locks_client import Client, NoRoom
plan, begin = json.loads(sys.argv[1]), time.monotonic()
with Client(plan.pop("cluster"), 9, [tuple(it) for it in plan.pop("endpoints")], first=1, **plan) as client:
    for number in range(512):
        client.acquire(f"name-{number}")
    try:
        client.acquire("one-more")
    except NoRoom as error:
        print(f"{type(error).__name__} after {time.monotonic() - begin:.1f} s")
"""


def lines(text):
    return " | ".join(text.splitlines())


def rewrite(scene, name, *texts):
    """Writes a key file of these lines."""
    scene.cluster.write(name, "".join(f"{text}\n" for text in texts))


# ---- keys and geneses


@story
def rolling_restart_with_wrong_keys(make):
    """Two followers are restarted one after the other, each with a key of its own. Nobody asks for a lock meanwhile."""
    with make() as scene:
        scene.begin(is_loaded=False)
        leader = scene.cluster.led()[0]
        for count, node in enumerate(others_of(leader), 1):
            rewrite(scene, f"wrong{node}", f"{node}3" * 32)
            mark = scene.cluster.mark(node)
            scene.cluster.stop(node)
            scene.cluster.start(node, key=f"wrong{node}")
            status, text = scene.cluster.ready(seconds=5)
            scene.check(f"node {node} is never ready", status == 1)
            scene.check("status names its key", f"why: node {node} hears no majority, and could not read" in text
                        or count == 2 and "which leads, hears no majority" in text)
            scene.check("it says that it hears no leader", scene.cluster.tells(node, "has heard of no leader", mark))
            scene.note(lines(text))
        status, text = scene.cluster.status()
        scene.check("with both, status tells that nothing is decided", status == 1)
        says = scene.cluster.tells(leader, "hears 1 of 3 members, no majority")
        scene.check("and the leader says whom it hears", says)
        scene.note(f"an answer: {scene.cluster.does('acquire', 'db')}")


@story
def another_alpha(make):
    """A node is restarted on its folder with another alpha."""
    with make() as scene:
        scene.begin(is_loaded=False)
        scene.cluster.stop(3)
        process = scene.cluster.start(3, genesis=scene.cluster.genesis(alpha=4))
        until(SOON, lambda: process.poll() is not None)
        last = scene.cluster.log(3).splitlines()[-3:]
        scene.check("it ends with fault 10", last[-1] == "fault 10", last)


@story
def another_genesis(make):
    """A node is started on an empty folder with another genesis, and one with another cluster number."""
    for name, how in (("genesis", {"alpha": 4}), ("cluster", {"cluster": 6})):
        with make(spaces=(1, 2, 3, 4)) as scene:
            scene.begin(is_loaded=False)
            marks = {node: scene.cluster.mark(node) for node in MEMBERS}
            scene.cluster.start(4, genesis=scene.cluster.genesis(members=(1, 2, 3, 4), **how))
            time.sleep(6)
            status, text = scene.cluster.status(nodes=(1, 2, 3, 4))
            scene.check(f"another {name}: the cluster serves", scene.cluster.does("acquire", "db") == "granted 1")
            scene.note(f"status {status}: {lines(text)}")
            told = {node: scene.cluster.events(node, marks.get(node, 0)) for node in (1, 2, 3, 4)}
            scene.note(f"events: {told}")


def restart_all(scene, name):
    """Restarts the nodes one by one."""
    for node in MEMBERS:
        scene.cluster.stop(node)
        scene.cluster.start(node)
        status, text = scene.cluster.ready()
        if status:
            scene.check(f"{name}: ready after node {node}", False, lines(text))


@story
def new_key(make):
    """The nodes' key is changed under load, as SECURITY.md says."""
    with make() as scene:
        scene.begin()
        old, new = "11" * 32, "44" * 32
        begin = time.monotonic()
        for texts in ((old, new), (new, old), (new,)):
            rewrite(scene, "key", *texts)
            restart_all(scene, f"{len(texts)} keys")
        scene.served_within("clients go on", begin)


@story
def new_master(make):
    """The clients' master is changed, as SECURITY.md says: after each restart clients take what client-key prints."""
    with make() as scene:
        scene.begin(is_loaded=False)
        old, new = "22" * 32, "55" * 32
        for step, texts in enumerate(((old, new), (new, old), (new,)), 1):
            rewrite(scene, "master", *texts)
            restart_all(scene, f"restart {step}")
            answers = [scene.cluster.does("acquire", f"before-{step}")]
            scene.cluster.give_key(ADMIN)
            answers.append(scene.cluster.does("acquire", f"after-{step}"))
            scene.check(f"restart {step}: a client is answered before and after it has its file",
                        answers == ["granted 1"] * 2, answers)
        scene.cluster.write("client9", "")
        rewrite(scene, "master", old)
        scene.cluster.give_key(9)
        answer = scene.cluster.does("acquire", "db", client=9)
        scene.check("a key of the old master is worth nothing", answer == "no answer", answer)


# ---- members


@story
def replaced(make):
    """All members are replaced one by one under load, and the leader leaves."""
    with make(spaces=(1, 2, 3, 4, 5, 6)) as scene:
        scene.begin()
        members, begin = [1, 2, 3], time.monotonic()
        for new in (4, 5, 6):
            scene.check(f"node {new} joins", scene.cluster.does("join", new, PORT) == "joined")
            scene.cluster.start(new)
            members.append(new)
            scene.check("all are ready", scene.cluster.ready(nodes=members)[0] == 0)
            leader = scene.cluster.led(nodes=members)[0]
            old = leader if leader < 4 else min(members)
            answer, took = until(SOON, lambda: (it := scene.cluster.does("leave", old, nodes=members)) == "left" and it)
            scene.check(f"node {old} leaves{', which leads' if old == leader else ''}", answer, f"after {took:.1f} s")
            members.remove(old)
            scene.cluster.ready(nodes=members)
            scene.cluster.kill(old)
        scene.served_within("clients went on", begin)


@story
def seven(make):
    """Seven members, of which three and then four are down, and come back."""
    with make(members=SEVEN) as scene:
        scene.begin()
        begin = time.monotonic()
        down = others_of(scene.cluster.led()[0], SEVEN)[:4]
        for node in down[:3]:
            scene.cluster.kill(node)
        scene.served_within("with three down clients go on", begin)
        scene.cluster.kill(down[3])
        time.sleep(2)
        status, text = scene.cluster.status()
        scene.check("with four down status says so", status == 1 and "why: no majority" in text)
        begin = time.monotonic()
        scene.cluster.start(down[3])
        scene.served_within("once one is back clients go on", begin)
        for node in down[:3]:
            scene.cluster.start(node)
        scene.check("all are ready", scene.cluster.ready()[0] == 0)
        scene.check("an eighth is refused", scene.cluster.does("join", 8, PORT) == "full")


@story
def newcomer_without_hosts(make):
    """A node joins whose address is in no hosts file but its own."""
    with make(spaces=(1, 2, 3, 4)) as scene:
        for node in MEMBERS:
            scene.cluster.write(f"hosts{node}", "".join(f"{it} {scene.world.address(it)}\n" for it in MEMBERS))
        scene.begin()
        scene.check("it joins", scene.cluster.does("join", 4, PORT) == "joined")
        begin = time.monotonic()
        scene.cluster.start(4)
        status, text = scene.cluster.ready(seconds=20, nodes=(1, 2, 3, 4))
        scene.check("it catches up", status == 0, f"{time.monotonic() - begin:.1f} s, {lines(text)}")
        scene.cluster.kill(others_of(scene.cluster.led(nodes=(1, 2, 3, 4))[0])[0])
        scene.served_within("and is one of the majority of three of four", begin)


@story
def mistyped_join(make):
    """A node joins at a wrong port. It is started at the right one, and then at that."""
    with make(spaces=(1, 2, 3, 4)) as scene:
        scene.begin()
        scene.check("it joins", scene.cluster.does("join", 4, 7998) == "joined")
        begin, process = time.monotonic(), scene.cluster.start(4)
        time.sleep(5)
        scene.note(f"at the right port: {lines(scene.cluster.status(nodes=(1, 2, 3, 4))[1])}")
        process.kill()
        process.wait()
        scene.cluster.start(4, port=7998)
        took = until(SOON, lambda: scene.cluster.tells(4, "follows node", seconds=0.1))
        scene.check("started at the joined port it follows the leader", took[0], f"after {took[1]:.1f} s")
        scene.check("it leaves", until(SOON, lambda: scene.cluster.does("leave", 4) == "left")[0])
        scene.served_within("clients went on", begin)


@story
def ghosts(make):
    """A client's key joins three numbers that nobody runs, so no majority is left. Then they are run, and leave."""
    with make(spaces=(1, 2, 3, 4, 5, 6)) as scene:
        scene.begin(is_loaded=False)
        answers = [scene.cluster.does("join", node, PORT, more=["--force"]) for node in (4, 5, 6)]
        scene.check("three ghosts join", answers == ["joined"] * 3, answers)
        time.sleep(2)
        answer = scene.cluster.does("acquire", "db")
        status, text = scene.cluster.status(nodes=(1, 2, 3, 4, 5, 6))
        scene.check("nothing is decided, and status says so", (answer, status) == ("no answer", 1), lines(text))
        begin = time.monotonic()
        scene.cluster.start(4)
        came, took = until(SOON, lambda: scene.cluster.does("acquire", "db") == "granted 1")
        scene.check("with one of them on an empty folder a majority is up", came, f"{time.monotonic() - begin:.1f} s")
        for node in (5, 6, 4):
            answer, took = until(SOON, lambda: scene.cluster.does("leave", node) == "left")
            scene.check(f"ghost {node} leaves", answer, f"after {took:.1f} s")


@story
def greatest_number(make):
    """A client's key joins the greatest number that there is, and lets it leave."""
    with make(spaces=(1, 2, 3, 4)) as scene:
        scene.begin(is_loaded=False)
        answer = scene.cluster.does("join", 2**31, PORT)
        scene.note(f"join {2**31}: {lines(answer)}")
        if answer.endswith("joined"):
            scene.cluster.does("leave", 2**31)
            answer = scene.cluster.does("join", 4, PORT)
            scene.check("no number can join after it", answer == "used", answer)


# ---- stores


@story
def begun_twice(make):
    """The lines that set a node up run again while its cluster has granted a lock."""
    with make() as scene:
        for node in MEMBERS:
            os.makedirs(f"{scene.cluster.folder}/d{node}")
            init(scene, node)
            scene.cluster.start(node, "--existing")
        scene.cluster.led()
        scene.cluster.ready()
        scene.cluster.kill(3)
        scene.check("client 7 is granted a lock", scene.cluster.does("acquire", "db", client=7) == "granted 1")
        status, text = init(scene, 2)
        scene.check("the lines refuse a store that runs", status == 1 and "exists" in text, lines(text))
        scene.cluster.kill(1)
        scene.cluster.kill(2)
        status, text = init(scene, 2)
        scene.check("and one that is down", status == 1, lines(text))
        scene.cluster.start(2, "--existing")
        scene.cluster.start(3, "--existing")
        answer, took = until(SOON, lambda: scene.cluster.does("acquire", "db", nodes=(2, 3)))
        scene.check("nobody else is granted it", answer == "busy 7 1", answer)


def init(scene, node):
    """Begins the store of a node, and says how that ended."""
    place = ["--number", str(node), "--dir", f"{scene.cluster.folder}/d{node}"]
    return scene.cluster.locks("init", "--genesis", scene.cluster.genesis(), *place)


@story
def lost_folder(make):
    """The folder of a node is lost: --existing does not start it. Its number leaves, and another one joins."""
    with make(spaces=(1, 2, 3, 4)) as scene:
        scene.begin()
        begin = time.monotonic()
        scene.cluster.kill(3)
        shutil.rmtree(f"{scene.cluster.folder}/d3")
        process = scene.cluster.start(3, "--existing")
        until(SOON, lambda: process.poll() is not None)
        scene.check("it does not start", scene.cluster.log(3).endswith("cannot open\n"))
        answers = [scene.cluster.does("leave", 3), scene.cluster.does("join", 4, PORT, nodes=(1, 2))]
        scene.cluster.start(4)
        scene.check("another number takes its place", answers == ["left", "joined"], answers)
        scene.check("all are ready", scene.cluster.ready(nodes=(1, 2, 4))[0] == 0)
        scene.served_within("clients went on", begin)


@story
def empty_start(make):
    """FORBIDDEN: a number that has run starts without --existing on an empty folder, where it was in a majority."""
    with make() as scene:
        scene.begin(is_loaded=False)
        scene.cluster.kill(3)
        scene.note(f"client 7, nodes 1 and 2 up: {scene.cluster.does('acquire', 'db', client=7)}")
        scene.cluster.kill(1)
        scene.cluster.kill(2)
        shutil.rmtree(f"{scene.cluster.folder}/d2")
        scene.cluster.start(2)
        scene.cluster.start(3)
        answer = until(SOON, lambda: (it := scene.cluster.does("acquire", "db", nodes=(2, 3))) != "no answer" and it)[0]
        scene.note(f"client {ADMIN}, nodes 2, afresh, and 3 up: {answer}")
        scene.cluster.start(1)
        time.sleep(3)
        status, text = scene.cluster.status()
        scene.note(f"status {status}: {lines(text)}")
        scene.check("the events say that a store was begun", scene.cluster.tells(2, "began with an empty store"))


@story
def twin(make):
    """FORBIDDEN: a copy of node 3 runs on another machine."""
    with make(spaces=(1, 2, 3, 4)) as scene:
        scene.begin()
        scene.cluster.kill(3)
        shutil.copytree(f"{scene.cluster.folder}/d3", f"{scene.cluster.folder}/twin")
        scene.cluster.write("other-hosts", "1 10.77.0.1\n2 10.77.0.2\n3 10.77.0.4\n")
        scene.cluster.start(3)
        scene.cluster.start(3, at=4, name=4, folder=f"{scene.cluster.folder}/twin", hosts="other-hosts")
        time.sleep(8)
        status, text = scene.cluster.status()
        scene.note(f"status {status}: {lines(text)}")
        scene.note(f"events of the twin: {scene.cluster.events(4)}")


@story
def restored(make):
    """FORBIDDEN: a folder is copied while its node runs, and restored, five times."""
    with make() as scene:
        scene.begin()
        begin = time.monotonic()
        for turn in range(5):
            node = MEMBERS[turn % 3]
            folder, copy = f"{scene.cluster.folder}/d{node}", f"{scene.cluster.folder}/copy{turn}"
            shutil.copytree(folder, copy)
            time.sleep(1)
            scene.cluster.kill(node)
            shutil.rmtree(folder)
            shutil.copytree(copy, folder)
            scene.cluster.start(node)
            time.sleep(1)
        scene.served_within("clients went on", begin)


# ---- names


@story
def all_names(make):
    """One client uses all names that there are."""
    with make() as scene:
        scene.begin(is_loaded=False)
        endpoints = [(scene.world.address(node), PORT) for node in MEMBERS]
        scene.cluster.give_key(9)
        plan = {"cluster": CLUSTER, "endpoints": endpoints, "key": f"{scene.cluster.folder}/client9"}
        plan["hosts"] = f"{scene.cluster.folder}/hosts"
        paths = os.pathsep.join([TOP, os.path.join(TOP, "clients", "python")])
        command = scene.world.at(9, sys.executable, "-c", NAMES, json.dumps(plan))
        done = subprocess.run(command, env=os.environ | {"PYTHONPATH": paths}, capture_output=True, text=True)
        scene.check("the 513th is refused", "NoRoom" in done.stdout, done.stdout.strip() + done.stderr[-200:])
        scene.note(lines(scene.cluster.status()[1]))
        named = [node for node in MEMBERS if any("names" in it for it in scene.cluster.events(node))]
        scene.note(f"nodes with an event about names: {named}")
        inspected = scene.cluster.locks("inspect", "--dir", f"{scene.cluster.folder}/d1")[1]
        scene.note(f"inspect: {re.findall('names .*', inspected)}")


if __name__ == "__main__":
    sys.exit(STORIES.main(__doc__))
