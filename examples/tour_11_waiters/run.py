#!/usr/bin/env python3
"""Three clients wait for a lock: each is told when its turn has come, and one of them gives up.

It prints the datagrams between the clients and the only node, but for the request that begins a run, and for watches
that are sent again and answered as before. If the machine is so slow that a turn passes by, the story begins anew.
"""
import argparse
import asyncio
import contextlib
import os
import sys
import tempfile

HERE = os.path.dirname(os.path.abspath(__file__))
TOP = os.path.join(HERE, "..", "..")
sys.path[:0] = [TOP, os.path.join(TOP, "clients", "python")]
from harness.cluster import Cluster, built  # noqa: E402
from locks_client import AsyncClient  # noqa: E402
from locks_client.notices import LAYOUT, News  # noqa: E402
from locks_client.plans import Send  # noqa: E402
from locks_client.wire import HEADER, Answer, read_reply  # noqa: E402

SECONDS = 10.0  # for one step
TIMES = 5  # how often the story is begun
BODIES = {1: "acquire", 2: "release"}  # the requests that are printed, by the first byte of their bodies


class Slow(Exception):
    """The machine is so slow that the turn of a client has passed by."""


class Teller(AsyncClient):
    """A client that notes its datagrams.

    lines: those that nobody has printed. last: what the last watch and the last notice said. busy: how often it has
    found the lock held. task: its work, and goes_on lets it give the lock back.
    """

    task = None

    def begin(self):
        """Takes the lock, and keeps it until it is told to go on."""
        self.lines, self.last, self.busy, self.goes_on = [], ("", ""), 0, asyncio.Event()
        self.task = asyncio.create_task(self.hold())

    async def hold(self):
        async with self.lock("db"):
            await self.goes_on.wait()

    async def perform(self, effect):
        """Does a step, and notes what it sends or hears."""
        heard = await super().perform(effect)
        if isinstance(effect, Send):
            self.note_sent(effect.data)
        elif heard:
            self.note_heard(heard.data)
        return heard

    def note_sent(self, data):
        """Notes a request or a watch."""
        if data[:2] == b"LW":
            *_, fence, _, _, periods, _ = LAYOUT.unpack(data)
            self.note_changed(0, f"watch, fence {fence}" if periods else "watch no more")
        elif data[HEADER.size + 2] in BODIES:
            self.last = "", ""
            self.lines.append(f"c{self.client} to n1: {BODIES[data[HEADER.size + 2]]}")

    def note_heard(self, data):
        """Notes an answer or a notice."""
        if data[:2] == b"LW":
            *_, news, place = LAYOUT.unpack(data)
            self.note_changed(1, f"{News(news).name.lower()}, place {place}")
            return
        reply = read_reply(data, self.cluster, self.client, self.core.sent_number)
        if isinstance(reply, Answer) and reply.text not in ("free", "held"):
            self.busy += reply.text == "busy"
            self.lines.append(f"n1 to c{self.client}: {' '.join([reply.text, *map(str, reply.fields)])}")

    def note_changed(self, which, words):
        """Notes what a watch or a notice says, unless the last one said so too."""
        if self.last[which] != words:
            self.last = (words, "") if which == 0 else (self.last[0], words)
            self.lines.append([f"c{self.client} to n1", f"n1 to c{self.client}"][which] + f": {words}")

    def has_come_to(self, words):
        """Whether the last line says so."""
        return bool(self.lines) and self.lines[-1].endswith(f": {words}")


async def step(title, *wanted):
    """Waits until each of these clients has come to that, and returns the lines of the step."""
    async with asyncio.timeout(SECONDS):
        while not all(client.has_come_to(words) for client, words in wanted):
            await asyncio.sleep(0.005)
    if any(client.busy > 1 for client, _ in wanted):
        raise Slow
    lines = [title]
    for client, _ in wanted:
        lines += client.lines
        client.lines.clear()
    return lines


async def told(clients):
    """What happens, line by line."""
    one, two, three, four = clients
    one.begin()
    lines = await step("client 1 takes the lock", (one, "granted 1"))
    for place, client in enumerate((two, three, four), 1):
        client.begin()
        lines += await step(f"client {client.client} waits", (client, f"held, place {place}"))
    one.goes_on.set()
    lines += await step("client 1 gives it back", (one, "released"), (two, "granted 2"))
    lines += await step("the others move up", (three, "held, place 1"), (four, "held, place 2"))
    four.task.cancel()
    lines += await step("client 4 gives up", (four, "watch no more"))
    two.goes_on.set()
    lines += await step("client 2 gives it back", (two, "released"), (three, "granted 3"))
    three.goes_on.set()
    return lines + await step("client 3 gives it back", (three, "released"))


async def story(cluster):
    """The same, by four clients whose runs have begun."""
    clients = [cluster.client(Teller, number, patience=60.0) for number in range(1, 5)]
    try:
        for client in clients:
            await client.ask("ready")
        return await told(clients)
    finally:
        tasks = [client.task for client in clients if client.task]
        for task in tasks:
            task.cancel()
        await asyncio.gather(*tasks, return_exceptions=True)
        for client in clients:
            client.core.forget()
            client.close()


def main():
    parser = argparse.ArgumentParser(description=__doc__, formatter_class=argparse.RawDescriptionHelpFormatter)
    parser.add_argument("program", nargs="?", help="the program, else the one that ./locks runs")
    program = built(parser.parse_args().program)
    for _ in range(TIMES):
        with tempfile.TemporaryDirectory() as folder, Cluster(program, folder, nodes=1) as cluster:
            with contextlib.suppress(Slow, TimeoutError):
                return print("\n".join(asyncio.run(story(cluster))))
    sys.exit("the machine is too slow for the story")


if __name__ == "__main__":
    main()
