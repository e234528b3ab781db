"""What the stories of an operator share: nodes on machines of their own whose options may differ, what `locks status`
says of them, clients that hold locks meanwhile, and how long nobody is answered."""
import argparse
import itertools
import json
import os
import re
import shutil
import signal
import subprocess
import tempfile
import time

from cluster import genesis_text
from cuts import Probing, silence
from harness.switch import Switch, open_tap
from machines import CLUSTER, PORT, Cluster, Namespaces, Score, Work, faults, run, until

ADMIN = 8  # the client of an operator
LOST = 3.0  # seconds that a cluster may take to answer again
SOON = 20.0  # seconds for what comes within a few on a machine that is not busy


class Switched(Namespaces):
    """A machine is a network namespace, and a switch carries frames between them."""

    kind = "network namespaces with a switch"

    def __init__(self, nodes, mtu=1500):
        self.switch, self.mtu = Switch(), mtu
        super().__init__(nodes)
        self.switch.start()

    def join(self):
        """Nothing: the switch does."""

    def link(self, at):
        self.switch.add(at, open_tap(self.name(at), "wire"))
        run("ip", "-n", self.name(at), "link", "set", "wire", "mtu", str(self.mtu))

    def block(self, *pairs):
        self.switch.cut |= set(pairs)

    def unblock(self, *pairs):
        self.switch.cut -= set(pairs)

    def impair(self, **rules):
        """From now on these rules of the switch hold for the ways between nodes."""
        self.switch.impaired = frozenset((one, other) for one in self.nodes for other in self.nodes if one != other)
        for name, value in rules.items():
            setattr(self.switch, name, value)

    def end(self):
        self.switch.end()
        super().end()


class Operated(Cluster):
    """Nodes with keys, one on each machine, whose options may differ from node to node."""

    def __init__(self, program, world, folder, members=(1, 2, 3), alpha=8):
        super().__init__(program, world, folder, nodes=world.nodes, alpha=alpha)
        self.members = members
        self.give_key(ADMIN)

    def give_key(self, client, master="master", name=None):
        words = [self.program, "client-key", "--master", f"{self.folder}/{master}", "--client", str(client)]
        self.write(name or f"client{client}", run(*words))

    def genesis(self, cluster=CLUSTER, alpha=None, members=None, port=PORT):
        return genesis_text(cluster, alpha or self.alpha, dict.fromkeys(members or self.members, port))

    def words(self, node, genesis=None, key="key", folder=None, port=PORT, hosts=None, master="master", ticks=None):
        """The options of a node."""
        words = ["--genesis", genesis or self.genesis(), "--number", str(node), "--port", str(port)]
        words += ["--dir", folder or f"{self.folder}/d{node}", "--hosts", f"{self.folder}/{hosts or f'hosts{node}'}"]
        return [*words, "--key", f"{self.folder}/{key}", "--client-key", f"{self.folder}/{master}"]

    def start(self, node, *more, at=None, before=(), name=None, **options):
        """Starts a node on its machine, or on another one, with these further options."""
        folder = options.get("folder") or f"{self.folder}/d{node}"
        os.makedirs(folder, exist_ok=True)
        command = [*before, self.program, "node", *self.words(node, **options), "--events", "--verbose", *more]
        with open(f"{self.folder}/log{name or node}", "a") as log:
            process = subprocess.Popen(self.world.at(at or node, *command), stderr=log, stdin=subprocess.DEVNULL)
        self.processes[name or node] = process
        return process

    def start_all(self):
        for node in self.members:
            self.start(node)

    def kill(self, node):
        process = self.processes.pop(node)
        process.send_signal(signal.SIGKILL)
        process.wait()

    def locks(self, *words):
        """The status of the program on the outsider's machine, and what it prints."""
        command = self.world.at(9, self.program, *words)
        piped = {"stdin": subprocess.DEVNULL, "stdout": subprocess.PIPE, "stderr": subprocess.STDOUT, "text": True}
        done = subprocess.run(command, **piped)
        return done.returncode, done.stdout

    def status(self, *more, nodes=None):
        ports = [f"{node}:{PORT}" for node in nodes or self.members]
        words = ["--cluster", str(CLUSTER), "--port", *ports, "--hosts", f"{self.folder}/hosts"]
        words += ["--client", str(ADMIN), "--client-key", f"{self.folder}/client{ADMIN}"]
        return self.locks("status", *words, *more)

    def reports(self, nodes=None):
        """What each node reports of itself."""
        return {it["node"]: it for it in json.loads(self.status("--json", nodes=nodes)[1])["nodes"] if it["up"]}

    def leader(self, nodes=None):
        """The node that leads in the greatest ballot, or `None`."""
        leads = [it for it in self.reports(nodes).values() if it["leads"]]
        return max(leads, key=lambda it: it["promised_round"])["node"] if leads else None

    def led(self, *others, nodes=None):
        """Waits until a node leads, other than these. The node, and the seconds."""
        return until(SOON, lambda: (it := self.leader(nodes)) not in (None, *others) and it)

    def ready(self, seconds=60, nodes=None):
        return self.status("--until", "ready", str(seconds), nodes=nodes)

    def does(self, *op, nodes=None, client=ADMIN, key=None, request=None, more=()):
        """What an operator's request is answered, and how `locks ask` ends."""
        ports = [word for node in nodes or self.members for word in ("--port", f"{node}:{PORT}")]
        words = ["--cluster", str(CLUSTER), *ports, "--hosts", f"{self.folder}/hosts", "--client", str(client)]
        number = request or time.time_ns() // 1_000_000
        words += ["--client-key", f"{self.folder}/{key or f'client{client}'}", "--request", str(number)]
        status, text = self.locks("ask", *words, *more, *map(str, op))
        return text.strip()

    def events(self, node, mark=0):
        """The events of a node after so many bytes of its log."""
        return re.findall(r"\[(?:INFO |WARN |ERROR) locks\] \S+ node \d+ (.*)", self.log(node)[mark:])

    def mark(self, node):
        return len(self.log(node))

    def tells(self, node, text, mark=0, seconds=SOON):
        """Whether a node has an event with that text, waiting for it."""
        return until(seconds, lambda: any(text in it for it in self.events(node, mark)))[0] is not None


class Scene:
    """A cluster in which a story happens, with clients that hold locks and one that asks all the time."""

    def __init__(self, program, folder, score, members=(1, 2, 3), spaces=None, alpha=8, switch=None):
        nodes = spaces or members
        self.world = Namespaces(nodes) if switch is None else Switched(nodes, **switch)
        self.cluster, self.score = Operated(program, self.world, folder, members, alpha), score
        self.work = self.probing = None

    def __enter__(self):
        return self

    def __exit__(self, *_):
        if self.probing:
            self.probing.end()
        if self.work:
            self.work.end()
            wrong = faults(self.work.holds)
            name = f"{len(self.work.holds)} holds, none of a fence or a time given twice"
            self.score.check(name, not wrong, wrong[:3] or "")
        self.cluster.end()
        self.world.end()

    def begin(self, is_loaded=True):
        """Starts all nodes and, with load, the clients. Waits until all nodes are ready."""
        self.cluster.start_all()
        found, took = self.cluster.led()
        self.cluster.ready()
        if is_loaded:
            self.load()
        return found, took

    def load(self):
        self.work, self.probing = Work(self.cluster, checks=True), Probing(self.cluster)
        until(SOON, lambda: self.work.holds and self.probing.answers)

    def stall(self, begin):
        """The most seconds without an answer since that moment."""
        end = time.monotonic()
        first, last = silence([(begin, end)], list(self.probing.answers))
        return last - first

    def watch(self, seconds, begin=None):
        """Waits so long, and returns the most seconds without an answer meanwhile."""
        begin = begin or time.monotonic()
        time.sleep(seconds)
        return self.stall(begin)

    def check(self, name, is_well, more=""):
        self.score.check(name, is_well, more)

    def note(self, text):
        """Prints what is no check."""
        print(f"    {text}", flush=True)

    def served_within(self, name, begin, limit=LOST):
        """A check that nobody waited longer than that for an answer since then."""
        time.sleep(1.0)  # what was decided before is answered by then
        until(SOON, lambda: self.probing.answers and self.probing.answers[-1] > time.monotonic() - 0.3)
        took = self.stall(begin)
        self.check(name, took <= limit, f"{took:.1f} s without an answer at most")


class Stories(dict):
    """Stories by their names. Each gets a function that makes its clusters."""

    def add(self, tell):
        """Makes a function a story."""
        self[tell.__name__] = tell
        return tell

    def tell(self, name, options, score):
        """Tells one of them, in a folder of its own."""
        print(f"{name}: {self[name].__doc__.strip()} (load {os.getloadavg()[0]:.1f})", flush=True)
        folder, made = tempfile.mkdtemp(prefix=f"{name}-"), itertools.count()

        def make(**how):
            place = f"{folder}/{next(made)}"
            os.makedirs(place)
            return Scene(os.path.abspath(options.program), place, score, **how)

        try:
            self[name](make)
        except Exception as error:  # one story is not to end the others
            score.check(f"{name} is told", False, repr(error))
        if not options.keep:
            shutil.rmtree(folder, ignore_errors=True)

    def main(self, about):
        """Tells those that the command line names, or all. The status of the script."""
        words = argparse.ArgumentParser(description=about, formatter_class=argparse.RawDescriptionHelpFormatter)
        words.add_argument("program", help="the built program")
        words.add_argument("stories", nargs="*", metavar="STORY", help=f"what to tell, or all: {', '.join(self)}")
        words.add_argument("--keep", action="store_true", help="keep the folders with the logs")
        options, score = words.parse_args(), Score()
        for name in options.stories or self:
            self.tell(name, options, score)
        print(f"{score.passed} passed, {score.failed} failed")
        return score.failed > 0


__all__ = ["ADMIN", "CLUSTER", "LOST", "PORT", "SOON", "Scene", "Stories", "run", "until"]


if __name__ == "__main__":
    print(__doc__)
