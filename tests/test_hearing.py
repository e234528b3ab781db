"""What nodes do that do not hear each other: a leader that hears nobody is replaced, and status says so meanwhile; a
node that hears no majority tells that members have changed; a node with another key is never ready; a node joins whose
address only its own hosts name."""
import contextlib
import os
import re
import socket
import struct
import subprocess
import tempfile
import time
import unittest

from harness.cluster import free_ports
from harness.relay import Relay

PROGRAM = os.environ.get("LOCKS_PROGRAM")
MEMBERS = (1, 2, 3)
NODES = (*MEMBERS, 4)
SECONDS = 60.0  # for what comes on a busy machine
PROBE = struct.Struct(">4sQIHQ32s")  # magic, version and kind, the cluster, the node, the client, a token, the digest


def address_of(node):
    """The address of a node: a machine is an address of 127/8."""
    return f"127.0.0.{node}"


@unittest.skipUnless(PROGRAM, "LOCKS_PROGRAM does not tell the program")
class HearingTest(unittest.TestCase):
    def setUp(self):
        self.folder = self.enterContext(tempfile.TemporaryDirectory())
        [self.port] = free_ports(1)
        self.relay = Relay(NODES, self.port, address_of)
        self.addCleanup(self.relay.end)
        self.processes, self.number = {}, 0
        self.write("hosts", "".join(f"{node} {address_of(node)}\n" for node in NODES))
        for node in NODES:
            seen = (f"{it} {address_of(it) if it == node else self.relay.address(node, it)}\n" for it in NODES)
            self.write(f"hosts{node}", "".join(seen))
        self.write("key", "11" * 32 + "\n")
        self.write("other", "22" * 32 + "\n")

    def write(self, name, text):
        with open(os.open(self.at(name), os.O_CREAT | os.O_WRONLY | os.O_TRUNC, 0o600), "w") as it:
            it.write(text)

    def at(self, name):
        return os.path.join(self.folder, name)

    def start(self, node, key="key", alpha=8, members=MEMBERS):  # without keys if that is None
        genesis = f"5,{alpha}," + ",".join(f"{it}:{self.port}" for it in members)
        os.makedirs(self.at(f"d{node}"), exist_ok=True)
        words = ["--genesis", genesis, "--number", str(node), "--port", str(self.port), "--dir", self.at(f"d{node}")]
        words += ["--hosts", self.at(f"hosts{node}"), *(["--key", self.at(key)] if key else []), "--events"]
        with open(self.at(f"log{node}"), "ab") as log:
            process = subprocess.Popen([PROGRAM, "node", *words], stdin=subprocess.DEVNULL, stderr=log)
        self.processes[node] = process
        self.addCleanup(self.end, process)

    @staticmethod
    def end(process):
        with contextlib.suppress(ProcessLookupError):
            process.kill()
        process.wait()

    def log(self, node):
        with open(self.at(f"log{node}")) as it:
            return it.read()

    def locks(self, *words):
        """The status of the program, and what it prints."""
        run = subprocess.run([PROGRAM, *words], stdin=subprocess.DEVNULL, capture_output=True, text=True, timeout=120)
        return run.returncode, run.stdout

    def status(self, *words, nodes=MEMBERS):
        ports = [f"{node}:{self.port}" for node in nodes]
        return self.locks("status", "--cluster", "5", "--port", *ports, "--hosts", self.at("hosts"), *words)

    def ask(self, node, request, *words):
        """What a node answers client 1."""
        place = ["--cluster", "5", "--port", str(self.port), "--address", address_of(node), "--hosts", self.at("hosts")]
        return self.locks("ask", *place, "--client", "1", "--request", str(request), *words)[1].strip()

    def comes(self, is_so):
        """Waits until it is so, and returns that."""
        end = time.monotonic() + SECONDS
        while True:
            found = is_so()
            if found:
                return found
            self.assertLess(time.monotonic(), end, "".join(map(self.log, self.processes)))
            time.sleep(0.05)

    def leader(self, text):
        """The node that leads in the greatest ballot, by what status prints."""
        leads = [int(it) for it in re.findall(r"(?m)^node (\d+), port \d+: leads", text)]
        return leads[0] if len(leads) == 1 else None

    def silence(self, node):
        """For how many ticks a node says that it has heard no leader; -1 where it does not say so."""
        found = re.search(rf"(?m)^node {node}, port \d+: .*?(?:heard|no leader for) (\d+) tick", self.status()[1])
        return int(found[1]) if found else -1

    def ready(self, nodes=MEMBERS):
        status, text = self.status("--until", "ready", "60", nodes=nodes)
        self.assertEqual(status, 0, text)
        return self.comes(lambda: self.leader(self.status(nodes=nodes)[1]))

    def test_a_leader_that_hears_nobody_is_replaced(self):
        for node in MEMBERS:
            self.start(node)
        first = self.ready()
        others = [node for node in MEMBERS if node != first]
        self.relay.cut = {(node, first) for node in others}
        self.comes(lambda: "hears 1 of 3 members, no majority" in self.log(first))
        self.comes(lambda: re.search(rf"(?m)^node {first}, .*, hears 1 of 3 members, no majority", self.status()[1]))
        self.assertTrue(self.comes(lambda: self.status()[0] == 1))
        self.comes(lambda: any("leads in ballot" in self.log(node) for node in others))
        self.comes(lambda: self.status()[0] == 0)
        self.relay.cut = set()
        self.comes(lambda: "hears 3 of 3 members, a majority" in self.log(first).split("no majority")[-1] or
                   "hears 2 of 3 members, a majority" in self.log(first).split("no majority")[-1])
        self.ready()

    def test_silence_grows_while_ticks_are_withheld(self):
        for node in MEMBERS:
            self.start(node)
        leader = self.ready()
        if leader == MEMBERS[-1]:
            self.end(self.processes[leader])
            self.start(leader)
            leader = self.ready()
        # The last member waits for 12 ticks before it seeks votes, and is deaf after 8: a candidate would show 0.
        other, deaf = (node for node in MEMBERS if node != leader)
        self.relay.cut = {(node, deaf) for node in (leader, other)}
        self.comes(lambda: self.silence(deaf) > 40)
        self.assertLess(self.silence(other), 28)
        self.assertNotIn(f"node {deaf} began a greater ballot", self.log(leader) + self.log(other))
        self.relay.cut = set()
        self.comes(lambda: 0 <= self.silence(deaf) < 8)

    def test_a_node_that_hears_no_majority_tells_that_members_have_changed(self):
        """Nodes 3 and 4 join while they are off, and the leader of 1 and 2 dies: the other one alone knows the members.
        It hears itself and node 3, two of four. With node 4, which hears it, these are a majority."""
        two = NODES[:2]
        for node in two:
            self.start(node, alpha=1, members=two)
        leader = self.ready(two)
        survivor = sum(two) - leader
        for node in NODES[2:]:
            self.comes(lambda: self.ask(leader, node, "--force", "join", str(node), str(self.port)) == "joined")
        self.comes(lambda: "node 4 joined" in self.log(survivor))
        self.end(self.processes[leader])
        self.relay.cut = {(4, survivor)}
        for node in NODES[2:]:
            self.start(node, alpha=1, members=two)
        self.comes(lambda: self.ask(3, 5, "acquire", "db") == "granted 1")

    def test_a_node_that_no_other_hosts_name_joins(self):
        """Machines at their own addresses. With node 4 and without one of the others a majority is up."""
        named = "".join(f"{node} {address_of(node)}\n" for node in MEMBERS)
        for node in MEMBERS:
            self.write(f"hosts{node}", named)
            self.start(node)
        self.write("hosts4", f"{named}4 {address_of(4)}\n")
        leader = self.ready()
        self.comes(lambda: self.ask(leader, 1, "join", "4", str(self.port)) == "joined")
        self.start(4)
        self.ready(NODES)
        follower = next(node for node in MEMBERS if node != leader)
        self.end(self.processes[follower])
        self.comes(lambda: self.ask(leader, 2, "acquire", "db") == "granted 1")
        self.start(follower)
        self.ready(NODES)
        self.end(self.processes[leader])
        self.comes(lambda: self.ask(follower, 3, "ask", "db") == "held 1 1")

    def socket_at(self, address):
        """A socket that a node might have."""
        it = self.enterContext(socket.socket(socket.AF_INET, socket.SOCK_DGRAM))
        it.bind((address, self.port))
        it.settimeout(SECONDS)
        return it

    def test_a_newcomer_is_written_to_after_its_first_probe(self):
        """Node 4 is a socket that probes and says nothing else. No hosts name it."""
        for node in MEMBERS:
            self.write(f"hosts{node}", "".join(f"{it} {address_of(it)}\n" for it in MEMBERS))
            self.start(node, key=None)
        leader = self.ready()
        self.comes(lambda: self.ask(leader, 1, "join", "4", str(self.port)) == "joined")
        newcomer, other = self.socket_at(address_of(4)), self.socket_at("127.0.0.44")

        def send_probe(it, node, digest):
            probe = PROBE.pack(b"LP\x01\x09", 5, node, 0, 7, digest)
            it.sendto(probe.ljust(174, b"\0"), (address_of(leader), self.port))

        def told(it):
            """The next datagram that is no report."""
            return next(data for data in iter(lambda: it.recv(9000), None) if data[:2] != b"LP")

        send_probe(newcomer, 0, bytes(32))
        digest = newcomer.recv(9000)[26:58]
        send_probe(newcomer, 4, digest)
        self.assertEqual(told(newcomer)[:2], b"LK")
        send_probe(other, 4, digest)
        for _ in range(10):  # a second without any load: the leader repeats what it says in each period
            told(newcomer)
        other.setblocking(False)
        with contextlib.suppress(BlockingIOError):
            self.fail(told(other))

    def test_a_node_with_another_key_is_never_ready(self):
        self.start(1)
        self.start(2)
        self.start(3, key="other")
        self.comes(lambda: self.status()[0] == 0)
        why = r"why: node 3 hears no majority, and could not read \d+ of what came: compare its key with the others'\n"
        self.comes(lambda: re.search(why, self.status()[1]))
        self.comes(lambda: "hears 1 of 3 members, no majority" in self.log(3))
        self.comes(lambda: self.silence(3) > 30)
        status, text = self.status("--until", "ready", "3")
        self.assertEqual(status, 1, text)
        self.end(self.processes[2])
        self.comes(lambda: self.status()[0] == 1)
        self.comes(lambda: "hears 1 of 3 members, no majority" in self.log(1))


if __name__ == "__main__":
    unittest.main()
