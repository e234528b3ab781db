"""Wide clusters: 64 clients at once, votes for 128 positions in one Promise, and what is kept over restarts."""
import concurrent.futures
import os
import subprocess
import tempfile
import time
import unittest

import locks_client
from harness.by_bytes import Node, received
from harness.cluster import Cluster

PROGRAM = os.environ.get("LOCKS_PROGRAM")
CLIENTS, PAIRS = 64, 4
ALPHAS = (32, 64)
PROMISES, ACCEPTS = 2, 3  # kinds of datagrams
NARROW_BASE, LONGEST_BASE, REBASED_AT = 49_152, 65_536, 131_072  # bytes
NAMES = 512
LONGEST = "01 0100 0000ffffffffffff 00 40" + " ff" * 64  # a request with a payload of 64 bytes

# Node 1 asks node 2 for a vote, and for a promise, in ballots of its own.
ACCEPT = "4c4b0103 0000000000000005 00000001 {round:016x} 00000001 {position:016x}"
PREPARE = "4c4b0101 0000000000000005 00000001 {round:016x} 00000001 {first:016x}"
VOTE = "{position:016x} {round:016x} 00000001"
PROMISE = "4c4b0102 0000000000000005 0000000{node} {round:016x} 0000000{of} {first:016x} {count:02x}"


def refusal(*genesis):
    """The first line with which a node refuses a genesis."""
    words = ["node", "--genesis", ",".join(genesis), "--number", "1", "--port", "7001", "--dir", "."]
    told = subprocess.run([PROGRAM, *words], stdin=subprocess.DEVNULL, capture_output=True, text=True)
    return told.returncode, told.stderr.splitlines()[0]


def number(value, size):
    """A number as it is spelled in so many bytes."""
    return value.to_bytes(size, "big")


def entry(body):
    """An entry of a file, after its length."""
    return number(len(body), 4) + body


def acquire(place):
    """The command by which one of 256 clients acquires the name of this place, of 32 letters."""
    body = b"\1\x20" + b"%032d" % place
    client, count = place % 256 + 1, place // 256 + 1
    return b"\1" + number(client, 2) + number(count, 8) + b"\0" + number(len(body), 1) + body


@unittest.skipUnless(PROGRAM, "LOCKS_PROGRAM does not tell the program")
class WideTest(unittest.TestCase):
    def setUp(self):
        self.folder = self.enterContext(tempfile.TemporaryDirectory())

    def node(self, alpha, data=b""):
        """Node 2 of a cluster of this alpha, on a file of these bytes."""
        folder = os.path.join(self.folder, str(alpha))
        os.mkdir(folder)
        node = self.enterContext(Node(PROGRAM, folder, alpha=alpha))
        node.write(data)
        return node

    def test_an_alpha_above_16_needs_a_w_and_ends_at_64(self):
        for alpha, wanted in (("17", "ALPHA must be 1 to 16"), ("65w", "a wide ALPHA must be 1w to 64w")):
            line = f"error: invalid value '7,{alpha},1:7001' for '--genesis <genesis>': {wanted}"
            self.assertEqual(refusal("7", alpha, "1:7001"), (2, line))
        self.assertIn("a member must be NODE:PORT", refusal("7", "64w", "1:7001", "2:0")[1])

    def pairs(self, cluster, number):
        """A client acquires and releases a lock of its own so often. How often it was granted."""
        with cluster.client(locks_client.Client, number, patience=30.0) as client:
            for _ in range(PAIRS):
                client.release(f"lock-{number}", client.acquire(f"lock-{number}"))
        return PAIRS

    def dump(self, cluster, node):
        """What `inspect` says of a node's files."""
        words = [PROGRAM, "inspect", "--dir", os.path.join(self.folder, str(node))]
        return subprocess.run(words, stdin=subprocess.DEVNULL, capture_output=True, text=True).stdout

    def test_it_serves_64_clients_and_keeps_what_they_did(self):
        cluster = self.enterContext(Cluster(PROGRAM, self.folder, alpha=64, cluster=7, options=("--ticks", "clock")))
        self.assertIn("7,64w,", cluster.genesis)
        with concurrent.futures.ThreadPoolExecutor(CLIENTS) as pool:
            done = list(pool.map(lambda number: self.pairs(cluster, number), range(1, CLIENTS + 1)))
        self.assertEqual(sum(done), CLIENTS * PAIRS)
        for node in cluster.ports:
            cluster.kill(node)
            cluster.start(node)
        with cluster.client(locks_client.Client, 100, patience=30.0) as client:
            self.assertEqual(client.acquire("lock-1"), PAIRS + 1)
        for node in cluster.ports:
            cluster.kill(node)
        dumps = [self.dump(cluster, node) for node in cluster.ports]
        self.assertTrue(any("held lock-1 100 5" in it for it in dumps), dumps)

    def promised(self, node, ballot, first):
        """The Promise that it sends for a Prepare in a ballot of node 1."""
        node.send(node.bytes_of(PREPARE.format(round=ballot, first=first)))
        while (promise := received(node.socket))[3] != PROMISES:
            pass
        return promise

    def promise(self, node, ballot, first, count):
        """A Promise of node 2 for such a Prepare, with so many of the longest votes, of ballot 1000 of node 1."""
        votes = [VOTE.format(position=it, round=1000) + LONGEST for it in range(first, first + count)]
        return node.bytes_of(PROMISE.format(node=2, round=ballot, of=1, first=first, count=count), *votes)

    def test_a_promise_tells_twice_alpha_votes_also_after_a_restart(self):
        for alpha, length in zip(ALPHAS, (6_245, 12_453)):
            node = self.node(alpha)
            node.start()
            for position in range(1, 2 * alpha + 1):
                node.asked(node.bytes_of(ACCEPT.format(round=1000, position=position), LONGEST))
            for ballot in (1001, 1002):
                promise = self.promised(node, ballot, 1)
                self.assertEqual(len(promise), length)
                self.assertEqual(promise, self.promise(node, ballot, 1, 2 * alpha))
                node.kill()
                node.start()

    def test_a_vote_beyond_twice_alpha_is_refused(self):
        for alpha in ALPHAS:
            node = self.node(alpha)
            node.start()
            far = ACCEPT.format(round=1000, position=2 * alpha + 1)
            self.assertEqual(node.asked(node.bytes_of(far, LONGEST))[3], 5)

    def test_a_leader_takes_the_longest_promise(self):
        node = self.node(64)
        node.start()
        while (prepare := received(node.socket))[3] != 1:
            pass
        ballot = int.from_bytes(prepare[16:24], "big")
        votes = [VOTE.format(position=it, round=1) + LONGEST for it in range(1, 129)]
        node.send(node.bytes_of(PROMISE.format(node=1, round=ballot, of=2, first=1, count=128), *votes))
        proposed = {}
        while len(proposed) < 64:
            data = received(node.socket)
            if data[3] == ACCEPTS:
                proposed[int.from_bytes(data[28:36], "big")] = data[36:]
        self.assertEqual(proposed, dict.fromkeys(range(1, 65), node.bytes_of(LONGEST)))

    def filled(self, node, alpha):
        """A file of that node: 512 decided commands, so many votes in one ballot and more at one position that the
        next step rebases, and, above a gap, as many decided commands as it keeps."""
        members = b"\3" + b"".join(number(it, 4) + number(port, 2) for it, port in enumerate(node.ports, 1))
        state = bytes(8) + number(alpha, 1) + members * alpha + number(3, 4) + bytes(8) + bytes(4)
        genesis = number(5, 8) + number(2, 4) + number(alpha, 1) + members
        base = b"\1" + number(1, 8) + b"\2" + genesis + bytes(20) + number(len(state), 4) + state + bytes(4)
        above, longest = range(NAMES + 1, NAMES + 2 * alpha + 1), node.bytes_of(LONGEST)
        votes = [entry(b"\3" + number(above[0], 8) + number(it, 8) + number(1, 4) + longest) for it in range(1, 1000)]
        votes += [entry(b"\3" + number(it, 8) + number(1000, 8) + number(1, 4) + longest) for it in above]
        decided = [entry(b"\4" + number(it + 1, 8) + acquire(it)) for it in range(NAMES)]
        decided += [entry(b"\4" + number(it, 8) + longest) for it in above[1:]]
        return b"".join([entry(base), *decided, *votes])

    def rebased(self, node):
        """The length of the Base that it writes into its second file."""
        end = time.monotonic() + 30.0
        while node.lengths()[0]:  # it is emptied last
            self.assertLess(time.monotonic(), end)
            time.sleep(0.05)
        return 4 + int.from_bytes(node.read("b")[:4], "big")

    def test_a_base_is_longer_than_48_kib_from_alpha_33_on(self):
        lengths = []
        for alpha in ALPHAS:
            node = self.node(alpha)
            node.write(self.filled(node, alpha))
            self.assertGreater(node.lengths()[0], REBASED_AT)
            node.start()
            self.assertEqual(node.runs, list(range(1, NAMES + 1)))
            lengths.append(self.rebased(node))
            node.kill()
            node.start()
            self.assertEqual(self.promised(node, 5000, NAMES + 1), self.promise(node, 5000, NAMES + 1, 2 * alpha))
        self.assertLessEqual(lengths[0], NARROW_BASE)
        self.assertTrue(NARROW_BASE < lengths[1] <= LONGEST_BASE, lengths)


if __name__ == "__main__":
    unittest.main()
