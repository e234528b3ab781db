"""A store with sums: what a node writes, what it takes up again, and which changes of its bytes are noticed."""
import os
import random
import re
import subprocess
import tempfile
import unittest

from harness.by_bytes import Node
from harness.cluster import Cluster, free_ports
from harness.summed import MAGIC, OTHER, entries, frames, one_before, pieces, written
from locks_client import Client

PROGRAM = os.environ.get("LOCKS_PROGRAM")
RANDOM_FLIPS = 300

# Node 2 of three that has executed nothing: its first Base, and entries that follow it.
MEMBERS = "03 00000001 1b59 00000002 1b5a 00000003 1b5b"
REST = (
    f"0000000000000005 00000002 01 {MEMBERS} 0000000000000000 00000000 0000000000000000"
    f" 0000002c 0000000000000000 01 {MEMBERS} 00000003 0000000000000000 0000 0000 0000 0000"
)
BASE = f"00000072 01 0000000000000001 02 {REST}"
SECOND = f"00000072 01 0000000000000002 02 {REST}"
OF_NODE_3 = f"00000072 01 0000000000000001 02 {REST}".replace("00000002 01 03", "00000003 01 03", 1)
PROMISED = "0000000d 02 0000000000000003 00000001"
VOTED = "00000016 03 0000000000000001 0000000000000003 00000001 00"
DECIDED = "0000000a 04 0000000000000001 00"
PREPARE = "4c4b0101 0000000000000005 00000001 0000000000000003 00000001 0000000000000001"
ACCEPT = "4c4b0103 0000000000000005 00000001 0000000000000003 00000001 0000000000000001 00"


def ran(*words):
    """Runs the program. Its status, its output, and its standard error."""
    piped = {"stdin": subprocess.DEVNULL, "capture_output": True, "text": True, "timeout": 60}
    run = subprocess.run([PROGRAM, *words], **piped)
    return run.returncode, run.stdout, run.stderr


def decided(first, sizes):
    """A Decided of node 1 from that position on, for commands with bodies of these sizes, and the entries of these."""
    heads = [(7).to_bytes(2, "big") + number.to_bytes(8, "big") for number in range(first, first + len(sizes))]
    commands = [b"\1" + head + bytes([0, size]) + bytes(size) for head, size in zip(heads, sizes)]
    pairs = [b"\4" + at.to_bytes(8, "big") + it for at, it in enumerate(commands, first)]
    datagram = bytes.fromhex("4c4b0106 0000000000000005 00000001") + first.to_bytes(8, "big") + bytes([len(sizes)])
    return datagram + b"".join(commands), [len(it).to_bytes(4, "big") + it for it in pairs]


def flipped(data, bit):
    """The bytes with one bit changed."""
    changed = bytearray(data)
    changed[bit // 8] ^= 1 << bit % 8
    return bytes(changed)


class Store(unittest.TestCase):
    """A folder with a store of node 2."""

    def setUp(self):
        self.folder = self.enterContext(tempfile.TemporaryDirectory())

    def put(self, a, b=b""):
        for name, data in (("a", a), ("b", b)):
            with open(os.path.join(self.folder, name), "wb") as file:
                file.write(data)

    def get(self, name):
        with open(os.path.join(self.folder, name), "rb") as file:
            return file.read()

    def dump(self):
        return ran("dump", "--dir", self.folder)

    def scrub(self):
        return ran("scrub", "--dir", self.folder)

    def is_noticed(self, a, b=b""):
        """Whether a store of these bytes is damaged, to whoever reads it, and neither read nor taken for a torn one."""
        self.put(a, b)
        status, out, err = self.dump()
        if (status, out) in ((0, out or None), (1, "no store\n")):
            return False
        self.assertEqual((status, out, err.splitlines()[-1]), (1, "", "fault 9"))
        return True


@unittest.skipUnless(PROGRAM, "LOCKS_PROGRAM does not tell the program")
class BytesTest(Store):
    """Files of given bytes."""

    def setUp(self):
        super().setUp()
        self.pieces = [bytes.fromhex(it) for it in (BASE, PROMISED, VOTED, DECIDED)]
        self.file = written("a", self.pieces)

    def test_every_flipped_bit_is_noticed(self):
        plain = b"".join(self.pieces)
        self.assertFalse(self.is_noticed(self.file))
        missed = [bit for bit in range(8 * len(self.file)) if not self.is_noticed(flipped(self.file, bit))]
        self.assertEqual(missed, [])
        unnoticed = sum(not self.is_noticed(flipped(plain, bit)) for bit in range(8 * len(plain)))
        self.assertGreater(unnoticed, len(plain), "of a store without sums many are not")

    def test_a_wrong_sum_is_told_with_its_place(self):
        at = len(written("a", self.pieces[:2]))
        self.put(flipped(self.file, 8 * at + 47))
        told = f"{self.folder}/a: wrong sum at byte {at}\n"
        for words in (("dump",), ("inspect",), ("scrub",)):
            status, out, err = ran(*words, "--dir", self.folder)
            self.assertEqual((status, err.startswith(told), err.splitlines()[-1]), (1, True, "fault 9"), words)
            self.assertNotIn("a: sums right", out)

    def test_a_start_does_not_go_on_with_changed_bytes(self):
        with Node(PROGRAM, self.folder) as node:
            file = written("a", [node.bytes_of(it) for it in (BASE, PROMISED, VOTED)])
            choose = random.Random(3)
            for bit in choose.sample(range(8 * len(file)), 12):
                for words in ((), ("--sums",)):
                    node.write(flipped(file, bit))
                    node.words = words
                    self.assertEqual((node.start(), node.kill()), ("fault 9", 1), bit)
                    self.assertEqual((node.read("a"), node.read("b")), (flipped(file, bit), b""))

    def test_frames_that_are_moved_repeated_or_swapped_are_noticed(self):
        parts, head = frames("a", self.file), MAGIC["a"]
        others = {
            "generation": frames("a", written("a", [bytes.fromhex(it) for it in (SECOND, PROMISED, VOTED, DECIDED)])),
            "node": frames("a", written("a", [bytes.fromhex(it) for it in (OF_NODE_3, PROMISED, VOTED, DECIDED)])),
            "side": frames("b", written("b", self.pieces)),
        }
        for i, part in enumerate(parts):
            for j in range(len(parts)):
                moved = [*parts[:i], *parts[i + 1 :]]
                moved.insert(j, part)
                repeated = [*parts[: j + 1], part, *parts[j + 1 :]]
                for tried in (moved, repeated):
                    if tried != parts:
                        self.assertTrue(self.is_noticed(head + b"".join(tried)), (i, j))
            if i + 1 < len(parts):
                self.assertTrue(self.is_noticed(head + b"".join([*parts[:i], *parts[i + 1 :]])), i)
            for whose, of in others.items():
                swapped = [*parts[:i], of[i], *parts[i + 1 :]]
                self.assertTrue(self.is_noticed(head + b"".join(swapped)), (whose, i))
        self.assertTrue(self.is_noticed(b"", self.file), "a file in the place of the other")

    def test_what_a_stop_leaves_is_no_damage(self):
        ends = [len(written("a", self.pieces[:count])) for count in range(len(self.pieces) + 1)]
        for length in range(len(self.file) + 1):
            self.put(self.file[:length])
            status, out, err = self.scrub()
            self.assertEqual((status, err), (0, ""), length)
            whole = sum(end <= length for end in ends[1:])
            status, out, err = self.dump()
            self.assertEqual((status, err), (0 if whole else 1, ""), length)
            self.assertEqual(out == "no store\n", not whole)
            if whole:
                self.assertTrue(out.endswith("format 3\n"))

    def test_a_front_of_a_first_base_is_begun_anew(self):
        with Node(PROGRAM, self.folder) as node:
            file = written("a", [node.bytes_of(BASE)])
            for length in (1, 7, 8, 9, 20, len(file) - 1):
                node.write(file[:length])
                node.start()
                self.assertEqual(node.kill(), -9)
                begun = file if length >= len(MAGIC["a"]) else node.bytes_of(BASE)
                self.assertEqual((node.read("a"), node.read("b")), (begun, b""), length)

    def test_a_torn_rest_is_cut_off(self):
        with Node(PROGRAM, self.folder) as node:
            kept = written("a", [node.bytes_of(it) for it in (BASE, PROMISED)])
            whole = written("a", [node.bytes_of(it) for it in (BASE, PROMISED, VOTED)])
            for length in range(len(kept) + 1, len(whole)):
                if length % 5 == 0:
                    node.write(whole[:length])
                    node.start()
                    self.assertEqual((node.kill(), node.read("a")), (-9, kept), length)

    def test_scrub_tells_of_both_files(self):
        wrong = flipped(self.file, 100), flipped(written("b", self.pieces), 200)
        self.put(*wrong)
        status, out, err = self.scrub()
        places = re.findall(rf"(?m)^{re.escape(self.folder)}/([ab]): wrong sum at byte (\d+)$", err)
        self.assertEqual((status, out, places), (1, "", [("a", "8"), ("b", "8")]))
        self.put(self.file, wrong[1])
        status, out, err = self.scrub()
        self.assertEqual((status, out), (1, f"{self.folder}/a: sums right\n"))
        self.assertIn("/b: wrong sum", err)
        self.assertEqual((self.get("a"), self.get("b")), (self.file, wrong[1]))

    def test_scrub_of_files_without_sums(self):
        self.put(b"".join(self.pieces))
        told = f"{self.folder}/a: no sums\n{self.folder}/b: no sums\n"
        self.assertEqual(self.scrub(), (0, told, ""))
        os.remove(os.path.join(self.folder, "b"))
        self.assertEqual(self.scrub()[0], 1)

    def test_dump_and_inspect_say_the_format(self):
        for a, b, said in (
            (self.file, b"", "3"),
            (b"", written("b", self.pieces), "3"),
            (b"".join(self.pieces), b"", "2"),
            (b"".join(self.pieces), b"locks", "2"),
            (b"".join(self.pieces), b"locks 3b" + self.file[8:20], "2"),
        ):
            self.put(a, b)
            status, out, err = self.dump()
            self.assertEqual((status, out.splitlines()[-1], err), (0, f"format {said}", ""))
            status, out, err = ran("inspect", "--dir", self.folder)
            self.assertEqual((status, out.startswith("format 3\n"), err), (0, said == "3", ""))

    def test_random_changes_of_a_longer_store_are_noticed(self):
        votes = [
            bytes.fromhex("00000016 03") + position.to_bytes(8, "big") + bytes.fromhex("0000000000000003 00000001 00")
            for position in range(1, 60)
        ]
        file = written("a", [*self.pieces[:2], *(b"".join(votes[i : i + 3]) for i in range(0, len(votes), 3))])
        self.assertFalse(self.is_noticed(file))
        choose = random.Random(1)
        for _ in range(RANDOM_FLIPS):
            changed = bytearray(file)
            for _ in range(choose.choice((1, 1, 2, 8))):
                changed[choose.randrange(len(file))] ^= 1 << choose.randrange(8)
            if changed != file:
                self.assertTrue(self.is_noticed(bytes(changed)))


@unittest.skipUnless(PROGRAM, "LOCKS_PROGRAM does not tell the program")
class OlderFileTest(Store):
    """A live file and an older one, as a stop leaves them that comes before the older one is cut to nothing."""

    def setUp(self):
        super().setUp()
        self.live = written("a", [bytes.fromhex(it) for it in (SECOND, PROMISED)])
        self.older = written("b", [bytes.fromhex(it) for it in (BASE, PROMISED, VOTED, DECIDED)])
        self.first = len(MAGIC["b"]) + len(frames("b", self.older)[0])

    def warning(self, at):
        """What is written of a wrong sum in the file `b`."""
        text = "older than the other file and not needed; the next snapshot of the node replaces it"
        return f"{self.folder}/b: wrong sum at byte {at}\nwarning: {self.folder}/b: {text}\n"

    def test_a_changed_bit_of_the_older_file_is_reported_and_is_no_fault(self):
        self.put(self.live, self.older)
        sound = self.dump()
        self.assertEqual((sound[0], sound[2]), (0, ""))
        ends = [self.first]
        for part in frames("b", self.older)[1:]:
            ends.append(ends[-1] + len(part))
        for bit in range(8 * self.first, 8 * len(self.older)):
            self.put(self.live, flipped(self.older, bit))
            at = max(end for end in ends if end <= bit // 8)
            self.assertEqual(self.dump(), (0, sound[1], self.warning(at)), bit)

    def test_a_changed_bit_of_a_first_frame_or_of_the_live_file_is_damage(self):
        missed = [bit for bit in range(8 * self.first) if not self.is_noticed(self.live, flipped(self.older, bit))]
        self.assertEqual(missed, [])
        bits = range(8 * len(self.live))
        missed = [bit for bit in bits if not self.is_noticed(flipped(self.live, bit), self.older)]
        self.assertEqual(missed, [])

    def test_the_older_file_has_to_be_known_as_such(self):
        wrong, plain = flipped(self.older, 8 * self.first + 40), bytes.fromhex(SECOND + PROMISED)
        same = written("a", [bytes.fromhex(it) for it in (BASE, PROMISED)])
        for live in (same, plain, b"", flipped(self.live, 8 * len(self.live) - 1)):
            self.assertTrue(self.is_noticed(live, wrong))
        self.assertFalse(self.is_noticed(self.live[:-1], wrong), "what a stop leaves of the live file is no damage")
        newer = written("b", [bytes.fromhex(it) for it in (SECOND, PROMISED, VOTED)])
        self.assertTrue(self.is_noticed(same, flipped(newer, 8 * self.first + 40)), "the live file is damaged")

    def test_inspect_and_scrub_report_the_older_file(self):
        self.put(self.live, self.older)
        sound = ran("inspect", "--dir", self.folder)
        self.put(self.live, flipped(self.older, 8 * self.first + 40))
        self.assertEqual(ran("inspect", "--dir", self.folder), (0, sound[1], self.warning(self.first)))
        told = f"{self.folder}/b: wrong sum at byte {self.first}\nfault 9\n"
        self.assertEqual(self.scrub(), (1, f"{self.folder}/a: sums right\n", told))

    def test_a_start_goes_on_without_the_older_file(self):
        with Node(PROGRAM, self.folder) as node:
            live = written("a", [node.bytes_of(it) for it in (SECOND,)])
            older = written("b", [node.bytes_of(it) for it in (BASE, PROMISED, VOTED)])
            wrong = flipped(older, 8 * self.first + 40)
            for words in ((), ("--sums",)):
                node.words = words
                node.write(live, wrong)
                self.assertEqual(node.start(), f"port {node.ports[1]}")
                node.asked(node.bytes_of(PREPARE))
                node.kill()
                after = written("a", [node.bytes_of(SECOND), node.bytes_of(PROMISED)])
                self.assertEqual((node.read("a"), node.read("b")), (after, wrong))
                for spoilt in (flipped(live, 8 * len(live) - 1), b""):
                    node.write(spoilt, wrong)
                    self.assertEqual((node.start(), node.kill()), ("fault 9", 1))
                    self.assertEqual((node.read("a"), node.read("b")), (spoilt, wrong))


@unittest.skipUnless(PROGRAM, "LOCKS_PROGRAM does not tell the program")
class OutdatedFileTest(Store):
    """A file with sums and an older one without: a stop in the middle of the first snapshot with sums leaves both."""

    def setUp(self):
        super().setUp()
        self.node = self.enterContext(Node(PROGRAM, self.folder))
        self.older = self.node.bytes_of(BASE, PROMISED, VOTED)

    def newer(self, name, *texts):
        """The file of that name with sums, whose pieces these are."""
        return written(name, [self.node.bytes_of(it) for it in texts])

    def put_beside(self, name, newer, older):
        """The file of that name is the one, and the other file the other one."""
        files = {name: newer, OTHER[name]: older}
        self.node.write(files["a"], files["b"])

    def files_after(self, name, newer, older, *words):
        """What is left of them after a start with these options, or without one, and the last line of that."""
        self.put_beside(name, newer, older)
        self.node.words = words
        last = self.node.start()
        self.node.kill()
        return last, self.node.read(name), self.node.read(OTHER[name])

    def without_sums(self, name):
        """What a program that knows no sums says of the folder: it reads those letters as any others."""
        files = {it: self.get(it) for it in MAGIC}
        with tempfile.TemporaryDirectory() as folder:
            for it, data in {**files, name: b"k" + files[name][1:]}.items():
                with open(os.path.join(folder, it), "wb") as file:
                    file.write(data)
            status, out, err = ran("dump", "--dir", folder)
            return status, (out + err).splitlines()[-1]

    def test_a_start_cuts_it(self):
        for name in MAGIC:
            newer = self.newer(name, SECOND, PROMISED)
            for words in ((), ("--sums",)):
                done = self.files_after(name, newer, self.older, *words)
                self.assertEqual(done, (f"port {self.node.ports[1]}", newer, b""), (name, words))

    def test_a_program_without_sums_then_finds_damage(self):
        for name in MAGIC:
            newer = self.newer(name, SECOND, PROMISED)
            self.put_beside(name, newer, self.older)
            self.assertEqual(self.without_sums(name), (0, "format 2"), "it would go on without the last promise")
            self.node.start()
            self.node.kill()
            self.assertEqual(self.without_sums(name), (1, "fault 9"))

    def test_what_a_stop_leaves_of_it_is_cut_or_no_store(self):
        base = len(self.node.bytes_of(BASE))
        newer = self.newer("a", SECOND, PROMISED)
        for length in range(0, len(self.older), 7):
            front = self.older[:length]
            done = self.files_after("a", newer, front)
            left = front if length < base else b""
            self.assertEqual(done, (f"port {self.node.ports[1]}", newer, left), length)
            self.assertEqual(self.without_sums("a"), (1, "fault 9"), length)

    def test_readers_cut_nothing(self):
        newer = self.newer("b", SECOND, PROMISED)
        self.put_beside("b", newer, self.older)
        for words in ("dump", "inspect", "scrub"):
            self.assertEqual(ran(words, "--dir", self.folder)[0], 0, words)
            self.assertEqual((self.get("a"), self.get("b")), (self.older, newer), words)

    def test_no_other_file_is_cut(self):
        serves = f"port {self.node.ports[1]}"
        newer = self.newer("a", SECOND, PROMISED)
        same = self.newer("a", BASE, PROMISED)
        wrong = flipped(newer, 8 * len(newer) - 1)
        plain = self.node.bytes_of(SECOND, PROMISED)
        torn = self.newer("a", SECOND)[:-1]
        for file, beside, last in (
            (same, self.older, "fault 9"),
            (wrong, self.older, "fault 9"),
            (newer, plain, "fault 9"),
            (same, plain, serves),
            (torn, self.older, serves),
            (b"", self.older, serves),
        ):
            self.assertEqual(self.files_after("a", file, beside), (last, file, beside))


@unittest.skipUnless(PROGRAM, "LOCKS_PROGRAM does not tell the program")
class NodesTest(Store):
    """Nodes that write such files."""

    def test_init_begins_a_store_with_sums(self):
        [port] = free_ports(1)
        words = ("--genesis", f"5,2,1:{port}", "--number", "1", "--dir", self.folder)
        self.assertEqual(ran("init", "--sums", *words), (0, "", ""))
        [base] = pieces("a", self.get("a"))
        self.assertEqual((base[:5], self.get("b")), (bytes.fromhex("00000061 01"), b""))
        self.assertEqual(self.scrub()[0], 0)
        self.assertTrue(self.dump()[1].endswith("format 3\n"))

    def test_a_node_writes_what_it_would_write_without_them(self):
        with Node(PROGRAM, self.folder) as node:
            for words in ((), ("--sums",)):
                node.words = words
                node.write(b"")
                node.start()
                for datagram in (PREPARE, ACCEPT):
                    node.asked(node.bytes_of(datagram))
                node.kill()
                kept = node.bytes_of(BASE, PROMISED, VOTED)
                if words:
                    self.assertEqual(b"".join(pieces("a", node.read("a"))), kept)
                else:
                    self.assertEqual(node.read("a"), kept)
                self.assertEqual(node.read("b"), b"")
            # Once begun they stay.
            node.words = ()
            before = node.read("a")
            node.start()
            node.asked(node.bytes_of(PREPARE))
            node.kill()
            self.assertEqual(node.read("a")[: len(before)], before)
            pieces("a", node.read("a"))

    def test_a_store_without_sums_gets_them_with_its_next_snapshot(self):
        with Cluster(PROGRAM, self.folder, nodes=1, alpha=2) as cluster:
            folder = os.path.join(self.folder, "1")
            with cluster.client(Client, 7, patience=30.0) as client:
                last = [client.acquire("db")]
                for options, requests in (((), 20), (("--sums",), 300), ((), 300)):
                    cluster.kill(1)
                    before = ran("inspect", "--dir", folder)[1].splitlines()
                    cluster.options = options
                    cluster.start(1)
                    for _ in range(requests // 2):
                        client.release("db", last[-1])
                        last.append(client.acquire("db"))
                    told = ran("dump", "--dir", folder)[1]
                    self.assertEqual(told.splitlines()[-1], "format 2" if requests == 20 else "format 3")
                    self.assertEqual(ran("scrub", "--dir", folder)[0], 0, before)
                    if requests == 20:
                        cluster.kill(1)
                        cluster.options = ("--sums",)
                        cluster.start(1)
                        client.ask("db")
                        self.assertTrue(ran("dump", "--dir", folder)[1].endswith("format 2\n"))
                # Its vote takes the decision before it into the file.
                client.ask("db")
            self.assertEqual(last, sorted(set(last)))
            cluster.kill(1)
            told = ran("inspect", "--dir", folder)[1].splitlines()
            self.assertEqual((told[0], told[-1]), ("format 3", f"held db 7 {last[-1]}"))

    def test_a_restart_cuts_the_older_file_without_sums_and_knows_all(self):
        with Cluster(PROGRAM, self.folder, nodes=1, alpha=2) as cluster:
            folder = os.path.join(self.folder, "1")
            with cluster.client(Client, 7, patience=30.0) as client:
                last = client.acquire("db")
                cluster.kill(1)
                with open(os.path.join(folder, "a"), "rb") as file:
                    older = file.read()
                cluster.options = ("--sums",)
                cluster.start(1)
                while not ran("dump", "--dir", folder)[1].endswith("format 3\n"):
                    client.release("db", last)
                    last = client.acquire("db")
                cluster.kill(1)
                cluster.options = ()
                with open(os.path.join(folder, "a"), "wb") as file:
                    file.write(older)
                told = ran("inspect", "--dir", folder)
                self.assertEqual((told[0], told[2]), (0, ""))
                self.assertEqual(ran("scrub", "--dir", folder)[1].splitlines()[0], f"{folder}/a: no sums")
                with open(os.path.join(folder, "a"), "rb") as file:
                    self.assertEqual(file.read(), older)
                cluster.start(1)
                self.assertEqual(client.ask("db").fence, last)
                self.assertEqual(os.path.getsize(os.path.join(folder, "a")), 0)

    def test_the_next_snapshot_replaces_a_damaged_older_file(self):
        with Cluster(PROGRAM, self.folder, nodes=1, alpha=2, options=("--sums",)) as cluster:
            folder = os.path.join(self.folder, "1")
            with cluster.client(Client, 7, patience=30.0) as client:
                last = [client.acquire("db")]

                def goes_on_to(generation):
                    while not ran("dump", "--dir", folder)[1].startswith(f"generation {generation}\n"):
                        for _ in range(10):
                            client.release("db", last[-1])
                            last.append(client.acquire("db"))

                goes_on_to(2)
                cluster.kill(1)
                with open(os.path.join(folder, "b"), "rb") as file:
                    name, older = one_before("b", file.read())
                with open(os.path.join(folder, name), "wb") as file:
                    file.write(flipped(older, 8 * len(older) - 1))
                self.assertEqual(ran("scrub", "--dir", folder)[0], 1)
                cluster.start(1)
                goes_on_to(3)
                self.assertEqual(ran("scrub", "--dir", folder)[0], 0)
                client.ask("db")
            self.assertEqual(last, sorted(set(last)))
            cluster.kill(1)
            self.assertTrue(ran("inspect", "--dir", folder)[1].endswith(f"held db 7 {last[-1]}\n"))

    def test_a_decision_shares_the_frame_of_the_next_vote(self):
        with Cluster(PROGRAM, self.folder, nodes=1, alpha=2, options=("--sums",)) as cluster:
            with cluster.client(Client, 7, patience=30.0) as client:
                for _ in range(4):
                    client.release("db", client.acquire("db"))
            cluster.kill(1)
            _, *rest = ([it[4] for it in entries(piece)] for piece in pieces("a", self.get("1/a")))
            self.assertLessEqual({kinds[-1] for kinds in rest}, {2, 3}, "each ends with a promise or a vote")
            self.assertGreaterEqual(sum(kinds.count(4) for kinds in rest), 7, "all decisions but the last one")

    def test_a_flush_hands_over_4096_bytes(self):
        for last, is_handed_over in ((19, False), (20, True)):
            with Node(PROGRAM, self.folder, alpha=16) as node:
                node.words = ("--sums",)
                node.write(b"")
                node.start()
                learnt = []
                for sizes in (16 * [64], 16 * [64], [*13 * [64], last]):
                    learnt += self.learns(node, len(learnt) + 1, sizes)
                self.assertEqual(sum(map(len, learnt)), 4076 + last)
                held = [b"".join(learnt)] * is_handed_over
                self.assertEqual(pieces("a", node.read("a"))[1:], held)
                learnt += self.learns(node, 47, [1])
                self.assertEqual(pieces("a", node.read("a"))[1:], held or [b"".join(learnt)])
                # A sync takes what waits with it.
                node.asked(node.bytes_of(PREPARE))
                waited = b"".join(learnt[46:]) if held else b""
                kept = [*(held or [b"".join(learnt)]), waited + node.bytes_of(PROMISED)]
                self.assertEqual(pieces("a", node.read("a"))[1:], kept)

    def learns(self, node, first, sizes):
        """Has a node execute decided commands, and returns their entries. Then it has flushed its store."""
        datagram, found = decided(first, sizes)
        node.send(datagram)
        executed = f"ran {first + len(sizes) - 1}\n"
        while not (line := node.process.stderr.readline()).endswith(executed):
            self.assertNotEqual(line, "")
        return found

    def test_killed_nodes_know_what_they_answered(self):
        for nodes in (1, 3):
            folder, options = self.enterContext(tempfile.TemporaryDirectory()), ("--sums", "--ticks", "clock")
            with Cluster(PROGRAM, folder, nodes=nodes, alpha=2, options=options) as cluster:
                self.assertEqual(self.said(cluster, 7, 1, "acquire db"), "granted 1\n")
                self.assertEqual(self.said(cluster, 7, 2, "release db 1"), "released\n")
                self.assertEqual(self.said(cluster, 7, 3, "acquire db"), "granted 2\n")
                for node in cluster.ports:
                    cluster.kill(node)
                if nodes == 1:
                    told = dict(it.split(" ", 1) for it in ran("dump", "--dir", f"{folder}/1")[1].splitlines())
                    self.assertLess(int(told["decided"]), int(told["votes"]), "a decision waited in memory")
                for node in cluster.ports:
                    cluster.start(node)
                self.assertEqual(self.said(cluster, 8, 1, "ask db"), "held 7 2\n")
                self.assertEqual(self.said(cluster, 7, 3, "acquire db"), "granted 2\n", "the request is repeated")
                self.assertEqual(self.said(cluster, 7, 4, "release db 2"), "released\n")
                self.assertEqual(self.said(cluster, 7, 5, "acquire db"), "granted 3\n")

    def said(self, cluster, client, number, words):
        """What `locks ask` prints, asked again until it is answered."""
        place = ("--cluster", "5", "--port", str(cluster.ports[1]), "--client", str(client), "--request", str(number))
        for _ in range(10):
            status, out, _ = ran("ask", *place, *words.split())
            if status == 0:
                return out
        return ""

    def test_scrub_does_not_disturb_a_node(self):
        with Cluster(PROGRAM, self.folder, nodes=1, alpha=2, options=("--sums",)) as cluster:
            folder = os.path.join(self.folder, "1")
            with cluster.client(Client, 7, patience=30.0) as client:
                client.acquire("db")
                words = [PROGRAM, "scrub", "--dir", folder]
                for _ in range(40):
                    with subprocess.Popen(words, stdout=subprocess.DEVNULL) as scrubbing:
                        for _ in range(15):
                            client.ask("db")
                        self.assertEqual(scrubbing.wait(), 0)


if __name__ == "__main__":
    unittest.main()
