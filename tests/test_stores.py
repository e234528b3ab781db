"""What a node reads from files of given bytes, and what it says and writes."""
import os
import subprocess
import tempfile
import unittest

from harness.by_bytes import Node

PROGRAM = os.environ.get("LOCKS_PROGRAM")

PREPARE = "4c4b0101 0000000000000005 00000001 0000000000000003 00000001 0000000000000001"
PROMISE = "4c4b0102 0000000000000005 00000002 0000000000000003 00000001 0000000000000001 00"
ACCEPT = "4c4b0103 0000000000000005 00000001 0000000000000003 00000001 0000000000000001 00"
ACCEPTED = "4c4b0104 0000000000000005 00000002 0000000000000003 00000001 0000000000000001 00"

# A Prepare of a smaller ballot, and what it gets once (3, 1) is promised.
SMALLER = "4c4b0101 0000000000000005 00000001 0000000000000002 00000001 0000000000000001"
NACK = "4c4b0105 0000000000000005 00000002 0000000000000002 00000001 0000000000000003 00000001 0000000000000000"

# A Prepare from the position of the snapshot on, and what it gets.
BELOW = "4c4b0101 0000000000000005 00000001 0000000000000003 00000001 0000000000000100"
BELOW_NACK = "4c4b0105 0000000000000005 00000002 0000000000000003 00000001 0000000000000001 00000001 0000000000000100"

# The members in a Base and in a state, and the state of three nodes with alpha 1 that have executed nothing, after its
# length.
MEMBERS = "03 00000001 1b59 00000002 1b5a 00000003 1b5b"
STATE_0 = f"0000002c 0000000000000000 01 {MEMBERS} 00000003 0000000000000000 0000 0000"

# A Base that has promised nothing, up to its votes and pairs; it has none.
NOTHING_YET = f"0000000000000000 00000000 0000000000000000 {STATE_0}"
NONE = "0000 0000"

# The Base of node 2 in its first and its second generation, as it begins.
BEGUN = f"00000072 01 0000000000000001 02 0000000000000005 00000002 01 {MEMBERS} {NOTHING_YET} {NONE}"
SECOND_BEGUN = f"00000072 01 0000000000000002 02 0000000000000005 00000002 01 {MEMBERS} {NOTHING_YET} {NONE}"

# A first Base as a program wrote it that knew format 1 alone, and one of the last generation.
OLD = f"00000072 01 0000000000000001 01 0000000000000005 00000002 01 {MEMBERS} {NOTHING_YET} {NONE}"
LAST_OLD = f"00000072 01 0001000000000000 01 0000000000000005 00000002 01 {MEMBERS} {NOTHING_YET} {NONE}"

# The Base that takes the place of an old one after which `PROMISED` and `VOTED` stand.
RENEWED = (
    f"00000087 01 0000000000000002 02 0000000000000005 00000002 01 {MEMBERS}"
    f" 0000000000000003 00000001 0000000000000000 {STATE_0}"
    " 0001 0000000000000001 0000000000000003 00000001 00 0000"
)

# All of a first Base but its last byte.
TORN = f"00000072 01 0000000000000001 02 0000000000000005 00000002 01 {MEMBERS} {NOTHING_YET} 0000 00"

# The first Bases of another node, of another cluster, and with another port.
OF_NODE_3 = f"00000072 01 0000000000000001 02 0000000000000005 00000003 01 {MEMBERS} {NOTHING_YET} {NONE}"
OF_CLUSTER_6 = f"00000072 01 0000000000000001 02 0000000000000006 00000002 01 {MEMBERS} {NOTHING_YET} {NONE}"
WITH_PORT_7004 = (
    "00000072 01 0000000000000001 02 0000000000000005 00000002 01 03 00000001 1b59 00000002 1b5a 00000003 1b5c"
    f" {NOTHING_YET} {NONE}"
)

# The Base of node 2, which has promised (1, 1), but for the position of its snapshot; and the state of 256 positions,
# with no vote or pair.
BASE = f"00000072 01 0000000000000001 02 0000000000000005 00000002 01 {MEMBERS} 0000000000000001 00000001"
SNAPSHOT = f"0000002c 0000000000000100 01 {MEMBERS} 00000003 0000000000000000 0000 0000 {NONE}"
AT_255, AT_256 = "00000000000000ff", "0000000000000100"
SNAPSHOT_AT_256 = f"{BASE} {AT_256} {SNAPSHOT}"

PROMISED = "0000000d 02 0000000000000003 00000001"
VOTED = "00000016 03 0000000000000001 0000000000000003 00000001 00"
VOTE_258 = "00000016 03 0000000000000102 0000000000000001 00000001 00"
VOTE_259 = "00000016 03 0000000000000103 0000000000000001 00000001 00"
DECIDED_257 = "0000000a 04 0000000000000101 00"
DECIDED_258 = "0000000a 04 0000000000000102 00"
DECIDED_259 = "0000000a 04 0000000000000103 00"
RAISE_DECIDED = "00000016 04 0000000000000001 01 0007 0000000000000001 03 02"

# What stands in the files a and b; the fault, or the positions that are executed; and how long the files are then.
FILES = [
    ([], [], [], (118, 0)),
    ([SNAPSHOT_AT_256], [], [], (118, 0)),
    ([BEGUN, PROMISED, VOTED], [], [], (161, 0)),
    # A snapshot at another position.
    ([BASE, AT_255, SNAPSHOT], [], 9, (118, 0)),
    # What is decided is run up to a gap.
    ([SNAPSHOT_AT_256, DECIDED_257, DECIDED_258], [], [257, 258], (146, 0)),
    ([SNAPSHOT_AT_256, DECIDED_258], [], [], (132, 0)),
    # What lies too far above is damage.
    ([SNAPSHOT_AT_256, VOTE_258], [], [], (144, 0)),
    ([SNAPSHOT_AT_256, VOTE_259], [], 9, (144, 0)),
    ([SNAPSHOT_AT_256, VOTE_259, DECIDED_257], [], [257], (158, 0)),
    ([SNAPSHOT_AT_256, DECIDED_259], [], 9, (132, 0)),
    # A rest is torn, or damage.
    ([BEGUN, "000000"], [], [], (118, 0)),
    ([BEGUN, "00010000"], [], [], (118, 0)),
    ([BEGUN, "00010001"], [], 9, (122, 0)),
    ([BEGUN, "00000000"], [], 9, (122, 0)),
    ([BEGUN, "00000001 09"], [], 9, (123, 0)),
    # Two Bases of one generation, two in one file, and entries after none.
    ([BEGUN], [BEGUN], 9, (118, 118)),
    ([BEGUN, SECOND_BEGUN], [], 9, (236, 0)),
    ([PROMISED], [], 9, (17, 0)),
    ([BEGUN], [PROMISED], 9, (118, 17)),
    (["00000000"], [], 9, (4, 0)),
    # The greater generation is live, whatever stands in the other file.
    ([BEGUN, "00010001"], [SECOND_BEGUN, PROMISED], [], (122, 135)),
    ([TORN], ["0000"], [], (118, 2)),
    # The store of another node, another cluster, other members; and one that is damaged besides.
    ([OF_NODE_3], [], 10, (118, 0)),
    ([OF_CLUSTER_6], [], 10, (118, 0)),
    ([WITH_PORT_7004], [], 10, (118, 0)),
    ([OF_CLUSTER_6, "000000"], [], 10, (121, 0)),
    ([OF_CLUSTER_6, "00000000"], [], 9, (122, 0)),
    # A store of format 1 is rebased at once, where a generation is left; in it no command raises the machine.
    ([OLD], [], [], (0, 118)),
    ([OLD, PROMISED, "00000016 03"], [], [], (0, 118)),
    ([OLD, PROMISED, VOTED], [], [], (0, 139)),
    ([LAST_OLD], [], 11, (118, 0)),
    ([OLD, RAISE_DECIDED], [], 9, (144, 0)),
    ([BEGUN, RAISE_DECIDED], [], [1], (144, 0)),
]

# What is heard, and what is said. What is said twice is written once.
SAID = [(PREPARE, PROMISE), (PREPARE, PROMISE), (ACCEPT, ACCEPTED), (ACCEPT, ACCEPTED), (SMALLER, NACK)]


def number(value):
    """A round, as it is spelled."""
    return f"{value:016x}"


def request():
    """A request of client 7 whose body has 64 bytes."""
    return "01 0007 0000000000000001 00 40" + " 01020304 05060708" * 8


@unittest.skipUnless(PROGRAM, "LOCKS_PROGRAM does not tell the program")
class StoreTest(unittest.TestCase):
    def node(self):
        """A node in an empty folder."""
        return self.enterContext(Node(PROGRAM, self.enterContext(tempfile.TemporaryDirectory())))

    def up(self, *texts):
        """A node that came up on such a file."""
        node = self.node()
        if texts:
            node.write(node.bytes_of(*texts))
        self.assertEqual(node.start(), f"port {node.ports[1]}")
        return node

    def says(self, node, heard, said):
        """The node sends this for a datagram."""
        self.assertEqual(node.asked(node.bytes_of(heard)).hex(), node.bytes_of(said).hex())

    def ended(self, node):
        """How a start of the node ended: the fault, or the positions that it executed; and how long its files are."""
        last = node.start()
        lengths = node.lengths()
        if last == f"port {node.ports[1]}":
            node.kill()
            return node.runs, lengths
        node.process.wait()
        self.assertEqual((last.split()[0], node.kill(), node.runs), ("fault", 1, []))
        return int(last.split()[1]), lengths

    def test_files_are_taken_up_or_refused(self):
        node = self.node()
        for row, (a, b, end, lengths) in enumerate(FILES):
            with self.subTest(row=row):
                node.write(node.bytes_of(*a), node.bytes_of(*b))
                self.assertEqual(self.ended(node), (end, lengths))

    def test_what_is_said_is_written_once_in_these_bytes(self):
        node = self.up()
        for heard, said in SAID:
            self.says(node, heard, said)
        self.assertEqual((node.read("a"), node.read("b")), (node.bytes_of(BEGUN, PROMISED, VOTED), b""))

    def test_what_was_said_is_known_after_a_kill(self):
        node = self.up()
        for heard, said in SAID:
            self.says(node, heard, said)
            node.kill()
            node.start()
        self.says(node, SMALLER, NACK)
        self.says(node, ACCEPT, ACCEPTED)

    def test_an_old_store_is_written_anew_in_these_bytes(self):
        node = self.up(OLD, PROMISED, VOTED)
        self.assertEqual((node.read("a"), node.read("b")), (b"", node.bytes_of(RENEWED)))

    def test_a_prepare_from_the_snapshot_gets_a_nack(self):
        node = self.up(SNAPSHOT_AT_256)
        self.says(node, BELOW, BELOW_NACK)
        self.assertEqual(node.read("a"), node.bytes_of(SNAPSHOT_AT_256))

    def votes(self, node, ballot):
        """The node votes in that round for the request at position 1."""
        fields = f"{number(ballot)} 00000001 {number(1)} {request()}"
        self.says(node, f"4c4b0103 0000000000000005 00000001 {fields}", f"4c4b0104 0000000000000005 00000002 {fields}")

    def refuses(self, node, promised):
        """It refuses a smaller ballot, and has promised that one."""
        nack = f"4c4b0105 0000000000000005 00000002 0000000000000001 00000001 {number(promised)} 00000001 {number(0)}"
        self.says(node, f"4c4b0101 0000000000000005 00000001 0000000000000001 00000001 {number(1)}", nack)

    def test_a_file_that_votes_have_filled_gives_way_to_a_base(self):
        votes = [f"00000062 03 {number(1)} {number(ballot)} 00000001 {request()}" for ballot in range(2, 1284)]
        node = self.up(BEGUN, *votes)
        self.votes(node, 1284)
        self.refuses(node, 1284)
        self.assertEqual(node.lengths(), (130_984, 0))
        self.votes(node, 1285)  # then it has 131,086 bytes
        self.refuses(node, 1285)
        self.assertEqual(node.lengths(), (0, 215))
        self.votes(node, 1286)
        self.assertEqual(node.lengths(), (0, 317))
        told = subprocess.run([PROGRAM, "dump", "--dir", node.folder], capture_output=True, text=True, check=True)
        self.assertEqual(told.stdout.splitlines()[0], "generation 2")

    def test_a_look_makes_no_file(self):
        folder = self.enterContext(tempfile.TemporaryDirectory())
        missing = os.path.join(folder, "missing")
        for command in ("dump", "inspect"):
            for place in (folder, missing):
                self.assertEqual(subprocess.run([PROGRAM, command, "--dir", place], capture_output=True).returncode, 1)
        words = ["--genesis", "5,1,1:54321", "--number", "1", "--port", "54321", "--dir", missing]
        self.assertEqual(subprocess.run([PROGRAM, "node", *words], capture_output=True).returncode, 1)
        self.assertEqual(os.listdir(folder), [])


if __name__ == "__main__":
    unittest.main()
