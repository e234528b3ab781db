"""Which texts the store takes for a packed state, and which it does not."""
import os
import subprocess
import tempfile
import unittest

from harness.by_bytes import bytes_of

PROGRAM = os.environ.get("LOCKS_PROGRAM")

# The Base of node 1, up to the position of its snapshot, and what stands after the text of it: no vote and no pair.
HEADER = "01 0000000000000001 02 0000000000000005 00000001 02 01 00000001 1b59 0000000000000000 00000000"
NONE = "0000 0000"

# The last position.
LAST = bytes.fromhex("0001000000000000")

# The first state of node 1 at port 7001 with alpha 2, and one after a join of node 4 and a leave of node 1.
STATES = [
    "0000000000000000 02 01 00000001 1b59 01 00000001 1b59 00000001 0000000000000000 0000 0000",
    "0000000000000002 02 04 00000001 1b59 00000002 1b5a 00000003 1b5b 00000004 1b5c"
    " 03 00000002 1b5a 00000003 1b5b 00000004 1b5c 00000004 0000000000000002 0001 0009 0000000000000002 23 0000",
]

# A state of two positions by the parts of its text: how many positions are executed, the sets of members, the greatest
# number ever a member, the last change, the sessions and the names.
PARTS = [
    "0000000000000002",
    "02 02 00000001 1b59 00000002 1b5a 02 00000002 1b5a 00000003 1b5b",
    "80000000",
    "0000000000000002",
    "0002 0007 0000000000000001 01 0000000000000001 0009 0000000000000002 20",
    "0002 01 61 0000000000000001 0007 02 612e 0000000000000003 0000",
]

# A rule, the place of a part, what may stand there, and what breaks the rule. No rule goes across the parts but the one
# on the greatest number: a last change above the executed positions may stand, and a holder without a session.
LIMITS = [
    ("executed above 2^48", 0, "0001000000000000", "0001000000000001"),
    ("alpha 0", 1, "01 01 00000001 1b59", "00"),
    ("a set of 0 members", 1, "01 01 00000001 1b59", "01 00"),
    (
        "a set of 8 members",
        1,
        "01 07 00000001 1b59 00000002 1b59 00000003 1b59 00000004 1b59 00000005 1b59 00000006 1b59 00000007 1b59",
        "01 08 00000001 1b59 00000002 1b59 00000003 1b59 00000004 1b59 00000005 1b59 00000006 1b59 00000007 1b59"
        " 00000008 1b59",
    ),
    ("a node twice", 1, "01 02 00000001 1b59 00000002 1b59", "01 02 00000001 1b59 00000001 1b59"),
    ("falling nodes", 1, "01 02 00000001 1b59 00000002 1b59", "01 02 00000002 1b59 00000001 1b59"),
    ("node 0", 1, "01 01 00000001 1b59", "01 01 00000000 1b59"),
    ("a node above 2^31", 1, "01 01 80000000 1b59", "01 01 80000001 1b59"),
    ("port 0", 1, "01 01 00000001 0001", "01 01 00000001 0000"),
    ("a node above the greatest", 2, "00000003", "00000002"),
    ("greatest 0", 2, "00000003", "00000000"),
    ("greatest above 2^31", 2, "80000000", "80000001"),
    ("a last change above 2^48", 3, "0001000000000000", "0001000000000001"),
    (
        "a client twice",
        4,
        "0002 0007 0000000000000001 03 0008 0000000000000001 03",
        "0002 0007 0000000000000001 03 0007 0000000000000001 03",
    ),
    (
        "falling clients",
        4,
        "0002 0007 0000000000000001 03 0008 0000000000000001 03",
        "0002 0008 0000000000000001 03 0007 0000000000000001 03",
    ),
    ("client 0", 4, "0001 0001 0000000000000001 03", "0001 0000 0000000000000001 03"),
    ("client 257", 4, "0001 0100 0000000000000001 03", "0001 0101 0000000000000001 03"),
    ("number 0", 4, "0001 0007 0000000000000001 03", "0001 0007 0000000000000000 03"),
    ("number above 2^48", 4, "0001 0007 0001000000000000 03", "0001 0007 0001000000000001 03"),
    ("answer 0f", 4, "0001 0007 0000000000000001 0e", "0001 0007 0000000000000001 0f"),
    ("answer 28", 4, "0001 0007 0000000000000001 27", "0001 0007 0000000000000001 28"),
    (
        "an answer of fence 0",
        4,
        "0001 0007 0000000000000001 01 0000000000000001",
        "0001 0007 0000000000000001 01 0000000000000000",
    ),
    (
        "an answer of a fence above 2^48",
        4,
        "0001 0007 0000000000000001 01 0001000000000000",
        "0001 0007 0000000000000001 01 0001000000000001",
    ),
    (
        "a name twice",
        5,
        "0002 01 61 0000000000000001 0000 01 62 0000000000000001 0000",
        "0002 01 61 0000000000000001 0000 01 61 0000000000000001 0000",
    ),
    (
        "falling names",
        5,
        "0002 01 61 0000000000000001 0000 01 62 0000000000000001 0000",
        "0002 01 62 0000000000000001 0000 01 61 0000000000000001 0000",
    ),
    ("a name of 0 bytes", 5, "0001 01 61 0000000000000001 0000", "0001 00 0000000000000001 0000"),
    (
        "a name of 33 bytes",
        5,
        "0001 20 6161616161616161616161616161616161616161616161616161616161616161 0000000000000001 0000",
        "0001 21 616161616161616161616161616161616161616161616161616161616161616161 0000000000000001 0000",
    ),
    ("a capital", 5, "0001 01 61 0000000000000001 0000", "0001 01 41 0000000000000001 0000"),
    ("fence 0", 5, "0001 01 61 0000000000000001 0000", "0001 01 61 0000000000000000 0000"),
    ("a fence above 2^48", 5, "0001 01 61 0001000000000000 0000", "0001 01 61 0001000000000001 0000"),
    ("holder 257", 5, "0001 01 61 0000000000000001 0100", "0001 01 61 0000000000000001 0101"),
    ("a table of version 3", 5, "ff02 0000", "ff03 0000"),
    ("mode 3", 5, "ff02 0001 01 61 0000000000000001 00", "ff02 0001 01 61 0000000000000001 03"),
    ("0 sharers", 5, "ff02 0001 01 61 0000000000000001 02 01 0001", "ff02 0001 01 61 0000000000000001 02 00"),
    (
        "9 sharers",
        5,
        "ff02 0001 01 61 0000000000000001 02 08 0001 0002 0003 0004 0005 0006 0007 0100",
        "ff02 0001 01 61 0000000000000001 02 09 0001 0002 0003 0004 0005 0006 0007 0008 0100",
    ),
    (
        "a sharer twice",
        5,
        "ff02 0001 01 61 0000000000000001 02 02 0001 0002",
        "ff02 0001 01 61 0000000000000001 02 02 0001 0001",
    ),
    ("a byte too few", 5, "0000", "00"),
    ("a byte too many", 5, "0000", "0000 00"),
]


def base_of(text):
    """A file of one Base whose snapshot has this text, at the position up to which it has executed, or at the last."""
    state = bytes_of(text)
    position = min(state[:8], LAST)
    body = bytes_of(HEADER) + position + len(state).to_bytes(4, "big") + state + bytes_of(NONE)
    return len(body).to_bytes(4, "big") + body


def text_with(place, part):
    """The text of all parts, where this one has its place."""
    return " ".join(part if index == place else stands for index, stands in enumerate(PARTS))


@unittest.skipUnless(PROGRAM, "LOCKS_PROGRAM does not tell the program")
class StateTest(unittest.TestCase):
    def setUp(self):
        self.folder = self.enterContext(tempfile.TemporaryDirectory())

    def inspects(self, text, *words):
        """What `inspect` prints and tells, where a store holds this text."""
        for name, data in (("a", base_of(text)), ("b", b"")):
            with open(os.path.join(self.folder, name), "wb") as file:
                file.write(data)
        return subprocess.run([PROGRAM, "inspect", "--dir", self.folder, *words], capture_output=True, text=True)

    def inspected(self, text):
        """The status and the last line of standard error, where a store holds this text."""
        told = self.inspects(text)
        return told.returncode, "".join(told.stderr.splitlines(keepends=True)[-1:])

    def test_states_have_these_bytes(self):
        for text in STATES:
            with self.subTest(text=text):
                self.assertEqual(self.inspected(text), (0, ""))

    def test_all_names_are_printed_with_their_last_fences(self):
        members = ["members 1:7001 2:7002", "members from 4 2:7002 3:7003"]
        head = ["executed 2", *members, "names 2 of 512", "clients 2 of 256"]
        shared = "ff02 0002 01 61 0000000000000005 02 02 0001 0100 01 62 0000000000000009 00"
        tables = [
            (PARTS[5], ["held a 7 1"], ["free a. 3"]),
            (shared, ["held a 1 5", "held a 256 5"], ["free b 9"]),
            ("ff02 0002 01 61 0000000000000004 00 01 62 0000000000000002 01 0007", ["free a 4"], ["held b 7 2"]),
        ]
        for names, first, second in tables:
            with self.subTest(names=names):
                text = text_with(5, names)
                lines = [*first, *second]
                held = [line for line in lines if line.startswith("held")]
                self.assertEqual(self.inspects(text).stdout.splitlines(), [*head, *held])
                self.assertEqual(self.inspects(text, "--all").stdout.splitlines(), [*head, *lines])

    def test_each_limit_is_the_last_that_is_taken(self):
        for rule, place, good, bad in LIMITS:
            with self.subTest(rule=rule):
                self.assertEqual(self.inspected(text_with(place, good)), (0, ""))
                self.assertEqual(self.inspected(text_with(place, bad)), (1, "fault 9\n"))


if __name__ == "__main__":
    unittest.main()
