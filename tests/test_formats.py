"""A Raise in a file of format 1, for each order of the two files."""
import os
import tempfile
import unittest

from harness.by_bytes import Node

PROGRAM = os.environ.get("LOCKS_PROGRAM")

# The Base of node 2 of three that has promised and executed nothing: what follows its format, up to its votes, and the
# whole Base in formats 1 and 2.
MEMBERS = "03 00000001 1b59 00000002 1b5a 00000003 1b5b"
REST = (
    f"0000000000000005 00000002 01 {MEMBERS} 0000000000000000 00000000 0000000000000000"
    f" 0000002c 0000000000000000 01 {MEMBERS} 00000003 0000000000000000 0000 0000"
)
OLD_1 = f"00000072 01 0000000000000001 01 {REST} 0000 0000"
OLD_2 = f"00000072 01 0000000000000002 01 {REST} 0000 0000"
NEW_1 = f"00000072 01 0000000000000001 02 {REST} 0000 0000"
NEW_2 = f"00000072 01 0000000000000002 02 {REST} 0000 0000"

# A Raise of client 7, and it as a vote and as a pair at position 1; and entries of both.
RAISE = "01 0007 0000000000000001 03 02"
VOTE = f"0000000000000001 0000000000000001 00000001 {RAISE}"
PAIR = f"0000000000000001 {RAISE}"
RAISE_VOTED = f"00000022 03 {VOTE}"
RAISE_DECIDED = f"00000016 04 {PAIR}"

# Bases of format 1 that hold it as a vote and as a pair, of the first and the second generation.
HELD_VOTE_1 = f"00000093 01 0000000000000001 01 {REST} 0001 {VOTE} 0000"
HELD_VOTE_2 = f"00000093 01 0000000000000002 01 {REST} 0001 {VOTE} 0000"
HELD_PAIR_1 = f"00000087 01 0000000000000001 01 {REST} 0000 0001 {PAIR}"
HELD_PAIR_2 = f"00000087 01 0000000000000002 01 {REST} 0000 0001 {PAIR}"

# A file of each of the first two generations that mixes the formats, and how long it is.
MIXED_1 = [([OLD_1, RAISE_VOTED], 156), ([OLD_1, RAISE_DECIDED], 144), ([HELD_VOTE_1], 151), ([HELD_PAIR_1], 139)]
MIXED_2 = [([OLD_2, RAISE_VOTED], 156), ([OLD_2, RAISE_DECIDED], 144), ([HELD_VOTE_2], 151), ([HELD_PAIR_2], 139)]


def in_each_order():
    """What stands in the files a and b, how a start ends, and how long the files are then."""
    for (mixed_1, length_1), (mixed_2, length_2) in zip(MIXED_1, MIXED_2):
        # The mixed file is the live one, beside none, one of a smaller generation, and one of its own.
        yield mixed_1, [], 9, (length_1, 0)
        yield [], mixed_1, 9, (0, length_1)
        for older in (OLD_1, NEW_1):
            yield mixed_2, [older], 9, (length_2, 118)
            yield [older], mixed_2, 9, (118, length_2)
        yield mixed_1, [NEW_1], 9, (length_1, 118)
        yield [NEW_1], mixed_1, 9, (118, length_1)
        yield mixed_2, mixed_1, 9, (length_2, length_1)
        yield mixed_1, mixed_2, 9, (length_1, length_2)
        # It is not. A live file of format 1 is written anew in its place.
        yield mixed_1, [NEW_2], [], (length_1, 118)
        yield [NEW_2], mixed_1, [], (118, length_1)
        yield mixed_1, [OLD_2], [], (118, 0)
        yield [OLD_2], mixed_1, [], (0, 118)
        # A Base after the first entry is damage in it too.
        yield [*mixed_1, OLD_1], [NEW_2], 9, (length_1 + 118, 118)
        yield [NEW_2], [*mixed_1, OLD_1], 9, (118, length_1 + 118)


@unittest.skipUnless(PROGRAM, "LOCKS_PROGRAM does not tell the program")
class FormatTest(unittest.TestCase):
    def setUp(self):
        self.node = self.enterContext(Node(PROGRAM, self.enterContext(tempfile.TemporaryDirectory())))

    def ended(self):
        """How a start of the node ended: the fault, or the positions that it executed; and how long its files are."""
        last = self.node.start()
        if last == f"port {self.node.ports[1]}":
            lengths = self.node.lengths()
            self.node.kill()
            return self.node.runs, lengths
        self.node.process.wait()
        self.assertEqual((last.split()[0], self.node.kill()), ("fault", 1))
        return int(last.split()[1]), self.node.lengths()

    def test_a_mixed_file_is_damage_where_it_is_the_live_one(self):
        for row, (a, b, end, lengths) in enumerate(in_each_order()):
            with self.subTest(row=row):
                self.node.write(self.node.bytes_of(*a), self.node.bytes_of(*b))
                self.assertEqual(self.ended(), (end, lengths))


if __name__ == "__main__":
    unittest.main()
