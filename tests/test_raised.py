"""The raised table: the bytes of each op, of its answers, and of the table in a snapshot."""
import os
import subprocess
import tempfile
import unittest

from harness.by_bytes import Node, bytes_of

PROGRAM = os.environ.get("LOCKS_PROGRAM")

# The first Base of node 2 of three, as it begins.
MEMBERS = "03 00000001 1b59 00000002 1b5a 00000003 1b5b"
BEGUN = (
    f"00000072 01 0000000000000001 02 0000000000000005 00000002 01 {MEMBERS} 0000000000000000 00000000 0000000000000000"
    f" 0000002c 0000000000000000 01 {MEMBERS} 00000003 0000000000000000 0000 0000 0000 0000"
)

# Node 1 asks it for a promise from the first position on, which it refuses once it has executed more.
PREPARE = "4c4b0101 0000000000000005 00000001 0000000000000001 00000001 0000000000000001"

# A client, the number of its request, its op and what it is answered.
# Before the table is raised a Share is no body. Then two clients share `db`; a third breaks it, and is granted the next
# fence.
BROKEN = [
    (7, 1, "00 04 05026462", "0a"),
    (7, 2, "03 02", "26"),
    (7, 3, "00 04 05026462", "0c 0000000000000001"),
    (8, 1, "00 04 05026462", "0c 0000000000000001"),
    (9, 1, "00 04 01026462", "02 0007 0000000000000001"),
    (9, 2, "00 04 03026462", "0d 02 0000000000000001"),
    (9, 3, "00 0c 06026462 0000000000000001", "0e"),
    (8, 2, "00 0c 04026462 0000000000000001", "08"),
    (8, 3, "00 0c 02026462 0000000000000001", "04"),
    (9, 4, "00 04 01026462", "01 0000000000000002"),
    (9, 5, "03 02", "27"),
]

# What the table packs to after these.
BROKEN_TABLE = "ff02 0001 02 6462 0000000000000002 01 0009"

# Eight clients share a name, and the ninth may not. The last of them leaves, and it may.
NINE = [
    (1, 1, "03 02", "26"),
    (8, 1, "00 03 050161", "0c 0000000000000001"),
    (7, 1, "00 03 050161", "0c 0000000000000001"),
    (6, 1, "00 03 050161", "0c 0000000000000001"),
    (5, 1, "00 03 050161", "0c 0000000000000001"),
    (4, 1, "00 03 050161", "0c 0000000000000001"),
    (3, 1, "00 03 050161", "0c 0000000000000001"),
    (2, 1, "00 03 050161", "0c 0000000000000001"),
    (1, 2, "00 03 050161", "0c 0000000000000001"),
    (9, 1, "00 03 050161", "02 0001 0000000000000001"),
    (8, 2, "00 03 050161", "0c 0000000000000001"),
    (8, 3, "00 0b 020161 0000000000000001", "03"),
    (9, 2, "00 03 050161", "0c 0000000000000001"),
]
NINE_TABLE = "ff02 0001 01 61 0000000000000001 02 08 0001 0002 0003 0004 0005 0006 0007 0009"


def request(row):
    """The client, the number and the op of a row."""
    client, number, op, _ = row
    return f"{client:04x} {number:016x} {op}"


def decided(first, commands):
    """Entries that tell these commands as decided, from that position on."""
    for position, command in enumerate(commands, first):
        body = bytes_of(f"04 {position:016x} {command}")
        yield f"{len(body):08x} {body.hex()}"


@unittest.skipUnless(PROGRAM, "LOCKS_PROGRAM does not tell the program")
class RaisedTest(unittest.TestCase):
    def answered(self, rows):
        """The requests of the rows are answered as they say."""
        lines = "".join(f"4c4b0109 0000000000000005 00000000 {request(row)}\n" for row in rows)
        ran = subprocess.run([PROGRAM, "sim"], input=f"table 5\n{lines}", capture_output=True, text=True, timeout=60)
        replies = [
            f"4c4b010a 0000000000000005 00000001 {row[0]:04x} {row[1]:016x} {row[3]}".replace(" ", "") for row in rows
        ]
        self.assertEqual((ran.returncode, ran.stderr, ran.stdout.splitlines()), (0, "", replies))

    def based(self, node, name, commands):
        """The Base that a node writes in the other file as it comes up with 256 more commands: these, then no-ops."""
        with open(node.path(name), "ab") as file:
            first = 257 if name == "b" else 1
            file.write(node.bytes_of(*decided(first, commands + ["00"] * (256 - len(commands)))))
        self.assertEqual(node.start(), f"port {node.ports[1]}")
        node.asked(node.bytes_of(PREPARE))
        node.kill()
        self.assertEqual(len(node.runs), 256)
        return node.read("a" if name == "b" else "b")

    def packed(self, rows, table):
        """The table packs to that text after the rows, and what is taken up of that packs to the same."""
        node = self.enterContext(Node(PROGRAM, self.enterContext(tempfile.TemporaryDirectory())))
        node.write(node.bytes_of(BEGUN))
        end = bytes_of(table, "0000 0000")
        for name, commands in (("a", [f"01 {request(row)}" for row in rows]), ("b", [])):
            base = self.based(node, name, commands)
            self.assertEqual(base[-len(end):].hex(), end.hex())

    def test_a_raised_table_is_shared_and_broken(self):
        self.answered(BROKEN)
        self.packed(BROKEN, BROKEN_TABLE)

    def test_eight_clients_share_a_name(self):
        self.answered(NINE)
        self.packed(NINE, NINE_TABLE)


if __name__ == "__main__":
    unittest.main()
