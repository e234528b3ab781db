"""Datagrams by bytes, as the program takes and drops them."""
import os
import re
import subprocess
import tempfile
import unittest

HERE = os.path.dirname(os.path.abspath(__file__))
from harness.by_bytes import Node, bytes_of, received

PROGRAM = os.environ.get("LOCKS_PROGRAM")
TABLE = os.path.join(HERE, "..", "tools", "callers", "datagrams.txt")

# Node 1 asks node 2 for a promise, and gets it.
PREPARE = "4c4b0101 0000000000000005 00000001 0000000000000003 00000001 0000000000000001"
PROMISE = "4c4b0102 0000000000000005 00000002 0000000000000003 00000001 0000000000000001 00"


def votes_up_to(last):
    """Votes for a no-op at the positions from 1 to that one."""
    return "".join(f"{position:016x} 0000000000000001 00000001 00" for position in range(1, last + 1))


# What stands in front, the last that is taken, the first that is not, what stands after.
LIMITS = [
    ("4c4b01", "01", "00", "0000000000000005 00000001 0000000000000003 00000001 0000000000000064"),
    ("4c4b01", "0d", "0e", "0000000000000005 00000001 0000000000000003 00000001 0000000000000064"),
    ("4c4b0101 0000000000000005", "00000001", "00000000", "0000000000000003 00000001 0000000000000064"),
    ("4c4b0101 0000000000000005", "80000000", "80000001", "0000000000000003 00000001 0000000000000064"),
    ("4c4b0109 0000000000000005", "00000000", "00000001", "0007 0000000000000001 00 04 01026462"),
    ("4c4b0101 0000000000000005 00000001", "0000000000000001", "0000000000000000", "00000001 0000000000000064"),
    ("4c4b0101 0000000000000005 00000001", "0001000000000000", "0001000000000001", "00000001 0000000000000064"),
    ("4c4b0101 0000000000000005 00000001 0000000000000003", "00000001", "00000000", "0000000000000064"),
    ("4c4b0101 0000000000000005 00000001 0000000000000003", "80000000", "80000001", "0000000000000064"),
    (
        "4c4b0105 0000000000000005 00000002 0000000000000003 00000001",
        "0000000000000000 00000000",
        "0000000000000000 00000001",
        "0000000000000100",
    ),
    (
        "4c4b0105 0000000000000005 00000002 0000000000000003 00000001",
        "0001000000000000 80000000",
        "0000000000000001 00000000",
        "0000000000000100",
    ),
    ("4c4b0101 0000000000000005 00000001 0000000000000003 00000001", "0000000000000001", "0000000000000000", ""),
    ("4c4b0101 0000000000000005 00000001 0000000000000003 00000001", "0001000000000000", "0001000000000001", ""),
    ("4c4b010d 0000000000000005 00000001 0000000000000003 00000001", "0001000000000000", "0001000000000001", ""),
    ("4c4b0107 0000000000000005 00000001", "0000000000000001", "0000000000000000", "00000000"),
    ("4c4b0108 0000000000000005 00000001", "0000000000000001", "0000000000000000", "00000001 00000000 0001 aa"),
    (
        "4c4b0102 0000000000000005 00000002 0000000000000003 00000001 0000000000000003",
        "01 0000000000000003 0000000000000001 00000001 00",
        "01 0000000000000002 0000000000000001 00000001 00",
        "",
    ),
    (
        "4c4b0102 0000000000000005 00000002 0000000000000003 00000001 0000000000000003",
        "02 0000000000000004 0000000000000001 00000001 00 0000000000000005 0000000000000001 00000001 00",
        "02 0000000000000004 0000000000000001 00000001 00 0000000000000004 0000000000000001 00000001 00",
        "",
    ),
    (
        "4c4b0102 0000000000000005 00000002 0000000000000003 00000001 0000000000000003",
        "02 0000000000000005 0000000000000001 00000001 00 0000000000000006 0000000000000001 00000001 00",
        "02 0000000000000005 0000000000000001 00000001 00 0000000000000004 0000000000000001 00000001 00",
        "",
    ),
    ("4c4b0102 0000000000000005 00000002 0000000000000003 00000001 0000000000000003", "00", "01", ""),
    (
        "4c4b0102 0000000000000005 00000002 0000000000000003 00000001 0000000000000001",
        "80" + votes_up_to(128),
        "81" + votes_up_to(129),
        "",
    ),
    ("4c4b0106 0000000000000005 00000001 0000000000000001", "01 00", "00", ""),
    (
        "4c4b0106 0000000000000005 00000001 0000000000000001",
        "10 00000000000000000000000000000000",
        "11 0000000000000000000000000000000000",
        "",
    ),
    ("4c4b0106 0000000000000005 00000001", "0000ffffffffffff", "0001000000000000", "02 0000"),
    ("4c4b0103 0000000000000005 00000001 0000000000000003 00000001 0000000000000001", "00", "02", ""),
    ("4c4b0107 0000000000000005 00000001 0000000000000001", "00010000", "00010001", ""),
    (
        "4c4b0108 0000000000000005 00000001 0000000000000002",
        "00010000 0000ffff 0001 aa",
        "00010001 0000ffff 0001 aa",
        "",
    ),
    (
        "4c4b0108 0000000000000005 00000001 0000000000000002",
        "00000001 00000000 0001 aa",
        "00000000 00000000 0001 aa",
        "",
    ),
    ("4c4b0108 0000000000000005 00000001 0000000000000002", "00000001 00000000 0001 aa", "00000001 00000000 0000", ""),
    (
        "4c4b0108 0000000000000005 00000001 0000000000000002",
        "00000003 00000001 0002 aabb",
        "00000003 00000002 0002 aabb",
        "",
    ),
    (
        "4c4b0108 0000000000000005 00000001 0000000000000002",
        "00000003 00000000 0002 aabb",
        "00000003 ffffffff 0002 aabb",
        "",
    ),
    ("4c4b0109 0000000000000005 00000000", "0001", "0000", "0000000000000001 00 01 61"),
    ("4c4b0109 0000000000000005 00000000", "0100", "0101", "0000000000000001 00 01 61"),
    ("4c4b0109 0000000000000005 00000000 0007", "0000000000000001", "0000000000000000", "00 01 61"),
    ("4c4b0109 0000000000000005 00000000 0007", "0001000000000000", "0001000000000001", "00 01 61"),
    ("4c4b0109 0000000000000005 00000000 0007 0000000000000001", "02", "03", "00000001"),
    ("4c4b0109 0000000000000005 00000000 0007 0000000000000001 03", "02", "03", ""),
    ("4c4b0109 0000000000000005 00000000 0007 0000000000000001", "00 01 61", "00 00", ""),
    ("4c4b0109 0000000000000005 00000000 0007 0000000000000001 01 00000004", "0001", "0000", ""),
    ("4c4b010a 0000000000000005 00000001 0007 0000000000000001", "0b", "0c", ""),
    ("4c4b010a 0000000000000005 00000001 0007 0000000000000001", "0e", "0f", ""),
    ("4c4b010a 0000000000000005 00000001 0007 0000000000000001 0d", "01", "00", "0000000000000001"),
    ("4c4b010a 0000000000000005 00000001 0007 0000000000000001 0d", "08", "09", "0000000000000001"),
    ("4c4b010a 0000000000000005 00000001 0007 0000000000000001", "20", "1f", ""),
    ("4c4b010a 0000000000000005 00000001 0007 0000000000000001", "27", "28", ""),
    ("4c4b010a 0000000000000005 00000001 0007 0000000000000001", "01", "00", "0000000000000001"),
    ("4c4b010a 0000000000000005 00000001 0007 0000000000000001 01", "0000000000000001", "0000000000000000", ""),
    ("4c4b010a 0000000000000005 00000001 0007 0000000000000001 01", "0001000000000000", "0001000000000001", ""),
    ("4c4b010a 0000000000000005 00000001 0007 0000000000000001 05", "0001000000000000", "0001000000000001", ""),
    ("4c4b010a 0000000000000005 00000001 0007 0000000000000001 02", "0100", "0101", "0000000000000001"),
    ("4c4b010b 0000000000000005 00000001 0007 0000000000000001", "00000001", "00000000", "1b59"),
    ("4c4b010c 0000000000000005 00000001 0007 0000000000000002", "0000000000000003", "0000000000000002", ""),
    ("4c4b0109 0000000000000005 00000000 0007 0000000000000001 00", "40", "41", "61" * 64),
]

def datagrams():
    """The datagrams of the table in lk_tests: one of each kind, and one of each answer."""
    with open(TABLE, encoding="utf-8") as table:
        return [bytes_of(text) for text in re.findall(r'\("([0-9a-f ]+)", "Message ', table.read())]


def cut_or_changed(data):
    """The datagram cut after each of its bytes but the last, with any one byte more, and with any other byte in each
    place of the magic and the version."""
    for length in range(1, len(data)):
        yield data[:length]
    for byte in range(256):
        yield data + bytes([byte])
        for place in range(3):
            if byte != data[place]:
                yield data[:place] + bytes([byte]) + data[place + 1:]


def of_cluster_6(data):
    """The datagram in another cluster."""
    return data[:4] + (6).to_bytes(8, "big") + data[12:]


@unittest.skipUnless(PROGRAM, "LOCKS_PROGRAM does not tell the program")
class DatagramTest(unittest.TestCase):
    def served(self, many):
        """What a table prints for each of these."""
        lines = "".join(f"{data.hex()}\n" for data in many)
        ran = subprocess.run([PROGRAM, "sim"], input=f"table 5\n{lines}", capture_output=True, text=True, timeout=60)
        self.assertEqual((ran.returncode, ran.stderr), (0, ""))
        return ran.stdout.splitlines()

    def test_the_table_has_each_kind(self):
        many = datagrams()
        self.assertEqual((len(many), {data[3] for data in many}), (34, set(range(1, 14))))
        self.assertEqual({data[26] for data in many if data[3] == 10}, {*range(0x01, 0x0F), *range(0x20, 0x28)})

    def test_what_is_cut_lengthened_or_of_another_version_is_bad(self):
        for data in datagrams():
            with self.subTest(data=data.hex()):
                changed = [*cut_or_changed(data)]
                told = self.served(changed)
                taken = [it.hex() for it, said in zip(changed, told) if said != "bad"]
                self.assertNotEqual(self.served([data]), ["bad"])
                self.assertEqual((len(told), taken[:1]), (len(data) - 1 + 256 + 3 * 255, []))

    def test_each_limit_is_the_last_that_is_taken(self):
        for front, good, bad, rest in LIMITS:
            with self.subTest(front=front, good=good):
                taken, refused = self.served([bytes_of(front, good, rest), bytes_of(front, bad, rest)])
                self.assertEqual((taken == "bad", refused), (False, "bad"))

    def test_a_world_refuses_what_only_a_node_sends(self):
        for data in datagrams():
            for it in (data, of_cluster_6(data)):
                with self.subTest(data=it.hex()):
                    script = f"genesis 5 1 1:7001\nstart 1\ninject 1 {it.hex()}\n"
                    ran = subprocess.run([PROGRAM, "sim"], input=script, capture_output=True, text=True, timeout=60)
                    is_forged = ran.stdout == "refused 20 Forged\n"
                    self.assertEqual((is_forged, ran.returncode, ran.stderr), (data[3] != 9, int(data[3] != 9), ""))

    def test_another_cluster_is_dropped(self):
        node = self.enterContext(Node(PROGRAM, self.enterContext(tempfile.TemporaryDirectory())))
        node.start()
        for data in datagrams():
            node.send(of_cluster_6(data))
        self.assertEqual(node.asked(node.bytes_of(PREPARE)).hex(), node.bytes_of(PROMISE).hex())
        for it in (node.socket, node.third):
            it.setblocking(False)
            with self.assertRaises(BlockingIOError):
                received(it)


if __name__ == "__main__":
    unittest.main()
