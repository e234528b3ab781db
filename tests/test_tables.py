"""A table at its limits, by the bytes of what is asked and answered."""
import os
import subprocess
import tempfile
import time
import unittest

from harness.by_bytes import Node
from harness.cluster import Cluster

PROGRAM = os.environ.get("LOCKS_PROGRAM")

# What stands in front of a client's number in a request, and in an answer of node 1.
ASKED = "4c4b0109 0000000000000005 00000000"
ANSWERED = "4c4b010a 0000000000000005 00000001"

# The names n000 to n512, as they are spelled after their length.
NAMES = [
    f"04 6e {0x30 + place // 100:02x} {0x30 + place // 10 % 10:02x} {0x30 + place % 10:02x}" for place in range(513)
]

# What client 1 asks, one number after another, and what it is answered: it takes 512 names, finds no room for another,
# gives the first one back, and takes it again at the next fence.
FULL = [
    *((f"00 06 01 {name}", "01 0000000000000001") for name in NAMES[:512]),
    (f"00 06 01 {NAMES[512]}", "09"),
    (f"00 0e 02 {NAMES[0]} 0000000000000001", "03"),
    (f"00 06 01 {NAMES[0]}", "01 0000000000000002"),
]

# The first Base of node 2 of three, where `a` is free at the last fence.
MEMBERS = "03 00000001 1b59 00000002 1b5a 00000003 1b5b"
AT_LAST_FENCE = (
    f"0000007e 01 0000000000000001 02 0000000000000005 00000002 01 {MEMBERS} 0000000000000000 00000000 0000000000000000"
    f" 00000038 0000000000000000 01 {MEMBERS} 00000003 0000000000000000 0000 0001 01 61 0001000000000000 0000 0000 0000"
)

# Clients 7 and 8 ask to acquire `a` and where it stands, and what they are answered.
ACQUIRE, SPENT = "0007 0000000000000001 00 03 01 01 61", "0007 0000000000000001 0b"
ASK, FREE = "0008 0000000000000001 00 03 03 01 61", "0008 0000000000000001 05 0001000000000000"

# The first Base of node 1, alone, where `a` is free at the last fence, up to its port and after it.
ALONE = (
    "0000006d 01 0000000000000001 02 0000000000000005 00000001 02 01 00000001 PORT"
    " 0000000000000000 00000000 0000000000000000"
    " 00000033 0000000000000000 02 01 00000001 PORT 01 00000001 PORT 00000001 0000000000000000"
    " 0000 0001 01 61 0001000000000000 0000 0000 0000"
)


@unittest.skipUnless(PROGRAM, "LOCKS_PROGRAM does not tell the program")
class TableTest(unittest.TestCase):
    def test_a_full_table_has_no_room(self):
        lines = "".join(f"{ASKED} 0001 {number:016x} {op}\n" for number, (op, _) in enumerate(FULL, 1))
        ran = subprocess.run([PROGRAM, "sim"], input=f"table 5\n{lines}", capture_output=True, text=True, timeout=60)
        replies = [
            f"{ANSWERED} 0001 {number:016x} {answer}".replace(" ", "") for number, (_, answer) in enumerate(FULL, 1)
        ]
        self.assertEqual((len(FULL), ran.returncode, ran.stderr, ran.stdout.splitlines()), (515, 0, "", replies))

    def test_a_name_at_the_last_fence_is_spent(self):
        node = self.enterContext(Node(PROGRAM, self.enterContext(tempfile.TemporaryDirectory())))
        node.write(node.bytes_of(AT_LAST_FENCE))
        self.assertEqual(node.start(), f"port {node.ports[1]}")
        node.send(node.bytes_of(f"4c4b0106 0000000000000005 00000001 0000000000000001 02 01 {ACQUIRE} 01 {ASK}"))
        for asked, answer in ((ACQUIRE, SPENT), (ASK, FREE)):
            with self.subTest(answer=answer):
                reply = node.asked(node.bytes_of(f"{ASKED} {asked}"))
                self.assertEqual(reply.hex(), node.bytes_of(f"4c4b010a 0000000000000005 00000002 {answer}").hex())

    def test_a_spent_name_is_told_in_words(self):
        folder = self.enterContext(tempfile.TemporaryDirectory())
        cluster = Cluster(PROGRAM, folder, nodes=1, alpha=2)
        os.makedirs(os.path.join(folder, "1"))
        for name, text in (("a", ALONE.replace("PORT", f"{cluster.ports[1]:04x}")), ("b", "")):
            with open(os.path.join(folder, "1", name), "wb") as file:
                file.write(bytes.fromhex(text))
        with cluster:
            time.sleep(0.8)  # it begins a ballot at its fourth tick
            for client, words, told in ((7, "acquire a", "spent\n"), (8, "ask a", "free 281474976710656\n")):
                self.assertEqual(self.said(cluster, client, words), told)

    def said(self, cluster, client, words):
        """What `locks ask` prints, asked again until the node leads."""
        place = ["--cluster", "5", "--port", str(cluster.ports[1]), "--client", str(client), "--request", "1"]
        for _ in range(3):
            ran = subprocess.run([PROGRAM, "ask", *place, *words.split()], capture_output=True, text=True, timeout=60)
            if ran.returncode == 0:
                break
        return ran.stdout


if __name__ == "__main__":
    unittest.main()
