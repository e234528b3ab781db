"""A store of the program as it was before its files had format 2."""
import os
import subprocess
import tempfile
import unittest

from harness.cluster import Cluster
from locks_client import Client, Held

PROGRAM = os.environ.get("LOCKS_PROGRAM")

# File `a` of node 1, alone in cluster 5 at alpha 2, as that program left it when it was killed; `b` was empty.
# Client 7 had acquired and released db, client 8 had acquired db, and client 9 other.
# PORT stands for the two bytes of the node's port.
OLD = """
    00000061 01 0000000000000001 01 0000000000000005 00000001 02 01 00000001 PORT
    0000000000000000 00000000 0000000000000000
    00000027 0000000000000000 02 01 00000001 PORT 01 00000001 PORT 00000001 0000000000000000 0000 0000 0000 0000
    0000000d 02 0000000000000001 00000001
    00000026 03 0000000000000001 0000000000000001 00000001 01 0007 0000000000000001 00 04 01 02 6462
    0000001a 04 0000000000000001 01 0007 0000000000000001 00 04 01 02 6462
    0000002e 03 0000000000000002 0000000000000001 00000001 01 0007 0000000000000002 00 0c 02 02 6462 0000000000000001
    00000022 04 0000000000000002 01 0007 0000000000000002 00 0c 02 02 6462 0000000000000001
    00000026 03 0000000000000003 0000000000000001 00000001 01 0008 0000000000000001 00 04 01 02 6462
    0000001a 04 0000000000000003 01 0008 0000000000000001 00 04 01 02 6462
    00000029 03 0000000000000004 0000000000000001 00000001 01 0009 0000000000000001 00 07 01 05 6f74686572
    0000001d 04 0000000000000004 01 0009 0000000000000001 00 07 01 05 6f74686572
"""


@unittest.skipUnless(PROGRAM, "LOCKS_PROGRAM does not tell the program")
class OldStoreTest(unittest.TestCase):
    """A node that comes up on such a store."""

    def setUp(self):
        self.folder = self.enterContext(tempfile.TemporaryDirectory())
        self.cluster = Cluster(PROGRAM, self.folder, nodes=1, alpha=2)
        os.makedirs(os.path.join(self.folder, "1"))
        port = self.cluster.ports[1].to_bytes(2, "big").hex()
        for name, text in (("a", OLD), ("b", "")):
            with open(os.path.join(self.folder, "1", name), "wb") as file:
                file.write(bytes.fromhex(text.replace("PORT", port)))

    def dump(self):
        """What `locks dump` prints of the folder, by its words."""
        command = [PROGRAM, "dump", "--dir", os.path.join(self.folder, "1")]
        told = subprocess.run(command, capture_output=True, text=True, check=True)
        return dict(line.split(" ", 1) for line in told.stdout.splitlines())

    def test_it_is_taken_up_and_written_anew(self):
        old = {"generation": "1", "promised": "1 1", "snapshot": "0", "votes": "4", "decided": "4", "format": "1"}
        self.assertEqual(self.dump(), old)
        with self.cluster:
            with self.cluster.client(Client, 8, patience=30.0) as client:
                self.assertEqual(client.ask("db"), Held(8, 2))
                client.release("db", 2)
            with self.cluster.client(Client, 9, first=2, patience=30.0) as client:
                self.assertEqual(client.acquire("db"), 3)
        told = self.dump()
        self.assertEqual((told["generation"], told["snapshot"], told["format"]), ("2", "4", "2"))


if __name__ == "__main__":
    unittest.main()
