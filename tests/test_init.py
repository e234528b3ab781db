"""A store that `locks init` begins, and a node that begins none: which folders each refuses, and what that leaves."""
import os
import subprocess
import tempfile
import time
import unittest

from harness.by_bytes import bytes_of
from harness.cluster import free_ports

PROGRAM = os.environ.get("LOCKS_PROGRAM")

# The Base of node 1 at port 7001 with alpha 2 that has executed nothing, as its first start writes it.
BASE = bytes_of(
    "00000061 01 0000000000000001 02 0000000000000005 00000001 02 01 00000001 1b59"
    " 0000000000000000 00000000 0000000000000000 00000027"
    " 0000000000000000 02 01 00000001 1b59 01 00000001 1b59 00000001 0000000000000000 0000 0000"
    " 0000 0000"
)
GENESIS = "5,2,1:7001"


@unittest.skipUnless(PROGRAM, "LOCKS_PROGRAM does not tell the program")
class InitTest(unittest.TestCase):
    """The folder of node 1, which is alone in cluster 5."""

    def setUp(self):
        self.folder = self.enterContext(tempfile.TemporaryDirectory())

    def path(self, name):
        return os.path.join(self.folder, name)

    def write(self, name, data):
        with open(self.path(name), "wb") as file:
            file.write(data)

    def files(self):
        """What the folder holds: the bytes of each file, and when it was changed."""
        held = {}
        for name in sorted(os.listdir(self.folder)):
            with open(self.path(name), "rb") as file:
                held[name] = (file.read(), os.stat(self.path(name)).st_mtime_ns)
        return held

    def ran(self, *words, **settings):
        """Runs the program. Its status, its output, and the lines of its standard error."""
        piped = {"stdin": subprocess.DEVNULL, "capture_output": True, "text": True, "timeout": 60}
        run = subprocess.run([PROGRAM, *words], **piped, **settings)
        return run.returncode, run.stdout, run.stderr.splitlines()

    def init(self, *more, genesis=GENESIS, number="1", folder=None, **settings):
        words = ["init", "--genesis", genesis, "--number", number, "--dir", folder or self.folder]
        return self.ran(*words, *more, **settings)

    def node_words(self):
        [port] = free_ports(1)
        words = ["--genesis", GENESIS, "--number", "1", "--port", str(port), "--dir", self.folder]
        return ["node", *words, "--existing"]

    def runs(self):
        """Starts the node with --existing, and waits until it has come up. What it logs of its store."""
        words = [PROGRAM, *self.node_words(), "--log", "--verbose"]
        with subprocess.Popen(words, stdin=subprocess.DEVNULL, stderr=subprocess.PIPE, text=True) as node:
            found = next((line for line in node.stderr if "came up" in line), "")
            node.kill()
        return found.rsplit("] ", 1)[-1].rstrip("\n")

    def refused(self, *last):
        """What the node with --existing wrote last, without the warnings. It has to leave the folder as it was."""
        held = self.files()
        status, out, err = self.ran(*self.node_words())
        self.assertEqual((status, out, self.files()), (1, "", held))
        return [line for line in err if not line.startswith("warning:")]

    def test_it_writes_what_a_first_start_writes(self):
        self.assertEqual(self.init(), (0, "", []))
        held = {name: data.hex() for name, (data, _) in self.files().items()}
        self.assertEqual(held, {"a": BASE.hex(), "b": ""})

    def test_it_refuses_a_folder_with_its_own_store(self):
        self.init()
        held = self.files()
        time.sleep(0.01)
        why = f"{self.path('a')}: exists; init begins a store only in a folder without files a and b"
        for number in ("1", "2"):
            self.assertEqual(self.init(number=number), (1, "", [why, "cannot open"]))
        self.assertEqual(self.files(), held)

    def test_it_refuses_a_folder_with_either_file(self):
        for name, data in (("a", b""), ("b", b""), ("b", b"kept")):
            with self.subTest(name=name, data=data):
                self.write(name, data)
                held = self.files()
                why = f"{self.path(name)}: exists; init begins a store only in a folder without files a and b"
                self.assertEqual(self.init(), (1, "", [why, "cannot open"]))
                self.assertEqual(self.files(), held)
                os.remove(self.path(name))

    def test_it_refuses_a_link_that_leads_nowhere(self):
        os.symlink(self.path("gone"), self.path("b"))
        status, _, err = self.init()
        self.assertEqual((status, err[-1], os.listdir(self.folder)), (1, "cannot open", ["b"]))

    def test_it_makes_no_folder(self):
        gone = self.path("gone")
        why = f"{gone}/a: No such file or directory (os error 2)"
        self.assertEqual(self.init(folder=gone), (1, "", [why, "cannot open"]))
        self.assertFalse(os.path.exists(gone))

    def test_a_bad_argument_begins_nothing(self):
        for words in ({"number": "0"}, {"genesis": "5,2"}):
            with self.subTest(words=words):
                self.assertEqual(self.init(**words)[0], 2)
                self.assertEqual(self.files(), {})

    def test_its_files_are_those_that_a_node_makes(self):
        self.init(umask=0o027)
        modes = {os.stat(self.path(name)).st_mode & 0o777 for name in ("a", "b")}
        self.assertEqual(modes, {0o640})

    def test_a_node_goes_on_with_it(self):
        self.init()
        self.assertEqual(self.runs(), "came up with the store that it had")
        self.assertEqual(self.runs(), "came up with the store that it had")

    def test_another_number_or_genesis_is_refused(self):
        self.init(number="2")
        held = self.files()
        status, _, err = self.ran(*self.node_words())
        self.assertEqual((status, err[-1], self.files()), (1, "fault 10", held))

    def test_a_node_begins_nothing_in_an_empty_folder(self):
        missing = "missing, and --existing begins no store; for a node that has never run, locks init does"
        self.assertEqual(self.refused(), [f"{self.path('a')}: {missing}", "cannot open"])
        self.write("a", BASE)
        self.assertEqual(self.refused(), [f"{self.path('b')}: {missing}", "cannot open"])

    def test_a_node_begins_nothing_in_files_without_a_store(self):
        for data in (b"", BASE[:60]):
            with self.subTest(data=data.hex()):
                self.write("a", data)
                self.write("b", b"")
                why = f"{self.folder}: no store in its files, and --existing begins none"
                self.assertEqual(self.refused(), [why, "cannot open"])

    def test_damage_is_told_as_without_the_option(self):
        self.write("a", BASE + b"\0\0\0\0")
        self.write("b", b"")
        told = self.refused()
        self.assertEqual(told[0], f"{self.path('a')}: no valid entry at byte 101 of 105")
        self.assertEqual(told[-1], "fault 9")

    def test_a_folder_in_use_is_told_so(self):
        self.init()
        words = [PROGRAM, *self.node_words(), "--log", "--verbose"]
        with subprocess.Popen(words, stdin=subprocess.DEVNULL, stderr=subprocess.PIPE, text=True) as node:
            next((line for line in node.stderr if "came up" in line), "")
            status, _, err = self.ran(*self.node_words())
            node.kill()
        self.assertEqual((status, err[-2:]), (1, [f"{self.folder}: in use by another process", "cannot open"]))


if __name__ == "__main__":
    unittest.main()
