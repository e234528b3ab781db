"""The worked examples of docs/FORMATS.md, byte by byte, as the program sends, writes and reads them."""
import os
import random
import re
import subprocess
import tempfile
import unittest

from harness.by_bytes import Node, bytes_of
from harness.summed import MAGIC, pieces

HERE = os.path.dirname(os.path.abspath(__file__))
PAGE = os.path.join(HERE, "..", "docs", "FORMATS.md")
TABLE = os.path.join(HERE, "..", "tools", "callers", "datagrams.txt")
PROGRAM = os.environ.get("LOCKS_PROGRAM")
KEY = "11" * 32
PORTS = [7001, 7002, 7003]  # of the page: the genesis is under the tag


def examples():
    """The examples of the page in their order: the kind of each, and its text."""
    with open(PAGE, encoding="utf-8") as page:
        return re.findall(r"(?m)^<!-- (\w+) -->\n```text\n((?:.*\n)*?)```$", page.read())


def texts(kind):
    """The texts of all examples of a kind."""
    return [text for it, text in examples() if it == kind]


def digits(text):
    """The bytes of an example, as hex with spaces: what stands before the two spaces on each of its lines."""
    return " ".join(line.split("  ")[0] for line in text.splitlines())


def base_of(state):
    """A file of one Base, whose snapshot is the state, at the position up to which that has executed."""
    header = bytes_of("0000000000000005 00000001", f"{state[8]:02x}", "01 00000001 1b59")
    front = bytes_of("01 0000000000000001 02") + header + bytes(12)
    body = front + state[:8] + len(state).to_bytes(4, "big") + state + bytes_of("0000 0000")
    return len(body).to_bytes(4, "big") + body


@unittest.skipUnless(PROGRAM, "LOCKS_PROGRAM does not tell the program")
class FormatPageTest(unittest.TestCase):
    def node(self, *words, **places):
        """A node on empty files, which serves."""
        node = self.enterContext(Node(PROGRAM, self.enterContext(tempfile.TemporaryDirectory()), **places))
        node.words = words
        self.assertEqual(node.start(), f"port {node.ports[1]}")
        return node

    def ran(self, *words, script=""):
        """The output of the program for these words and this input."""
        return subprocess.run([PROGRAM, *words], input=script, capture_output=True, text=True, timeout=60).stdout

    def says(self, node, asked, answered):
        """The node sends the one for the other."""
        self.assertEqual(node.asked(node.bytes_of(digits(asked))).hex(), node.bytes_of(digits(answered)).hex())

    def test_the_page_has_each_example(self):
        count = {kind: len(texts(kind)) for kind, _ in examples()}
        exchanges = {"asked": 3, "answered": 3, "row": 5, "sealed": 2}
        self.assertEqual(count, {**exchanges, "file": 1, "summed": 1, "older": 1, "state": 2, "inspected": 2})

    def test_a_node_answers_and_writes_these_bytes(self):
        node = self.node()
        for asked, answered in zip(texts("asked"), texts("answered")):
            self.says(node, asked, answered)
        [file] = texts("file")
        self.assertEqual((node.read("a").hex(), node.read("b")), (node.bytes_of(digits(file)).hex(), b""))

    def test_a_file_with_sums_has_these_bytes(self):
        [file], [summed] = texts("file"), texts("summed")
        data = bytes_of(digits(summed))
        self.assertEqual(b"".join(pieces("a", data)), bytes_of(digits(file)))
        with tempfile.TemporaryDirectory() as folder:
            for name, held in (("a", data), ("b", b"")):
                with open(os.path.join(folder, name), "wb") as file:
                    file.write(held)
            told = self.ran("dump", "--dir", folder)
        self.assertEqual(told.split(), "generation 1 promised 3 1 snapshot 0 votes 1 decided 0 format 3".split())

    def test_an_older_program_takes_a_file_with_sums_for_damage(self):
        """The page has what such a program wrote. A file that begins with another letter is read as it read all."""
        [file], [summed], [told] = texts("file"), texts("summed"), texts("older")
        for magic in MAGIC.values():
            self.assertEqual(int.from_bytes(magic[:4], "big"), 1_819_239_275)
        data = b"k" + bytes_of(digits(summed))[1:]
        self.assertEqual(self.read_of(data, b""), told)
        # Beside a file without sums it does not matter, and the votes in it are lost.
        self.assertTrue(self.read_of(bytes_of(digits(file)), data).endswith("format 2\n"))

    def read_of(self, a, b):
        """What `dump` prints of such files."""
        with tempfile.TemporaryDirectory() as folder:
            for name, data in (("a", a), ("b", b)):
                with open(os.path.join(folder, name), "wb") as file:
                    file.write(data)
            run = subprocess.run([PROGRAM, "dump", "--dir", folder], capture_output=True, text=True, timeout=60)
            return (run.stdout + run.stderr).replace(folder, "FOLDER")

    def test_each_row_is_one_of_the_proved_table_and_of_a_node(self):
        with open(TABLE, encoding="utf-8") as table:
            known = {bytes_of(text) for text in re.findall(r'\("([0-9a-f ]+)", "Message ', table.read())}
        for text in texts("row"):
            data = bytes_of(digits(text))
            told = self.ran("sim", script=f"genesis 5 1 1:7001\nstart 1\ninject 1 {data.hex()}\n")
            self.assertEqual((data in known, told), (True, "refused 20 Forged\n"))

    def test_a_state_is_told_so(self):
        for state, told in zip(texts("state"), texts("inspected")):
            with tempfile.TemporaryDirectory() as folder:
                for name, data in (("a", base_of(bytes_of(digits(state)))), ("b", b"")):
                    with open(os.path.join(folder, name), "wb") as file:
                        file.write(data)
                self.assertEqual(self.ran("inspect", "--dir", folder), told)

    def test_a_sealed_exchange_has_these_bytes(self):
        address = ".".join(["127", *(str(random.randrange(1, 255)) for _ in range(3))])
        with tempfile.NamedTemporaryFile("w") as key, tempfile.NamedTemporaryFile("w") as hosts:
            print(KEY, file=key, flush=True)
            print(*(f"{node} {address}" for node in (1, 2, 3)), sep="\n", file=hosts, flush=True)
            node = self.node("--key", key.name, "--hosts", hosts.name, address=address, ports=PORTS)
            asked, answered = texts("sealed")
            self.says(node, asked, answered)


if __name__ == "__main__":
    unittest.main()
