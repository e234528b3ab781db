"""Whom `locks ask` follows, what it takes for a reply, and what it prints."""
import os
import socket
import subprocess
import tempfile
import time
import unittest

HERE = os.path.dirname(os.path.abspath(__file__))
from harness.by_bytes import bytes_of

PROGRAM = os.environ.get("LOCKS_PROGRAM")

# Client 7 of cluster 5 asks with number 1 to acquire `db`.
ASKED = "4c4b0109 0000000000000005 00000000 0007 0000000000000001 00 04 01026462"

GRANTED = "4c4b010a 0000000000000005 00000001 0007 0000000000000001 01 0000000000000001"
PASSED = "4c4b010c 0000000000000005 00000001 0007 0000000000000001 0000000000000002"
ELSEWHERE = "4c4b010b 0000000000000005 00000001 0007 0000000000000001 00000002"  # and the port

# Of another client, number, cluster; no datagram; a node's to a node.
OTHERS = [
    "4c4b010a 0000000000000005 00000001 0008 0000000000000001 01 0000000000000001",
    "4c4b010a 0000000000000005 00000001 0007 0000000000000002 01 0000000000000001",
    "4c4b010a 0000000000000006 00000001 0007 0000000000000001 01 0000000000000001",
    "00",
    "4c4b010d 0000000000000005 00000001 0000000000000001 00000001 0000000000000000",
]

# Each answer, and its text.
ANSWERS = [
    ("01 0001000000000000", "granted 281474976710656"),
    ("02 0100 0001000000000000", "busy 256 281474976710656"),
    ("03", "released"),
    ("04", "not held"),
    ("05 0000000000000000", "free 0"),
    ("06 0100 0001000000000000", "held 256 281474976710656"),
    ("07", "valid"),
    ("08", "stale"),
    ("09", "no room"),
    ("0a", "bad"),
    ("0b", "spent"),
    ("0c 0001000000000000", "shared 281474976710656"),
    ("0d 08 0001000000000000", "held shared 8 281474976710656"),
    ("0e", "broken"),
    ("20", "joined"),
    ("21", "used"),
    ("22", "full"),
    ("23", "left"),
    ("24", "not a member"),
    ("25", "last"),
    ("26", "raised"),
    ("27", "already raised"),
]

NAME_OF_54 = "1234567890" * 5 + "1234"

# What is asked by these words: the op, its length and its body, or a node and a port.
WORDS = [
    ("acquire db", "00 04 01 02 6462"),
    ("acquire a/b.c-9", "00 09 01 07 612f622e632d39"),
    ("acquire A\r\t\u00ff", "00 07 01 05 410d09c3bf"),
    ("release db 1", "00 0c 02 02 6462 0000000000000001"),
    ("release db 0", "00 0c 02 02 6462 0000000000000000"),
    ("release db 281474976710656", "00 0c 02 02 6462 0001000000000000"),
    ("ask db", "00 04 03 02 6462"),
    ("check db 258", "00 0c 04 02 6462 0000000000000102"),
    ("share db", "00 04 05 02 6462"),
    ("break db 258", "00 0c 06 02 6462 0000000000000102"),
    ("raw 00", "00 01 00"),
    ("raw aBCd", "00 02 abcd"),
    ("raw 0100", "00 02 0100"),
    ("raw " + "00" * 64, "00 40" + "00" * 64),
    (f"acquire {NAME_OF_54}", "00 38 01 36" + NAME_OF_54.encode().hex()),
    ("--force join 4 7004", "01 00000004 1b5c"),
    ("--force leave 4", "02 00000004"),
    ("raise 2", "03 02"),
]


@unittest.skipUnless(PROGRAM, "LOCKS_PROGRAM does not tell the program")
class AskingTest(unittest.TestCase):
    def setUp(self):
        self.first, self.second = self.bound(), self.bound()

    def bound(self):
        """A socket at a port of its own."""
        it = self.enterContext(socket.socket(socket.AF_INET, socket.SOCK_DGRAM))
        it.bind(("127.0.0.1", 0))
        it.settimeout(10.0)
        return it

    def elsewhere(self):
        """An Elsewhere that names the second port."""
        return f"{ELSEWHERE} {self.second.getsockname()[1]:04x}"

    def came(self, it):
        """How many datagrams came to a port after those that were taken, each of which is the request."""
        it.setblocking(False)
        count = 0
        while True:
            try:
                self.assertEqual(it.recv(9000).hex(), bytes_of(ASKED).hex())
            except BlockingIOError:
                it.settimeout(10.0)
                return count
            count += 1

    def started(self, *words):
        """The program, which asks the first port with these words."""
        place = ["--cluster", "5", "--port", str(self.first.getsockname()[1]), "--client", "7", "--request", "1"]
        command = [PROGRAM, "ask", *place, *words]
        return subprocess.Popen(command, stdout=subprocess.PIPE, stderr=subprocess.PIPE, text=True)

    def asks(self, replies):
        """The status and the output where the first port replies these; and how often each port is asked."""
        with self.started("acquire", "db") as process:
            data, client = self.first.recvfrom(9000)
            self.assertEqual(data.hex(), bytes_of(ASKED).hex())
            for reply in replies:
                self.first.sendto(bytes_of(reply), client)
            out, err = process.communicate(timeout=60)
        self.assertEqual(err, "")
        return (process.returncode, out), (1 + self.came(self.first), self.came(self.second))

    def test_a_reply_is_printed(self):
        self.assertEqual(self.asks([GRANTED]), ((0, "granted 1\n"), (1, 0)))
        self.assertEqual(self.asks([PASSED]), ((0, "passed 2\n"), (1, 0)))

    def test_each_answer_has_its_text(self):
        for answer, text in ANSWERS:
            with self.subTest(text=text):
                reply = f"4c4b010a 0000000000000005 00000001 0007 0000000000000001 {answer}"
                self.assertEqual(self.asks([reply]), ((0, f"{text}\n"), (1, 0)))

    def test_the_help_names_the_operations_in_one_line(self):
        told = subprocess.run([PROGRAM, "ask", "--help"], capture_output=True, text=True, timeout=60).stdout
        self.assertIn(" acquire NAME, release NAME FENCE, ask NAME, check NAME FENCE, share NAME, break NAME FENCE,"
                      " join NODE PORT, leave NODE, raise 2 or raw HEX\n", told)

    def test_with_hosts_alone_it_sends_from_any_address(self):
        with tempfile.NamedTemporaryFile("w", suffix=".hosts") as hosts:
            hosts.write("1 127.0.0.1\n")
            hosts.flush()
            self.assertEqual(self.own_address([]), "0100007F")
            self.assertEqual(self.own_address(["--hosts", hosts.name]), "00000000")

    def own_address(self, words):
        """The address of the socket of an `ask` with these words, as /proc/net/udp has it."""
        port = self.first.getsockname()[1]
        asked = ["--cluster", "5", "--port", str(port), "--client", "7", "--request", "1", *words, "acquire", "db"]
        quiet = {"stdout": subprocess.DEVNULL, "stderr": subprocess.DEVNULL}
        with subprocess.Popen([PROGRAM, "ask", *asked], **quiet) as process:
            self.first.settimeout(10.0)
            _, (_, own) = self.first.recvfrom(9000)
            with open(f"/proc/{process.pid}/net/udp") as sockets:
                [found] = [place for place in (line.split()[1] for line in sockets) if place.endswith(f":{own:04X}")]
            process.kill()
        return found.partition(":")[0]

    def test_words_ask_for_bytes(self):
        for words, op in WORDS:
            with self.subTest(words=words), self.started(*words.split(" ")) as process:
                data, client = self.first.recvfrom(9000)
                asked = bytes_of("4c4b0109 0000000000000005 00000000 0007 0000000000000001", op)
                self.assertEqual(data.hex(), asked.hex())
                self.first.sendto(bytes_of(GRANTED), client)
                out, err = process.communicate(timeout=60)
                self.assertEqual(out, "granted 1\n")
                self.assertEqual(err.startswith("warning: "), words.startswith(("acquire A", "acquire 1")), err)

    def among(self):
        """The program, which asks both ports in turn."""
        ports = [word for it in (self.first, self.second) for word in ("--port", str(it.getsockname()[1]))]
        words = ["--cluster", "5", *ports, "--client", "7", "--request", "1", "acquire", "db"]
        return subprocess.Popen([PROGRAM, "ask", *words], stdout=subprocess.PIPE, stderr=subprocess.PIPE, text=True)

    def test_the_next_port_is_asked_where_nothing_comes(self):
        for answers in (1, 0):
            with self.subTest(answers=answers), self.among() as process:
                data, client = self.first.recvfrom(9000)
                self.assertEqual(self.second.recvfrom(9000), (data, client))
                self.assertEqual(data.hex(), bytes_of(ASKED).hex())
                (self.first, self.second)[answers].sendto(bytes_of(GRANTED), client)
                self.assertEqual(process.communicate(timeout=60), ("granted 1\n", ""))
                self.assertEqual((self.came(self.first), self.came(self.second)), (0, 0))

    def test_the_only_port_is_asked_each_half_second(self):
        with self.started("acquire", "db") as process:
            came = []
            for _ in range(10):
                self.assertEqual(self.first.recv(9000).hex(), bytes_of(ASKED).hex())
                came.append(time.monotonic())
            self.assertEqual(process.communicate(timeout=60), ("no answer\n", ""))
        self.assertGreater(came[-1] - came[0], 4.0)
        self.assertEqual(self.came(self.first), 0)

    def test_a_node_is_asked_at_its_address(self):
        other = self.enterContext(socket.socket(socket.AF_INET, socket.SOCK_DGRAM))
        other.bind(("127.0.0.2", 0))
        other.settimeout(10.0)
        hosts = self.enterContext(tempfile.NamedTemporaryFile("w", suffix=".hosts"))
        hosts.write("1 127.0.0.1\n2 127.0.0.2\n")
        hosts.flush()
        ports = ["--port", f"1:{self.first.getsockname()[1]}", "--port", f"2:{other.getsockname()[1]}"]
        words = ["--cluster", "5", *ports, "--hosts", hosts.name, "--client", "7", "--request", "1", "acquire", "db"]
        with subprocess.Popen([PROGRAM, "ask", *words], stdout=subprocess.PIPE, text=True) as process:
            data, client = self.first.recvfrom(9000)
            self.assertEqual(other.recvfrom(9000)[0], data)
            other.sendto(bytes_of(GRANTED), ("127.0.0.1", client[1]))
            self.assertEqual(process.communicate(timeout=60)[0], "granted 1\n")

    def test_a_lost_request_is_sent_again(self):
        with self.started("acquire", "db") as process:
            lost = self.first.recvfrom(9000)
            again = self.first.recvfrom(9000)
            self.assertEqual(lost, again)
            self.first.sendto(bytes_of(GRANTED), again[1])
            self.assertEqual(process.communicate(timeout=60), ("granted 1\n", ""))

    def test_each_port_is_asked_three_times(self):
        with self.among() as process:
            self.assertEqual(process.communicate(timeout=60), ("no answer\n", ""))
            self.assertEqual(process.returncode, 1)
        self.assertEqual((self.came(self.first), self.came(self.second)), (3, 3))

    def test_an_elsewhere_is_followed(self):
        self.assertEqual(self.asks([self.elsewhere(), GRANTED]), ((0, "granted 1\n"), (1, 1)))

    def test_twenty_are_followed(self):
        none = (1, "no answer\n")
        self.assertEqual(self.asks([self.elsewhere()] * 49 + [GRANTED]), ((0, "granted 1\n"), (10, 20)))
        self.assertEqual(self.asks([self.elsewhere()] * 50), (none, (10, 20)))

    def test_other_datagrams_are_no_reply(self):
        others = OTHERS * 10
        self.assertEqual(self.asks(others[1:] + [GRANTED]), ((0, "granted 1\n"), (10, 0)))
        self.assertEqual(self.asks(others + [GRANTED]), ((1, "no answer\n"), (10, 0)))


if __name__ == "__main__":
    unittest.main()
