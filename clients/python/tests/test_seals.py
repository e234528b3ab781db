"""The frames of seals, by clients/golden.txt, and the files of keys and hosts."""
import os
import tempfile
import unittest

from fake_node import GRANTED, Node
from locks_client import Client, NoAnswer
from locks_client.endpoints import endpoint_of, own_address, read_hosts
from locks_client.seals import Seals, client_key, read_keys

GOLDEN = os.path.join(os.path.dirname(os.path.abspath(__file__)), "..", "..", "golden.txt")


def rows(kind):
    """The words of the lines of that kind."""
    with open(GOLDEN, encoding="ascii") as file:
        return [line.split()[1:] for line in file if line.startswith(f"{kind} ")]


def seals(cluster, client, *keys):
    return Seals(int(cluster), int(client), [bytes.fromhex(key) for key in keys])


class SealsTest(unittest.TestCase):
    def test_each_client_has_its_key(self):
        for key, client, master in rows("client-key"):
            self.assertEqual(client_key(bytes.fromhex(master), int(client)).hex(), key)

    def test_each_request_has_its_frame(self):
        for frame, cluster, client, key, datagram in rows("sealed"):
            self.assertEqual(seals(cluster, client, key).sealed(bytes.fromhex(datagram)).hex(), frame)

    def test_each_reply_opens_under_one_key_or_the_other(self):
        for frame, cluster, client, key, datagram in rows("opened"):
            for keys in ([key], ["33" * 32, key], [key, "33" * 32]):
                self.assertEqual(seals(cluster, client, *keys).opened(bytes.fromhex(frame)).hex(), datagram)

    def test_all_else_is_dropped(self):
        key = rows("client-key")[0][0]
        for frame, *reason in rows("closed"):
            with self.subTest(reason=" ".join(reason)):
                self.assertEqual(seals(5, 7, key).opened(bytes.fromhex(frame)), b"")

    def test_without_a_key_all_is_as_it_is(self):
        self.assertEqual((seals(5, 7).sealed(b"x"), seals(5, 7).opened(b"y")), (b"x", b"y"))


class FilesTest(unittest.TestCase):
    def file(self, text, mode=0o600):
        """A file of that text and mode."""
        path = os.path.join(self.enterContext(tempfile.TemporaryDirectory()), "file")
        with open(os.open(path, os.O_CREAT | os.O_WRONLY, mode), "w", encoding="ascii") as file:
            file.write(text)
        return path

    def test_a_key_file_has_one_key_or_two(self):
        one, two = "11" * 32, "22" * 32
        self.assertEqual(read_keys(self.file(f"# old\n{one}\n\n{two}\n")), [bytes.fromhex(it) for it in (one, two)])
        for text in ("", "#\n", f"{one}\n{two}\n{one}\n", one[1:], f"{one} ", "11 " * 21 + "1"):
            with self.subTest(text=text), self.assertRaisesRegex(ValueError, "a key file has one key or two"):
                read_keys(self.file(text))
        with self.assertRaisesRegex(ValueError, "readable by users other than its owner; set its mode to 600"):
            read_keys(self.file(one, 0o640))

    def test_hosts_rise_and_are_of_one_family(self):
        self.assertEqual(read_hosts(self.file("# here\n1 10.0.0.1\n\n3 10.0.0.3\n")), {1: "10.0.0.1", 3: "10.0.0.3"})
        wrong = ["1", "1 x", "0 10.0.0.1", "01 10.0.0.1", "2 10.0.0.2\n1 10.0.0.1", "1 10.0.0.1\n1 10.0.0.1"]
        for text in [*wrong, "1 10.0.0.1\n2 fd00::2", "1  10.0.0.1", "1 10.0.0.1 "]:
            with self.subTest(text=text), self.assertRaisesRegex(ValueError, r"line \d is not NODE ADDRESS"):
                read_hosts(self.file(text))

    def test_datagrams_that_the_key_does_not_open_are_told(self):
        node, key = Node([GRANTED], [GRANTED]), self.file(bytes(32).hex() + "\n")
        with Client(5, 7, [node.port], first=1, key=key, patience=1.5) as client:
            with self.assertRaisesRegex(NoAnswer, r"\d datagrams came that the client's key does not open: set_key"):
                client.acquire("db")

    def test_nodes_of_two_families_are_refused_by_name(self):
        hosts = self.file("1 fd00::1\n")
        for how in ({"ports": [("10.0.0.1", 7001), ("fd00::1", 7001)]}, {"ports": [7001], "hosts": hosts}):
            with self.subTest(how=how), self.assertRaisesRegex(ValueError, "is IPv4 and fd00::1 is IPv6"):
                Client(5, 7, first=1, **how)

    def test_places_are_ports_of_loopback_or_addresses_with_ports(self):
        self.assertEqual([endpoint_of(it) for it in (7001, ("127.0.0.1", 7001))], [7001, 7001])
        own = [own_address([endpoint_of(it)]) for it in (7001, ("127.0.0.2", 1), ("fd00::1", 1))]
        self.assertEqual(own, ["127.0.0.1", "0.0.0.0", "::"])
        for wrong in (0, ("here", 1), ("10.0.0.1", 0)):
            with self.subTest(wrong=wrong), self.assertRaises(ValueError):
                Client(5, 7, [wrong], first=1)


if __name__ == "__main__":
    unittest.main()
