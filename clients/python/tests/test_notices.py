"""The bytes of watches and notices, by clients/golden_watches.txt."""
import os
import unittest

from locks_client.notices import LAYOUT, News, Ticket, read_notice, watch_bytes
from locks_client.seals import Seals

GOLDEN = os.path.join(os.path.dirname(os.path.abspath(__file__)), "..", "..", "golden_watches.txt")
WORDS = {"exclusive": "acquire", "share": "share"}


def rows(kind):
    """The lines of that kind: the bytes, and the words after them."""
    with open(GOLDEN, encoding="ascii") as file:
        lines = [line.split() for line in file if line.startswith(f"{kind} ")]
    return [(bytes.fromhex(data), words) for _, data, *words in lines]


def watch(words, periods=20):
    """The watch of the words CLUSTER SENDER CLIENT NUMBER FENCE MODE NAME."""
    cluster, _, client, number, fence, mode, name = words
    return watch_bytes(int(cluster), Ticket(int(client), int(number), int(fence), WORDS[mode], name), periods)


class NoticesTest(unittest.TestCase):
    def test_each_watch_has_its_bytes(self):
        for data, (*words, periods) in rows("watch"):
            with self.subTest(words=words):
                self.assertEqual(watch(words, int(periods)).hex(), data.hex())

    def test_each_notice_is_read(self):
        for data, (*words, news, place) in rows("notice"):
            with self.subTest(words=words):
                read = read_notice(data, watch(words))
                self.assertEqual(read, (int(words[1]), News[news.replace("-", "_").upper()], int(place)))

    def test_all_else_is_dropped(self):
        last = rows("watch")[0][0]
        for data, reason in rows("unread"):
            with self.subTest(reason=" ".join(reason)):
                self.assertIsNone(read_notice(data, last))

    def test_each_notice_is_dropped_if_it_is_cut_or_lengthened(self):
        for data, words in rows("notice"):
            changed = [data[:length] for length in range(len(data))] + [data + b"\0"]
            self.assertEqual({read_notice(it, watch(words[:-2])) for it in changed}, {None})

    def test_both_are_of_one_length(self):
        self.assertEqual({len(data) for kind in ("watch", "notice") for data, _ in rows(kind)}, {LAYOUT.size})

    def test_a_watch_is_sealed_as_a_request_and_a_notice_as_a_reply(self):
        for frame, (cluster, client, key, datagram) in rows("sealed"):
            seals = Seals(int(cluster), int(client), [bytes.fromhex(key)])
            self.assertEqual(seals.sealed(bytes.fromhex(datagram)), frame)
        for frame, (cluster, client, key, datagram) in rows("opened"):
            seals = Seals(int(cluster), int(client), [bytes.fromhex(key)])
            self.assertEqual((seals.opened(frame).hex(), seals.opened(bytes.fromhex(datagram))), (datagram, b""))


if __name__ == "__main__":
    unittest.main()
