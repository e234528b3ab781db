"""The bytes of requests and replies, by clients/golden.txt, which both clients read."""
import os
import unittest

from locks_client.wire import Answer, Elsewhere, Overtaken, op_of, read_reply, request_bytes

GOLDEN = os.path.join(os.path.dirname(os.path.abspath(__file__)), "..", "..", "golden.txt")


def rows(*kinds):
    """The lines of such kinds: the bytes, and the words after them."""
    with open(GOLDEN, encoding="ascii") as file:
        lines = [line.split() for line in file if line.strip() and not line.startswith("#")]
    return [(kind, bytes.fromhex(data), words) for kind, data, *words in lines if kind in kinds]


def spelled(reply):
    """The words of a reply."""
    if isinstance(reply, Answer):
        return [*reply.text.split(), *map(str, reply.fields)]
    return list(map(str, reply))


class WireTest(unittest.TestCase):
    def test_each_request_has_its_bytes(self):
        for _, data, (cluster, _, client, number, *words) in rows("request"):
            with self.subTest(words=words):
                self.assertEqual(request_bytes(int(cluster), int(client), int(number), op_of(words)).hex(), data.hex())

    def test_each_reply_is_read(self):
        kinds = {"answer": Answer, "elsewhere": Elsewhere, "passed": Overtaken}
        for kind, data, (cluster, _, client, number, *fields) in rows(*kinds):
            with self.subTest(fields=fields):
                reply = read_reply(data, int(cluster), int(client), int(number))
                self.assertIsInstance(reply, kinds[kind])
                self.assertEqual(spelled(reply), fields)

    def test_all_else_is_dropped(self):
        for _, data, reason in rows("dropped"):
            with self.subTest(reason=" ".join(reason)):
                self.assertIsNone(read_reply(data, 5, 7, 1))

    def test_each_reply_is_dropped_if_it_is_cut_or_lengthened(self):
        for _, data, (cluster, _, client, number, *_) in rows("answer", "elsewhere", "passed"):
            who = int(cluster), int(client), int(number)
            changed = [data[:length] for length in range(len(data))] + [data + b"\0"]
            with self.subTest(data=data.hex()):
                self.assertEqual({read_reply(it, *who) for it in changed}, {None})

    def test_words_that_ask_nothing_are_refused(self):
        wrong = ["acquire", "acquire DB", "acquire " + "x" * 33, "release db 0", "release db x", "leave 0", "raise 3"]
        for words in [*wrong, "join 1 0", "other"]:
            with self.subTest(words=words), self.assertRaises(ValueError):
                op_of(words.split())


if __name__ == "__main__":
    unittest.main()
