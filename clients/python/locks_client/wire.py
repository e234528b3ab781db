"""The bytes of docs/WIRE.md: requests, and the replies to them. Nothing here sends or waits."""
import struct
from collections.abc import Iterable
from typing import NamedTuple

MAX_COUNT = 1 << 48  # of numbers and fences
MAX_NUMBER = MAX_COUNT - (1 << 32)  # a greater one is never sent: after 2^48 a client number can ask nothing any more
MAX_CLIENT = 256
MAX_NODE = 1 << 31
MAX_PORT = 65535
MAX_SHARERS = 8
RAISED_VERSION = 2  # of the table that knows share and break

HEADER = struct.Struct(">2sBBQIHQ")  # magic, version, kind, cluster, sender, client, number
MAGIC, VERSION = b"LK", 1
REQUEST, ANSWER, ELSEWHERE, PASSED = 9, 10, 11, 12
TABLE, JOIN, LEAVE, RAISE = b"\x00", b"\x01", b"\x02", b"\x03"
BODIES = {"acquire": 1, "release": 2, "ask": 3, "check": 4, "share": 5, "break": 6}
LETTERS = frozenset(b"abcdefghijklmnopqrstuvwxyz0123456789-./")


class Op(NamedTuple):
    """What a request asks: its word, the name and the fence if it has them, and its bytes."""

    word: str
    data: bytes
    name: str = ""
    fence: int = 0


class Answer(NamedTuple):
    """What a request was answered: its text, as `locks ask` prints it, and its fields."""

    text: str
    fields: tuple[int, ...]


class Elsewhere(NamedTuple):
    """Another node is believed to lead."""

    node: int
    port: int


class Overtaken(NamedTuple):
    """A greater number of the client was executed."""

    last: int


Reply = Answer | Elsewhere | Overtaken

HOLDER = (1, MAX_CLIENT)
FENCE = (1, MAX_COUNT)

# tag: the answer's text, the layout of its fields, and the range of each
ANSWERS: dict[int, tuple[str, str, list[tuple[int, int]]]] = {
    1: ("granted", ">Q", [FENCE]),
    2: ("busy", ">HQ", [HOLDER, FENCE]),
    3: ("released", ">", []),
    4: ("not held", ">", []),
    5: ("free", ">Q", [(0, MAX_COUNT)]),
    6: ("held", ">HQ", [HOLDER, FENCE]),
    7: ("valid", ">", []),
    8: ("stale", ">", []),
    9: ("no room", ">", []),
    10: ("bad", ">", []),
    11: ("spent", ">", []),
    12: ("shared", ">Q", [FENCE]),
    13: ("held shared", ">BQ", [(1, MAX_SHARERS), FENCE]),
    14: ("broken", ">", []),
    32: ("joined", ">", []),
    33: ("used", ">", []),
    34: ("full", ">", []),
    35: ("left", ">", []),
    36: ("not a member", ">", []),
    37: ("last", ">", []),
    38: ("raised", ">", []),
    39: ("already raised", ">", []),
}


def ranged(value: int, low: int, high: int, what: str) -> int:
    """The value, if it lies in its range."""
    if not isinstance(value, int) or not low <= value <= high:
        raise ValueError(f"invalid {what} {value!r}: must be {low} to {high}")
    return value


def name_bytes(name: str) -> bytes:
    """A name after its length."""
    if not isinstance(name, str):
        raise TypeError(f"invalid name {name!r}: must be a str of 1 to 32 of a-z 0-9 - . /")
    raw = name.encode()
    if not 1 <= len(raw) <= 32 or not LETTERS.issuperset(raw):
        raise ValueError(f"invalid name {name!r}: must be 1 to 32 of a-z 0-9 - . /")
    return bytes([len(raw)]) + raw


def names_of(names: Iterable[str]) -> list[str]:
    """The names, each once, in their order."""
    if isinstance(names, str):
        raise TypeError(f"invalid names {names!r}: must be a list of names, not a str")
    found = set(names)
    for name in found:
        name_bytes(name)
    if not found:
        raise ValueError("invalid names: must be one at least")
    return sorted(found)


def table_op(word: str, name: str, fence: int | None = None) -> Op:
    """The op of a word of the lock table."""
    body = bytes([BODIES[word]]) + name_bytes(name)
    if fence is not None:
        body += struct.pack(">Q", ranged(fence, 1, MAX_COUNT, "fence"))
    return Op(word, TABLE + bytes([len(body)]) + body, name, fence or 0)


def join_op(node: int, port: int) -> Op:
    """The op that makes a node a member."""
    return Op("join", JOIN + struct.pack(">IH", ranged(node, 1, MAX_NODE, "node"), ranged(port, 1, MAX_PORT, "port")))


def joined_by(op: Op) -> int:
    """The node that an op makes a member; 0 if it makes none."""
    return int.from_bytes(op.data[len(JOIN) : len(JOIN) + 4], "big") if op.word == "join" else 0


def leave_op(node: int) -> Op:
    """The op that ends a node's membership."""
    return Op("leave", LEAVE + struct.pack(">I", ranged(node, 1, MAX_NODE, "node")))


def raise_op(version: int = RAISED_VERSION) -> Op:
    """The op that raises the table to a version."""
    return Op("raise", RAISE + bytes([ranged(version, RAISED_VERSION, RAISED_VERSION, "version")]))


def op_of(words: list[str]) -> Op:
    """The op of the words of a command line, as `acquire NAME`."""
    word, *rest = words
    if word in ("acquire", "ask", "share") and len(rest) == 1:
        return table_op(word, rest[0])
    if word in ("release", "check", "break") and len(rest) == 2:
        return table_op(word, rest[0], int(rest[1]))
    if word == "raise" and len(rest) == 1:
        return raise_op(int(rest[0]))
    if word == "join" and len(rest) == 2:
        return join_op(int(rest[0]), int(rest[1]))
    if word == "leave" and len(rest) == 1:
        return leave_op(int(rest[0]))
    raise ValueError(f"invalid request `{' '.join(words)}`; try --help")


def request_bytes(cluster: int, client: int, number: int, op: Op) -> bytes:
    """The datagram that asks an op."""
    return HEADER.pack(MAGIC, VERSION, REQUEST, cluster, 0, client, number) + op.data


def read_answer(rest: bytes) -> Answer | None:
    """The answer that stands after the number."""
    if not rest or rest[0] not in ANSWERS:
        return None
    text, layout, ranges = ANSWERS[rest[0]]
    if len(rest) != 1 + struct.calcsize(layout):
        return None
    fields = struct.unpack(layout, rest[1:])
    is_good = all(low <= field <= high for field, (low, high) in zip(fields, ranges))
    return Answer(text, fields) if is_good else None


def read_elsewhere(rest: bytes) -> Elsewhere | None:
    """The node and the port that stand after the number."""
    if len(rest) != 6:
        return None
    node, port = struct.unpack(">IH", rest)
    return Elsewhere(node, port) if 1 <= node <= MAX_NODE and port else None


def read_passed(rest: bytes, number: int) -> Overtaken | None:
    """The greater number that stands after the number."""
    last = int.from_bytes(rest, "big")
    return Overtaken(last) if len(rest) == 8 and number < last <= MAX_COUNT else None


def read_reply(data: bytes, cluster: int, client: int, number: int) -> Reply | None:
    """What a datagram replies to the request of that number; None if it is no reply to it."""
    if len(data) < HEADER.size:
        return None
    magic, version, kind, its_cluster, sender, its_client, its_number = HEADER.unpack_from(data)
    if (magic, version, its_cluster, its_client, its_number) != (MAGIC, VERSION, cluster, client, number):
        return None
    if not 1 <= sender <= MAX_NODE:
        return None
    rest = data[HEADER.size:]
    if kind == ANSWER:
        return read_answer(rest)
    if kind == ELSEWHERE:
        return read_elsewhere(rest)
    return read_passed(rest, number) if kind == PASSED else None
