"""The bytes of watches and notices, by which a client waits for a lock beside the protocol. Nothing here sends."""
import enum
import struct
from typing import NamedTuple

from .wire import MAX_NODE, name_bytes

# magic, version, kind, cluster, the node that tells, client, number, fence, mode, name, then periods and 0 of a watch,
# or news and place of a notice
LAYOUT = struct.Struct(">2sBBQIHQQB33sBH")
MAGIC, VERSION, WATCH, NOTICE = b"LW", 1, 9, 10
MODES = {"acquire": 1, "share": 2}
TICKET = slice(16, 68)  # the bytes of a watch that its notices repeat
LIFE = 20  # periods of a node that a watch lives, at most


class News(enum.IntEnum):
    """What a node says of a name to a client that waits for it."""

    FREE = 1
    HELD = 2
    NOT_HERE = 3  # it does not lead, or its table is older than the watch


class Notice(NamedTuple):
    """What a node answers to a watch, or tells later; `place` in its queue, 0 if the client does not wait there."""

    node: int
    news: News
    place: int


class Ticket(NamedTuple):
    """Who waits for which name, by which word, after which fence; the number rises with each watch."""

    client: int
    number: int
    fence: int
    word: str
    name: str


def watch_bytes(cluster: int, ticket: Ticket, periods: int = LIFE) -> bytes:
    """The watch that lives so many periods of a node; none withdraws."""
    client, number, fence, word, name = ticket
    who = cluster, 0, client, number, fence, MODES[word], name_bytes(name)
    return LAYOUT.pack(MAGIC, VERSION, WATCH, *who, periods, 0)


def read_notice(data: bytes, watch: bytes) -> Notice | None:
    """What a datagram says to that watch; None if it is no notice to it."""
    if len(data) != LAYOUT.size or data[TICKET] != watch[TICKET]:
        return None
    magic, version, kind, cluster, node, *_, news, place = LAYOUT.unpack(data)
    if (magic, version, kind, cluster) != (MAGIC, VERSION, NOTICE, LAYOUT.unpack(watch)[3]):
        return None
    if not 1 <= node <= MAX_NODE or news not in tuple(News):
        return None
    return Notice(node, News(news), place)
