"""A node that a test scripts, the queue of a node, and the bytes that they hear and send."""
import socket
import struct
import threading
from unittest import mock

from locks_client import waits

# The exchange of docs/WIRE.md, and others by its tables.
ACQUIRE = "4c4b0109 0000000000000005 00000000 0007 0000000000000001 00 04 01026462"
GRANTED = "4c4b010a 0000000000000005 00000001 0007 0000000000000001 01 0000000000000001"
RELEASE = "4c4b0109 0000000000000005 00000000 0007 0000000000000002 00 0c 02026462 0000000000000001"
RELEASED = "4c4b010a 0000000000000005 00000001 0007 0000000000000002 03"
PASSED = "4c4b010c 0000000000000005 00000001 0007 0000000000000001 0000000000000002"
BUSY = "4c4b010a 0000000000000005 00000001 0007 0000000000000001 02 0008 0000000000000003"
NOT_HELD = "4c4b010a 0000000000000005 00000001 0007 0000000000000001 04"
HELD = "4c4b010a 0000000000000005 00000001 0007 0000000000000001 06 0008 0000000000000003"
FREE = "4c4b010a 0000000000000005 00000001 0007 0000000000000001 05 0000000000000000"
SHARED = "4c4b010a 0000000000000005 00000001 0007 0000000000000001 0c 0000000000000001"
HELD_SHARED = "4c4b010a 0000000000000005 00000001 0007 0000000000000001 0d 02 0000000000000001"
BROKEN = "4c4b010a 0000000000000005 00000001 0007 0000000000000001 0e"
STALE = "4c4b010a 0000000000000005 00000001 0007 0000000000000001 08"
RAISED = "4c4b010a 0000000000000005 00000001 0007 0000000000000001 26"
ALREADY_RAISED = "4c4b010a 0000000000000005 00000001 0007 0000000000000001 27"
OTHERS = [
    "00",
    "4c4b010a 0000000000000006 00000001 0007 0000000000000001 01 0000000000000001",
    "4c4b010a 0000000000000005 00000001 0008 0000000000000001 01 0000000000000001",
    "4c4b010a 0000000000000005 00000001 0007 0000000000000002 01 0000000000000001",
    "4c4b010a 0000000000000005 00000000 0007 0000000000000001 01 0000000000000001",
    "4c4b010a 0000000000000005 00000001 0007 0000000000000001 01 0000000000000000",
    "4c4b010a 0000000000000005 00000001 0007 0000000000000001 01 0000000000000001 00",
    "4c4b010a 0000000000000005 00000001 0007 0000000000000001 02 0000 0000000000000001",
    "4c4b010a 0000000000000005 00000001 0007 0000000000000001 0d 00 0000000000000001",
    "4c4b010a 0000000000000005 00000001 0007 0000000000000001 0d 09 0000000000000001",
    "4c4b010a 0000000000000005 00000001 0007 0000000000000001 0f",
]


class Node:
    """A node that takes datagrams in turn and replies to each what its row says. It is an old one: it drops watches."""

    def __init__(self, *rows):
        self.socket = socket.socket(socket.AF_INET, socket.SOCK_DGRAM)
        self.socket.bind(("127.0.0.1", 0))
        self.port = self.socket.getsockname()[1]
        self.heard = []
        self.rows = rows
        if rows:
            self.begin()

    def begin(self):
        threading.Thread(target=self.serve, daemon=True).start()

    def serve(self):
        with self.socket:
            for row in self.rows:
                data, sender = self.request()
                self.heard.append(data.hex())
                for reply in row:
                    self.socket.sendto(bytes.fromhex(reply), sender)

    def request(self):
        """The next datagram that is no watch."""
        while True:
            data, sender = self.socket.recvfrom(128)
            if data[:2] != b"LW":
                return data, sender


def elsewhere(port):
    return f"4c4b010b 0000000000000005 00000001 0007 0000000000000001 00000002 {port:04x}"


def plain(text):
    return text.replace(" ", "")


def numbered(text, number):
    """The same datagram of another number."""
    raw = bytearray.fromhex(text)
    raw[18:26] = number.to_bytes(8, "big")
    return raw.hex()


def waiting(*seconds):
    """Waits of so many seconds in place of the client's, the last one again and again."""
    return mock.patch.multiple(waits, WAITS=seconds, POLLS=seconds, SCATTER=(1.0, 1.0))


def once():
    """Each request is sent once: a row that comes late on a busy machine is not asked for again."""
    return waiting(60.0)


def polling(seconds):
    """The same, but for a lock that is held the client asks again after so many seconds."""
    return mock.patch.multiple(waits, WAITS=(60.0,), POLLS=(seconds,), SCATTER=(1.0, 1.0))


FREE_NEWS, HELD_NEWS, NOT_HERE = 1, 2, 3
MAX_SENT = 4  # datagrams for one watch


class Waiting:
    """A client in a queue: what its last watch says, and how often it was told that the name was free at a fence."""

    periods = 0

    def __init__(self, watch, sender):
        self.sender, self.told_at, self.told = sender, None, 0
        self.renew(watch)

    def renew(self, watch):
        self.ticket = watch[16:68]
        self.client, self.number, self.fence, self.mode = struct.unpack(">HQQB", watch[16:35])
        self.name, periods = watch[36:36 + watch[35]].decode(), watch[68]
        self.waits, self.sent, self.is_new = periods > 0, 1, False
        self.periods = min(periods, 20) or self.periods

    def stage(self, opening):
        """How often it was told at that fence, and whether in this period."""
        return (self.told, self.is_new) if self.told_at == opening else (0, False)


class WatchQueue:
    """The queue of a node, by the rules of crates/lk_watch/README.md.

    standing: gives who holds a name, and its last fence. speaks: whether the node leads. room: how many entries it has.
    """

    def __init__(self, node, standing, room=1024):
        self.node, self.standing, self.room, self.speaks, self.entries = node, standing, room, True, []

    def places(self, mode, who):
        """How many more clients may take a name in that mode."""
        if not who:
            return 1 if mode == 1 else 8
        return 8 - len(who) if mode == 2 and isinstance(who, list) else 0

    def opening(self, name):
        """The fence at which a name was free last."""
        who, fence = self.standing(name)
        return fence - bool(who)

    def notice(self, entry, news):
        """What goes to a client that waits, and where."""
        before = self.entries[:self.entries.index(entry)] if entry in self.entries and entry.waits else None
        place = 0 if before is None else 1 + sum(it.waits and it.name == entry.name for it in before)
        front = struct.pack(">2sBBQI", b"LW", 1, 10, 5, self.node)
        return front + entry.ticket + struct.pack(">BH", news, place), entry.sender

    def hear(self, watch, sender):
        """The answer to a watch, if it is not ignored."""
        came = Waiting(watch, sender)
        kept = next((it for it in self.entries if (it.client, it.name) == (came.client, came.name)), None)
        if kept and (came.number <= kept.number or sender != kept.sender):
            return []
        who, fence = self.standing(came.name)
        places = self.places(came.mode, who)
        if kept and kept.waits:
            kept.renew(watch)
        elif came.waits and places <= sum(self.load(it, came.name) for it in self.entries):
            kept = self.enter(came, kept)
        news = FREE_NEWS if places else HELD_NEWS
        answers = kept if kept and kept.ticket == came.ticket else came
        return [self.notice(answers, NOT_HERE if not self.speaks or came.fence > fence else news)]

    def enter(self, came, kept):
        """Keeps a watch behind all others, if there is room. A client that has waited before leaves its entry."""
        if kept:
            self.entries.remove(kept)
        of_client = sum(it.client == came.client for it in self.entries)
        of_name = sum(it.name == came.name for it in self.entries)
        if len(self.entries) < self.room and of_client < 4 and of_name < 256:
            self.entries.append(came)
        return came

    def granted(self, client, name):
        """Ends a wait."""
        for it in self.entries:
            if (it.client, it.name) == (client, name):
                it.waits = False

    def pass_period(self):
        """Watches expire, and who was told just now was told before."""
        for it in self.entries:
            it.periods, it.is_new = it.periods - 1, False
        self.entries = [it for it in self.entries if it.periods > 0]

    def letters(self):
        """The notices of a turn: each name that is free goes to the first that waits for it."""
        return [letter for it in list(self.entries) for letter in self.letter_to(it)] if self.speaks else []

    def letter_to(self, entry):
        """The notice to that one, if its turn has come."""
        who, fence = self.standing(entry.name)
        opening = self.opening(entry.name)
        told, is_new = entry.stage(opening)
        places = self.places(entry.mode, who)
        if not entry.waits or entry.sent >= MAX_SENT or entry.fence > fence or not places or is_new or told > 1:
            return []
        before = self.entries[:self.entries.index(entry)]
        if told == 0 and sum(self.load(it, entry.name) for it in before) >= places:
            return []
        entry.told, entry.told_at, entry.is_new, entry.sent = told + 1, opening, True, entry.sent + 1
        return [self.notice(entry, FREE_NEWS)]

    def load(self, entry, name):
        """How many places for a name that one takes before those who came later."""
        who, fence = self.standing(name)
        if not entry.waits or entry.name != name or entry.fence > fence or not self.places(entry.mode, who):
            return 0
        told, is_new = entry.stage(self.opening(name))
        holds_back = entry.sent < MAX_SENT if told == 0 else told == 1 and is_new
        return (8 if entry.mode == 1 else 1) if holds_back else 0
