"""A switch between network namespaces: it carries the frames of each, and drops, delays, repeats or changes them."""
import ctypes
import fcntl
import heapq
import itertools
import os
import random
import selectors
import struct
import threading
import time

TUNSETIFF, IFF_TAP, IFF_NO_PI, CLONE_NEWNET = 0x400454CA, 0x0002, 0x1000, 0x40000000
LIBC = ctypes.CDLL(None, use_errno=True)
IPV4, UDP, MORE_FRAGMENTS, OFFSET = b"\x08\0", 17, 0x2000, 0x1FFF


def open_tap(space, device):
    """Makes a device in a namespace, whose frames come and go by the file that is returned."""
    found = []

    def enter():
        with open(f"/run/netns/{space}", "rb") as it:
            if LIBC.setns(it.fileno(), CLONE_NEWNET):
                return
        file = os.open("/dev/net/tun", os.O_RDWR | os.O_NONBLOCK)
        fcntl.ioctl(file, TUNSETIFF, struct.pack("16sH22x", device.encode(), IFF_TAP | IFF_NO_PI))
        found.append(file)

    thread = threading.Thread(target=enter)  # a namespace is of a thread
    thread.start()
    thread.join()
    if not found:
        raise OSError(f"no device in {space}")
    return found[0]


def is_udp(frame):
    """Whether it is an IPv4 datagram of UDP, or a part of one."""
    return frame[12:14] == IPV4 and frame[23] == UDP


def is_fragment(frame):
    """Whether it is a part of an IPv4 datagram."""
    return frame[12:14] == IPV4 and bool(int.from_bytes(frame[20:22], "big") & (MORE_FRAGMENTS | OFFSET))


def changed(frame, at, bit):
    """The frame of a whole datagram with a bit of its payload changed, and no checksum."""
    frame = bytearray(frame)
    frame[40:42] = b"\0\0"
    frame[at] ^= bit
    return bytes(frame)


class Switch:
    """Carries frames between machines, by rules that may change at any time. A machine's hardware address ends in its
    number.

    cut: pairs (sender, receiver) of which nothing is carried. impaired: the pairs for which all else holds. loss,
    repeats, changes: which part of the frames is lost, comes twice, or has a bit of its payload changed. delay: the
    least and the most seconds that each waits. fragments: whether parts of datagrams are carried."""

    def __init__(self, seed=1):
        self.cut, self.impaired, self.files = frozenset(), frozenset(), {}
        self.random, self.late, self.count = random.Random(seed), [], itertools.count()
        self.heal()
        self.selector, self.is_over, self.lock = selectors.DefaultSelector(), False, threading.Lock()
        self.thread = threading.Thread(target=self.run, daemon=True)

    def heal(self):
        """Nothing is lost, late, repeated or changed from now on."""
        self.loss = self.repeats = self.changes = 0.0
        self.delay, self.fragments = (0.0, 0.0), True

    def add(self, machine, file):
        self.files[machine] = file
        self.selector.register(file, selectors.EVENT_READ, machine)

    def start(self):
        self.thread.start()

    def run(self):
        while not self.is_over:
            left = self.late[0][0] - time.monotonic() if self.late else 0.02
            for key, _ in self.selector.select(min(0.02, max(0.0, left))):
                self.take(key.data, key.fd)
            while self.late and self.late[0][0] <= time.monotonic():
                _, _, receiver, frame = heapq.heappop(self.late)
                self.give(receiver, frame)

    def give(self, receiver, frame):
        try:
            os.write(self.files[receiver], frame)
        except OSError:
            pass  # that machine is down, or its queue is full

    def take(self, sender, file):
        """Takes the frames that have come from a machine, up to 64."""
        for _ in range(64):
            try:
                frame = os.read(file, 65_536)
            except OSError:
                return
            receiver = frame[5]
            if receiver in self.files and (sender, receiver) not in self.cut:
                self.carry((sender, receiver), frame)

    def carry(self, pair, frame):
        if pair not in self.impaired:
            self.give(pair[1], frame)
        elif self.fragments or not is_fragment(frame):
            self.impair(pair[1], frame)

    def impair(self, receiver, frame):
        """Loses, changes, repeats and delays a frame."""
        if self.random.random() < self.loss:
            return
        if self.random.random() < self.changes and is_udp(frame) and not is_fragment(frame) and len(frame) > 42:
            frame = changed(frame, self.random.randrange(42, len(frame)), 1 << self.random.randrange(8))
        for _ in range(1 + (self.random.random() < self.repeats)):
            due = time.monotonic() + self.random.uniform(*self.delay)
            heapq.heappush(self.late, (due, next(self.count), receiver, frame))

    def end(self):
        self.is_over = True
        if self.thread.is_alive():
            self.thread.join()
        for file in self.files.values():
            os.close(file)
