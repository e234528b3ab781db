"""What a node does to its files in a run, call by call, and what a stop may leave of them at each."""
import contextlib
import itertools
import os
import pathlib
import socket
import time

from harness.cluster import Cluster

TICK = 64  # datagrams bring a tick
HEAD = 6  # bytes of a record before its own
ANSWER = bytes.fromhex("4c4b010a")  # what an answer to a client begins with
LONGEST = 64  # bytes that are read of it
PAUSE = 0.05  # seconds, until a request is sent again
SECONDS = 60  # until it is answered, on a busy machine
LEFT = (0, 1, 7, 1 << 30)  # how many bytes a stop keeps of those that were not synced


def records(data):
    """The records of tools/recording.c: call, file, number and bytes of each."""
    at = 0
    while at < len(data):
        call, name, number = chr(data[at]), chr(data[at + 1]), int.from_bytes(data[at + 2 : at + HEAD], "big")
        end = at + HEAD + (number if call in "wd" else 0)
        yield call, name, number, data[at + HEAD : end]
        at = end


def number_of(datagram):
    """The number of the request that a datagram answers, 0 if it answers none."""
    return int.from_bytes(datagram[18:26], "big") if datagram.startswith(ANSWER) else 0


class File:
    """What is known of a file: its bytes, how many of them are synced, and what it may be if a cut is not kept."""

    def __init__(self, data):
        self.data, self.synced, self.uncut = data, len(data), set()

    def may_be(self):
        """What a stop may leave of it."""
        return {self.data[: self.synced + more] for more in LEFT} | self.uncut

    def take(self, call, number, piece):
        """Takes a call."""
        if call == "w":
            self.data += piece
        elif call == "s":
            self.synced, self.uncut = len(self.data), set()
        else:
            self.uncut = self.may_be()
            self.data, self.synced = self.data[:number], min(self.synced, number)


def stops(stores, calls, answered):
    """For each call, and before the first one, the number of the last request that is answered by then, and each store
    that a stop may leave then, as the bytes of its two files."""
    files = {name: File(data) for name, data in zip("ab", stores)}
    for call, name, number, piece in [("s", "a", 0, b""), *calls]:
        if call == "d":
            answered = number_of(piece) or answered
        else:
            files[name].take(call, number, piece)
        yield from ((answered, store) for store in itertools.product(*(files[it].may_be() for it in "ab")))


def request_of(client, number, body):
    """A request to the lock table."""
    head = bytes.fromhex("4c4b0109 0000000000000005 00000000")
    return head + client.to_bytes(2, "big") + number.to_bytes(8, "big") + bytes([0, len(body)]) + body


def request(number):
    """The request of that number of client 7, which takes `db` and gives it back in turn: so its number is the position
    at which it is executed."""
    fence = (number + 1) // 2
    return request_of(7, number, b"\1\2db" if number % 2 else b"\2\2db" + fence.to_bytes(8, "big"))


def answer(number):
    """The answer to it: granted at the next fence, or released."""
    fence = b"\1" + ((number + 1) // 2).to_bytes(8, "big")
    head = ANSWER + bytes.fromhex("0000000000000005 00000001 0007")
    return head + number.to_bytes(8, "big") + (fence if number % 2 else b"\3")


OTHER = request_of(8, 1, b"\3\2db")  # asks who holds it


class Recorded(Cluster):
    """A node, a cluster by itself, whose calls are recorded."""

    def __init__(self, program, folder, library):
        super().__init__(program, folder, nodes=1, alpha=2)
        self.calls, self.number = os.path.join(folder, "calls"), 0
        self.environment = {**os.environ, "LD_PRELOAD": library, "RECORD": self.calls}
        self.socket = socket.socket(socket.AF_INET, socket.SOCK_DGRAM)
        self.socket.connect(("127.0.0.1", self.ports[1]))
        self.socket.settimeout(PAUSE)

    def path(self, name):
        return os.path.join(self.folder, "1", name)

    def store(self):
        """The bytes of its two files; empty ones if it has none."""
        found = []
        for name in "ab":
            os.makedirs(os.path.dirname(self.path(name)), exist_ok=True)
            with open(self.path(name), "a+b") as file:
                file.seek(0)
                found.append(file.read())
        return found

    def put(self, store):
        """Writes the bytes of its two files."""
        for name, data in zip("ab", store):
            with open(self.path(name), "wb") as file:
                file.write(data)

    def tear(self):
        """Leaves a torn rest after each file that is not empty."""
        self.put([data + bytes(3) * bool(data) for data in self.store()])

    def ask(self, number, hurried=0):
        """Sends a request until it is answered, each time after so many others. The answer, or none if it ends."""
        end = time.monotonic() + SECONDS
        while self.processes[1].poll() is None and time.monotonic() < end:
            with contextlib.suppress(OSError):
                for _ in range(hurried):
                    self.socket.send(OTHER)
                self.socket.send(request(number))
                while number_of(heard := self.socket.recv(LONGEST)) != number:
                    pass
                return heard
        return None

    def run(self, options, requests):
        """Runs with these options until it has answered so many more requests. What a stop may leave, as by `stops`."""
        before, answered, self.options = self.store(), self.number, options
        pathlib.Path(self.calls).unlink(missing_ok=True)
        with self:
            for _ in range(requests):
                self.number += 1
                if self.ask(self.number) != answer(self.number):
                    raise ValueError(f"request {self.number} has another answer, or none")
        with open(self.calls, "rb") as file:
            calls = [*records(file.read())]
        return [*stops(before, calls, answered)]

    def restarted(self, options, answered, store):
        """Restarts it on a store and sends the request after the answered ones. Whether it answers as in the run, and
        the store that it leaves."""
        self.put(store)
        self.options = options
        with self:
            heard = self.ask(answered + 1, hurried=TICK)
        return heard == answer(answered + 1), tuple(self.store())
