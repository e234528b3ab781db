"""A client that asks all nodes at once, ten times a second, and when each of its requests was answered.

`python3 -m harness.prober JSON` runs it until its input ends. Each answer is a line with the time of its arrival. A
request is sent again, under its number, until it is answered, so each answer is of a position that was decided after
the answer before it."""
import contextlib
import itertools
import json
import socket
import sys
import threading
import time

from locks_client import milliseconds
from locks_client.seals import Seals, read_keys
from locks_client.wire import Answer, read_reply, request_bytes, table_op

EVERY = 0.1  # seconds between two times that it asks
LONGEST = 9000  # bytes that are read of a datagram


class Prober:
    """The client, with a socket of its own."""

    def __init__(self, plan):
        self.names = plan["cluster"], plan["client"]
        self.seals = Seals(*self.names, read_keys(plan["key"]))
        self.endpoints = [tuple(endpoint) for endpoint in plan["endpoints"]]
        self.socket = socket.socket(socket.AF_INET, socket.SOCK_DGRAM)
        self.op = table_op("ask", "probed")

    def send(self, number):
        """Sends a request to each node."""
        data = self.seals.sealed(request_bytes(*self.names, number, self.op))
        for it in self.endpoints:
            with contextlib.suppress(OSError):
                self.socket.sendto(data, it)

    def is_answered(self, number, end):
        """Whether the answer to a request comes by then."""
        while (left := end - time.monotonic()) > 0:
            self.socket.settimeout(left)
            with contextlib.suppress(OSError):
                reply = self.seals.opened(self.socket.recv(LONGEST))
                if isinstance(read_reply(reply, *self.names, number), Answer):
                    return True
        return False

    def ask(self, number, is_over):
        """Sends a request ten times a second until it is answered. Ends a tenth of a second after it last did."""
        while not is_over.is_set():
            end = time.monotonic() + EVERY
            self.send(number)
            if self.is_answered(number, end):
                print(time.monotonic(), flush=True)
                time.sleep(max(0.0, end - time.monotonic()))
                return


def main():
    prober, is_over = Prober(json.loads(sys.argv[1])), threading.Event()
    threading.Thread(target=lambda: (sys.stdin.read(), is_over.set()), daemon=True).start()
    for number in itertools.count(milliseconds()):
        if is_over.is_set():
            return
        prober.ask(number, is_over)


if __name__ == "__main__":
    main()
