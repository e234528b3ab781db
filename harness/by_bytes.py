"""What the tests of a node by bytes share: texts of hex with spaces, and node 2 of three on files of given bytes."""
import os
import socket
import subprocess

from harness.cluster import free_ports, genesis_text


PROBE = b"LP\1\x09"  # what a probe of form 1 begins with
PROBES = (PROBE, b"LP\2\x09")
LONGEST = 20_000  # bytes; no datagram has more


def received(it):
    """The next datagram to a socket but for probes: a node asks once, and once more, who writes to it from there."""
    while (data := it.recv(LONGEST)).startswith(PROBES):
        pass
    return data


def bytes_of(*texts):
    """The bytes that the texts spell together."""
    return bytes.fromhex("".join(texts))


class Node:
    """Node 2 of three in cluster 5, on files of these bytes. The test stands at the ports of the others.

    In a text the words 1b59, 1b5a and 1b5b stand for the ports of nodes 1 to 3. `words` are further options of the
    node, and `address` is the one at which all live."""

    def __init__(self, program, folder, alpha=1, address="127.0.0.1", ports=None):
        self.program, self.folder, self.address, self.ports = program, folder, address, ports or free_ports(3)
        self.genesis = genesis_text(5, alpha, dict(enumerate(self.ports, 1)))
        self.process, self.runs, self.words = None, [], ()
        self.socket, self.third = self.bound(self.ports[0]), self.bound(self.ports[2])

    def __enter__(self):
        return self

    def __exit__(self, *_):
        self.kill()
        self.socket.close()
        self.third.close()

    def bound(self, port):
        """A socket at a port."""
        it = socket.socket(socket.AF_INET, socket.SOCK_DGRAM)
        it.bind((self.address, port))
        it.settimeout(10.0)
        return it

    def bytes_of(self, *texts):
        """The bytes of the texts, with the ports of this cluster."""
        own = {f"{7001 + place:04x}": f"{port:04x}" for place, port in enumerate(self.ports)}
        return bytes_of(*(own.get(word, word) for text in texts for word in text.split()))

    def path(self, name):
        return os.path.join(self.folder, name)

    def write(self, a, b=b""):
        """Puts these bytes into its files."""
        for name, data in (("a", a), ("b", b)):
            with open(self.path(name), "wb") as file:
                file.write(data)

    def read(self, name):
        """What stands in a file."""
        with open(self.path(name), "rb") as file:
            return file.read()

    def lengths(self):
        """How long both files are."""
        return os.path.getsize(self.path("a")), os.path.getsize(self.path("b"))

    def start(self):
        """Starts it, and waits until it serves: then `runs` has the positions that it executed as it came up, and the
        last line of standard error is given, which is its fault where it does not come up."""
        words = ["--genesis", self.genesis, "--number", "2", "--port", str(self.ports[1]), "--dir", self.folder]
        command = [self.program, "node", *words, "--log", "--verbose", *self.words]
        piped = {"stdin": subprocess.DEVNULL, "stderr": subprocess.PIPE, "text": True}
        self.process = subprocess.Popen(command, **piped)
        self.runs, last = [], ""
        for line in self.process.stderr:
            last = line.rsplit("] ", 1)[-1].rstrip("\n")
            if last.startswith("ran "):
                self.runs.append(int(last.split()[1]))
            if last == f"port {self.ports[1]}":
                break
        return last

    def kill(self):
        """Kills it, if it runs, and gives its status."""
        if self.process is None:
            return None
        self.process.kill()
        self.process.stderr.close()
        status, self.process = self.process.wait(), None
        return status

    def send(self, data):
        """Sends it a datagram in the name of node 1."""
        self.socket.sendto(data, (self.address, self.ports[1]))

    def asked(self, data):
        """What it sends first for a datagram."""
        self.send(data)
        return received(self.socket)
