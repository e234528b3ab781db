"""Sockets in the place of nodes, which answer probes as a test wants it."""
import selectors
import socket

from harness.by_bytes import bytes_of

# A probe of cluster 5 by nobody's key, but for its form, its token and the zeros behind.
PROBE = "4c50{:02x}09 0000000000000005 00000000 0000 {:016x}"
LENGTH, LONG = 174, 206

# What a report of form 2 has more: how many members are heard, plus 1, whether bundles are read and sent, how many
# watches and names the node keeps, and a position with the digest of its state there, zeros for none.
UNKNOWN = "0000 01 00 0000 0000"
SENDS = "0000 01 01 0000 0000"
NO_STATE = "00" * 24

GENESIS = "11" * 32
OTHER_GENESIS = "22" * 32
# The version of the program, the format of the store, the version of the table.
PROGRAM_0_1_0 = "000100 02 01"
RAISED = "000100 02 02"
MEMBERS = "03 00000001 1b59 00000002 1b5a 00000003 1b5b"


def report(
    node,
    token,
    genesis=GENESIS,
    build=PROGRAM_0_1_0,
    leads=0,
    leader=1,
    silence=1,
    promised=3,
    promised_by=1,
    executed=10,
    pending=1,
    waiting=2,
    unread=5,
    unsent=6,
    ticks=100,
    members=MEMBERS,
    client=0,
    cluster=5,
    reach=None,
    state=NO_STATE,
):
    """A report, field by field: the numbers are as in docs/WIRE.md. With a reach it has form 2."""
    form = 1 if reach is None else 2
    head = f"4c50{form:02x}0a {cluster:016x} {node:08x} {client:04x} {token:016x} {genesis} {build}"
    leadership = f"{leads:02x} {leader:08x} {silence:016x} {promised:016x} {promised_by:08x}"
    progress = f"{executed:016x} {4:016x} {pending:02x}"
    traffic = f"{waiting:04x} {unread:016x} {unsent:016x} {ticks:016x}"
    tail = "" if reach is None else reach + state
    return bytes_of(head, leadership, progress, traffic, members).ljust(LENGTH, b"\0") + bytes_of(tail)


def heard(count, watches=0, names=0):
    """The reach of a node that hears so many members, reads bundles, and keeps so many watches and names."""
    return f"{count + 1:04x} 01 00 {watches:04x} {names:04x}"


def state(position, digit):
    """The digest of a state at that position, of which each hex digit is this one."""
    return f"{position:016x} {digit * 32}"


def probe(form, token=0):
    """The bytes of a probe."""
    return bytes_of(PROBE.format(form, token)).ljust(LENGTH if form == 1 else LONG, b"\0")


def token_of(probe):
    return int.from_bytes(probe[18:26], "big")


class Peers:
    """Sockets in the place of nodes: each answers a probe by what a function makes of it."""

    def __init__(self, answers):
        self.answers, self.came, self.selector = answers, [], selectors.DefaultSelector()
        self.sockets = []
        for _ in answers:
            it = socket.socket(socket.AF_INET, socket.SOCK_DGRAM)
            it.bind(("127.0.0.1", 0))
            self.selector.register(it, selectors.EVENT_READ, len(self.sockets))
            self.sockets.append(it)

    def __enter__(self):
        return self

    def __exit__(self, *_):
        for it in self.sockets:
            it.close()

    @property
    def ports(self):
        return [it.getsockname()[1] for it in self.sockets]

    def serve(self, process):
        """Answers until the process has ended and all that it sent has come. What it printed, and its status."""
        has_ended, ready = False, True
        while ready or not has_ended:
            has_ended = process.poll() is not None
            ready = self.selector.select(0 if has_ended else 0.01)
            for key, _ in ready:
                data, place = key.fileobj.recvfrom(9000)
                self.came.append(data)
                for reply in self.answers[key.data](data):
                    key.fileobj.sendto(reply, place)
        out, err = process.communicate()
        return process.returncode, out, err


def node(number, reach=UNKNOWN, **parts):
    """A peer that reports as this node, in the form of the probe."""
    return lambda probe: [report(number, token_of(probe), reach=reach if probe[2] == 2 else None, **parts)]


def older(number, **parts):
    """A peer that reports as this node, and knows no form but the first."""
    return lambda probe: [report(number, token_of(probe), **parts)] if probe[2] == 1 else []


def silent(_):
    return []
