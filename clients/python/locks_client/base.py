"""What the blocking client and that of asyncio have in common: how they are made, and what they tell of themselves."""
import logging
import os
import socket
import threading
import warnings
from collections.abc import Iterable

from .calls import Calls
from .errors import Forked, LocksError
from .numbers import Numbers
from .endpoints import Endpoint, endpoint_of, own_address, read_hosts
from .plans import Mark, Plan
from .seals import read_keys
from .waits import seconds_of

LONGEST = 128  # bytes that are read of a datagram: more than any reply or notice has
CLEANUP = 2.0  # seconds that the withdrawal of an acquire is tried that an interrupt or a cancellation has ended
WATCH_EVERY = 1.0  # seconds between two checks of a lock that is watched

log = logging.getLogger("locks_client")


class Base:
    """One client of a cluster, with one socket.

    cluster: its number. client: the number of this client, 1 to 256, which nobody else uses. ports: those of the nodes
    on 127.0.0.1, or (address, port) of each, one at least. first: the number of the first request. state: a file that
    keeps the numbers over restarts; one of the two has to be given. patience: seconds until NoAnswer. hosts: a file of
    lines NODE ADDRESS, where a node named by another one lives. key: the file of this client's key. notices: whether
    it watches a lock that it waits for, so that nodes tell it when the lock is free; without, it asks at intervals.
    """

    def __init__(
        self,
        cluster: int,
        client: int,
        ports: Iterable[Endpoint],
        first: int | None = None,
        state: str | os.PathLike[str] | None = None,
        patience: float = 10.0,
        hosts: str | os.PathLike[str] | None = None,
        key: str | os.PathLike[str] | None = None,
        notices: bool = True,
    ) -> None:
        known = read_hosts(hosts) if hosts else None
        keys = read_keys(key) if key else ()
        self.core = Calls(cluster, client, ports, patience, hosts=known, keys=keys, notices=notices)
        own = own_address(self.core.ports, self.core.hosts.values())
        self.guard = threading.RLock()  # one that an interrupt leaves locked does not lock its own thread out
        self.releasing: set[int] = set()  # threads that wait to release or to check: other calls let them go first
        self.watches: set[object] = set()  # one for each watch: as long as there is one, calls wait for each other
        self.cleanup = CLEANUP
        self.numbers = self.core.numbers = Numbers(first, state)
        self.socket = self.bound(own)

    def bound(self, own: str) -> socket.socket:
        """A socket at that address of this machine."""
        made = socket.socket(socket.AF_INET6 if ":" in own else socket.AF_INET, socket.SOCK_DGRAM)
        made.bind((own, 0))
        self.own = own
        return made

    def close_socket(self) -> None:
        """Closes the socket."""
        self.socket.close()

    @property
    def cluster(self) -> int:
        """The number of the cluster."""
        return self.core.cluster

    @property
    def client(self) -> int:
        """The number of this client."""
        return self.core.client

    @property
    def leader(self) -> Endpoint | None:
        """The node that answered last, or said last that it leads. None if none has since a node was silent."""
        return self.core.leader

    @property
    def is_open(self) -> bool:
        """Whether a request has no answer yet."""
        return self.core.open is not None

    @property
    def patience(self) -> float:
        """Seconds until NoAnswer."""
        return self.core.patience

    @patience.setter
    def patience(self, seconds: float) -> None:
        self.core.patience = seconds_of(seconds, "patience")

    def skip_to(self, number: int) -> None:
        """The next request has this number, or a greater one that is due: the way out after Passed.

        Give a number above all that the client ever used; `Passed.next_number` is one. `milliseconds()` does not help
        where a clock was ahead. ValueError above 2^48 - 2^32: then only another client number helps.
        """
        self.numbers.skip_to(number)
        self.core.has_begun = False

    def set_key(self, key: str | os.PathLike[str]) -> None:
        """Seals with the keys of this file from now on, an open request too. ValueError as at the start."""
        self.core.set_keys(read_keys(key))

    def set_ports(self, ports: Iterable[Endpoint]) -> None:
        """Asks these nodes from now on, an open request too. ValueError as at the start."""
        given = [endpoint_of(port) for port in ports]
        own = own_address(given, self.core.hosts.values()) if given else self.own
        self.core.set_ports(given)
        if own != self.own:
            self.close_socket()
            self.socket = self.bound(own)

    def tell_held(self) -> None:
        """Warns at `close` of each lock that this run holds or may hold. A forked child holds none."""
        if self.numbers.is_closed or os.getpid() != self.numbers.process:
            return
        who = f"client {self.client}"
        texts = [
            f"holds {name} at fence {grant.fence}: it stays held until a {who} releases it at that fence"
            for name, grant in self.core.grants.items()
        ]
        texts += [
            f"may hold {name}, or may still be granted it: if an ask says that {who} holds it, release it at that fence"
            for name in self.core.lost_names()
        ]
        for text in texts:
            warnings.warn(f"{who} is closed while it {text}", ResourceWarning, stacklevel=4)
            log.warning("%s is closed while it %s", who, text)

    def tell_kept(self, name: str, fence: int | None, error: BaseException, failed: BaseException) -> None:
        """Notes on the error of a block, and logs, that its lock was not released."""
        where = "in a forked child, which holds nothing" if isinstance(failed, Forked) else "it may stay held"
        at = f" at fence {fence}" if fence else ""
        note = f"{name} was not released{at} by client {self.client}: {failed or type(failed).__name__}; {where}"
        error.add_note(note)
        log.warning("%s", note)

    def undoing(self, name: str, fence: int | None, mark: Mark, error: BaseException) -> Plan[bool] | None:
        """The plan that gives a lock back after an error, None if nothing is to be given back.

        That is so where nothing was asked, where the lock was refused or its request stays open for `withdraw`, and
        where the lock was released.
        """
        if fence is not None:
            return self.core.give_back(name, fence) if self.core.is_held(name, fence) else None
        if not mark.has_begun or isinstance(error, LocksError):
            return None
        return self.core.abandon(name, mark, self.cleanup)
