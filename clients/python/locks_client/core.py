"""One request: it is sent until its answer comes. `calls` builds the calls of a client from this."""
import itertools
import logging
import time
from collections.abc import Callable, Iterable, Mapping, Sequence
from typing import Any

from .endpoints import Endpoint, address_of, endpoint_at, endpoint_of
from .errors import LocksError, NoAnswer, Passed, Unanswered
from .plans import Datagram, Listen, Plan, Request, Send
from .seals import Seals
from .waits import seconds_of, waits
from .waiter import Waiter
from .wire import MAX_CLIENT, Answer, Elsewhere, Op, Overtaken, ranged, read_reply, request_bytes

MAX_ELSEWHERE = 7  # Elsewheres that are followed between two waits: a cluster has no more members
WARN_EVERY = 5.0  # seconds without an answer between two warnings
GRANTING = ("acquire", "share")

log = logging.getLogger("locks_client")


class Core:
    """What one client knows of the nodes, and of the request that it waits for.

    clock: gives seconds. notices: whether watches are sent. leader: the node that answered last, or said that it leads.
    open: the request that has no answer yet. opening: the Ask that is sent before it, since the run begins with it.
    is_sent: whether the open request was sent. unknown: the names whose acquire was dropped without an answer. waiter:
    the last wait for a lock, unless it was withdrawn. watch_number: that of the last watch; they rise over restarts,
    unless a clock is set back. unanswered: how many watches in turn each node has not answered.
    """

    def __init__(
        self,
        cluster: int,
        client: int,
        ports: Iterable[Endpoint],
        patience: float = 10.0,
        clock: Callable[[], float] = time.monotonic,
        hosts: Mapping[int, str] | None = None,
        keys: Sequence[bytes] = (),
        notices: bool = True,
    ) -> None:
        self.cluster = ranged(cluster, 0, (1 << 64) - 1, "cluster")
        self.client = ranged(client, 1, MAX_CLIENT, "client")
        self.patience, self.clock, self.hosts = seconds_of(patience, "patience"), clock, hosts or {}
        self.set_ports(ports)
        self.set_keys(keys)
        self.open: Request | None = None
        self.opening: Request | None = None
        self.has_begun = self.is_sent = False
        self.unknown: set[str] = set()
        self.sent_number = 0
        self.sent_to: set[Endpoint] = set()  # where the request of that number was sent
        self.waiter: Waiter | None = None
        self.notices = notices
        self.watch_number, self.unanswered = time.time_ns(), dict[Endpoint, int]()

    def set_ports(self, ports: Iterable[Endpoint]) -> None:
        """Asks these nodes from now on."""
        found = [endpoint_of(port) for port in ports]
        if not found:
            raise ValueError("no port of a node is given")
        self.ports, self.turn = found, itertools.cycle(found)
        self.leader: Endpoint | None = None

    def set_keys(self, keys: Sequence[bytes]) -> None:
        """Seals with these keys from now on, the open request too."""
        self.seals, self.unopened = Seals(self.cluster, self.client, keys), 0

    def refuse_open(self) -> None:
        """Unanswered if a request is open."""
        if self.open:
            raise Unanswered(f"{self.asked()} has no answer yet: call again(), withdraw() or give_up() first")

    def lost_name(self) -> str:
        """Notes that the answer of the open request will not come. The name that may be granted; empty if none."""
        if not self.open or not self.is_sent or self.open.op.word not in GRANTING:
            return ""
        self.unknown.add(self.open.op.name)
        return self.open.op.name

    def asked(self) -> str:
        """What the open request asks."""
        asked: str = self.of(LocksError(), self.open.op).asked if self.open else "a request"
        return asked

    def of(self, error: Any, op: Op) -> Any:
        """The error, as one of a request that was not sent."""
        error.about(op, 0, self.client, False)
        return error

    def exchange(self, request: Request, end: float) -> Plan[Answer]:
        """Sends the bytes until their answer comes: to one port after the other, with growing waits between them."""
        port, self.warn_at = self.leader or next(self.turn), self.clock() + WARN_EVERY
        for wait in waits():
            yield self.sent(request, port)
            answer = yield from self.answer_by(request, min(end, self.clock() + wait))
            if answer:
                return answer
            if self.clock() >= end:
                break
            log.debug("number %d: no answer from %s", request.number, port)
            port = self.port_after(port)
        raise self.no_answer()

    def sent(self, request: Request, port: Endpoint) -> Send:
        """What sends a request to an endpoint."""
        self.is_sent = self.is_sent or request is self.open
        if request.number != self.sent_number:
            self.sent_number, self.sent_to = request.number, set()
        self.sent_to.add(port)
        data = request_bytes(self.cluster, self.client, request.number, request.op)
        return Send(self.seals.sealed(data), port)

    def no_answer(self) -> NoAnswer:
        """The error, with its likely reason if one is known."""
        error = NoAnswer()
        if self.unopened:
            came = f"{self.unopened} datagrams came that the client's key does not open"
            error.hint = f"{came}: set_key() gives it another one"
        return error

    def answer_by(self, request: Request, until: float) -> Plan[Answer | None]:
        """The answer that comes by then. A few Elsewheres are followed."""
        followed = 0
        while heard := (yield from self.heard_by(until)):
            reply = self.reply_in(heard.data, request.number) if self.is_asked(heard.port) else None
            if isinstance(reply, Answer):
                self.leader, self.unopened = heard.port, 0
                return reply
            if isinstance(reply, Overtaken):
                self.lost_name()
                self.open, self.opening, self.has_begun = None, None, False
                raise Passed(reply.last)
            if followed == MAX_ELSEWHERE:
                continue
            if isinstance(reply, Elsewhere):
                followed += 1
                yield self.sent(request, self.endpoint_in(reply, heard.port))
            elif self.waiter and self.waiter.leads(heard):
                followed += 1
                yield self.sent(request, heard.port)
        return None

    def is_asked(self, source: Endpoint) -> bool:
        """Whether a reply may come from there: with a key the seal decides, else the request was sent there."""
        return bool(self.seals.keys) or source in self.sent_to

    def heard_by(self, until: float) -> Plan[Datagram | None]:
        """The datagram that comes by then. Warns of each few seconds without an answer, and renews a watch."""
        while (due := min(self.warn_at, self.waiter.renew_at if self.waiter else self.warn_at)) < until:
            heard = yield Listen(due)
            if heard:
                return heard
            if due == self.warn_at:
                self.warn_at += WARN_EVERY
                log.warning("client %d: no answer for another %.0f s to %s", self.client, WARN_EVERY, self.asked())
            elif self.waiter:
                yield from self.waiter.send()
        return (yield Listen(until))

    def reply_in(self, data: bytes, number: int) -> Answer | Elsewhere | Overtaken | None:
        """The reply to that number in what came. What the key does not open is counted."""
        opened = self.seals.opened(data)
        self.unopened += not opened and bool(self.seals.keys)
        return read_reply(opened, self.cluster, self.client, number)

    def endpoint_in(self, reply: Elsewhere, teller: Endpoint) -> Endpoint:
        """Where the node lives that an Elsewhere names: where the hosts say, else at the address of who told it."""
        return endpoint_at(self.hosts.get(reply.node, address_of(teller)[0]), reply.port)

    def port_after(self, silent: Endpoint) -> Endpoint:
        """The next port in turn, another one than the silent one if there is one."""
        self.leader = None
        port = next(self.turn)
        return next(self.turn) if port == silent else port
