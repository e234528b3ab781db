"""How a client waits for a lock, without a socket: without polling, or only at intervals where its caller says so.

It sends a *watch* to every node that it knows. Each node keeps it in a queue, and the one that leads answers with a
*notice*: the name is held, and this is the client's place; later, that it is free. Then the client asks at once. All
this is a hint beside the protocol: a lost one, or a node that knows no watches, costs no more than time. Without
notices that keep its place the client asks at intervals, and with them once a minute. Where its caller wants no notices
it sends no watch.
"""
import math
from typing import TYPE_CHECKING

from . import waits
from .endpoints import Endpoint
from .notices import LIFE, News, Notice, Ticket, read_notice, watch_bytes
from .plans import Datagram, Listen, Plan, Send, Sleep

if TYPE_CHECKING:
    from .core import Core

RENEW = 0.8  # seconds between two watches of one wait
SILENCE = 2 * RENEW + 0.1  # seconds without a notice after which two watches have none
GONE = 2  # watches in turn that a node has not answered: then it gets each eighth one
MISLED = 2  # notices in turn after which the lock was still held at the same fence: then none is followed


class Waiter:
    """The wait of one client for one lock.

    renew_at: when the next watch is due; infinity where none is. watch: the last one; empty before the first. kept_by:
    the node that keeps a place for this client and leads, as it said last; that is believed until kept_until. early:
    the places with which nodes answered a watch last that the name is free, above 1. is_granted: whether the wait has
    ended so.
    """

    def __init__(self, core: "Core", word: str, name: str) -> None:
        self.core, self.word, self.name = core, word, name
        self.polls = waits.Polls()
        self.watch, self.sent_to, self.renew_at = b"", set[Endpoint](), math.inf
        self.used = b""  # the watch whose notices tell no more who leads
        self.answered = set[int]()  # the nodes that have answered the last watch
        self.is_granted = False
        self.kept_by, self.kept_until = 0, -math.inf
        self.early = dict[int, int]()
        self.fence, self.was_told, self.misled = 0, False, 0

    def pause(self, fence: int, end: float) -> Plan[None]:
        """After the lock was found held at that fence: waits until it is worth asking again, at most until the end."""
        start, polled = self.core.clock(), self.polls.after(fence)
        if not self.core.notices:
            yield Sleep(max(0.0, min(polled, end - start)))
            return
        self.count_misled(fence)
        with_place = waits.scattered(waits.WITH_PLACE)
        yield from self.send()
        while True:
            is_kept = self.core.clock() < self.kept_until and self.is_heeding()
            due = min(end, start + (with_place if is_kept else polled))
            if self.was_told or self.core.clock() >= due:
                break
            yield from self.listen(min(due, self.kept_until) if is_kept else due)
        self.used = self.watch

    def listen(self, until: float) -> Plan[None]:
        """Takes the notice that comes by then, or sends the next watch once it is due."""
        came = yield Listen(min(until, self.renew_at))
        notice = self.notice_in(came) if came else None
        self.was_told = notice is not None and notice.news is News.FREE and self.is_heeding()
        if self.core.clock() >= self.renew_at:
            yield from self.send()

    def count_misled(self, fence: int) -> None:
        """Counts how often in turn the lock was said to be free, and was held at the same fence as before."""
        if fence != self.fence:
            self.misled = 0
        elif self.was_told:
            self.misled += 1
        self.fence, self.was_told = fence, False

    def is_heeding(self) -> bool:
        """Whether notices are followed: not where they have misled."""
        return self.misled < MISLED

    def send(self, periods: int = LIFE) -> Plan[None]:
        """Sends a watch to every node that is known: one that lives so many periods, or withdraws."""
        core = self.core
        core.watch_number += 1
        ticket = Ticket(core.client, core.watch_number, self.fence, self.word, self.name)
        self.watch = watch_bytes(core.cluster, ticket, periods)
        self.renew_at = core.clock() + RENEW if periods else math.inf
        self.sent_to, self.answered = {port for port in self.known() if self.is_due(port)}, set()
        data = core.seals.sealed(self.watch)
        for port in self.sent_to:
            yield Send(data, port)

    def is_due(self, port: Endpoint) -> bool:
        """Whether a node gets this watch, which is counted: one that has not answered the last two is gone."""
        unanswered = self.core.unanswered.get(port, 0)
        self.core.unanswered[port] = unanswered + 1
        return unanswered < GONE or unanswered % 8 == 0

    def has_listeners(self) -> bool:
        """Whether a node may be expected to answer a watch, if this client sends any."""
        return self.core.notices and any(self.core.unanswered.get(port, 0) < GONE for port in self.known())

    def known(self) -> set[Endpoint]:
        """The nodes that the caller has given, and the one that answered last."""
        leader = self.core.leader
        return {*self.core.ports, leader} if leader else set(self.core.ports)

    def notice_in(self, came: Datagram) -> Notice | None:
        """What a datagram says to the last watch. It is checked as a reply is, by its seal or by its source."""
        core = self.core
        if not self.watch or not (core.seals.keys or came.port in self.sent_to):
            return None
        notice = read_notice(core.seals.opened(came.data), self.watch)
        if notice:
            # With a key a node may answer from another address, and then any of them may be the one.
            core.unanswered.update(dict.fromkeys(self.sent_to & {came.port} or self.sent_to, 0))
            notice = self.meant_by(notice)
            self.note(notice, came.port)
        return notice

    def meant_by(self, notice: Notice) -> Notice:
        """What a notice means to this client. To it a name is held that is free for those who came before it: a node
        answers a watch so with a place above 1, and tells it later that its turn has come."""
        if notice.node in self.answered:
            return notice
        self.answered.add(notice.node)
        return notice._replace(news=News.HELD) if self.is_early(notice) else notice

    def is_early(self, notice: Notice) -> bool:
        """Whether the answer of a node to a watch says that the name is free for others. If it says so again at the
        same place, what the node has told since is lost, and those who came before leave the name free."""
        place = notice.place if notice.news is News.FREE and notice.place > 1 else 0
        is_again = place == self.early.get(notice.node)
        self.early[notice.node] = 0 if is_again else place
        return place > 0 and not is_again

    def note(self, notice: Notice, port: Endpoint) -> None:
        """Remembers who leads, and who keeps a place for this client."""
        if notice.news is not News.NOT_HERE and port in self.sent_to:
            self.core.leader = port
        if notice.news is News.HELD and notice.place:
            self.kept_by, self.kept_until = notice.node, self.core.clock() + SILENCE
        elif notice.node == self.kept_by:
            self.kept_until = -math.inf

    def leads(self, came: Datagram) -> bool:
        """Whether this is the first notice of a node that leads to a watch that was sent while a request waits."""
        notice = self.notice_in(came)
        if notice is None or notice.news is News.NOT_HERE or self.used == self.watch or self.is_granted:
            return False
        self.used = self.watch
        return True

    def rest(self) -> None:
        """Sends no more watches. Late answers to the last one are still taken, since they show that a node is there."""
        self.renew_at = math.inf

    def withdraw(self) -> Plan[None]:
        """Tells the nodes that this client waits no more, unless they know it by its grant."""
        if self.watch and not self.is_granted:
            yield from self.send(0)
        self.watch = b""
