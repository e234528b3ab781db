"""The protocol of one client, without a socket.

Each call is a plan: a generator that yields what is to be done (`Send`, `Listen`, `Sleep`), is sent the datagram that a
`Listen` heard, and returns the result. The blocking client and that of asyncio carry the same plans out.

**A run begins with one Ask, under its first new number.** A node answers the last number of a client again as it
answered it first, whatever the request now asks. So where an old state file was put back, or a first number was given
twice, the first request of a run may get the answer of another run. Only once an Ask has got an answer that can be one
to an Ask, any other request is sent, under a greater number. The answer itself is not used. Any other answer is an
OtherAnswer, and a smaller number is Passed; then nothing was sent but that Ask, and nothing is believed. After one of
these, and after `skip_to`, the client begins again.
"""
import logging
import math
from typing import Any

from .core import GRANTING, Core
from .errors import Busy, LocksError, NoAnswer, NotHeld, OtherAnswer, Refused, Unknown
from .numbers import SPARE, Numbers
from .plans import Grant, Made, Mark, Plan, Request
from .results import Free, Held, HeldShared, result
from .waiter import Waiter
from .waits import seconds_of
from .wire import Answer, Op, joined_by, name_bytes, table_op

ANSWER_TIME = 0.5  # seconds that a request is given at least: none is begun later before the end of a wait
CHECK_TIME = 1.0  # seconds that a request of a watch is given: the caller's own requests wait for it
WAY_TIME = 1.0  # seconds after a release in which this client lets those that wait for the name go first
BEGIN = table_op("ask", "begin")  # what a run begins with
FAR = "node %d is above twice the greatest other node of the hosts: no smaller number can join after it"

log = logging.getLogger("locks_client")


class Calls(Core):
    """What one client knows: where its numbers go on, which request is open, and what it was granted.

    last: the last request that was begun. grants: those of this run, by name. settled: the names that no earlier run
    shares. before: who shared a name before this client asked to. released: what was released just now, its fence, and
    when.
    """

    numbers: Numbers

    def __init__(self, *args: Any, **how: Any) -> None:
        super().__init__(*args, **how)
        self.last: Request | None = None
        self.grants: dict[str, Grant] = {}
        self.settled: set[str] = set()
        self.before: dict[str, HeldShared] = {}
        self.released: dict[str, tuple[int, float]] = {}

    def poll(self, word: str, name: str, wait: float) -> Plan[int]:
        """Asks for a lock until it is granted, or until the seconds are over. Watches it, unless told not to."""
        op, start = table_op(word, name), self.clock()
        deadline = start + max(seconds_of(wait, "wait"), self.patience)
        end = min(start + wait, deadline - ANSWER_TIME)
        waiter = self.waiter = Waiter(self, word, name)
        try:
            yield from self.give_way(waiter, name, end)
            while True:
                try:
                    fence: int = yield from self.request(op, result, deadline)
                    waiter.is_granted = True
                    return fence
                except Busy as busy:
                    if self.is_held(name, busy.fence):
                        raise self.of(Busy(self.client, busy.fence), op) from None
                    if self.clock() >= end or busy.holder == self.client:
                        raise
                    held = busy.fence
                yield from waiter.pause(held, end)
        except LocksError:
            yield from self.stop_waiting()
            raise
        finally:
            waiter.rest()

    def give_way(self, waiter: Waiter, name: str, end: float) -> Plan[None]:
        """Lets those go first who wait for a name that this client has released within the last second, if it watches.

        It would win against them nearly always: its request needs half a round trip, theirs a notice before it.
        """
        fence, since = self.released.get(name, (0, -math.inf))
        if self.clock() - since < WAY_TIME and self.clock() < end and waiter.has_listeners():
            yield from waiter.pause(fence, end)

    def stop_waiting(self) -> Plan[None]:
        """Withdraws the watch of a wait that has ended without the lock."""
        waiter, self.waiter = self.waiter, None
        if waiter:
            yield from waiter.withdraw()

    def share(self, name: str, wait: float, adopt: bool) -> Plan[int]:
        """The same for a shared hold. That of an earlier run is left alone, unless the caller adopts it.

        A node answers who shares a name already as if it did so now. So the client asks before, and, if the fence is
        still the same, after: had this client not shared the name, there would be one holder more.
        """
        self.refuse_nested(name)
        self.before.pop(name, None)
        if not adopt and name not in self.settled:
            before = yield from self.look(name, f"the share of {name} was not sent; try later")
            if isinstance(before, HeldShared):
                self.before[name] = before
        fence = yield from self.poll("share", name, wait)
        yield from self.refuse_earlier(name)
        return fence

    def refuse_nested(self, name: str) -> None:
        """Busy if this run holds the name: a second Share is answered as the first, and one release ends both."""
        if name in self.grants:
            raise self.of(Busy(self.client, self.grants[name].fence), table_op("share", name))

    def refuse_earlier(self, name: str) -> Plan[None]:
        """Busy if the share that was just granted is that of an earlier run; then it is left alone."""
        before, fence = self.before.get(name), self.grants[name].fence
        if before and before.fence == fence:
            which = f"client {self.client} shares {name} at fence {fence}, perhaps since an earlier run"
            now = yield from self.look(name, f"{which}; withdraw({name!r}) tries to learn it, and frees what is new")
            if now == before:
                del self.grants[name], self.before[name]
                raise self.of(Busy(self.client, fence), table_op("share", name))
        self.before.pop(name, None)
        self.settled.add(name)

    def look(self, name: str, else_told: str) -> Plan[Free | Held | HeldShared]:
        """Asks who holds a name, for another call. Without an answer no request stays open: Unknown, with the text."""
        self.refuse_open()
        try:
            return (yield from self.ask(name))
        except NoAnswer:
            raise Unknown(f"no answer: {else_told}") from None
        finally:
            self.open = None

    def ask(self, name: str) -> Plan[Free | Held | HeldShared]:
        """Asks who holds a name."""
        found: Free | Held | HeldShared = yield from self.request(table_op("ask", name))
        return found

    def release(self, name: str, fence: int) -> Plan[None]:
        """Gives a lock back."""
        yield from self.request(table_op("release", name, fence))

    def granting(self, name: str, wait: float, shared: bool, adopt: bool) -> Plan[int]:
        """Takes a lock for a block, after it has ended what an earlier call left open."""
        name_bytes(name)
        yield from self.settle(name)
        return (yield from self.share(name, wait, adopt) if shared else self.poll("acquire", name, wait))

    def marked(self, plan: Plan[int], mark: Mark) -> Plan[int]:
        """Carries a plan out, and notes what it has asked."""
        mark.before = self.last
        mark.has_begun = True
        try:
            return (yield from plan)
        finally:
            mark.request = self.last

    def abandon(self, name: str, mark: Mark, seconds: float) -> Plan[bool]:
        """Withdraws what an interrupted plan has asked, and nothing that another call holds. Whether it was granted."""
        yield from self.stop_waiting()
        request = mark.request or self.last
        if not mark.has_begun or request is None or request is mark.before:
            return False
        if self.open is request and request.op.word == "release":
            self.refuse_open()
        if self.open is request and request.op.word in GRANTING and self.is_sent:
            yield from self.refused(seconds)
        elif self.open is request:
            self.open = None
        if name in self.unknown:
            return (yield from self.resolve(name))
        grant, floor = self.grants.get(name), mark.before.number if mark.before else 0
        if grant is None or not floor < grant.number <= request.number:
            return False
        if name in self.before:
            yield from self.refuse_earlier(name)
        return (yield from self.give_back(name, grant.fence))

    def settle(self, name: str) -> Plan[None]:
        """Ends what an earlier call left open: a request for this name, or one that grants nothing."""
        request = self.open
        if request and request.op.word not in GRANTING:
            try:
                yield from self.again()
            except Refused as refused:
                log.debug("%s", refused)
        elif request and request.op.name == name:
            yield from self.withdraw(name)

    def withdraw(self, name: str) -> Plan[bool]:
        """Gives up the last request, an acquire or share. Whether it was granted after all; then it is released.

        What was granted to another request stays, as that of an earlier run: its own answer tells the two apart. False
        only if it is known; else an error is raised.
        """
        yield from self.stop_waiting()
        request = self.open or self.last
        if self.is_releasing(name):  # an earlier withdrawal was interrupted
            yield from self.give_back(name, self.grants[name].fence)
            return True
        if request is None or request.op.word not in GRANTING or request.op.name != name:
            return (yield from self.withdraw_earlier(name))
        if self.open and not self.is_sent:
            self.open = None
        if self.open:
            yield from self.refused(self.patience)
        grant = self.grants.get(name)
        if grant is None or grant.number != request.number:
            return (yield from self.resolve(name)) if name in self.unknown else False
        if request.op.word == "share":
            yield from self.refuse_earlier(name)
        return (yield from self.give_back(name, grant.fence))

    def is_releasing(self, name: str) -> bool:
        """Whether the open request is the release of what this run was granted."""
        op = self.open.op if self.open else BEGIN
        return op.word == "release" and op.name == name and self.is_held(name, op.fence)

    def refused(self, seconds: float) -> Plan[None]:
        """Asks so long for the answer of an acquire, which may be a refusal."""
        try:
            yield from self.again(self.clock() + seconds)
        except Refused as refused:
            log.debug("it was not granted: %s", refused)

    def withdraw_earlier(self, name: str) -> Plan[bool]:
        """The same for a name that the last request did not ask for."""
        grant = self.grants.get(name)
        if grant and name in self.before:
            yield from self.refuse_earlier(name)
            return (yield from self.give_back(name, grant.fence))
        if grant:
            how = f"release({name!r}, {grant.fence}) frees it"
            raise LocksError(f"client {self.client} holds {name} at fence {grant.fence}, by an earlier request; {how}")
        return (yield from self.resolve(name)) if name in self.unknown else False

    def resolve(self, name: str) -> Plan[bool]:
        """Asks who holds a name whose acquire was dropped. False if another client or nobody does, else Unknown."""
        found = yield from self.ask(name)
        if isinstance(found, Free) or isinstance(found, Held) and found.holder != self.client:
            self.unknown.discard(name)
            return False
        which = f"client {self.client} may hold {name} at fence {found.fence}, by that acquire or by an earlier run"
        how = f"once nothing of these runs, release({name!r}, {found.fence}) frees it"
        raise Unknown(f"it is unknown whether the acquire of {name} was granted: {which}; {how}")

    def end_hold(self, name: str, fence: int) -> Plan[None]:
        """Releases what a block held. A request that the block has left open is given up."""
        self.drop_open()
        yield from self.release(name, fence)

    def give_back(self, name: str, fence: int) -> Plan[bool]:
        """Releases what may be released already. Whether it was held until now."""
        try:
            yield from self.end_hold(name, fence)
        except NotHeld:
            return False
        return True

    def give_up(self, name: str) -> Plan[Free | Held | HeldShared]:
        """Puts an Ask in the place of the open request."""
        self.drop_open()
        return (yield from self.ask(name))

    def drop_open(self) -> None:
        """Waits no more for the open request. It has taken effect before the next one does, or never will."""
        self.numbers.check()
        name = self.lost_name()
        if name:
            log.warning("the acquire of %s was dropped without an answer; withdraw tells whether it is held", name)
        self.open = None

    def lost_names(self) -> list[str]:
        """The names that this client may hold, without an answer that tells whether it does. The open one is lost."""
        self.lost_name()
        return sorted(self.unknown - self.grants.keys())

    def forget(self) -> None:
        """Forgets what this run holds or may hold, once somebody was told of it."""
        self.open = None
        self.grants.clear()
        self.unknown.clear()

    def is_valid(self, name: str, fence: int) -> Plan[bool]:
        """Whether the lock is held at that fence; also if no answer comes soon, or another request is open."""
        if self.open:
            return True
        last = self.last
        try:
            return bool((yield from self.request(table_op("check", name, fence), end=self.clock() + CHECK_TIME)))
        except NoAnswer:
            return True
        finally:
            self.open, self.last = None, last

    def request(self, op: Op, made: Made = result, end: float | None = None) -> Plan[Any]:
        """Begins a request, under a new number. What is made of its answer."""
        self.refuse_open()
        if self.is_far(joined_by(op)):
            log.warning(FAR, joined_by(op))
        spare = 0 if op.word == "release" else SPARE
        self.opening = None if self.has_begun else Request(self.numbers.take(spare), BEGIN, result)
        self.is_sent = False
        self.last = self.open = Request(self.numbers.take(spare), op, made)  # in this order, for an interrupt between
        return (yield from self.again(end))

    def is_far(self, node: int) -> bool:
        """Whether a number is above twice that of each other node of the hosts. Not where there is none."""
        others = [it for it in self.hosts if it != node]
        return bool(others) and node > 2 * max(others)

    def again(self, end: float | None = None) -> Plan[Any]:
        """Asks for the answer of the open request, until that time of the clock. What is made of it."""
        request = self.open
        if request is None:
            raise LocksError("no request is open: the last one was answered, withdrawn or given up")
        self.numbers.check()
        end = self.clock() + self.patience if end is None else end
        try:
            if self.opening:
                yield from self.begin(self.opening, end)
                end = max(end, self.clock() + ANSWER_TIME)
            answer = yield from self.exchange(request, end)
            self.note(request, answer)
            self.open = None
            return request.made(request.op.word, answer)
        except LocksError as error:
            error.about(request.op, request.number, self.client, self.is_sent)
            raise

    def begin(self, opening: Request, end: float) -> Plan[None]:
        """The Ask that a run begins with. An answer to another request ends the request that waits, which is unsent."""
        answer = yield from self.exchange(opening, end)
        self.opening = None
        if answer.text not in ("free", "held", "held shared"):
            self.open = None
            raise OtherAnswer(answer.text, BEGIN.word)
        self.has_begun = True

    def note(self, request: Request, answer: Answer) -> None:
        """Remembers what this run holds."""
        op = request.op
        if answer.text in ("granted", "shared") and op.word in GRANTING:
            self.grants[op.name] = Grant(answer.fields[0], request.number)
            self.unknown.discard(op.name)
        if (op.word == "release" or answer.text in ("stale", "broken")) and self.is_held(op.name, op.fence):
            del self.grants[op.name]
        if answer.text == "released":
            self.unknown.discard(op.name)
            self.settled.add(op.name)
            self.note_release(op)

    def note_release(self, op: Op) -> None:
        """Remembers a release for a second."""
        now = self.clock()
        self.released = {name: it for name, it in self.released.items() if now - it[1] < WAY_TIME}
        self.released[op.name] = op.fence, now

    def is_held(self, name: str, fence: int) -> bool:
        """Whether this run was granted the name at that fence, and knows neither of a release nor of a loss."""
        return name in self.grants and self.grants[name].fence == fence
