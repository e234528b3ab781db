"""The blocking client."""
import contextlib
import math
import sys
import threading
import time
from collections.abc import Callable, Iterable, Iterator
from types import TracebackType
from typing import Any, Self, TypeVar

from .base import LONGEST, WATCH_EVERY, Base
from .endpoints import Endpoint, address_of, endpoint_at
from .errors import Unanswered
from .plans import Datagram, Effect, Listen, Mark, Plan, Send, Sleep
from .results import Free, Held, HeldShared, result
from .waits import wait_of
from .watch import Watch, watching
from .wire import Answer, Op, join_op, leave_op, names_of, raise_op, table_op

INSIDE = "a call of this client is under way in this thread: an interrupted or collected `with` cannot call it now"
BESIDE = "another thread is in a call of this client: give each thread a client with a number of its own"
T = TypeVar("T")


class Client(Base):
    """A client whose calls wait, for one thread at a time. A forked child cannot use it: `Forked` is raised there.

    A call beside one of another thread is refused (`Unanswered`), but a release waits for it, at most `patience`, and
    so does each call while a lock is watched. Where an interrupt ends the acquire of a `lock`, this is withdrawn for at
    most `cleanup` seconds, 2 at first, and for none if it was not sent.

    cluster: its number. client: the number of this client, 1 to 256, which nobody else uses. ports: those of the nodes
    on 127.0.0.1, or (address, port) of each, one at least. first: the number of the first request. state: a file that
    keeps the numbers over restarts; one of the two has to be given. patience: seconds until NoAnswer. hosts: a file of
    lines NODE ADDRESS, where a node named by another one lives. key: the file of this client's key. notices: whether
    it watches a lock that it waits for, so that nodes tell it when the lock is free; without, it asks at intervals. Use
    it in a `with`, or call `close`.
    """

    def close(self) -> None:
        """Closes the socket and the state file. A ResourceWarning names each lock that is held, or may be."""
        self.tell_held()
        self.close_socket()
        self.numbers.close()

    def __enter__(self) -> Self:
        return self

    def __exit__(
        self, kind: type[BaseException] | None, error: BaseException | None, trace: TracebackType | None
    ) -> None:
        self.close()

    def acquire(self, name: str, wait: float = 0.0, blocking: bool | None = None) -> int:
        """Takes the lock, and gives its fence. Waits up to `wait` seconds while another client holds it.

        `blocking=True` waits for ever. Busy if it is held then, or by this client itself since an earlier run; NoRoom
        or Spent if it cannot be granted; NoAnswer if no answer came within `wait` and `patience`, whichever is longer:
        then `again` asks once more, and `withdraw` gives it up.
        """
        return self.run(self.core.poll("acquire", name, wait_of(wait, blocking)))

    def share(self, name: str, wait: float = 0.0, blocking: bool | None = None, adopt: bool = False) -> int:
        """The same for a shared hold in a raised table: up to eight clients have it, at one fence.

        Busy, with this client as the holder, if this run holds the name already, or an earlier run of this client
        shares it. `adopt=True` takes such a hold over: give it once nothing of the earlier run works any more.
        """
        return self.run(self.core.share(name, wait_of(wait, blocking), adopt))

    @contextlib.contextmanager
    def lock(
        self,
        name: str,
        wait: float = math.inf,
        shared: bool = False,
        blocking: bool | None = None,
        adopt: bool = False,
        on_lost: Callable[[str, int], object] | None = None,
    ) -> Iterator[int]:
        """Context manager: holds the lock and yields its fence.

        It releases the lock whatever ends the block, and where an interrupt ends the acquire. An error of the block is
        raised as it is; where the release fails too, a note on it says so. NotHeld if the lock was broken meanwhile. A
        request that the block has left open is given up. An acquire of this name that an earlier call left open is
        withdrawn first, and any other open request but an acquire is asked for again.

        blocking=False asks once, as wait=0 does. on_lost: called once, with the name and the fence, from a thread that
        checks the hold each second, after the first check by which the lock is no longer held at its fence.
        """
        seconds = wait_of(wait, blocking)
        watch = None
        if on_lost:
            watch = Watch(self.core.is_valid, on_lost, WATCH_EVERY)
        with self.holding(name, self.core.granting(name, seconds, shared, adopt), watch) as fence:
            yield fence

    @contextlib.contextmanager
    def lock_all(
        self,
        names: Iterable[str],
        wait: float = math.inf,
        blocking: bool | None = None,
        on_lost: Callable[[str, int], object] | None = None,
    ) -> Iterator[dict[str, int]]:
        """Context manager: holds all these locks or none, and yields the fence of each name.

        They are acquired in the order of their names, so that two callers with the same names cannot each hold what the
        other one waits for, and released in the opposite order. wait: seconds for all of them together.
        """
        first, *rest = names_of(names)
        end = time.monotonic() + wait_of(wait, blocking)
        with self.lock(first, max(0.0, end - time.monotonic()), on_lost=on_lost) as fence:
            if not rest:
                yield {first: fence}
                return
            with self.lock_all(rest, max(0.0, end - time.monotonic()), on_lost=on_lost) as others:
                yield {first: fence} | others

    @contextlib.contextmanager
    def holding(self, name: str, plan: Plan[int], watch: Watch | None = None) -> Iterator[int]:
        """Holds what a plan is granted while a block runs."""
        mark, fence = Mark(), None
        try:
            fence = self.run(self.core.marked(plan, mark))
            if watch:
                with watching(self, name, fence, watch):
                    yield fence
            else:
                yield fence
            self.run(self.core.end_hold(name, fence), self.patience)
        except BaseException as error:
            undoing = self.undoing(name, fence, mark, error)
            if undoing:
                self.undo(undoing, name, fence, error)
            raise

    def undo(self, plan: Plan[bool], name: str, fence: int | None, error: BaseException) -> None:
        """Gives the lock back after an error, which stays the one that is raised."""
        try:
            self.run(plan, self.patience)
        except Exception as failed:
            self.tell_kept(name, fence, error, failed)
        except BaseException as second:
            self.tell_kept(name, fence, second, second)
            raise

    def withdraw(self, name: str) -> bool:
        """Gives up an acquire or share that was interrupted or has no answer, and releases what it was granted.

        Whether it was granted; False only if that is known. What an earlier run of this client was granted stays held.
        NoAnswer if no answer comes; Unknown if a later request took the place of the acquire, and the name is held.
        """
        return self.run(self.core.withdraw(name), self.patience)

    def release(self, name: str, fence: int) -> None:
        """Gives the lock back; NotHeld if this client does not hold it at that fence."""
        self.run(self.core.release(name, fence), self.patience)

    def ask(self, name: str) -> Free | Held | HeldShared:
        """Who holds the name."""
        return self.run(self.core.ask(name))

    def check(self, name: str, fence: int) -> bool:
        """Whether the lock was held at that fence when this was executed."""
        return bool(self.result_of(table_op("check", name, fence)))

    def break_lock(self, name: str, fence: int) -> bool:
        """Frees a name of a raised table of all who hold it at that fence. Whether it was held at it."""
        return bool(self.result_of(table_op("break", name, fence)))

    def raise_table(self) -> bool:
        """Raises the table, so that it knows share and break. Whether it was not raised before."""
        return bool(self.result_of(raise_op()))

    def join(self, node: int, port: int) -> None:
        """Makes a node a member; Used or Full if it is not made one.

        The log warns of a number above twice the greatest other one of the hosts: no smaller number can join after it.
        """
        self.result_of(join_op(node, port))

    def leave(self, node: int) -> None:
        """Ends a node's membership; NotMember or Last if it is not ended."""
        self.result_of(leave_op(node))

    def request(self, op: Op) -> Answer:
        """The bare answer to an op, a refusal too."""
        answer: Answer = self.run(self.core.request(op, lambda word, answer: answer))
        return answer

    def result_of(self, op: Op) -> Any:
        """The result of an op; a refusal is raised."""
        return self.run(self.core.request(op, result))

    def again(self) -> Any:
        """Asks once more for the answer of the request that has none yet. It takes effect at most once."""
        return self.run(self.core.again())

    def give_up(self, name: str = "give/up") -> Free | Held | HeldShared:
        """Gives up the request that has no answer yet: when this returns, it has taken effect or never will.

        It asks who holds a name, and returns the answer to that.
        """
        return self.run(self.core.give_up(name))

    def run(self, plan: Plan[T], wait: float = 0.0) -> T:
        """Carries a plan out. A call of another thread is waited for so long; then Unanswered."""
        self.enter(wait)
        heard = None
        try:
            while True:
                heard = self.perform(plan.send(heard))
        except StopIteration as end:
            value: T = end.value
            return value
        finally:
            plan.close()
            self.guard.release()

    def enter(self, wait: float) -> None:
        """Begins a call, once no other thread is in one. A call within a call of the same thread is refused."""
        self.numbers.check()  # a forked child would wait for a thread that it does not have
        if self.is_inside():
            raise Unanswered(INSIDE)
        me = threading.get_ident()
        self.releasing.discard(me)
        if wait > 0:
            self.releasing.add(me)
        try:
            if not self.takes_turn(me, wait or (self.patience if self.watches else 0.0)):
                raise Unanswered(BESIDE)
        finally:
            self.releasing.discard(me)

    def takes_turn(self, me: int, wait: float) -> bool:
        """Whether this thread gets its turn within so many seconds. Those that release or check go first."""
        end = time.monotonic() + wait
        while self.releasing and me not in self.releasing:
            if time.monotonic() >= end:
                return False
            time.sleep(0.001)
        left = end - time.monotonic()
        return self.guard.acquire(timeout=min(left, threading.TIMEOUT_MAX)) if left > 0 else self.guard.acquire(False)

    def is_inside(self) -> bool:
        """Whether a call of this client is under way in this thread.

        The stack shows it, so an interrupt can leave nothing wrong behind, as it could in a flag.
        """
        frame = sys._getframe(2)
        while frame.f_back:
            frame = frame.f_back
            if frame.f_code is RUN and frame.f_locals.get("self") is self:
                return True
        return False

    def perform(self, effect: Effect) -> Datagram | None:
        """Does what a plan yields."""
        if isinstance(effect, Listen):
            return self.receive(effect.until)
        if isinstance(effect, Send):
            self.send(effect.data, effect.port)
        elif isinstance(effect, Sleep):
            time.sleep(effect.seconds)
        return None

    def send(self, data: bytes, endpoint: Endpoint) -> None:
        """Sends the bytes. A datagram that cannot be sent counts as lost."""
        with contextlib.suppress(OSError):
            self.socket.sendto(data, address_of(endpoint))

    def receive(self, until: float) -> Datagram | None:
        """The next datagram that comes by then."""
        while (left := until - self.core.clock()) > 0:
            self.socket.settimeout(left)
            try:
                data, (address, port, *_) = self.socket.recvfrom(LONGEST)
                return Datagram(data, endpoint_at(address, port))
            except TimeoutError:
                return None
            except OSError:
                time.sleep(min(0.01, left))
        return None


RUN = Client.run.__code__
