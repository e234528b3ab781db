"""The client of asyncio."""
import asyncio
import collections
import contextlib
import functools
import inspect
import logging
import math
import socket
from collections.abc import AsyncIterator, Callable, Iterable
from types import TracebackType
from typing import Any, Self, TypeVar

from .base import LONGEST, WATCH_EVERY, Base
from .endpoints import address_of, endpoint_at
from .errors import LocksError, Unanswered
from .plans import Datagram, Effect, Listen, Mark, Plan, Send, Sleep
from .results import Free, Held, HeldShared, result
from .waits import wait_of
from .watch import ENDING, Watch
from .wire import Answer, Op, join_op, leave_op, names_of, raise_op, table_op

BESIDE = "another call of this client is under way: await one call after the other, or use a client for each task"
T = TypeVar("T")

log = logging.getLogger("locks_client")


class AsyncClient(Base):
    """The same client for asyncio: each call is a coroutine, for one task at a time.

    A call while another one is under way raises Unanswered, but a release waits for it, at most `patience`, and so does
    each call while a lock is watched. A state file is written within a call, once a block of numbers. It belongs to no
    event loop: a later `asyncio.run` may go on with it. Use it in an `async with`, or call `close`.

    A cancelled acquire is withdrawn before the cancellation goes on: at once if nothing was sent, else for at most
    `cleanup` seconds, 2 at first; then the log and a note on the CancelledError say that the lock may stay held. The
    TimeoutError of an `asyncio.timeout` has that CancelledError as its `__cause__`. A cancelled block releases its
    lock, for at most `patience`.
    """

    is_running = False
    stop_reading: Callable[[], None] | None = None

    @functools.cached_property
    def turns(self) -> "collections.deque[asyncio.Future[None]]":
        """The calls that wait for the one that is under way."""
        return collections.deque()

    @functools.cached_property
    def telling(self) -> "set[asyncio.Task[None]]":
        """The tasks that call back for a loss."""
        return set()

    def bound(self, own: str) -> socket.socket:
        """A socket that is never waited for."""
        made = super().bound(own)
        made.setblocking(False)
        return made

    def close_socket(self) -> None:
        """Closes the socket. A call that waits for it goes on."""
        if self.stop_reading:
            self.stop_reading()
        self.socket.close()

    def close(self) -> None:
        """Closes the socket and the state file. A ResourceWarning names each lock that is held, or may be."""
        self.tell_held()
        self.close_socket()
        self.numbers.close()

    async def __aenter__(self) -> Self:
        return self

    async def __aexit__(
        self, kind: type[BaseException] | None, error: BaseException | None, trace: TracebackType | None
    ) -> None:
        self.close()

    async def acquire(self, name: str, wait: float = 0.0, blocking: bool | None = None) -> int:
        """Takes the lock, and gives its fence, as `Client.acquire` does. A cancelled task withdraws it."""
        return await self.taken(name, self.core.poll("acquire", name, wait_of(wait, blocking)))

    async def share(self, name: str, wait: float = 0.0, blocking: bool | None = None, adopt: bool = False) -> int:
        """The same for a shared hold in a raised table, as `Client.share` does. A cancelled task withdraws it."""
        return await self.taken(name, self.core.share(name, wait_of(wait, blocking), adopt))

    @contextlib.asynccontextmanager
    async def lock(
        self,
        name: str,
        wait: float = math.inf,
        shared: bool = False,
        blocking: bool | None = None,
        adopt: bool = False,
        on_lost: Callable[[str, int], object] | None = None,
    ) -> AsyncIterator[int]:
        """Context manager: holds the lock and yields its fence, as `Client.lock` does. A cancelled task releases.

        on_lost may be a function or a coroutine function; a task of its own calls it.
        """
        seconds = wait_of(wait, blocking)
        watch = None
        if on_lost:
            watch = Watch(self.core.is_valid, on_lost, WATCH_EVERY)
        async with self.holding(name, self.core.granting(name, seconds, shared, adopt), watch) as fence:
            yield fence

    @contextlib.asynccontextmanager
    async def lock_all(
        self,
        names: Iterable[str],
        wait: float = math.inf,
        blocking: bool | None = None,
        on_lost: Callable[[str, int], object] | None = None,
    ) -> AsyncIterator[dict[str, int]]:
        """Context manager: holds all these locks or none, and yields the fence of each, as `Client.lock_all` does."""
        first, *rest = names_of(names)
        end = self.core.clock() + wait_of(wait, blocking)
        async with self.lock(first, max(0.0, end - self.core.clock()), on_lost=on_lost) as fence:
            if not rest:
                yield {first: fence}
                return
            async with self.lock_all(rest, max(0.0, end - self.core.clock()), on_lost=on_lost) as others:
                yield {first: fence} | others

    @contextlib.asynccontextmanager
    async def holding(self, name: str, plan: Plan[int], watch: Watch | None = None) -> AsyncIterator[int]:
        """Holds what a plan is granted while a block runs."""
        mark, fence = Mark(), None
        try:
            fence = await self.run(self.core.marked(plan, mark))
            async with self.watching(name, fence, watch):
                yield fence
            await self.run(self.core.end_hold(name, fence), self.patience)
        except BaseException as error:
            undoing = self.undoing(name, fence, mark, error)
            if undoing:
                await self.undo(undoing, name, fence, error)
            raise

    async def taken(self, name: str, plan: Plan[int]) -> int:
        """Carries out what takes a lock. A cancellation withdraws it."""
        mark = Mark()
        try:
            return await self.run(self.core.marked(plan, mark))
        except BaseException as error:
            undoing = self.undoing(name, None, mark, error)
            if undoing:
                await self.undo(undoing, name, None, error)
            raise

    async def undo(self, plan: Plan[bool], name: str, fence: int | None, error: BaseException) -> None:
        """Gives the lock back after an error, which stays the one that is raised."""
        try:
            await self.run(plan, self.patience)
        except Exception as failed:
            self.tell_kept(name, fence, error, failed)
        except BaseException as second:
            self.tell_kept(name, fence, second, second)
            raise

    @contextlib.asynccontextmanager
    async def watching(self, name: str, fence: int, watch: Watch | None) -> AsyncIterator[None]:
        """Watches in a task while the block runs."""
        if watch is None:
            yield
            return
        task = asyncio.create_task(self.keep_watch(name, fence, watch))
        self.watches.add(task)
        try:
            yield
        finally:
            self.watches.discard(task)
            task.cancel()

    async def keep_watch(self, name: str, fence: int, watch: Watch) -> None:
        """Carries the steps out until one says that the lock is lost."""
        is_held = True
        while is_held:
            await asyncio.sleep(watch.every)
            try:
                is_held = await self.run(watch.step(name, fence), self.patience)
            except ENDING as error:
                log.warning("%s at fence %d is not watched any more: %s", name, fence, error)
                return
            except LocksError as error:
                log.debug("%s at fence %d could not be checked: %s", name, fence, error)
        log.warning("%s is no longer held at fence %d", name, fence)
        telling = asyncio.create_task(self.tell_lost(name, fence, watch))  # which the end of the block does not cancel
        self.telling.add(telling)
        telling.add_done_callback(self.telling.discard)

    async def tell_lost(self, name: str, fence: int, watch: Watch) -> None:
        """Calls back."""
        try:
            told = watch.lost(name, fence) if watch.lost else None
            if inspect.isawaitable(told):
                await told
        except Exception:
            log.exception("what was to be called for the loss of %s failed", name)

    async def withdraw(self, name: str) -> bool:
        """Gives up an acquire or share without an answer, and releases what it was granted, as `Client.withdraw`."""
        return await self.run(self.core.withdraw(name), self.patience)

    async def release(self, name: str, fence: int) -> None:
        """Gives the lock back; NotHeld if this client does not hold it at that fence."""
        await self.run(self.core.release(name, fence), self.patience)

    async def ask(self, name: str) -> Free | Held | HeldShared:
        """Who holds the name."""
        return await self.run(self.core.ask(name))

    async def check(self, name: str, fence: int) -> bool:
        """Whether the lock was held at that fence when this was executed."""
        return bool(await self.result_of(table_op("check", name, fence)))

    async def break_lock(self, name: str, fence: int) -> bool:
        """Frees a name of a raised table of all who hold it at that fence. Whether it was held at it."""
        return bool(await self.result_of(table_op("break", name, fence)))

    async def raise_table(self) -> bool:
        """Raises the table, so that it knows share and break. Whether it was not raised before."""
        return bool(await self.result_of(raise_op()))

    async def join(self, node: int, port: int) -> None:
        """Makes a node a member; Used or Full if it is not made one."""
        await self.result_of(join_op(node, port))

    async def leave(self, node: int) -> None:
        """Ends a node's membership; NotMember or Last if it is not ended."""
        await self.result_of(leave_op(node))

    async def request(self, op: Op) -> Answer:
        """The bare answer to an op, a refusal too."""
        answer: Answer = await self.run(self.core.request(op, lambda word, answer: answer))
        return answer

    async def result_of(self, op: Op) -> Any:
        """The result of an op; a refusal is raised."""
        return await self.run(self.core.request(op, result))

    async def again(self) -> Any:
        """Asks once more for the answer of the request that has none yet. It takes effect at most once."""
        return await self.run(self.core.again())

    async def give_up(self, name: str = "give/up") -> Free | Held | HeldShared:
        """Gives up the request that has no answer yet, as `Client.give_up` does."""
        return await self.run(self.core.give_up(name))

    async def run(self, plan: Plan[T], wait: float = 0.0) -> T:
        """Carries a plan out. Another call is waited for so long; then Unanswered."""
        await self.enter(wait or (self.patience if self.watches else 0.0))
        heard = None
        try:
            while True:
                heard = await self.perform(plan.send(heard))
        except StopIteration as end:
            value: T = end.value
            return value
        finally:
            plan.close()
            self.leave_turn()

    async def enter(self, wait: float) -> None:
        """Begins a call, once no other call is under way. Those that wait go in turn."""
        if not self.is_running:
            self.is_running = True
            return
        if wait <= 0:
            raise Unanswered(BESIDE)
        turn: asyncio.Future[None] = asyncio.get_running_loop().create_future()
        self.turns.append(turn)
        try:
            async with asyncio.timeout(wait):
                await turn
        except BaseException as error:
            if turn in self.turns:
                self.turns.remove(turn)
            elif turn.done() and not turn.cancelled():
                self.leave_turn()
            if isinstance(error, TimeoutError):
                raise Unanswered(BESIDE) from None
            raise

    def leave_turn(self) -> None:
        """Ends a call: the next one that waits goes on."""
        while self.turns:
            turn = self.turns.popleft()
            if not turn.done() and not turn.get_loop().is_closed():
                turn.set_result(None)
                return
        self.is_running = False

    async def perform(self, effect: Effect) -> Datagram | None:
        """Does what a plan yields."""
        if isinstance(effect, Listen):
            return await self.receive(effect.until)
        if isinstance(effect, Send):
            with contextlib.suppress(OSError):
                self.socket.sendto(effect.data, address_of(effect.port))
        elif isinstance(effect, Sleep):
            await asyncio.sleep(effect.seconds)
        return None

    async def receive(self, until: float) -> Datagram | None:
        """The next datagram that comes by then."""
        while (left := until - self.core.clock()) > 0:
            try:
                data, (address, port, *_) = self.socket.recvfrom(LONGEST)
                return Datagram(data, endpoint_at(address, port))
            except BlockingIOError:
                await self.readable(left)
            except OSError:
                self.numbers.check()
                await asyncio.sleep(min(0.01, left))
        return None

    async def readable(self, seconds: float) -> None:
        """Waits until a datagram is there, at most so long. It is read after that, so a cancellation loses none."""
        loop, number = asyncio.get_running_loop(), self.socket.fileno()
        ready: asyncio.Future[None] = loop.create_future()

        def stop() -> None:
            self.stop_reading = None
            loop.remove_reader(number)
            if not ready.done():
                ready.set_result(None)

        self.stop_reading = stop
        loop.add_reader(number, stop)
        try:
            async with asyncio.timeout(seconds):
                await ready
        except TimeoutError:
            pass
        finally:
            if self.stop_reading is stop:
                stop()
