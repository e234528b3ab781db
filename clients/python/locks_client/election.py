"""Elections: one client leads, the others wait, and take over once its heart stands still."""
import contextlib
import math
import random
from collections.abc import AsyncIterator, Callable, Iterator
from typing import TYPE_CHECKING

from .calls import CHECK_TIME, Calls
from .errors import Busy, NoAnswer
from .plans import Plan, Sleep
from .results import Held, result
from .waits import seconds_of, wait_of
from .watch import Watch
from .wire import name_bytes, table_op

if TYPE_CHECKING:
    from .asynchronous import AsyncClient
    from .client import Client

Told = Callable[[str, int], object]


class Candidate:
    """The plans of a candidate. The leader holds the name; the fence of NAME/b, its pulse, moves with each beat."""

    def __init__(self, core: Calls, name: str, beat: float, dead: float) -> None:
        self.core, self.name, self.pulse = core, name, name + "/b"
        name_bytes(self.pulse)
        if not 0 < seconds_of(beat, "beat") < seconds_of(dead, "dead"):
            raise ValueError(f"invalid beat {beat!r} and dead {dead!r}: must be 0 < beat < dead, in seconds")
        self.every, self.dead = beat, dead

    def campaign(self, wait: float) -> Plan[int]:
        """Acquires the name, or breaks the lock of a leader whose pulse has stood still. The fence."""
        core, end, seen, since = self.core, self.core.clock() + wait, (0, 0), self.core.clock()
        yield from core.settle(self.name)
        dead = self.dead + random.uniform(0.0, self.every)  # so that not all break at once
        while True:
            try:
                return (yield from core.poll("acquire", self.name, 0.0))
            except Busy as busy:
                leading, left = busy.fence, end - core.clock()
                if left <= 0:
                    raise
            now = (leading, (yield from core.ask(self.pulse)).fence)
            if now != seen:
                seen, since = now, core.clock()
            elif core.clock() - since >= dead:
                yield from core.request(table_op("break", self.name, leading))
                continue
            yield Sleep(min(self.every / 2, left))

    def beat(self, name: str, fence: int) -> Plan[bool]:
        """Moves the pulse. Whether this client still leads, so far as an answer came."""
        core = self.core
        if core.open:
            return True
        last = core.last
        try:
            yield from self.move(core)
        except NoAnswer:
            return True
        finally:
            core.open, core.last = None, last
            core.grants.pop(self.pulse, None)
        return (yield from core.is_valid(name, fence))

    def move(self, core: Calls) -> Plan[None]:
        """Acquires the pulse and releases it. One that a former beat has left held is broken instead."""
        end = core.clock() + CHECK_TIME
        try:
            fence: int = yield from core.request(table_op("acquire", self.pulse), result, end)
        except Busy as busy:
            yield from core.request(table_op("break", self.pulse, busy.fence), result, end)
        else:
            yield from core.request(table_op("release", self.pulse, fence), result, end)


class Election:
    """Elects one of the clients that call `lead` with the same name, in a raised table.

    The leader acquires the name, and each `beat` seconds acquires and releases NAME/b, whose fence is its heartbeat. A
    candidate that sees this fence stand still for `dead` seconds breaks the leader's lock. A leader that was only slow
    may still work then, so pass the fence with each write: the resource rejects a smaller one. Give each candidate a
    client of its own, of which it makes only short calls while it leads.
    """

    def __init__(self, client: "Client", name: str, beat: float = 0.5, dead: float = 2.0) -> None:
        self.client, self.candidate = client, Candidate(client.core, name, beat, dead)

    @contextlib.contextmanager
    def lead(
        self, wait: float = math.inf, blocking: bool | None = None, on_deposed: Told | None = None
    ) -> Iterator[int]:
        """Context manager: leads while the block runs, and yields the fence since which it does.

        on_deposed: called once, from a thread of its own, with the name and the fence, after the first beat by which
        this client does not lead any more. Then the end of the block raises NotHeld. Busy if another client still leads
        after `wait` seconds.
        """
        it = self.candidate
        plan = it.campaign(wait_of(wait, blocking))
        with self.client.holding(it.name, plan, Watch(it.beat, on_deposed, it.every)) as fence:
            yield fence

    def leader(self) -> Held | None:
        """Who leads, and since which fence; None if nobody does."""
        found = self.client.ask(self.candidate.name)
        return found if isinstance(found, Held) else None


class AsyncElection:
    """The same for asyncio. Other tasks use clients of their own."""

    def __init__(self, client: "AsyncClient", name: str, beat: float = 0.5, dead: float = 2.0) -> None:
        self.client, self.candidate = client, Candidate(client.core, name, beat, dead)

    @contextlib.asynccontextmanager
    async def lead(
        self, wait: float = math.inf, blocking: bool | None = None, on_deposed: Told | None = None
    ) -> AsyncIterator[int]:
        """Context manager: leads while the block runs, as `Election.lead` does. A task calls `on_deposed`."""
        it = self.candidate
        plan = it.campaign(wait_of(wait, blocking))
        async with self.client.holding(it.name, plan, Watch(it.beat, on_deposed, it.every)) as fence:
            yield fence

    async def leader(self) -> Held | None:
        """Who leads, and since which fence; None if nobody does."""
        found = await self.client.ask(self.candidate.name)
        return found if isinstance(found, Held) else None
