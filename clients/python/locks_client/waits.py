"""How long a client waits before it sends again, and before it asks again for a lock that is held."""
import itertools
import math
import random
from collections.abc import Iterator

WAITS = (0.5, 1.0, 2.0, 4.0)  # seconds between two sends of the same bytes; the last one again and again
POLLS = (0.05, 0.1, 0.2, 0.4, *[0.8] * 30, 1.6, 3.2)  # seconds between two requests for a lock that one holder keeps
WITH_PLACE = 60.0  # the same while a node keeps the client's place: it tells when the lock is free
SCATTER = (0.75, 1.25)  # what a wait is multiplied by, at random


def seconds_of(value: float, what: str) -> float:
    """The value, if it is a number of seconds; infinity is one."""
    if not isinstance(value, (int, float)):
        raise TypeError(f"invalid {what} {value!r}: must be a number of seconds")
    if math.isnan(value):
        raise ValueError(f"invalid {what} {value!r}: must be a number of seconds")
    return value


def wait_of(wait: float, blocking: bool | None) -> float:
    """How long a call waits for a lock: as `wait` says, for ever if it is `blocking`, not at all if it is not."""
    if blocking is None:
        return seconds_of(wait, "wait")
    if not blocking and 0 < wait < math.inf:
        raise ValueError(f"wait={wait!r} and blocking=False exclude each other: give one of them")
    return seconds_of(wait or math.inf, "wait") if blocking else 0.0


def scattered(seconds: float) -> float:
    """The seconds made longer or shorter at random, so that clients do not ask in step."""
    return seconds * random.uniform(*SCATTER)


def waits() -> Iterator[float]:
    """Seconds to wait for a reply, one after the other."""
    for wait in itertools.chain(WAITS, itertools.repeat(WAITS[-1])):
        yield scattered(wait)


class Polls:
    """Seconds to wait for a lock. They stay below one while the holder changes, and grow while one holder keeps it."""

    def __init__(self) -> None:
        self.index, self.fence = 0, 0

    def after(self, fence: int) -> float:
        """The next wait, where the lock is now held at that fence."""
        self.index = min(self.index + 1, len(POLLS) - 1) if fence == self.fence else 0
        self.fence = fence
        return scattered(POLLS[self.index])
