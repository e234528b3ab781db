"""Plans: what a client does, as a generator that yields each step."""
from collections.abc import Callable, Generator
from typing import Any, NamedTuple, TypeVar

from .endpoints import Endpoint
from .wire import Answer, Op


class Datagram(NamedTuple):
    """Bytes that came, and the endpoint they came from."""

    data: bytes
    port: Endpoint


class Send(NamedTuple):
    """These bytes go to that endpoint."""

    data: bytes
    port: Endpoint


class Listen(NamedTuple):
    """The plan goes on with the next datagram, or with None at that time of its clock."""

    until: float


class Sleep(NamedTuple):
    """The plan goes on after so many seconds."""

    seconds: float


Effect = Send | Listen | Sleep
T = TypeVar("T")
Plan = Generator[Effect, Datagram | None, T]
Made = Callable[[str, Answer], Any]


class Request(NamedTuple):
    """A request that has no answer yet: its number, what it asks, and what makes a result of its answer."""

    number: int
    op: Op
    made: Made


class Mark:
    """What a call has asked: `before` is the last request before it, `request` its own last one, once it has ended."""

    def __init__(self) -> None:
        self.has_begun = False
        self.before: Request | None = None
        self.request: Request | None = None


class Grant(NamedTuple):
    """A fence, and the number of the request that was granted it."""

    fence: int
    number: int
