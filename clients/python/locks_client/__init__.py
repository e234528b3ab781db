"""A client of `locks`, a replicated lock service, by docs/WIRE.md and the standard library alone.

    with Client(cluster=5, client=7, ports=[7001, 7002, 7003], first=milliseconds()) as client:
        with client.lock("db") as fence:
            write(..., fence)

Pass the fence with each write to the resource that the lock guards: the resource refuses a write with a smaller fence
than it has seen, and so a late one of a holder that lost the lock.

A client number belongs to one client alone, and each request has a number greater than all before. So a client is told
where its numbers go on: by `state`, a file that keeps them, or by `first`, the number of its first request.

`AsyncClient` is the same client for asyncio. `Election` and `AsyncElection` elect one of several clients.
`python -m locks_client` is the program; `--help` lists its options.
"""
import logging
from typing import TYPE_CHECKING

from .client import Client
from .election import AsyncElection, Election
from .errors import (
    Bad,
    Busy,
    Changed,
    Closed,
    Forked,
    Full,
    InUse,
    Last,
    LocksError,
    Misnumbered,
    NoAnswer,
    NoRoom,
    NotHeld,
    NotMember,
    OtherAnswer,
    OutOfNumbers,
    Passed,
    Refused,
    Spent,
    StateError,
    Unanswered,
    Unknown,
    Used,
)
from .numbers import milliseconds
from .results import Free, Held, HeldShared
from .wire import Answer

__version__ = "0.5.0"

__all__ = [
    "Answer",
    "AsyncClient",
    "AsyncElection",
    "Bad",
    "Busy",
    "Changed",
    "Client",
    "Closed",
    "Election",
    "Forked",
    "Free",
    "Full",
    "Held",
    "HeldShared",
    "InUse",
    "Last",
    "LocksError",
    "Misnumbered",
    "NoAnswer",
    "NoRoom",
    "NotHeld",
    "NotMember",
    "OtherAnswer",
    "OutOfNumbers",
    "Passed",
    "Refused",
    "Spent",
    "StateError",
    "Unanswered",
    "Unknown",
    "Used",
    "milliseconds",
]

logging.getLogger("locks_client").addHandler(logging.NullHandler())

if TYPE_CHECKING:
    from .asynchronous import AsyncClient
else:

    def __getattr__(name):
        """Loads AsyncClient where it is used first: asyncio costs a program that holds a lock a third of its start."""
        if name == "AsyncClient":
            from .asynchronous import AsyncClient

            return AsyncClient
        raise AttributeError(f"module {__name__!r} has no attribute {name!r}")
