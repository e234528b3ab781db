"""What an answer gives to a caller: a value, or a refusal that is raised."""
from collections.abc import Callable
from typing import Any, NamedTuple

from .errors import Bad, Busy, Full, Last, NoRoom, NotHeld, NotMember, OtherAnswer, Spent, Used
from .wire import Answer


class Free(NamedTuple):
    """Nobody holds the name; `fence` is its last one, 0 if it was never granted."""

    fence: int


class Held(NamedTuple):
    """The client `holder` holds the name at `fence`."""

    holder: int
    fence: int


class HeldShared(NamedTuple):
    """So many clients share the name at `fence`."""

    holders: int
    fence: int


RESULTS: dict[str, Callable[..., Any]] = {
    "granted": int,
    "shared": int,
    "released": lambda: None,
    "free": Free,
    "held": Held,
    "held shared": HeldShared,
    "valid": lambda: True,
    "broken": lambda: True,
    "stale": lambda: False,
    "joined": lambda: None,
    "left": lambda: None,
    "raised": lambda: True,
    "already raised": lambda: False,
}
REFUSALS: dict[str, Callable[..., Exception]] = {
    "busy": Busy,
    "not held": NotHeld,
    "no room": NoRoom,
    "bad": Bad,
    "spent": Spent,
    "used": Used,
    "full": Full,
    "not a member": NotMember,
    "last": Last,
}

FAILING = {*REFUSALS, "stale"}  # the answers by which nothing was granted, changed or confirmed

# What may be answered to each word.
ANSWERED = {
    "acquire": ("granted", "busy", "no room", "spent", "bad"),
    "share": ("shared", "busy", "no room", "spent", "bad"),
    "release": ("released", "not held", "bad"),
    "ask": ("free", "held", "held shared", "bad"),
    "check": ("valid", "stale", "bad"),
    "break": ("broken", "stale", "bad"),
    "join": ("joined", "used", "full"),
    "leave": ("left", "not a member", "last"),
    "raise": ("raised", "already raised"),
}


def fitting(word: str, answer: Answer) -> Answer:
    """The answer, if it can be one to that word."""
    if answer.text not in ANSWERED[word]:
        raise OtherAnswer(answer.text, word)
    return answer


def result(word: str, answer: Answer) -> Any:
    """What a caller gets for an answer to that word; a refusal is raised."""
    fitting(word, answer)
    if answer.text in REFUSALS:
        raise REFUSALS[answer.text](*answer.fields)
    return RESULTS[answer.text](*answer.fields)
