"""A thread that watches what a blocking client holds."""
import contextlib
import logging
import threading
from collections.abc import Callable, Iterator
from typing import TYPE_CHECKING, NamedTuple

from .errors import Closed, Forked, LocksError, Passed
from .plans import Plan

if TYPE_CHECKING:
    from .client import Client

ENDING = (Closed, Forked, Passed)  # errors after which no later step can succeed

log = logging.getLogger("locks_client")


class Watch(NamedTuple):
    """What is done for a lock while it is held.

    step: the plan of a name and a fence that is carried out again and again; its result is whether the lock is held.
    lost: called with both after the first step by which it is not. every: seconds between two steps.
    """

    step: Callable[[str, int], Plan[bool]]
    lost: Callable[[str, int], object] | None
    every: float


@contextlib.contextmanager
def watching(client: "Client", name: str, fence: int, watch: Watch) -> Iterator[None]:
    """Watches in a thread while the block runs. Nothing is called any more once it ends."""
    over = threading.Event()
    try:
        threading.Thread(target=run_watch, args=(client, name, fence, watch, over), daemon=True).start()
        yield
    finally:
        over.set()


def run_watch(client: "Client", name: str, fence: int, watch: Watch, over: threading.Event) -> None:
    """Keeps the watch. Other calls wait for its own until it has ended."""
    client.watches.add(over)
    try:
        keep_watch(client, name, fence, watch, over)
    finally:
        client.watches.discard(over)


def keep_watch(client: "Client", name: str, fence: int, watch: Watch, over: threading.Event) -> None:
    """Carries the steps out until one says that the lock is lost, or until it is over."""
    while not over.wait(watch.every):
        try:
            if client.run(step(name, fence, watch, over), client.patience) or over.is_set():
                continue
        except ENDING as error:
            if not over.is_set():
                log.warning("%s at fence %d is not watched any more: %s", name, fence, error)
            return
        except LocksError as error:
            log.debug("%s at fence %d could not be checked: %s", name, fence, error)
            continue
        tell_lost(name, fence, watch)
        return


def step(name: str, fence: int, watch: Watch, over: threading.Event) -> Plan[bool]:
    """The step, unless it is over once its turn has come."""
    return True if over.is_set() else (yield from watch.step(name, fence))


def tell_lost(name: str, fence: int, watch: Watch) -> None:
    """Calls back, and logs that."""
    log.warning("%s is no longer held at fence %d", name, fence)
    try:
        if watch.lost:
            watch.lost(name, fence)
    except Exception:
        log.exception("what was to be called for the loss of %s failed", name)
