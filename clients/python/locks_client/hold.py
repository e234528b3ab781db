"""Runs a command while a lock is held."""
import contextlib
import ctypes
import os
import signal
import subprocess
import sys
from collections.abc import Callable, Iterator

from .calls import ANSWER_TIME
from .client import Client
from .core import GRANTING
from .errors import Bad, Busy, LocksError, Misnumbered, NoAnswer
from .statuses import CANNOT_START, NOT_FOUND, NOT_RELEASED, SIGNAL, status_of

# What is forwarded to the command, and what wakes whoever waits for it.
FORWARDED = {signal.SIGHUP, signal.SIGINT, signal.SIGQUIT, signal.SIGTERM, signal.SIGUSR1, signal.SIGUSR2}
AWAITED = FORWARDED | {signal.SIGCHLD}
LAST_TRY = 1.0  # seconds for a withdrawal or a release after a signal has ended it
FROM_TERMINAL = 0x80  # the code of a signal that the kernel sends of itself
PR_SET_PDEATHSIG = 1  # of prctl(2), on Linux


class Stopped(Exception):
    """A signal came that ends the wait for an answer."""

    def __init__(self, number: int) -> None:
        super().__init__(f"stopped by signal {number}")
        self.number = number


def tell(text: str) -> None:
    """Prints a line on standard error, if anybody reads it."""
    with contextlib.suppress(OSError, ValueError):
        print(text, file=sys.stderr, flush=True)


class Signals:
    """What a signal does that would end the process: in a block of `raising` it raises Stopped, once, and elsewhere it
    waits for the next such block. So none comes between what is tried and what is done about it."""

    def __init__(self) -> None:
        self.is_raising, self.waiting = False, 0

    def stop(self, number: int, _: object) -> None:
        """Handles a signal."""
        if not self.is_raising:
            self.waiting = number
            return
        self.is_raising = False
        raise Stopped(number)

    @contextlib.contextmanager
    def raising(self) -> Iterator[None]:
        """In the block of this `with` a signal raises Stopped, also one that has waited for it."""
        self.is_raising = True
        try:
            if self.waiting:
                number, self.waiting = self.waiting, 0
                self.stop(number, None)
            yield
        finally:
            self.is_raising = False


@contextlib.contextmanager
def stopping() -> Iterator[Signals]:
    """In the block of this `with` no signal ends the process, but by Stopped in a block of `raising`."""
    signals = Signals()
    before = {number: signal.getsignal(number) for number in FORWARDED}
    for number, handler in before.items():
        if handler != signal.SIG_IGN:
            signal.signal(number, signals.stop)
    try:
        yield signals
    finally:
        for number, handler in before.items():
            signal.signal(number, handler)


def remedy(client: Client, name: str) -> str:
    """How to free a lock that this client may hold."""
    who = f"client {client.client}"
    return f"`ask {name}` tells whether {who} holds it at a fence F; `release {name} F`, as {who}, frees it"


def explained(client: Client, name: str, error: LocksError) -> str:
    """The error of an acquire, and what can be done about it."""
    if isinstance(error, Busy):
        if error.holder != client.client:
            return f"{error.brief}: client {error.holder} holds {name} at fence {error.fence}"
        free = f"`release {name} {error.fence}` with client number {client.client} frees it"
        return f"{error.brief}: an earlier run of this client holds {name}; once nothing of that runs, {free}"
    if isinstance(error, NoAnswer):
        return f"{error.brief}: {fate(client, error)}"
    if isinstance(error, Misnumbered):
        return f"{error.brief}: {error.cause}; if no other process does, {way_on(error)}{doubt(client, error)}"
    if isinstance(error, Bad):
        return f"{error.brief}: {error.asked} needs a raised table; `raise 2` raises it, once for the cluster"
    return str(error)


def fate(client: Client, error: NoAnswer) -> str:
    """What became of a request without an answer, and how to free what it may be granted."""
    if error.is_sent and error.word in GRANTING:
        return f"{error.asked} may still take effect; {remedy(client, error.name)}"
    return error.fate


def way_on(error: Misnumbered) -> str:
    """How a client goes on whose number is not above all that it used."""
    return f"give --first {error.next_number}" if error.next_number else "use another client number"


def doubt(client: Client, error: Misnumbered) -> str:
    """How to free what a request may have been granted whose answer is no longer kept."""
    return f"; {remedy(client, error.name)}" if error.is_sent and error.word in GRANTING else ""


def tried(plan: Callable[[], object]) -> str:
    """Calls it. Why it failed; empty if it did not."""
    try:
        plan()
    except LocksError as failed:
        return failed.brief
    except Stopped as stopped:
        return str(stopped)
    return ""


def tried_last(client: Client, plan: Callable[[], object]) -> str:
    """The same for a second at most, after a signal has ended an earlier try. Further signals wait."""
    signal.pthread_sigmask(signal.SIG_BLOCK, AWAITED)
    client.patience = LAST_TRY
    return tried(plan)


def withdrawn(client: Client, name: str, signals: Signals) -> None:
    """Gives up an acquire that a signal has ended. A failure is told, also after a second signal."""

    def withdraw() -> None:
        with signals.raising():
            client.withdraw(name)

    problem = tried(withdraw)
    if problem:
        problem = tried_last(client, lambda: client.withdraw(name))
    if problem:
        tell(f"{name} may stay held, or may still be granted: {problem}; {remedy(client, name)}")


def granted(client: Client, name: str, wait: float, signals: Signals) -> int:
    """Takes the lock, and gives its fence. Signals wait from then on. One that comes earlier gives the lock up."""
    client.patience = min(client.patience, wait + ANSWER_TIME)
    try:
        with signals.raising():
            fence = client.acquire(name, wait)
            signal.pthread_sigmask(signal.SIG_BLOCK, AWAITED)
        return fence
    except Stopped:
        withdrawn(client, name, signals)
        raise


def prepared(parent: int) -> None:
    """In the child, before the command: it dies with its parent, if the system can do that, and takes signals again."""
    if LIBRARY is not None:
        LIBRARY.prctl(PR_SET_PDEATHSIG, signal.SIGKILL)
        if os.getppid() != parent:
            os.kill(os.getpid(), signal.SIGKILL)
    signal.pthread_sigmask(signal.SIG_UNBLOCK, AWAITED)


# Loaded before any fork, since a child may load nothing.
LIBRARY = ctypes.CDLL(None) if sys.platform == "linux" else None


def run_with(command: list[str], fence: int) -> int:
    """Runs a command with the fence in its environment. Its status, or that of a shell where it cannot be started."""
    known, parent = os.environ | {"LOCKS_FENCE": str(fence)}, os.getpid()
    try:
        process = subprocess.Popen(command, env=known, preexec_fn=lambda: prepared(parent))
    except (OSError, ValueError, subprocess.SubprocessError) as error:
        tell(f"{command[0]}: {error}")
        return NOT_FOUND if isinstance(error, FileNotFoundError) else CANNOT_START
    return forwarding(process)


def forwarding(process: subprocess.Popen[bytes]) -> int:
    """Forwards signals to a process until it ends. Its status, or 128 and the number of the signal that ended it."""
    while process.poll() is None:
        came = signal.sigwaitinfo(AWAITED)
        # The terminal sends its signals to the command too.
        if came.si_signo in FORWARDED and came.si_code != FROM_TERMINAL:
            process.send_signal(came.si_signo)
    return process.returncode if process.returncode >= 0 else SIGNAL - process.returncode


def take_pending() -> None:
    """Drops signals that came as the command ended: they were meant for it."""
    while signal.sigtimedwait(AWAITED, 0):
        pass


def released(client: Client, name: str, fence: int, seconds: float) -> str:
    """Gives the lock back, and asks for so many seconds. Why it is not known to be released; empty if it is."""
    take_pending()
    client.patience = seconds
    with stopping() as signals:
        try:
            with signals.raising():
                signal.pthread_sigmask(signal.SIG_UNBLOCK, AWAITED)
                client.release(name, fence)
            return ""
        except LocksError as error:
            return error.brief
        except Stopped as stopped:
            problem = tried_last(client, lambda: client.run(client.core.give_back(name, fence)))
            return problem and f"{stopped}, then {problem}"


def hold(client: Client, name: str, command: list[str], wait: float, release_wait: float) -> int:
    """Runs a command while it holds a lock. The status, as `statuses.TABLE` has it."""
    signal.signal(signal.SIGCHLD, signal.SIG_DFL)  # a parent that ignores it would hide the command's end
    try:
        with stopping() as signals:
            fence = granted(client, name, wait, signals)
    except Stopped as stopped:
        return SIGNAL + stopped.number
    except LocksError as error:
        tell(explained(client, name, error))
        return status_of(error)
    status = run_with(command, fence)
    problem = released(client, name, fence, release_wait)
    if not problem:
        return status
    tell(f"{name} was not released at {fence}: {problem}; the command's status was {status}; {remedy(client, name)}")
    return NOT_RELEASED
