"""Numbers of requests, each greater than all before, also after a restart if a file keeps them."""
import contextlib
import fcntl
import logging
import os
import time
from collections.abc import Iterator
from typing import TextIO

from .errors import Changed, Closed, Forked, InUse, OutOfNumbers, StateError
from .wire import MAX_NUMBER, ranged

BLOCK = 1_000  # numbers that one write of the file reserves
SPARE = 16  # reserved numbers that only a release takes, so that a full disk cannot keep it from being sent

NEW = "begin with a first number above all that this client used, as `--first $(date +%s%3N)`"

log = logging.getLogger("locks_client")


def milliseconds() -> int:
    """The milliseconds since 1970: a first number above all that a client used that begins so each time.

    That holds while the clock is not set back and the client uses less than a thousand numbers a second.
    """
    return time.time_ns() // 1_000_000


class State:
    """A file that keeps one number, and a file beside it that one process alone has locked."""

    def __init__(self, path: str | os.PathLike[str]) -> None:
        self.path = os.path.realpath(path)
        self.lock: TextIO | None = None
        self.process = os.getpid()
        self.greatest = 0  # of the numbers that this process has read or written

    def take(self) -> None:
        """Locks the file beside it, as long as this process uses the number."""
        with self.explained():
            file = open(self.path + ".lock", "w", encoding="ascii")
            try:
                fcntl.flock(file, fcntl.LOCK_EX | fcntl.LOCK_NB)
            except BlockingIOError:
                file.close()
                raise InUse(self.path) from None
        self.lock = file

    @contextlib.contextmanager
    def explained(self) -> Iterator[None]:
        """Names the path where a call of the system fails."""
        try:
            yield
        except OSError as error:
            remedy = "see that its folder is there, may be written and has room"
            raise StateError(self.path, f"{error.strerror}; {remedy}") from error

    def read(self) -> int | None:
        """The number that the file keeps, or None if there is no file."""
        try:
            with self.explained(), open(self.path, "rb") as file:
                text = file.read(64)
                names = os.fstat(file.fileno()).st_nlink
        except StateError as error:
            if isinstance(error.__cause__, FileNotFoundError):
                return None
            raise
        if names > 1:
            raise StateError(self.path, "it has a second name (a hard link); remove that, and use one")
        return self.number_in(text)

    def begin(self) -> int:
        """The number that the file keeps once this process has locked it, 0 if there is no file."""
        self.greatest = self.read() or 0
        return self.greatest

    def keep(self, number: int) -> None:
        """Keeps a number, unless another program has kept a greater one meanwhile."""
        if (self.read() or 0) > self.greatest:
            raise Changed(self.path)
        self.greatest = max(self.greatest, number)
        self.write(number)

    def number_in(self, text: bytes) -> int:
        """The number that a line spells. A file that was cut has lost the end of its line."""
        digits = text[:-1]
        if not (text.endswith(b"\n") and digits.isdigit() and 1 <= int(digits) <= MAX_NUMBER):
            raise StateError(self.path, f"it keeps no number but {text[:32]!r}; remove it, and {NEW}")
        return int(digits)

    def write(self, number: int) -> None:
        """Writes a new file and puts it in place of the old one, so that one of the two is there after a stop."""
        new = self.path + ".new"
        with self.explained():
            with open(new, "w", encoding="ascii") as file:
                file.write(f"{number}\n")
                file.flush()
                os.fsync(file.fileno())
            os.replace(new, self.path)
            self.sync_folder()

    def sync_folder(self) -> None:
        """Makes the new name last."""
        folder = os.open(os.path.dirname(self.path), os.O_RDONLY)
        try:
            os.fsync(folder)
        finally:
            os.close(folder)

    def close(self) -> None:
        """Another process may use the file from now on. A forked child leaves the lock to its parent.

        Closing the lock's file is not enough while a process that is being started has a copy of its descriptor."""
        if self.lock and not self.lock.closed:
            if os.getpid() == self.process:
                fcntl.flock(self.lock, fcntl.LOCK_UN)
            self.lock.close()


class Numbers:
    """Numbers of requests, each greater than all before.

    first: the least number that is given. path: a file that keeps them over restarts; a file that is not there yet
    wants a first number too. One of the two has to be given. The file is written once for a block of numbers; `close`
    gives back those that were not used.
    """

    def __init__(self, first: int | None = None, path: str | os.PathLike[str] | None = None) -> None:
        if first is None and path is None:
            raise ValueError("neither a first number nor a state file is given")
        if first is not None:
            ranged(first, 1, MAX_NUMBER, "first number")
        self.process, self.is_closed = os.getpid(), False
        self.state = State(path) if path is not None else None
        self.kept = self.begun(self.state, first) if self.state else 0
        self.last = max(self.kept, (first or 1) - 1)

    def begun(self, state: State, first: int | None) -> int:
        """The number that the file keeps, 0 if there is none, once no other process uses it."""
        if state.read() is None and first is None:
            raise StateError(state.path, f"it is not there; if this client is new or the file was lost, {NEW}")
        state.take()
        try:
            return state.begin()
        except BaseException:
            state.close()
            raise

    def check(self) -> None:
        """Refuses in a forked child and after `close`: two processes must not ask with the same numbers."""
        if os.getpid() != self.process:
            raise Forked(self.process, os.getpid())
        if self.is_closed:
            raise Closed()

    def take(self, spare: int = 0) -> int:
        """The next number, after which so many more are reserved. It is kept on disk before it is given."""
        self.check()
        wanted = self.last + 1 + spare
        if wanted > MAX_NUMBER:
            raise OutOfNumbers()
        if self.state and wanted > self.kept:
            self.keep(min(self.last + max(BLOCK, 1 + spare), MAX_NUMBER))
        self.last += 1
        return self.last

    def keep(self, number: int) -> None:
        """Reserves the numbers up to this one."""
        if self.state:
            self.state.keep(number)
            self.kept = number

    def skip_to(self, number: int) -> None:
        """The next number is this one, or a greater one that is due. ValueError above 2^48 - 2^32."""
        self.last = max(self.last, ranged(number, 1, MAX_NUMBER, "number") - 1)

    def close(self) -> None:
        """Gives back the numbers that are reserved and not used, and lets another process use the file."""
        if not self.is_closed and os.getpid() == self.process and 0 < self.last < self.kept:
            self.give_back()
        self.close_file()

    def give_back(self) -> None:
        """Keeps the last number that was used. Where that fails, those that were reserved are skipped."""
        try:
            self.keep(self.last)
        except StateError as error:
            log.warning("reserved numbers are lost: %s", error)

    def close_file(self) -> None:
        """Closes this process' hold of the file."""
        self.is_closed = True
        if self.state:
            self.state.close()
