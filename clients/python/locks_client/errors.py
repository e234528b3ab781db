"""All errors that the client raises. Each can be pickled and copied.

An error of a request knows what was asked: `word`, `name`, `asked_fence` and `number` of the request, the `client`, and
whether it was sent. Its text begins with what `locks ask` prints, which is `brief`, and goes on with the remedy.
"""
from .wire import MAX_NUMBER, Op

STEP = 1_000_000  # how far above the last number that is known a client should go on


class LocksError(Exception):
    """Base class of all errors raised here."""

    word, name, asked_fence, number, client, is_sent = "", "", 0, 0, 0, False

    def about(self, op: Op, number: int, client: int, is_sent: bool) -> None:
        """Notes what was asked, unless that is known already."""
        if not self.word:
            self.word, self.name, self.asked_fence = op.word, op.name, op.fence
            self.number, self.client, self.is_sent = number, client, is_sent

    @property
    def brief(self) -> str:
        """The text without what can be done about it."""
        return super().__str__()

    @property
    def asked(self) -> str:
        """What was asked, as `the release of db at fence 3`."""
        fence = f" at fence {self.asked_fence}" if self.asked_fence else ""
        return f"the {self.word or 'request'}" + (f" of {self.name}" if self.name else "") + fence

    @property
    def fate(self) -> str:
        """What is known of a request that has no answer."""
        if self.word and not self.is_sent:
            return f"{self.asked} was not sent"
        return f"{self.asked} may have taken effect, or still may"

    @property
    def remedy(self) -> str:
        """What can be done about it; empty if the text says it."""
        return ""

    def __str__(self) -> str:
        return f"{self.brief}: {self.remedy}" if self.remedy else self.brief


class NoAnswer(LocksError):
    """No answer came in time. The request may have taken effect, or still may: `again` asks for its answer."""

    hint = ""  # why no answer may have come

    def __init__(self, text: str = "no answer") -> None:
        super().__init__(text)

    @property
    def remedy(self) -> str:
        """How to learn what became of the request."""
        give_back = f", withdraw({self.name!r})" if self.word in ("acquire", "share") else ""
        return f"{self.fate}; call again(){give_back} or give_up()" + (f"; {self.hint}" if self.hint else "")


class Unknown(NoAnswer):
    """Whether an earlier acquire of a name was granted cannot be known. The text says how to free the name."""

    def __init__(self, text: str = "it is unknown whether the name was granted") -> None:
        super().__init__(text)

    @property
    def remedy(self) -> str:
        """The text says it."""
        return ""


class Unanswered(LocksError):
    """An earlier request has no answer yet, or another call is under way. The text says which."""

    def __init__(self, text: str = "the last request has no answer yet: call again(), withdraw() or give_up()") -> None:
        super().__init__(text)


class Misnumbered(LocksError):
    """Base class of Passed and OtherAnswer: the number of a request does not lie above all that its client used."""

    last = 0  # the greatest number of the client that is known to be used

    @property
    def cause(self) -> str:
        """Why that may be, and what is known of the request."""
        return self.fate

    @property
    def next_number(self) -> int | None:
        """A number to go on with; None if the client number can ask nothing any more."""
        number = max(self.last, self.number) + STEP
        return number if number <= MAX_NUMBER else None

    @property
    def way_on(self) -> str:
        """How the client goes on."""
        if self.next_number is None:
            return "no number above it may be sent: use another client number"
        return f"continue above it: skip_to({self.next_number}), or first={self.next_number} in a new run"


class Passed(Misnumbered):
    """A request of this client with the greater number `last` was executed before.

    Either another process uses the client number, or the last number was lost, or a clock was set back. Unless another
    process uses it, `skip_to` a number above all that were used; `next_number` is one.
    """

    def __init__(self, last: int) -> None:
        super().__init__(last)
        self.last = last

    @property
    def brief(self) -> str:
        """The text without what can be done about it."""
        return f"passed {self.last}"

    @property
    def cause(self) -> str:
        """Why that may be, and what is known of the request."""
        fate = self.fate if not self.is_sent else f"whether {self.asked} took effect is unknown"
        who = f"client number {self.client}" if self.client else "the client number"
        return f"{fate}; another process uses {who}, or its last number was lost or a clock set back"

    @property
    def remedy(self) -> str:
        """Why that may be, and how the client goes on."""
        return f"{self.cause}; if no other process does, {self.way_on}"


class OtherAnswer(Misnumbered):
    """The answer does not fit the request: its number was used before, for another request. It is not believed."""

    def __init__(self, answer: str, word: str) -> None:
        super().__init__(answer, word)
        self.answer, self.answered = answer, word

    @property
    def brief(self) -> str:
        """The text without what can be done about it."""
        return f"{self.answer}, to {self.answered}: this number was used before"

    @property
    def cause(self) -> str:
        """Why that may be, and what is known of the request."""
        why = "an old state file was put back, a first number given twice, or another process uses the client number"
        fate = f"the answer to {self.asked} is not believed" if self.is_sent else self.fate
        return f"{why}; {fate}"

    @property
    def remedy(self) -> str:
        """Why that may be, and how the client goes on."""
        return f"{self.cause}; if no other process does, {self.way_on}" if self.number else ""


class Forked(LocksError):
    """The client was opened in another process. A forked child opens a client of its own, with another number."""

    def __init__(self, opened: int, here: int) -> None:
        super().__init__(opened, here)
        self.opened, self.here = opened, here

    @property
    def brief(self) -> str:
        """The text."""
        where = f"this client was opened in process {self.opened}, not in {self.here}"
        return f"{where}: open one with another client number"


class Closed(LocksError):
    """The client was closed: another process may use its number by now."""

    def __init__(self, text: str = "this client is closed: open a new one") -> None:
        super().__init__(text)


class StateError(LocksError):
    """The state file cannot be used. The text names the path and the remedy."""

    def __init__(self, path: str, problem: str) -> None:
        super().__init__(path, problem)
        self.path, self.problem = path, problem

    @property
    def brief(self) -> str:
        """The text."""
        return f"state file {self.path}: {self.problem}"


class InUse(StateError):
    """Another client has the state file open, and so uses the client number."""

    def __init__(self, path: str, problem: str = "another client uses it; give each one a file of its own") -> None:
        super().__init__(path, problem)


class Changed(StateError):
    """Another program has written a greater number into the state file since this client opened it."""

    def __init__(
        self, path: str, problem: str = "another program has written it; end that one, and open it again"
    ) -> None:
        super().__init__(path, problem)


class OutOfNumbers(LocksError):
    """The numbers of this client are used up. Use another client number."""

    def __init__(self, text: str = "the numbers of this client are used up: use another client number") -> None:
        super().__init__(text)


class Refused(LocksError):
    """Base class of the refusals by the service."""

    text = "refused"

    @property
    def brief(self) -> str:
        """The text without what can be done about it."""
        return self.text


class Busy(Refused):
    """A client holds the name, maybe this client itself. Of those who share it, `holder` is the least."""

    def __init__(self, holder: int, fence: int) -> None:
        super().__init__(holder, fence)
        self.holder, self.fence = holder, fence

    @property
    def brief(self) -> str:
        """The text without what can be done about it."""
        return f"busy {self.holder} {self.fence}"

    @property
    def remedy(self) -> str:
        """Who holds the name, and how it may become free."""
        if not self.name:
            return ""
        if self.holder == self.client:
            who = f"client {self.client} holds {self.name} itself, by another call or an earlier run"
            return f"{who}; once nothing of that runs, release({self.name!r}, {self.fence}) frees it"
        free = f"break_lock({self.name!r}, {self.fence}) frees it once its work is known to have ended"
        return f"client {self.holder} holds {self.name} at fence {self.fence}; give a longer wait, or {free}"


class NotHeld(Refused):
    """This client did not hold the name at that fence."""

    text = "not held"

    @property
    def remedy(self) -> str:
        """Why that may be."""
        if not self.name:
            return ""
        who = f"client {self.client} does not hold {self.name} at fence {self.asked_fence}"
        return f"{who}; it was released or broken before: end all work that uses that fence"


class NoRoom(Refused):
    """The table is full of other names."""

    text = "no room"

    @property
    def remedy(self) -> str:
        """Which name can be granted."""
        return f"{self.asked} needs a place, and the table has 512 other names, which stay: use one of them"


class Bad(Refused):
    """The table does not know the request: it was not raised yet."""

    text = "bad"

    @property
    def remedy(self) -> str:
        """What the request needs."""
        return f"{self.asked} needs a raised table: call raise_table() once for the cluster"


class Spent(Refused):
    """The fences of this name are used up."""

    text = "spent"

    @property
    def remedy(self) -> str:
        """Which name can be granted."""
        return f"the fence of {self.name or 'this name'} is 2^48, so it is never granted again: use another name"


class Used(Refused):
    """A member has or had this node number, or a greater one."""

    text = "used"

    @property
    def remedy(self) -> str:
        """Which number helps."""
        return "a member has or had this node number or a greater one: take a still greater one"


class Full(Refused):
    """The cluster has as many members as it can have."""

    text = "full"

    @property
    def remedy(self) -> str:
        """What has to go first."""
        return "the cluster has 7 members: let one leave first"


class NotMember(Refused):
    """The node is not a member."""

    text = "not a member"

    @property
    def remedy(self) -> str:
        """How to see the members."""
        return "this node is no member, so nothing changed; `locks status` prints the members"


class Last(Refused):
    """The node is the only member, and stays."""

    text = "last"

    @property
    def remedy(self) -> str:
        """What has to come first."""
        return "this node is the only member and stays: let another one join first"
