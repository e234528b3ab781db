"""The statuses of the program, in one table."""
from .errors import Busy, LocksError, Misnumbered, NoAnswer, StateError

REFUSED = 1  # of a single request with --fail
USAGE = 2
STATE = 120
BUSY = 121
PASSED = 122
NO_ANSWER = 123
NOT_RELEASED = 124
NOT_GRANTED = 125
CANNOT_START = 126
NOT_FOUND = 127
SIGNAL = 128
INTERRUPTED = SIGNAL + 2

TABLE = """\
  status  of a single request             of hold
  0       answered, also by a refusal     that of the command
  1       refused, with --fail            that of the command
  2       bad command line                bad command line
  120     the state file cannot be used   the same
  121                                     busy: not granted within --wait
  122     passed, or the number was used  the same
  123     no answer                       the same: the acquire may still take effect
  124                                     not released, or broken; the command's own status: on standard error
  125     other error of the client       not granted: no room, spent, or another error
  126                                     the command cannot be started
  127                                     the command is not found
  128+N                                   ended by signal N"""


def status_of(error: LocksError) -> int:
    """The status for an error of the client."""
    if isinstance(error, StateError):
        return STATE
    if isinstance(error, Busy):
        return BUSY
    if isinstance(error, Misnumbered):
        return PASSED
    return NO_ANSWER if isinstance(error, NoAnswer) else NOT_GRANTED
