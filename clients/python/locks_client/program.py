"""The program: one request and its answer, or a command that runs while a lock is held."""
import argparse
import itertools
import math
import sys

from . import __version__
from .client import Client
from .errors import LocksError, NoAnswer, Passed
from .hold import explained, hold, tell
from .endpoints import LOOPBACK, Endpoint
from .results import FAILING, fitting
from .statuses import INTERRUPTED, REFUSED, TABLE, status_of
from .wire import Op, op_of, table_op

OPS = """\
OP is: acquire NAME, release NAME FENCE, ask NAME, check NAME FENCE, share NAME, break NAME FENCE, raise 2,
join NODE PORT, leave NODE. Or: hold NAME -- COMMAND .., which runs COMMAND with the fence as LOCKS_FENCE while
it holds the lock, and releases it after. COMMAND is killed if hold is.

"""


def seconds(text: str) -> float:
    """A number of seconds, of a command line."""
    value = float(text)
    if not value >= 0:
        raise ValueError(text)
    return value


def arguments() -> argparse.ArgumentParser:
    """The command line."""
    parser = argparse.ArgumentParser(
        prog="locks-client",
        formatter_class=argparse.RawDescriptionHelpFormatter,
        description="Sends one request to a cluster of locks and prints its answer, or holds a lock for a command.",
        epilog=OPS + TABLE,
    )
    add = parser.add_argument
    add("--cluster", type=int, required=True, help="the number of the cluster")
    add("--version", action="version", version=f"%(prog)s {__version__}")
    add("--port", type=int, action="append", required=True, help="a node's port, or several; may be repeated")
    add("--address", action="append", help="the node's address, 127.0.0.1 if not given; one for all ports or one each")
    add("--hosts", help="a file of lines NODE ADDRESS: where each node lives")
    add("--key", "--client-key", help="the file of this client's key")
    add("--client", type=int, required=True, help="the number of this client, 1 to 256, used by nobody else")
    add("--first", "--request", type=int, help="the first number, above all that this client used, as $(date +%%s%%3N)")
    add("--state", help="a file that keeps the numbers; a new one wants --first too; one of the two is needed")
    add("--patience", type=seconds, default=10.0, metavar="S", help="seconds until there is no answer, 10 if not given")
    add("--no-notices", action="store_true", help="hold asks at intervals for a held lock, and sends no watches")
    add("--fail", action="store_true", help="status 1 where a single request is refused")
    add("--wait", type=seconds, default=math.inf, metavar="S", help="seconds that hold waits; for ever if not given")
    add("--release-wait", type=seconds, default=60.0, metavar="S", help="seconds that hold tries to release; 60")
    add("op", nargs="+", metavar="OP", help="the words of the request, or hold NAME -- COMMAND ..")
    return parser


def spread(words: list[str]) -> list[str]:
    """The words in which each port has an option of its own, as `--port 1 --port 2` for `--port 1 2`."""
    end = words.index("--") if "--" in words else len(words)
    spread_words, is_ports = [], False
    for before, word in zip(["", *words], words[:end]):
        is_ports = word.isdecimal() and (before == "--port" or is_ports)
        spread_words += ["--port", word] if is_ports and before != "--port" else [word]
    return spread_words + words[end:]


def endpoints_of(ports: list[int], addresses: list[str]) -> list[Endpoint]:
    """Each port at its address, or all at the one that is given."""
    if len(addresses) not in (1, len(ports)):
        raise ValueError("give one --address, or one for each --port")
    return list(zip(itertools.cycle(addresses), ports))


def ask_once(client: Client, op: Op, is_strict: bool) -> int:
    """Prints what an op is answered, as `locks ask` does. The status."""
    try:
        answer = fitting(op.word, client.request(op))
    except LocksError as error:
        if isinstance(error, (NoAnswer, Passed)):
            print(error.brief, flush=True)
        tell(explained(client, op.name, error))
        return status_of(error)
    print(" ".join([answer.text, *map(str, answer.fields)]))
    return REFUSED if is_strict and answer.text in FAILING else 0


def op_in(words: list[str]) -> Op:
    """The op of the words, of hold its acquire."""
    if words[0] != "hold":
        return op_of(words)
    if len(words) < 3:
        raise ValueError("hold wants a name and a command")
    return table_op("acquire", words[1])


def main() -> int:
    """Runs the command line. The status."""
    parser = arguments()
    args = parser.parse_args(spread(sys.argv[1:]))
    try:
        op = op_in(args.op)
        endpoints = endpoints_of(args.port, args.address or [LOOPBACK])
        more = {"hosts": args.hosts, "key": args.key, "notices": not args.no_notices}
        client = Client(args.cluster, args.client, endpoints, args.first, args.state, args.patience, **more)
    except (OSError, ValueError) as error:
        parser.error(str(error))
    except LocksError as error:
        tell(str(error))
        return status_of(error)
    with client:
        try:
            if args.op[0] == "hold":
                return hold(client, op.name, args.op[2:], args.wait, args.release_wait)
            return ask_once(client, op, args.fail)
        finally:
            client.core.forget()  # the output says what stays held, and a single request is meant to


def run() -> None:
    """The entry of the installed program."""
    try:
        sys.exit(main())
    except KeyboardInterrupt:
        tell("interrupted: a request that was sent may have taken effect, or still may")
        sys.exit(INTERRUPTED)
