"""Clients that hold locks one after the other, each in a thread, and what is wrong with their holds.

`python3 -m harness.holders JSON` runs them until its input ends. Each hold is a line `NAME FENCE BEGIN END`, by one
clock: from its grant until its release is sent. With `checks` each asks another node first each time, and checks its
hold: one that is not valid counts as given twice."""
import contextlib
import itertools
import json
import random
import sys
import threading
import time

from locks_client import Client, Held, LocksError, milliseconds

WRITING = threading.Lock()


def settle(client, name, is_over):
    """Gives up what has no answer, and releases the name if the client holds it."""
    while not is_over.is_set():
        with contextlib.suppress(LocksError):
            found = client.give_up(name)
            if isinstance(found, Held) and found.holder == client.client:
                client.release(name, found.fence)
            return


def tell(line):
    """Writes a whole line, which no other thread's cuts."""
    with WRITING:
        sys.stdout.write(line)
        sys.stdout.flush()


def hold(client, name, fence, checks):
    """Holds a name for some milliseconds. Tells the hold once it ends, and a second time if it is not valid."""
    begin, times = time.monotonic(), 1
    try:
        time.sleep(random.random() * 0.01)
        times += bool(checks) and not client.check(name, fence)
    finally:
        tell(f"{name} {fence} {begin} {time.monotonic()}\n" * times)


def work(number, plan, is_over):
    """Holds names until it is over, with pauses."""
    endpoints = [tuple(endpoint) for endpoint in plan["endpoints"]]
    files = {"hosts": plan["hosts"], "key": plan["keys"][str(number)]}
    with Client(plan["cluster"], number, endpoints, first=milliseconds(), patience=2.0, **files) as client:
        while not is_over.is_set():
            name = random.choice(plan["names"])
            if plan.get("checks"):
                client.set_ports(random.sample(endpoints, len(endpoints)))
            try:
                with client.lock(name, wait=2.0) as fence:
                    hold(client, name, fence, plan.get("checks"))
            except LocksError:
                settle(client, name, is_over)


def faults(holds):
    """What is wrong with holds (name, fence, begin, end): a fence that was given twice, and two holds at one time."""
    found = []
    for name, those in itertools.groupby(sorted(holds), key=lambda hold: hold[0]):
        for (_, fence, _, end), (_, later, begin, _) in itertools.pairwise(those):
            if fence == later or begin < end:
                found.append(f"{name} at {fence} until {end} and at {later} from {begin}")
    return found


def main():
    plan, is_over = json.loads(sys.argv[1]), threading.Event()
    threads = [threading.Thread(target=work, args=(int(number), plan, is_over)) for number in plan["keys"]]
    for it in threads:
        it.start()
    sys.stdin.read()
    is_over.set()
    for it in threads:
        it.join()


if __name__ == "__main__":
    main()
