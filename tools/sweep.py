#!/usr/bin/env python3
"""Stops and fails nodes at every call and every send of the world scripts of examples/, and stops nodes with sums.

Each event that makes a node work (a tick, a datagram that it takes, a restart, a compaction) of each world script that
sets no trap of its own is preceded by `arm NODE COUNT BYTES`, in a run for each COUNT 1, 2, .. until the event no
longer stops its node, and for each number of unsynced BYTES 0, 1 and all; then by `fail NODE COUNT` in the same way.
Where the node has gone down it is restarted, and the rest of the script follows, once with that event again in front of
it and once without.

What stands before the trap has to be printed as before, and no revival may end by a fault. The run goes on to the
script's end or to a refusal 16 to 19, since a later line may name a datagram that was never sent. Each script is swept
once more with groups: what comes to one node in a row, and was sent before, comes as one `group`. The tick at which a
node writes its snapshot, after 256 executed requests, is swept in the same way, and after each stop the node is led on:
its next request runs at position 257, so all 256 are executed. Whatever has run at a position, and whatever a request
was answered, is the same at each node and each time.

Worlds keep stores of format 2, in memory. So two nodes with files are stopped too, each a cluster by itself: one has
sums from its first Base on, and one gets them with its next snapshot, since it is restarted with --sums.
tools/recording.c, compiled by `cc` and loaded in front of the C library, records each write, sync and cut of their
files, and each answer, in their first 24 requests, and from a start on a torn rest over a snapshot. After each of these
calls, what a stop may leave is put into a folder: each file with 0, 1, 7 and all of its unsynced bytes, and as it was
before a cut that is not synced. `scrub` has to find no damage there, `dump` a vote for each request that was answered
and the right format, and `inspect` a state of the run that is no later than what was asked. tools/forking.c lets one
process read them all. On what the last run may leave the node is restarted: it has to answer the next request as in the
run, and to leave no damage.

The last line is `N passed, M failed`, of scripts and of these stores, and the status is 1 if one failed."""
import concurrent.futures, itertools, os, re, subprocess, sys, tempfile

from scripting import TOP, need, with_program

sys.path[:0] = [str(TOP), str(TOP / "clients/python")]
from harness.forking import FAST, Reader, library  # noqa: E402
from harness.recorded import Recorded  # noqa: E402

ALL = 1 << 48
TRAPS = ("arm {node} {count} 0", "arm {node} {count} 1", f"arm {{node}} {{count}} {ALL}", "fail {node} {count}")
DOWN = re.compile(r"(?:stopped \d+|fault \d+ 7 device)\n")
END = re.compile(r"(?:done \d+|refused 1[6-9] \w+)\n\Z")
# After 256 requests and a restart: a client asks for the first name, the node begins a ballot and hears its promise,
# and the votes that it asks for are cast and counted, of which the first may be for position 256 again. What has to be
# printed then.
NEXT = [
    "client 1 256 2 ask name-0",
    *["tick 1"] * 4,
    "deliver 1028",
    "deliver 1027",
    *(f"deliver {k}" for k in range(1029, 1034)),
]
NEXT_RAN = "ran 1 257 256 2\nanswered 1 256 2 held 1 1\n"
# Of each store of a node that runs: the options of its runs, and the formats that it may have. The calls of its first
# and of its last run are swept. The last one writes a snapshot, after 256 requests.
SUMS = ("--sums",)
STORES = (("a store with sums", (SUMS, SUMS, SUMS), "3"), ("a store that gets sums", ((), (), SUMS), "23"))
REQUESTS = (24, 224, 16)


def printed(program, lines):
    script = "".join(f"{line}\n" for line in lines)
    run = subprocess.run([program, "sim"], input=script, capture_output=True, text=True, timeout=600)
    return run.stdout + run.stderr


def events(text):
    """The lines of a script, where a line of several ticks is as many lines."""
    for line in text.splitlines():
        ticks = re.fullmatch(r"tick (\d+) (\d+)", line)
        yield from [f"tick {ticks[1]}"] * int(ticks[2]) if ticks else [line] * bool(line)


def worker(line, bound):
    """The node that works at the event, if one does that can be given a trap. The receivers of datagrams are told."""
    verb, *words = line.split()
    if verb == "deliver":
        return bound.get(words[0])
    return words[0] if verb in ("tick", "nudge", "inject", "restart", "compact", "group") else None


def receivers(output):
    """The nodes to which datagrams are bound, by the numbers of those."""
    sent = [words for words in map(str.split, output.splitlines()) if words[0] == "sent"]
    return {words[1]: words[3][1:] for words in sent if words[3][0] == "n"}


def given(line, bound):
    """How a group begins that takes what the line gives a node, and its words there, if it is a tick, a nudge or a
    datagram that was sent."""
    verb, *words = line.split()
    if verb == "tick":
        return f"group {words[0]}", "t"
    if verb == "nudge":
        return f"group {words[0]}", " ".join([verb, *words[1:]])
    return (f"group {bound[words[0]]}", words[0]) if verb == "deliver" and words[0] in bound else ("", "")


def grouped(program, lines):
    """The script with what comes to one node in a row as one group, where all of it was sent before."""
    groups, bound = [], {}
    for at, line in enumerate(lines):
        group, word = given(line, bound)
        if group and groups and groups[-1].startswith(f"{group} "):
            groups[-1] += f" {word}"
        else:
            bound = receivers(printed(program, lines[:at]))
            groups.append(" ".join(given(line, bound)).strip() or line)
    return groups


def contradiction(output):
    """A line that says something else than an earlier one of the same position or the same request, if any."""
    known = {}
    for line in output.splitlines():
        words = line.split()
        key = {"ran": (words[0], *words[2:3]), "answered": (words[0], *words[2:4])}.get(words[0])
        said = {"ran": words[3:], "answered": words[4:]}.get(words[0])
        if key and known.setdefault(key, said) != said:
            return line
    return None


def fault(output, before):
    """What is wrong with what a run printed, whose lines up to the trap print this."""
    if not output.startswith(before):
        return "another beginning"
    faults, of_device = re.findall(r"(?m)^fault ", output), re.findall(r"(?m)^fault \d+ 7 device$", output)
    if len(faults) > len(of_device) or len(DOWN.findall(output)) > len(DOWN.findall(before)) + 1:
        return "a fault that was not set"
    if not END.search(output):
        return "another end"
    other = contradiction(output)
    return f"two answers: {other}" if other else None


def swept(program, lines, at, node, after):
    """Each run of the event at the place: whether it stops or fails its node, and what is wrong with it, as a text.
    Where lines are given they come after each stop in place of the rest, and have to run the next request."""
    before = re.sub(r"done \d+\n\Z", "", printed(program, lines[:at]))
    rests = (after, [lines[at], *after[:1], *after[2:]]) if after else (lines[at + 1 :], lines[at:])
    for trap in TRAPS:
        for count in itertools.count(1):
            head = [*lines[:at], trap.format(node=node, count=count), lines[at], f"restart {node}"]
            outputs = [printed(program, head + rest) for rest in rests]
            if not DOWN.search(outputs[0], len(before)):
                break
            for output in outputs:
                wrong = fault(output, before) or after and NEXT_RAN not in output and "not all executed"
                yield head[at], f"{head[at]} before line {at + 1}, {lines[at]}: {wrong}\n{output}" if wrong else None


def sweep(program, lines, first, after):
    """How many stops and how many failures of a script were tried from the event at a place on, and what was wrong."""
    bound = receivers(printed(program, lines))
    works = [(at, worker(line, bound)) for at, line in enumerate(lines)]
    runs = [run for at, node in works[first:] if node for run in swept(program, lines, at, node, after)]
    stops = sum(trap.startswith("arm") for trap, _ in runs)
    return stops, len(runs) - stops, [wrong for _, wrong in runs if wrong]


def filled():
    """One node, alone, that executes 256 requests, and a tick, before which it writes its snapshot."""
    yield from ("genesis 5 2 1:7001", "start 1", *["tick 1"] * 4, "deliver 1", "deliver 2")
    for asked in range(256):
        yield f"client 1 {asked + 1} 1 acquire name-{asked}"
        yield from (f"deliver {4 * asked + step}" for step in (3, 4, 5))
    yield "tick 1"


def scripts(program):
    """The world scripts that set no trap and end without a refusal, as lists of events, from which place on each is
    swept, and what comes after each stop in place of the rest."""
    for file in sorted((TOP / "examples").glob("*.txt")):
        lines = [*events(file.read_text())]
        is_world = lines and lines[0].startswith("genesis ")
        has_trap = any(line.startswith(("arm ", "fail ")) for line in lines)
        if is_world and not has_trap and re.search(r"done \d+\n\Z", printed(program, lines)):
            yield file.name, lines, 0, []
            yield f"{file.name} in groups", grouped(program, lines), 0, []
    lines = [*filled()]
    yield "256 requests", lines, len(lines) - 1, NEXT


def fields(told):
    """The lines of a subcommand by their first words."""
    return dict(line.split(" ", 1) for line in told[1].decode().splitlines())


def misread(answered, formats, scrubbed, dumped, inspected):
    """What is wrong with what `scrub`, `dump` and `inspect` print of a store that a stop left after so many answers, as
    status, output and standard error of each; an empty text if nothing is."""
    if scrubbed[0] or scrubbed[2] or dumped[2] or inspected[2]:
        return "damage"
    if dumped[:2] == (1, b"no store\n"):
        return "no store" if answered else ""
    store, state = fields(dumped), fields(inspected)
    voted, executed = int(store["snapshot"]) + int(store["votes"]), int(state["executed"])
    if not answered <= voted <= answered + 1:
        return f"{answered} requests were answered, and {voted} have votes"
    held = f"db 7 {executed // 2 + 1}" if executed % 2 else None
    if executed > voted or state.get("held") != held or store["format"] not in formats:
        return "another state"
    return ""


def store_sweep(program, options, formats):
    """How many stops of a store were tried, on how many stores a node was restarted, and what was wrong, as texts."""
    with tempfile.TemporaryDirectory(dir=FAST) as folder, Reader(program, ("scrub", "dump", "inspect")) as reader:
        node = Recorded(program, folder, library(folder, "recording"))
        first, _ = (node.run(*how) for how in zip(options[:-1], REQUESTS))
        node.tear()
        last = node.run(options[-1], REQUESTS[-1])
        found, again = sorted({*first, *last}), sorted(set(last))
        told = zip(*(reader.read(command, (store for _, store in found)) for command in reader.processes))
        wrong = [misread(answered, formats, *it) for (answered, _), it in zip(found, told)]
        known, left = zip(*(node.restarted(options[-1], *it) for it in again))
        wrong += ["another answer after a restart" * (not it) for it in known]
        wrong += ["damage after a restart" * bool(it[0]) for it in reader.read("scrub", left)]
    texts = [f"{answered} answers, {[*map(len, it)]} bytes: " for answered, it in [*found, *again, *again]]
    return len(found), len(again), [text + it for text, it in zip(texts, wrong) if it]


def main():
    program = with_program(__doc__).parse_args().program
    need("cc")
    stops = failures = failed = 0
    chosen = [*scripts(program)]
    with concurrent.futures.ThreadPoolExecutor(os.cpu_count()) as pool:
        of_stores = [pool.submit(store_sweep, program, *how) for _, *how in STORES]
        results = pool.map(lambda script: sweep(program, *script[1:]), chosen)
        for (name, *_), (stopped, faulted, wrong) in zip(chosen, results):
            stops, failures, failed = stops + stopped, failures + faulted, failed + bool(wrong)
            for text in wrong:
                print(f"{name}: {text}", flush=True)
    print(f"{stops} stops and {failures} failures of {len(chosen)} scripts")
    for (name, *_), it in zip(STORES, of_stores):
        stops, restarts, wrong = it.result()
        print(f"{name}: {stops} stops, {restarts} restarts", *wrong, sep="\n  ", flush=True)
        failed += bool(wrong)
    print(f"{len(chosen) + len(STORES) - failed} passed, {failed} failed", flush=True)
    sys.exit(failed > 0)


if __name__ == "__main__":
    main()
