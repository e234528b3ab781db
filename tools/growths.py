#!/usr/bin/env python3
"""Refuses each request for memory in turn while the program runs a script.

tools/refusing.c, compiled by `cc` and loaded in front of the C library, refuses the N-th request for memory of the
program, N = 1, 2, .. until none is refused. The scripts are those of examples/ and a table whose names are all taken.

Each run may end in three ways: as the script ends where nothing is refused; by fault 25, after all that the lines in
front of the one that asked for memory print; and in world mode by `refused 22 WorldMemory`, after the same. How many
requests a run of the lines up to it makes tells which line asked for memory. Unless scripts are given, some of the
requests have to be those of revivals, of compactions and of installs of another node's snapshot.

Then `dump` and `inspect` read the store of a folder in the same way. They print everything or nothing, and end by
`cannot open` or by fault 25 or 8, of which some are 8; the files stay as they were.

The last line is `N passed, M failed`, of scripts and of these two, and the status is 1 if one failed."""
import concurrent.futures, os, pathlib, re, subprocess, sys, tempfile

from scripting import TOP, a_program, need, parser

NO_MEMORY = b"refused 22 WorldMemory\n"
# What a line does whose growths are counted by themselves, by how it begins, or by what it delivers.
KINDS = {b"restart": "revivals", b"compact": "compactions", b"part": "installs"}
# A store with a snapshot of three positions, and a command after it.
STORE = bytes.fromhex(
    "0000008e 01 0000000000000001 02 0000000000000005 00000001 02 01 00000001 1b59 0000000000000000 00000000"
    "0000000000000003"
    "00000054 0000000000000003 02 01 00000001 1b59 01 00000001 1b59 00000001 0000000000000000"
    "0001 0007 0000000000000003 01 0000000000000002"
    "0002 02 6162 0000000000000002 0007 02 6462 0000000000000001 0000 0000 0000"
    "0000001a 04 0000000000000004 01 0008 0000000000000001 00 04 01026462"
)


class Refuser:
    """Runs a program, one of whose requests for memory may be refused."""

    def __init__(self, program, folder):
        self.program, self.library = program, f"{folder}/refusing.so"
        command = ["cc", "-O2", "-shared", "-fPIC", "-o", self.library, TOP / "tools/refusing.c", "-ldl"]
        subprocess.run(command, check=True)

    def run(self, lines, at=0, words=("sim",)):
        """What comes of the lines, as status, output and standard error, and how many requests for memory they made."""
        environment = {**os.environ, "LD_PRELOAD": self.library, "REFUSE_AT": str(at)}
        how = {"capture_output": True, "env": environment, "timeout": 600}
        run = subprocess.run([self.program, *words], input=b"".join(lines), **how)
        err, told, requests = run.stderr.rpartition(b"requests ")
        if not told or not int(requests):
            sys.exit(f"{self.program}: none of its requests for memory can be refused: {run.stderr[-300:]}")
        return (run.returncode, run.stdout, err), int(requests)


def events(text):
    """The lines of a script, where a line of several ticks is as many lines."""
    for line in text.splitlines(keepends=True):
        ticks = re.fullmatch(rb"(tick \d+) (\d+)\n", line)
        yield from [ticks[1] + b"\n"] * int(ticks[2]) if ticks else [line]


def full_table():
    """A client takes all names that a table holds, one too many, gives the first one back and takes it again."""

    def request(number, body):
        op = bytes([0, len(body)]) + body
        head = bytes.fromhex("4c4b0109") + (5).to_bytes(8) + bytes(4) + (1).to_bytes(2) + number.to_bytes(8)
        return (head + op).hex().encode() + b"\n"

    names = [b"\4n%03d" % name for name in range(513)]
    yield b"table 5\n"
    yield from (request(number, b"\1" + name) for number, name in enumerate(names, 1))
    yield request(514, b"\2" + names[0] + (1).to_bytes(8))
    yield request(515, b"\1" + names[0])


def scripts(files):
    """The names of the scripts, and their lines."""
    for file in files or sorted((TOP / "examples").glob("*.txt")):
        yield pathlib.Path(file).name, [*events(pathlib.Path(file).read_bytes())]
    if not files:
        yield "a table whose names are all taken", [*full_table()]


def beginnings(refuser, lines):
    """What the first so many lines print, and how many requests for memory they and the end of the run make."""
    for count in range(len(lines) + 1):
        (_, output, _), requests = refuser.run(lines[:count])
        yield re.sub(rb"(?m)^done \d+\n\Z", b"", output), requests


def is_good(ended, whole, fronts):
    """Whether a run ended as it may, where the lines that did not want memory have printed one of the fronts."""
    status, output, err = ended
    is_fault = err == b"fault 25\n" and output in fronts
    is_refusal = not err and output.endswith(NO_MEMORY) and output.removesuffix(NO_MEMORY) in fronts
    return ended == whole or status == 1 and (is_fault or is_refusal)


def kind(lines, count, whole):
    """What the last of the first so many lines does, of the kinds that are counted."""
    verb, _, place = (lines[count - 1] if 0 < count <= len(lines) else b"").strip().partition(b" ")
    is_part = verb == b"deliver" and re.search(rb"(?m)^sent %b \S+ n\d+ part$" % place, whole)
    return KINDS.get(b"part" if is_part else verb)


def in_words(ended):
    """The end of a run, as a text."""
    status, output, err = ended
    return f"status {status}, printed {output[-200:]}, told {err[-200:]}"


def sweep(refuser, lines):
    """How many requests for memory a script makes, those of each kind of line, and the ends of runs that are not as
    they may be, as texts."""
    whole, most = refuser.run(lines)
    known = [*beginnings(refuser, lines)]
    kinds, wrong = [], []
    for at in range(1, most + 2):
        ended, requests = refuser.run(lines, at)
        # The request may be one of the line, or of the end of the run of the lines in front of it.
        line = next((count for count, (_, made) in enumerate(known) if at <= made), len(lines))
        fronts = [output for output, _ in known[max(0, line - 1) : line + 1]]
        if not (is_good(ended, whole, fronts) if at <= most else (ended, requests) == (whole, most)):
            wrong.append(f"request {at} of {most} refused: {in_words(ended)}")
        kinds += [kind(lines, line, whole[1])] * (at <= most and ended[1].endswith(NO_MEMORY))
    return most, kinds, wrong


def look(refuser, folder, command):
    """As a sweep, of a command that reads the store of a folder."""
    words, files = (command, "--dir", folder), {f"{folder}/a": STORE, f"{folder}/b": b""}
    for path, data in files.items():
        pathlib.Path(path).write_bytes(data)
    whole, most = refuser.run([], words=words)
    ends = [refuser.run([], at, words)[0] for at in range(1, most + 1)]
    may = {whole, *((1, b"", told) for told in (b"cannot open\n", b"fault 25\n", b"fault 8\n"))}
    wrong = [f"{command}: {in_words(end)}" for end in ends if end not in may]
    wrong += [f"{path} has changed" for path, data in files.items() if pathlib.Path(path).read_bytes() != data]
    wrong += [f"{command}: none is told as 8"] * ((1, b"", b"fault 8\n") not in ends or whole[0] != 0)
    return most, [], wrong


def sweeps(refuser, folder, files):
    """Runs all. Their names, and what each sweep gives."""
    chosen = [*scripts(files)]
    with concurrent.futures.ThreadPoolExecutor(os.cpu_count()) as pool:
        yield from zip((name for name, _ in chosen), pool.map(lambda script: sweep(refuser, script[1]), chosen))
    if not files:
        yield from ((command, look(refuser, folder, command)) for command in ("dump", "inspect"))


def main():
    arguments = parser(__doc__)
    arguments.add_argument("program", type=a_program, help="the program, itself and not a script that runs it")
    arguments.add_argument("scripts", nargs="*", help="scripts to run in place of those above")
    given = arguments.parse_args()
    need("cc")
    kinds, failed, total, count = [], 0, 0, 0
    with tempfile.TemporaryDirectory() as folder:
        refuser = Refuser(given.program, folder)
        for name, (most, of_kinds, wrong) in sweeps(refuser, folder, given.scripts):
            kinds, total, count, failed = kinds + of_kinds, total + most, count + 1, failed + bool(wrong)
            for text in wrong:
                print(f"{name}: {text}", flush=True)
    numbers = {name: kinds.count(name) for name in KINDS.values()}
    told = ", ".join(f"{number} of {name}" for name, number in numbers.items())
    print(f"{total} requests for memory of {count} runs, each refused in turn; refused as 22: {told}")
    if not given.scripts and not all(numbers.values()):
        failed += 1
    print(f"{count - failed} passed, {failed} failed", flush=True)
    sys.exit(failed > 0)


if __name__ == "__main__":
    main()
