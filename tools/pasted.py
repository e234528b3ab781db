#!/usr/bin/env python3
"""Pastes the commands of README.md and docs/OPERATING.md into a shell, in order, and compares what they print.

A block that begins with ```sh is pasted, line by line, in a copy of the repository whose ./locks is the program. A line
that ends in a backslash goes on. A comment behind a command is what it prints, its lines joined by `, `. A block that
begins with ```text is what the last command prints; a # behind two spaces explains a line of it, and below the comment
<!-- numbers differ --> the command may print other numbers. A command without either may print anything. Each command
has to end with status 0, and the page has to stop all that it starts. A block below the comment <!-- not pasted: REASON
--> is skipped, with what its last command prints. README.md is pasted twice.

A port that is taken is replaced by another one. The last line is `N passed, M failed`, and the status is 1 if one
failed."""
import contextlib
import os
import pathlib
import random
import re
import signal
import socket
import subprocess
import tempfile
import time

from scripting import Tally, program_file, scratch, with_program

BLOCK = re.compile(r"(?m)^(?:<!-- (not pasted|numbers differ)\b.*-->\n)?```(sh|text)\n((?:.*\n)*?)```$")
COMMENT = re.compile(r" +# (.*)$")
PORT = re.compile(r"(?:\d:|--port |join \d )(\d{4,5})\b")
MARK = "\x1e"  # between what two commands print
SECONDS = 1800  # only a hang takes as long
WRAPPER = '#!/bin/sh\n[ "$*" = --path ] && echo "{program}" && exit\nexec "{program}" "$@"\n'


class Command:
    """A command of a page, and the pattern of what it prints where the page says so."""

    def __init__(self, text, pattern=None):
        self.text, self.pattern = text, pattern

    def wrong(self, output, status):
        """What is wrong with what came of it."""
        if status != 0:
            return f"status {status}, printed {output!r}"
        return None if self.pattern is None or re.fullmatch(self.pattern, output) else f"printed {output!r}"


def commands_of(block):
    """The commands of a block."""
    for line in re.sub(r" *\\\n *", " ", block).splitlines():
        told = COMMENT.search(line)
        if line.strip():
            yield Command(COMMENT.sub("", line), pattern_of(told[1].split(", ")) if told else None)


def pattern_of(lines, is_any_number=False):
    """The pattern of output with these lines."""
    pattern = "".join(re.escape(it) + "\n" for it in lines)
    return re.sub(r"\d+", r"\\d+", pattern) if is_any_number else pattern


def commands(page):
    """The commands of a page."""
    found, is_skipped = [], False
    for how, kind, body in BLOCK.findall(page):
        if kind == "sh":
            is_skipped = how == "not pasted"
            found += [] if is_skipped else commands_of(body)
        elif found and not is_skipped:
            lines = [re.sub(r"  +# .*", "", line) for line in body.splitlines()]
            found[-1].pattern = pattern_of(lines, how == "numbers differ")
    return found


def is_free(port):
    """Whether nothing is bound to a port of this machine."""
    with socket.socket(socket.AF_INET, socket.SOCK_DGRAM) as it:
        try:
            it.bind(("127.0.0.1", port))
        except OSError:
            return False
    return True


def with_free_ports(page):
    """The page with other ports for those that are taken."""
    for port in {int(it) for it in PORT.findall(page)}:
        if not is_free(port):
            other = next(it for it in iter(lambda: random.randrange(10_000, 32_000), None) if is_free(it))
            page = re.sub(rf"\b{port}\b", str(other), page)
    return page


def ended(group):
    """Kills what is left of a group of processes, after a second. Whether nothing was left."""
    time.sleep(1)
    try:
        os.killpg(group, signal.SIGKILL)
    except ProcessLookupError:
        return True
    return False


def whole(file):
    """All that stands in an open file."""
    file.seek(0)
    return file.read()


def pasted(found, folder):
    """Runs the commands in one shell. What they print with their statuses, what stands on standard error, and whether
    all that they started was stopped."""
    script = "".join(f"{it.text}\nprintf '{MARK}%s{MARK}' $?\n" for it in found)
    with tempfile.TemporaryFile("w+") as out, tempfile.TemporaryFile("w+") as err:
        environment = {**os.environ, "TMPDIR": str(folder)}
        streams = {"stdin": subprocess.DEVNULL, "stdout": out, "stderr": err, "start_new_session": True}
        shell = subprocess.Popen(["sh", "-c", script], cwd=folder, env=environment, **streams)
        with contextlib.suppress(subprocess.TimeoutExpired):
            shell.wait(SECONDS)
        is_over = ended(shell.pid)
        parts = whole(out).split(MARK)
        return [*zip(parts[::2], map(int, parts[1::2]))], whole(err), is_over


def paste(tally, name, page, folder):
    """Pastes a page, and counts a row for each command and one for the end."""
    found = commands(with_free_ports(page))
    came, err, is_over = pasted(found, folder)
    failed = tally.failed
    for command, (output, status) in zip(found, came):
        tally.row(f"{name}: {command.text}", command.wrong(output, status))
    left = None if len(came) == len(found) else f"only {len(came)} of {len(found)} commands ended"
    tally.row(f"{name}: all that it starts is stopped", left or (None if is_over else "a process was left"))
    if tally.failed > failed:
        print(err, end="", flush=True)


def main():
    program, tally = program_file(with_program(__doc__).parse_args().program), Tally()
    with tempfile.TemporaryDirectory(prefix="locks-pasted-") as room:
        folder = scratch(room)
        (folder / "locks").write_text(WRAPPER.format(program=program))
        for name in ("README.md", "README.md", "docs/OPERATING.md"):
            paste(tally, name, (folder / name).read_text(), pathlib.Path(folder))
    tally.end()


if __name__ == "__main__":
    main()
