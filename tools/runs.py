#!/usr/bin/env python3
"""Runs the program as each row of the files runs/*.txt says, and compares the result.

A file is rows with an empty line between them; a line `# ..` is a comment. The lines of a row:

    $ WORDS     the arguments, with one space between each
    < LINE      a line of standard input
    <- LINE     the last line of standard input, which nothing ends
    > LINE      a line that has to stand on standard output; there are no others
    ! LINE      the same of standard error; a single line `!` alone stands for anything but nothing
    ? NUMBER    the status, where it is not 0
    @ FILE      standard output is this file, and is not read
    % NAME HEX  a file of the folder, and its bytes; several lines of a file follow one another; NAME/ is a folder in it
    %> NAME TEXT  a line of a file of the folder; %! NAME TEXT the same of a file that only its owner may have
    <* LINE     as `<`, one of several in a row, each of which stands in this place in a run of its own

A row with several lines `$` is run with each of them. Bytes are written as in Python, `\\x20` for a space at an end. A
run has 60 seconds and a new empty folder.

The last line is `N passed, M failed`, of rows, and the status is 1 if one failed."""
import codecs, itertools, pathlib, subprocess, sys, tempfile

from scripting import TOP, with_program


def read(text):
    """The bytes that a text of a row stands for."""
    return codecs.escape_decode(text.encode())[0]


class Row:
    """What is run, and what has to come of it."""

    def __init__(self, name):
        self.name, self.arguments, self.lines, self.out, self.err = name, [], [], [], []
        self.status, self.to, self.is_told, self.files, self.secret = 0, None, False, {}, set()

    def take(self, line):
        mark, _, text = line.partition(" ")
        if mark == "$":
            self.arguments.append([read(word) for word in text.split(" ")] if text else [])
        elif mark == "<":
            self.lines.append([read(text) + b"\n"])
        elif mark == "<-":
            self.lines.append([read(text)])
        elif mark == "<*" and self.lines and isinstance(self.lines[-1], tuple):
            self.lines[-1] = (*self.lines[-1], read(text) + b"\n")
        elif mark == "<*":
            self.lines.append((read(text) + b"\n",))
        elif mark == ">":
            self.out.append(read(text) + b"\n")
        elif line == "!":
            self.is_told = True
        elif mark == "!":
            self.err.append(read(text) + b"\n")
        elif mark == "?":
            self.status = int(text)
        elif mark == "@":
            self.to = text
        elif mark == "%":
            name, _, digits = text.partition(" ")
            self.files[name] = self.files.get(name, b"") + bytes.fromhex(digits)
        elif mark in ("%>", "%!"):
            name, _, told = text.partition(" ")
            self.files[name] = self.files.get(name, b"") + read(told) + b"\n"
            self.secret |= {name} if mark == "%!" else set()
        else:
            sys.exit(f"{self.name}: no line of a row: {line}")

    def is_met(self, program, words, given):
        """Whether one run has its end, and what came of it where it has not."""
        with tempfile.TemporaryDirectory() as folder, open(self.to or "/dev/null", "wb") as to:
            for file, text in self.files.items():
                if file.endswith("/"):
                    pathlib.Path(folder, file).mkdir()
                else:
                    pathlib.Path(folder, file).write_bytes(text)
                    pathlib.Path(folder, file).chmod(0o600 if file in self.secret else 0o644)
            out = to if self.to else subprocess.PIPE
            how = {"stdout": out, "stderr": subprocess.PIPE, "cwd": folder, "timeout": 600}
            run = subprocess.run([program, *words], input=given, **how)
        err = bool(run.stderr) if self.is_told else run.stderr == b"".join(self.err)
        met = err and run.returncode == self.status and (run.stdout or b"") == b"".join(self.out)
        return met, f"status {run.returncode}, printed {(run.stdout or b'')[-300:]}, told {run.stderr[-300:]}"

    def first_other(self, program):
        """The first run of the row that has another end, as a text."""
        for words, given in itertools.product(self.arguments, itertools.product(*self.lines)):
            met, told = self.is_met(program, words, b"".join(given))
            if not met:
                return f"{words}, {b''.join(given)[-300:]}: {told}"
        return None


def rows(file):
    """The rows of a file."""
    row = None
    for number, line in enumerate(file.read_text(encoding="utf-8").splitlines(), 1):
        if not line:
            row = None
        elif not line.startswith("#"):
            if row is None:
                row = Row(f"{file.name}:{number}")
                yield row
            row.take(line)


def main():
    program = with_program(__doc__).parse_args().program
    passed = failed = 0
    for file in sorted((TOP / "runs").glob("*.txt")):
        for row in [*rows(file)]:
            other = row.first_other(program)
            if other is None:
                passed += 1
            else:
                failed += 1
                print(f"{row.name}: NOT as written: {other}", flush=True)
    print(f"{passed} passed, {failed} failed", flush=True)
    sys.exit(failed > 0)


if __name__ == "__main__":
    main()
