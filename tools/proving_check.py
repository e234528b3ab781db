#!/usr/bin/env python3
"""Checks how ./prove and `rt ci` share what is proved, on a repository of two small crates.

What ./prove has proved `rt ci` does not prove again, and the other way round, also once a crate has changed; a crate
that is not proved ends tools/proving.py, which ./prove runs, with status 1. The store of what is kept stays as it was,
but for these crates. The last line is `N passed, M failed`, and the status is 1 if one failed."""
import pathlib
import re
import subprocess
import sys
import tempfile
import uuid

from keeping import command_of, keeps
from scripting import TOP, Tally, Untried, need, parser

LIST = "{low}:\n{high}: {low}\n"
HEAD = "//! A crate of a test: {mark}.\n#![tactic(auto)]\n\nghost use Rattle.std.specs.Prelude.{{◌≡◌, ◌+◌, ◌<◌}};\n"
LOW = """
/// Returns the next number.
pub fn next(number: u8) -> u8
    requires {{ number < 255 }}
    ensures {{ result ≡ number + 1 }}
{{
    number + {step}
}}
"""
HIGH = """
use {low}::next;

/// Returns the second next number.
pub fn second(number: u8) -> u8
    requires {{ number < 254 }}
    ensures {{ result ≡ number + 2 }}
{{
    next(next(number))
}}
"""


class Small:
    """A repository of two crates, the second above the first. No earlier run knows their names or their texts. Beside
    it stands what is kept, if the kit has no store of its own: `rt ci` takes each source in a repository for its."""

    def __init__(self, folder):
        self.top, self.kept = pathlib.Path(folder, "repository"), pathlib.Path(folder, "kept")
        self.mark = uuid.uuid4().hex
        self.low, self.high = f"low_{self.mark[:8]}", f"high_{self.mark[:8]}"
        (self.top / ".git").mkdir(parents=True)
        (self.top / "HANDLES").write_text("Handles allowed: none.\n")
        (self.top / "crates.txt").write_text(LIST.format(low=self.low, high=self.high))
        self.write_low(1)
        self.write("high", HIGH.format(low=self.low))

    def write(self, which, text):
        """Writes the sources of a crate."""
        sources = self.top / "crates" / getattr(self, which) / "src"
        sources.mkdir(parents=True, exist_ok=True)
        (sources / "lib.rt").write_text(HEAD.format(mark=self.mark) + text)

    def write_low(self, step):
        """Writes the first crate, whose function adds this step."""
        self.write("low", LOW.format(step=step))

    def run(self, *command):
        """Runs a proof. Its status, and what it said of each crate."""
        piped = {"stdin": subprocess.DEVNULL, "stdout": subprocess.PIPE, "stderr": subprocess.STDOUT, "text": True}
        ran = subprocess.run(command, cwd=self.top, **piped)
        said = re.findall(rf"^rt: (low|high)_{self.mark[:8]} (proved$|is kept|NOT PROVED)", ran.stdout, re.M)
        return ran.returncode, dict(said), ran.stdout

    def prove(self):
        return self.run(sys.executable, TOP / "tools/proving.py", self.kept)

    def gate(self):
        return self.run("rt", "ci")


def unless(ran, status, low, high):
    """What is wrong with how a proof ended, if anything."""
    wanted = {"low": low, "high": high}
    return None if ran[:2] == (status, wanted) else f"status {ran[0]}, {ran[1]}: {ran[2][-600:]}"


def proves(small):
    """./prove proves each crate."""
    return unless(small.prove(), 0, "proved", "proved")


def keeps_its_own(small):
    """./prove does not prove a crate again."""
    return unless(small.prove(), 0, "is kept", "is kept")


def gate_takes(small):
    """rt ci does not prove again what ./prove has proved."""
    if not keeps(command_of("rt")):
        raise Untried("this kit keeps nothing")
    return unless(small.gate(), 0, "is kept", "is kept")


def takes_from_gate(small):
    """./prove does not prove again what rt ci has proved."""
    if not keeps(command_of("rt")):
        raise Untried("this kit keeps nothing")
    small.write("high", HIGH.format(low=small.low).replace("second next", "one after the next"))
    wrong = unless(small.gate(), 0, "is kept", "proved")
    return wrong or unless(small.prove(), 0, "is kept", "is kept")


def refuses(small):
    """./prove refuses a wrong body, and what stands on its crate."""
    small.write_low(2)
    return unless(small.prove(), 1, "NOT PROVED", "NOT PROVED")


def main():
    parser(__doc__).parse_args()
    need("rt")
    tally = Tally()
    with tempfile.TemporaryDirectory(prefix="locks-small-") as folder:
        small = Small(folder)
        for it in (proves, keeps_its_own, gate_takes, takes_from_gate, refuses):
            tally.check(it, small)
    tally.end()


if __name__ == "__main__":
    main()
