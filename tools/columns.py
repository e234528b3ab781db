#!/usr/bin/env python3
"""Looks for lines of more than 120 characters in the text files of the repository.

Some lines cannot be broken: data (rows and bytes of tests, figures), a wrong body, whose format wants each text on one
line, a line of crates.txt, and in sources an attribute, which `rt fmt` keeps on one line, and a literal.

The last line is `N passed, M failed`, of folders and crates, and the status is 1 if one failed."""
import fnmatch
import itertools
import re
import subprocess

from scripting import TOP, Tally, parser

LIMIT = 120
DATA = ("*.csv", "*.edit", "crates.txt", "clients/golden*.txt", "runs/*.txt", "tools/callers/*.txt")
UNBROKEN = re.compile(r'\s*(#\[.*\]|\(?"[^"]*".*)')


def files():
    """The files that git has, or that are new and not ignored."""
    listed = ["git", "ls-files", "--cached", "--others", "--exclude-standard", "-z"]
    names = subprocess.run(listed, cwd=TOP, check=True, stdout=subprocess.PIPE, text=True).stdout
    return sorted(it for it in names.split("\0") if it and (TOP / it).is_file())


def is_data(name):
    """Whether the lines of a file may be of any length."""
    return any(fnmatch.fnmatch(name, pattern) for pattern in DATA)


def too_long(name):
    """The first line of a file that is too long, if there is one and it is a text file."""
    try:
        lines = (TOP / name).read_text(encoding="utf-8").splitlines()
    except UnicodeDecodeError:
        return None
    may_be_long = UNBROKEN.fullmatch if name.endswith(".rt") else lambda line: False
    found = (at for at, line in enumerate(lines, 1) if len(line) > LIMIT and not may_be_long(line))
    at = next(found, None)
    return at and f"line {at} of {name} has {len(lines[at - 1])} characters"


def folder(name):
    """The crate that a file belongs to, or the folder at the top."""
    parts = name.split("/")
    return "/".join(parts[: 1 + (parts[0] == "crates")]) if len(parts) > 1 else "."


def main():
    parser(__doc__).parse_args()
    tally = Tally()
    for it, names in itertools.groupby(sorted(files(), key=folder), folder):
        tally.row(it, next(filter(None, map(too_long, itertools.filterfalse(is_data, names))), None))
    tally.end()


if __name__ == "__main__":
    main()
