#!/usr/bin/env python3
"""Reads crates.txt for tools/map.py and tools/crates.py: the rooms, their crates, and what each crate stands on.

A room begins with a line `## NAME: WHAT IT HOLDS`. The sources tell whether the code of a crate uses another one, by a
`use` of its own, or only its definitions and proofs do, by a `ghost use` or in files `.antt`."""
import re

from scripting import TOP, parser

USE = re.compile(r"(?m)^\s*(?:pub(?:\(\w+\))? )?use (\w+)::")


def lines():
    """The lines of crates.txt that are not empty."""
    return [line for line in (TOP / "crates.txt").read_text(encoding="utf-8").splitlines() if line.strip()]


def rooms():
    """For each room what it holds and its crates, in the order of the file."""
    found = {}
    for line in lines():
        name, _, rest = line.partition(":")
        if line.startswith("## "):
            found[name.removeprefix("## ")] = rest.strip(), []
        elif not line.startswith("#"):
            found[list(found)[-1]][1].append(name)
    return found


def stands_on():
    """For each crate all that it stands on, libraries of the kit too, in the order of the file."""
    parts = (line.partition(":") for line in lines() if not line.startswith("#"))
    return {name: rest.split() for name, _, rest in parts}


def used_by_code(crate):
    """The crates and libraries that the code of a crate uses."""
    sources = (TOP / "crates" / crate / "src").rglob("*.rt")
    return {name for path in sources for name in USE.findall(path.read_text(encoding="utf-8"))}


if __name__ == "__main__":
    parser(__doc__).parse_args()
