#!/usr/bin/env python3
"""Reads the claims of the crates, for tools/map.py: crates/NAME/README.md, and what its citations name.

A citation stands in brackets and begins with a name in backticks or with `law`. Its parts, between semicolons, are

    law `NAME`, laws `NAME`, `NAME`      public functions that return and change nothing
    `FUNCTION`, `TYPE::FUNCTION`         functions of the crate, or a type or trait for all its functions
    `FUNCTION`, ..: `CLAUSE`, ..         and each clause is one of these functions' contracts, each function has one
    `FILE.rt`, ..: `CLAUSE`, ..          files of the crate's src/, and clauses of their contracts
    `specs/FILE.antt`, ..: `NAME`, ..    files of definitions, and names that stand in them
    `lk_NAME/src/FILE.rt`, ..            files of another crate, and so for its definitions
    `tests/FILE.py`                      a file of the repository

That a clause says what the claim says is for the reader to judge."""
import collections
import re

from scripting import TOP, parser

CITATION = re.compile(r"\(((?:laws? )?`[^()]*)\)")
PART = re.compile(r"(laws? )?((?:`[^`]+`(?:, )?)+)(?:: ((?:`\w+`(?:, )?)+))?")
OWNER = re.compile(r"(?:pub(?:\(\w+\))? )?(?:impl|trait)\b(.*)")
BOUNDS = re.compile(r"<(?:[^<>]|<(?:[^<>]|<[^<>]*>)*>)*>|\bwhere\b.*|(?<=\w):.*")  # of type parameters and traits
FUNCTION = re.compile(r"\s*(?:pub(?:\(\w+\))? )?fn (\w+)")
LAW = re.compile(r"(?m)^pub fn (\w+)(?:<.*>)?\((?!.*&mut)[^)]*\)$")
CLAUSE = re.compile(r"\s*(?:ensures|requires) (\w+)\b")


def contracts(path):
    """For each function of a source the names of its clauses. A method stands below its own name, below TYPE::NAME for
    each type or trait of its `impl` or `trait`, and adds to what stands below TYPE."""
    found, owners, names = collections.defaultdict(set), [], []
    for line in path.read_text(encoding="utf-8").splitlines():
        if owner := OWNER.match(line):
            owners = re.findall(r"\b[A-Z]\w+", BOUNDS.sub("", owner[1]))
        elif line.startswith("}"):
            owners = []
        if function := FUNCTION.match(line):
            names = [function[1], *(f"{it}::{function[1]}" for it in owners), *owners]
        clause = CLAUSE.match(line)
        for it in names:
            found[it].update([clause[1]] if clause else [])
    return found


def contracts_of(crate):
    """The same for all sources of a crate."""
    found = collections.defaultdict(set)
    for path in (TOP / "crates" / crate / "src").rglob("*.rt"):
        for name, clauses in contracts(path).items():
            found[name] |= clauses
    return found


def laws_of(crate):
    """The laws of a crate: its public functions that return and change nothing."""
    sources = (TOP / "crates" / crate / "src").rglob("*.rt")
    return {it for path in sources for it in LAW.findall(path.read_text(encoding="utf-8"))}


def file_of(crate, name):
    """The file that a citation names."""
    if name.endswith(".py"):
        return TOP / name
    if name.startswith("lk_"):
        return TOP / "crates" / name
    return TOP / "crates" / crate / ("src" if name.endswith(".rt") else "") / name


def words_of(path):
    """The names of the clauses of a source, or the words of another file."""
    if path.suffix == ".rt":
        return set().union(*contracts(path).values())
    return set(re.findall(r"\w+", path.read_text(encoding="utf-8")))


def lost_of_files(paths, clauses):
    """What a part that names files names in vain."""
    yield from (it.name for it in paths if not it.is_file())
    words = set().union(*(words_of(it) for it in paths if it.is_file()))
    yield from (it for it in clauses if it not in words)


def lost_of_functions(known, functions, clauses):
    """What a part that names functions names in vain. Each function has to have one of the clauses."""
    yield from (it for it in functions if it not in known)
    yield from (it for it in clauses if not any(it in known.get(name, ()) for name in functions))
    yield from (it for it in functions if clauses and not known.get(it, set()) & set(clauses))


def lost_of_part(crate, part):
    """What a part of a citation names in vain."""
    said = PART.fullmatch(part)
    if not said:
        return [f"({part})"]
    names, clauses = (re.findall(r"`([^`]+)`", it or "") for it in said.groups()[1:])
    if said[1]:
        return [it for it in names if it not in laws_of(crate)]
    if "." in names[0]:
        return lost_of_files([file_of(crate, it) for it in names], clauses)
    return lost_of_functions(contracts_of(crate), names, clauses)


def lost(path):
    """What the claims of a crate name in vain."""
    text = " ".join(path.read_text(encoding="utf-8").split())
    for citation in CITATION.findall(text):
        for part in citation.split("; "):
            yield from lost_of_part(path.parent.name, part)


def pages():
    """The pages with the claims of crates."""
    return sorted((TOP / "crates").glob("*/README.md"))


if __name__ == "__main__":
    parser(__doc__).parse_args()
