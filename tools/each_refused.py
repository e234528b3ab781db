#!/usr/bin/env python3
"""Shows that the prover refuses each wrong body of a crate, function by function.

    tools/each_refused.py CRATE [EDIT ..]
    tools/each_refused.py --named [--list] [CRATE ..]
    tools/each_refused.py --applies

Each file of crates/CRATE/must-fail and crates/CRATE/plants (or those named, without .edit; a name may be that of two)
is applied to a copy of the crate, which is then checked. A line `refused: module::function` of the file names a
function that the check has to refuse; the script says which of them it did not. `rt ci` tries the files of must-fail
alone, asks only that the crate is refused, and passes over these lines.

A line `named: TEXT` after a line `refused:` names the wrong body that this function shows, one that must be refused by
itself. With --named the script takes each such function of the crates (of all where none is given), applies only the
pairs that change it, and checks that the prover refuses it. A file with one line `refused:` is one wrong body as a
whole, also where it changes what its function calls. One of must-fail is left to the gate, which tries nothing else in
it. The last line is `N passed, M failed`; --list prints the named bodies and tries none.

With --applies it only looks whether the text that each pair of each file replaces still stands once in its source, and
tries nothing: seconds for all crates. The last line is `N passed, M failed`.

Run it at the top of the repository once the crates are proved (`rt check`), so that kept work serves. The status is 1
where something was not refused.
"""
import glob
import os
import re
import shutil
import subprocess
import sys
import tempfile
from typing import NamedTuple

from scripting import TOP, Tally, need, parser


class Change(NamedTuple):
    """A pair of an edit file: the source file, the text that stands there, and what takes its place."""

    file: str
    old: str
    new: str


class Edit(NamedTuple):
    """What an edit file changes, the functions that have to be refused, and the wrong bodies that some of them show."""

    changes: list
    refused: list
    named: dict


class Body(NamedTuple):
    """A wrong body that has a name: its crate and edit file, the function, the name, the pairs that make it, how many
    others stand beside it, and whether its file is one of must-fail."""

    crate: str
    title: str
    function: str
    name: str
    changes: list
    others: int
    is_in_gate: bool


def below(name, lines):
    """The crates of the repository that the crate stands on, directly or not."""
    names = next((line.split(":")[1].split() for line in lines if line.split(":")[0] == name), [])
    found = {it for it in names if os.path.isdir(f"crates/{it}")}
    return found.union(*(below(it, lines) for it in found))


def copied(name, folder):
    """A repository in the folder with a copy of the crate of that name and of those that it stands on."""
    with open("crates.txt", encoding="utf-8") as file:
        lines = file.read().splitlines()
    crates = below(name, lines) | {name}
    with open(f"{folder}/crates.txt", "w", encoding="utf-8") as file:
        file.writelines(f"{line}\n" for line in lines if line.split(":")[0] in crates)
    shutil.copy("HANDLES", folder)
    for crate in crates:
        shutil.copytree(f"crates/{crate}", f"{folder}/crates/{crate}", symlinks=True)
    return f"{folder}/crates/{name}"


def parts(path):
    """What stands in an edit file."""
    edit, file, old = Edit([], [], {}), None, None
    with open(path, encoding="utf-8") as lines:
        for line in lines.read().splitlines():
            if line.startswith("refused: "):
                edit.refused.append(line[9:].strip())
            elif line.startswith("named: "):
                edit.named[edit.refused[-1]] = line[7:].strip()
            elif line.startswith("file: "):
                file = line[6:].strip()
            elif line.startswith("old: "):
                old = line[5:]
            elif line.startswith("new:"):
                edit.changes.append(Change(file, old, line[4:].removeprefix(" ")))
    return edit


def apply(crate, changes):
    """Makes the changes in the copy, and tells what stood there."""
    kept = {}
    for file, old, new in changes:
        path = f"{crate}/{file}"
        with open(path, encoding="utf-8") as source:
            text = source.read()
        kept.setdefault(path, text)
        if text.count(old) != 1:
            sys.exit(f"{file}: this stands there {text.count(old)} times: {old}")
        with open(path, "w", encoding="utf-8") as source:
            source.write(text.replace(old, new))
    return kept


def put_back(kept):
    """Undoes what `apply` has changed."""
    for path, text in kept.items():
        with open(path, "w", encoding="utf-8") as source:
            source.write(text)


NAME = re.compile(r"has no (field|`)|is not in scope|not found|was not (admitted|checked)")


def by_a_name(name, functions, told):
    """Those of the functions whose proof files have no other error than that a name is gone. That shows nothing of a
    clause, unless a goal of theirs is open too, which the check tells by its line in the source: read it, and let the
    wrong body keep the names."""
    for function in sorted(functions):
        path = function.removeprefix(f"{name}::").replace("::", "/")
        errors = re.findall(rf"(?m)^\./proofs/{path}/\w+\.antt:\S+ error: (.*)$", told)
        if errors and all(map(NAME.search, errors)) and f"fn {function}: no proof: expected" not in told:
            yield function.removeprefix(f"{name}::")


def refused(name, crate):
    """The functions of whose own goals the check leaves one open, or of whose own answers it refuses one, and those of
    them of which that may show nothing. It goes past open goals, since else a caller is not tried where a function that
    it calls was refused. A body whose form the prover does not cover shows nothing of a clause, and is not among
    them."""
    check = subprocess.run(["rt", "check", "--jobs", "1", "--allow-holes"], cwd=crate, stdin=subprocess.DEVNULL,
                           stdout=subprocess.PIPE, stderr=subprocess.STDOUT, text=True)
    pattern = r"(?m)^fn (\S+): (?:not proved(?!;)|no proof: expected(?!.*the borrow checker does not cover))"
    own = set(re.findall(pattern, check.stdout))
    for function, why in re.findall(r"(?m)^fn (\S+): not proved; it stands on (.*)$", check.stdout):
        path = function.removeprefix(f"{name}::").replace("::", ".")
        if f"`Rattle.{name}.proofs.{path}.Answers." in why:
            own.add(function)
    return own, [*by_a_name(name, own, check.stdout)]


def edits(name):
    """The titles of a crate's edit files, what stands in each, and whether it is one of must-fail."""
    for folder in ("must-fail", "plants"):
        for path in sorted(glob.glob(f"crates/{name}/{folder}/*.edit")):
            yield os.path.basename(path)[:-5], parts(path), folder == "must-fail"


def changed_function(crate, change):
    """The function that a pair changes, and the type and the trait of its `impl`, each empty where it has none."""
    with open(f"{crate}/{change.file}", encoding="utf-8") as source:
        front = source.read().partition(change.old)[0] + change.old
    functions = re.findall(r"(?m)^\s*(?:pub(?:\([a-z]+\))? )?fn (\w+)", front)
    impls = re.findall(r"(?m)^(?:impl(?:<.*?>)? (?:(\w+)(?:<.*?>)? for )?(\w+)|\})", front)
    trait, owner = impls[-1] if impls else ("", "")
    return owner, trait, functions[-1] if functions else ""


def is_of(function, changed):
    """Whether `module::function`, `module::Type::function` or `module::TypeTrait::function` is the changed function:
    between `Type` and `Trait` stand the arguments of the type, if it has any."""
    owner, trait, last = changed
    *front, name = function.split("::")
    own = front[-1] if front and front[-1][:1].isupper() else ""
    is_trait = bool(trait) and own.startswith(owner) and own.endswith(trait)
    return name == last and (own == owner or is_trait)


def named_bodies(crate):
    """The wrong bodies of a crate that have a name."""
    for title, edit, is_in_gate in edits(crate):
        places = [(changed_function(f"crates/{crate}", change), change) for change in edit.changes]
        for function, name in edit.named.items():
            own = [change for changed, change in places if is_of(function, changed)]
            if len(edit.refused) == 1:
                own = edit.changes
            if not own:
                sys.exit(f"{title}: no pair changes {function}")
            yield Body(crate, title, function, name, own, len(edit.changes) - len(own), is_in_gate)


def is_refused(body, crate):
    """Whether the prover refuses the function once only its own pairs are applied to the copy."""
    kept = apply(crate, body.changes)
    own, unsure = refused(body.crate, crate)
    put_back(kept)
    is_good = f"{body.crate}::{body.function}" in own
    told = "refused" if is_good else "NOT refused"
    told += ", perhaps for a name alone" if body.function in unsure else ""
    print(f"{body.crate}, {body.name}: {body.function} {told}", flush=True)
    return is_good


def try_named(crates):
    """Tries each named body that the gate does not try by itself. The status."""
    passed = failed = 0
    for crate in crates:
        bodies = [body for body in named_bodies(crate) if body.others or not body.is_in_gate]
        if not bodies:
            continue
        with tempfile.TemporaryDirectory() as folder:
            copy = copied(crate, folder)
            results = [is_refused(body, copy) for body in bodies]
        passed, failed = passed + sum(results), failed + len(results) - sum(results)
    print(f"{passed} passed, {failed} failed", flush=True)
    return int(failed > 0)


def list_named(crates):
    """Prints the named bodies. The status."""
    for body in (body for crate in crates for body in named_bodies(crate)):
        how = f"beside {body.others} other pairs" if body.others else "alone in its file"
        print(f"{body.name}: {body.crate} {body.function}, {how} ({body.title})")
    return 0


def try_files(name, picked):
    """Tries the edit files of a crate, or those that are picked. The status."""
    bad = False
    with tempfile.TemporaryDirectory() as folder:
        crate = copied(name, folder)
        for title, edit, _ in edits(name):
            if picked and title not in picked:
                continue
            kept = apply(crate, edit.changes)
            own, unsure = refused(name, crate)
            put_back(kept)
            missed = [it for it in edit.refused if f"{name}::{it}" not in own]
            bad = bad or bool(missed) or not own
            told = f"{len(own)} refused" + (f", but not {', '.join(missed)}" if missed else "")
            told += f"; perhaps for a name alone: {', '.join(unsure)}" if unsure else ""
            print(f"{title}: {told}", flush=True)
    return int(bad)


def misfits(crate, changes):
    """Which of the changes of a file, made one after another, would replace no text or several."""
    texts = {}
    for file, old, new in changes:
        text = texts.get(file) or (TOP / crate / file).read_text(encoding="utf-8")
        if text.count(old) != 1:
            yield f"{file}: this stands there {text.count(old)} times: {old}"
        texts[file] = text.replace(old, new)


def try_texts():
    """Looks whether each file applies. The status."""
    tally = Tally()
    for crate in sorted(glob.glob("crates/*")):
        for title, edit, _ in edits(os.path.basename(crate)):
            tally.row(f"{crate}, {title}", "; ".join(misfits(crate, edit.changes)))
    tally.end()


def main():
    arguments = parser(__doc__)
    arguments.add_argument("--named", action="store_true", help="tries the wrong bodies that have a name, one by one")
    arguments.add_argument("--list", action="store_true", help="with --named: prints them and tries none")
    arguments.add_argument("--applies", action="store_true", help="looks whether each file applies, and tries none")
    arguments.add_argument(
        "names", nargs="*", metavar="NAME", help="with --named crates, else a crate and its edit files"
    )
    given = arguments.parse_args()
    os.chdir(TOP)
    if given.applies:
        return try_texts()
    need("rt")
    if given.named:
        crates = given.names or [os.path.basename(path) for path in sorted(glob.glob("crates/*"))]
        return (list_named if given.list else try_named)(crates)
    if not given.names:
        arguments.error("no crate is given")
    return try_files(given.names[0], given.names[1:])


if __name__ == "__main__":
    sys.exit(main())
