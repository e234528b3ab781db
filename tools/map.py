#!/usr/bin/env python3
"""Prints the map of the crates, for crates/README.md, from the heads of their files.

It begins with a line for each crate, by the rooms of crates.txt. Then, of each crate, it has what the root of src/ says
at its head, what its code uses and what only its definitions and proofs use, the modules of lemmas that other crates
may use, and each file of definitions with the first sentence of its first comment.

With --check it compares that with crates/README.md, and docs/pictures/crates.svg with what tools/crates.py draws, and
looks for each law, function, clause and file that the claims of a crate name, by the rules of tools/claims.py. Then the
last line is `N passed, M failed`, and the status is 1 if one differs or is not there."""
import re
import textwrap

import claims
from crates import draw
from rooms import rooms, stands_on, used_by_code
from scripting import TOP, Tally, parser

PAGE, DRAWING = "crates/README.md", "docs/pictures/crates.svg"
HEAD = """# The crates

Made by `tools/map.py > crates/README.md` from `crates.txt` and the heads of the files; `tools/map.py --check` compares.
Read [docs/CONTRIBUTING.md](../docs/CONTRIBUTING.md) first. In a crate `src/` is code with its contracts, `specs/` the
definitions that contracts cite, with laws that they need (listed here), `proofs/` lemmas and the answers that the
prover asked for. `must-fail/` and `plants/` have wrong bodies that the prover has to refuse; the gate tries those of
`must-fail/`.

## Contents

[The picture](../docs/pictures/crates.svg) has the same rooms, the first at the bottom.
"""


def paragraph(path, mark):
    """The first paragraph of the comment at the head of a file, as one line."""
    lines = []
    for line in path.read_text(encoding="utf-8").splitlines():
        text = line.removeprefix(mark).strip()
        if not line.startswith(mark) or not text or text.startswith("- "):
            break
        lines.append(text)
    return " ".join(lines)


def first_sentence(text):
    """The first sentence of a text."""
    return re.match(r".*?(?:\.(?= [A-Z])|$)", text)[0]


def wrapped(text, first="", rest=""):
    """A text in lines of at most 120 characters."""
    lines = textwrap.wrap(text, 120, initial_indent=first, subsequent_indent=rest, break_on_hyphens=False)
    return "\n".join(lines) + "\n"


def modules(crate):
    """The public modules of a crate's lemmas."""
    path = TOP / "crates" / crate / "proofs/Lib.antt"
    return re.findall(r"(?m)^pub mod (\w+)", path.read_text(encoding="utf-8")) if path.exists() else []


def definitions(crate):
    """An item for each file of definitions of a crate."""
    for path in sorted((TOP / "crates" / crate / "specs").glob("*.antt")):
        head = first_sentence(paragraph(path, "--"))
        if path.stem != "Lib" and head:
            yield wrapped(f"`{path.stem}`: {head}", "- ", "  ")


def root_of(crate):
    """What the root of a crate says at its head."""
    [root] = (it for it in (TOP / "crates" / crate / "src").glob("*.rt") if it.name in ("lib.rt", "main.rt"))
    return paragraph(root, "//!")


def title(crate):
    """The first sentence of the root of a crate, up to a colon or a semicolon."""
    return re.split(r"[:;] |\.$", first_sentence(root_of(crate)))[0]


def contents():
    """The list of rooms and crates, a line for each where it fits."""
    for room, (what, crates) in rooms().items():
        yield "\n" + wrapped(f"**[{room}](#{room})**: {what}") + "\n"
        yield from (wrapped(f"[{it}](#{it}): {title(it)}", "- ", "  ") for it in crates)


def links(names, below):
    """Links to crates, and the names of libraries of the kit."""
    return ", ".join(f"[{it}](#{it})" if it in below else f"`{it}`" for it in names)


def facts(crate, below):
    """The sentences about what a crate stands on."""
    own = [it for it in below[crate] if it in below]
    code, kit = used_by_code(crate), [it for it in below[crate] if it not in below]
    by_code, by_proofs = ([it for it in own if (it in code) == is_code] for is_code in (True, False))
    yield f"Its code uses {links(by_code, below)}." if by_code else ""
    yield f"Only its definitions and proofs use {links(by_proofs, below)}." if by_proofs else ""
    yield f"From the kit: {links(kit, below)}." if kit else ""
    lemmas = links([f"{it}" for it in modules(crate)], ())
    yield f"Lemmas for other crates: {lemmas}." if lemmas else ""
    yield f"[What is proved]({crate}/README.md)." if (TOP / "crates" / crate / "README.md").exists() else ""


def section(crate, below):
    """The section of a crate."""
    yield f"\n### {crate}\n\n" + wrapped(root_of(crate))
    said = " ".join(filter(None, facts(crate, below)))
    yield "\n" + wrapped(said) if said else ""
    items = "".join(definitions(crate))
    yield f"\n{items}" if items else ""


def room_sections(room, what, crates, below):
    """The sections of a room and of its crates."""
    yield f"\n## {room}\n\n" + wrapped(f"{what[:1].upper()}{what[1:]}.")
    for crate in crates:
        yield from section(crate, below)


def page():
    """The page."""
    parts = (room_sections(room, what, crates, stands_on()) for room, (what, crates) in rooms().items())
    return HEAD + "".join(contents()) + "".join(it for part in parts for it in part)


def main():
    arguments = parser(__doc__)
    arguments.add_argument("--check", action="store_true", help="compares both with their files")
    if not arguments.parse_args().check:
        print(page(), end="")
        return
    tally = Tally()
    drawing = "\n".join(draw()) + "\n"
    for name, text, tool in ((PAGE, page(), "tools/map.py"), (DRAWING, drawing, "tools/crates.py")):
        is_same = (TOP / name).read_text(encoding="utf-8") == text
        tally.row(name, None if is_same else f"it differs: run {tool} > {name}")
    for path in claims.pages():
        lost = [*claims.lost(path)]
        tally.row(path.relative_to(TOP), f"the crate has no {', '.join(lost)}" if lost else None)
    tally.end()


if __name__ == "__main__":
    main()
