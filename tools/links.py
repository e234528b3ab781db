#!/usr/bin/env python3
"""Checks the links of the pages, and the files of crates and the names that they cite.

The pages are the files *.md of the repository. Each link to a file has to lead to one, and its anchor to a heading of
it. Each file in backticks, as `lk_node/specs/Steps.antt`, has to stand below crates/; one without a folder has to stand
somewhere there. Each name in backticks that has an underscore or a capital letter after a small one, as `is_honest` or
`Node::step`, has to stand in a file that is no page. CHANGELOG.md may cite names that are gone.

The last line is `N passed, M failed`, of pages, and the status is 1 if one failed."""
import re

from scripting import TOP, Tally, parser

DROPPED = {".git", "out", "target", "__pycache__", "node_modules"}
FENCE = re.compile(r"(?ms)^(?:```|    ```).*?^\s*```$")
LINK = re.compile(r"(?<!\\)\]\(([^)\s]+)\)")
NAMED = re.compile(r"`(?:crates/)?((?:lk_\w+/)?(?:[\w-]+/)*[\w-]+\.(?:rt|antt|edit))\b[^`]*`")

CITED = re.compile(r"`((?:\w+(?:::|\.))*\w+)`")
NAME = re.compile(r"\w*(?:[a-z]_[a-z]|[a-z][A-Z])\w*")
WORD = re.compile(r"\w+")


def pages():
    """The pages."""
    for path in sorted(TOP.rglob("*.md")):
        if not DROPPED & {*path.relative_to(TOP).parts}:
            yield path


def anchors(path):
    """The anchors of a page's headings."""
    for title in re.findall(r"(?m)^#+ (.+)$", FENCE.sub("", path.read_text(encoding="utf-8"))):
        yield re.sub(r"[^\w\- ]", "", title.lower()).replace(" ", "-")


def broken(page, link):
    """What is wrong with a link of a page, if anything."""
    file, _, anchor = link.partition("#")
    target = (page.parent / file).resolve() if file else page
    if re.match(r"\w+:", link):
        return None
    if not target.exists():
        return f"no file for the link {link}"
    return f"no heading for the link {link}" if anchor and anchor not in anchors(target) else None


def missing(name, files):
    """What is wrong with a file that a page names, if anything. A name with a word in capitals stands for several."""
    is_there = re.search(r"\b[A-Z]{2,}\b", name) or any(it == name or it.endswith(f"/{name}") for it in files)
    return None if is_there else f"no file {name}"


def words():
    """The words of all files that are no pages."""
    found = set()
    for path in TOP.rglob("*.*"):
        if path.suffix != ".md" and not DROPPED & {*path.relative_to(TOP).parts} and path.is_file():
            found.update([path.stem, *WORD.findall(path.read_text(encoding="utf-8", errors="replace"))])
    return found


def unknown(cited, known):
    """What is wrong with a name that a page cites, if anything."""
    strange = [it for it in WORD.findall(cited) if NAME.fullmatch(it) and it not in known]
    return f"nothing has the name {strange[0]}" if strange else None


def wrong(page, files, known):
    """What is wrong with a page: the first thing."""
    text = FENCE.sub("", page.read_text(encoding="utf-8"))
    found = [broken(page, it) for it in LINK.findall(text)] + [missing(it, files) for it in NAMED.findall(text)]
    found += [unknown(it, known) for it in CITED.findall(text) if page.name != "CHANGELOG.md"]
    return next(filter(None, found), None)


def main():
    parser(__doc__).parse_args()
    tally = Tally()
    files = [str(it.relative_to(TOP / "crates")) for it in (TOP / "crates").rglob("*.*")]
    known = words()
    for page in pages():
        tally.row(page.relative_to(TOP), wrong(page, files, known))
    tally.end()


if __name__ == "__main__":
    main()
