#!/usr/bin/env python3
"""Makes a page that steps through a script of world mode, as one HTML file on standard output.

The page asks no network. It shows the script, what each event does in words and as a picture, what each node then holds
and what of it is synced, the datagrams under way, and the list. All of it was printed by `locks sim`, in a run of the
script or in one of its first lines and a few more. A click on a node shows what `locks inspect` would print of its
disks and what a restart would execute; a click on a datagram, what would come of it now. PAGE.html#17 opens the page
after event 17. The first line of the script is event 0."""
import html
import json
import pathlib
import re
import sys

from draw import is_refused
from scripting import TOP, a_program, parser
from sentences import ANSWERS, KINDS, said, sentences
from story import Story

PARTS = TOP / "tools" / "explorer"


class Texts:
    """Numbers for lists of lines, so that each stands in the page once."""

    def __init__(self):
        self.numbers = {}

    def number(self, lines):
        return self.numbers.setdefault(tuple(lines), len(self.numbers))


def events_of(story, texts):
    """Each event: its line, what it prints, that in sentences, the node that it concerns, and what would be printed if
    a datagram under way came now."""
    asked = story.requests()
    for event, (line, output, _) in enumerate(story.told):
        before = story.states[event - 1] if event else {}
        touched = [node for node, state in story.states[event].items() if before.get(node) is not state]
        under_way = [] if is_refused(output) else story.under_way(event)
        may_come = {it.number: texts.number(story.if_it_came(event, it)) for it in under_way}
        yield {
            "line": line, "prints": texts.number(output), "says": sentences(line, output, story.sent, asked),
            "node": touched[0] if touched else None, "if": may_come,
        }


def states_of(story, texts):
    """The states of nodes, each once, and which one each node has after each event."""
    states, places = [], {}
    for state in (state for after in story.states for state in after.values()):
        if id(state) not in places:
            places[id(state)] = len(states)
            runs = [{**run, "prints": texts.number(run["prints"])} for run in state["runs"]]
            states.append({**state, "inspect": texts.number(state["inspect"]), "runs": runs})
    return states, [{node: places[id(state)] for node, state in after.items()} for after in story.states]


def tables_of(story):
    """What each name comes to after each position, in words."""
    return [table and [[name, said(ANSWERS, answer)] for name, answer in table] for table in story.tables()]


def data(story, name):
    """All that the page shows."""
    texts = Texts()
    shown = list(events_of(story, texts))
    states, after = states_of(story, texts)
    return {
        "name": name, "events": shown, "states": states, "after": after, "kinds": KINDS,
        "sent": {it.number: vars(it) for it in story.sent.values()},
        "ballots": story.ballots, "proposals": story.proposals,
        "asked": story.requests(), "tables": tables_of(story), "texts": list(texts.numbers),
    }


def page(story, name):
    """The page: its parts, and what they show."""
    part = lambda kind: (PARTS / f"page.{kind}").read_text()
    shown = json.dumps(data(story, name), separators=(",", ":"), ensure_ascii=False).replace("<", "\\u003c")
    told = "".join(f"<li>{html.escape(line)}" for line in story.lines)
    fill = {"NAME": html.escape(name), "STYLE": part("css"), "SCRIPT": part("js"), "DATA": shown, "LINES": told}
    return re.sub(r"{{(\w+)}}", lambda word: fill[word[1]], part("html"))


def explore(program, script):
    """The page of a script, by the program whose words these are."""
    text = script.read_text()
    if not text.startswith("genesis "):
        sys.exit(f"{script}: a script of world mode begins with the line genesis CLUSTER ALPHA NODE:PORT ..")
    return page(Story(program, text), script.stem)


def main():
    arguments = parser(__doc__)
    arguments.add_argument("script", type=pathlib.Path, help="the script")
    program = {"nargs": "?", "default": TOP / "locks", "type": a_program, "help": "the program, ./locks by default"}
    arguments.add_argument("program", **program)
    given = arguments.parse_args()
    if not given.script.is_file():
        arguments.error(f"no script: {given.script}")
    sys.stdout.write(explore([given.program], given.script))


if __name__ == "__main__":
    main()
