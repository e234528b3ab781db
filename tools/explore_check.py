#!/usr/bin/env python3
"""Makes the page of tools/explore.py for each script of the tour and for each that a page links, and checks it.

A page has to be one file that names nothing outside itself, to hold what NAME.out says, and to show the facts of this
script. Where there is a Chromium, each page is opened there, at a desktop's and a phone's width, once in either colour
scheme: keys step to the end and back, and a click or Enter opens a node and a datagram.

The last line is `N passed, M failed`, and the status is 1 if one failed."""
import contextlib
import html.parser
import itertools
import json
import pathlib
import re
import tempfile

import browser
from explore import explore
from scripting import HINTS, TOP, Tally, with_program

# At an event of a script a node holds this; votes by the places of their proposals.
FACTS = (
    ("tour_1_alone", 6, 1, {"executed": 0, "votes": []}),
    ("tour_1_alone", 7, 1, {"executed": 0, "votes": [0]}),
    ("tour_1_alone", 8, 1, {"executed": 1, "kept": [1], "synced": []}),
    ("tour_3_stop", 12, 2, {"votes": [0], "executed": 0}),
    ("tour_3_stop", 13, 1, {"life": "stopped", "votes": [0]}),
    ("tour_3_stop", 14, 2, {"votes": [0]}),
    ("tour_3_stop", 19, 2, {"votes": [1]}),
    ("tour_3_stop", 24, 2, {"executed": 1}),
    ("tour_4_rivals", 21, 2, {"votes": [1]}),
    ("tour_5_members", 17, 1, {"members": ["n1", "n2", "n3"]}),
    ("tour_5_members", 26, 1, {"members": ["n1", "n3"], "executed": 3}),
    ("tour_6_sync", 8, 1, {"life": "down by fault 7, device", "votes": [0]}),
    ("tour_7_snapshot", 8, 1, {"inspect": [
        "disk a 160 of 190 bytes synced", "disk b 0 of 0 bytes synced", "executed 1",
        "members 1:7001", "names 1 of 512", "clients 1 of 256", "held db 7 1",
    ]}),
    ("tour_7_snapshot", 10, 1, {"life": "stopped by its trap", "executed": 1, "kept": [1]}),
    ("tour_7_snapshot", 14, 1, {"life": "up", "executed": 1, "kept": []}),
    ("tour_9_newcomer", 16, 2, {"executed": 0, "members": []}),
    ("tour_9_newcomer", 20, 2, {"executed": 3, "members": ["n1", "n2"], "kept": []}),
    ("tour_10_group", 11, 1, {"votes": [0, 1], "executed": 0}),
    ("tour_10_group", 13, 2, {"life": "stopped by its trap", "votes": []}),
    ("tour_10_group", 16, 2, {"votes": [0, 1], "executed": 0}),
    ("tour_10_group", 17, 1, {"executed": 2, "kept": [1, 2], "synced": []}),
    ("tour_10_group", 19, 3, {"executed": 2, "votes": []}),
    ("two_changes", 18, 1, {"executed": 0, "votes": [1]}),
    ("two_changes", 22, 1, {"executed": 2, "members": ["n1", "n2", "n3", "n4"]}),
    ("two_changes", 22, 1, {"inspect": [
        "disk a 267 of 298 bytes synced", "disk b 0 of 0 bytes synced", "executed 2",
        "members 1:7001 2:7002 3:7003 4:7004", "members from 4 1:7001 2:7002 4:7004",
        "names 0 of 512", "clients 2 of 256",
    ]}),
    ("two_changes", 32, 1, {"life": "stopped by its trap", "executed": 2, "kept": [1, 2]}),
    ("two_changes", 40, 4, {"executed": 0, "votes": [2, 3]}),
    ("two_changes", 50, 2, {"executed": 3, "members": ["n1", "n2", "n4"]}),
    ("two_changes", 56, 1, {"executed": 3, "kept": []}),
)
DESKTOP, PHONE = (1280, 900), (375, 812)
# What a page shows: its mark, its sentences, the line of the script, how many nodes, and by how much it is too wide.
SHOWN = """[
  location.hash, [...document.querySelectorAll("#says p")].map(it => it.textContent),
  document.querySelector("#lines [aria-current]").textContent, document.querySelectorAll(".node").length,
  document.documentElement.scrollWidth - document.documentElement.clientWidth]"""
OPENED = "document.getElementById('details').open && document.getElementById('details-body').textContent.length > 40"


def scripts():
    """The scripts of the tour, and those of examples/ for which TOUR.md names tools/explore.py."""
    named = re.findall(r"tools/explore\.py examples/(\w+)\.txt", (TOP / "docs/TOUR.md").read_text())
    return sorted({*(TOP / "examples").glob("tour_*.txt"), *(TOP / "examples" / f"{name}.txt" for name in named)})


class Reader(html.parser.HTMLParser):
    """What a page names outside itself, its elements that are not closed in order, and its data."""

    EMPTY = ("meta", "input", "path", "li")

    def __init__(self, text):
        super().__init__()
        self.names, self.open, self.data = [], [], ""
        self.feed(text)

    def handle_starttag(self, tag, attributes):
        named = [value for name, value in attributes if name in ("src", "href", "action")]
        self.names += [value for value in named if not value.startswith("#")]
        self.open += [] if tag in self.EMPTY else [(tag, dict(attributes).get("id"))]

    def handle_endtag(self, tag):
        if tag not in self.EMPTY and self.open and self.open[-1][0] == tag:
            self.open.pop()

    def handle_data(self, text):
        if self.open and self.open[-1] == ("script", "data"):
            self.data += text


def wrong_file(script, text):
    """What is wrong with a page as a file, if anything."""
    reader = Reader(text)
    shown = json.loads(reader.data)
    printed = [line for event in shown["events"] for line in shown["texts"][event["prints"]]]
    lines = script.with_suffix(".out").read_text().splitlines()
    expected = [line for line in lines if not line.startswith("done ")]
    if reader.open or reader.names or "@import" in text or "url(" in text:
        return f"open elements {reader.open}, names {reader.names}"
    return None if printed == expected else f"its printed lines are not those of {script.stem}.out"


def holds(shown, event, node, keys):
    """What a node holds under these keys after an event."""
    state = shown["states"][shown["after"][event][str(node)]]
    told = {"votes": [vote["proposal"] for vote in state["votes"]], "inspect": shown["texts"][state["inspect"]]}
    return {key: told.get(key, state[key]) for key in keys}


def wrong_facts(script, text):
    """What is wrong with what nodes hold, if anything."""
    shown = json.loads(Reader(text).data)
    for name, event, node, fact in FACTS:
        if name == script.stem and (found := holds(shown, event, node, fact)) != fact:
            return f"after event {event} node {node} has {found} and not {fact}"
    return None


def wrong_step(page, event, shown):
    """What is wrong with how a page shows an event, if anything."""
    told = page.value(SHOWN)
    line = f"{event}{shown['events'][event]['line']}"
    expected = [f"#{event}", shown["events"][event]["says"], line, len(shown["after"][event]), 0]
    return None if told == expected else f"event {event} shows {told} and not {expected}"


def wrong_walk(page, shown):
    """What is wrong on the way to the end and back, if anything."""
    last = len(shown["events"]) - 1
    forward = [("ArrowRight", event) for event in range(1, last + 1)]
    back = [("ArrowLeft", event) for event in range(last - 1, -1, -1)]
    for key, event in [("Home", 0), *forward, *back, ("End", last)]:
        page.press(key)
        if wrong := wrong_step(page, event, shown):
            return f"{key}: {wrong}"
    return None


def by_enter(page, selector):
    """Focuses what the selector finds and presses Enter."""
    page.value(f"document.querySelector('{selector}').focus()")
    page.press("Enter")


def wrong_inspect(page, event, shown):
    """What is wrong with how the details of the first node tell its disks, if anything."""
    state = min(shown["after"][event].items(), key=lambda it: int(it[0]))[1]
    expected = "\n".join(shown["texts"][shown["states"][state]["inspect"]])
    told = page.value("document.getElementById('inspect').textContent")
    return None if told == expected else f"event {event} tells {told!r} of the disks and not {expected!r}"


def wrong_details(page, event, shown):
    """What is wrong with what a node and a datagram open by a click and by Enter, if anything."""
    for selector, how in itertools.product((".node > button", "#way button"), (browser.Page.click, by_enter)):
        how(page, selector)
        if not page.value(OPENED):
            return f"{selector} opens nothing by {how.__name__}"
        if selector.startswith(".node") and (wrong := wrong_inspect(page, event, shown)):
            return wrong
        page.press("Escape")
        if page.value("document.getElementById('details').open"):
            return f"Escape does not close what {selector} opens"
    return None


def wrong_in_browser(page, path, shots):
    """What is wrong with a page in the browser, if anything."""
    shown = json.loads(Reader(path.read_text()).data)
    page.pipe.events.clear()
    for (width, height), scheme in ((DESKTOP, "light"), (PHONE, "dark")):
        page.appear(width, height, scheme)
        first = next(place for place, event in enumerate(shown["events"]) if event["if"])  # with a datagram under way
        page.open(path, f"#{first}")
        wrong = wrong_step(page, first, shown) or wrong_details(page, first, shown) or wrong_walk(page, shown)
        if shots:
            page.shoot(shots / f"{path.stem}_{width}_{scheme}.png", whole=True)
        if wrong:
            return f"{width} wide, {scheme}: {wrong}"
    return next(page.faults(), None)


def check_browser(tally, paths, shots):
    """Opens each page in a Chromium, where there is one."""
    chromium = browser.found()
    if not chromium:
        print(f"the pages in a browser: not tried, chromium is not on the path: {HINTS['chromium']}", flush=True)
        return
    try:
        with browser.a_page(chromium) as page:
            for path in paths:
                tally.row(f"{path.name} in a browser", wrong_in_browser(page, path, shots))
    except (OSError, EOFError, RuntimeError) as why:
        tally.row(f"{chromium}", f"{why}")


def main():
    arguments = with_program(__doc__)
    shots = {"type": pathlib.Path, "metavar": "FOLDER", "help": "keep the pages and pictures of them here"}
    arguments.add_argument("--shots", **shots)
    given, tally = arguments.parse_args(), Tally()
    with contextlib.ExitStack() as stack:
        folder = given.shots or pathlib.Path(stack.enter_context(tempfile.TemporaryDirectory()))
        folder.mkdir(parents=True, exist_ok=True)
        for script in scripts():
            text = explore([given.program], script)
            (folder / f"{script.stem}.html").write_text(text)
            tally.row(f"{script.stem}.html", wrong_file(script, text) or wrong_facts(script, text))
        check_browser(tally, [folder / f"{script.stem}.html" for script in scripts()], given.shots)
    tally.end()


if __name__ == "__main__":
    main()
