#!/usr/bin/env python3
"""Draws the figures of bench/compare.py once more, FOLDER/compare.svg from FOLDER/compare.csv, and prints the medians
of the loads as tables, each with the least and the greatest of the rounds.

A curve is the median of the rounds, and its band goes from the least to the greatest of them. In the strips each point
is one start, or one death of a leader, and the line is their median."""
import collections
import csv
import functools
import pathlib
import statistics
import sys

import charts
from charts import Linear, Log, Look, Panel, in_bytes, short, svg
from cluster import TOP
from scripting import parser

WIDE, LEFT, COLUMN, PITCH = 1000, 66, 478, 282
PICTURES = pathlib.Path(TOP) / "docs" / "pictures"
DISKS = {"plain": "disk as it is", "slow": "2 ms added to each sync"}
PEERS = {"etcd": (3, charts.SQUARE), "ZooKeeper": (4, charts.TRIANGLE), "Redis, one node": (5, charts.DIAMOND)}
LOADS = {
    "pairs_per_second": "Pairs per second",
    "p50_ms": "Median of a pair in ms",
    "p99_ms": "99th percentile of a pair in ms",
}
HELD = {"memory_bytes": "Memory of the largest node", "file_bytes": "Files of the largest node"}
SECONDS = {
    ("start", "ready_ms"): ("Start of all nodes until a client is answered", "seconds, 8 clients"),
    ("death", "gap_ms"): ("Death of the leader until a client is answered", "seconds, 8 clients"),
}


class Figures:
    """The rows of compare.csv."""

    def __init__(self, path):
        with open(path, newline="", encoding="utf-8") as file:
            self.rows = list(csv.DictReader(file))
        self.looks = looks(dict.fromkeys(row["system"] for row in self.rows if row["system"]))

    def of(self, what, figure, disk="plain"):
        """The system, row and figure of each row of a kind that has the figure, system by system."""
        for name, look in self.looks.items():
            for row in self.rows:
                if (row["system"], row["what"], row["disk"]) == (name, what, disk) and float(row[figure] or 0):
                    yield look, row, float(row[figure])

    def lines(self, what, figure, along, disk="plain"):
        """For each look the figures of all rounds by their places."""
        series = collections.defaultdict(lambda: collections.defaultdict(list))
        for look, row, it in self.of(what, figure, disk):
            series[look][float(row[along])].append(it)
        return series

    def seconds(self, what, figure):
        """For each look its milliseconds as seconds."""
        series = collections.defaultdict(list)
        for look, _, it in self.of(what, figure):
            series[look].append(it / 1000)
        return series

    def caption(self):
        """Lines on what was measured, and where."""
        loads, timed = [float(row["load"]) for row in self.rows], [row for row in self.rows if row["what"] == "load"]
        told = [row["note"] for row in self.rows if row["what"] == "note"]
        rounds, failed = {row["round"] for row in timed}, sum(int(float(row["errors"])) for row in timed)
        seconds = statistics.median([float(row["seconds"]) for row in timed] or [0])
        lasting = (row for row in timed if float(row["seconds"]))
        busy = max((float(row["processor_seconds"]) / float(row["seconds"]) for row in lasting), default=0)
        told.append(
            f"Rounds: {len(rounds)}, of {seconds:.2g} s a point. "
            f"The load generator used at most {busy:.2f} processors. Pairs that failed: {failed}."
        )
        return [*told, f"Load average of the machine during the run, which includes it: {min(loads)} to {max(loads)}."]

    def words(self):
        """What the panels of pairs per second show at the greatest number of clients."""
        told = ["Pairs per second, medians."]
        for disk, name in DISKS.items():
            series = self.lines("load", "pairs_per_second", "clients", disk)
            tops = ((look.name, max(line), line) for look, line in series.items())
            shown = (f"{it} at {most:.0f} clients {short(statistics.median(line[most]))}" for it, most, line in tops)
            told.append(f"{name}: {'; '.join(shown)}.")
        return " ".join(told)


def looks(names):
    """The look of each system. Programs of locks with the same alpha have one colour."""
    colours = list(dict.fromkeys(name.replace(" before", "") for name in names if name not in PEERS))
    made = {}
    for name in names:
        colour, shape = PEERS.get(name) or (colours.index(name.replace(" before", "")) % 3, None)
        made[name] = Look(name, colour, shape, " before" in name)
    return made


def rows(figures):
    """The rows of the picture: for each panel its title, and what draws it, where there are figures."""
    clients, pairs = (functools.partial(Log, each=True), short), (Linear, short)
    for figure, title in LOADS.items():
        found = ((disk, figures.lines("load", figure, "clients", disk)) for disk in DISKS)
        how = (clients, (Log, short), "clients")
        yield [(f"{title}, {DISKS[disk]}", "curves", (it, *how)) for disk, it in found if it]
    found = ((*words, figures.seconds(*key)) for key, words in SECONDS.items())
    yield [(title, "strips", (it, words)) for title, words, it in found if it]
    found = ((title, figures.lines("growth", figure, "pairs")) for figure, title in HELD.items())
    yield [(title, "curves", (it, pairs, (Log, in_bytes), "pairs, 32 clients")) for title, it in found if it]


def picture(path):
    """The picture of the figures in a file."""
    figures = Figures(path)
    parts, y = charts.legend(figures.looks.values(), 54, WIDE)
    title = "Pairs of an acquire and a release: locks and its peers on one machine"
    parts[:0] = [svg.described(title, figures.words()), svg.text(8, 26, title, "title")]
    y += 50
    for row in filter(None, rows(figures)):
        for place, (title, kind, how) in enumerate(row):
            panel = Panel(LEFT + place * COLUMN, y, title)
            getattr(panel, kind)(*how)
            parts += panel.parts
        y += PITCH
    for line in figures.caption():
        parts.append(svg.text(8, y - 18, line, "small"))
        y += 18
    return svg.document(charts.sheet(), WIDE, y, parts)


def spread(found):
    """The median of figures, and if there are several the least and the greatest."""
    least, greatest = short(min(found)), short(max(found))
    return short(statistics.median(found)) + (f" ({least} to {greatest})" if len(found) > 1 else "")


def table(folder):
    """The lines of a table for each figure and disk: of each system the medians by clients, and their spread."""
    figures = Figures(folder / "compare.csv")
    for disk, name in DISKS.items():
        for figure, title in LOADS.items():
            series = figures.lines("load", figure, "clients", disk)
            clients = sorted({it for line in series.values() for it in line})
            if clients:
                yield from ("", f"{title}, {name}:", "", f"| clients | {' | '.join(f'{it:.0f}' for it in clients)} |")
                yield "|---|" + "---:|" * len(clients)
            for look, line in series.items():
                cells = (spread(line[it]) if it in line else "" for it in clients)
                yield f"| {look.name} | {' | '.join(cells)} |"


def draw(folder):
    """Draws the figures that a folder has."""
    (folder / "compare.svg").write_text(picture(folder / "compare.csv"), encoding="utf-8")


def main():
    arguments = parser(__doc__)
    arguments.add_argument("folder", nargs="?", type=pathlib.Path, default=PICTURES, help="docs/pictures if not given")
    folder = arguments.parse_args().folder
    if not (folder / "compare.csv").is_file():
        sys.exit(f"plots.py: no {folder / 'compare.csv'}; bench/compare.py makes it")
    draw(folder)
    print(*table(folder), sep="\n")


if __name__ == "__main__":
    main()
