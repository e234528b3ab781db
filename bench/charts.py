"""Axes, curves with bands, and strips of points, as parts of an SVG. bench/plots.py makes a picture of them."""
import math
import pathlib
import statistics
import sys

from cluster import TOP

sys.path.insert(0, str(pathlib.Path(TOP) / "tools"))
import svg  # noqa: E402

PANEL, HIGH = 400, 200  # pixels: the width and height of a panel
NAMES, MEDIANS = 90, 36  # what the names and the medians of strips take of the width
LIGHT = """\
.title{font-weight:bold;font-size:15px} .head{font-weight:bold} .small{font-size:12px;fill:#44505c}
.grid{stroke:#dde3e9;fill:none} .frame{stroke:#7d8b99;fill:none} .curve{fill:none;stroke-width:2} .spread{opacity:.16}
.older{stroke-dasharray:6 4} .ring{fill:#fff;stroke-width:1.6} .median{stroke-width:3}"""
DARK = """\
.small{fill:#aab6c2}
.grid{stroke:#2a333d} .frame{stroke:#74828f} .spread{opacity:.24} .ring{fill:#14191f}"""
# for a light and a dark scheme; the first three are those of locks
COLOURS = [("#1d4ed8", "#7aa7ff"), ("#0e7490", "#4dd0e1"), ("#7c3aed", "#c4a5ff")]
COLOURS += [("#c2410c", "#f6ad55"), ("#15803d", "#68d391"), ("#be123c", "#ff8fa3")]
SQUARE, TRIANGLE, DIAMOND = "m-4 -4h8v8h-8z", "m0 -5l5 9h-10z", "m0 -6l5 6l-5 6l-5 -6z"
STEPS = (1, 2, 5, 10)
MOST_TICKS = 11


def coloured(place):
    """The rules for a class `cN` of each colour, in one of the two schemes."""
    rules = "\n.curve.c{0},.ring.c{0},.median.c{0}{{stroke:{1}}} .spread.c{0},.mark.c{0}{{fill:{1}}}"
    return "".join(rules.format(number, pair[place]) for number, pair in enumerate(COLOURS))


def sheet():
    """The style sheet of all parts."""
    return svg.style(LIGHT + coloured(0), DARK + coloured(1))


class Look:
    """How one system is drawn: by its colour and the shape of its points, and dashed where it is an older program."""

    def __init__(self, name, colour, shape=None, is_older=False):
        self.name, self.colour, self.shape, self.is_older = name, f"c{colour % len(COLOURS)}", shape, is_older
        self.curve = f"curve {self.colour}{' older' if is_older else ''}"

    def mark(self, x, y):
        """A point."""
        if self.shape:
            return f'<path class="mark {self.colour}" d="M{x} {y}{self.shape}"/>'
        return f'<circle class="{"ring" if self.is_older else "mark"} {self.colour}" cx="{x}" cy="{y}" r="4"/>'


def neighbour(figure, is_above):
    """The next 1, 2 or 5 times a power of ten that is not below the figure, or not above it."""
    decade = 10.0 ** math.floor(math.log10(figure))
    steps = [step * decade for step in STEPS]
    if is_above:
        return min(it for it in steps if it >= figure * 0.9999)
    return max(it for it in steps if it <= figure * 1.0001)


class Linear:
    """An axis from 0 to above a figure."""

    def __init__(self, figures, start, end):
        self.start, self.end, self.high = start, end, neighbour(max(figures), True)

    def __call__(self, figure):
        return round(self.start + figure / self.high * (self.end - self.start), 1)

    def ticks(self):
        return [self.high * it / 5 for it in range(6)]


class Log:
    """A logarithmic axis. Where each figure has a tick, it goes from the least of them to the greatest."""

    def __init__(self, figures, start, end, each=False):
        self.each, self.start, self.end = sorted(set(figures)) if each else [], start, end
        self.low, self.high = min(figures), max(figures)
        if not each:
            self.low, self.high = neighbour(self.low, False), neighbour(self.high, True)

    def __call__(self, figure):
        share = math.log(figure / self.low) / (math.log(self.high / self.low) or 1)
        return round(self.start + share * (self.end - self.start), 1)

    def ticks(self):
        """At 1, 2 and 5 times the powers of ten, or at these alone where that would be many."""
        return self.each or (fine if len(fine := self.within(STEPS[:3])) <= MOST_TICKS else self.within(STEPS[:1]))

    def within(self, steps):
        decades = range(math.floor(math.log10(self.low)), math.ceil(math.log10(self.high)) + 1)
        found = (step * 10.0**decade for decade in decades for step in steps)
        return [it for it in found if self.low * 0.9999 <= it <= self.high * 1.0001]


def short(figure):
    """A figure in a few signs."""
    return f"{figure:,.0f}" if figure >= 10 else f"{figure:.3g}"


def in_bytes(figure):
    """Bytes in a few signs."""
    return f"{short(figure / 1e6)} MB" if figure >= 1e6 else f"{short(figure / 1e3)} kB"


class Panel:
    """A chart whose upper left corner is there."""

    def __init__(self, x, y, title):
        self.x, self.y, self.wide = x, y, PANEL
        self.parts = [svg.text(x, y - 12, title, "head")]

    def column(self, scale, label):
        """A line of the grid at each tick of the axis that goes to the right."""
        for tick in scale.ticks():
            self.parts.append(f'<path class="grid" d="M{scale(tick)} {self.y}v{HIGH}"/>')
            self.parts.append(svg.text(scale(tick), self.y + HIGH + 18, label(tick), "small", "middle"))

    def row(self, scale, label):
        """A line of the grid at each tick of the axis that goes up."""
        for tick in scale.ticks():
            self.parts.append(f'<path class="grid" d="M{self.x} {scale(tick)}h{self.wide}"/>')
            self.parts.append(svg.text(self.x - 6, scale(tick) + 4, label(tick), "small", "end"))

    def frame(self, words):
        """The two axes, and what the one that goes to the right is of."""
        self.parts.append(f'<path class="frame" d="M{self.x} {self.y}v{HIGH}h{self.wide}"/>')
        self.parts.append(svg.text(self.x + self.wide / 2, self.y + HIGH + 36, words, "small", "middle"))

    def curves(self, series, across, up, words):
        """A curve for each look, of the figures of all rounds by place. Each axis has a scale and a form of labels."""
        places = [place for line in series.values() for place in line]
        figures = [it for line in series.values() for all_rounds in line.values() for it in all_rounds]
        xs, ys = across[0](places, self.x, self.x + self.wide), up[0](figures, self.y + HIGH, self.y)
        self.column(xs, across[1])
        self.row(ys, up[1])
        for look, line in series.items():
            self.curve(look, [(xs(place), [ys(it) for it in all_rounds]) for place, all_rounds in sorted(line.items())])
        self.frame(words)

    def curve(self, look, line):
        """A band from the least to the greatest figure of each place, and a curve through the medians."""
        edges = [f"{x} {min(ys)}" for x, ys in line] + [f"{x} {max(ys)}" for x, ys in reversed(line)]
        middle = [(x, round(statistics.median(ys), 1)) for x, ys in line]
        through = "L".join(f"{x} {y}" for x, y in middle)
        self.parts.append(
            f'<path class="spread {look.colour}" d="M{"L".join(edges)}z"/>'
            f'<path class="{look.curve}" d="M{through}"/>'
        )
        self.parts += [look.mark(x, y) for x, y in middle]

    def strips(self, series, words):
        """A strip for each look, with its name, a point for each figure, and the median as a line and at the right."""
        self.x, self.wide = self.x + NAMES, PANEL - NAMES - MEDIANS
        scale = Linear([it for figures in series.values() for it in figures], self.x, self.x + self.wide)
        self.column(scale, short)
        for place, (look, figures) in enumerate(series.items()):
            self.strip(look, figures, round(self.y + HIGH / len(series) * (place + 0.5), 1), scale)
        self.frame(words)

    def strip(self, look, figures, y, scale):
        median = statistics.median(figures)
        self.parts.append(svg.text(self.x - 8, y + 4, look.name, "small", "end"))
        self.parts += [look.mark(scale(it), y) for it in figures]
        self.parts.append(f'<path class="median {look.colour}" d="M{scale(median)} {y - 9}v18"/>')
        self.parts.append(svg.text(self.x + PANEL - NAMES, y + 4, f"{median:.2f}", "small", "end"))


def legend(looks, y, wide):
    """The looks with their names, in one row or more, and where the last row is."""
    parts, x = [], 8
    for look in looks:
        taken = 48 + svg.width(look.name)
        x, y = (8, y + 22) if x + taken > wide else (x, y)
        parts += [f'<path class="{look.curve}" d="M{x} {y}h30"/>', look.mark(x + 15, y)]
        parts.append(svg.text(x + 36, y + 4, look.name))
        x += taken
    return parts, y


if __name__ == "__main__":
    print(__doc__)
