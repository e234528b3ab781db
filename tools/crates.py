#!/usr/bin/env python3
"""Draws the rooms of crates.txt and their crates as SVG on standard output, the first room at the bottom.

In a room a line leads from a crate to each one on its left that it uses. Between two rooms an arrow has how many
pairs of crates use each other by code, and how many only by definitions and proofs. What only definitions and proofs
use is dashed. A line, or an arrow downwards, is left out where others lead there, by code if it is by code. An arrow
upwards is red: it goes against the order of the rooms."""
import html

from rooms import rooms, stands_on, used_by_code
from scripting import parser

BOX, COLUMN, ROW, HEAD, GAP = (156, 26), 184, 36, 26, 34  # pixels; GAP is between two rooms
LEFT, MARGIN, LANE = 16, 20, 84
FONT = 'font-family="sans-serif" font-size="13"'
HEADS = "".join(
    f'<marker id="{name}" viewBox="0 0 8 8" refX="7" refY="4" markerWidth="8" markerHeight="8" orient="auto">\n'
    f'<path d="M0 0L8 4L0 8z" fill="{colour}"/></marker>\n'
    for name, colour in (("down", "#456"), ("up", "#b32"))
)


class Crates:
    """The crates, and which of them stand on which."""

    def __init__(self):
        self.rooms, below = rooms(), stands_on()
        self.of = {crate: room for room, (_, crates) in self.rooms.items() for crate in crates}
        self.below = {crate: [it for it in on if it in self.of] for crate, on in below.items()}
        self.code = {crate: used_by_code(crate) for crate in below}

    def beside(self, crate):
        """Those of its own room that it stands on."""
        return [it for it in self.below[crate] if self.of[it] == self.of[crate]]

    def depth(self, crate):
        """How many crates of its room stand under it on the longest path."""
        return max((self.depth(it) + 1 for it in self.beside(crate)), default=0)

    def used(self, crate, by_code):
        """Those of its room that it stands on, or that its code uses."""
        return [it for it in self.beside(crate) if not by_code or it in self.code[crate]]

    def reached(self, crate, by_code):
        """All crates of its room that it stands on, directly or not, or that its code uses so."""
        used = self.used(crate, by_code)
        return set(used).union(*(self.reached(it, by_code) for it in used))

    def direct(self, crate):
        """Those of its room that it stands on, but for those to which other lines lead, by code if it is by code."""
        for it in self.beside(crate):
            by_code = it in self.code[crate]
            if not any(it in self.reached(other, by_code) for other in self.used(crate, by_code)):
                yield it

    def between(self):
        """For each two rooms of which one uses the other: how many pairs by code, and how many by proofs alone."""
        found = {}
        for crate, on in self.below.items():
            for it in on:
                if self.of[it] != self.of[crate]:
                    pair = found.setdefault((self.of[crate], self.of[it]), [0, 0])
                    pair[it not in self.code[crate]] += 1
        return found

    def arrows(self):
        """The pairs of rooms with an arrow."""
        order, found = list(self.rooms), self.between()
        for (one, other), (by_code, _) in found.items():
            through = order[order.index(other) + 1 : order.index(one)]
            ways = (found.get(pair) for it in through for pair in ((one, it), (it, other)))
            if not any(all(way and (way[0] or not by_code) for way in two) for two in zip(ways, ways)):
                yield one, other


def places(crates):
    """Where each room begins, from the top, and how high it is; and where the middle of each crate's box lies."""
    bands, at, y = {}, {}, MARGIN
    for room, (_, names) in reversed(crates.rooms.items()):
        columns = {}
        for it in names:
            columns.setdefault(crates.depth(it), []).append(it)
        height = HEAD + ROW * max(map(len, columns.values())) + 8
        bands[room] = y, height
        for column, inside in columns.items():
            for row, it in enumerate(inside):
                at[it] = LEFT + 12 + COLUMN * column + BOX[0] // 2, y + HEAD + ROW * row + ROW // 2
        y += height + GAP
    return bands, at, y - GAP + MARGIN


def dashes(is_code):
    return "" if is_code else ' stroke-dasharray="4 3"'


def room_lines(crates, bands, at, width):
    """The rooms, with the lines between their crates and the boxes."""
    for room, (y, height) in bands.items():
        words = html.escape(f"{room}: {crates.rooms[room][0]}")
        yield f'<rect x="{LEFT}" y="{y}" width="{width}" height="{height}" rx="8" fill="#f3f5f8" stroke="#bcc6d0"/>'
        yield f'<text x="{LEFT + 12}" y="{y + 18}" font-weight="bold">\n{words}</text>'
    for crate in at:
        for it in crates.direct(crate):
            (x, y), (u, v), style = at[crate], at[it], dashes(it in crates.code[crate])
            over = f"{(x + u) // 2} {(y + v) // 2 - ROW * (x - u > COLUMN)}"  # a long line is bent around boxes
            way = f"M{x - BOX[0] // 2} {y}Q{over} {u + BOX[0] // 2} {v}"
            yield f'<path d="{way}" fill="none" stroke="#789"{style}/>'
    for crate, (x, y) in at.items():
        place = f'x="{x - BOX[0] // 2}" y="{y - BOX[1] // 2}" width="{BOX[0]}" height="{BOX[1]}"'
        yield f'<rect {place} rx="5" fill="#fff" stroke="#567"/>'
        yield f'<text x="{x}" y="{y + 5}" text-anchor="middle">{crate}</text>'


def arrow(lane, one, other, pairs, x):
    """An arrow from a room to another one, in a lane beside them."""
    (y, height), (v, depth), is_up = one, other, one[0] > other[0]
    inset = min(14 + 12 * lane, height - 10, depth - 10)
    start, end = (y + inset, v + depth - inset) if is_up else (y + height - inset, v + inset)
    way = f"M{x} {start}H{x + 30 + LANE * lane}V{end}H{x + 3}"
    colour, name = ("#b32", "up") if is_up else ("#456", "down")
    ends = f'marker-end="url(#{name})"{dashes(pairs[0])}'
    yield f'<path d="{way}" fill="none" stroke="{colour}" {ends}/>'
    words = f"code {pairs[0]}", f"proofs {pairs[1]}"
    for line, word in enumerate(words):
        middle = (start + end) // 2 + 16 * line - 4
        yield f'<text x="{x + 36 + LANE * lane}" y="{middle}" fill="{colour}">{word}</text>'


def draw():
    """The lines of the picture."""
    crates = Crates()
    bands, at, height = places(crates)
    width = max(x for x, _ in at.values()) + BOX[0] // 2 + 12 - LEFT
    order = list(bands)
    steps = {pair: order.index(pair[1]) - order.index(pair[0]) for pair in crates.arrows()}
    others = sorted((it for it in steps if steps[it] != 1), key=lambda it: abs(steps[it]))
    lanes = [(0, it) for it in steps if steps[it] == 1] + [*enumerate(others, 1)]
    whole = LEFT + width + 40 + LANE * (len(others) + 1)
    yield f'<svg xmlns="http://www.w3.org/2000/svg" width="{whole}" height="{height}" {FONT}>'
    yield f"<defs>\n{HEADS}</defs>"
    yield f'<rect width="{whole}" height="{height}" fill="white"/>'
    yield from room_lines(crates, bands, at, width)
    for lane, (one, other) in lanes:
        yield from arrow(lane, bands[one], bands[other], crates.between()[one, other], LEFT + width)
    yield "</svg>"


def main():
    parser(__doc__).parse_args()
    print("\n".join(draw()))


if __name__ == "__main__":
    main()
