"""What the drawn pictures share: the paper and the words in both colour schemes, and the file around them."""
import html
import re
import textwrap

PAPER = ".paper{fill:#fff} .band{fill:#f3f5f8} text{font:13px sans-serif;fill:#1c2733}"
DARK_PAPER = ".paper{fill:#14191f} .band{fill:#1b222a} text{fill:#e6ebf0}"


def style(light, dark):
    """A style sheet: these rules for a light scheme, and those that differ in a dark one."""
    return f"\n{PAPER}\n{light}\n@media (prefers-color-scheme: dark) {{\n{DARK_PAPER} {dark}\n}}\n"


def width(words):
    """About how many pixels the words take, rather too many than too few."""
    return round(sum(4.6 if letter in " .:ijltfr" else 12.8 if letter in "mw" else 8.2 for letter in words))


def text(x, y, words, kind="label", anchor="start"):
    """Words whose baseline is at y."""
    return f'<text class="{kind}" x="{x}" y="{y}" text-anchor="{anchor}">{html.escape(words)}</text>'


def described(title, words):
    """What a picture shows, for who cannot see it."""
    lines = textwrap.wrap(f"<title>{html.escape(title)}</title> <desc>{html.escape(words)}</desc>", 120)
    return "\n".join(lines)


def wrapped(line):
    """A line in lines of at most 120 characters where that is possible: only a style sheet and a tag may be broken."""
    if len(line) <= 120:
        return line
    breaks = [it for it in re.finditer(r" |(?=>)", line) if 0 < it.start() <= 120 and not is_in_text(line, it.start())]
    if not breaks:
        return line
    return line[: breaks[-1].start()] + "\n" + wrapped(line[breaks[-1].end() :])


def is_in_text(line, at):
    """Whether a place of a line of elements lies between two tags."""
    return line.rfind("<", 0, at) < line.rfind(">", 0, at)


def document(sheet, wide, high, parts):
    """The file of a picture, with parts that lie one upon the other on the paper."""
    head = f'<svg xmlns="http://www.w3.org/2000/svg" viewBox="0 0 {wide} {high}" width="{wide}" height="{high}">'
    paper = f'<rect class="paper" width="{wide}" height="{high}"/>'
    lines = "\n".join([head, f"<style>{sheet}</style>", paper, *parts, "</svg>", ""]).split("\n")
    return "\n".join(map(wrapped, lines))


if __name__ == "__main__":
    print(__doc__)
