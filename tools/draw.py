#!/usr/bin/env python3
"""Draws what a script of world mode does, as SVG on standard output; or, given a file NAME.out, what clients and a node
say to each other: its lines are `FROM to TO: WORDS`, or tell what happens next.

With --check it draws each picture docs/pictures/tour_NAME.svg again from examples/tour_NAME.txt, or else from
examples/tour_NAME/run.out, and says which differ.

Each client and node has a lane, time goes downwards, and each line that the program prints and each input of a group
has a line of the picture to itself, so no text lies upon another. It runs each prefix of the script to find what
belongs to an event."""
import pathlib, re, subprocess, sys

import svg
from scripting import TOP, a_program, parser
WIDTH, PITCH, HEAD, LEFT, RIGHT = 1000, 20, 58, 205, 125
ALL = 1 << 48
LIGHT = (
    ".script{font:12px monospace;fill:#44505c} .name{font-weight:bold}\n"
    ".lane{stroke:#7d8b99;stroke-width:3} .down{stroke:#c2cad2;stroke-width:1.5;stroke-dasharray:2 5} "
    ".line{fill:none;stroke:#2b6cb0;stroke-width:1.4}\n"
    ".line.again{stroke-dasharray:6 4} .lost{stroke:#c0392b;stroke-width:1.4} "
    ".cross{stroke:#c0392b;stroke-width:2.2;fill:none} .point{fill:#2b6cb0}\n"
    ".promise{fill:#b7791f} .vote{fill:#6b46c1} .promise.again{fill:none;stroke:#b7791f;stroke-width:1.6} "
    ".vote.again{fill:none;stroke:#6b46c1;stroke-width:1.6}\n"
    ".unsynced{fill:none;stroke:#44505c;stroke-width:1.6} .counted{fill:#2f855a} .ran{fill:#2f855a} "
    ".answered{fill:none;stroke:#2f855a;stroke-width:2.5}\n"
    ".edge{stroke:#44505c;stroke-width:3}"
)
DARK = (
    ".script{fill:#aab6c2}\n"
    ".lane{stroke:#74828f} .down{stroke:#46525e} .line{stroke:#63b3ed} .point{fill:#63b3ed} "
    ".lost,.cross{stroke:#fc8181}\n"
    ".promise{fill:#f6ad55} .vote{fill:#b794f4} .promise.again{stroke:#f6ad55} .vote.again{stroke:#b794f4} "
    ".unsynced{stroke:#aab6c2} .counted,.ran{fill:#68d391} .answered{stroke:#68d391} .edge{stroke:#cbd5de}"
)
STYLE = svg.style(LIGHT, DARK)
# The rows of the legend: where each mark or line stands, its kind, and what it means.
LEGEND_MARKS = (
    (
        (20, "promise", "promise, synced first"),
        (220, "promise again", "promise, synced before: nothing is written"),
        (570, "unsynced", "written, not synced"),
    ),
    (
        (20, "vote", "vote, synced first"),
        (190, "vote again", "vote kept already"),
        (335, "counted", "a majority has voted"),
        (505, "ran", "executed at its position"),
        (700, "answered", "answer to a client"),
        (862, "cross", "fault, armed stop"),
    ),
)
LEGEND_LINES = (
    (12, "line", "datagram: number, kind"),
    (240, "line again", "it comes again"),
    (420, "lost", "it never comes"),
    (566, "lane", "node, start to stop"),
    (734, "down", "client, or node that is down"),
)


def printed(program, lines, *words):
    run = subprocess.run([*program, "sim", *words], input="\n".join(lines) + "\n", capture_output=True, text=True)
    return run.stdout.splitlines(), run.returncode


def events(program, script):
    """Each line of the script that is not empty, with the lines that it printed and how many calls of the device it
    made; the last line may be a refused one."""
    told, before, lines = [], 0, script.splitlines()
    for end, line in enumerate(lines, 1):
        if not line:
            continue
        output, status = printed(program, lines[:end])
        if status and not (output and output[-1].startswith("refused ")):
            return told + [(line, ["not understood"], 0)]
        shown = output[before:-1] if not status else output[before:]
        told.append((line, shown, calls(program, lines[:end - 1], line, output)))
        if status:
            break
        before = len(output) - 1
    return told


def calls(program, lines, line, output):
    """How many appends, syncs and cuts a tick, a nudge or a delivery makes, told up to 2: found by letting the first
    fail, and then the second. A group makes 2 where it syncs, and 1 where it appends alone."""
    words = line.split()
    sent = {said.split()[1]: said.split()[3] for said in output if said.startswith("sent ")}
    named = "n" + words[1] if len(words) > 1 else ""
    own = dict.fromkeys(("tick", "nudge", "group"), named)
    node = {**own, "deliver": sent.get(words[-1], "")}.get(words[0], "")
    fell = lambda run: any(said.startswith(("fault ", "stopped ")) for said in run)
    plain = [said for said in printed(program, lines)[0] if not said.startswith("done ")]
    if node[:1] != "n" or fell(output[len(plain):]):
        return 0
    for count in (1, 2):
        run, _ = printed(program, [*lines, f"fail {node[1:]} {count}", line])
        if not fell(run[len(plain):]):
            return count - 1
        if words[0] == "group":
            return 1 if is_unsynced(program, [*lines, line], words[1]) else 2
    return 2


def is_unsynced(program, lines, node):
    """Whether a stop that keeps nothing unsynced would cost the node something that it executes at its restart."""
    kept, lost = (printed(program, [*lines, f"stop {node} {count} {count}", f"restart {node}"]) for count in (ALL, 0))
    return kept != lost


def carried(words):
    """What an event gives a node at once: the numbers of datagrams, `t` for a tick, and the words of nudges."""
    together = re.findall("nudge (?:withheld|fed)|[^ ]+", " ".join(words[2:]))
    return {"deliver": words[1:], "group": together}.get(words[0], [])


def is_refused(output):
    return bool(output) and output[-1].startswith(("refused ", "not "))


def lanes(told):
    """Clients, then nodes, each in rising order, by their names in the lines `sent`, and the nodes that are started."""
    names = {word for _, output, _ in told for line in output for word in line.split()[2:4] if line.startswith("sent ")}
    names |= {"n" + line.split()[1] for line, _, _ in told if line.startswith("start ")}
    return sorted(names, key=lambda name: (name[0], int(name[1:])))


class Picture:
    def __init__(self, told):
        self.told, self.names = told, lanes(told)
        step = min(260, (WIDTH - LEFT - RIGHT) / max(1, len(self.names) - 1))
        self.x = {name: round(LEFT + place * step) for place, name in enumerate(self.names)}
        self.under, self.lines, self.grounds, self.lanes, self.texts, self.marks = [], [], [], [], [], []
        self.sent, self.came, self.up, self.loops, self.y, self.ground = {}, set(), {}, [], HEAD, "paper"
        taken = (carried(line.split()) for line, output, _ in told if not is_refused(output))
        self.delivered = {number for numbers in taken for number in numbers}

    def text(self, x, y, words, kind="label", anchor="start"):
        """Words on a ground of their own, so that no line goes through them."""
        wide = svg.width(words) + (svg.width(words) // 8 if kind == "name" else 0) + 4
        left = {"start": x - 2, "end": x - wide + 2, "middle": x - wide // 2}[anchor]
        self.grounds.append(f'<rect class="{self.ground}" x="{left}" y="{y - 9}" width="{wide}" height="18"/>')
        self.texts.append(svg.text(x, y + 4, words, kind, anchor))

    def path(self, drawn, kind):
        (self.lanes if kind == "lane" else self.lines).append(f'<path class="{kind}" d="{drawn}"/>')

    def mark(self, kind, x, y):
        shapes = {
            "promise": f'<path class="promise" d="M{x} {y - 7}l7 7l-7 7l-7 -7z"/>',
            "promise again": f'<path class="promise again" d="M{x} {y - 7}l7 7l-7 7l-7 -7z"/>',
            "vote": f'<path class="vote" d="M{x - 6} {y - 6}h12v12h-12z"/>',
            "vote again": f'<path class="vote again" d="M{x - 6} {y - 6}h12v12h-12z"/>',
            "unsynced": f'<path class="unsynced" d="M{x - 5} {y - 5}v9h10v-9"/>',
            "counted": f'<circle class="counted" cx="{x}" cy="{y}" r="6"/>',
            "ran": f'<path class="ran" d="M{x - 6} {y - 6}l12 6l-12 6z"/>',
            "answered": f'<circle class="answered" cx="{x}" cy="{y}" r="5"/>',
            "edge": f'<path class="edge" d="M{x - 9} {y}h18"/>',
            "cross": f'<path class="cross" d="M{x - 5} {y - 5}l10 10m0 -10l-10 10"/>',
            "end": f'<path class="cross" d="M{x} {y - 6}v12"/>',
        }
        self.marks.append(shapes[kind])

    def event(self, line, output, calls):
        """Draws the event at the line where it stands, what else a group takes a line lower each, and then each line
        that it printed."""
        top, words, self.calls = self.y, line.split(" "), calls
        shown = [said.split() for said in output if not said.startswith("asked ")]
        refused = is_refused(output)
        self.ground = "paper" if self.ground == "band" else "band"
        taken = 1 if refused else max(1, len(carried(words)))
        self.y = top + PITCH * (len(shown) + taken)
        self.under.append(f'<rect class="{self.ground}" y="{top - 10}" width="{WIDTH}" height="{self.y - top}"/>')
        self.text(8, top, line if len(line) < 27 else line[:24] + "..", "script")
        if not refused:
            self.before(top, words)
            if calls == 1:
                self.unsynced(top, words)
        for place, said in enumerate(shown, taken):
            self.said(top + PITCH * place, said)
        if words[0] == "stop" and not refused:
            self.ends("n" + words[1], self.y - PITCH)

    def before(self, y, words):
        if words[0] in ("start", "restart"):
            self.up["n" + words[1]] = y
            self.mark("edge", self.x["n" + words[1]], y)
        for place, word in enumerate(carried(words)):
            self.take(word, "n" + words[1], y + PITCH * place)
        if words[0] == "compact":
            self.text(self.x["n" + words[1]] + 12, y, "compacts", "name")
        if words[0] == "inject" and "n" + words[1] in self.x:
            x = self.x["n" + words[1]]
            self.arrow(x - 60, y, x, y, "line")

    def take(self, word, node, y):
        """What an event gives a node at this line: a datagram, or a tick or a nudge of a group."""
        if not word.isdigit():
            return self.text(self.x[node] + 12, y, "tick" if word == "t" else word, "name")
        self.arrive(word, y)

    def unsynced(self, y, words):
        """Marks a write that is not synced, beside the last thing taken, on the side that no arrow comes from."""
        taken = carried(words)
        frm, to = self.sent[taken[-1]][:2] if taken and taken[-1].isdigit() else ("n" + words[1],) * 2
        low = y + PITCH * max(0, len(taken) - 1)
        self.mark("unsynced", self.x[to] + (-10 if self.x[frm] > self.x[to] else 10), low)

    def ends(self, name, y):
        self.path(f"M{self.x[name]} {self.up.pop(name)}V{y}", "lane")
        self.mark("edge", self.x[name], y)

    def arrow(self, x, y, to, down, kind):
        side = 1 if to > x else -1
        self.path(f"M{x} {y}L{to - side * 5} {down}", kind)
        self.marks.append(f'<path class="point" d="M{to - side * 2} {down}l{-side * 9} -4v8z"/>')

    def arrive(self, number, y):
        frm, to, at = self.sent[number]
        kind = "line again" if number in self.came else "line"
        self.came.add(number)
        if frm == to:
            over = {level for name, low, high, level in self.loops if name == to and low < y and at < high}
            level = min(level for level in range(len(over) + 1) if level not in over)
            self.loops.append((to, at, y, level))
            x, wide = self.x[to], 26 + 20 * level
            self.path(f"M{x} {at}C{x - wide} {at + 4} {x - wide} {y - 2} {x - 6} {y}", kind)
            self.marks.append(f'<path class="point" d="M{x - 2} {y}l-9 -4v8z"/>')
        else:
            self.arrow(self.x[frm], at, self.x[to], y, kind)

    def said(self, y, words):
        kind = words[0]
        if kind == "sent":
            return self.send(y, *words[1:])
        if kind in ("refused", "not"):
            return self.text(8, y, " ".join(words), "name")
        x = self.x["n" + words[1]]
        if kind in ("fault", "stopped"):
            self.ends("n" + words[1], y)
            self.mark("cross", x, y)
            return self.text(x + 12, y, " ".join([kind, *words[2:]]), "name")
        self.mark("answered" if kind == "told" else kind, x, y)
        whose = lambda words: "no-op" if words == ["noop"] else f"c{words[0]} #{words[1]}"
        said = {"counted": lambda: f"counted {words[2]}", "ran": lambda: f"ran {words[2]}: {whose(words[3:])}",
                "answered": lambda: " ".join(words[4:]), "told": lambda: f"last is {words[4]}"}
        self.text(x + 12, y, said[kind](), "name" if kind == "answered" else "label")

    def send(self, y, number, frm, to, kind):
        """A datagram's number and kind, and its receiver if it never comes; its arrows are drawn where it arrives."""
        self.sent[number] = (frm, to, y)
        x, side = self.x[frm], -1 if self.x[to] < self.x[frm] else 1
        if kind in ("promise", "accepted"):
            self.mark(("promise" if kind == "promise" else "vote") + ("" if self.calls == 2 else " again"), x, y)
        lost = to[0] == "n" and number not in self.delivered
        if lost:
            self.path(f"M{x} {y}h{side * 15}", "lost")
            self.mark("end", x + side * 15, y)
        words = f"{number} {kind} to {to[1:]}" if lost else f"{number} {kind}"
        self.text(x + side * (26 if lost else 12), y, words, "label", "start" if side > 0 else "end")
        if to[0] == "c":
            self.arrow(x, y, self.x[to], y, "line")

    def legend(self):
        """Three rows under the picture: each mark, and each kind of line, with what it means."""
        self.ground, y = "paper", self.y + 24
        self.under.append(f'<path class="down" d="M0 {y - 20}H{WIDTH}"/>')
        for row in LEGEND_MARKS:
            for x, kind, words in row:
                self.mark(kind, x, y)
                self.text(x + 14, y, words)
            y += 26
        for x, kind, words in LEGEND_LINES:
            if kind.startswith("line"):
                self.arrow(x, y, x + 38, y, kind)
            else:
                self.path(f"M{x} {y}h{15 if kind == 'lost' else 36}", kind)
            if kind == "lost":
                self.mark("end", x + 15, y)
            self.text(x + (28 if kind == "lost" else 48), y, words)
        self.y = y + 20

    def finish(self):
        for line, output, calls in self.told[1:]:
            self.event(line, output, calls)
        self.ground, end = "paper", self.y - 4
        for name in self.names:
            x = self.x[name]
            self.under.append(f'<path class="down" d="M{x} {HEAD - 16}V{end}"/>')
            if name[0] == "n" and name in self.up:
                self.path(f"M{x} {self.up[name]}V{end}", "lane")
            self.text(x, HEAD - 28, ("client " if name[0] == "c" else "node ") + name[1:], "name", "middle")
        self.text(8, HEAD - 28, "event")
        self.legend()

    def svg(self):
        self.finish()
        parts = [*self.under, *self.lines, *self.grounds, *self.lanes, *self.texts, *self.marks]
        return svg.document(STYLE, WIDTH, self.y, parts)


class Talk(Picture):
    """A picture of datagrams between clients and nodes. What a client says and hears stands beside its lane, which is
    thick while the client holds the lock."""

    def __init__(self, lines):
        told = [("genesis", [], 0)]
        for line in lines:
            said = re.fullmatch(r"(\w+) to (\w+): (.*)", line)
            if said:
                told[-1][1].append(f"sent {len(told)} {said[1]} {said[2]} {said[3]}")
            else:
                told.append((line, [], 0))
        super().__init__(told)
        self.up = {name: HEAD - 12 for name in self.names if name[0] == "n"}

    def event(self, line, output, calls):
        """Draws the datagrams of an event, a line each."""
        self.ground = "paper" if self.ground == "band" else "band"
        high = PITCH * len(output)
        self.under.append(f'<rect class="{self.ground}" y="{self.y - 10}" width="{WIDTH}" height="{high}"/>')
        self.text(8, self.y, line)
        for said in output:
            self.datagram(*said.split(" ", 4)[2:])
            self.y += PITCH

    def datagram(self, frm, to, words):
        """Draws a datagram, and begins or ends the hold of a client."""
        client = frm if frm[0] == "c" else to
        if words == "release":
            self.path(f"M{self.x[client]} {self.up.pop(client)}V{self.y}", "lane")
        if words.startswith("granted "):
            self.up[client] = self.y
        self.arrow(self.x[frm], self.y, self.x[to], self.y, "line")
        self.text(self.x[client] + 16, self.y, words, "name" if words.startswith(("granted ", "free,")) else "label")

    def legend(self):
        """A row under the picture: each kind of line, with what it means."""
        self.ground, y = "paper", self.y + 24
        self.under.append(f'<path class="down" d="M0 {y - 20}H{WIDTH}"/>')
        self.arrow(12, y, 50, y, "line")
        self.text(60, y, "datagram")
        for x, kind, words in ((240, "lane", "node, or client that holds the lock"), (566, "down", "client")):
            self.path(f"M{x} {y}h36", kind)
            self.text(x + 48, y, words)
        self.y = y + 20


def draw(program, script):
    if script.suffix == ".out":
        return Talk(script.read_text().splitlines()).svg()
    told = events(program, script.read_text())
    if not told or not told[0][0].startswith("genesis "):
        sys.exit(f"{script}: a script of world mode begins with the line genesis CLUSTER ALPHA NODE:PORT ..")
    return Picture(told).svg()


def check(program):
    differ = 0
    for picture in sorted((TOP / "docs" / "pictures").glob("tour_*.svg")):
        script = TOP / "examples" / f"{picture.stem}.txt"
        same = picture.read_text() == draw(program, script if script.exists() else script.with_suffix("") / "run.out")
        differ += not same
        print(f"{picture.name}: {'as drawn' if same else 'DIFFERS'}", flush=True)
    return int(differ > 0)


def main():
    arguments = parser(__doc__)
    arguments.add_argument("--check", action="store_true", help="draw the pictures of the tour again and compare them")
    arguments.add_argument("script", nargs="?", type=pathlib.Path, help="the script to draw; not with --check")
    arguments.add_argument(
        "program", nargs="?", default=TOP / "locks", type=a_program, help="the program, ./locks by default"
    )
    given = arguments.parse_args()
    if given.check:
        # The one word that may follow --check names the program.
        sys.exit(check([a_program(given.script or given.program)]))
    if not given.script or not given.script.is_file():
        arguments.error(f"no script: {given.script}" if given.script else "a script or --check is required")
    sys.stdout.write(draw([given.program], given.script))


if __name__ == "__main__":
    main()
