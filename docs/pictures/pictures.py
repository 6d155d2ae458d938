#!/usr/bin/env python3
"""Draws, beside itself, crates.svg (from crates.txt), threads.svg, and film.svg (from film.json, which bench/film writes). Run it after a
crate came, went or stands on others.

docs/pictures/pictures.py --check draws nothing: it says whether both are as they would be drawn now, and ends in 'N passed, M failed'. It
knows nothing of web.png, which `tests/web/web --picture` takes in a browser: its bytes differ from one browser to the next.
"""

import json
import sys
from itertools import zip_longest
from pathlib import Path
from xml.sax.saxutils import escape

HERE = Path(__file__).resolve().parent
CRATES = HERE.parents[1] / "crates.txt"

STYLE = """
text { font: 12px -apple-system, 'Segoe UI', Helvetica, Arial, 'DejaVu Sans', sans-serif; fill: #1f2328; }
.title { font-size: 15px; font-weight: 600; }
.name { font: 600 12px ui-monospace, SFMono-Regular, Menlo, Consolas, 'DejaVu Sans Mono', monospace; }
.head { font-weight: 600; font-size: 13px; }
.grey { fill: #59636e; font-size: 11px; }
.box { fill: #f6f8fa; stroke: #818b98; }
.side { fill: #ddf4ff; stroke: #0969da; }
.part { fill: #ffffff; stroke: #818b98; }
.cell { fill: #fff8c5; stroke: #9a6700; }
.edge { stroke: #59636e; stroke-width: 1.2; fill: none; }
"""

HEAD = (
    '<marker id="head" viewBox="0 0 8 8" refX="8" refY="4" markerWidth="7" markerHeight="7" orient="auto">'
    '<path d="M0 0.5 L8 4 L0 7.5 z" fill="#59636e"/></marker>'
)


def text(x, y, words, kind="", anchor="middle"):
    named = f' class="{kind}"' if kind else ""
    return f'<text x="{x:g}" y="{y:g}"{named} text-anchor="{anchor}">{words}</text>'


def box(x, y, width, height, kind="box"):
    return f'<rect class="{kind}" x="{x:g}" y="{y:g}" width="{width:g}" height="{height:g}" rx="5"/>'


def edge(*points):
    path = " L".join(f"{x:g} {y:g}" for x, y in points)
    return f'<path class="edge" d="M{path}" marker-end="url(#head)"/>'


def picture(title, width, height, parts):
    size = f'width="{width}" height="{height}" viewBox="0 0 {width} {height}"'
    return "\n".join(
        [
            f'<svg xmlns="http://www.w3.org/2000/svg" {size} role="img">',
            f"<title>{title}</title>",
            f"<style>{STYLE}</style>",
            f"<defs>{HEAD}</defs>",
            '<rect width="100%" height="100%" fill="#ffffff"/>',
            *parts,
            "</svg>\n",
        ]
    )


# ---- The crates

BOX_WIDTH, BOX_HEIGHT, ROW_HEIGHT, FIRST_ROW = 152, 40, 70, 46
SPREAD = 0.16  # how far from the middle of a box its arrows meet it, by how far the boxes are apart
FURTHEST = BOX_WIDTH / 2 - 12
# Where each crate stands (its middle, its row from the top), and what it has in a few words.
PLACES = {
    "sam_play": (670, 0, "the program"),
    "sam_session": (722, 1, "scripts on threads, modes"),
    "sam_served": (1020, 2, "a crash is a break"),
    "sam_spawn": (264, 2, "begins and joins five"),
    "sam_settle": (524, 2, "five ends, one run"),
    "sam_modes": (684, 2, "words, inputs, faults"),
    "sam_c": (862, 2, "the library for C"),
    "sam_term_worker": (86, 3, "the terminal's worker"),
    "sam_workers": (246, 3, "the other four"),
    "sam_joined": (712, 3, "two endpoints, one run"),
    "sam_ends": (322, 4, "what five workers share"),
    "sam_apart": (522, 4, "sides apart are one run"),
    "sam_rest": (618, 5, "no session is stuck"),
    "sam_script": (884, 5, "scripts, read and shown"),
    "sam_world": (518, 6, "both sides as one state"),
    "sam_queue": (152, 5, "lines between threads"),
    "sam_local": (480, 7, "as if no network"),
    "sam_crossing": (444, 8, "crossing messages agree"),
    "sam_line": (86, 6, "when to connect again"),
    "sam_link": (86, 7, "over lines that break"),
    "sam_journal": (1016, 4, "records after a crash"),
    "sam_sides": (354, 9, "what each side did"),
    "sam_endpoint": (720, 9, "a side with its bytes"),
    "sam_overlay": (890, 8, "typed under locks"),
    "sam_frame": (120, 10, "streams of messages"),
    "sam_host": (280, 10, "the host"),
    "sam_term": (460, 10, "the terminal"),
    "sam_mesg": (190, 11, "messages and their bytes"),
    "sam_text": (370, 11, "files, command lines"),
    "sam_rasp": (550, 11, "texts with gaps"),
    "sam_pending": (730, 11, "edits that wait"),
    "sam_runes": (370, 12, "texts as lists of runes"),
}
LEFT_OUT = {
    *("sam_tests", "sam_tests_threads", "sam_test_support", "sam_examples"),
    # Their arrows would cross the whole picture.
    *("sam_note", "sam_server", "sam_shown", "sam_waiting", "sam_client", "sam_front", "sam_handles", "sam_c_client", "sam_attached"),
    "sam_end_to_end",
}


def crates():
    """What each crate stands on, by crates.txt."""
    stands_on = {}
    for line in CRATES.read_text().splitlines():
        if line and not line.startswith("#"):
            head, below = line.split(":", 1)
            stands_on[head.split(" ")[0]] = {name for name in below.split() if name.startswith("sam_")}
    missing = (set(stands_on) - LEFT_OUT) ^ set(PLACES)
    if missing:
        raise SystemExit(f"give a place in docs/pictures/pictures.py to, or take out: {', '.join(sorted(missing))}")
    return {name: below - LEFT_OUT for name, below in stands_on.items() if name in PLACES}


def direct(stands_on):
    """The pairs that don't follow from others."""
    reached = {}
    for name, below in stands_on.items():  # lowest first
        reached[name] = below.union(*(reached[other] for other in below))
    for name, below in stands_on.items():
        for other in sorted(below):
            if not any(other in reached[between] for between in below):
                yield name, other


def crates_picture():
    parts = [
        text(24, 34, "The crates", "title", "start"),
        text(24, 58, "An arrow leads to a crate that this one stands on.", "", "start"),
        text(24, 76, "What it stands on through others has no arrow.", "", "start"),
        text(24, 100, "Left out: tests, examples, and sam_note, which stands on sam_mesg, and sam_c on it.", "grey", "start"),
    ]
    for name, other in direct(crates()):
        (x, row, _), (other_x, other_row, _) = PLACES[name], PLACES[other]
        aside = max(-FURTHEST, min(FURTHEST, SPREAD * (other_x - x)))
        start = (x + aside, FIRST_ROW + ROW_HEIGHT * row + BOX_HEIGHT / 2)
        parts.append(edge(start, (other_x - aside, FIRST_ROW + ROW_HEIGHT * other_row - BOX_HEIGHT / 2)))
    for name, (x, row, words) in PLACES.items():
        y = FIRST_ROW + ROW_HEIGHT * row
        kind = "side" if name in ("sam_host", "sam_term") else "box"
        parts += [box(x - BOX_WIDTH / 2, y - BOX_HEIGHT / 2, BOX_WIDTH, BOX_HEIGHT, kind)]
        parts += [text(x, y - 3, name, "name"), text(x, y + 13, words, "grey")]
    return picture("The crates and what each stands on", 1100, FIRST_ROW + ROW_HEIGHT * 12 + 44, parts)


# ---- The threads

CELL_WIDTH, CELL_HEIGHT = 22, 26


def worker(x, y, width, height, name, words, kind="box"):
    parts = [box(x, y, width, height, kind), text(x + width / 2, y + 21, name, "head")]
    return parts + [text(x + width / 2, y + 39 + 16 * at, line, "grey") for at, line in enumerate(words)]


def line(x, y, cells, name, words):
    """A line as a row of cells, with its name above and what it carries below."""
    parts = [box(x + CELL_WIDTH * at, y, CELL_WIDTH, CELL_HEIGHT, "cell") for at in range(cells)]
    middle = x + CELL_WIDTH * cells / 2
    parts.append(text(middle, y - 8, name, "head"))
    return parts + [text(middle, y + CELL_HEIGHT + 15 + 14 * at, each, "grey") for at, each in enumerate(words)]


def threads_picture():
    parts = [text(24, 32, "Five workers and three lines", "title", "start")]
    parts += worker(24, 66, 116, 52, "Keyboard", ["worker 0"])
    parts += worker(24, 150, 116, 52, "Mouse", ["worker 1"])
    parts += line(196, 121, 5, "events", ["user events and frames", "three senders"])
    parts += worker(356, 66, 150, 136, "Terminal", ["worker 4", "rasps, locks, held events"], "side")
    parts += [box(381, 150, 100, 34, "part"), text(431, 171, "to send", "grey")]
    parts += line(554, 154, 4, "up", ["pieces of bytes"])
    parts += worker(676, 66, 108, 136, "Host", ["worker 2", "whole texts,", "commands"], "side")
    parts += line(554, 277, 4, "down", ["pieces of bytes"])
    parts += worker(356, 262, 150, 56, "Host reader", ["worker 3"])
    parts += [
        edge((140, 92), (168, 92), (168, 127), (194, 127)),
        edge((140, 176), (168, 176), (168, 134), (194, 134)),
        edge((306, 134), (354, 134)),
        edge((481, 167), (552, 167)),
        edge((642, 167), (674, 167)),
        edge((730, 202), (730, 290), (644, 290)),
        edge((554, 290), (508, 290)),
        edge((356, 290), (180, 290), (180, 141), (194, 141)),
    ]
    parts += [
        text(24, 352, "Each line keeps the order of each sender, and holds a bounded number of entries.", "", "start"),
        text(24, 371, "The terminal never waits in a send: its bytes wait outside the line up until that has room.", "", "start"),
    ]
    return picture("Five workers and the three lines between them", 800, 390, parts)


# ---- The film

LETTER_WIDTH, LETTER_HEIGHT = 7.83, 17  # of the font below, which each viewer's browser comes near to
MARGIN, TOP = 14, 74
FILM_STYLE = """
text { font: 13px ui-monospace, SFMono-Regular, Menlo, Consolas, 'DejaVu Sans Mono', monospace; fill: #1f2328; white-space: pre; }
.head { font: 600 14px -apple-system, 'Segoe UI', Helvetica, Arial, 'DejaVu Sans', sans-serif; }
.words { font: 14px -apple-system, 'Segoe UI', Helvetica, Arial, 'DejaVu Sans', sans-serif; }
.still { font: 600 14px -apple-system, 'Segoe UI', Helvetica, Arial, 'DejaVu Sans', sans-serif; fill: #cf222e; }
.screen { fill: #f6f8fa; stroke: #818b98; }
.cursor { fill: #0969da; opacity: 0.35; }
"""


class Film:
    """Elements that are to be seen from one time to another, in milliseconds, again and again."""

    def __init__(self, end):
        self.end, self.frames, self.parts = end, [], []

    def show(self, element, start, stop):
        """Notes an element, of which `{}` stands for what makes it come and go."""
        if start <= 0 and stop >= self.end:
            self.parts.append(element.format(""))
            return
        name = f"k{len(self.frames)}"
        hidden, seen = "{visibility:hidden}", "{visibility:visible}"
        shows = f"0%{hidden}{100 * start / self.end:.2f}%{seen}" if start > 0 else f"0%{seen}"
        hides = f"{100 * stop / self.end:.2f}%{hidden}" if stop < self.end else ""
        self.frames.append(f"@keyframes {name}{{{shows}{hides}}}")
        self.parts.append(element.format(f' style="animation:{name} {self.end}ms step-end infinite"'))

    def show_each(self, changes, drawn):
        """Shows what each change draws until the next one."""
        for (start, *what), following in zip_longest(changes, changes[1:]):
            if element := drawn(*what):
                self.show(element, start, following[0] if following else self.end)


def film_text(x, y, line):
    plain = escape(line.expandtabs()).replace("{", "{{").replace("}", "}}")
    return f'<text x="{x:g}" y="{y:g}" xml:space="preserve"{{}}>{plain}</text>' if line else ""


def film_panel(film, panel, x, width, height):
    """A screen: its name above, and its rows and cursor as they were at each time."""
    film.parts.append(f'<text class="head" x="{x}" y="{TOP - 8}">{panel["name"]}</text>')
    film.parts.append(f'<rect class="screen" x="{x}" y="{TOP}" width="{width:g}" height="{height:g}" rx="5"/>')
    left = x + 6
    film.show_each(
        panel["cursor"],
        lambda column, row: (
            f'<rect class="cursor" x="{left + LETTER_WIDTH * column:g}" y="{TOP + 5 + LETTER_HEIGHT * row:g}" width="{LETTER_WIDTH:g}"'
            f' height="{LETTER_HEIGHT}"{{}}/>'
        ),
    )
    for at, row in enumerate(panel["rows"]):
        film.show_each(row, lambda line, y=TOP + 18 + LETTER_HEIGHT * at: film_text(left, y, line))


def film_picture():
    taken = json.loads((HERE / "film.json").read_text(encoding="utf-8"))
    film = Film(taken["end"])
    width, height = 12 + LETTER_WIDTH * taken["width"], 12 + LETTER_HEIGHT * taken["height"]
    words = f"The same keys at the same time, over a line of {taken['delay']} ms each way."
    film.parts.append(f'<text class="words" x="{MARGIN}" y="26">{words}</text>')
    still = '<text class="still" x="{}" y="46"{{}}>The line stands still.</text>'.format(MARGIN)
    film.show(still, taken["break"], taken["mended"])
    for at, panel in enumerate(taken["panels"]):
        film_panel(film, panel, round(MARGIN + at * (width + MARGIN)), width, height)
    whole, high = 3 * MARGIN + 2 * width, TOP + height + MARGIN
    return "\n".join(
        [
            f'<svg xmlns="http://www.w3.org/2000/svg" width="{whole:g}" height="{high:g}" viewBox="0 0 {whole:g} {high:g}" role="img">',
            f"<title>samterm beside vim. {words}</title>",
            f"<style>{FILM_STYLE}{''.join(film.frames)}</style>",
            '<rect width="100%" height="100%" fill="#ffffff"/>',
            *film.parts,
            "</svg>\n",
        ]
    ).encode("ascii", "xmlcharrefreplace").decode("ascii")


PICTURES = {"crates.svg": crates_picture, "threads.svg": threads_picture, "film.svg": film_picture}


def check():
    """Says of each picture whether it is as it would be drawn now. Returns how many are not."""
    old = [name for name, draw in PICTURES.items() if (HERE / name).read_text(encoding="ascii") != draw()]
    for name in PICTURES:
        print(f"FAILED docs/{name} is old: run docs/pictures/pictures.py" if name in old else f"ok docs/{name}")
    print(f"{len(PICTURES) - len(old)} passed, {len(old)} failed")
    return len(old)


def main(words):
    if words == ["--check"]:
        return 1 if check() else 0
    for name, draw in PICTURES.items():
        (HERE / name).write_text(draw(), encoding="ascii")
    return 0


if __name__ == "__main__":
    sys.exit(main(sys.argv[1:]))
