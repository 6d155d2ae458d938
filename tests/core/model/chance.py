"""Random scripts: a user who does what is mostly right, over messages that are under way; a few scripts with a wrong line."""

import random

from . import scripts, texts
from .world import World

RUNES = "aabb \nc/é.x"
PATTERNS = ("a", "b", "ab", "c", "\\n", "é", "a b", "\\.", "bb", "zz", "\\/", "", ".", "\\q")
TEXTS = ("", "X", "YY", "\\n", "a\\/b", "long text é", "\\\\", ".")
OTHER_LINES = ("f", "f new name", "f  x\t", "fx", "q x", "", " ", "p p", "f " + "n" * 65, "/" + "a" * 129 + "/d", "#1 d", "# 2,$p")
EVENTS = {
    "type": 14, "select": 14, "line": 9, "view": 6, "paste": 6, "cut": 5, "open": 4, "snarf": 4, "look": 3, "search": 3, "check": 3,
    "flush": 3, "edit": 3, "load": 2, "dclick": 2, "scroll": 2, "write": 2, "work": 2, "send": 1.5, "opencmd": 1.5, "setsnarf": 1,
    "new": 0.7, "close": 0.7, "version": 0.6, "getsnarf": 0.5, "exit": 0.1,
}  # fmt: skip
STEPS = {"act": 26, "host": 15, "term": 15, "flush": 3, "show": 3, "drain": 2, "add": 1, "dirty": 1}
USER = 36  # how often the user does something, by the measure of the steps
SLIP = 0.03  # how often a value is most likely wrong
LONG = 0.01  # how often a file is almost as long as it may be
WRONG = 0.08  # how often a script has a line that was damaged


def weighed(source, weights):
    return source.choices(list(weights), list(weights.values()))[0]


def some(source, most):
    return "".join(source.choice(RUNES) for _ in range(source.randrange(most)))


def side(source):
    sides = ("", "0", "1", "2", "3", f"#{source.randrange(20)}", "$", ".", f"/{source.choice(PATTERNS)}/")
    return source.choice(sides)


def command_line(source):
    """A command line, most often an address with steps and an action."""
    if source.random() < 0.05:
        return "q"
    if source.random() < 0.2:
        return source.choice(OTHER_LINES)
    address = source.choice(("", ",", side(source), f"{side(source)},{side(source)}", f"{side(source)} , {side(source)}"))
    count = source.choice((0, 0, 0, 1, 1, 2, 3))
    steps = "".join(f"{source.choice('xygv')}/{source.choice(PATTERNS)}/{source.choice(('', ' '))}" for _ in range(count))
    text = source.choice(TEXTS)
    actions = ("", "d", "p", f"a/{text}/", f"i/{text}/", f"c/{text}/", f"c/{text}", f"a /{text}/ ", "d ", "z", "dx")
    return address + steps + source.choice(actions)


class User:
    """Writes a script beside the world that it leads to, in which it looks for places that are there."""

    def __init__(self, seed):
        self.source = random.Random(seed)
        self.lines, self.world = [], None

    def write(self, word, *values):
        """Adds a line to the script, and does what it says."""
        self.lines.append((word, values))
        if self.world:
            scripts.run(self.world, scripts.Line(len(self.lines), word, values))

    def does(self, word, *values):
        self.write(self.source.choice("km"), word, *values)

    def text(self):
        """The text of a file."""
        if self.source.random() < LONG:
            text = some(self.source, 40)
            return text + "w" * (texts.MOST_RUNES - len(text) - self.source.randrange(60))
        return some(self.source, 40 if self.source.random() < 0.85 else 1200)

    def tag(self):
        return self.source.randrange(5) if self.source.random() < SLIP else self.source.choice([*self.world.terminal.known, 1])

    def place(self, length):
        return length + self.source.randrange(3) if self.source.random() < SLIP else self.source.randrange(length + 1)

    def end(self, place, length):
        """A second place, not far above the first."""
        return self.source.randrange(length + 2) if self.source.random() < SLIP else min(length, place + self.source.randrange(6))

    def event(self, word):
        """A random event of this word; `line` is a command line that is typed."""
        source, tag = self.source, self.tag()
        window = self.world.terminal.known.get(tag)
        length = len(window.rasp) if window else 9
        place = self.place(length)
        if word == "line":
            return self.does("type", 0, command_line(source) + "\n")
        if word == "type":
            return self.does(word, tag, some(source, 5) if source.random() > SLIP else "w" * source.choice((300, 511, 512, 513)))
        if word == "edit":
            long_texts = (600, 1024, 1100)
            text = some(source, 6) if source.random() > SLIP else "v" * source.choice(long_texts)
            return self.does(word, tag, place, self.end(place, length), text)
        values = {
            "select": (tag, place, self.end(place, length)), "dclick": (tag, place), "scroll": (tag, source.randrange(4)),
            "view": (tag, place, source.choice((3, 10, 40, 900))), "load": (tag, place, source.choice((3, 40, 3000))),
            "setsnarf": (some(source, 9) if source.random() > SLIP else "s" * source.choice((4096, 4097, 32_000, 32_001)),),
            "version": (source.choice((0, 1, 2, 7)),),
        }.get(word, (tag,))  # fmt: skip
        return self.does(word, *(values if scripts.EVENTS[word] else ()))

    def step(self, word):
        """A step, unless it is a take of nothing, or no file can be marked."""
        if word == "dirty":
            tags = [tag for tag, file in self.world.host.files.items() if tag and file.is_announced]
            if tags:
                self.write(word, self.source.choice(tags))
        elif word == "add":
            self.write(word, f"j{len(self.lines)}", some(self.source, 40))
        elif (word != "host" or self.world.up) and (word != "term" or self.world.down):
            self.write(word)

    def script(self):
        """A whole script, as bytes."""
        source = self.source
        for number in range(source.randrange(1, 4)):
            self.write("file", f"n{number}", self.text())
        self.world = World([values for _, values in self.lines])
        for event in (("version", source.choice((1, 2))), ("opencmd",), ("open", 1)):
            self.does(*event)
        if source.random() < 0.8:
            self.write("drain")
        for _ in range(source.randrange(20, 160)):
            word = weighed(source, {"user": USER, **STEPS})
            if word == "user":
                self.event(weighed(source, EVENTS))
            else:
                self.step(word)
        for word in ("show", "drain", "show"):
            self.write(word)
        return "".join(scripts.spelled(line) + "\n" for line in self.lines).encode()


def damaged(source, script):
    """A script with one line cut, doubled, moved, or with other bytes in it."""
    lines = script.splitlines()
    at = source.randrange(len(lines))
    line = lines[at]
    cut = source.randrange(len(line) + 1)
    wrong = source.choice((
        line[:cut], line + b" ", b" " + line, line + line, line.replace(b" ", b"  ", 1), line[:cut] + b"\\" + line[cut:],
        line[:cut] + b"\xed\xa0\x80" + line[cut:], b"k version 65536", b"host", b"term", b"file a b", b"#" + line, b"act\r",
        b"k select 1 +1 2", b"k view 1 0 4294967296", b"k scroll 01 007", b"",
    ))  # fmt: skip
    return b"\n".join([*lines[:at], wrong, *lines[at + 1 :], b""])


def right_script(seed):
    """A right script, as bytes: the same one for a seed."""
    return User(seed).script()


def script(seed):
    """A script, as bytes, which may have a wrong line: the same one for a seed."""
    user = User(seed)
    whole = user.script()
    return damaged(user.source, whole) if user.source.random() < WRONG else whole
