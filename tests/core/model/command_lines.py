"""Command lines: how one is read, and what it does to the text of the work file."""

import string
from dataclasses import dataclass, field

from . import texts

BLANKS = (" ", "\t")
DIGITS = tuple(string.digits)
STEPS = tuple("xygv")
WITH_TEXT = tuple("aic")
WITHOUT_TEXT = tuple("dp")
# Signs of regular expressions, which have no meaning here: in a pattern each needs a backslash.
SIGNS = tuple(".*+?[](){}|^$@")


class WrongLine(Exception):
    """A wrong line, with the word that is printed for it."""


@dataclass
class Line:
    """A line that was read: `f` with its name, `q`, or an address (None, one side, or two, None where one is missing), steps, an action."""

    letter: str = ""
    name: str = ""
    address: tuple | None = None
    steps: list = field(default_factory=list)
    action: tuple | None = None
    patterns: list = field(default_factory=list)


@dataclass
class Outcome:
    """What a line does. The edits are ranges of the old text, each with the text that takes its place."""

    edits: list = field(default_factory=list)
    printed: str = ""
    dot: tuple | None = None
    name: str | None = None
    pattern: str | None = None
    is_over: bool = False


class Reader:
    """Reads a line from left to right, so that the first fault on the way decides."""

    def __init__(self, text):
        self.text, self.at, self.line = text, 0, Line()

    @property
    def sign(self):
        return self.text[self.at : self.at + 1]

    def skip_blanks(self):
        while self.sign in BLANKS:
            self.at += 1

    def read(self):
        self.skip_blanks()
        rest = self.text[self.at :]
        if rest.startswith("f"):
            self.read_name(rest[1:])
        elif rest.strip("".join(BLANKS)) == "q":
            self.line.letter = "q"
        else:
            self.line.address = self.read_address()
            self.read_chain()
            if self.line == Line():
                raise WrongLine("command")
        return self.line

    def read_name(self, rest):
        """Reads what follows an `f`: nothing, or a blank and perhaps a name."""
        if rest and rest[0] not in BLANKS:
            raise WrongLine("command")
        self.line.letter, self.line.name = "f", rest.strip("".join(BLANKS))
        if len(self.line.name) > texts.MOST_IN_NAME:
            raise WrongLine("name")

    def read_address(self):
        first = self.read_side()
        self.skip_blanks()
        if self.sign != ",":
            return None if first is None else (first,)
        self.at += 1
        self.skip_blanks()
        second = self.read_side()
        self.skip_blanks()
        return first, second

    def read_side(self):
        """Reads a side, if one is there, as its sign and what belongs to it."""
        sign = self.sign
        if sign == "/":
            return sign, self.read_pattern()
        if sign in ("$", "."):
            self.at += 1
            return sign, None
        if sign == "#":
            self.at += 1
            self.skip_blanks()
            if self.sign not in DIGITS:
                raise WrongLine("command")
            return sign, self.read_number()
        return ("line", self.read_number()) if sign in DIGITS else None

    def read_number(self):
        start = self.at
        while self.sign in DIGITS:
            self.at += 1
        return int(self.text[start : self.at])

    def read_chain(self):
        """Reads steps, and the action that ends them. Steps alone print."""
        while letter := self.sign:
            self.at += 1
            self.skip_blanks()
            if letter in STEPS:
                self.line.steps.append((letter, self.read_pattern()))
                self.skip_blanks()
                continue
            if letter not in WITH_TEXT + WITHOUT_TEXT:
                raise WrongLine("command")
            self.line.action = letter, self.read_literal(False) if letter in WITH_TEXT else ""
            self.skip_blanks()
            if self.sign:
                raise WrongLine("command")
        if self.line.steps and self.line.action is None:
            self.line.action = "p", ""

    def read_pattern(self):
        pattern = self.read_literal(True)
        if not 1 <= len(pattern) <= texts.MOST_IN_PATTERN:
            raise WrongLine("pattern")
        self.line.patterns.append(pattern)
        return pattern

    def read_literal(self, is_pattern):
        """Reads what stands between two slashes, of which the second may be missing at the end of the line."""
        if self.sign != "/":
            raise WrongLine("command")
        self.at += 1
        runes = []
        while self.sign not in ("/", ""):
            rune = self.sign
            self.at += 1
            if rune == "\\":
                rune = self.read_escaped()
            elif is_pattern and rune in SIGNS:
                raise WrongLine("pattern")
            runes.append(rune)
        self.at += 1
        return "".join(runes)

    def read_escaped(self):
        """Reads what follows a backslash: `n` for a newline, or a sign of ASCII punctuation for itself."""
        sign = self.sign
        if sign != "n" and (not sign or sign not in string.punctuation):
            raise WrongLine("escape")
        self.at += 1
        return "\n" if sign == "n" else sign


def range_of_side(side, text, dot):
    """The range that a side of an address means."""
    sign, value = side
    if sign == ".":
        return dot
    if sign == "$":
        return len(text), len(text)
    if sign == "/":
        if (found := texts.next_occurrence(text, dot[1], value)) is None:
            raise WrongLine("search")
        return found
    if sign == "#":
        found = (value, value) if value <= len(text) else None
    else:
        found = texts.line_range(text, value) if value else (0, 0)
    if found is None:
        raise WrongLine("address")
    return found


def range_of_address(address, text, dot):
    """The range that an address means: both sides are taken from the same dot."""
    if address is None:
        return dot
    if len(address) == 1:
        return range_of_side(address[0], text, dot)
    first = (0, 0) if address[0] is None else range_of_side(address[0], text, dot)
    second = (len(text), len(text)) if address[1] is None else range_of_side(address[1], text, dot)
    if second[1] < first[0]:
        raise WrongLine("address")
    return first[0], second[1]


def between(text, start, end, pattern):
    """The stretches of a range before, between and after the occurrences of a pattern, empty ones too."""
    found = texts.occurrences(text, start, end, pattern)
    starts = [start, *(after for _, after in found)]
    return list(zip(starts, [*(before for before, _ in found), end]))


def ranges_of_step(step, text, start, end):
    """The ranges that a step makes of a range."""
    letter, pattern = step
    if letter == "x":
        return texts.occurrences(text, start, end, pattern)
    if letter == "y":
        return between(text, start, end, pattern)
    has_it = bool(texts.occurrences(text, start, end, pattern))
    return [(start, end)] if has_it == (letter == "g") else []


def edit_of(action, start, end):
    """The edit that an action makes of a range, or None where it puts nothing in the place of nothing."""
    letter, text = action
    start, end = {"a": (end, end), "i": (start, start)}.get(letter, (start, end))
    return (start, end, text) if start < end or text else None


def dot_after(line, chosen, ranges, grown):
    """The dot that an action leaves: by its range where neither x nor y is there and a range is left, else the address, whose end has moved
    with the text's length."""
    letter, text = line.action
    if any(step in ("x", "y") for step, _ in line.steps) or not ranges:
        return chosen[0], chosen[1] + grown
    start, end = ranges[0]
    ends = {"a": (end, end + len(text)), "i": (start, start + len(text)), "c": (start, start + len(text)), "d": (start, start)}
    return ends.get(letter, (start, end))


def run(text, dot, name, spelled):
    """The outcome of a line over the work file's text, dot and name; the text is None where there is no work file. Raises WrongLine."""
    line = Reader(spelled).read()
    pattern = line.patterns[-1] if line.patterns else None
    if line.letter == "q":
        return Outcome(is_over=True)
    if text is None:
        raise WrongLine("no file")
    if line.letter == "f":
        return Outcome(name=line.name) if line.name else Outcome(printed=name + "\n")
    chosen = range_of_address(line.address, text, dot)
    if line.action is None:
        return Outcome(dot=chosen, pattern=pattern)
    ranges = [chosen]
    for step in line.steps:
        ranges = [made for start, end in ranges for made in ranges_of_step(step, text, start, end)]
    if line.action[0] == "p":
        printed = "".join(text[start:end] for start, end in ranges)
        return Outcome(printed=printed, dot=dot_after(line, chosen, ranges, 0), pattern=pattern)
    edits = [edit for start, end in ranges if (edit := edit_of(line.action, start, end))]
    if len(text) + sum(len(put) for _, _, put in edits) > texts.MOST_RUNES:
        raise WrongLine("long")
    grown = sum(len(put) - (end - start) for start, end, put in edits)
    return Outcome(edits=edits, dot=dot_after(line, chosen, ranges, grown), pattern=pattern)
