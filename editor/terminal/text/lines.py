"""Command lines, as far as a terminal has to know them; and the numbers of lines."""
import re
from typing import Dict, Optional, Tuple

from .texts import GAP, Changes, Texts

MANY = 100  # changes of one answer, from which on the lines of a text are counted anew
NEAR = 4_096  # runes over which newlines are counted in a text that is read, which may be at hand
MOST_DIGITS = 7  # of the number of a line that a text may have

_BLANKS = r"[ \t]*"
PATTERN = r"/((?:\\.|[^/\\])*)(?:/|$)"
_ADDRESS = re.compile(rf"(?:{_BLANKS}(?:#?{_BLANKS}\d+|{PATTERN}|[$.,]))*{_BLANKS}")
_STEP = re.compile(rf"([xygv]){_BLANKS}{PATTERN}{_BLANKS}")


def removes(line: str) -> Tuple[str, Optional[str]]:
    """What a command line takes out of a text: ("nothing", None); ("pattern", the very text); or ("range", its address)."""
    address = _ADDRESS.match(line)
    at, pattern = address.end(), None
    is_exact = False
    while step := _STEP.match(line, at):
        at = step.end()
        if step[1] == "x":
            pattern, is_exact = unescaped(step[2]), True
        elif step[1] == "y":
            is_exact = False
    if line[at : at + 1] not in ("c", "d"):
        return "nothing", None
    return ("pattern", pattern) if is_exact else ("range", address[0].strip(" \t") if pattern is None else None)


def is_address(line: str) -> bool:
    """Whether a command line is an address alone, which selects."""
    return _ADDRESS.match(line).end() == len(line)  # a full match of a long number would try each way to part its digits


def unescaped(pattern: str) -> str:
    """The text that a pattern or a text of a command line stands for."""
    return re.sub(r"\\(.)", lambda found: "\n" if found[1] == "n" else found[1], pattern, flags=re.DOTALL)


def escaped(pattern: str) -> str:
    """A pattern of a command line that stands for a text."""
    return "".join("\\n" if rune == "\n" else f"\\{rune}" if re.match(r"[!-/:-@\[-`{-~]", rune) else rune for rune in pattern)


def line_number(word: str) -> Optional[int]:
    """The number that a word of a command line is; None where it is none, or a greater one than any text has lines."""
    digits = word.lstrip("0") or word[-1:]
    return int(digits) if word.isdecimal() and len(digits) <= MOST_DIGITS else None  # Python reads no number of any length


class Numbers:
    """The numbers of lines. Of each file one place is kept whose line is known; lines are counted from there."""

    def __init__(self, texts: Texts):
        self.texts = texts
        self._known: Dict[int, Tuple[int, int]] = {}  # a place, and its line, counted from 1
        # How many newlines a text has, how many runes, and whether the last one ends a line; None where that was not asked since.
        self._counts: Dict[int, Tuple[int, int, Optional[bool]]] = {}

    def hear(self, changes: Changes) -> None:
        self._count_on(changes)
        tag = changes.tag
        place, line = self._known.get(tag, (0, 1))
        if min(changes.places) > place:
            return
        for change in changes:
            at, came = change.place, change.came
            if at > place:
                continue
            gone, came = change.gone[: place - at], came if at == place or at + len(change.gone) < place else ""
            if GAP not in gone + came:
                # What comes at the place itself is typed there: the caret goes on behind it.
                place, line = change.moved(place) if at < place else place + len(came), line - gone.count("\n") + came.count("\n")
            elif at < place:
                place, line = 0, 1
            self._known[tag] = place, line

    def _count_on(self, changes: Changes) -> None:
        """Counts what some changes did to how many lines there are."""
        known = self._counts.pop(changes.tag, None)
        if known is None or len(changes) > MANY:
            return
        newlines, length, ends = known
        for _, place, gone, came in changes:
            if GAP in gone or GAP in came:
                return
            if place + len(gone) == length:
                ends = came.endswith("\n") if came else None
            newlines += came.count("\n") - gone.count("\n")
            length += len(came) - len(gone)
        self._counts[changes.tag] = newlines, length, ends

    def drop(self, tag: int) -> None:
        self._known.pop(tag, None)
        self._counts.pop(tag, None)

    def set(self, tag: int, place: int, line: int) -> None:
        """The host found a line."""
        self._known[tag] = (place, line)

    def line(self, tag: int, place: int) -> Optional[int]:
        """The line of a place, counted from 1; None where it is not known."""
        for start, line in (self._known.get(tag, (0, 1)), (0, 1)):
            if start == place:
                return line
            low, high = sorted((start, place))
            gap = self.texts.terminal.first_gap(tag, low)
            if gap is None or gap >= high:
                count = self._newlines(tag, low, high)
                line += count if start <= place else -count
                self._known[tag] = (place, line)
                return line
        return None

    def _newlines(self, tag: int, low: int, high: int) -> int:
        """How many newlines stand from one place to another; all of that is loaded."""
        if high - low <= NEAR:
            return self.texts.read(tag, low, high - low).count("\n")
        return self.texts.terminal.newlines(tag, low, high)

    def count(self, tag: int, length: int) -> Optional[int]:
        """How many lines a text of this length has; None where not all of it is loaded."""
        known = self._counts.get(tag)
        if known is None or known[1] != length:
            if self.texts.terminal.first_gap(tag) is not None:
                return None
            known = self._newlines(tag, 0, length), length, None
        newlines, _, ends = known
        if ends is None:
            ends = length > 0 and self.texts.read(tag, length - 1, 1) == "\n"
        self._counts[tag] = newlines, length, ends
        return newlines + (0 if ends else 1)
