"""How runes stand on a screen: rows of cells.

`read(place, count)` stands for a reader of runes: a text, with GAP for a rune that is not loaded.
"""
import ctypes
import re
import unicodedata
from bisect import bisect_right
from functools import lru_cache
from itertools import accumulate
from typing import Callable, Dict, List, NamedTuple, Optional, Sequence, Tuple

from ..text.texts import GAP, Change

Reader = Callable[[int, int], str]

TAB = 8  # columns between tab stops
SHADE = "░"  # stands for a rune that is not loaded
NO_GLYPH = "\ufffd"  # stands for a rune that no screen can show
NO_BASE = "◌"  # carries a combining rune that stands after none, or after as many as one cell has
MOST_ON_CELL = 8  # runes that stand on another; so what a screen shows has so many at most, however many a line has
PIECE, LONGEST_PIECE = 1024, 65_536  # runes that are read at once, more and more of a long line
MOST_KEPT = 16_384  # runes of a line whose strips are kept
FAR_BACK = 8192  # runes that are looked at for the rows above a place, and of which the rows are worked out at once

# Format characters that show, or join what is on both sides; others reorder or hide text, and so have a mark in their place.
JOINERS = "\u200c\u200d"
SHOWN_FORMATS = {*JOINERS, *map(chr, (*range(0x600, 0x606), 0x6DD, 0x70F, 0x890, 0x891, 0x8E2, 0x110BD, 0x110CD, *range(0x13430, 0x13440)))}

_wcwidth = ctypes.CDLL(None).wcwidth  # the C library's, by which curses draws


def is_hidden(rune: str) -> bool:
    """Whether a rune is a format character that shows nowhere itself, and isn't one that joins."""
    return unicodedata.category(rune) == "Cf" and rune not in SHOWN_FORMATS


@lru_cache(maxsize=4096)
def looks(rune: str) -> Tuple[str, int]:
    """What is drawn for a rune, and its columns; 0 for one that stands on the rune before it. Tabs and newlines aside."""
    kind = unicodedata.category(rune)
    if kind == "Cc":
        return ("^" + chr(ord(rune) ^ 64), 2) if ord(rune) < 128 else (NO_GLYPH, 1)
    if is_hidden(rune):
        mark = f"<{ord(rune):04X}>"
        return mark, len(mark)
    if kind in ("Cn", "Cs", "Zl", "Zp"):
        return NO_GLYPH, 1
    columns = _wcwidth(ord(rune))  # -1 where the locale lacks the rune
    if columns >= 0:
        return rune, columns
    if kind in ("Mn", "Me", "Cf") or "\u1160" <= rune <= "\u11ff":
        return rune, 0
    return rune, 2 if unicodedata.east_asian_width(rune) in "WF" else 1


NOT_ASCII = re.compile(r"[^\x00-\x7f]")


def is_plain(text: str) -> bool:
    """Whether each rune of a text is drawn as it is, in one column."""
    return text.isprintable() and (text.isascii() or all(looks(rune) == (rune, 1) for rune in set(NOT_ASCII.findall(text))))


def has_wide(text: str) -> bool:
    """Whether a rune of a text takes two columns."""
    return not text.isascii() and any(looks(rune)[1] > 1 for rune in NOT_ASCII.findall(text))


class Strip(NamedTuple):
    """A row of a line, by offsets from the line's start. A cell is one or more columns that belong together: a rune with those that
    stand on it. All four lists are as long."""

    start: int
    end: int
    offsets: Sequence[int]  # of each cell's first rune
    columns: Sequence[int]
    texts: Sequence[str]  # what is drawn for each cell
    gaps: Sequence[bool]  # whether it is not loaded; empty where all are loaded
    width: int


class StripMaker:
    """Puts the runes of a line into strips of a width."""

    def __init__(self, width: int):
        self.width = width
        self.strips: List[Strip] = []
        self._begin(0)

    def _begin(self, start: int) -> None:
        self.start, self.column = start, 0
        self.offsets: List[int] = []
        self.columns: List[int] = []
        self.texts: List[List[str]] = []
        self.gaps: List[bool] = []

    def finish(self, end: int) -> None:
        texts = ["".join(parts) for parts in self.texts]
        gaps = self.gaps if any(self.gaps) else ()
        self.strips.append(Strip(self.start, end, self.offsets, self.columns, texts, gaps, self.column))
        self._begin(end)

    def add(self, at: int, rune: str) -> None:
        if rune == "\t" and self.column >= self.width:
            self.finish(at)  # its columns count from the row's start
        text, width = (SHADE, 1) if rune == GAP else (" ", TAB - self.column % TAB) if rune == "\t" else looks(rune)
        if width == 0 and self.texts and not self.gaps[-1] and len(self.texts[-1]) <= MOST_ON_CELL:
            self.texts[-1].append(text)
            return
        if width == 0:
            text, width = NO_BASE + text, 1
        if self.column >= self.width or (0 < self.column and self.column + width > self.width and rune != "\t"):
            self.finish(at)
        if width > self.width - self.column:
            width = self.width - self.column
            text = text[:width] if text.isascii() else text  # of a mark in a narrow window
        self.offsets.append(at)
        self.columns.append(self.column)
        self.texts.append([text.ljust(width) if rune == "\t" else text])
        self.gaps.append(rune == GAP)
        self.column += width


def strips_of(line: str, width: int, ends: bool) -> Tuple[Strip, ...]:
    """The strips of a line without its newline; `ends` tells whether it has one. A carriage return before that is not shown."""
    return (_known_strips if len(line) <= MOST_KEPT else _new_strips)(line, width, ends)


def _new_strips(line: str, width: int, ends: bool) -> Tuple[Strip, ...]:
    """The same."""
    width = max(width, 2)
    stop = len(line) - 1 if ends and line.endswith("\r") else len(line)
    if is_plain(line[:stop]) or line.count(GAP) == stop:
        return _plain_strips(line[:stop], width)
    maker = StripMaker(width)
    for at in range(stop):
        maker.add(at, line[at])
    maker.finish(stop)
    return tuple(maker.strips)


_known_strips = lru_cache(maxsize=2048)(_new_strips)


def _plain_strips(line: str, width: int) -> Tuple[Strip, ...]:
    """The same of runes of one column each: all plain, or none of them loaded."""
    is_gap = line.startswith(GAP)
    text = SHADE * len(line) if is_gap else line
    strips = []
    for start in range(0, max(1, len(line)), width):
        end = min(start + width, len(line))
        gaps = (True,) * (end - start) if is_gap else ()
        strips.append(Strip(start, end, range(start, end), range(end - start), text[start:end], gaps, end - start))
    return tuple(strips)


class Row(NamedTuple):
    """A row of a window: the places from `start` to `end`."""

    start: int
    end: int
    text_end: int  # where its newline begins, which has no cell; `end` where it has none
    base: int  # the place from which its strip counts
    strip: Strip

    @property
    def has_gap(self) -> bool:
        return bool(self.strip.gaps)

    def column_of(self, place: int) -> int:
        if place >= self.text_end:
            return self.strip.width
        at = bisect_right(self.strip.offsets, place - self.base) - 1
        return self.strip.columns[at] if at >= 0 else 0

    def place_at(self, column: int) -> Optional[int]:
        """The place of the cell in a column; None to the right of all."""
        if column >= self.strip.width:
            return None
        return self.base + self.strip.offsets[max(0, bisect_right(self.strip.columns, column) - 1)]


class Patch(NamedTuple):
    """The rows of one line that a key has changed, from the row `at` on, in the place of as many. Those below stand `by` runes farther."""

    at: int
    rows: Sequence[Row]
    by: int
    line: str = ""  # without its newline; empty where it was not read yet

    @property
    def start(self) -> int:
        return self.rows[0].start

    @property
    def end(self) -> int:
        return self.rows[-1].end


class Layout:
    """The rows of a window that shows a text from the place `top` on. `likely` runes are read first, where that is known. After a key that
    changes one line all other rows stay as they are: few of them are looked at."""

    def __init__(self, read: Reader, top: int, width: int, height: int, likely: int = 0):
        self.width, self.height = max(width, 2), height
        most, is_all, rows = self.width * height + 2, False, []
        count = likely or most
        while len(rows) < height and not is_all:  # runes that stand on others need no room
            text = read(top, count)
            is_all = len(text) < count
            rows = self._rows(text, top, is_all)
            count = max(4 * count, most)
        self.is_whole = is_all and len(rows) <= height  # the end of the text is shown
        self._base, self._patch = rows[:height], None  # type: List[Row], Optional[Patch]
        self._all: Optional[List[Row]] = self._base  # None where the patch is not put in yet
        self.top, self.end = top, self._base[-1].end if self._base else top
        self._starts = [row.start for row in self._base]

    def _rows(self, text: str, top: int, is_all: bool) -> List[Row]:
        """The rows of a text, and perhaps some more than fit. Where the text goes on, its last row is not known."""
        rows: List[Row] = []
        made, width, height, at = tuple.__new__, self.width, self.height, top
        *lines, last = text.split("\n", height + 1)
        for line in lines:
            strips, end = strips_of(line, width, True), at + len(line) + 1
            if len(strips) > 1:
                rows += [made(Row, (at + strip.start, at + strip.end, at + strip.end, at, strip)) for strip in strips[:-1]]
            strip = strips[-1]
            rows.append(made(Row, (at + strip.start, end, at + strip.end, at, strip)))
            at = end
            if len(rows) > height:
                return rows
        rows += (Row(at + strip.start, at + strip.end, at + strip.end, at, strip) for strip in strips_of(last, width, False))
        if not is_all:
            rows.pop()
        return rows

    @property
    def rows(self) -> List[Row]:
        if self._all is None:
            at, rows, by, _ = self._patch
            below = self._base[at + len(rows) :]
            moved = (Row(start + by, end + by, stop + by, base + by, strip) for start, end, stop, base, strip in below)
            self._all = [*self._base[:at], *rows, *moved]
        return self._all

    def changed(self, read: Reader, change: Change) -> Optional["Layout"]:
        """The layout after a change inside of one line that is shown whole, if that has as many rows as before; else None."""
        _, place, gone, came = change
        by, patch = len(came) - len(gone), self._patch_at(place)
        if patch is None or place + len(gone) >= patch.end or "\n" in came:
            return None
        base, end, line = patch.rows[0].base, patch.end + by, patch.line
        if line and GAP not in came:
            line = line[: place - base] + came + line[place - base + len(gone) :]
        else:
            line = read(base, end - 1 - base)
        strips = strips_of(line, self.width, True)
        if len(strips) != len(patch.rows) or "\n" in line:
            return None
        *rows, last = (Row(base + strip.start, base + strip.end, base + strip.end, base, strip) for strip in strips)
        rows.append(last._replace(end=end))
        other = Layout.__new__(Layout)
        other.width, other.height, other.is_whole, other.top, other.end = self.width, self.height, self.is_whole, self.top, self.end + by
        other._base, other._starts, other._all, other._patch = self._base, self._starts, None, Patch(patch.at, rows, patch.by + by, line)
        return other

    def _patch_at(self, place: int) -> Optional[Patch]:
        """The rows of the line of a place, where that ends with a newline that is shown."""
        if not self.top <= place < self.end:
            return None
        patch = self._patch
        if patch is not None and patch.start <= place < patch.end:
            return patch
        if patch is not None:
            self._base, self._starts, self._patch = self.rows, [row.start for row in self.rows], None
        rows = self._base
        first = last = bisect_right(self._starts, place) - 1
        while first > 0 and rows[first - 1].base == rows[first].base:
            first -= 1
        while last < len(rows) - 1 and rows[last].end == rows[last].text_end:
            last += 1
        return Patch(first, rows[first : last + 1], 0) if rows[last].text_end < rows[last].end else None

    def rows_since(self, before: "Layout") -> Optional[Sequence[Tuple[int, Row]]]:
        """The rows that are others than in a layout before, each with its number, where those below only stand elsewhere; None where
        that isn't known."""
        patch, old = self._patch, before._patch
        if self._base is not before._base or patch is None or (old is not None and (old.at, len(old.rows)) != (patch.at, len(patch.rows))):
            return None
        return [*enumerate(patch.rows, patch.at)]

    def shows(self, place: int) -> bool:
        return self.top <= place < self.end or (self.is_whole and place == self.end)

    def position_of(self, place: int) -> Tuple[int, int]:
        """Row and column of a place that is shown."""
        patch = self._patch
        if patch is None or place < patch.start:
            at = bisect_right(self._starts, place) - 1
            return at, self._base[at].column_of(place)
        if place < patch.end or patch.at + len(patch.rows) == len(self._base):
            at = sum(row.start <= place for row in patch.rows) - 1
            return patch.at + at, patch.rows[at].column_of(place)
        at = bisect_right(self._starts, place - patch.by) - 1
        return at, self._base[at].column_of(place - patch.by)

    def place_at(self, at: int, column: int) -> int:
        """The place that stands nearest to a row and column."""
        if at >= len(self.rows):
            return self.end
        row = self.rows[at]
        place = row.place_at(column)
        if place is not None:
            return place
        if row.text_end < row.end or (self.is_whole and at == len(self.rows) - 1) or not row.strip.offsets:
            return row.text_end
        return row.base + row.strip.offsets[-1]


def line_start(read: Reader, place: int, least: int = 0) -> int:
    """The start of the line of a place, or the place after the nearest gap before it; `least` where neither is after that."""
    count = PIECE
    while place > least:
        low = max(least, place - count)
        text = read(low, place - low)
        at = max(text.rfind("\n"), text.rfind(GAP))
        if at >= 0:
            return low + at + 1
        place, count = low, min(2 * count, LONGEST_PIECE)
    return place


def line_end(read: Reader, place: int) -> int:
    """The end of the line of a place, before its newline, or the nearest gap after it."""
    at, count = place, PIECE
    while text := read(at, count):
        ends = [end for end in (text.find("\n"), text.find(GAP)) if end >= 0]
        if ends:
            at += min(ends)
            return at - 1 if at > place and read(at - 1, 2) == "\r\n" else at
        at, count = at + len(text), min(2 * count, LONGEST_PIECE)
    return at


def row_start(read: Reader, place: int, width: int) -> int:
    """The start of the row of a place, of those that begin with its line; or after the nearest gap before it, where that is in the way."""
    start = line_start(read, place)
    while place - start > FAR_BACK:
        start += _last_row(read(start, FAR_BACK), width) or FAR_BACK
    end = place + (2 if read(place, 2) == "\r\n" else 1)
    return _starts_of_rows(read, start, end, width)[-1]


class Columns(Dict[str, int]):
    """How many columns a rune takes, as far as that was asked for; 0 for one whose columns go by those before it."""

    def __missing__(self, rune: str) -> int:
        self[rune] = columns = 0 if rune in (GAP, "\t") else looks(rune)[1]
        return columns


_columns = Columns()


@lru_cache(maxsize=1024)
def _last_row(text: str, width: int) -> int:
    """Where the last row of a piece of a line begins. Where each rune takes one column or two no row is worked out."""
    columns, width = bytes(map(_columns.__getitem__, text)), max(width, 2)
    if columns.translate(None, b"\1\2"):
        return _new_strips(text, width, False)[-1].start
    ends = [*accumulate(columns)]
    start = used = 0
    while ends and ends[-1] - used > width:
        start = bisect_right(ends, used + width)
        used = ends[start - 1]
    return start


class Above(NamedTuple):
    """Where a window begins, whether that is known, and how many rows it then has above a place."""

    top: int
    is_known: bool
    rows: int


def top_above(read: Reader, place: int, rows: int, width: int) -> Above:
    """Where a window begins that has so many rows above the row that begins at a place, or all there are. That is not known where a rune
    that is not loaded is in the way: then it is where the window begins if no line ends there."""
    starts: List[int] = [place]
    is_known = place == 0 or read(place - 1, 1) != GAP
    while is_known and len(starts) <= rows and starts[0] > 0:
        end = starts[0]
        least = max(0, end - FAR_BACK)
        start = line_start(read, end - 1, least)
        if start == least:  # the line is longer
            start = row_start(read, start, width)
        is_known = start == 0 or read(start - 1, 1) != GAP
        starts = _starts_of_rows(read, start, end, width) + starts
    missing = rows + 1 - len(starts)
    if missing > 0 and not is_known:
        missing = min(missing, -(-starts[0] // width))
        return Above(max(0, starts[0] - missing * width), False, len(starts) - 1 + missing)
    return Above(starts[max(0, -missing)], is_known, min(rows, len(starts) - 1))


def _starts_of_rows(read: Reader, start: int, end: int, width: int) -> List[int]:
    """The starts of the rows of a stretch of one line that begins with a row."""
    text = read(start, end - start)
    ends = text.endswith("\n")
    return [start + strip.start for strip in strips_of(text[:-1] if ends else text, width, ends)]


def fitted(text: str, width: int) -> str:
    """A text of exactly so many columns: cut, or filled with blanks."""
    if is_plain(text):
        return text[:width].ljust(width)
    shown, used = "", 0
    for rune in text:
        looked, columns = (" ", 1) if rune in "\t\n" else looks(rune)
        if used + columns > width:
            break
        shown, used = shown + looked, used + columns
    return shown + " " * (width - used)
