"""Where a key leads in a window, by the text alone; and which text has to be loaded for that."""
import re
from typing import List, Tuple

from ..view import layout
from ..view.layout import Layout, line_end, line_start, looks, row_start
from ..text.texts import COMMAND, GAP

PIECE = 4096  # runes that are looked at at once for the end of a word
LONGEST_LOOK = 512  # runes of the line before that a new line takes its indentation from
FARTHEST_END = 4096  # runes that are looked at for the end of the first line, by which a new line ends as the others do
MOST_TO_INDENT = 131_072  # runes of a selection that are loaded for a key that indents its lines

BETWEEN, WORD = re.compile(r"\W*"), re.compile(r"\w*")


class Missing(Exception):
    """Text is in the way that is not loaded: from a place on, downwards (1) or upwards (-1)."""

    def __init__(self, place: int, step: int):
        super().__init__(place, step)
        self.place, self.step = place, step


class Targets:
    """The places to which keys lead from the caret of a window. Where the text on the way there is not loaded each raises Missing, but
    for a text of which no more comes: there the nearest gap is as far as they lead."""

    def __init__(self, window):
        self.window, self.texts = window, window.texts

    def read(self, place: int, count: int) -> str:
        return self.window.read(place, count)

    def _want(self, place: int, step: int) -> None:
        """A rune has to be loaded."""
        if not self.texts.is_final and 0 <= place < self.window.length and self.read(place, 1) == GAP:
            raise Missing(place, step)

    def _want_all(self, start: int, end: int) -> None:
        """All runes from one place to another have to be."""
        gap = None if self.texts.is_final else self.window.terminal.first_gap(self.window.tag, start)
        if gap is not None and gap < end:
            raise Missing(gap, 1)

    # ---- What has to be loaded that is shown, or that goes

    def rows(self) -> None:
        """All that the window shows."""
        layout = self.window.layout()
        self._want_all(layout.top, layout.end)

    def selection(self) -> None:
        """What is selected and shown, so that it can go. What is not shown is loaded by the key itself."""
        start, end = self.window.dot
        if start < end:
            layout = self.window.layout()
            self._want_all(max(start, layout.top), min(end, layout.end))

    def lacking(self) -> int:
        """How many runes of what is selected are not loaded."""
        start, end = self.window.dot
        gap = self.window.terminal.first_gap(self.window.tag, start) if start < end else None
        return 0 if gap is None or gap >= end else self.read(gap, end - gap).count(GAP)

    def tabbed(self) -> None:
        """What a tab goes by: whether lines are selected, and these. Where too much of that is not loaded the tab says so."""
        start, end = self.window.dot
        if self.window.tag == COMMAND:
            self.selection()
        elif start < end and self.lacking() <= MOST_TO_INDENT:
            self._want_all(start, end)
            if self.has_newline():
                self._line_start(start)

    def untabbed(self) -> None:
        """What Shift-Tab goes by: the lines that are selected, or that of the caret, with the blanks that begin the first and the last."""
        start, end = self.window.dot
        if self.lacking() > MOST_TO_INDENT:
            return
        self._want_all(start, end)
        self._line_start(start)
        for line in self.selected_lines()[:: max(1, len(self.selected_lines()) - 1)]:
            text = self.read(line, layout.TAB)
            blanks = len(text) - len(text.lstrip(" "))
            if blanks < len(text):
                self._want(line + blanks, 1)

    def new_line(self) -> None:
        """What a new line goes by."""
        self.selection()
        self.indentation()
        self.newline()

    # ---- Runes and words

    def beside(self, place: int, step: int) -> int:
        """The next place to the right (1) or to the left (-1), over runes that stand on another."""
        if step > 0:
            self._want(place, step)
        at = place + step
        while 0 < at < self.window.length and self._is_on_another(at, step):
            at += step
        return max(0, min(at, self.window.length))

    def _is_on_another(self, place: int, step: int) -> bool:
        """Whether the rune after a place shares the cell of the one before it. At the start of a line and after a gap it can't."""
        self._want(place, step)
        rune = self.read(place, 1)
        if rune != "\n" and (rune in (GAP, "\t") or looks(rune)[1] != 0):
            return False
        self._want(place - 1, step)
        before = self.read(place - 1, 1)
        return before == "\r" if rune == "\n" else before not in (GAP, "\n")

    def left(self, extends: bool = False) -> int:
        """Without Shift first to the end of what is selected."""
        start, end = self.window.dot
        return start if start < end and not extends else self.beside(self.window.caret, -1)

    def right(self, extends: bool = False) -> int:
        start, end = self.window.dot
        return end if start < end and not extends else self.beside(self.window.caret, 1)

    def erased_left(self) -> Tuple[int, int]:
        """What Backspace erases: the selection, or the rune before the caret, with the CR before an LF."""
        start, end = self.window.dot
        if start < end:
            self.selection()
            return start, end
        before = self.read(max(0, start - 2), min(2, start))
        if before.endswith(GAP):
            self._want(start - 1, -1)
        if before == GAP + "\n":
            self._want(start - 2, -1)
        return max(0, start - (2 if before == "\r\n" else 1)), start

    def erased_right(self) -> Tuple[int, int]:
        """What Delete erases: the selection, or the rune after the caret with those that stand on it."""
        start, end = self.window.dot
        if start < end:
            self.selection()
            return start, end
        return start, self.beside(start, 1)

    def word_right(self, _extends: bool = False) -> int:
        """The end of the next word."""
        at = self.window.caret
        for pattern in (BETWEEN, WORD):
            at = self._over(pattern, at, 1)
        return at

    def word_left(self, _extends: bool = False) -> int:
        """The start of the word before."""
        at = self.window.caret
        for pattern in (BETWEEN, WORD):
            at = self._over(pattern, at, -1)
        return at

    def _over(self, pattern, at: int, step: int) -> int:
        """The place behind all runes of a kind, from one place on."""
        while True:
            low = at if step > 0 else max(0, at - PIECE)
            text = self.read(low, PIECE if step > 0 else at - low)[::step]
            known = text.partition(GAP)[0]
            count = pattern.match(known).end()
            at += step * count
            if count < len(known) or not text:
                return at
            if len(known) < len(text):
                self._want(at if step > 0 else at - 1, step)
                return at

    # ---- Lines

    def _line_start(self, place: int) -> int:
        start = line_start(self.read, place)
        self._want(start - 1, -1)
        return start

    def home(self, _extends: bool = False) -> int:
        return self._line_start(self.window.caret)

    def end(self, _extends: bool = False) -> int:
        end = line_end(self.read, self.window.caret)
        self._want(end, 1)
        return end

    def indentation(self) -> str:
        """The blanks at the start of the line of what is selected, up to that."""
        place = self.window.dot[0]
        start = self._line_start(place)
        line = self.read(start, min(place - start, LONGEST_LOOK))
        blanks = len(line) - len(line.lstrip(" \t"))
        if blanks < len(line):
            self._want(start + blanks, 1)
        return line[:blanks]

    def selected_lines(self) -> List[int]:
        """The starts of the lines that are selected, or that of the caret; none where something of them is not loaded."""
        start, end = self.window.dot
        first = line_start(self.read, start)
        text = self.read(first, end - first)
        if GAP in text or (first > 0 and self.read(first - 1, 1) == GAP):
            return []
        return [first, *(first + at + 1 for at, rune in enumerate(text[:-1]) if rune == "\n")]

    def has_newline(self) -> bool:
        """Whether what is selected ends a line or several."""
        start, end = self.window.dot
        return start < end and "\n" in self.read(start, end - start)

    def may_indent(self) -> bool:
        """Whether a tab indents what is selected, or would if it were loaded: it replaces nothing of which that is not known."""
        return self.lacking() > 0 or self.has_newline()

    def indent_of(self, line: int) -> int:
        """How many runes at the start of a line are one step of indentation: a tab, or as many blanks as it has columns."""
        text = self.read(line, layout.TAB)
        return 1 if text.startswith("\t") else len(text) - len(text.lstrip(" "))

    def newline(self) -> str:
        """How lines end there: as the line above does, else as the first one."""
        place = self.window.dot[0]
        start = self._line_start(place)
        if start > 0:
            self._want(start - 2, -1)
            return "\r\n" if start > 1 and self.read(start - 2, 2) == "\r\n" else "\n"
        text = self.read(place, FARTHEST_END)
        end = place + min(at for at in (text.find("\n"), text.find(GAP), len(text)) if at >= 0)
        if end < place + len(text):
            self._want(end, 1)
        return "\r\n" if end > 0 and self.read(end - 1, 2) == "\r\n" else "\n"

    # ---- Rows

    def _row(self, place: int) -> int:
        """The start of the row of a place."""
        self._line_start(place)
        return row_start(self.read, place, self.window.width)

    def _rows_from(self, start: int, count: int) -> Layout:
        layout = Layout(self.read, start, self.window.width, count)
        self._want_all(start, layout.end)
        return layout

    def column(self) -> int:
        """The column that moves by rows keep to."""
        goal, caret = self.window.goal, self.window.caret
        if goal is not None and goal[1] == caret:
            return goal[0]
        start = self._row(caret)
        return self._rows_from(start, 2).position_of(caret)[1]

    def up(self, _extends: bool = False) -> int:
        """The place in the row above; the start of the text where there is none."""
        column, start = self.column(), self._row(self.window.caret)
        if start == 0:
            return 0
        self._want(start - 1, -1)
        if self.read(start - 1, 1) == GAP:
            return start - 1
        return self._rows_from(self._row(start - 1), 2).place_at(0, column)

    def down(self, _extends: bool = False) -> int:
        """The place in the row below; the end of the text where there is none."""
        column, start = self.column(), self._row(self.window.caret)
        layout = self._rows_from(start, 2)
        return self.window.length if len(layout.rows) < 2 else layout.place_at(1, column)
