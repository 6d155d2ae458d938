"""Windows: what of a file is shown, and how it follows the user and the host. No text is kept here, each look reads the terminal."""
from typing import NamedTuple, Optional, Tuple

from .layout import Layout, line_start, row_start, top_above
from ..keys.motions import Targets
from ..text.client_terminal import ClientTerminal
from ..text.texts import GAP, Change, Changes, Texts

MOST_STRETCHES, MOST_IN_STRETCH = 64, 512  # that are asked for at once, so that no key waits long, and the runes of each
MOST_IN_LOAD = MOST_STRETCHES * MOST_IN_STRETCH
GUTTER, LEAST_WITH_NUMBERS = 8, 40  # columns of the numbers of lines, with a blank; and of a screen that has them
HEAD = 11  # columns of the title of the command window where that stands before its one row, with a blank


def ask(terminal: ClientTerminal, tag: int, top: int, end: int, page: int, turns: int = 0) -> None:
    """Asks for what stands from `top` to `end`, and for a page of so many runes on either side, in one round trip; also for as many pages
    below as page keys wait, or above where `turns` is negative, as far as one Load goes."""
    most = max(0, MOST_IN_LOAD - (end - top) - 2 * page)
    above, below = (page + min(most, max(0, pages) * page) for pages in (-turns, turns))
    start = max(0, top - above)
    last = end_of_load(terminal, tag, start, end + below)
    if last < end:  # there are many gaps: what is shown comes first
        start, last = top, end_of_load(terminal, tag, top, end)
    terminal.load(tag, start, last - start)


def end_of_load(terminal: ClientTerminal, tag: int, start: int, end: int) -> int:
    """Where a Load has to end that begins at a place and asks for all its gaps at once. Of a longer one the others would come one by one,
    in a round trip each, and lock the file all the while."""
    place = start
    for _ in range(MOST_STRETCHES):
        gap = terminal.first_gap(tag, place)
        if gap is None or gap >= end:
            return end
        place = terminal.end_of_gap(tag, gap, min(gap + MOST_IN_STRETCH, end))
    return min(place, end)


class Aim(NamedTuple):
    """A place that is to stand below so many rows, how many stand above it until then, and whether the text above it was asked for."""

    place: int
    rows: int
    reached: int  # fewer than `rows` where these lead past the start of the text
    is_asked: bool = False


class Look(NamedTuple):
    """What a window shows, asked for once: the selection, its end that moves, the rows; no rows where its file is not open."""

    dot: Tuple[int, int] = (0, 0)
    caret: int = 0
    layout: Optional[Layout] = None


class Window:
    """A file on the screen: rows of text under a title, from the place `top` on."""

    def __init__(self, texts: Texts, tag: int):
        self.terminal, self.texts, self.tag = texts.terminal, texts, tag
        self.targets = Targets(self)
        self.y, self.height, self.width = 0, 1, 80  # row of the title, rows of text, columns of text
        self.gutter, self.wants_numbers = 0, False  # columns before the text, for the numbers of lines
        self.is_row = False  # it is one row, with its title before the text
        self.anchor: Optional[int] = None  # the end of the selection that stays while the user extends it
        self.goal: Optional[Tuple[int, int]] = None  # the column that moves by rows keep to, and where the last one led
        self._top = 0
        self._followed: Optional[Tuple[int, int]] = None  # the dot that was brought into view
        self._aim: Optional[Aim] = None  # what is to be shown once the text above it is loaded
        self._layout: Optional[Layout] = None
        self._heard = 0  # how many changes there were since
        self._change: Optional[Change] = None  # the last one
        self._layout_of: tuple = ()
        self._loaded: Optional[Layout] = None  # what is shown, where all of it is loaded and the terminal was told so
        self._is_shifted = False  # text above it changed, so that it may not begin with a row any more
        self.drawn = None  # its rows as the screen has drawn them
        self._turns = False  # the user turns pages, and those on either side were not asked for yet

    # ---- Reading

    @property
    def is_open(self) -> bool:
        return self.terminal.is_open(self.tag)

    @property
    def is_settled(self) -> bool:
        """Whether the file is open, and no answer that is due sets its selection."""
        return self.terminal.is_settled(self.tag)

    @property
    def may_ask(self) -> bool:
        """Whether nothing is asked of the host for it."""
        return self.is_settled and not self.terminal.locked(self.tag)

    @property
    def length(self) -> int:
        return self.terminal.len(self.tag)

    @property
    def dot(self) -> Tuple[int, int]:
        return self.terminal.dot(self.tag)

    @property
    def caret(self) -> int:
        """The end of the dot that moves."""
        return self._moving_end(self.dot)

    def _moving_end(self, dot: Tuple[int, int]) -> int:
        start, end = dot
        return start if self.anchor == end else end

    @property
    def top(self) -> int:
        """Where the window begins."""
        return min(self._top, self.terminal.len(self.tag))

    @property
    def sight(self) -> tuple:
        """What it shows, but for the text and the selection."""
        return self.tag, self._top, self.y, self.height, self.width, self.gutter, self.is_row

    def read(self, place: int, count: int) -> str:
        return self.texts.read(self.tag, place, count)

    def look(self) -> Look:
        """What it shows now."""
        if not self.is_open:
            return Look()
        dot = self.dot
        return Look(dot, self._moving_end(dot), self._layout_at(self.length))

    def layout(self) -> Layout:
        """The rows that the window shows."""
        return self._layout_at(self.terminal.len(self.tag))

    def _layout_at(self, length: int) -> Layout:
        """The same, of a text of this length."""
        top = min(self._top, length)
        layout_of = (self.texts.versions.get(self.tag, 0), length, top, self.width, self.height)
        if self._layout is None or self._layout_of != layout_of:
            self._layout, self._layout_of = self._new_layout(layout_of), layout_of
            self._change, self._heard = None, 0
        return self._layout

    def _new_layout(self, layout_of: tuple) -> Layout:
        """The layout of the text as it is now. Where nothing but one change was made since the last one that is changed."""
        (version, length, top, *size), before, change = layout_of, self._layout, self._change
        if before is not None and change is not None and self._heard == 1:
            grown = len(change.came) - len(change.gone)
            changed = None
            if self._layout_of == (version - 1, length - grown, top, *size):
                changed = before.changed(self.read, change)
            if changed is not None:
                return changed
        return Layout(self.read, top, self.width, self.height, 0 if before is None else self._likely(before))

    def _likely(self, before: Layout) -> int:
        """How many runes a layout shows that comes after another: with fewer the rows have to be worked out again, of four times as many."""
        return before.end - before.top + 2 * self.width

    def put(self, y: int, height: int, width: int) -> None:
        """Gives it a place on the screen. A caret that was shown stays so, and the window begins with a row of the new width; or above it,
        where a window that has grown would else end below the text. Where a screen is narrow it has no numbers of lines."""
        self.gutter = HEAD if self.is_row else GUTTER if self.wants_numbers and width >= LEAST_WITH_NUMBERS else 0
        width -= self.gutter
        grows = height > self.height
        if (height, width) != (self.height, self.width) and self.is_open:
            if self.layout().shows(self.caret):
                self._followed = None
            if width != self.width:
                self._top = row_start(self.read, self.top, width)
        self.y, self.height, self.width = y, height, width
        if grows and self.is_open and self._top > 0 and self._aim is None and len(self.layout().rows) < height:
            self._show_below(self.length, height - 1)

    def drop_front(self, most: int) -> None:
        """Takes at most so many runes out before what is selected and what it shows, which stays: so it takes whole rows of a line."""
        self._follow_dot()
        length, (start, end) = self.length, self.dot
        count = row_start(self.read, min(most, self.top, start), self.width)
        if count == 0:
            return
        self.texts.select(self.tag, 0, count)
        try:
            self.texts.replace(self.tag, "")
        finally:
            gone = length - self.length  # none where memory was out
            self.texts.select(self.tag, start - gone, end - gone)
            self._followed = self.dot

    # ---- What is shown

    def hear(self, changes: Changes) -> None:
        """Changes of the text move the place where the window begins."""
        self.goal = None
        self._heard += len(changes)
        self._change = next(iter(changes)) if len(changes) == 1 else None
        if min(changes.places) < self._top:  # there may be thousands
            self._is_shifted, self._top = True, changes.moved(self._top)
        if self._aim is not None:
            self._aim = self._aim._replace(place=changes.moved(self._aim.place))

    def follow(self) -> None:
        """Brings the dot into view, also where it stays."""
        self._followed = self._loaded = None

    def update(self, is_busy: bool = False, rests: bool = False, turns: int = 0) -> None:
        """Follows what the host and the user did, and has the terminal load what is shown; while the user is busy only what he needs, and
        while he rests what he may turn to next. `turns` is how many page keys wait, as for `ask`."""
        dot, _, layout = self.look()
        if layout is None:
            return
        if layout is not self._loaded or dot != self._followed or self._is_shifted or self._aim is not None:
            self._show(is_busy, turns)
        if rests and self._turns and not (self.texts.is_final or self.texts.holds_back):
            self._load_beside()

    def _show(self, is_busy: bool, turns: int) -> None:
        """The same, without what he may turn to next."""
        if self._is_shifted:
            self._begin_with_a_row()
        if not self.texts.is_final:
            self._reach()
        self._follow_dot()
        if not (self.texts.is_final or self.texts.holds_back):
            self._load(is_busy, turns)

    def _begin_with_a_row(self) -> None:
        """Begins with the row of the place where it begins, if the start of its line is known."""
        self._is_shifted, start = False, line_start(self.read, self.top)
        if start == 0 or self.read(start - 1, 1) != GAP:
            self._top = row_start(self.read, self.top, self.width)

    def _reach(self) -> None:
        """Shows what was aimed at, where the text above it has come. Of a line that is longer, no place is known at which a row begins: it
        is shown from where it is loaded."""
        if self._aim is None or not self._aim.is_asked or not self.may_ask:
            return
        place = min(self._aim.place, self.length)
        self._show_below(place, self._aim.rows)
        gap = self.terminal.first_gap(self.tag, self._top)
        if gap is None or gap >= place:
            self._aim = None

    def _follow_dot(self) -> None:
        """Brings a dot that has moved into view."""
        dot, place, layout = self.look()
        if dot == self._followed:
            return
        self._followed = dot
        is_shown = layout.shows(place)
        if self.anchor is None and dot[0] < dot[1]:
            place = dot[0]
            is_shown = dot[0] < layout.end and layout.top < dot[1]
        gap = self.terminal.first_gap(self.tag, layout.top)
        if not is_shown or (gap is not None and gap < place):  # what is loaded before a place may push it out
            self._bring(place, layout)

    def _bring(self, place: int, layout: Layout) -> None:
        """Shows a place that a layout doesn't."""
        self._show_below(place, self._rows_above(place, layout))

    def _rows_above(self, place: int, layout: Layout) -> int:
        """How many rows stand above a place that a layout doesn't show: it comes at an edge where it is near, else with some above it."""
        near = 2 * self.width
        if layout.end <= place < layout.end + near:
            return self.height - 1
        return 0 if place < layout.top <= place + near else self.height // 3

    def _show_below(self, place: int, rows: int) -> None:
        """Shows a place below so many rows. Where these are not loaded the place is aimed at: it is shown where it stands if no line ends
        in what is missing."""
        start = row_start(self.read, place, self.width)
        self._top, is_known, reached = top_above(self.read, start, rows, self.width)
        self._aim = None if is_known else Aim(place, rows, reached)
        self._loaded = None

    def _load(self, is_busy: bool, turns: int) -> None:
        """Tells the terminal what is shown, and asks for what of it is not loaded."""
        layout = self.layout()
        if layout is self._loaded or not self.may_ask:
            return
        gap = self.terminal.first_gap(self.tag, layout.top)
        has_all = gap is None or gap >= layout.end
        if has_all and self._aim is None:
            self._loaded = layout
            start, end = self.terminal.file(self.tag).view
            if start < end:  # an empty view asks for nothing by itself, `ask` does
                self.terminal.view(self.tag, layout.top, 0)
        elif has_all or not (is_busy and layout.top <= self.caret <= gap and layout.top < gap):
            end = layout.end if self._aim is None else max(layout.end, self._aim.place)
            ask(self.terminal, self.tag, layout.top, end, layout.end - layout.top, turns)
            if self._aim is not None:
                self._aim = self._aim._replace(is_asked=True)

    def _load_beside(self) -> None:
        """Asks for the pages on either side of one that the page keys led to, so that the next of these need not wait."""
        layout = self.layout()
        if layout is not self._loaded or not self.may_ask:
            return
        self._turns, page = False, layout.end - layout.top
        gap = self.terminal.first_gap(self.tag, max(0, layout.top - page))
        if gap is not None and gap < layout.end + page:
            ask(self.terminal, self.tag, layout.top, layout.end, page)

    # ---- Moving

    def page_down(self, rows: Optional[int] = None) -> None:
        """Shows what stands below, as far as what is shown is loaded."""
        self._turns = True
        if rows is None:
            rows = max(1, self.height - 1)
        place, below = self._counted_from()
        if self._aim is not None:
            self._show_below(place, max(0, below - rows))
            if below >= rows:
                return
            rows -= below
        self._aim = None
        layout, gap = self.layout(), self.terminal.first_gap(self.tag, self.top)
        if gap is not None and layout.shows(gap):
            rows = min(rows, layout.position_of(gap)[0])
        if not layout.is_whole and rows > 0:
            starts = [*(row.start for row in layout.rows), layout.end]
            self._top = starts[min(rows, max(1, len(layout.rows) - 1))]

    def page_up(self, rows: Optional[int] = None) -> None:
        """Shows what stands above."""
        self._turns = True
        if rows is None:
            rows = max(1, self.height - 1)
        place, below = self._counted_from()
        self._show_below(place, below + rows)

    def _counted_from(self) -> Tuple[int, int]:
        """A place, and how many rows above it the window begins. Where no more text is loaded, rows past its start don't count."""
        if self._aim is None:
            return self.top, 0
        return self._aim.place, self._aim.reached if self.texts.is_final else self._aim.rows

    def select(self, place: int, extends: bool = False) -> None:
        """Moves the caret, and shows it; the anchor stays where the selection is extended."""
        self._followed = self.goal = None
        if extends:
            if self.anchor is None or self.anchor not in self.dot:
                start, end = self.dot
                self.anchor = start if self.caret == end else end
            start, end = sorted((self.anchor, place))
        else:
            self.anchor, start, end = None, place, place
        self.texts.select(self.tag, start, end)
