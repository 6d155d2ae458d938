"""The screen: draws what changed since it was drawn last."""
import base64
import contextlib
import curses
import os
import signal
import sys
import time
from functools import lru_cache
from itertools import chain, count, repeat
from typing import Dict, Iterable, List, NamedTuple, Optional, Sequence, Tuple

from .colours import Spans, painted
from ..editor import Editor
from .layout import Row, Strip, fitted, has_wide
from ..line.persistent_session import PersistentSession
from .status_line import printable
from .windows import Window

Run = Tuple[str, int]  # a text and its curses attributes
NO_RUNS: List[Run] = []

MOST_IN_STATUS = 20  # runes of a name in the status line
MOST_IN_CLIP = 74_994  # bytes of a text for the clipboard; xterm takes no more
FOOT = 2  # the status line and the message line
MOST_LINES = 4  # that a long message takes
COUNTS_AFTER = 0.1  # seconds after which counts of bytes are drawn where nothing else changed
# Have the user's terminal tell of the mouse, also of one that moves with its button down; and say where a paste begins and ends.
MOUSE = ("\x1b[?1000;1002;1006h", "\x1b[?1006;1002;1000l")
PASTES = ("\x1b[?2004h", "\x1b[?2004l")
CLIPPING = ("xterm", "tmux", "screen", "rxvt-unicode", "alacritty", "foot", "kitty", "st-", "wezterm", "contour")  # that know OSC 52

# How the colours of languages are drawn, in their order.
PALETTE = (
    (curses.COLOR_MAGENTA, 0), (curses.COLOR_GREEN, 0), (curses.COLOR_CYAN, 0), (curses.COLOR_RED, 0), (curses.COLOR_BLUE, curses.A_BOLD),
    (curses.COLOR_YELLOW, 0), (curses.COLOR_RED, 0), (curses.COLOR_GREEN, 0),
)  # fmt: skip

# Keys by the names that terminfo has for what a terminal sends.
SENT = {
    "kcuu1": "Up", "kcud1": "Down", "kcub1": "Left", "kcuf1": "Right", "khome": "Home", "kend": "End", "kpp": "Page Up",
    "knp": "Page Down", "kdch1": "Delete", "kLFT": "Shift-Left", "kRIT": "Shift-Right", "kri": "Shift-Up", "kind": "Shift-Down",
    "kHOM": "Shift-Home", "kEND": "Shift-End", **{f"kf{number}": f"F{number}" for number in range(1, 13)},
}  # fmt: skip


def sequences() -> Dict[bytes, str]:
    """What the terminal of this session sends for keys, as far as it is more than a character; the longest first."""
    known = {curses.tigetstr(name): key for name, key in SENT.items()}
    sent = {sequence: key for sequence, key in known.items() if sequence and len(sequence) > 2 and sequence.startswith(b"\x1b")}
    return dict(sorted(sent.items(), key=lambda entry: -len(entry[0])))


class Screen:
    """The user's screen."""

    def __init__(self, screen):
        self.screen = screen
        self.drawn: Dict[int, List[Run]] = {}  # what stands in each row; a list of runs never changes
        self._shown: Optional[tuple] = None  # what was drawn last, but for the counts
        self._sight: Optional[tuple] = None  # what that goes by, but for the status line
        self._counts, self._drawn_at = (0, 0), 0.0
        curses.raw()
        curses.nonl()
        with contextlib.suppress(curses.error):  # of a screen without colours
            curses.use_default_colors()
        curses.typeahead(-1)  # keys are not read by curses
        screen.keypad(True)
        self.modes = [PASTES] if curses.tigetstr("cup") else []
        if curses.tigetstr("kmous"):
            self.modes.append(MOUSE)
        screen.refresh()
        self._open()

    def _open(self) -> None:
        self._tell("".join(on for on, _ in self.modes))

    def close(self) -> None:
        self._tell("".join(off for _, off in self.modes))

    def _tell(self, sequence: str) -> None:
        with contextlib.suppress(OSError):  # of a screen that is gone
            sys.stdout.write(sequence)
            sys.stdout.flush()

    def colours(self) -> List[int]:
        """How each colour of colours.py is drawn; none where the terminal has no colours."""
        attributes = [curses.A_NORMAL]
        try:
            if not curses.has_colors() or curses.COLORS < len(PALETTE) or curses.COLOR_PAIRS <= len(PALETTE):
                return []
            for at, (colour, more) in enumerate(PALETTE, 1):
                curses.init_pair(at, colour, -1)
                attributes.append(curses.color_pair(at) | more)
        except curses.error:  # it has no colours of its own to write on
            return []
        return attributes

    def put_on_clipboard(self, text: str) -> None:
        """Has the user's terminal keep a text, where it knows how. It may refuse without a word."""
        data = text.encode("utf-8", "replace")
        if os.environ.get("TERM", "").startswith(CLIPPING) and len(data) <= MOST_IN_CLIP:
            self._tell(f"\x1b]52;c;{base64.b64encode(data).decode()}\x07")

    def redraw(self) -> None:
        """Sets the terminal up again, and draws all of it."""
        with contextlib.suppress(curses.error):  # of a screen that is gone
            curses.reset_prog_mode()
        self._open()
        self.screen.clearok(True)
        self.screen.erase()
        self.drawn.clear()
        self._shown = None

    def give_back(self, line: str = "") -> None:
        """Gives the terminal back, until `redraw`, with a line that says what for."""
        self.close()
        curses.def_prog_mode()
        curses.endwin()
        if line:
            self._tell(line + "\n")

    def suspend(self, is_group: bool = True) -> None:
        """Gives the terminal back to the shell, and stops until that goes on with this job."""
        self.give_back()
        before = signal.signal(signal.SIGTSTP, signal.SIG_DFL)
        os.kill(0 if is_group else os.getpid(), signal.SIGTSTP)
        signal.signal(signal.SIGTSTP, before)
        self.redraw()

    @property
    def size(self) -> Tuple[int, int]:
        """Rows for windows, and columns."""
        rows, columns = self.screen.getmaxyx()
        return max(1, rows - FOOT), columns

    def resize(self, rows: int, columns: int) -> None:
        curses.resizeterm(rows, columns)
        self.screen.erase()
        self.drawn.clear()
        self._shown = None

    def draw(self, editor: Editor, link: PersistentSession) -> Optional[float]:
        """Draws what changed. Where that is the count of bytes alone it is drawn a little later: returns in how many seconds."""
        rows, columns = self.screen.getmaxyx()
        sight = sight_of(editor)
        if self._shown is not None and sight == self._sight is not None and not editor.colours.goes_on:
            parts, cursor = self._shown[:2]
        else:
            editor.colours.begin()
            parts, cursor, self._sight = parts_of(editor, rows, columns), cursor_of(editor), sight
        shown = (parts, cursor, status(editor, link), editor.has_details)
        counts, now = (link.up, link.down) if editor.has_details else (0, 0), time.monotonic()
        left = self._drawn_at + COUNTS_AFTER - now
        if shown == self._shown and (left > 0 or counts == self._counts):
            return left if self._counts != counts else None
        before, self._shown, self._counts, self._drawn_at = self._shown, shown, counts, now
        foot = rows - 1 - len(parts.lines)
        frame = changed_rows(before[0], parts, foot) if before is not None else None
        if frame is None:
            frame = {**dict.fromkeys(range(rows), NO_RUNS), **joined(parts, rows)}
        bytes_told = f" | up {link.up} down {link.down}" if editor.has_details else ""
        frame[foot] = [(fitted(shown[2] + bytes_told, columns), curses.A_REVERSE)]
        for y in range(rows) if len(frame) >= rows else frame:
            self._put(y, frame[y])
        self._put_cursor(cursor, rows, columns)
        self.screen.refresh()
        return None

    def _put(self, y: int, runs: List[Run]) -> None:
        before = self.drawn.get(y)
        self.drawn[y] = runs
        if before == runs:
            return
        if any(not text.isascii() and has_wide(text) for text, _ in (*(before or ()), *runs)):
            self.screen.redrawln(y, 1)  # screens differ in what they leave of a wide character that is written over in part
        self.screen.move(y, 0)
        self.screen.clrtoeol()
        for text, attributes in runs:
            try:
                self.screen.addstr(text, attributes)
            except curses.error:  # the cursor has no place after the last column of the last row
                return

    def _put_cursor(self, cursor: Optional[Tuple[int, int]], rows: int, columns: int) -> None:
        try:
            curses.curs_set(0 if cursor is None else 1)
        except curses.error:
            pass
        if cursor is not None:
            self.screen.move(min(cursor[0], rows - 1), min(cursor[1], columns - 1))


def sight_of(editor: Editor) -> Optional[tuple]:
    """What the windows and the cursor go by: while that is the same they are, too, but for colours. None where it isn't known."""
    if editor.is_lost or editor.shown_menu is not None:
        return None
    windows = [window.sight for window in editor.windows]
    return editor.terminal.deeds, editor.message, editor.shown_focus, editor.is_tiny, windows


class Parts(NamedTuple):
    """What stands on the screen, but for the status line: windows, the rows of a menu that lies over them, and the message."""

    windows: List["Drawn"]
    menu: Optional[Dict[int, List[Run]]]
    lines: Sequence[str]


def parts_of(editor: Editor, rows: int, columns: int) -> Parts:
    windows, menu = [editor.shown_focus] if editor.is_tiny else editor.windows, editor.shown_menu
    box = menu_rows(menu, max(1, rows - FOOT), columns) if menu is not None and menu.is_box else None
    return Parts([drawn_of(editor, window) for window in windows], box, lines_of(editor.message, columns, rows))


def joined(parts: Parts, rows: int) -> Dict[int, List[Run]]:
    """What stands in each row of the screen, but for the status line."""
    frame: Dict[int, List[Run]] = {}
    for drawn in parts.windows:
        frame.update(drawn.frame)
    frame.update(parts.menu or {})
    frame.update((rows - len(parts.lines) + at, [(line, curses.A_BOLD)]) for at, line in enumerate(parts.lines))
    return frame


def changed_rows(before: Parts, parts: Parts, foot: int) -> Optional[Dict[int, List[Run]]]:
    """The rows above the status line that a key has changed since; None where others may be otherwise."""
    if before.menu is not None or parts.menu is not None or before.lines != parts.lines or len(before.windows) != len(parts.windows):
        return None
    frame: Dict[int, List[Run]] = {}
    for drawn, old in zip(parts.windows, before.windows):
        if drawn is not old:
            if drawn.after != old.number or max(drawn.changed) >= foot:
                return None
            frame.update((y, drawn.frame[y]) for y in drawn.changed)
    return frame


@lru_cache(maxsize=64)
def lines_of(message: str, columns: int, rows: int) -> Sequence[str]:
    """A message in as many rows as it takes, but no more than half of them."""
    message = printable(message)
    lines: List[str] = []
    width = max(1, columns - 1)
    while len(lines) < max(1, min(MOST_LINES, rows // 2)) and (message or not lines):
        line = fitted(message, width)
        lines.append(line)
        message = message[max(1, len(line.rstrip())) :] if len(message) > len(line.rstrip()) else ""
    return tuple(lines)


FIXED = 6  # how many of the things by which a window is drawn one has that is not open
NUMBERS = count()  # of what was drawn
Plain = Tuple[Strip, Spans, List[Run], List[Run]]  # what a row goes by that has no selection and no caret, and the row


class Drawn:
    """The rows of a window by the row of the screen, and what they go by: as long as that is the same they are, too."""

    def __init__(self, by: tuple, frame: Dict[int, List[Run]], plain: List[Optional[Plain]], after: Optional[int] = None):
        self.by, self.frame = by, frame
        self.plain = plain  # of each row of text; None for one with the selection or the caret
        self.number, self.after = next(NUMBERS), after  # the number of that from which it differs in few rows
        self.changed: List[int] = []  # these rows


def drawn_of(editor: Editor, window: Window) -> Drawn:
    """The title of a window and its rows."""
    is_focus, tag, (dot, _, layout) = window is editor.shown_focus, window.tag, window.look()
    title = f"{'>' if is_focus else ' '}{'*' if editor.is_changed(tag) else ' '} {editor.name(tag)}"
    by: tuple = (title, is_focus, window.y, window.width, window.gutter, window.is_row)
    if layout is not None:
        colours = editor.colours
        by += (first_number(editor, window), colours.attributes, layout, dot, colours.of(window))
    before = window.drawn
    if before is None or before.by != by:
        window.drawn = (None if before is None else drawn_after(by, before)) or drawn_anew(by, before)
    return window.drawn


def drawn_after(by: tuple, before: Drawn) -> Optional[Drawn]:
    """The rows of a window after a key that changed one line. None where others may be otherwise."""
    *base, layout, dot, spans = by if len(by) > FIXED else (None, None, None)
    *old_base, old_layout, old_dot, old_spans = before.by
    if layout is None or base != old_base or not base[1] or dot[0] < dot[1] or old_dot[0] < old_dot[1]:
        return None
    rows = layout.rows_since(old_layout)
    if rows is None or not has_same_colours(spans, old_spans, rows[0][1].base, layout.end - old_layout.end):
        return None
    drawn = Drawn(by, before.frame, before.plain, before.number)
    for at, row in rows:
        _, _, head, _ = before.plain[at]
        kept = row.strip, spans.get(row.base, ()), head, head + row_runs(row, dot, base[3], True, spans.get(row.base, ()), base[7])
        drawn.plain[at] = kept
        drawn.frame[base[2] + 1 + at] = kept[3]
        drawn.changed.append(base[2] + 1 + at)
    return drawn


def has_same_colours(spans: Dict[int, Spans], before: Dict[int, Spans], place: int, by: int) -> bool:
    """Whether no line but that of a place has other colours than before, where those below it stand so many runes farther."""
    if spans is before and not spans:
        return True
    moved = {start + by if start > place else start: line for start, line in before.items() if start != place}
    return moved == {start: line for start, line in spans.items() if start != place}


def drawn_anew(by: tuple, before: Optional[Drawn]) -> Drawn:
    """The rows of a window. Those are kept that are as before."""
    title, is_focus, y, width, gutter, is_row, *shown = by
    frame: Dict[int, List[Run]] = {}
    reverse = curses.A_REVERSE | (curses.A_BOLD if is_focus else curses.A_NORMAL)
    if is_row:
        title = fitted(title, gutter - 1)
        frame[y + 1] = [(title, reverse)]
    else:
        frame[y] = [(fitted(title, width + gutter), reverse)]
    if not shown:
        return Drawn(by, frame, [])
    number, attributes, layout, dot, spans = shown
    heads: Iterable[List[Run]] = repeat([(title, reverse), (" ", curses.A_NORMAL)] if is_row else [])
    if number:
        heads = numbers_of(layout.rows, gutter, *number)
    low, high, plain = *dot, []  # type: int, int, List[Optional[Plain]]
    old = before.plain if before is not None and len(before.by) > FIXED and before.by[FIXED + 1] is attributes else []
    for at, (row, head, kept) in enumerate(zip(layout.rows, heads, chain(old, repeat(None)))):
        start, end, _, base, strip = row
        of_line = spans.get(base, ())
        if (low < end and start < high) if low < high else (not is_focus and start <= low < end):
            frame[y + 1 + at] = head + row_runs(row, dot, width, is_focus, of_line, attributes)
            kept = None
        else:
            if kept is None or kept[0] is not strip or kept[1] is not of_line or kept[2] != head:
                kept = strip, of_line, head, head + row_runs(row, dot, width, is_focus, of_line, attributes)
            frame[y + 1 + at] = kept[3]
        plain.append(kept)
    return Drawn(by, frame, plain)


def first_number(editor: Editor, window: Window) -> Tuple:
    """The number of the line in which a window begins, where it is known, and whether it begins there; empty where it shows none."""
    if window.is_row or not window.gutter:
        return ()
    top = window.layout().top
    return editor.numbers.line(window.tag, top), top == 0 or window.read(top - 1, 1) == "\n"


def numbers_of(rows: List[Row], gutter: int, number: Optional[int], begins: bool) -> List[List[Run]]:
    """What stands before each row: the number of the line that begins there, where it is known."""
    heads: List[List[Run]] = []
    for row in rows:
        shown = str(number) if begins and number is not None else ""
        heads.append([(shown.rjust(gutter - 1) + " ", curses.A_DIM)])
        begins = row.text_end < row.end
        number = number + 1 if begins and number is not None else number
    return heads


def row_runs(row: Row, dot: Tuple[int, int], width: int, is_focus: bool, spans: Spans = (), attributes: Sequence[int] = ()) -> List[Run]:
    """A row as runs of equal attributes: the selection reversed, gaps dim, the caret of another window underlined, all else coloured."""
    has_caret = not is_focus and row.start <= dot[0] == dot[1] < row.end
    has_dot = dot[0] < dot[1] and dot[0] < row.end and row.start < dot[1]
    strip = row.strip
    if not (has_caret or has_dot or row.has_gap):
        if spans:
            return [("".join(strip.texts[low:high]), attributes[colour] if colour else 0) for low, high, colour in painted(strip, spans)]
        return [("".join(strip.texts), curses.A_NORMAL)] if strip.texts else []
    runs: List[Run] = []

    def add(text: str, attributes: int) -> None:
        if runs and runs[-1][1] == attributes:
            runs[-1] = (runs[-1][0] + text, attributes)
        else:
            runs.append((text, attributes))

    def attributes_at(place: int) -> int:
        if dot[0] <= place < dot[1]:
            return curses.A_REVERSE
        return curses.A_UNDERLINE if has_caret and place == dot[0] else curses.A_NORMAL

    gaps = strip.gaps or (False,) * len(strip.texts)
    drawn = [attributes[colour] if colour else 0 for low, high, colour in painted(strip, spans) for _ in range(low, high)]
    for text, offset, is_gap, colour in zip(strip.texts, strip.offsets, gaps, drawn):
        add(text, (attributes_at(row.base + offset) or colour) | (curses.A_DIM if is_gap else curses.A_NORMAL))
    if row.text_end < row.end and strip.width < width and attributes_at(row.text_end):
        add(" ", attributes_at(row.text_end))
    return runs


def menu_rows(menu, rows: int, columns: int) -> Dict[int, List[Run]]:
    """A menu over the windows, in the middle of the screen."""
    lines = menu.lines(max(1, rows - 2))
    first = max(0, (rows - len(lines) - 1) // 2)
    frame = {first: [(fitted(f"  {menu.title}", columns), curses.A_REVERSE | curses.A_BOLD)]}
    for at, (line, is_chosen) in enumerate(lines):
        frame[first + 1 + at] = [(fitted(f"  {line}", columns), curses.A_REVERSE if is_chosen else curses.A_NORMAL)]
    frame[first + 1 + len(lines)] = [(" " * columns, curses.A_REVERSE)]
    return frame


def status(editor: Editor, link: PersistentSession) -> str:
    """Name, mark of a change, the caret's line, and what is wrong; with details also what goes over the line."""
    window, way = editor.active, editor.way
    name = editor.name(window.tag)
    parts = [("…" + name[-MOST_IN_STATUS:] if len(name) > MOST_IN_STATUS else name) + (" *" if editor.is_changed(window.tag) else "")]
    if window.is_open:
        parts += place_of(editor, window, window.length)
    if editor.is_lost:
        parts.append("HOST LOST")
    elif editor.has_details:
        parts.append(locks_of(editor))
    is_broken = way.line.is_broken and not editor.is_lost
    if is_broken:
        parts.append(way.line.told)
    parts += counts_of(editor, link)
    if way.is_late and not editor.is_lost and not is_broken:
        parts.append(f"no answer for {int(way.line.silence)} s")
    return " | ".join(parts)


def place_of(editor: Editor, window: Window, length: int) -> List[str]:
    """The line of the caret, of how many; with details the selection, of how many characters, and the line. Each as far as it is known."""
    tag, (dot, caret, _) = window.tag, window.look()
    line = editor.numbers.line(tag, caret)
    if editor.has_details:
        return [f"{dot[0]},{dot[1]} of {length}" + (f", line {line}" if line is not None else "")]
    count = editor.numbers.count(tag, length)
    if line is None:
        return []
    return [f"line {line}" if count is None else f"line {line} of {max(line, count)}"]


def counts_of(editor: Editor, link: PersistentSession) -> List[str]:
    """What waits: in short, or with details."""
    terminal, way = editor.terminal, editor.way
    if not editor.has_details:
        return ["keys wait"] if editor.deferred else []
    held = terminal.held + len(editor.deferred)
    counts = [f"{name} {count}" for name, count in (("held", held), ("unsent", terminal.unsent), ("waiting", len(link.waiting))) if count]
    is_told = way.told > 0 and not editor.is_lost and not way.line.is_broken
    return counts + ([f"{way.told} on the way"] if is_told else [])


def locks_of(editor: Editor) -> str:
    """What an edit would wait for."""
    if editor.terminal.command_locked:
        return "locked: all"
    locked = [window for window in editor.windows if editor.terminal.locked(window.tag)]
    if not locked:
        return "free"
    return "locked: this" if locked == [editor.active] else f"locked: {len(locked)}"


def cursor_of(editor: Editor) -> Optional[Tuple[int, int]]:
    """Where the cursor stands; None where it is not to be seen."""
    window, menu = editor.shown_focus, editor.shown_menu
    _, caret, layout = window.look()
    if (menu is not None and menu.is_box) or layout is None or not layout.shows(caret):
        return None
    row, column = layout.position_of(caret)
    return window.y + 1 + row, window.gutter + min(column, window.width - 1)
