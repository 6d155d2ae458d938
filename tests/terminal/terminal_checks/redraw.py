"""The screen after each key is what it is where all of it is drawn anew: no row that is kept is stale."""
import contextlib
import importlib.util
import random
from types import SimpleNamespace

from .pairs import Pair
from .support import expect

SEEDS, KEYS = 8, 200
SIZES = ((24, 80), (50, 120), (9, 30), (4, 12), (24, 41))
TYPED = (*"abcdef", '"""', "y z", "é", "日", '"', "#", "\t", "\n", "q\nr", "x" * 90)
MORE_KEYS = (
    "Left", "Right", "Up", "Down", "Shift-Right", "Shift-Down", "Backspace", "Delete", "Page Down", "Page Up", "Home", "End", "^X", "^V",
    "^Z", "^R", "^S", "Esc", "F10", "F8", "^T", "^Y", "^P", "^D",
)  # fmt: skip


class Paper:
    """In the place of a curses window: what stands in each row, with its attributes."""

    def __init__(self, rows, columns):
        self.size, self.rows, self.at = (rows, columns), {}, (0, 0)

    def getmaxyx(self):
        return self.size

    def move(self, y, x):
        self.at = (y, x)

    def clrtoeol(self):
        self.rows[self.at[0]] = []

    def addstr(self, text, attributes):
        self.rows[self.at[0]].append((text, attributes))

    def erase(self):
        self.rows.clear()

    def redrawln(self, _first, _count):
        pass

    def refresh(self):
        pass

    @property
    def shown(self):
        """The runs of each row."""
        return [self.rows.get(y, []) for y in range(self.size[0])]


def screen_on(pair, paper):
    """A screen that draws there."""
    screen = pair.screen.Screen.__new__(pair.screen.Screen)
    screen.screen, screen.drawn, screen._shown, screen._sight = paper, {}, None, None
    screen._counts, screen._drawn_at = (0, 0), 0.0
    return screen


@contextlib.contextmanager
def nothing_kept(pair):
    """Meanwhile nothing is kept of what was read, laid out or drawn: texts are those of the client."""
    editor, terminal = pair.editor, pair.terminal
    windows = [*editor.all_windows.values()]
    kept = [(window, window._layout, window._layout_of, window._heard, window._change, window.drawn) for window in windows]
    known, editor.numbers._known = editor.numbers._known, {}
    counts, editor.numbers._counts = editor.numbers._counts, {}
    terminal.runes = lambda tag, place, count: pair.ends.client.runes(tag, place, count, pair.gap)
    for window in windows:
        window._layout, window._layout_of, window.drawn = None, (), None
    for file in editor.colours._files.values():
        file._found = None
    try:
        yield
    finally:
        del terminal.runes
        editor.numbers._known, editor.numbers._counts = known, counts
        for window, *values in kept:
            window._layout, window._layout_of, window._heard, window._change, window.drawn = values


def a_key(pair, numbers):
    """One key, the size of the screen, or some bytes on the way."""
    draw = numbers.random()
    if draw < 0.6:
        pair.editor.take(pair.keys.Text(numbers.choice(TYPED)))
    elif draw < 0.8:
        pair.editor.take(pair.keys.Key(numbers.choice(MORE_KEYS)))
    elif draw < 0.84:
        pair.key()
    elif draw < 0.9:
        pair.carry()
    else:
        pair.host.feed(bytes(pair.up))
        pair.up.clear()
        pair.down += pair.host.take_out()
        pair.feed(bytes(pair.down))
        pair.down.clear()
        if pair.editor.menu is not None and numbers.random() < 0.5:
            pair.editor.take(pair.keys.Key("Esc"))
    pair.editor.update()
    if numbers.random() < 0.3:
        pair.editor.pause()
    pair.send()
    pair.editor.wishes.clear()


def text_of(numbers):
    lines = (numbers.choice(("", "word " * 3, '    def f(one):  # "a"', "x" * 200, "\ttab", "日本", "a\r")) for _ in range(300))
    return "\n".join(lines)


def expect_nothing_stale(seed):
    """Types random keys; answers how often few rows were drawn."""
    numbers, few = random.Random(seed), 0
    pair = Pair(numbers, [text_of(numbers), "two\n" * 50, ""], names=(numbers.choice(("a.py", "a.txt")), "b.txt", "c.txt"))
    pair.editor.colours.clock = lambda: 0.0  # it has time for all colours
    if importlib.util.find_spec("pygments") is not None:
        pair.editor.colours.attributes = range(0, 9)
        pair.editor.colours._read("python.PythonLexer")
    paper, link = Paper(*SIZES[0]), SimpleNamespace(up=1, down=2, waiting=b"")
    pair.editor.arrange(SIZES[0][0] - 2, SIZES[0][1])
    pair.finish()
    screen = screen_on(pair, paper)
    for at in range(KEYS):
        if numbers.random() < 0.03:
            paper.size = numbers.choice(SIZES)
            paper.erase()
            screen.drawn.clear()
            screen._shown = None
            pair.editor.arrange(*screen.size)
        a_key(pair, numbers)
        number_before = {window: window.drawn.number for window in pair.editor.windows if window.drawn is not None}
        screen.draw(pair.editor, link)
        few += any(window.drawn.after == number_before.get(window, -1) for window in pair.editor.windows if window.drawn is not None)
        cursor = pair.screen.cursor_of(pair.editor)
        with nothing_kept(pair):
            fresh = Paper(*paper.size)
            screen_on(pair, fresh).draw(pair.editor, link)
            wanted = pair.screen.cursor_of(pair.editor)
        stale = [(y, *rows) for y, rows in enumerate(zip(paper.shown, fresh.shown)) if rows[0] != rows[1]]
        expect(not stale, f"seed {seed}, key {at}: rows, what stands there, and drawn anew: {stale[:3]}")
        expect(cursor == wanted, f"seed {seed}, key {at}: the cursor stands at {cursor}, wanted {wanted}")
    return few


def check_rows_that_are_kept(folder):
    """Random keys, sizes and answers of the host, in a text with colours and in others: after each the screen is as if drawn anew."""
    few = sum(map(expect_nothing_stale, range(SEEDS)))
    expect(few > SEEDS * KEYS // 25, f"this test is wrong: of {SEEDS * KEYS} drawings {few} alone draw few rows")


def some_rows(numbers, text):
    """Changes of a text, each before the place of the one before it; and the text with them."""
    rows, end = [], len(text)
    while end >= 0 and len(rows) < 6:
        place = numbers.randrange(end + 1)
        count, came = numbers.randrange(min(4, end - place) + 1), "".join(numbers.choice("xy\n") for _ in range(numbers.randrange(20)))
        rows.append((place, count, came))
        text, end = text[:place] + came + text[place + count :], place - 1
    return rows, text


def expect_as_a_string(numbers, copy, text, gap):
    """Each reader of a text in pieces answers as a plain string does."""
    place, count = numbers.randrange(len(text) + 1), numbers.randrange(9)
    most = min(place + count, len(text))
    first = text.find(gap, place)
    end = next((at for at in range(place, len(text)) if text[at] != gap), len(text))
    got = copy.read(0, len(text) + 1), copy.read(place, count), copy.count("\n", place, place + count), copy.first_gap(place)
    expect(got == (text, text[place : place + count], text[place : place + count].count("\n"), first if first >= 0 else None), f"{text!r}")
    expect(copy.length == len(text) and copy.gaps == text.count(gap), f"{text!r}: {copy.length} runes, {copy.gaps} gaps")
    if place < most:
        expect(copy.end_of_gap(place, most) == min(end, most), f"{text!r}: a gap at {place} ends at {copy.end_of_gap(place, most)}")


def check_text_in_pieces(folder):
    """A text that is kept in pieces is a plain string, wherever these end, after changes alone and many at once."""
    from unittest import mock

    from terminal.text import text_copy
    from terminal.text.texts import GAP

    for seed in range(200):
        numbers, copy, text = random.Random(seed), text_copy.TextCopy(), ""
        with mock.patch.multiple(text_copy, PIECE=numbers.choice((4, 9)), LEAST=numbers.choice((1, 3))):
            for _ in range(50):
                start = numbers.randrange(len(text) + 1)
                end = min(len(text), start + numbers.choice((0, 1, 3, 20)))
                came = "".join(numbers.choice("ab\n" + GAP) for _ in range(numbers.choice((0, 1, 5, 30))))
                gone = copy.replace(start, end, came)
                expect(gone == text[start:end], f"seed {seed}: {gone!r} goes")
                text = text[:start] + came + text[end:]
                rows, wanted = some_rows(numbers, text)
                gone = copy.replace_each(rows)
                expect(gone == [text[place : place + count] for place, count, _ in rows], f"seed {seed}: {gone} goes, of {rows}")
                text = wanted
                expect_as_a_string(numbers, copy, text, GAP)
