"""What docs/howto/EDITOR.md and docs/reference/COMMANDS.md say that keys do to one text, in plain words of Python: no line here comes from
the editor."""
import re
import unicodedata

TAB = 8
NO_BASE = "◌"  # carries a combining mark that begins a line


def columns_of(rune, column):
    """How many columns a rune takes that would begin at a column; none for one that stands on the rune before it."""
    if rune == "\t":
        return TAB - column % TAB
    if unicodedata.combining(rune):
        return 0
    return 2 if unicodedata.east_asian_width(rune) in "WF" else 1


class Row:
    """A row of the screen: its cells, each a place, a column, and what is drawn; and where it ends in the text."""

    def __init__(self, start):
        self.start, self.cells, self.width = start, [], 0
        self.end, self.ends_line = start, False  # after its last rune, its newline left out; whether the line ends here

    @property
    def drawn(self):
        return "".join(text for _, _, text in self.cells).rstrip()

    def column_of(self, place):
        if place >= self.end:
            return self.width
        return max((column for at, column, _ in self.cells if at <= place), default=0)

    def place_at(self, column):
        for at, begins, _ in reversed(self.cells):
            if begins <= column < self.width:
                return at
        return self.end if self.ends_line or not self.cells else self.cells[-1][0]


def rows_of_line(line, start, width):
    """The rows of a line without its end, which begins at a place."""
    rows = [Row(start)]
    for at, rune in enumerate(line, start):
        row = rows[-1]
        count = columns_of(rune, row.width)
        if count == 0 and row.cells:
            place, column, text = row.cells[-1]
            row.cells[-1] = (place, column, text + rune)
            row.end = at + 1
            continue
        drawn = NO_BASE + rune if count == 0 else rune
        count = max(count, 1)
        if row.width >= width or (row.width + count > width and rune != "\t"):
            row = Row(at)
            rows.append(row)
            count = max(columns_of(rune, 0), 1)
        count = min(count, width - row.width)
        row.cells.append((at, row.width, " " * count if rune == "\t" else drawn))
        row.width, row.end = row.width + count, at + 1
    rows[-1].ends_line = True
    return rows


def rows_of(text, width):
    """All rows of a text."""
    rows, start = [], 0
    for line in text.split("\n"):
        rows += rows_of_line(line[:-1] if line.endswith("\r") and start + len(line) < len(text) else line, start, width)
        start += len(line) + 1
    return rows


class Model:
    """A text, what is selected of it, and what was cut or copied last."""

    def __init__(self, text, width):
        self.text, self.width, self.clip = text, width, ""
        self.fixed = self.caret = 0  # the ends of what is selected: the one that stays, and the one that moves
        self.goal = None  # the column that Up and Down keep

    # ---- What is selected

    @property
    def dot(self):
        return min(self.fixed, self.caret), max(self.fixed, self.caret)

    @property
    def selected(self):
        start, end = self.dot
        return self.text[start:end]

    def select(self, start, end):
        self.fixed, self.caret, self.goal = start, end, None

    def move(self, place, extends, goal=None):
        self.caret, self.goal = place, goal
        if not extends:
            self.fixed = place

    def replace(self, new):
        """New text in the place of what is selected; the caret stands after it."""
        start, end = self.dot
        self.text = self.text[:start] + new + self.text[end:]
        self.select(start + len(new), start + len(new))

    # ---- Where moves lead

    def cells(self):
        """The places at which a rune begins that stands on no other, and the end. CR LF is one."""
        line_begins = lambda at: at == 0 or self.text[at - 1] == "\n"  # noqa: E731
        stands = lambda at: unicodedata.combining(self.text[at]) and not line_begins(at)  # noqa: E731
        places = [at for at in range(len(self.text)) if not stands(at) and self.text[at - 1 : at + 1] != "\r\n"]
        return [*places, len(self.text)]

    def line_start(self, place):
        return self.text.rfind("\n", 0, place) + 1

    def line_end(self, place):
        end = self.text.find("\n", place)
        if end < 0:
            return len(self.text)
        return end - 1 if end > place and self.text[end - 1] == "\r" else end

    def left(self, extends):
        start, end = self.dot
        if start < end and not extends:
            return self.move(start, False)
        return self.move(max((at for at in self.cells() if at < self.caret), default=0), extends)

    def right(self, extends):
        start, end = self.dot
        if start < end and not extends:
            return self.move(end, False)
        return self.move(min((at for at in self.cells() if at > self.caret), default=len(self.text)), extends)

    def word_left(self, extends):
        self.move(len(re.sub(r"\w*\W*\Z", "", self.text[: self.caret])), extends)

    def word_right(self, extends):
        self.move(self.caret + re.compile(r"\W*\w*").match(self.text[self.caret :]).end(), extends)

    def home(self, extends):
        self.move(self.line_start(self.caret), extends)

    def end(self, extends):
        self.move(self.line_end(self.caret), extends)

    def first(self):
        self.move(0, False)

    def last(self):
        self.move(len(self.text), False)

    def rows_about(self):
        """The rows of the caret's line and of those beside it, and which of them is the caret's; whether the first begins the text, and
        whether the last ends it."""
        start = self.line_start(self.caret)
        above = self.line_start(max(0, start - 1))
        end = self.text.find("\n", self.caret)
        below = -1 if end < 0 else self.text.find("\n", end + 1)
        stop = len(self.text) if below < 0 else below
        rows = rows_of_part(self.text, above, stop, self.width)
        at = max(at for at, row in enumerate(rows) if row.start <= self.caret)
        return rows, at

    def by_row(self, step, extends):
        rows, at = self.rows_about()
        goal = rows[at].column_of(self.caret) if self.goal is None else self.goal
        if 0 <= at + step < len(rows):
            self.move(rows[at + step].place_at(goal), extends, goal)
        else:
            self.move(0 if step < 0 else len(self.text), extends, goal)

    def up(self, extends):
        self.by_row(-1, extends)

    def down(self, extends):
        self.by_row(1, extends)

    # ---- What changes the text

    def type(self, runes):
        """Typed runes, one by one."""
        for rune in runes:
            if rune == "\n":
                self.enter()
            elif rune == "\t" and "\n" in self.selected:
                self.indent()
            else:
                self.replace(rune)

    def indent(self):
        """Puts a tab before each line of which something is selected; the same text stays selected, and the caret is at its end."""
        start, end = self.dot
        first = self.line_start(start)
        for line in reversed([first, *(at + 1 for at in range(first, end - 1) if self.text[at] == "\n")]):
            self.text = self.text[:line] + "\t" + self.text[line:]
            start, end = (place + (place > line) for place in (start, end))
        self.select(start, end)

    def enter(self):
        start, end = self.dot
        line = self.line_start(start)
        blanks = re.match(r"[ \t]*", self.text[line:start])[0] if start == end else ""
        above = self.text[line - 2 : line] if line > 1 else self.text[self.text.find("\n", start) - 1 :][:2] if line == 0 else ""
        self.replace(("\r\n" if above == "\r\n" else "\n") + blanks)

    def paste_of_the_screen(self, text):
        self.replace(text)

    def erase_left(self):
        if not self.selected:
            start = self.caret
            pair = self.text[max(0, start - 2) : start] == "\r\n"
            self.fixed, self.caret = max(0, start - (2 if pair else 1)), start
        self.replace("")

    def erase_right(self):
        if not self.selected:
            self.right(True)
        self.replace("")

    def cut(self):
        self.copy()
        self.replace("")

    def copy(self):
        self.clip = self.selected or self.clip

    def paste(self):
        self.replace(self.clip)

    def select_all(self):
        self.select(0, len(self.text))

    # ---- Command lines

    def line(self, number):
        """The range of a line by its number, with its newline."""
        starts = [0, *(found.end() for found in re.finditer("\n", self.text))]
        return starts[number - 1], (starts[number] if number < len(starts) else len(self.text))

    def pattern(self, pattern):
        """The range of the next place of a pattern."""
        at = self.text.find(pattern, self.dot[1])
        at = self.text.find(pattern) if at < 0 else at
        return at, at + len(pattern)

    def goes_to(self, start, end):
        """A line that is an address alone."""
        self.select(start, end)

    def each_changed(self, start, end, pattern, new):
        """`x/pattern/c/new/` on a range: the caret stands after the last one, and where there is none at the end of the range."""
        places = [start + found.start() for found in re.finditer(re.escape(pattern), self.text[start:end])]
        if not places:
            self.goal = None
            if self.dot != (start, end):
                self.select(end, end)
            return
        self.text = self.text[:start] + self.text[start:end].replace(pattern, new) + self.text[end:]
        after = places[-1] + (len(places) - 1) * (len(new) - len(pattern)) + len(new)
        self.select(after, after)

    def changed(self, start, end, new):
        """A range that a line replaces, removes, or puts a text beside."""
        self.select(start, end)
        self.replace(new)


def rows_of_part(text, start, end, width):
    """The rows of the lines from one place to another."""
    rows = []
    while True:
        stop = text.find("\n", start)
        stop = len(text) if stop < 0 else stop
        line = text[start:stop]
        is_pair = line.endswith("\r") and stop < len(text)
        rows += rows_of_line(line[:-1] if is_pair else line, start, width)
        start = stop + 1
        if start > end or stop == len(text):
            return rows
