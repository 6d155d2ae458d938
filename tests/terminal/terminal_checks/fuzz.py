"""Random keys in a session, against the model: what the text, the caret and the screen are at the end."""
import contextlib
import random
import re
import time
import unicodedata

from .model import Model, rows_of
from .support import Failed, Session, expect, wait_until

SIZES = ((80, 24), (80, 40), (101, 18))  # the status line has room for what is looked for
WORDS = ("a", "to", "line", "x1_2", "über", "日本", "e\u0301te\u0301", "3.5", "{", "=>")
KEYS = {
    "left": "1;{}D", "right": "1;{}C", "up": "1;{}A", "down": "1;{}B", "home": "1;{}H", "end": "1;{}F",
    "word_left": "1;{}D", "word_right": "1;{}C",
}  # fmt: skip
PLAIN = {"first": "\x1b[1;5H", "last": "\x1b[1;5F", "erase_left": "\x7f", "erase_right": "\x1b[3~", "cut": "\x18", "copy": "\x03",
         "paste": "\x16", "select_all": "\x01"}  # fmt: skip
NEUTRAL = ("\x1b[6~", "\x1b[5~", "\x1bOPx", "\x07 ", "\x1b\x1b", "\x1b[15~")  # the page keys; help and back; Esc and back; drawn anew
LONG = 1000  # runes of a line, beyond which its rows may begin anywhere: they are shown before all of it is loaded
UNKNOWN = ("\x1b[98~", "\x1b[99~")  # keys that only say so, once all before them have acted: in turn, since what one says stays
WHILE_DRAWN = 1  # seconds after which the screen is looked at once more, since a look may come while it is drawn
AFTER_ESC = "acdegxyz0,#"  # with what a text begins that comes at once with an Esc: others make a key with Alt or a sequence


def without_marks(row):
    """A row as tmux tells it: it may leave out a mark that stands on a wide character, or on a blank at the end."""
    return "".join(rune for rune in row if not unicodedata.combining(rune)).rstrip()


def text_of(numbers):
    """A text of short lines, with some that are long, or very long."""
    lines = []
    for _ in range(numbers.choice((3, 60, 900))):
        words = (numbers.choice(WORDS) for _ in range(numbers.randrange(12)))
        lines.append(numbers.choice(("", "", "\t", "    ")) + numbers.choice((" ", "  ", "\t")).join(words))
    for count in numbers.choice(((), (2_700,), (10_000,), (20_000, 500))):
        unit = numbers.choice(("x", "some words, ", '{"key": 1},'))
        lines.insert(numbers.randrange(len(lines) + 1), (unit * count)[:count])
    end = numbers.choice(("\n", "\n", "\n", "\r\n"))
    return end.join(lines) + numbers.choice((end, ""))


class Run:
    """One session: the keys of a seed, how they arrive, and the model."""

    name = "a.txt"  # of the file that the keys go to

    def __init__(self, seed, delay=None):
        self.numbers = random.Random(seed)
        self.seed, self.told, self.unknown = seed, [], ""
        self.delay = self.numbers.choice((None, None, 50)) if delay is None else delay
        self.width, self.height = self.numbers.choice(SIZES)
        self.text = text_of(self.numbers)
        self.model = Model(self.text, self.width)

    # ---- Keys, each the bytes that a terminal sends, once the model has done it

    def move(self):
        name = self.numbers.choice(("left", "right", "up", "down", "up", "down", "home", "end", "word_left", "word_right"))
        extends = self.numbers.random() < 0.3
        modifiers = 1 + extends + 4 * name.startswith("word")
        getattr(self.model, name)(extends)
        return "\x1b[" + KEYS[name].format(modifiers)

    def plain(self):
        name = self.numbers.choice(tuple(PLAIN))
        if name == "paste" and len(self.model.text) + len(self.model.clip) > 100_000:
            return ""
        getattr(self.model, name)()
        return PLAIN[name]

    def neutral(self):
        return self.numbers.choice(NEUTRAL)

    def typed(self):
        text = self.numbers.choice(("x", "d", "ab c", "日", "\n", "e\u0301", "\t", "y();\n", "one();\ntwo();\n", "a" * 100))
        self.model.type(text)
        return text.replace("\n", "\r")

    def pasted(self):
        text = self.numbers.choice(("p", "  two\n    lines\n", "zz " * 200))
        end = "\r\n" if self.ends_lines_with_returns() else "\n"
        self.model.paste_of_the_screen(text.replace("\n", end))
        return f"\x1b[200~{text}\x1b[201~"

    def ends_lines_with_returns(self):
        model = self.model
        start = model.line_start(model.dot[0])
        at = start - 2 if start > 0 else model.text.find("\n") - 1
        return at >= 0 and model.text[at : at + 2] == "\r\n" and model.line_start(at + 1) <= at

    def command(self):
        """Esc, a command line, Enter, Esc."""
        model, choose = self.model, self.numbers.choice
        start, end = model.dot
        count = model.text.count("\n") + 1
        first = self.numbers.randrange(1, count + 1)
        last = self.numbers.randrange(first, min(first + 3, count) + 1)
        lines = (model.line(first)[0], model.line(last)[1])
        pattern, new = choose(("a", "line", "x1", "日", "e")), choose(("N", "", "new", "日"))
        kind = self.numbers.randrange(8)
        if kind == 0:
            line, act = f"{first}", lambda: model.goes_to(*model.line(first))
        elif kind == 1:
            at = self.numbers.randrange(len(model.text) + 1)
            line, act = f"#{at}", lambda: model.goes_to(at, at)
        elif kind == 2 and pattern in model.text:
            line, act = f"/{pattern}/", lambda: model.goes_to(*model.pattern(pattern))
        elif kind == 3:
            line, act = f",x/{pattern}/c/{new}/", lambda: model.each_changed(0, len(model.text), pattern, new)
        elif kind == 4:
            line, act = f"{first},{last}d", lambda: model.changed(*lines, "")
        elif kind == 5 and lines[0] < lines[1] and not model.text[: lines[1]].endswith("\r"):
            line, act = f"{first},{last}c/{new}/", lambda: model.changed(*lines, new)
        elif kind == 6 and new:
            line, act = f"c/{new}/", lambda: model.changed(start, end, new)
        elif kind == 7 and new:
            line, act = f"a/{new}/", lambda: model.changed(end, end, new)
        else:
            line, act = "$", lambda: model.goes_to(len(model.text), len(model.text))
        act()
        return f"\x1b{'' if line[0] in AFTER_ESC else ' '}{line}\r\x1b"

    def key(self, after):
        """Some bytes; after an Esc none that would make another key of it."""
        kinds = (self.move,) * 12 + (self.typed,) * 5 + (self.plain,) * 6 + (self.command,) * 2 + (self.pasted, self.neutral)
        before = None
        while before is None or (after.endswith("\x1b") and before[:1] not in AFTER_ESC + "\x1b\x7f\x18\x03\x16\x01"):
            if before is None:
                saved = self.saved()
            else:
                self.restore(saved)
            before = self.numbers.choice(kinds)()
        return before

    def saved(self):
        return dict(vars(self.model))

    def restore(self, saved):
        vars(self.model).update(saved)

    def keys(self, count):
        keys = [""]
        for _ in range(count):
            keys.append(self.key(keys[-1]))
        return keys[1:]

    # ---- How they arrive

    def send(self, session, data):
        self.told.append(data)
        codes = data.encode()
        for at in range(0, len(codes), 500):
            session.tmux("send-keys", "-H", *(f"{code:x}" for code in codes[at : at + 500]))

    def arrive(self, session, keys):
        way = self.numbers.choice(("one by one", "at once", "at once", "stopped", "host stopped"))
        self.told.append(way)
        if way == "one by one":
            for key in keys[:10]:
                self.send(session, key)
            self.send(session, "".join(keys[10:]))
        else:
            stop = {"at once": contextlib.nullcontext, "stopped": session.stopped_terminal, "host stopped": session.stopped_host}
            with stop[way]():
                self.send(session, "".join(keys))

    # ---- What there is at the end

    def expected(self):
        return f"{self.model.dot[0]},{self.model.dot[1]} of {len(self.model.text)}"

    def stands(self, session):
        """Whether the status line tells dot and length of the model. No number goes on there."""
        return re.search(rf"(?<!\d){self.expected()}(?!\d)", session.status()) is not None

    def expect_screen(self, session):
        """The rows of the window are rows of the text, one after the other, and the caret stands where it is in the text. A row of a very
        long line may begin anywhere in it."""
        model, rows = self.model, [without_marks(row) for row in session.rows(self.name)]
        column, y = map(int, session.tmux("display-message", "-p", "#{cursor_x} #{cursor_y}").split())
        title = next(at for at, line in enumerate(session.screen()) if re.match(rf"[> ][* ] {re.escape(self.name)}\s*$", line))
        below = y - title - 1
        if model.caret - model.line_start(model.caret) > LONG:
            return
        every = rows_of(model.text, model.width)
        at = max(at for at, row in enumerate(every) if row.start <= model.caret)
        wanted_column = min(every[at].column_of(model.caret), model.width - 1)
        expect(column == wanted_column, f"the caret stands in column {column}, wanted {wanted_column}")
        expect(below <= at, f"the window shows {rows}, with {below} rows above the caret where there are {at}")
        first = next((row for row in range(below) if self.is_far(every[at - row - 1])), below)  # rows above that are known
        shown = [without_marks(row.drawn) for row in every[at - first : at - below + len(rows)]]
        shown += [""] * (len(rows) - (below - first) - len(shown))
        expect(rows[below - first :] == shown, f"the window shows {rows[below - first :]}, wanted {shown}")

    def is_far(self, row):
        """Whether a row stands far from the start of its line."""
        return row.start - self.model.line_start(row.start) > LONG

    def session(self, folder):
        return Session(folder, "a.txt", slow=self.delay, width=self.width, height=self.height)

    def go(self, folder):
        path = folder / "a.txt"
        path.write_text(self.text, newline="")
        with self.session(folder) as session:
            session.wait_for("> ")
            session.wait_to_go_to("a.txt")
            try:
                for _ in range(self.numbers.choice((1, 3))):
                    self.arrive(session, self.keys(self.numbers.choice((6, 25))))
                    self.check(session)
                session.keys("C-w")
                wait_until(lambda: path.read_bytes() == self.model.text.encode(), lambda: f"it writes {path.read_bytes()[:300]}")
            except Failed as why:
                raise Failed(f"seed {self.seed}, {self.width}x{self.height}, {self.delay} ms: {why}; {self.told}") from why

    def check(self, session):
        self.unknown = UNKNOWN[self.unknown == UNKNOWN[0]]
        self.send(session, "\x1b[D\x1b[C" + self.unknown)  # a move shows the caret again
        self.model.left(False)
        self.model.right(False)
        told = f"{self.unknown[2:]} does nothing"
        wait_until(lambda: told in "".join(session.screen()[-4:]), lambda: "keys wait:\n" + "\n".join(session.screen()))
        session.wait_for_quiet()
        wait_until(lambda: self.stands(session), lambda: f"the caret is at {session.status()!r}, wanted {self.expected()}")
        wait_until(lambda: not session.shows("░"), "a gap stays on the screen")
        with contextlib.suppress(Failed):
            self.expect_screen(session)
            return
        time.sleep(WHILE_DRAWN)
        self.expect_screen(session)
