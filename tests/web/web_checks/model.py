"""What keys make of a text: the model with which the files are compared."""
from random import Random

from selenium.webdriver.common.keys import Keys

WORDS = ["tea", "rice", "paper ", "ink", " and ", "call the bank", "  x", "\t", "zwölf", "(1, 2)"]


class Model:
    """A text, and a selection from `anchor` to `caret`."""

    def __init__(self, text):
        self.text, self.caret, self.anchor = text, 0, 0

    @property
    def _range(self):
        return sorted((self.anchor, self.caret))

    def type(self, runes):
        start, end = self._range
        self.text = self.text[:start] + runes + self.text[end:]
        self.caret = self.anchor = start + len(runes)

    def enter(self):
        """A line begins with the blanks of the one above."""
        start = self._range[0]
        line = self.text[self.text.rfind("\n", 0, start) + 1 : start]
        self.type("\n" + line[: len(line) - len(line.lstrip(" \t"))])

    def erase(self, by):
        """Takes out the selection; where there is none, the rune before or after the caret."""
        if self.anchor == self.caret:
            self.anchor = max(0, min(len(self.text), self.caret + by))
        self.type("")

    def move(self, place, extends=False):
        self.caret = max(0, min(len(self.text), place))
        if not extends:
            self.anchor = self.caret

    def step(self, by):
        """Left or right, with no Shift: of a selection to that end of it."""
        start, end = self._range
        self.move((start if by < 0 else end) if start < end else self.caret + by)

    @property
    def line_start(self):
        return self.text.rfind("\n", 0, self.caret) + 1

    @property
    def line_end(self):
        end = self.text.find("\n", self.caret)
        return len(self.text) if end < 0 else end


def any_keys(chance: Random, model: Model):
    """Some keys, which the model has pressed then: a list of texts, and of chords of a modifier and a key."""
    drawn = chance.randrange(14)
    if drawn < 6:
        word = chance.choice(WORDS)
        if "\t" not in word:
            model.type(word)
            return [word]
        model.type("\t")
        return [Keys.TAB]
    if drawn == 6:
        model.enter()
        return [Keys.ENTER]
    if drawn < 9:
        by = -1 if drawn == 7 else 1
        model.erase(by)
        return [Keys.BACKSPACE if by < 0 else Keys.DELETE]
    if drawn == 9:
        count = 1 + chance.randrange(4)
        for _ in range(count):
            model.move(model.caret + 1, extends=True)
        return [(Keys.SHIFT, Keys.ARROW_RIGHT)] * count
    return moved(chance, model)


def moved(chance, model):
    """The keys of a move."""
    kind = chance.randrange(5)
    if kind == 0:
        model.step(-1)
        return [Keys.ARROW_LEFT]
    if kind == 1:
        model.step(1)
        return [Keys.ARROW_RIGHT]
    if kind == 2:
        model.move(model.line_start)
        return [Keys.HOME]
    if kind == 3:
        model.move(model.line_end)
        return [Keys.END]
    start = chance.randrange(2) == 0
    model.move(0 if start else len(model.text))
    return [(Keys.CONTROL, Keys.HOME if start else Keys.END)]
