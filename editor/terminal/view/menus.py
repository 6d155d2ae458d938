"""What lies over the windows: menus, the help, and other lines. Each has rows to draw, and takes keys until it is over."""
from typing import Callable, List, Tuple

from ..keys.bindings import Input, Key, Mouse, Paste, Text

Line = Tuple[str, bool]  # a text, and whether it is the chosen one

MENU_PAGE = 10  # entries that a page key of a menu goes by
STEPS = {"Up": -1, "Down": 1, "Page Up": -MENU_PAGE, "Page Down": MENU_PAGE}  # keys of a menu that go by its entries, and how far


class Lines:
    """Lines that scroll, as the list of keys: by so many with the arrows, by a page with the page keys."""

    is_box = True

    def __init__(self, title: str, lines: List[str], step: int = 1):
        self.title, self._lines, self._step, self._page = title, lines, step, 1
        self.is_over, self.first = False, 0

    def lines(self, height: int) -> List[Line]:
        self._page = height
        self.first = max(0, min(self.first, len(self._lines) - height))
        return [(line, False) for line in self._lines[self.first : self.first + height]]

    def take(self, key: Input) -> bool:
        """Returns whether the key is for the windows, as this is over: so is a paste, of which nothing is to be lost."""
        steps = {"Down": self._step, "Up": -self._step, "Page Down": self._page, "Page Up": -self._page}
        if isinstance(key, Key) and key.name in steps:
            self.first = max(0, self.first + steps[key.name])
        elif not isinstance(key, Mouse):
            self.is_over = True
        return isinstance(key, Paste)


class Menu:
    """Entries, each a mark and a name, of which one is chosen; `choose` is told which, as a number from 0, and returns whether the menu is
    over. Those are shown whose names have what was typed in them, in letters of any size."""

    is_box = True

    def __init__(self, what: str, entries: List[Tuple[str, str]], chosen: int, choose: Callable[[int], bool]):
        self.what, self.entries, self.choose = what, entries, choose
        self.typed, self.is_over = "", False
        self.shown = list(range(len(entries)))  # the numbers of those that are shown
        self.chosen = max(0, min(chosen, len(entries) - 1))  # which of these

    @property
    def title(self) -> str:
        return f"{self.what}: {self.typed}" if self.typed else self.what

    @property
    def count(self) -> int:
        """How many can be chosen."""
        return len(self.shown)

    def texts(self) -> List[str]:
        """What stands in the lines, of those first that can be chosen."""
        return ["".join(self.entries[at]) for at in self.shown]

    def lines(self, height: int) -> List[Line]:
        texts = self.texts()
        self.chosen = max(0, min(self.chosen, self.count - 1))
        first = max(0, min(self.chosen - height // 2, len(texts) - height))
        lines = [(text, at == self.chosen) for at, text in enumerate(texts)][first : first + height]
        return lines + [("", False)] * (min(height, max(len(self.entries), len(texts))) - len(lines))

    def take(self, key: Input) -> bool:
        """As the lines do."""
        if isinstance(key, Key) and key.name in STEPS:
            self.chosen = max(0, min(self.chosen + STEPS[key.name], self.count - 1))
        elif isinstance(key, Text) and key.runes.isprintable():
            self._narrow(self.typed + key.runes)
        elif isinstance(key, Text):
            self._enter(key.runes)
        elif isinstance(key, Key) and key.name == "Backspace" and self.typed:
            self._narrow(self.typed[:-1])
        elif isinstance(key, (Key, Paste)):
            self.is_over = True
        return isinstance(key, Paste)

    def _enter(self, key: str) -> None:
        """Enter or Tab: the first chooses."""
        if key == "\n" and self.chosen < len(self.shown):
            self.is_over = True  # also where memory is out
            self.is_over = self.choose(self.shown[self.chosen])

    def _narrow(self, typed: str) -> None:
        """Shows the entries that have what was typed, and chooses the first in which a part of the path begins so; else the first."""
        self.typed, sought = typed, typed.casefold()
        names = [name.casefold() for _, name in self.entries]
        self.shown = [at for at, name in enumerate(names) if sought in name]
        begin = [names[at].startswith(sought) or f"/{sought}" in names[at] for at in self.shown]
        self.chosen = begin.index(True) if True in begin else 0
