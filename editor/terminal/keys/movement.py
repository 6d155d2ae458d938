"""Keys that move the caret, or what a window shows. Where they lead stands in motions.py."""
from functools import partialmethod


class Moves:
    """The part of the editor that moves. Where `extends` is said, the selection reaches from where it began to the caret."""

    def _move(self, action: str, extends: bool) -> None:
        self.focus.select(getattr(self.focus.targets, action)(extends), extends)

    def _by_row(self, action: str, extends: bool) -> None:
        """To the row above or below, in the column that such moves keep to."""
        column = self.focus.targets.column()
        self._move(action, extends)
        self.focus.goal = (column, self.focus.caret)

    do_left, do_right = partialmethod(_move, "left"), partialmethod(_move, "right")
    do_word_left, do_word_right = partialmethod(_move, "word_left"), partialmethod(_move, "word_right")
    do_home, do_end = partialmethod(_move, "home"), partialmethod(_move, "end")
    do_up, do_down = partialmethod(_by_row, "up"), partialmethod(_by_row, "down")

    def do_first(self) -> None:
        self.focus.select(0)

    def do_last(self) -> None:
        self.focus.select(self.focus.length)

    def do_page_up(self) -> None:
        if self.focus.is_open:
            self.focus.page_up()

    def do_page_down(self) -> None:
        if self.focus.is_open:
            self.focus.page_down()
