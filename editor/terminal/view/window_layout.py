"""The desk: the windows on the screen, and the one to which the keys go."""
from typing import Dict, List, Optional

from ..text.texts import COMMAND, Changes, Texts
from .windows import LEAST_WITH_NUMBERS, Window

SMALL = 2  # the fewest rows of a window with its title
LEAST_LARGE = 5  # rows that a large one has at least, where the screen has them


class WindowLayout:
    """The command window at the top, the windows of files below it."""

    def __init__(self, texts: Texts):
        self.texts = texts
        self.all_windows: Dict[int, Window] = {}  # also of files that are not on the screen
        self.command = self.window_of(COMMAND)
        self.files: List[Window] = []  # the file windows on the screen, from top to bottom
        self.focus = self.active = self.command  # where keys go; the file window that they went to last
        self.rows, self.columns = 24, 80
        self.is_small = False  # whether the command window is
        self.has_numbers = False  # whether the lines of files have numbers
        self.has_details = False  # whether the status line has them
        self.is_tiny = False  # the screen has room for one window alone

    def window_of(self, tag: int) -> Window:
        if tag not in self.all_windows:
            self.all_windows[tag] = Window(self.texts, tag)
        return self.all_windows[tag]

    @property
    def windows(self) -> List[Window]:
        return [self.command, *self.files]

    @property
    def shown(self) -> List[Window]:
        """The windows for which the screen has room: all, or that to which the keys go."""
        return [self.focus] if self.is_tiny else self.windows

    def arrange(self, rows: int, columns: int) -> None:
        """Shares so many rows among the windows. Where these are too few each window has all of them."""
        self.rows, self.columns = rows, columns
        for window in self.files:
            window.wants_numbers = self.has_numbers
        self.is_tiny = rows < SMALL * len(self.windows)
        if self.is_tiny:
            self.command.is_row = False
            for window in self.windows:
                window.put(0, max(1, rows - 1), columns)
            return
        command_rows = self._put_command(rows, columns)
        y, left = command_rows, rows - command_rows
        for at, window in enumerate(self.files):
            share = left // (len(self.files) - at)
            window.put(y, max(1, share - 1), columns)
            y, left = y + share, left - share

    def _put_command(self, rows: int, columns: int) -> int:
        """Gives the command window its place; answers its rows. A small one is a row with the title before the text, or where the screen is
        narrow has one row below it."""
        self.command.is_row = self.is_small and bool(self.files) and columns >= LEAST_WITH_NUMBERS
        if self.command.is_row:
            self.command.put(-1, 1, columns)
            return 1
        share = SMALL if self.is_small and rows > SMALL else max(LEAST_LARGE, rows // 4)
        command_rows = rows if not self.files else min(share, max(SMALL, rows // 2), rows - SMALL * len(self.files))
        self.command.put(0, max(1, command_rows - 1), columns)
        return command_rows

    def go_to(self, window: Window) -> None:
        self.focus = window
        if window is not self.command:
            self.active = window

    def put_up(self, window: Window, replaces: bool = True) -> None:
        """Puts a window on the screen, in place of the one that was used last or below all others. The keys go to it."""
        if window not in self.files:
            if replaces and self.active in self.files:
                self.files[self.files.index(self.active)] = window
            else:
                self.files.append(window)
            self.arrange(self.rows, self.columns)
        self.go_to(window)

    def drop(self, window: Window) -> None:
        """Takes a window off the screen."""
        at = self.files.index(window)
        self.files.remove(window)
        if self.active is window:
            self.active = self.files[max(0, at - 1)] if self.files else self.command
        if self.focus is window:
            self.focus = self.active
        self.arrange(self.rows, self.columns)

    def hear_changes(self, changes: Changes) -> None:
        """Changes of a text, which a window of it goes by."""
        if changes.tag in self.all_windows:
            self.all_windows[changes.tag].hear(changes)

    def window_at(self, row: int) -> Optional[Window]:
        """The window whose title or text stands in a row of the screen."""
        return next((window for window in self.shown if window.y <= row <= window.y + window.height), None)
