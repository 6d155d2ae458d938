"""While the user rests the client loads the whole text of open files: so little waits for the host later, and all can be edited where the line
is lost."""
from typing import Dict, Optional

AFTER_START, AFTER_A_KEY = 0.1, 2.0  # seconds for which no slice is begun, once the first text shows, and after a key: other keys wait for it


class Prefetch:
    """Tells the client which files it is to load, slice after slice: from the top of the window on first."""

    def __init__(self, editor):
        self.editor, self.terminal = editor, editor.terminal
        self._tops: Dict[int, int] = {}  # of the files that are loaded

    @property
    def left(self) -> Optional[float]:
        """Seconds until more may be loaded, if no key comes; None where something else has to happen before."""
        editor = self.editor
        if self._tops or editor.way.is_late or not (editor.has_begun and editor.has_shown):
            return None
        return round(max(0.0, (AFTER_A_KEY if editor.has_pressed else AFTER_START) - editor.idle_for), 6)

    @property
    def is_loading(self) -> bool:
        """Whether the client loads by itself: then it has times of its own."""
        return bool(self._tops)

    def go_on(self) -> None:
        editor = self.editor
        if editor.way.is_late or not editor.rests:
            tops = {}
        elif self._tops or self.left == 0:
            windows = [editor.active, *editor.files, *editor.all_windows.values()]  # those on the screen first
            tops = {window.tag: window.top for window in windows if editor.is_users(window.tag) and window.is_open}
        else:
            return
        for tag in [*self._tops.keys() - tops.keys()]:
            self.terminal.stop_loading(tag)
            del self._tops[tag]
        for tag, top in reversed(tops.items()):  # the last one that is told comes first
            if self._tops.get(tag) != top:
                self.terminal.load_all(tag, top)
                self._tops[tag] = top
