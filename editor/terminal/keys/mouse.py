"""What the mouse does."""
from typing import Optional, Tuple

from .bindings import Mouse
from ..view.windows import Window

DOUBLE_CLICK = 0.4  # seconds between the two clicks
WHEEL_ROWS = 3

Spot = Tuple[Window, int]  # a window and a place


class Pointer:
    """The mouse: where it was pressed last, and where its button is down."""

    def __init__(self, editor):
        self.editor = editor
        self._clicked: Tuple[float, Optional[Spot]] = (0.0, None)  # when, by the event's own time: a click may wait for the host
        self._pressed: Optional[Spot] = None

    def take(self, mouse: Mouse, window: Window) -> None:
        """Does what the mouse does over a window, or below all windows."""
        if mouse.what in ("move", "release"):
            self._drag(mouse)
        if mouse.what in ("press", "release"):
            self._pressed = None
        if not window.is_open or not window.y <= mouse.row <= window.y + window.height:
            return
        if mouse.what == "wheel up":
            window.page_up(WHEEL_ROWS)
        elif mouse.what == "wheel down":
            window.page_down(WHEEL_ROWS)
        elif mouse.what == "press":
            self._press(window, mouse)

    def _press(self, window: Window, mouse: Mouse) -> None:
        self.editor.go_to(window)
        if mouse.row == window.y:
            return
        place = window.layout().place_at(mouse.row - window.y - 1, max(0, mouse.column - window.gutter))
        when, spot = self._clicked
        if spot == (window, place) and mouse.when - when < DOUBLE_CLICK and not self.editor.is_alone:
            self.editor.terminal.dclick(window.tag, place)
            self._clicked, window.anchor = (0.0, None), None
            return
        self._pressed = (window, place)
        self._clicked = (mouse.when, self._pressed)
        window.select(place)

    def _drag(self, mouse: Mouse) -> None:
        """Selects from where the button was pressed."""
        if self._pressed is None or self._pressed[0] is not self.editor.focus:
            return
        window, start = self._pressed
        if start > window.length:
            return
        row = max(0, min(mouse.row - window.y - 1, window.height - 1))
        place = window.layout().place_at(row, max(0, mouse.column - window.gutter))
        if place != window.caret:
            window.anchor = start
            window.select(place, extends=True)
