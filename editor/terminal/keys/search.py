"""Finding as the user types: on what is loaded at once, and by the host at Enter."""
from typing import Optional, Tuple

from .bindings import PROMPT, Input, Key, KeySet, Paste, Text
from ..text.lines import escaped
from ..text.texts import GAP
from ..view.windows import end_of_load

PIECE = 16_384  # runes that are searched at once
FIRST_REACH, LONGEST_REACH = 4_096, 32_768  # runes that are loaded for a search above, in one round trip, twice as many each time
MOST_RUNES_IN_PATTERN = 128
NOWHERE = "it stands nowhere"
NOT_LOADED = "not in what is loaded below"
AFTER, BEFORE = ("find", "search"), ("search_back",)  # actions whose keys go to the next place, and to the one before; so do arrows


def nothing_sought(keys: KeySet) -> str:
    """What helps where there is no pattern to search again."""
    return f"nothing was searched yet: {keys.of('find')} finds"


def lowered(text: str) -> str:
    """A text in small letters, in which each rune has its place."""
    small = text.lower()
    return small if len(small) == len(text) else "".join(rune.lower() if len(rune.lower()) == 1 else rune for rune in text)


class Find:
    """Takes keys until the user goes on; the selection shows what was found. A pattern without a capital letter finds letters of any case
    in what is loaded; the host finds it as it stands."""

    is_box = False  # it stands on the line at the bottom, and goes by the place in the window

    def __init__(self, editor):
        self.editor, self.window, self.is_over = editor, editor.focus, False
        self.origin = self.window.dot
        self.pattern, self._why, self._gap = "", "", 0
        self._meets_gap = False  # whether the last look below came to text that is not loaded
        self._takes_any_case = False

    @property
    def line(self) -> str:
        start, end = self.window.dot
        found = self.window.read(start, end - start) if self._takes_any_case and end - start == len(self.pattern) else ""
        other = f" (in any case; Enter has the host look for {found})" if found != self.pattern and lowered(found) == self.pattern else ""
        return f"{PROMPT}{self.pattern}{self._why}{other}".replace("\n", "\\n")

    def runs_line(self, key: Input) -> bool:
        """Whether a key has the host look for the pattern."""
        return isinstance(key, Text) and key.runes[:1] == "\n"

    def take(self, key: Input) -> bool:
        """Returns whether the key is for the windows, as this is over."""
        self._why = ""
        name, action = key.name if isinstance(key, Key) else "", self.editor.action_of(key)
        if isinstance(key, Text) and key.runes == "\n":
            self.is_over, self.editor.message = True, ""
            self._finish()
            return False
        if isinstance(key, (Text, Paste)) and len(self.pattern) < MOST_RUNES_IN_PATTERN:
            self._seek((self.pattern + key.runes)[:MOST_RUNES_IN_PATTERN])
        elif name == "Backspace":
            self._seek(self.pattern[:-1])
        elif name == "Esc":
            self.is_over = True
            self._select(*self.origin)
        elif name == "Down" or action in AFTER:
            self._show(self._next(self.window.dot[0] + 1))
        elif name == "Up" or action in BEFORE:
            back = self.editor.keys.of("search_back")
            self._show(self._last_before(self.window.dot[0]), " (not in what is loaded above", f"; Enter, then {back}, looks there)")
        elif not isinstance(key, (Text, Paste)):
            self.is_over = True
            return True
        self.editor.message = "" if self.is_over else self.line
        return False

    def go_back(self, pattern: str, goes_on: Optional[Tuple[int, int]]) -> Optional[Tuple[int, int]]:
        """Goes to the place before at which the last pattern stands. Where the text above is not loaded, more and more of it is, in a
        round trip each. Returns from where the same key, which acts again then, goes on, and how much it loads next; None at the end."""
        self.pattern = pattern
        start, reach = goes_on or (self.window.dot[0], FIRST_REACH)
        place = self._before(start) if pattern else None
        if place is not None:
            self._select(place, place + len(pattern))
        elif not pattern:
            self.editor.message = nothing_sought(self.editor.keys)
        elif self._gap == 0:
            self.editor.message = "it stands nowhere above"
        elif self.editor.is_alone:
            self.editor.wait_for_line("not in what is loaded above")
        else:
            low = max(0, self._gap - reach)
            terminal, tag = self.editor.terminal, self.window.tag
            terminal.load(tag, low, end_of_load(terminal, tag, low, self._gap) - low)
            self.editor.act_again(f"looks above place {self._gap}; {self.editor.keys.of('switch')} stops that")
            return min(start, self._gap), min(2 * reach, LONGEST_REACH)
        return None

    def go_on(self, pattern: str) -> None:
        """Without a line: goes to the next place in what is loaded at which a pattern stands."""
        self.pattern = pattern
        place = self._next(self.window.dot[0] + 1)
        if place is not None:
            self._select(place, place + len(pattern))
            self.editor.message = self._why.strip(" ()")
        elif pattern and self._has_gap:
            self.editor.wait_for_line(NOT_LOADED)
        elif pattern:
            self.editor.message = NOWHERE
        else:
            self.editor.message = nothing_sought(self.editor.keys)

    def _seek(self, pattern: str) -> None:
        """Shows the first place from where the search began."""
        self.pattern, self._takes_any_case = pattern, pattern == pattern.lower()
        if pattern:
            self._show(self._next(self.origin[0]))
        else:
            self._select(*self.origin)

    def _show(self, place: Optional[int], why: str = " (not in what is loaded", help: str = "; Enter asks the host)") -> None:
        if place is not None:
            self._select(place, place + len(self.pattern))
        elif self.pattern and self._has_gap:
            self._why = why + (")" if self.editor.is_alone else help)
        elif self.pattern:
            self._why = f" ({NOWHERE})"

    @property
    def _has_gap(self) -> bool:
        """Whether some of the text is not loaded."""
        return self.editor.terminal.first_gap(self.window.tag) is not None

    def _next(self, place: int) -> Optional[int]:
        """The first place from there on; where there is none down to the end, and all of that is loaded, the first from the top on."""
        found = self._after(place)
        if found is None and not self._meets_gap and self.pattern:
            found = self._after(0)
            self._why = " (from the top on)" if found is not None else ""
        return found

    def _last_before(self, place: int) -> Optional[int]:
        """The last place before; where there is none up to the top, and all of that is loaded, the last from the end on."""
        found = self._before(place)
        if found is None and self._gap == 0 and self.pattern:
            found = self._before(self.window.length)
            self._why = " (from the end on)" if found is not None else ""
        return found

    def _select(self, start: int, end: int) -> None:
        self.window.select(start)
        self.editor.texts.select(self.window.tag, start, end)

    def _read(self, place: int, count: int) -> str:
        """A part of the text, as the pattern is compared with it."""
        text = self.window.read(place, count)
        return lowered(text) if self._takes_any_case else text

    def _after(self, place: int) -> Optional[int]:
        """The first place from there on, up to the next gap."""
        self._meets_gap = False
        while self.pattern:
            text = self._read(place, PIECE + len(self.pattern) - 1)
            found, gap = text.find(self.pattern), text.find(GAP)
            if found >= 0 and (gap < 0 or found < gap):
                return place + found
            if gap >= 0 or len(text) < PIECE:
                self._meets_gap = gap >= 0
                return None
            place += PIECE
        return None

    def _before(self, place: int) -> Optional[int]:
        """The last place before, down to the next gap, whose end `_gap` then is."""
        self._gap = 0
        end = place + len(self.pattern) - 1
        while self.pattern and end > 0:
            low = max(0, end - PIECE)
            text = self._read(low, end - low)
            found, gap = text.rfind(self.pattern), text.rfind(GAP)
            if found > gap:
                return low + found
            if gap >= 0 or low == 0:
                self._gap = low + gap + 1 if gap >= 0 else 0
                return None
            end = low + len(self.pattern) - 1
        return None

    def ask_host(self, pattern: str) -> None:
        """Has the host go to the next place of a pattern that was sought here."""
        self.editor.sought_here = ""
        self.editor.run_aside(f"/{escaped(pattern)}/")

    def _finish(self) -> None:
        """The host goes to the place, also where it is not loaded, and knows the pattern from then on: as it stands where it was found."""
        start, end = self.window.dot
        found = self.window.read(start, end - start)
        if self._takes_any_case and lowered(found) == self.pattern:
            self.pattern = found
        editor, is_found = self.editor, found == self.pattern
        editor.sought_here = self.pattern if editor.is_alone else ""
        if not self.pattern or self.window is editor.command:
            return
        place = start if is_found else self.origin[0]
        if editor.is_alone and not is_found and self._has_gap:
            self._select(place, place)
            editor.wait_for_line(NOT_LOADED, Key(editor.keys.of("search")))
        elif not editor.is_alone and editor.command.is_open:
            self._select(place, place)
            editor.run_aside(f"/{escaped(self.pattern)}/")
