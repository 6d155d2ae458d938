"""Command lines of the user: what has to hold before the host runs one."""
from contextlib import suppress
from itertools import accumulate
from operator import add, sub
from typing import Dict, List, Optional, Set, Tuple

from .bindings import Input, Paste, Text
from .command_errors import help_of, word_of
from .long_lines import parts_of
from ..view.layout import line_end, line_start
from ..text.lines import is_address, line_number, removes
from ..text.texts import COMMAND, GAP, Changes
from ..view.windows import Window


MOST_LOOKED_AT = 4_096  # runes that came at the end of the command file which may say why a line didn't run
MOST_KEPT = 500_000  # runes of the command file, the front of which then goes
LEAST_LEFT = 250_000  # of them


def line_at(window: Window, place: int, least: int = 0) -> str:
    """The text of the line of a place, up to it; GAP before what is not loaded."""
    first = line_start(window.read, place, least)
    line = window.read(first, place - first)
    return GAP + line if first > least and window.read(first - 1, 1) == GAP else line


class Commands:
    """The part of the editor that has the host run command lines."""

    _aside = ""  # a line that is begun, and that the terminal holds until the host has run another before it
    _before: Optional[Dict[int, Tuple[int, int]]] = None  # what was selected before a line that is no address runs
    _ran: Optional[Tuple[str, int, int]] = None  # the line that the host runs, the file on which, and the runes of the command file before
    _parts_left = 0  # lines that it still has to run in the place of one

    def _run_line(self) -> None:
        """Ends the command line in which the caret stands. The host then runs it on the file that was used last."""
        self.command.select(line_end(self.command.read, self.command.dot[1]))
        if self._may_run(line_at(self.command, self.command.caret), "Enter"):
            self._work()
            self.texts.replace(COMMAND, "\n")

    def may_leave_by(self, window: Window, key: Input) -> bool:
        """Whether the line may be `q` that a key runs in a window: Enter that of the caret, with what is typed before it, `^E` what is
        selected."""
        start, end = window.dot
        if isinstance(key, (Text, Paste)):
            last, typed = line_end(window.read, end), key.runes.partition("\n")[0]
            line = line_at(window, start) + typed + window.read(end, last - end)
        else:
            line = line_at(window, end - (window.read(end - 1, 1) == "\n" if start < end else 0), start)
        return GAP in line or line.strip(" \t") == "q"

    def _may_run(self, line: str, key: str) -> bool:
        """Whether a command line may run: nothing is lost by it, or the user is sure."""
        is_known, line = not line.startswith(GAP), line.lstrip(GAP).strip(" \t")
        if (line == "q" or (line == "" and not is_known)) and not self.may_leave(key):
            return False
        window = self.active
        self._ran = (line, window.tag, self.command.length) if is_known else None
        if window is self.command or not window.is_open:
            return True
        what, detail = removes(line) if is_known else ("range", None)
        is_safe = what != "range" or self._is_loaded(window, detail)
        if not is_safe and not self.is_loaded_or_sure(window.tag, 0, window.length, f"{key} again runs it"):
            return False
        self._before = None if is_known and is_address(line) else {tag: each.dot for tag, each in self.all_windows.items() if each.is_open}
        self._ends: Dict[int, int] = {}
        self._selected: Set[int] = set()  # files whose selection the host has set since
        self.log.begin(window.tag)
        self.log.goes = detail if what == "pattern" else ""
        number = line_number(line)
        if number:
            self._sought = (window.tag, number)
        return True

    def hear_run(self, changes: Changes) -> None:
        """Changes of a file, perhaps by a command line. The last one is that which stands farthest down, in whichever order they come."""
        if self._before is not None:
            tag, came = changes.tag, changes.came
            by_all, *by = [*accumulate(map(sub, reversed(came), reversed(changes.gone)), initial=0)][::-1]  # how far the next ones move it
            ends = map(add, map(add, changes.places, came), by)  # a change moves no place past another
            self._ends[tag] = max(self._ends.get(tag, -1) + by_all, max(ends))

    def hear_dot(self, tag: int) -> None:
        """The host has set the selection of a file, perhaps by a command line."""
        if self._before is not None:
            self._selected.add(tag)

    def end_run(self) -> None:
        """The host has run a command line. Unless that was an address alone the next key replaces nothing that the line has selected: the
        caret stands after its last change, else at the end of that."""
        if self._parts_left > 1:
            self._parts_left -= 1
            return
        ran, self._ran = self._ran, None
        if self._parts_left == 0 and ran is not None and self._meet_error(*ran):
            return
        self._parts_left = 0
        before, self._before = self._before or {}, None
        for tag, dot in before.items():
            is_touched = tag in self._ends or (tag in self._selected and self.terminal.dot(tag) != dot)
            if tag == COMMAND or not self.terminal.is_open(tag) or not is_touched:
                continue
            window = self.window_of(tag)
            place = self._ends.get(tag, window.dot[1])
            if window.dot != (place, place):
                window.select(place)
        with suppress(MemoryError):  # the next line tries it again
            self._cut_front()

    def _cut_front(self) -> None:
        """Takes the front of a long command file out, up to what its window shows: one that is full would take no line any more. Where
        something is asked of it, as to type a begun line again, the next line does it: that goes by the selection."""
        window = self.command
        if window.is_open and window.length > MOST_KEPT and not self.terminal.locked(COMMAND):
            window.drop_front(window.length - LEAST_LEFT)

    def _meet_error(self, line: str, tag: int, before: int) -> bool:
        """Says what helps where the host didn't run a line. Returns whether other lines run in its place."""
        word = word_of(self.texts.read(COMMAND, before, MOST_LOOKED_AT))
        if word is None:
            return False
        self.message = help_of(line, word, self.keys)
        parts = None
        if word == "long" and self.terminal.is_open(tag):
            parts = parts_of(line, self.terminal.len(tag), self.terminal.dot(tag), lambda place, count: self.texts.read(tag, place, count))
        if parts is not None and parts.lines:
            self._run_parts(parts.lines)
            undo = self.keys.of("undo")
            self.message = f"the line runs in {len(parts.lines)} parts, as it is too long for one; {undo} takes all back"
            return True
        if parts is not None:
            self.message = f"? {word}: {parts.why_not}"
        return False

    def _run_parts(self, lines: List[str]) -> None:
        """Has the host run lines in the place of one that was too long. Each waits in the terminal until the one before it is answered, and
        all keys wait for them. They are one step of undo, as none begins."""
        end = self.terminal.len(COMMAND)
        self.terminal.select(COMMAND, end, end)
        self._parts_left = len(lines)
        for line in lines:
            self.texts.replace(COMMAND, line + "\n")

    def _is_loaded(self, window: Window, address: Optional[str]) -> bool:
        """Whether the range of an address is loaded, as far as that is easily told."""
        gap = self.terminal.first_gap(window.tag)
        if gap is None:
            return True
        if address in ("", "."):
            start, end = window.dot
            return GAP not in self.texts.read(window.tag, start, end - start)
        loaded = self.texts.read(window.tag, 0, gap).count("\n")
        numbers = [line_number(part.strip()) for part in (address or "").split(",")]
        return all(number is not None and number <= loaded for number in numbers)

    def _work(self) -> None:
        """Has command lines work on the file that was used last, and on what is selected there."""
        self.active.goal = None
        if self.active is not self.command and self.active.is_open:
            self.terminal.work(self.active.tag)

    def run_aside(self, line: str) -> None:
        """Runs a command line as if it were typed at the end of the command window. What stands there already is typed again after it."""
        end = self.terminal.len(COMMAND)
        begun = line_at(self.command, end).lstrip(GAP)
        self._work()
        self.terminal.select(COMMAND, end - len(begun), end)
        self.texts.replace(COMMAND, line + "\n")
        if begun:
            self._aside = begun
            self.texts.replace(COMMAND, begun)

    def begun_line(self) -> str:
        """The command line that is begun. While the host's answer is out, the last line comes before it, since that may not have run. Both
        may be printed text: nobody knows the two apart."""
        if not self.terminal.is_open(COMMAND):
            return ""
        end = self.terminal.len(COMMAND)
        begun = line_at(self.command, end).lstrip(GAP)
        end -= len(begun) + 1
        if end < 0 or not self.terminal.command_locked:
            return begun
        return line_at(self.command, end).lstrip(GAP) + "\n" + (begun or self._aside)

    def may_leave(self, key: str) -> bool:
        """Whether all is written, or the user is sure. If not, it is asked; the same key answers."""
        unwritten = self.changed_names
        return not unwritten or self.is_sure(f"not written: {unwritten}. {key} again leaves without them")
