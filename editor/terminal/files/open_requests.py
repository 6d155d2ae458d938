"""Files that join a running session: the user opens one by its path, or a program at the host wishes one shown."""
import contextlib
import os
from collections import deque
from typing import Deque, List, NamedTuple, Optional, Tuple

from ..keys.bindings import Input, Key, Text
from ..view.menus import STEPS, Menu
from sulgrevad import Note, NoteCode, NoteFault, NoteKind

QUIET = 1.0  # seconds after the last key from which on a file may come up that the user did not ask for
MOST_WISHES = 64  # that wait; of more the first ones are dropped
VERSION = 2  # of the protocol; with its offer come the names of files that have joined
AT_CHOSEN = {"\n": 0, "\t": 0}  # keys of the menu that go by the chosen entry


class Wished(NamedTuple):
    """A file that is to be shown, and the line to go to; 0 where none is named."""

    tag: int
    line: int


class OpenRequests:
    """What was asked of the host, and what it has answered."""

    def __init__(self, editor):
        self.editor, self.terminal = editor, editor.terminal
        self._open_of = 0  # the last task for a file: its answer has this number
        self._path: Optional[str] = None  # the path that is being opened
        self._opened: Optional[int] = None  # the file of the path, once the host has told it
        self._wishes: Deque[Wished] = deque(maxlen=MOST_WISHES)
        self._asked_for: Optional[Wished] = None  # the wish for which the names were asked for
        self._goes_to: Optional[Wished] = None  # a file that is shown, until the line is gone to
        self._shown_at = 0.0  # when

    def ask_names(self, path: str) -> int:
        """Asks for names that complete a path. Returns the number of the task; 0 where it is none, as of a path that is too long nothing is
        known."""
        with contextlib.suppress(NoteFault):
            return self.terminal.begin(NoteKind.COMPLETE, path) if path else 0
        return 0

    def open(self, path: str) -> bool:
        """Has the host open a file. Returns whether that is asked; else the key acts again, or can't act."""
        editor = self.editor
        if editor.way.is_late:
            editor.wait_for_line(f"{path} can be opened when the line is back")
            return False
        if editor.is_lock_held:
            editor.act_again("waits for the host")
            return False
        try:
            self._open_of = self.terminal.begin(NoteKind.OPEN, path)
        except NoteFault:
            editor.message = "the path is too long"
            return True
        self._path, self._opened = path, None
        self.terminal.offer_version(VERSION)
        editor.await_file()
        return True

    def meet(self, note: Note) -> None:
        """An answer of the host, or the wish of another program."""
        if note.kind == NoteKind.SHOWN:
            self._wishes.append(Wished(note.tag, note.number))
        elif note.kind == NoteKind.NAMES and isinstance(self.editor.menu, Files):
            self.editor.menu.meet_names(note)
        elif self._path is None or note.request != self._open_of:
            return
        elif note.kind == NoteKind.OPENED:
            self._opened = note.tag
        elif note.kind == NoteKind.REFUSED and note.code == NoteCode.IS_FOLDER:
            path, self._path = self._path, None
            self.editor.do_menu()
            if isinstance(self.editor.menu, Files):
                self.editor.menu.go_into(path)
        elif note.kind == NoteKind.REFUSED:
            self.editor.let_go_of(None, f"{self._path} is not opened: {note.text}")
            self._path = None

    def go_on(self) -> None:
        """Shows what has joined."""
        editor = self.editor
        if self._opened is not None and not self.terminal.command_locked and self.terminal.is_known(self._opened):
            tag, self._opened, self._path = self._opened, None, None
            editor.show(tag)
        if self.seconds == 0:
            wished = self._wishes[0]
            if self.terminal.is_known(wished.tag):
                self._goes_to, self._shown_at = self._wishes.popleft(), editor.clock()
                editor.show(self._goes_to.tag)
            elif self._asked_for is wished:  # the names have come, and it has none
                self._wishes.popleft()
            else:
                self._asked_for = wished
                self.terminal.offer_version(VERSION)
        if self._goes_to is not None and editor.window_of(self._goes_to.tag).is_settled and not editor.is_lock_held:
            wished = self._goes_to
            has_pressed = editor.quiet_for < editor.clock() - self._shown_at  # the next key would replace the line, which is selected
            goes = wished.line > 0 and editor.active.tag == wished.tag and not has_pressed
            if goes and not editor.has_command_file():
                return
            self._goes_to = None
            if goes:
                editor.run_aside(str(wished.line))

    @property
    def seconds(self) -> Optional[float]:
        """How long until a file may come up; None where something else has to happen before."""
        editor = self.editor
        if not self._wishes or editor.is_lock_held or editor.way.is_late or editor.menu is not None:
            return None
        return max(0.0, QUIET - editor.quiet_for)


class Files(Menu):
    """The menu of files: those of the session, and what the host has whose path begins as it is typed."""

    def __init__(self, joining: OpenRequests, entries: List[Tuple[str, str]], chosen: int, choose):
        self.joining, self.names, self.has_more, self.is_answered = joining, [], False, False
        self._asked = 0  # the last task for names
        super().__init__("Files; a path opens another", entries, chosen, choose)

    @property
    def _folder(self) -> str:
        """The folder of the path that is typed, up to its slash."""
        return self.typed[: self.typed.rindex("/") + 1] if "/" in self.typed else ""

    @property
    def _paths(self) -> List[str]:
        """The paths that may be opened. One that isn't there comes last, unless it names a folder."""
        known = {name for _, name in self.entries}
        paths = [path for path in (self._folder + name for name in self.names) if path.startswith(self.typed) and path not in known]
        if self.typed and not self.typed.endswith("/") and self.typed not in known and self.typed not in paths:
            paths.append(self.typed)
        return paths

    @property
    def count(self) -> int:
        return super().count + len(self._paths)

    def texts(self) -> List[str]:
        texts = super().texts() + [f"+ {path}{self._remark(path)}" for path in self._paths]
        return texts + ["  .. and more"] if self.has_more else texts

    def _remark(self, path: str) -> str:
        is_new = self.is_answered and path == self.typed and path[len(self._folder) :] not in self.names
        return "  (a new file)" if is_new else ""

    def lacks_names(self, key: Input) -> bool:
        """Whether a key, or the first of some, goes by the host's paths, of which the answer is still to come: so the same keys open the
        same file over any line."""
        step = AT_CHOSEN.get(key.runes[:1]) if isinstance(key, Text) else STEPS.get(key.name) if isinstance(key, Key) else None
        return step is not None and self._asked != 0 and not self.is_answered and self.chosen + step >= len(self.shown)

    def _enter(self, key: str) -> None:
        paths = self._paths[max(0, self.chosen - len(self.shown)) :]
        if self.chosen < len(self.shown):
            super()._enter(key)
        elif paths and key in AT_CHOSEN:
            self._take_path(paths[0], key == "\n")

    def _take_path(self, path: str, opens: bool) -> None:
        if path.endswith("/") or not opens:
            self._narrow(path)
        else:
            self.is_over = self.joining.open(path)

    def go_into(self, folder: str) -> None:
        self._narrow(folder.rstrip("/") + "/")

    def _narrow(self, typed: str) -> None:
        folder = self._folder
        super()._narrow(typed)
        if self._folder != folder:
            self.names = []
        self.has_more = self.is_answered = False
        self._asked = 0  # also where memory is out
        self._asked = self.joining.ask_names(typed)

    def meet_names(self, note: Note) -> None:
        """The host has told names that complete a path: that which was asked for last, or another."""
        if note.request != self._asked:
            return
        self.names, self.has_more, self.is_answered = os.fsdecode(note.path).split("\n")[:-1], note.code == NoteCode.HAS_MORE, True
        if self.typed in self._paths and self.typed[len(self._folder) :] in self.names:
            self.chosen = len(self.shown) + self._paths.index(self.typed)
