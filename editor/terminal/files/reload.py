"""Files that another program has changed: the host tells of them, and a key puts in what they have now.

The host reads the file anew as a hidden file of the session. Its text is loaded, and where it differs goes in the place of the old one's:
`^Z` takes that back, and the file counts as written then.
"""
from typing import Dict, List, Optional

from .open_requests import VERSION
from sulgrevad import Note, NoteKind


def common(one: str, other: str) -> int:
    """How many runes two texts begin with that are the same."""
    low, high = 0, min(len(one), len(other))
    while low < high:
        middle = (low + high + 1) // 2
        low, high = (middle, high) if one[low:middle] == other[low:middle] else (low, middle - 1)
    return low


class Reload:
    """What was changed by others, and what is read anew."""

    def __init__(self, editor):
        self.editor, self.terminal = editor, editor.terminal
        self.changed: Dict[int, str] = {}  # files that another program has changed since they were read or written here; and the lines
        self._task = 0  # the last one: its answer has this number
        self._tag: Optional[int] = None  # the file that is read anew
        self._anew: Optional[int] = None  # its new text, once the host has told it
        self._is_put_in = False  # that stands in the old one's place
        self._sure_of: Optional[int] = None  # the file of which the user is sure, though it was not written

    def meet_changed(self, tag: int, line: str) -> None:
        """The host has told, by a line, that another program changed a file."""
        line += f"; {self.editor.keys.of('reload')} reloads it"
        self.changed[tag] = line
        self.editor.notes.keep(1, line)

    def forget(self, tag: int) -> None:
        """A file has been written, or read anew; or a question says that another program changed it."""
        line = self.changed.pop(tag, "")
        if line and line not in self.changed.values():
            self.editor.notes.forget(line)

    @property
    def is_busy(self) -> bool:
        """Whether a file is read anew, so that keys wait for that."""
        return self._anew is not None

    @property
    def all(self) -> List[int]:
        return sorted(tag for tag in self.changed if self.terminal.is_known(tag))

    # ---- Reading one anew

    def begin(self, tag: int, key: str) -> bool:
        """Has the host read a file anew, once the user is sure where it was not written. Returns whether that is done or can't be; else the
        key acts again, or asks."""
        editor = self.editor
        if editor.is_alone:
            editor.message = "that can be done when the line is back"
            return True
        if editor.is_lock_held or not editor.window_of(tag).is_settled:
            editor.act_again("waits for the host")
            return False
        undo = editor.keys.of("undo")
        question = f"{editor.name(tag)} was not written; {key} again puts in its place what the file has, and {undo} takes that back"
        self._sure_of = self._sure_of if editor.acts_again else None
        if editor.is_changed(tag) and self._sure_of != tag and not editor.is_sure(question):
            return False
        self._sure_of = tag
        if not editor.may_go_whole(tag, key):
            return False
        self._task = self.terminal.begin(NoteKind.RELOAD, tag=tag)
        self._tag, self._anew, self._sure_of, self._is_put_in = tag, None, None, False
        self.terminal.offer_version(VERSION)
        editor.await_file()
        return True

    def meet(self, note: Note) -> bool:
        """An answer of the host. Returns whether it is of a file that is read anew."""
        if self._tag is None or note.request != self._task or note.kind not in (NoteKind.ANEW, NoteKind.REFUSED):
            return False
        if note.kind == NoteKind.ANEW and note.number in self.editor.session_files.hidden:
            self._anew = note.number
        else:
            self.editor.notes.keep(1, f"{self.editor.name(self._tag)} is not reloaded: {note.text}")
            self._tag = self._anew = None
        return True

    def go_on(self) -> None:
        """Opens and loads what was read anew, and puts it in."""
        tag, anew, terminal = self._tag, self._anew, self.terminal
        if tag is None or anew is None or self.editor.is_lock_held or not terminal.is_known(anew):
            return
        if not terminal.is_open(tag):
            self._tag = self._anew = None
        elif not terminal.is_open(anew):
            terminal.open(anew)
            terminal.work(tag)
        elif terminal.first_gap(anew) is not None:
            terminal.load(anew, 0, terminal.len(anew))
        elif not self._is_put_in:
            self._is_put_in = True  # also if memory is out for it, which is told at the end
            self._put_in(tag, self.editor.texts.read(anew, 0, terminal.len(anew)))
        elif terminal.unsent == 0:
            self._end(tag, anew)

    def _put_in(self, tag: int, came: str) -> None:
        """Puts a text in the place of a file's, where the two differ."""
        editor, place = self.editor, self.terminal.dot(tag)[0]
        gone = editor.texts.read(tag, 0, self.terminal.len(tag))
        start = common(gone, came)
        same = common(gone[start:][::-1], came[start:][::-1])
        self.forget(tag)
        editor.left.take_out(tag)
        editor.log.begin(tag)
        editor.texts.edit(tag, start, len(gone) - same, came[start : len(came) - same])
        editor.window_of(tag).select(min(place, self.terminal.len(tag)))

    def _end(self, tag: int, anew: int) -> None:
        """The new text stands in the old one's place, and the host has both."""
        editor, length = self.editor, self.terminal.len(anew)
        if editor.texts.read(tag, 0, self.terminal.len(tag)) == editor.texts.read(anew, 0, length):
            editor.way.line.put_note(Note(NoteKind.RELOADED, tag=tag, number=anew))
            editor.write(tag)
            editor.message = f"{editor.name(tag)} is reloaded; {editor.keys.of('undo')} takes that back"
        else:
            editor.message = f"{editor.name(tag)} could not be reloaded"
        self.terminal.close(anew)
        self._tag = self._anew = None
