"""What became of the texts: which could not be written, which the host has saved aside, and which have to be written here."""
import os
from collections import Counter
from functools import partial
from typing import Callable, Dict, Iterator, List, Optional, Tuple, Union

from . import local_backup
from .backup_process import BackupProcess, Unsaved
from .local_backup import COMMAND_LINE, CUT, TYPED, UNNAMED
from ..view.status_line import rank_of, words_of
from ..text.texts import GAP
from sulgrevad import Note, NoteCode, NoteKind

# Seconds without a line after which changed texts are also written here; and after which that is done again, with keys since and without.
HERE_AFTER, HERE_AGAIN = 1.0, 10.0
PAUSE = 20  # times what it took last, for which it is not done again: a long text on a slow disk takes a twentieth of the time
# To begin that takes some milliseconds, so it comes between two keys: right after one, or once none has come for a while.
JUST, QUIET = 0.01, 0.25  # seconds since a key
MOST_PUT_OFF = 1.0  # seconds that it waits for that
AGAIN = 0.1  # seconds until it is looked again whether the last texts are written
MOST_RUNES_IN_NAME = 64  # in the session; of a longer path the host shows the end
# Why a write failed that would have replaced what stands in the file.
REPLACING = {
    NoteCode.CHANGED_SINCE: "another program changed it", NoteCode.EXISTS_ALREADY: "it is there already",
    NoteCode.UNREADABLE: "it can't be read",
}  # fmt: skip


def shown_name(path: str) -> str:
    """The name in the session of a path that the host tells."""
    return path if len(path) <= MOST_RUNES_IN_NAME else "…" + path[1 - MOST_RUNES_IN_NAME :]


class UnsavedTexts:
    """The texts of an editor, as far as they are not written."""

    def __init__(self, editor):
        self.editor, self.terminal = editor, editor.terminal
        self._is_lost_there = False  # the host could save a text nowhere
        self.failed: List[Tuple[str, Callable[[], str]]] = []  # what could not be written here: what was told, and what tries it again
        self.typed_late = ""  # what was typed when the host was lost already, or memory was out for it
        self.has_left = False  # a text was written here
        self._saved_cut = ""  # what the host has saved of what was cut
        # Files that the next write would replace: the name, None where it was not known yet, and what the host told.
        self._refused: Dict[int, Tuple[Optional[str], Note]] = {}
        self._changes: Counter = Counter()  # of each file
        self._written: Dict[int, Tuple[int, int]] = {}  # by task each write that is not answered: the file, and how many there were
        self._saved: Dict[int, int] = {}  # how many of them are in what the host has saved aside
        self._dropped: Dict[int, Tuple[str, str]] = {}  # names and texts of files that were dropped with open eyes, until they are saved
        self.put_off: Dict[int, bool] = {}  # files that are written when the line is back; whether the user is sure, where that is asked
        self._copies = BackupProcess()  # what was written here while the line was lost
        self._here_at: Optional[float] = None  # when

    @property
    def is_hopeless(self) -> bool:
        """Whether a text could not be saved anywhere."""
        return self._is_lost_there or bool(self.failed)

    def name(self, tag: int) -> str:
        """By which name a text is kept here."""
        return self.terminal.name(tag) or UNNAMED

    def write(self, tag: int, task: int) -> None:
        """The host is told to write a file, by a task whose answer has this number."""
        self._refused.pop(tag, None)
        self._written[task] = tag, self._changes[tag]

    def write_later(self, tag: int, is_sure: bool) -> None:
        """A file is to be written when the line is back; the user may be sure that it replaces another program's text."""
        self.put_off[tag] = is_sure or self.put_off.get(tag, False)

    def question(self, tag: int) -> str:
        """What is asked before a file is written in which another program's text stands; "" where none is known to."""
        name, note = self._refused.get(tag, (None, None))
        if note is None or name not in (None, self.name(tag)):
            return ""
        what, key = REPLACING[note.code], self.editor.keys.of("write")
        kept = f"its text is in {os.fsdecode(note.copy)}" if note.copy else "its text could not be saved"
        return f"{self.name(tag)}: {what}; {kept}. {key} again replaces it, and keeps what it has beside it"

    def refusal(self, tag: int) -> str:
        """The words that told of it."""
        return words_of(self._refused[tag][1]) if tag in self._refused else ""

    def note_change(self, tag: int, count: int = 1) -> None:
        """A text changed so many times: what the host has saved aside before lacks that."""
        self._changes[tag] += count

    def meet(self, note: Note) -> None:
        """A message of the host about a text: whether it is written, and where a copy of it is."""
        tag, is_of_file = note.tag, note.code == NoteCode.NO_CODE and note.copy != b""
        if note.kind == NoteKind.SAVED:
            self._answered(note)
        elif note.kind == NoteKind.LOST:
            self._is_lost_there = True
            self._saved.pop(tag, None)
        elif note.kind == NoteKind.NOT_SAVED:
            self._meet_failure(note)
        elif note.kind == NoteKind.ASIDE and note.code == NoteCode.CUT:
            self.note_saved_cut()
        elif note.kind == NoteKind.ASIDE and is_of_file:
            self._saved[tag] = self._changes[tag]
            self._dropped.pop(tag, None)

    def note_saved_cut(self) -> None:
        """The host has saved what was cut last, as far as it has that: it takes no long text that was not cut there."""
        if self.terminal.snarf_len == len(self.editor.cut_text):
            self._saved_cut = self.editor.cut_text

    def _meet_failure(self, note: Note) -> None:
        """A write failed, or would have replaced another program's text."""
        tag = note.tag
        if note.code in REPLACING:
            self._refused[tag] = self.name(tag) if self.terminal.is_known(tag) else None, note
        if note.copy:
            self._saved[tag] = self._answered(note)
        else:
            self._answered(note)
            self._saved.pop(tag, None)

    def is_being_written(self, tag: int) -> bool:
        """Whether a write of a file is not answered."""
        return any(written == tag for written, _ in self._written.values()) and self.terminal.locked(tag)

    def _answered(self, note: Note) -> int:
        """A write is answered. Returns how many changes there were then, -1 where this is no answer."""
        return self._written.pop(note.request, (note.tag, -1))[1]

    def is_so(self, told: Union[str, Note]) -> bool:
        """Whether what was told of a file still holds: what was not written may have been since, or been read anew."""
        if isinstance(told, str) or not self.editor.is_users(told.tag):
            return isinstance(told, str) or rank_of(told) > 0
        if told.kind == NoteKind.NOT_SAVED:
            return self.editor.is_changed(told.tag)
        return told.tag in self.editor.reloading.changed if told.kind == NoteKind.CHANGED else rank_of(told) > 0

    def drop(self, tag: int) -> None:
        """The file is closed."""
        self._refused.pop(tag, None)
        self._written = {task: written for task, written in self._written.items() if written[0] != tag}

    def let_go(self, tag: int) -> None:
        """The user closes a file that was not written. Its text is kept until the host says that it has it."""
        if self.terminal.is_open(tag):
            self._dropped[tag] = (self.name(tag), local_backup.loaded(self.terminal, tag))

    def keep_here(self, has_all: bool, has_ended_well: bool = False) -> List[str]:
        """Writes to files of this machine what nobody has saved. Returns what to tell of them."""
        lines = [self._kept(text) for text in self._unsaved(has_all, has_ended_well)]
        self._copies.drop()
        return lines

    def _unsaved(self, has_all: bool = False, has_ended_well: bool = False) -> Iterator[Unsaved]:
        """Texts as far as they are loaded, what was typed and still waits, the command line that is begun, and what was cut and not pasted.
        What the host has saved lacks nothing only where it has got all that was sent (`has_all`). If it has ended well then, it has saved
        all of it, also what it has told nothing of since a file has that text already."""
        editor, terminal, cut = self.editor, self.terminal, self.editor.cut_text
        if not (has_all and has_ended_well):
            yield from (Unsaved(str(tag), name, partial(str, text)) for tag, (name, text) in self._dropped.items())
        for tag in filter(terminal.is_open, editor.changed_tags):
            if not has_all or not (has_ended_well or self._saved.get(tag) == self._changes[tag]):
                yield Unsaved(str(tag), self.name(tag), partial(local_backup.loaded, terminal, tag))
        for window, text in editor.typed_by_window().items():
            if text:
                yield self._typed(text, f"{TYPED} {window and window.tag}", (window or editor.active).tag)
        if not has_ended_well and (begun := editor.begun_line()):
            yield Unsaved(COMMAND_LINE, COMMAND_LINE, partial(str, begun))
        if cut and not (has_all and cut == self._saved_cut):
            lacks = f", without {cut.count(GAP)} characters that samhost saves unless it was killed before," if GAP in cut else ""
            yield Unsaved(CUT, CUT, partial(local_backup.told, cut), f"what is loaded of cut{lacks}")

    def _typed(self, text: str, which: str = "", tag: Optional[int] = None) -> Unsaved:
        """What was typed and put in nowhere, for a file or for whichever comes: it is in no text, and so in none's file."""
        known = tag is not None and self.editor.is_users(tag)
        what = f"what was typed{f' for {self.editor.name(tag)}' if known else ''} and not put in"
        return Unsaved(which, TYPED, partial(str, text), what)

    def _kept(self, text: Unsaved, old: Optional[str] = None) -> str:
        """Writes a text here, in the place of an older copy where there is one. Returns what to tell of it."""
        old, what = self._copies.take(text.which) or old, text.what or f"what is loaded of {text.name}".replace("\0", "")
        path, why = None, "no file can be written here"
        try:
            path = self._copies.renewed(text, old)
        except Exception as error:  # whatever it is, the other texts are written
            why = str(error) or why
        if path is not None:
            self.has_left = True
            return f"{what} is here in {path}"
        line = f"{what} is lost: {why}" + (f"; {old} has it as it was before" if old else "")
        self.failed.append((line, partial(self._kept, text, old)))
        return line

    def keep_typed(self, text: str) -> str:
        """Writes here what was typed and put in nowhere. Returns what to tell of it."""
        return self._kept(self._typed(text))

    def keep_late(self) -> List[str]:
        """The same of what was typed when the host was lost already: some of it before the user could know."""
        text, self.typed_late = self.typed_late, ""
        return [self.keep_typed(text)] if text else []

    def keep_again(self, told: List[str]) -> List[str]:
        """Tries again what could not be written here: there may be room by now, or memory. Returns lines that were told before, with what
        is to be told of that in the place of what was."""
        failed, self.failed = self.failed, []
        stale = [line for line, _ in failed]
        return [line for line in told if line not in stale] + [again() for _, again in failed]

    # ---- While the line is lost

    @property
    def seconds_until_here(self) -> Optional[float]:
        """How long until changed texts are written here, or what was written goes; None where neither is to be done. No key is to wait
        for that."""
        if self.editor.is_lost:
            return None
        if self._copies.is_writing:
            return AGAIN
        if not self.editor.way.is_late:
            return None
        quiet, left = self.editor.quiet_for, HERE_AFTER - self.editor.way.line.silence
        if self._here_at is not None:
            since = self.editor.clock() - self._here_at
            left = max(HERE_AFTER if quiet < since else HERE_AGAIN, PAUSE * self._copies.took) - since
        return left if left > 0 or not JUST < quiet < QUIET else min(QUIET - quiet, left + MOST_PUT_OFF)

    @property
    def is_here_due(self) -> bool:
        """Whether changed texts are to be written here now, as the line is lost for a while."""
        left = self.seconds_until_here
        return left is not None and left <= 0  # as it never is where the line is back

    def write_here(self) -> None:
        """Begins to write them."""
        self._here_at = self.editor.clock()
        self._copies.write([*self._unsaved()])

    def go_on(self) -> None:
        """Once the line is back, and the host has all, what was written here goes."""
        way = self.editor.way
        if not way.is_late and self._here_at is not None and way.line.has_all and not self._copies.is_writing:
            self._here_at = None
            self._copies.write([])

    def write_put_off(self) -> None:
        """The line is back: files are written that were to be, unless another program's text stands there and the user doesn't know."""
        for tag, is_sure in [*self.put_off.items()]:
            is_open = self.terminal.is_open(tag)
            if is_open and (self.terminal.locked(tag) or self.terminal.command_locked):
                continue
            if is_open and (is_sure or not self.question(tag)):
                self.editor.write(tag)
            elif is_open and not self.editor.asks_to_write({tag}):
                self.editor.notes.keep(2, f"{self.name(tag)} is not written yet: {self.editor.keys.of('write')} asks first")
            del self.put_off[tag]
