"""One session: the editor goes on until the user leaves, and what nobody has saved is written here."""
import contextlib
import curses
import os
import shlex
import signal
import sys
from collections import deque
from typing import Deque, Iterable, Optional, Union

from .editor import Editor
from .start import STATUS_NO_HOST, Wish
from .text.client_terminal import ClientTerminal
from .keys.bindings import SAM
from .view import layout
from .line.host_process import SECONDS_OF_SILENCE, SECONDS_TO_END
from .loop import KEYBOARD, Loop
from .view.status_line import printable, words_of
from .view.screen import FOOT, Screen
from .line.persistent_session import PersistentSession
from sulgrevad import Note, SamError

TOO_OLD = "that samhost is too old: both have to be of one release"
MOST_TOLD = 1_000  # lines of the host that are told again at the end, the last ones
STATUS_LOST, STATUS_UNSAVED, STATUS_SIGNAL = 3, 5, 128


def say(line: str) -> None:
    """Tells on standard error, where that is still there."""
    with contextlib.suppress(OSError):
        print(printable(line), file=sys.stderr, flush=True)


def say_all(lines: Iterable[str]) -> None:
    for line in lines:
        say(f"samterm: {line}")


class Session:
    """The terminal, the editor and the link to the host."""

    def __init__(self, terminal: ClientTerminal, link: PersistentSession, editor: Editor):
        self.terminal, self.link, self.editor = terminal, link, editor
        self.told: Deque[Union[str, Note]] = deque(maxlen=MOST_TOLD)  # what the host told while the screen hid standard error
        self.ended_by = 0
        self.has_colours = False
        self.wrong = ""  # what is wrong with the host's stream
        terminal.hear = self._hear_note

    def begin(self) -> bool:
        """Waits for the host's stream, and asks for the first file while there is no screen yet. Returns whether the stream comes; why not
        is told."""
        columns, rows = os.get_terminal_size(KEYBOARD)
        self.editor.arrange(max(1, rows - FOOT), columns)
        self.editor.begin()
        is_there = self.link.wait_for_stream(self._hear_early, self._begins) and not self.wrong
        for line in self.link.noise:
            say(f"samterm: the host's command printed: {line}")
        if self.wrong:
            say(f"samterm: the host's stream is wrong ({self.wrong})")
        if is_there and self.link.noise:
            self.editor.notes.keep(1, f"the host's command printed: {self.link.noise[-1]}")
        return is_there

    def _begins(self) -> bool:
        """Goes on with what has come. Returns whether the host's stream has begun."""
        try:
            self.editor.go_on()
            self.editor.update()
            self.editor.go_on()
        except MemoryError:
            pass  # the loop does it again
        except SamError as error:
            self.wrong = str(error)
            return True
        return self.terminal.has_begun

    def _hear_early(self, line: str) -> None:
        say(line)
        self.editor.hear(line)

    def _hear_note(self, data: bytes) -> None:
        note = self.link.meet(data)
        if note is not None:
            self._hear(note)

    def _hear(self, told: Union[str, Note]) -> None:
        if words_of(told):
            self.told.append(told)
        self.editor.hear(told)

    def _take_last(self) -> None:
        """The screen is closed, and the host's answers still say what has arrived. Whatever goes wrong with them, the texts are kept."""
        with contextlib.suppress(Exception):
            if not self.editor.is_lost:
                self.editor.go_on()

    def run(self) -> None:
        """The user edits. An exception ends the session as well, and is raised again once all is told."""
        try:
            curses.wrapper(self._on_screen)
        except curses.error:  # the screen is gone, and can't be set back
            if not self.ended_by:
                raise
        finally:
            self.status = self._end()

    def _on_screen(self, window) -> None:
        screen = Screen(window)
        if self.has_colours:
            self.editor.colours.attributes = screen.colours()
        loop = Loop(self.terminal, self.link, screen, self.editor, self._hear)
        try:
            loop.run()
        finally:
            self.ended_by = loop.ended_by
            screen.close()

    def _tell_of_leaving(self) -> None:
        """The user has left: what was typed since, and where he didn't wait for the host, that it still has some time."""
        if self.editor.is_over and not self.ended_by and not self.editor.leaves_alone:
            self.editor.cut_text = ""
        if self.terminal.exited:
            if self.editor.typed_ahead:
                say(f"samterm: typed while the host was left, and put in nowhere: {self.editor.typed_ahead!r}")
            self.editor.deferred.clear()
        elif not (self.editor.is_lost or self.ended_by or self.link.stays):
            say(f"samterm: the host has {self._seconds_to_end} seconds to save what it got; ^C doesn't wait for it")

    @property
    def _seconds_to_end(self) -> int:
        """How long the host may take: one that said nothing will say nothing."""
        if self.link.is_broken:
            return 0
        return SECONDS_OF_SILENCE if self.editor.way.is_late else SECONDS_TO_END

    @property
    def _stays(self) -> bool:
        """Whether the session goes on at the host without us."""
        return self.link.stays and self.link.ended_with is None and not self.link.is_lost

    def _tell_of_staying(self) -> None:
        """How the user comes back to a session that stays, and what that lacks."""
        if self._stays:
            lacks = "" if self.link.has_all else ", which may lack what was done last here"
            say(f"samterm: the session stays at the host{lacks}. This goes on with it: {self._take_words()}")

    def _take_words(self) -> str:
        keys = self.editor.keys
        others = [] if keys is SAM else ["--keys", keys.name]
        return shlex.join(["samterm", *others, "--take", shlex.join(self.link.command), self.link.name])

    def _end(self) -> int:
        """Ends the link, and writes here what nobody has saved, also where a fault ends that. Returns the exit status."""
        keeping = self.editor.keeping
        self.say_told()
        status = None
        try:
            status = self._end_link()
            if status == 0 and not self.link.stays:  # so the host has saved what was cut, too
                keeping.note_saved_cut()
        finally:
            self.say_told()
            self._keep_here((status == 0 or (self._stays and self.link.has_all)) and not keeping.is_hopeless)
            self._tell_of_staying()
        if keeping.is_hopeless or status == STATUS_UNSAVED:
            return STATUS_UNSAVED
        if self.ended_by:
            return STATUS_SIGNAL + self.ended_by
        return STATUS_LOST if self.editor.is_lost or keeping.has_left or self._stays else 0

    def say_told(self) -> None:
        """What the host told since, as far as it still holds."""
        while self.told:
            told = self.told.popleft()
            holds = True
            with contextlib.suppress(SamError):  # of a terminal that has stopped
                holds = self.editor.keeping.is_so(told)
            if holds:
                say(words_of(told))

    def _end_link(self) -> Optional[int]:
        """Sends what was typed, and waits for the host's end. Returns its status; None where it doesn't end, or the user doesn't wait."""
        with contextlib.suppress(SamError):  # of a terminal that has stopped, or has no memory
            self.terminal.flush()
            try:
                self.editor.go_on()
            finally:
                self.link.send()
        with contextlib.suppress(KeyboardInterrupt):  # the user doesn't wait for the host any longer
            try:
                signal.signal(signal.SIGINT, signal.default_int_handler)
                self._tell_of_leaving()  # from here on `^C` counts
                self.link.ends = self.terminal.exited or self.editor.is_leaving
                return self.link.close(self._hear, self._take_last, self._seconds_to_end)
            finally:
                signal.signal(signal.SIGINT, signal.SIG_IGN)  # one more is not to stop what is written here
        return None

    def _keep_here(self, has_ended_well: bool) -> None:
        """Writes here what nobody has saved, unless that was done when the host was lost, and what was typed after that. What could not be
        written then is tried again."""
        keeping, kept = self.editor.keeping, self.editor.kept_here
        try:
            with contextlib.suppress(SamError):
                told = keeping.keep_here(self.link.has_all, has_ended_well) if kept is None else kept
                say_all(keeping.keep_again(told))
        finally:
            say_all(keeping.keep_late())


def run_session(wish: Wish, link: PersistentSession) -> int:
    """Edits over a link to a host that has begun. Returns the exit status."""
    layout.TAB = wish.shows.tab
    with link.client:
        terminal = ClientTerminal(link.client)
        editor = Editor(terminal, link, indents=wish.indents, asked_for=None if wish.takes_over else wish.files, keys=wish.keys)
        editor.has_numbers, editor.has_details = wish.shows.numbers, wish.shows.details
        session = Session(terminal, link, editor)
        session.has_colours = not wish.shows.plain and not os.environ.get("NO_COLOR")
        if not session.begin():
            session.say_told()
            ended_with, is_old = link.early_status, link.refused_words and not wish.takes_over
            link.close(say)
            why = f"it ended with status {ended_with}, and no session has begun" if ended_with else "the host doesn't answer"
            why = TOO_OLD if is_old else why
            say(f"samterm: {shlex.join(wish.command)}: {why}")
            return STATUS_NO_HOST
        session.run()
        return session.status
