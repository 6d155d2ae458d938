"""The editor: what comes from the host, and the keys that act. Windows stand in view/window_layout.py, keys that wait in
keys/key_queue.py, and what a key does in keys/actions.py."""
import time
from typing import Callable, Container, Iterable, List, Optional, Sequence, Tuple, Union

from .keys.actions import TOO_LONG, Actions, Pasting
from .view.colours import Colours
from .view.window_layout import WindowLayout
from .files.open_requests import OpenRequests
from .files.unsaved_texts import REPLACING, UnsavedTexts, shown_name
from .keys.bindings import PLACE, SAM, Input, Key, KeySet, Mouse, Paste, Text
from .files.recovery import Recovery
from .text.lines import Numbers
from .line.host_process import SECONDS_TO_END
from .view.status_line import REPEAT, Notes, printable, rank_of, words_of
from .keys.mouse import Pointer
from .files.reload import Reload
from .files.session_files import SessionFiles
from .text.prefetch import Prefetch
from sulgrevad import Dropped, Kind, Note, NoteCode, NoteKind, SamError, Status
from .text.client_terminal import ClientTerminal
from .text.texts import COMMAND, COMMAND_NAME, Texts
from .text.undo import Undo
from .keys.key_queue import BUSY, LEAVING, REST, Pressed, KeyQueue, last_of
from .line.lateness import Lateness
from .line.persistent_session import PersistentSession


COMMAND_AFTER = 2.0  # seconds of rest after which the command file is opened, if nothing needed it before


ANSWERS = (NoteKind.OPENED, NoteKind.REFUSED, NoteKind.NAMES, NoteKind.ANEW, NoteKind.SHOWN)
AGES = (NoteCode.NEWER, NoteCode.OLDER)  # of a text that an earlier session left, beside that of its file
RESTED = 1.0  # seconds since the last key from which on a question is no surprise

WHY = {
    Status.REFUSAL_EXITED: "the session is over",
    Status.REFUSAL_NO_FILE: "there is no such file",
    Status.REFUSAL_NOT_OPEN: "the file is not open",
    Status.REFUSAL_BAD_POSITION: "there is no such place",
    Status.REFUSAL_TOO_LONG: TOO_LONG,
    Status.REFUSAL_TEXT_TOO_LONG: "the text is too long",
    Status.REFUSAL_COMMAND_FILE: "that can't be done to the command window",
    Status.REFUSAL_BAD_VERSION: "there is no such version",
}


class Editor(WindowLayout, KeyQueue, Actions):
    """The terminal with its windows. Keys come in by `take`, what the host said by `go_on`, messages and lines by `hear`."""

    def __init__(
        self, terminal: ClientTerminal, line: PersistentSession, clock: Callable[[], float] = time.monotonic, indents: bool = True,
        asked_for: Optional[Sequence[str]] = (), keys: KeySet = SAM,
    ):
        super().__init__(Texts(terminal))
        self.keys = keys
        self._begin_waiting()
        self.terminal, self.clock, self.indents = terminal, clock, indents
        # The names that the files have whose paths the user gave; None where he goes on with a session.
        self.asked_for = None if asked_for is None else {shown_name(path) for path in asked_for}
        self.session_files = SessionFiles(terminal)
        self.way, self.notes = Lateness(terminal, line, clock), Notes(clock, self.hint)
        self.log, self.numbers, self.keeping = Undo(terminal, self.texts), Numbers(self.texts), UnsavedTexts(self)
        self.left, self.slices, self.joining, self.reloading = Recovery(self), Prefetch(self), OpenRequests(self), Reload(self)
        told = {Kind.HCLOSE: self._meet_close, Kind.HMOVETO: self._meet_move, Kind.HSETDOT: self._meet_dot}
        told.update({Kind.HNEWNAME: self.session_files.sort, Kind.HDELNAME: self.session_files.drop})
        told.update(dict.fromkeys((Kind.HBINDNAME, Kind.HDIRTY), self.session_files.touched.add))
        self.colours = Colours(self.name, tell=lambda line: self.notes.keep(1, line))
        terminal.told, terminal.settled = told, {Kind.HUNLOCK: self._meet_unlock, Kind.HSETSNARF: self.meet_snarf}
        terminal.give_back, terminal.refuse, terminal.forget_changes = self._take_back, self._tell_refusal, self._forget_changes
        hear = self.log.hear, self.numbers.hear, self.hear_changes, self.hear_pasting, self.colours.hear
        self.texts.listeners = [*hear, lambda changes: self.keeping.note_change(changes.tag, len(changes))]
        self.texts.host_listeners = [self.hear_run]
        self.pointer, self.menu, self.help = Pointer(self), None, None  # the help lies over all else
        self.is_lost = self.is_leaving = self.is_over = self.has_begun = False
        self.leaves_alone = False  # the user leaves, and the host has not answered that
        self.kept_here: Optional[List[str]] = None  # what was told of texts that were written here, as the host was lost
        self.wishes: List[str] = []  # what the screen is to do: "redraw", "suspend"
        self.clip: Optional[str] = None  # what the user's clipboard is to have
        self._awaits_file = False  # the host makes a file or closes one
        self._acting: Input = Key("")  # the key that acts now, and the one that made it ask
        self._asked_by: Input = Key("")
        self._asked_in, self._asked_at = self.focus, 0.0  # in which window, and when the key was pressed that made it ask
        self._acts_since = 0.0  # when the key was pressed that acts now
        self._again: Optional[Input] = None  # the key that acts again once the host has answered
        self._lacks_line = ""  # what is told of that key, where it needs the line
        self._is_again = False  # whether the key that acts does so again
        self._sought_above: Optional[Tuple[int, int]] = None  # from where a search above goes on, and how much it loads next
        self._answered = ""  # the question that the key which acts now answers
        self._snarfed = ""  # what was cut or copied last, as far as it was loaded
        self.cut_text = ""  # the same if it was cut, and not pasted since
        self.pasting: Optional[Pasting] = None  # what the host is asked for
        self._sought: Optional[Tuple[int, int]] = None  # the file and the line that the host was told to select
        self._is_command_asked_for = False  # the host opens the command file, or has
        self._shown_at: Optional[float] = None  # when the first text showed
        self.sought_here = ""  # the pattern that was searched last without a host
        self._asks_at: List[float] = []  # when that may be asked for which the last update left, since keys came

    @property
    def message(self) -> str:
        return self.notes.line

    @message.setter
    def message(self, message: str) -> None:
        self.notes.say(message)

    @property
    def hint(self) -> str:
        return f"{self.keys.all_of('help')} shows the keys"

    # ---- Files

    @property
    def tags(self) -> List[int]:
        """The user's files."""
        return self.session_files.tags

    @property
    def open_tags(self) -> List[int]:
        """Those that are open, in their order."""
        return sorted(tag for tag in self.session_files.touched if self.is_users(tag) and self.terminal.is_open(tag))

    @property
    def changed_tags(self) -> List[int]:
        """Those that are changed, in their order."""
        return sorted(tag for tag in self.session_files.touched if self.is_users(tag) and self.is_changed(tag))

    @property
    def changed_names(self) -> str:
        """The names of these."""
        return ", ".join(map(self.name, self.changed_tags))

    def is_users(self, tag: int) -> bool:
        """Whether a file is one of the user's."""
        return tag in self.session_files.all

    @property
    def is_alone(self) -> bool:
        """Whether nothing can be asked of the host: it is lost, or its answers are late."""
        return self.is_lost or self.way.is_late

    def is_changed(self, tag: int) -> bool:
        """Whether a file was not written since it was changed, or its last write failed. The command file is never written."""
        return self.terminal.is_changed(tag)

    def name(self, tag: int) -> str:
        terminal = self.terminal
        if not terminal.is_known(tag):
            return COMMAND_NAME if tag == COMMAND else "(closed)"
        return terminal.name(tag) or f"(file {tag}, no name)"

    def show(self, tag: int, replaces: bool = True) -> bool:
        """Shows a file: in its window, else in place of the one that was used last, or in another. Before that it is opened. Returns
        whether that can be done; else it says why not."""
        window = self.window_of(tag)
        if not window.is_open and self.way.is_late:
            self.message = f"{self.name(tag)} is not open: that can be done when the line is back"
            return False
        if not window.is_open and not self.is_lost:
            self.left.look_at(tag)
            self.terminal.open(tag)
        self.put_up(window, replaces)
        return True

    # ---- What comes from the host

    def begin(self) -> None:
        """The first event: the host tells the names of its files."""
        self.terminal.offer_version(2)

    def go_on(self, until: Optional[float] = None) -> bool:
        """Goes on with what the host said and with what waits here, up to a time. Returns whether all of that is done."""
        return self.terminal.go_on(until)

    def hear(self, told: Union[str, Note]) -> None:
        """A line of standard error, or a message of the host. What that says of a text stays on the screen until it is read."""
        if isinstance(told, str):
            self._keep(told)
        elif told.kind in ANSWERS:
            if told.kind == NoteKind.ANEW:
                self.session_files.hide(told.number)
                if self.has_begun and told.number in self.session_files.hidden:
                    self.left.note_hidden([told.number])
            if not self.reloading.meet(told):
                self.joining.meet(told)
        elif told.kind == NoteKind.DATED:
            self.left.hear_written(told.tag, told.number)
        elif told.kind == NoteKind.CHANGED:
            self.reloading.meet_changed(told.tag, words_of(told))
        else:
            if told.kind == NoteKind.SAVED:
                self.left.meet_written(told.tag)
                self.reloading.forget(told.tag)
            self.keeping.meet(told)
            if not self._asks_of(told):
                self._keep(told, self.left.offer if told.kind == NoteKind.EARLIER and told.code in AGES else "")

    def _keep(self, told: Union[str, Note], offer: str = "") -> None:
        """Shows words: what matters until it is read."""
        line, rank = words_of(told), rank_of(told)
        if rank:
            self.notes.keep(rank, line + offer)
        elif isinstance(told, str):
            self.message = line

    def _asks_of(self, told: Note) -> bool:
        """Whether a write would replace another program's text, and this asks at once, as its user waits; else the next such key does."""
        if told.kind != NoteKind.NOT_SAVED or told.code not in REPLACING:
            return False
        self.reloading.forget(told.tag)
        return self.asks_to_write({told.tag})

    def asks_to_write(self, tags: Container[int]) -> bool:
        """Asks before another program's text is replaced, where one of these files is the one used last, and its user waits for a write: no
        key came since, or it was put off, and he rests. Returns whether it is asked."""
        tag = self.active.tag
        waits = self.action_of(self._last.key) == "write" or self.quiet_for >= RESTED
        if tag not in tags or not waits or self.deferred:
            return False
        self._ask(self.keeping.question(tag), Key(self.keys.of("write")))
        return True

    def _take_back(self, dropped: Dropped) -> None:
        """Runes come back for which the host left no room."""
        self.give_back(dropped.text, f"{self.name(dropped.tag)} has no room for what was typed there, as the host put more in")

    def give_back(self, typed: str, why: str) -> None:
        """Tells of it; and has `^V` have what was typed, as if it were cut, or a file here where something was cut that stands nowhere
        else."""
        if typed and self.cut_text:
            why += f"; {self.keeping.keep_typed(typed)}"
        elif typed:
            try:
                self.set_snarfed(typed)
                self.cut_text = typed
                why += f"; {self.keys.of('paste')} has what you typed for it"
            except (SamError, MemoryError):  # the host can't have it
                why += f"; {self.keeping.keep_typed(typed)}"
        self.notes.keep(1, why)

    def _forget_changes(self, tag: int) -> None:
        """Memory was out while a text was changed: nobody knows what it had before."""
        for memory in (self.log, self.numbers, self.colours):
            memory.drop(tag)
        self.keeping.note_change(tag)

    def _meet_close(self, tag: int) -> None:
        for memory in (self.log, self.numbers, self.keeping, self.left, self.colours):
            memory.drop(tag)
        self.reloading.forget(tag)

    def _meet_move(self, tag: int) -> None:
        self.window_of(tag).follow()

    def _meet_dot(self, tag: int) -> None:
        self.hear_dot(tag)
        if self._sought is not None and self._sought[0] == tag:
            self.numbers.set(tag, self.terminal.dot(tag)[0], self._sought[1])

    def _meet_unlock(self, _tag: int) -> None:
        self._sought, self._aside = None, ""
        self.end_run()

    def pause(self) -> None:
        """The user pauses: sends what was typed. What is pasted is asked for without a lock, so the line hears that it is waited for."""
        self.way.line.expect(self.pasting is not None)
        self.terminal.flush()

    def has_command_file(self) -> bool:
        """Whether the command file is open. If not, the host is asked for it, unless its answers are late: no key acts for that round
        trip, so this waits for a key that needs it, or for a rest."""
        if not self._is_command_asked_for and self.has_begun and not self.is_alone:
            self._is_command_asked_for = True
            self.terminal.open_cmd()
        return self.command.is_open

    @property
    def has_shown(self) -> bool:
        """Whether there was a text to be seen."""
        return self._shown_at is not None

    @property
    def idle_for(self) -> float:
        """For how many seconds no key has come while there was a text to be seen."""
        return 0.0 if self._shown_at is None else round(self.clock() - max(self._pressed_at, self._shown_at), 6)

    def _use_rest(self) -> None:
        """While the user rests, the command file is opened, and texts are loaded."""
        if self._shown_at is None and self.active.is_open and not self.is_lock_held:
            self._shown_at = self.clock()
        is_time = not self._is_command_asked_for and self.rests and self.idle_for >= COMMAND_AFTER
        if is_time and self.way.line.has_all and not self.is_lock_held:  # a host that doesn't answer would lock all by it
            self.has_command_file()
        self.slices.go_on()
        to_command = COMMAND_AFTER - self.idle_for if self.has_shown and not self._is_command_asked_for else None
        self._asks_at += [self.clock() + left for left in (self.slices.left, to_command) if left is not None and left > 0]

    def lose(self, why: str) -> None:
        """The host is gone: what is loaded can still be read. What was changed is written here."""
        if self.is_lost:
            return
        self.is_lost = self.texts.is_final = True
        self.kept_here = self.keeping.keep_here(self.way.line.has_all)
        self.go_to(self.shown_focus)
        self.deferred.clear()
        self.message = ""
        self.notes.forget_the_line()
        for line in self.kept_here or [f"what is loaded can still be read. {self.keys.of('leave')} leaves"]:
            self.notes.keep(2, f"{why}; {line}")
        if self.keeping.failed:
            self.notes.keep(2, f"{self.keys.of('leave')} tries again to write here what could not be written: make room first")

    def _meet_files(self) -> None:
        """Shows the first file, and a file that was made; drops the windows of files that were closed."""
        if not self.has_begun and not self.terminal.command_locked:
            hidden = sorted(filter(self.terminal.is_known, self.session_files.hidden))
            self.left.find(hidden)
            self._begin_with(self.tags)
        known = self.tags
        gone = [window for window in self.files if not self.is_users(window.tag)]
        for window in gone:
            self.drop(window)
            del self.all_windows[window.tag]
        for window in {pressed.window for pressed in self.deferred} - {None, self.command} if self.deferred else ():
            if not self.is_users(window.tag):
                self.let_go_of(window, "a file is closed for which keys waited")
        current = self.terminal.current
        is_shown = current is None or current in self.all_windows
        if not is_shown and self.is_users(current):  # it was made; command lines work on a file that had a window
            self.show(current)
        elif gone and not self.files and known:
            is_in_command = self.focus is self.command and self.active is not self.command
            self.show(next(iter(self.open_tags), known[0]))
            if is_in_command:
                self.go_to(self.command)

    def _begin_with(self, known: List[int]) -> None:
        """The names of the files are known: opens the first one. Where there is none keys go to the command window."""
        self.has_begun = True
        if known:
            self.show(known[0])
        else:
            self.message = f"no file: {self.keys.of('new')} makes one, {self.keys.of('help')} shows the keys"
            self.has_command_file()
        if self._has_others(known):
            self.do_menu()  # of a folder the host has the files below it

    def _has_others(self, known: List[int]) -> bool:
        """Whether there are files whose names the user did not give."""
        if self.asked_for is None:
            return len(known) > 1
        asked_for = set(map(printable, self.asked_for))
        return len(known) != len(asked_for) and any(printable(self.keeping.name(tag)) not in asked_for for tag in known)

    def update(self) -> None:
        """After keys or bytes: files that came or went, keys that waited, what the windows show."""
        now = self.clock()
        lefts = () if self.is_lost else (self._left(self._edited_at, BUSY, now), self._left(self._pressed_at, REST, now))
        self._asks_at = [now + left for left in lefts if left > 0]
        if not self.is_lost and not self.terminal.exited:
            self._meet_files()
            self.joining.go_on()
            self.reloading.go_on()
            self._awaits_file = self._awaits_file and self.is_lock_held
            self._act_in_order()
            self.left.go_on()
            self.keeping.go_on()
            self.update_windows()
            self._use_rest()
        elif self.is_lost:
            self.update_windows()
        is_time = self._leaves_at is not None and now >= self._leaves_at
        goes = is_time or (self.is_leaving and self.way.line.silence >= SECONDS_TO_END)
        self.leaves_alone = goes and not self.is_lost and not self.terminal.exited
        self.is_over = self.is_over or self.terminal.exited or goes

    def update_windows(self) -> None:
        is_busy, rests = self.is_busy, self.rests
        for window in self.windows:
            window.update(is_busy, rests)
        if rests:
            self.colours.rest(self.windows)

    def wakes_in(self) -> Optional[float]:
        """Seconds until something is to be done though nothing comes; None where that has no end. A time that has come since the last
        update counts: else nobody would ask any more for what that left."""
        now = self.clock()
        waits = [self.keeping.seconds_until_here, self.joining.seconds, self.left.seconds]
        if self.has_details:  # else nobody is told of messages on the way
            waits.append(self.way.seconds)
        waits += [when - now for when in self._asks_at]
        if not self.is_lost:
            waits.append(self.way.seconds_of_silence)
        waits += [pressed.when + REPEAT - now for pressed in self.deferred if pressed.answers]
        if self._leaves_at is not None:
            waits.append(self._leaves_at - now)
        return min((max(0.0, wait) for wait in waits if wait is not None), default=None)

    def _tell_refusal(self, why: Status) -> None:
        self.message = WHY.get(why, str(why))

    # ---- What comes from the user

    def _act(self, pressed: Pressed) -> None:
        """Does what a key says. A question is over then: the key answers it, or takes it back."""
        key, is_for_menu, stood = pressed.key, pressed.window is None and self._is_for_menu(pressed.key), self.notes.message
        if not self.notes.question or pressed.when >= self._asked_at:  # else the key came before that was asked
            self.notes.take(pressed.read)
        if self.is_lost and not is_for_menu and not self._reads(key):
            self.take_late([key])
            self.message = self._why_not(key)
            return
        self._answered, self._acting, self._acts_since, self._is_again = pressed.answers, key, pressed.when, pressed.is_again
        self.texts.left = ""
        try:
            if is_for_menu:
                self._act_in_menu(pressed)
            elif isinstance(key, Mouse):
                self.pointer.take(key, pressed.window or self.focus)
            elif isinstance(key, (Text, Paste)):
                self.type(pressed)
            else:
                self._do(key)
        except MemoryError as error:
            self.message = f"there is not enough memory ({error})"
            self.keeping.typed_late += self.texts.left
        except OSError as error:  # there can be no more descriptors, say
            self.message = f"that can't be done now: {error.strerror or error}"
            self.keeping.typed_late += self.texts.left
        except SamError as error:
            self.lose(f"the session can't go on ({error})")
            self.keeping.typed_late += self.texts.left
        except Exception:  # a fault of this program ends it
            self.keeping.typed_late += self.texts.left
            raise
        if self.texts.left and self.terminal.exited:
            self.keeping.typed_late += self.texts.left
        self._answered = ""
        if self._again is not None:
            again = pressed._replace(key=self._again, answers="", read="", is_again=True)
            self._put_back(self.as_told(again, self._lacks_line, stood) if self._lacks_line else again)
            self._again, self._lacks_line = None, ""

    def _reads(self, key: Input) -> bool:
        """Whether a key changes no file."""
        return isinstance(key, Mouse) or self.bound(key).reads

    def _why_not(self, key: Input) -> str:
        """Why a key can't act without a host."""
        if isinstance(key, (Text, Paste)):
            return "HOST LOST: no text changes any more. What you type is written to typed.sam-here at the end"
        if self.action_of(key) == "write" and self.kept_here:
            return f"HOST LOST: nothing can be written there; {'; '.join(self.kept_here)}"
        name = key.name if isinstance(key, Key) else ""
        find, copy, leave = map(self.keys.of, ("find", "snarf", "leave"))
        return f"HOST LOST: {name} can't act. Moves, {find} and {copy} do, in what is loaded; {leave} leaves"

    def take_late(self, keys: Iterable[Input]) -> None:
        """Keys that come too late to act: what was typed is told or written at the end."""
        if self.is_lost:
            self.keeping.typed_late += "".join(key.runes for key in keys if isinstance(key, (Text, Paste)))
        else:
            self.deferred.extend(Pressed(key, self.clock()) for key in keys)

    @property
    def acts_again(self) -> bool:
        """Whether the key that acts now does so again."""
        return self._is_again

    def act_again(self, why: str) -> None:
        """The key that acts now does so again, once the host has answered, or answers again after a short break."""
        if (self.is_lock_held or self.way.is_late) and not self.is_lost:
            self._again, self.message = self._acting, why
        else:
            self.message = "that can't be done now"

    def wait_for_line(self, why: str, key: Optional[Input] = None) -> None:
        """The key that acts now, or another in its place, can't until the line is back. It goes as each such key does; or it acts again
        then, if something was typed right behind it."""
        self.message = why
        if not self.is_lost:
            self._again, self._lacks_line = key or self._acting, why

    def _act_in_menu(self, pressed: Pressed) -> None:
        key = pressed.key
        if isinstance(key, Text):
            key = Text(self.first_of(pressed, 1))
        menu, self._acting = self.menu, key
        try:
            goes_on = menu.take(key)
        finally:
            if menu.is_over and self.menu is menu:
                self.menu = None
        if goes_on:
            self._put_back(pressed._replace(key=key))  # what stands behind that is back already

    def _act_in_help(self, pressed: Pressed) -> Optional[Input]:
        """What is pressed over the help. Returns what of it is for the windows."""
        self.notes.take(pressed.read)
        key = pressed.key
        rest: Optional[Input] = None
        if isinstance(key, Text) and len(key.runes) > 1:
            key, rest = Text(key.runes[:1]), Text(key.runes[1:])
        if self.help.take(key):
            rest = key
        if self.help.is_over:
            self.help = None
        return rest

    def _ask(self, question: str, key: Input) -> None:
        self._asked_by, self._asked_in, self._asked_at = last_of(key), self.focus, self._acts_since
        self.notes.ask(question)

    def say_leaving(self) -> None:
        self._ask(self.of_leaving(LEAVING), Key(self.keys.of("leave")))

    def is_sure(self, question: str) -> bool:
        """Whether this key answers a question that the user has read. If not, it is asked."""
        if self._answered == question:
            return True
        self._ask(question, self._acting)
        return False

    def _do(self, key: Key) -> None:
        binding = self.bound(key)
        if not binding.action:
            self.message = f"{key.name} does nothing; {self.hint}"
            return
        if binding.waits == PLACE and not self.focus.is_open:
            return
        getattr(self, f"do_{binding.action}")(*(["Shift-" in key.name] if binding.extends else []))
