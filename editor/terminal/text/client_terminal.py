"""The client as the editor uses it: the texts that are shown, a selection of each, and what is asked of the host."""
import os
import time
from collections import deque
from contextlib import contextmanager, suppress
from functools import partial, partialmethod
from typing import Callable, Deque, Dict, Iterator, List, Optional, Sequence, Tuple, TypeVar

from .text_copy import Edit, TextCopy
from .texts import COMMAND, GAP, MOST_RUNES, MOST_TYPED, Change, Changes, moved
from sulgrevad import Client, ClientEvent, ClientEventKind, Dropped, EditRefused, EventKind, FileState, Kind, NoteKind, Replacement
from sulgrevad import SamError, ShownEdit, SpliceKind, Status, Step, TerminalDid, TerminalState, TooMany, Waiting

MOST_WAITING = 64  # edits of a free file that wait together: each costs the more the more wait
NAMING = (Kind.HNEWNAME, Kind.HMOVNAME, Kind.HDELNAME)  # frames that change a name

WENT, FILLED = int(SpliceKind.WENT), int(SpliceKind.FILLED)

Told = Dict[int, Callable[[int], None]]
Answer = TypeVar("Answer")


class Answers(Dict[int, Answer]):
    """What the client answers for each file, until it is cleared: each is asked for once."""

    def __init__(self, ask: Callable[[int], Answer]):
        super().__init__()
        self._ask = ask

    def __missing__(self, tag: int) -> Answer:
        answer = self[tag] = self._ask(tag)
        return answer


class ClientTerminal:
    """A client whose edits are shown at once. A selection is the editor's own: the host hears of it with what is asked by it.

    `told` has what to call with the file of a frame of a kind that edits nothing, once that was received; `settled` the same, for when the
    editor may ask for something by that.
    """

    def __init__(self, client: Client, clock: Callable[[], float] = time.monotonic):
        self.client, self.clock = client, clock
        self.told: Told = {}
        self.settled: Told = {}
        self.tell: Callable[[Changes], None] = lambda changes: None  # of changes that the host made
        self.touch: Callable[[int], None] = lambda tag: None  # of a file of which more is loaded
        self.hear: Callable[[bytes], None] = lambda note: None  # a note of the host's program
        self.refuse: Callable[[Status], None] = lambda why: None  # something that the user did
        self.give_back: Callable[[Dropped], None] = lambda dropped: None  # runes for which the host left no room
        self.forget_changes: Callable[[int], None] = lambda tag: None  # of a file: memory was out for what it had
        self.deeds = 0  # how often something was done
        self.breaks = 0  # how often nobody knew what was made of a text
        self.has_begun = False  # the host's stream has
        self._copies: Dict[int, TextCopy] = {}
        self._dots: Dict[int, Tuple[int, int]] = {}
        self._files: Answers[FileState] = Answers(client.file)  # what is known of files and of all, until something is done
        self._opened: Answers[bool] = Answers(lambda tag: self.file(tag).is_open)  # until a frame comes that is no edit
        self._unsaved: Answers[bool] = Answers(client.is_unsaved)
        self._now: Optional[TerminalState] = None
        self._asked = self._acted = 0  # the last request that was taken, and the last of those that have acted or were refused
        self._may_write = False  # a write may wait, of which no number is known
        self._names: Answers[str] = Answers(client.name)
        self._current: Tuple[Optional[int], ...] = ()  # empty where it was not asked
        self._edits: List[ShownEdit] = []  # that came, not made in the copies yet
        self._changes: List[Change] = []  # of one file, not told yet
        self._later: Deque[Callable[[], None]] = deque()
        self._settled_at = 0  # after which deed it was looked what is answered
        self._is_level = False  # all that has come is done
        self._event: Optional[ClientEvent] = None  # what the client told last, until it is met
        self._has_grown = False  # the host has put something in since it was looked whether what waits has room
        self._bound: Optional[int] = None  # the file that the last frame opened; its text comes next
        self._awaited: Dict[int, int] = {}  # files whose text or selection the host's answer sets, and to which request
        self._works_on: Optional[int] = None  # the file on which command lines work; None where nobody knows
        self._lines: Dict[Optional[int], int] = {}  # the same of command lines that are not answered, and to which request

    # ---- Going on

    def go_on(self, until: Optional[float] = None) -> bool:
        """Does what can be done by what has come and by what waits here, and tells of it. Returns whether all of that is done; where a time
        is given it stops then. Raises what the client raises; what is not done then is done by the next call."""
        self._is_level = False
        try:
            while not self._has_moved_all():
                if until is not None and self.clock() >= until:
                    return False
        finally:
            self._tell_changes()
        self._is_level = True
        if self.deeds == self._settled_at:
            return True
        self._note_settled()
        self._settled_at = self.deeds
        return not self._take_back() or self.go_on(until)

    def _has_moved_all(self) -> bool:
        """Goes on to the next event. Returns whether nothing moves any more, and nothing was asked for by what had come."""
        is_idle, deeds = self._move() == ClientEventKind.IDLE, self.deeds
        self._follow()
        return is_idle and deeds == self.deeds

    def act(self) -> None:
        """Has what was asked for act at once, if nothing is in its way. What is to follow waits for `go_on`."""
        while self._move() != ClientEventKind.IDLE:
            pass
        self._tell_changes()

    def _move(self) -> ClientEventKind:
        """Goes on to the next event, or to the last one where memory was out for it, and does what that says."""
        with self._known_texts():
            event = self._next_event()
            if event.did is not None:
                self._forget()
                if event.did.step == Step.RECEIVED or event.did.tag == COMMAND:  # what acts in another file is shown already
                    self._make_changes(event.did)
        self._event = None
        try:
            self._meet_event(event)
        except MemoryError:
            self._event = event
            raise
        return event.kind

    def _next_event(self) -> ClientEvent:
        if self._event is None:
            try:
                self._event = self.client.edits(int(self.clock() * 1000), self._edits, GAP)
            finally:
                self._make_edits()
        return self._event

    @contextmanager
    def _known_texts(self) -> Iterator[None]:
        """Changes of the client's texts and of the copies. Where Python has no memory between the two nobody knows what was made."""
        try:
            yield
        except MemoryError as error:
            if not isinstance(error, SamError):
                self.read_anew()
            raise

    def read_anew(self) -> None:
        """What was done was broken off: all texts are read anew, and what was done before can't be taken back."""
        for _ in self.client.splices():
            pass
        self._edits.clear()
        self._changes.clear()
        self._forget()
        self._opened.clear()
        if self.held == 0:  # also where nobody was told of the last request
            self._acted, self._may_write = self._asked, False
        for tag in [*self._copies]:
            length, (low, high) = self.client.len(tag) if self.is_open(tag) else 0, self.dot(tag)
            self._dots[tag] = min(low, length), min(high, length)
            if self.is_open(tag):
                del self._copies[tag]
            else:
                self._copies[tag] = TextCopy()
            self._forget_text(tag)

    def _forget_text(self, tag: int) -> None:
        """Nobody knows how a text has become what it is."""
        self.breaks += 1
        self.forget_changes(tag)
        self.touch(tag)

    def _forget(self) -> None:
        """Something was done."""
        self.deeds += 1
        self._now = None
        self._files.clear()
        self._unsaved.clear()

    def _meet_event(self, event: ClientEvent) -> None:
        did = event.did
        if did is not None:
            self._acted = max(self._acted, did.request)
            self._may_write = self._may_write and self.held > 0
        if event.kind == ClientEventKind.BUSY:
            self._forget()
        elif event.kind in (ClientEventKind.NOTE, ClientEventKind.ANSWERED):
            self._later.append(partial(self.hear, self.client.note))
        elif event.kind == ClientEventKind.STEPPED and did is not None:
            self._meet(did)
        elif did is not None and did.why is not None:
            self.refuse(did.why)

    def _meet(self, did: TerminalDid) -> None:
        if did.step != Step.RECEIVED:
            if did.tag == COMMAND and did.step == Step.ACTED:
                self._take_dot(COMMAND)
            return
        self.has_begun = True
        self._opened.clear()
        self._bound = did.tag if did.kind == Kind.HBINDNAME else None
        if self._bound is not None:  # its text comes next
            self._awaited[self._bound] = self._acted
        if did.kind in NAMING:
            self._names.pop(did.tag, None)
        elif did.kind == Kind.HCURRENT:
            self._current = ()
        if did.kind == Kind.HSETDOT or did.tag == COMMAND:
            self._take_dot(did.tag)
        if did.kind in self.told:
            self._tell_changes()
            self.told[did.kind](did.tag)
        if did.kind in self.settled:
            self._later.append(lambda: self.settled[did.kind](did.tag))

    def _take_dot(self, tag: int) -> None:
        """The host has set a selection. While edits wait over the file its place is not one of the shown text, and the user's stays."""
        if self.is_open(tag) and not self.client.is_waiting(tag):
            self._dots[tag] = self.file(tag).dot

    def _follow(self) -> None:
        """Does what was to wait until the last step was made."""
        while self._later:
            self._tell_changes()
            self._later.popleft()()

    def _take_back(self) -> bool:
        """Takes back what waits and has no room, since the host put more in meanwhile. Returns whether there was any."""
        if not self._has_grown:
            return False
        tag = self.client.next_waiting()
        self._has_grown = tag is not None
        while tag is not None and not self.client.file(tag).is_free:
            tag = self.client.next_waiting(tag + 1)
        dropped = None if tag is None else self.client.drop_next(tag)
        if dropped is None:
            return False
        self._forget()
        try:
            with self._known_texts():
                self._change_each(dropped.tag, [(dropped.place, dropped.length, "")])
            self._tell_changes()
        finally:
            self.give_back(dropped)  # the client has them no more
        return True

    def _note_settled(self) -> None:
        """Forgets what is answered: a request that has acted, where its lock is free again."""
        acted, files = self._acted, [*self._awaited.items()]
        self._awaited = {tag: request for tag, request in files if request > acted or self.file(tag).is_locked}
        if self._lines and not self.state().command_locked:
            self._lines = {tag: request for tag, request in self._lines.items() if request > acted}

    # ---- Changes of the shown texts

    def _make_edits(self) -> None:
        """Makes the edits and loads that came in the copies."""
        if self._edits:
            self._forget()
            self._bound, self.has_begun = None, True
            splices, self._edits = self._edits, []
            edits: List[Edit] = []
            last, low = 0, 0  # the file of these edits, and the first place of the last one
            for kind, tag, place, count, came in splices:
                gone = count if kind == WENT else 0
                if edits and (kind == FILLED or tag != last or place + gone > low):
                    self._change_each(last, edits)
                    edits, self._has_grown = [], True
                if kind == FILLED:
                    self._fill(tag, place, came)
                else:
                    edits.append((place, gone, came))
                    last, low = tag, place
            if edits:
                self._change_each(last, edits)
                self._has_grown = True
            if COMMAND in self._copies:
                self._take_dot(COMMAND)

    def _fill(self, tag: int, place: int, came: str) -> None:
        """Runes are loaded, which is no change."""
        if tag in self._copies:
            self._copies[tag].replace(place, place + len(came), came)
        self.touch(tag)

    def _make_changes(self, did: TerminalDid) -> None:
        """Makes the changes of the last step in the copies. Runes that come are the last of them, so they are read where they stand."""
        for kind, tag, place, length in [*self.client.splices()]:
            self._has_grown = True
            if kind == SpliceKind.EMPTIED:
                self._empty(tag)
            elif kind == SpliceKind.WENT:
                self._change_each(tag, [(place, length, "")])
            elif did.kind == Kind.HGROW and tag == self._bound:  # the file is opened
                self._fill(tag, place, self.client.runes(tag, place, length, GAP))
            else:
                self._change_each(tag, [(place, 0, self.client.runes(tag, place, length, GAP))])

    def _empty(self, tag: int) -> None:
        """A file was opened or closed."""
        self._tell_changes()
        self._copies[tag], self._dots[tag] = TextCopy(), (0, 0)
        self.touch(tag)

    def _change_each(self, tag: int, edits: Sequence[Edit]) -> None:
        """Makes changes that the client has made, each before the place of the one before it."""
        if self._changes and self._changes[0].tag != tag:
            self._tell_changes()
        gone = self._replaced(tag, edits)
        self._changes += [Change(tag, edit[0], text, edit[2]) for edit, text in zip(edits, gone) if text or edit[2]]

    def _replaced(self, tag: int, edits: Sequence[Edit]) -> List[str]:
        """The same. Returns what goes, GAP where that is not known, and tells of nothing. A text that is not copied has them already, as it
        is read once it is asked for."""
        copy, (low, high) = self._copies.get(tag), self._dots.get(tag, (0, 0))
        gone = [GAP * count for _, count, _ in edits] if copy is None else copy.replace_each(edits)
        if edits[-1][0] < high:
            for place, count, came in edits:
                low, high = moved(low, place, count, len(came)), moved(high, place, count, len(came))
            self._dots[tag] = low, high
        return gone

    def _copy(self, tag: int) -> TextCopy:
        copy = self._copies.get(tag)
        if copy is None:
            copy = TextCopy()
            copy.replace(0, 0, self.client.runes(tag, 0, self.client.len(tag), GAP))
            self._copies[tag] = copy
        return copy

    def _tell_changes(self) -> None:
        changes, self._changes = self._changes, []
        if changes:
            self.tell(Changes(changes))

    # ---- What the user does

    def edit(self, tag: int, start: int, end: int, came: str) -> Optional[str]:
        """Puts runes in the place of others, which it returns; None where that is refused."""
        try:
            return self._edit(tag, start, end, came)
        except EditRefused as why:
            if why.status == Status.REFUSAL_TOO_LONG and self._has_room(tag, end - start, len(came)):
                return self._edit_in_two(tag, start, end, came)
            self.refuse(Status(why.status))
            return None

    def _edit(self, tag: int, start: int, end: int, came: str) -> str:
        if self.is_open(tag):
            self._copy(tag)  # as it is before
        with self._known_texts():
            self.client.replace(tag, start, end, came)
            self._forget()
            return self._replaced(tag, [(start, end - start, came)])[0]

    def edit_each(self, tag: int, replacements: List[Replacement]) -> Iterator[int]:
        """The same of several, each at places of what those before have left. Yields how many more were made, and ends before one that is
        refused. Those of a free file act as they are made."""
        made, is_free = 0, self.file(tag).is_free and not self.is_asking  # so nothing else moves a place meanwhile
        while made < len(replacements):
            more = self._edit_each(tag, replacements[made : made + MOST_WAITING])
            if more == 0 and self.edit(tag, *replacements[made]) is None:
                return
            made += max(1, more)
            yield max(1, more)
            if is_free:
                self.act()

    def _edit_each(self, tag: int, replacements: List[Replacement]) -> int:
        """The same by one call. Returns how many were made, 0 where the first one is refused."""
        self._copy(tag)  # as it is before
        with self._known_texts():
            try:
                made = self.client.replace_each(tag, replacements)
            except EditRefused:
                return 0
            self._forget()
            for start, end, came in replacements[:made]:
                self._replaced(tag, [(start, end - start, came)])
        return made

    def has_room(self, tag: int, came: int) -> bool:
        """Whether so many runes have room over a locked file, where what waits to go counts, too."""
        return self.file(tag).len + self.client.waiting(tag) + came <= MOST_RUNES

    def _has_room(self, tag: int, gone: int, came: int) -> bool:
        """Whether a text has room for what comes once what goes is gone: to the client, what waits to go counts, too."""
        if self.file(tag).is_locked or gone == 0:
            return False
        self.act()  # what was asked for, as a view
        file = self.file(tag)
        return file.is_free and file.len - gone + came <= MOST_RUNES

    def _edit_in_two(self, tag: int, start: int, end: int, came: str) -> str:
        """Has the runes gone before others come. Nothing moves a place of a free file between the two."""
        gone = self._edit(tag, start, end, "")
        try:
            self.act()
            self._edit(tag, start, start, came)
        except (SamError, MemoryError):
            self._forget_text(tag)
            self.give_back(Dropped(tag, start, len(gone), gone))
            raise
        return gone

    def select(self, tag: int, start: int, end: int) -> None:
        """Sets the selection."""
        if tag == COMMAND:
            self._ask(EventKind.SELECT, tag, start, end)
            self.act()
        self.put_dot(tag, start, end)

    def put_dot(self, tag: int, start: int, end: int) -> None:
        """Sets it here alone."""
        self.deeds += 1
        self._dots[tag] = start, end

    def type_command(self, text: str) -> None:
        """Types at most MOST_TYPED runes in the command file, in the place of what is selected there. A newline runs a command line."""
        self._ask(EventKind.TYPE_CMD, text=text)
        if "\n" in text:
            self._lines[self._works_on] = self._asked

    def cut_command(self) -> None:
        self._ask(EventKind.CUT_CMD)
        self.act()

    def paste_command(self) -> None:
        self._ask(EventKind.PASTE_CMD)
        self.act()

    def _ask(self, kind: EventKind, tag: int = 0, start: int = 0, number: int = 0, version: int = 0, text: str = "") -> None:
        """Asks for what is no edit."""
        self._asked = self._taken(lambda: self.client.ask(kind, tag, start, number, version=version, text=text))

    def _taken(self, ask: Callable[[], int]) -> int:
        """Has the client take something in, and returns its number. It acts at once where it can, and all that has come is done; else as
        this goes on."""
        self._forget()
        try:
            number = ask()
        except Waiting:  # memory was out between two steps of an edit
            self.act()
            number = ask()
        except TooMany as why:
            raise MemoryError("too many requests wait") from why
        if self._is_level:
            with suppress(MemoryError):  # it is taken all the same
                self.act()
        return number

    def begin(self, kind: NoteKind, path: str = "", tag: int = 0) -> int:
        """Asks the host's program for something. Returns the number of the task, which the message has that answers it."""
        return self._taken(lambda: self.client.begin(kind, path=os.fsencode(path), tag=tag, now=int(self.clock() * 1000)))

    def write(self, tag: int) -> int:
        """Has a file be written. Returns the same."""
        task = self._taken(lambda: self.client.write(tag))
        self._may_write = self.held > 0
        return task

    def _ask_at_dot(self, kind: EventKind, tag: int) -> None:
        """Asks for what goes by the selection, of which the host hears first."""
        if tag != COMMAND:
            self._ask(EventKind.SELECT, tag, *self.dot(tag))
        self._ask(kind, tag)

    def _ask_for_dot(self, kind: EventKind, tag: int) -> None:
        """Asks for what sets the selection."""
        self._ask_at_dot(kind, tag)
        self._awaited[tag] = self._asked

    look = partialmethod(_ask_for_dot, EventKind.LOOK)
    search = partialmethod(_ask_for_dot, EventKind.SEARCH)
    snarf = partialmethod(_ask_at_dot, EventKind.SNARF)
    get_snarf = partialmethod(_ask, EventKind.GET_SNARF)
    open = partialmethod(_ask, EventKind.OPEN)
    open_cmd = partialmethod(_ask, EventKind.OPEN_CMD)
    new_file = partialmethod(_ask, EventKind.NEW_FILE)
    view = partialmethod(_ask, EventKind.VIEW)
    exit = partialmethod(_ask, EventKind.EXIT)

    def dclick(self, tag: int, place: int) -> None:
        self._ask(EventKind.DCLICK, tag, place)
        self._awaited[tag] = self._asked

    def send(self, tag: int) -> None:
        self._ask_for_dot(EventKind.SEND, tag)
        self._lines[self._works_on] = self._asked

    def work(self, tag: int) -> None:
        self._ask_at_dot(EventKind.WORK, tag)
        self._works_on = tag

    def close(self, tag: int) -> None:
        self._ask(EventKind.CLOSE, tag)
        self._awaited[tag] = self._asked

    def set_snarf(self, text: str) -> None:
        self._ask(EventKind.SET_SNARF, text=text)

    def offer_version(self, version: int) -> None:
        self._ask(EventKind.OFFER_VERSION, version=version)

    def load(self, tag: int, place: int, length: int) -> None:
        """Asks for what is not loaded of a stretch."""
        self._ask(EventKind.LOAD, tag, place, length)

    def load_all(self, tag: int, first: int) -> None:
        """Has the client load a file by itself, slice after slice, from a place on first."""
        self._forget()
        self.client.see(tag, first, first)

    def stop_loading(self, tag: int) -> None:
        """Has it load no more slices of a file."""
        self.client.forget(tag)

    def flush(self) -> None:
        """Has what was typed in the command file sent."""
        if self.state().unsent > 0 and not self.is_asking:
            self._ask(EventKind.FLUSH)

    # ---- How it stands

    def state(self) -> TerminalState:
        if self._now is None:
            self._now = self.client.state()
        return self._now

    def file(self, tag: int) -> FileState:
        return self._files[tag]

    @property
    def held(self) -> int:
        """How many requests wait, in the client or its terminal."""
        return self.client.requests + self.state().held

    @property
    def is_asking(self) -> bool:
        """Whether a request waits."""
        return self._asked > self._acted or self._may_write

    @property
    def unsent(self) -> int:
        """How many runes wait here."""
        count, tag = self.state().unsent, self.client.next_waiting()
        while tag is not None:
            count, tag = count + max(1, self.client.waiting(tag)), self.client.next_waiting(tag + 1)
        return count

    @property
    def command_locked(self) -> bool:
        """Whether an answer is due that may name files."""
        return self.state().command_locked or self.is_asking

    @property
    def exited(self) -> bool:
        return self.state().exited

    @property
    def snarf_len(self) -> int:
        return self.state().snarf_len

    def locked(self, tag: int) -> bool:
        """Whether an answer is due, to what was asked of a file or of all."""
        return self.file(tag).is_locked or self.is_asking

    @property
    def runs_line(self) -> bool:
        """Whether a command line is not answered."""
        return bool(self._lines)

    def is_settled(self, tag: int) -> bool:
        """Whether no answer that is due sets the selection of an open file, and none changes its text but that to a command line which
        works on another: what the user types can be put in at once."""
        if not self.is_open(tag) or tag in self._awaited or (tag == COMMAND and self.locked(tag)):
            return False
        return tag not in self._lines and None not in self._lines

    def is_known(self, tag: int) -> bool:
        return self.file(tag).is_known

    def is_open(self, tag: int) -> bool:
        return self._opened[tag]

    def is_changed(self, tag: int) -> bool:
        return self._unsaved[tag]

    def name(self, tag: int) -> str:
        return self._names[tag]

    @property
    def current(self) -> Optional[int]:
        """The file that the host named last as the one that command lines work on."""
        if not self._current:
            self._current = (self.client.current,)
        return self._current[0]

    @property
    def pattern(self) -> str:
        return self.client.pattern

    def snarfed(self) -> str:
        """The snarf buffer as the host sent it last."""
        return self.client.snarfed()

    # ---- The shown texts

    def dot(self, tag: int) -> Tuple[int, int]:
        """The selection."""
        return self._dots.get(tag, (0, 0))

    def len(self, tag: int) -> int:
        return self._copy(tag).length

    def runes(self, tag: int, place: int, count: int) -> str:
        """The runes from a place on, at most so many, GAP for one that is not loaded."""
        return self._copy(tag).read(place, count)

    def gaps(self, tag: int, place: int, count: int) -> int:
        """How many of them are not loaded."""
        return self.runes(tag, place, count).count(GAP)

    def first_gap(self, tag: int, place: int = 0) -> Optional[int]:
        return self._copy(tag).first_gap(place) if self.is_open(tag) else None

    def end_of_gap(self, tag: int, place: int, most: int) -> int:
        """The first place from there on whose rune is loaded, `most` at the most."""
        return self._copy(tag).end_of_gap(place, most)

    def newlines(self, tag: int, start: int, end: int) -> int:
        """How many lines end from one place to another."""
        return self._copy(tag).count("\n", start, end)
