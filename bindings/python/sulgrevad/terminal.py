"""The terminal: windows, and texts that are perhaps loaded in part."""
from ctypes import byref, c_size_t, c_uint16, c_uint32, c_uint64
from itertools import chain
from typing import Iterator, List, Optional, Tuple

from sulgrevad._library import LIBRARY, Did, File, State, Text, bytes_of, reader_of
from sulgrevad.edits import Edit, Edits, read_runes, received
from sulgrevad.results import Change, FileState, NextFrame, Refusal, TerminalDid, TerminalState
from sulgrevad.sides import MOST_IN_NAME, NONE, OK, STEPS, Held, Side, Texts, index
from sulgrevad.status import Status, error_of

MOST_IN_PATTERN = 512  # bytes of the longest pattern
FEW = 64  # runes for which there is room before it is known how many there are
GAP = 2**32 - 1  # a rune that is not loaded

_FEW_RUNES = c_uint32 * FEW
_STATE, _FILE = reader_of(State), reader_of(File)


class Refusals(Held):
    """The refused events of a terminal or an overlay."""

    def next_refusal(self) -> Optional[Refusal]:
        """Returns the oldest refused event that was not handed out yet; None if there is none."""
        event, why = c_uint64(), c_uint32()
        return Refusal(event.value, Status(why.value)) if self._has("next_refusal", byref(event), byref(why)) else None

    def refusals(self) -> Iterator[Refusal]:
        """Yields the refused events that were not handed out yet, oldest first."""
        while (refusal := self.next_refusal()) is not None:
            yield refusal


class Screen(Texts):
    """The readers that a terminal, an overlay and a client share."""

    def state(self) -> TerminalState:
        """Returns the state of the terminal by one call: for a screen, which draws it at each key."""
        state = State()
        self._call("state", byref(state))
        return TerminalState._make(_STATE.unpack_from(state))

    def file(self, tag: int) -> FileState:
        """Returns the state of a file by one call. A tag without a file is no error."""
        file = File()
        self._call("file", tag, byref(file))
        length, *places, is_known, is_open, is_dirty, is_changed, is_locked, is_free = _FILE.unpack_from(file)
        start, end, view_start, view_end = places
        dot, view = (start, end), (view_start, view_end)
        return FileState(is_known, is_open, is_dirty, is_changed, is_locked, is_free, length, dot, view)

    def name(self, tag: int) -> str:
        """Returns the name of a known file. Raises Missing if the terminal knows no file of this tag."""
        return self._short_text("name", MOST_IN_NAME, tag)

    @property
    def current(self) -> Optional[int]:
        """Returns the tag of the file that the host's answer to `work` or `new_file` named last; None before the first. The file may be
        closed since."""
        return self._number_if_any("current", c_uint16)

    def text(self, tag: int, place: int = 0, runes: Optional[int] = None) -> str:
        """Returns the text of an open file from the place `place` on, up to the first rune that is not loaded: at most `runes` runes, or
        all. Raises Missing if the file is not open."""
        return self._long_text("text", place, runes, tag)

    def len(self, tag: int) -> int:
        """Returns the length of the text of an open file in runes, gaps counted; of an overlay or a client that of the shown text. Raises
        Missing if the file is not open."""
        return self._number("len", c_uint32, tag)

    def runes(self, tag: int, place: int, count: int, gap: str = "\N{REPLACEMENT CHARACTER}") -> str:
        """Returns the same runes as `read`, as a text in which `gap` stands for one that is not loaded. Raises as `read` does."""
        tag, place, count = index(c_uint16, tag), index(c_uint32, place), index(c_size_t, count)
        read = getattr(LIBRARY, f"{self._prefix}_read")
        return read_runes(read, self._handle, tag, place, min(count, max(0, self.len(tag) - place)), gap)

    @property
    def pattern(self) -> str:
        """Returns the pattern that the host reported last."""
        return self._short_text("pattern", MOST_IN_PATTERN)

    def snarfed(self, place: int = 0, runes: Optional[int] = None) -> str:
        """Returns the snarfed text that the host sent last (`get_snarf`), from the place `place` on: at most `runes` runes, or all. It may
        be only the front of the host's buffer, because at most 4,096 bytes come, or 32,000 in version 2."""
        return self._long_text("snarfed", place, runes)


class Terminal(Side, Screen, Refusals):
    """The side with the windows. It begins without any file.

    An event of the user acts at once if it can. Else it is held until the locks that it waits for are free and the events before it have
    acted. The call of an event raises, in this order, and the event is then not taken: NotText, and then NoMemory, if it brings a text; the
    fault by which the terminal has stopped before (StreamFault, TerminalRefused); NoMemory, or a fault, as the terminal goes on with
    earlier input; CountFull; NoMemory. Two come after the event was taken: Unfinished, and the fault by which the terminal stops.

    An event that was taken may be refused, at once or later: it does nothing, and `refusals` reports its number and the reason. `events`
    has the number of the event that was made last. The reasons of all events come first, in this order (Status.REFUSAL_..): EXITED if the
    session is over; and of an event that names a file NO_FILE if the terminal doesn't know it, and NOT_OPEN if it is not open.
    """

    _prefix = "sam_term"

    # ---- Events of the user

    def type(self, tag: int, text: Text) -> None:
        """Types a text in the place of the selection, which is then empty and after the text. Refused, in this order (Status.REFUSAL_..):
        EXITED; NO_FILE; NOT_OPEN; TEXT_TOO_LONG for more than 512 runes; TOO_LONG if the file would have more than 1,000,000. Raises
        NotText, too."""
        text = bytes_of(text)
        self._call("type", tag, text, len(text))

    def type_text(self, tag: int, text: Text) -> None:
        """Types a text of any length, in events of 512 runes each, but for the last. The first event that isn't answered well is the last:
        what was taken before it stays, and `taken` of the exception is how many bytes of the text, in UTF-8, that is. After Unfinished the
        event's own bytes count, too. Each event may be refused as one of `type`. Raises NotText, too."""
        text, taken = bytes_of(text), c_size_t()
        code = self._answer("type_text", tag, text, len(text), byref(taken))
        if code != OK:
            error = error_of(code)
            error.taken = taken.value
            raise error

    def edit(self, tag: int, start: int, end: int, text: Text) -> None:
        """Replaces the runes from the place `start` to the place `end` by a text of any length, all or nothing. An empty text takes the
        runes out. The places are those of the file's text when the event acts. The dot moves as other places do. Refused, in this order
        (Status.REFUSAL_..): EXITED; NO_FILE; COMMAND_FILE for tag 0; NOT_OPEN; BAD_POSITION for a range that the file's text doesn't have;
        TOO_LONG if the file would have more than 1,000,000 runes. Raises NotText, too."""
        text = bytes_of(text)
        self._call("edit", tag, start, end, text, len(text))

    def select(self, tag: int, start: int, end: int) -> None:
        """Selects the runes from the place `start` to the place `end`: they are the dot. Refused, after the reasons of all events:
        BAD_POSITION for a range that the file's text doesn't have."""
        self._call("select", tag, start, end)

    def cut(self, tag: int) -> None:
        """Cuts the selection into the snarf buffer. Nothing changes if the selection is empty."""
        self._call("cut", tag)

    def paste(self, tag: int) -> None:
        """Pastes the snarf buffer in the place of the selection, and selects it. If the buffer is empty, or the file would have more than
        1,000,000 runes, the selection goes and nothing comes, and nothing is refused."""
        self._call("paste", tag)

    def snarf(self, tag: int) -> None:
        """Copies the selection into the snarf buffer. Nothing changes if the selection is empty."""
        self._call("snarf", tag)

    def look(self, tag: int) -> None:
        """Selects the next occurrence of the selected text, which becomes the pattern. Nothing changes if the selection is empty or has
        more than 128 runes."""
        self._call("look", tag)

    def search(self, tag: int) -> None:
        """Selects the next occurrence of the pattern. Nothing changes if there is no pattern or no occurrence."""
        self._call("search", tag)

    def send(self, tag: int) -> None:
        """Prints the selected text in the command file, and runs its last line as a command line. Nothing changes if the selection is
        empty, or if the command file would have more than 1,000,000 runes."""
        self._call("send", tag)

    def dclick(self, tag: int, place: int) -> None:
        """Selects the word round a place. Refused, after the reasons of all events: BAD_POSITION if the place is after the end."""
        self._call("dclick", tag, place)

    def scroll(self, tag: int, lines: int) -> None:
        """Scrolls the view of the file up by `lines` lines."""
        self._call("scroll", tag, lines)

    def view(self, tag: int, place: int, length: int) -> None:
        """Shows at most `length` runes of the file from the place `place` on, and asks for those that are not loaded: for at most 512 at a
        time, and then for the next. Refused, after the reasons of all events: BAD_POSITION if the place is after the end."""
        self._call("view", tag, place, length)

    def load(self, tag: int, place: int, length: int) -> None:
        """Shows the same runes as `view`, and asks at once for all that are not loaded, in at most 1,954 stretches of 512 runes. So a page
        comes in one round trip. Refused as `view` is."""
        self._call("load", tag, place, length)

    def open(self, tag: int) -> None:
        """Opens a file. Command lines work on it then. All other events of a file need it open. Refused, in this order: EXITED; NO_FILE;
        COMMAND_FILE for tag 0."""
        self._call("open", tag)

    def open_cmd(self) -> None:
        """Opens the command file."""
        self._call("open_cmd")

    def new_file(self) -> None:
        """Makes an empty file, and opens it. Command lines work on it then. If all tags are given it makes none."""
        self._call("new_file")

    def write(self, tag: int) -> None:
        """Asks the host to write a file: the host keeps a copy of its text, and the file is then clean. Refused as `close` is."""
        self._call("write", tag)

    def close(self, tag: int) -> None:
        """Closes a file for good: the host drops its text, written or not. Refused, in this order: EXITED; NO_FILE; COMMAND_FILE for tag 0;
        NOT_OPEN."""
        self._call("close", tag)

    def work(self, tag: int) -> None:
        """Makes a file, with its dot, the one that command lines work on. Refused as `close` is."""
        self._call("work", tag)

    def check(self, tag: int) -> None:
        """Asks for the first gap that the view shows. The host answers, and no text changes."""
        self._call("check", tag)

    def get_snarf(self) -> None:
        """Asks for the host's snarf buffer: `snarfed` returns it once the answer has come."""
        self._call("get_snarf")

    def set_snarf(self, text: Text) -> None:
        """Gives the host another snarf buffer: at most 4,096 bytes, or 32,000 in version 2. Refused: EXITED; then TEXT_TOO_LONG for a
        longer text. Raises NotText, too."""
        text = bytes_of(text)
        self._call("set_snarf", text, len(text))

    def offer_version(self, version: int) -> None:
        """Offers a version of the protocol, and asks for the names of all files. Before it the terminal knows none of them, and refuses
        each event on one. Events after it wait for the answer. Offer the version again to learn of files that joined the host since.
        Version 2 allows longer snarfed texts. Refused: EXITED; then BAD_VERSION for version 0."""
        self._call("offer_version", version)

    def flush(self) -> None:
        """Sends the typed runes, once the events before this one have acted."""
        self._call("flush")

    def exit(self) -> None:
        """Ends the session."""
        self._call("exit")

    # ---- The program's own

    def flush_now(self) -> None:
        """Composes the typed runes that are not sent yet. Call it when the user pauses, before the program sleeps. Raises, in this order:
        the fault by which the terminal has stopped before; NoMemory, or a fault, as it goes on with earlier input; TerminalRefused with the
        code TERM_COUNT_FULL after 2**64-1 messages, and then NoMemory: the runes are as they were. Two come after the runes were composed:
        Unfinished, and the fault by which the terminal stops."""
        self._call("flush_now")

    def next_frame(self) -> Optional[NextFrame]:
        """Returns the oldest frame that waits, as the step that receives it will say it; None if no frame waits. So a program can read the
        runes that will go."""
        did = Did()
        code = LIBRARY.sam_term_next_frame(byref(self._handle), byref(did))  # a program asks it for each of thousands of frames
        if code == OK:
            return NextFrame(did.kind, did.tag, did.start, did.gone, did.loads)
        if code == NONE:
            return None
        raise error_of(code)

    def edits(self, gap: str = "\N{REPLACEMENT CHARACTER}") -> Iterator[Edit]:
        """Receives the next frames, as long as each edits a text and all of them that of one file, and yields of each edit the text that
        went and the text that came. `gap` stands for a rune that is not loaded. Many frames may be received before the first edit is
        yielded: take all, and make no event between two. Raises as `step` does, once the edits before are yielded."""
        return chain.from_iterable(self.edits_at_once(gap))

    def edits_at_once(self, gap: str = "\N{REPLACEMENT CHARACTER}") -> Iterator[Edits]:
        """Receives the same frames as `edits`, and yields the edits of each call of the library together. That takes less time if there are
        thousands."""
        return received(self._handle, gap)

    def step(self) -> TerminalDid:
        """Makes one step with the frames and events that wait, and returns its result. If messages that were composed last are left over,
        the step makes them pending. Else the terminal receives the oldest frame. If no frame waits, the oldest event acts or is refused.
        `feed` makes steps until one is IDLE or LOCKED. Raises, in this order: the fault by which the terminal has stopped before;
        Unfinished if memory is short, and nothing has changed; the fault by which the terminal stops at this step."""
        did = Did()
        code = LIBRARY.sam_term_step(byref(self._handle), byref(did))
        if code != OK:
            raise error_of(code)
        why = Status(did.why) if did.why else None
        return TerminalDid(STEPS[did.step], did.kind, did.tag, Change(did.start, did.gone, did.came), did.event, why, did.loads)

    # ---- Readers

    @property
    def events(self) -> int:
        """Returns the number of event calls that were taken. Right after one it is the number of its event, by which a refusal names it."""
        return self._number("events", c_uint64)

    @property
    def decided(self) -> int:
        """Returns the number of events that have acted or were refused. Events are done in order, so the event that was made last is held
        if this is below `events`."""
        return self._number("decided", c_uint64)

    @property
    def tags(self) -> int:
        """Returns the number of tags that the terminal has room for: each file that it knows has a tag below this."""
        return self._number("tags", c_size_t)

    def is_known(self, tag: int) -> bool:
        """Returns whether the terminal knows a file of this tag."""
        return self._truth("is_known", tag)

    def files(self) -> List[int]:
        """Returns the tags of all known files, ascending."""
        return [tag for tag in range(self.tags) if self.is_known(tag)]

    def is_dirty(self, tag: int) -> bool:
        """Returns whether a known file is dirty, as the host said last. Raises Missing if the terminal knows no file of this tag."""
        return self._truth("is_dirty", tag)

    def is_changed(self, tag: int) -> bool:
        """Returns whether a file may differ from the text that was written last: the host said that it is dirty, or the user changed it
        here since. A held event has changed nothing yet. It is False for a file that is not known."""
        return self._truth("is_changed", tag)

    def is_open(self, tag: int) -> bool:
        """Returns whether a file is open."""
        return self._truth("is_open", tag)

    def read(self, tag: int, place: int, count: int) -> List[Optional[str]]:
        """Returns the runes of an open file from the place `place` on, at most `count`; None stands for one that is not loaded. Raises
        Missing if the file is not open, and ValueError if a number is below 0."""
        tag, place, count = index(c_uint16, tag), index(c_uint32, place), index(c_size_t, count)
        if count <= FEW:  # as a program reads each of thousands of edits
            into, got = _FEW_RUNES(), c_uint32()
            code = LIBRARY.sam_term_read(byref(self._handle), tag, place, into, count, byref(got))
            if code != OK:
                raise error_of(code)
        else:
            room = min(count, max(0, self.len(tag) - place))
            into, got = (c_uint32 * room)(), c_uint32()
            self._call("read", tag, place, into, room, byref(got))
        return [None if rune == GAP else chr(rune) for rune in into[: got.value]]

    def bytes(self, tag: int, start: int, end: int) -> Tuple[int, int]:
        """Counts the bytes that the loaded runes of an open file take in UTF-8 from the place `start` to the place `end`, and the runes
        there that are not loaded. Raises Missing if the file is not open."""
        count, gaps = c_size_t(), c_uint32()
        self._call("bytes", tag, start, end, byref(count), byref(gaps))
        return count.value, gaps.value

    def place(self, tag: int, start: int, count: int) -> int:
        """Returns the place after the loaded runes of an open file that `count` bytes of UTF-8 hold whole, from the place `start` on. It is
        at the latest the first gap, or the end of the text. Raises Missing if the file is not open."""
        return self._number("place", c_uint32, tag, start, count)

    def units(self, tag: int, start: int, end: int) -> Tuple[int, int]:
        """Counts the code units that the loaded runes of an open file take in UTF-16 from the place `start` to the place `end`, and the
        runes there that are not loaded. Raises Missing if the file is not open."""
        count, gaps = c_uint32(), c_uint32()
        self._call("units", tag, start, end, byref(count), byref(gaps))
        return count.value, gaps.value

    def unit_place(self, tag: int, start: int, units: int) -> int:
        """Returns the place after the loaded runes of an open file that `units` code units of UTF-16 hold whole, from the place `start` on.
        It is at the latest the first gap, or the end of the text. Raises Missing if the file is not open."""
        return self._number("unit_place", c_uint32, tag, start, units)

    def line(self, tag: int, start: int, lines: int) -> Optional[int]:
        """Returns the place after the next `lines` line ends of an open file, from the place `start` on; None if a gap or the end comes
        before, or if the file is not open."""
        return self._number_if_any("line", c_uint32, tag, start, lines)

    def line_before(self, tag: int, start: int, lines: int) -> Optional[int]:
        """Returns the place where a line of an open file begins: the line that is `lines` lines before the line of the place `start`, or
        that line itself for 0. Returns None if a gap comes first, if there are fewer lines, if the place is after the end, or if the file
        is not open."""
        return self._number_if_any("line_before", c_uint32, tag, start, lines)

    def lines(self, tag: int, start: int, end: int) -> Tuple[int, int]:
        """Counts the line ends among the loaded runes of an open file from the place `start` to the place `end`, and the runes there that
        are not loaded. Raises Missing if the file is not open."""
        count, gaps = c_uint32(), c_uint32()
        self._call("lines", tag, start, end, byref(count), byref(gaps))
        return count.value, gaps.value

    def changed(self, tag: int) -> Change:
        """Returns the change of an open file's text since the last call for this file: the smallest stretch that holds all that each frame
        and each event touched, loading included. On the first call its text was empty before. Raises, in this order: Missing if the file is
        not open; NoMemory, on the first call for a file alone."""
        start, gone, came = c_uint32(), c_uint32(), c_uint32()
        self._call("changed", tag, byref(start), byref(gone), byref(came))
        return Change(start.value, gone.value, came.value)

    def first_gap(self, tag: int, place: int = 0) -> Optional[int]:
        """Returns the first place of an open file, at or after `place`, whose rune is not loaded; None if there is none, or if the file is
        not open."""
        return self._number_if_any("first_gap", c_uint32, tag, place)

    def dot(self, tag: int) -> Tuple[int, int]:
        """Returns the dot of an open file: the places where its selection begins and ends. Raises Missing if the file is not open."""
        return self._range("dot", tag)

    def view_of(self, tag: int) -> Tuple[int, int]:
        """Returns the view of an open file: the places where it begins and ends. Raises Missing if the file is not open."""
        return self._range("view_of", tag)

    def locked(self, tag: int) -> bool:
        """Returns whether an edit of the file would wait for the command lock, or for a lock of the file."""
        return self._truth("locked", tag)

    @property
    def command_locked(self) -> bool:
        """Returns whether the command lock is held."""
        return self._truth("command_locked")

    @property
    def held(self) -> int:
        """Returns the number of held events."""
        return self._number("held", c_uint64)

    @property
    def unsent(self) -> int:
        """Returns the number of typed runes that are not sent yet."""
        return self._number("unsent", c_uint32)

    @property
    def sent(self) -> int:
        """Returns the number of messages that were composed."""
        return self._number("sent", c_uint64)

    @property
    def under_way(self) -> int:
        """Returns the number of messages in flight: those that were composed and that the host has not taken, as far as its frames say. 0
        means that it has taken them all.

        Any other number is an upper bound, because the host sends no frame for some messages: for typing (but for the end of a command
        line), for the cutting of a selection, and for the acknowledgement that the terminal sends after each `offer_version`. They count
        until the host answers a later message. `check` asks for an answer that changes no text.
        """
        return self._number("under_way", c_uint64)

    @property
    def snarf_len(self) -> int:
        """Returns the length of the host's snarf buffer in runes, as the host said last."""
        return self._number("snarf_len", c_uint32)

    @property
    def exited(self) -> bool:
        """Returns whether the host has ended the session."""
        return self._truth("exited")

    @property
    def version(self) -> int:
        """Returns the version of the protocol that both sides speak: 1 or 2."""
        return self._number("version", c_uint16)
