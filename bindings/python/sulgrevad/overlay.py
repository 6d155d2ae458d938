"""A terminal whose user never waits: the edits that wait are shown over its texts."""
import enum
from ctypes import byref, c_size_t, c_uint16, c_uint32, c_uint64, create_string_buffer, string_at
from typing import Iterator, List, NamedTuple, Optional

from sulgrevad._library import CEvent, CSplice, Did, Text, bytes_of
from sulgrevad.results import Change, TerminalDid
from sulgrevad.sides import STEPS, Streams, index
from sulgrevad.status import Status, Step
from sulgrevad.terminal import GAP, Refusals, Screen


class SpliceKind(enum.IntEnum):
    """What a splice does (enum sam_splice_kind of sulgrevad.h)."""

    CAME = 1
    WENT = 2
    FILLED = 3
    EMPTIED = 4


class EventKind(enum.IntEnum):
    """The events that an overlay or a client takes: those that leave each text but that of the command file (enum sam_event_kind of
    sulgrevad.h). Each does what the method of a terminal does that has its name; those of _CMD do it at the command file."""

    SELECT = 1
    DCLICK = 2
    LOOK = 3
    SEARCH = 4
    FLUSH = 5
    SNARF = 6
    GET_SNARF = 7
    SET_SNARF = 8
    VIEW = 9
    LOAD = 10
    SCROLL = 11
    CHECK = 12
    OPEN = 13
    NEW_FILE = 14
    WRITE = 15
    CLOSE = 16
    OPEN_CMD = 17
    WORK = 18
    SEND = 19
    OFFER_VERSION = 20
    EXIT = 21
    TYPE_CMD = 22
    CUT_CMD = 23
    PASTE_CMD = 24


class Put(enum.IntEnum):
    """What became of an edit that waits (enum sam_put of sulgrevad.h)."""

    NOTHING = 0
    NOT_FREE = 1
    EDIT = 2


class Turn(enum.IntEnum):
    """What became of the oldest request (enum sam_turn of sulgrevad.h)."""

    NOTHING = 0
    NOT_YET = 1
    REQUEST = 2


class Splice(NamedTuple):
    """A change of the shown text of the file `tag`. CAME: `length` runes or gaps came in at the place; WENT: so many from the place on
    went; FILLED: the runes from the place on are loaded now, and nothing moved; EMPTIED: the text is empty, because the file was opened or
    closed. Of several by one step each is made in the text that the ones before it left."""

    kind: SpliceKind
    tag: int
    place: int
    length: int


class Dropped(NamedTuple):
    """Runes that an overlay or a client gives back, because the host left no room for them: `length` of them went of the shown text of
    the file `tag` at the place, which is 0 if a later edit had taken them out, and `text` is all of them."""

    tag: int
    place: int
    length: int
    text: str


def event_of(kind: EventKind, tag: int, start: int, number: int, version: int) -> CEvent:
    """Returns the event as the library takes it. Raises ValueError for a number that C's type can't hold."""
    return CEvent(*(index(c_uint32, word) for word in (kind, start, number)), *(index(c_uint16, half) for half in (tag, version)))


def did_of(did: Did) -> TerminalDid:
    """Returns what a step did."""
    why = Status(did.why) if did.why else None
    change = Change(did.start, did.gone, did.came)
    return TerminalDid(STEPS[did.step], did.kind, did.tag, change, did.event, why, did.loads, did.request, did.task)


SPLICE_KINDS = (SpliceKind.CAME, *SpliceKind)  # by their numbers, which begin with 1
PUTS, TURNS = tuple(Put), tuple(Turn)  # by their numbers


class Shown(Screen):
    """The shown texts of an overlay or a client, how they change, and what is asked for beside edits."""

    def ask(
        self, kind: EventKind, tag: int = 0, start: int = 0, number: int = 0, *, version: int = 0, text: Text = ""
    ) -> int:
        """Asks for what is no edit. It stands in one order with the edits: it acts as a client goes on, or by `act_next` of an overlay,
        once all edits before it are put, and finds the text that is shown now, with the host's changes since. A place that it names moves
        with that text: what the host puts in at the place itself stands behind it, and a range of which all goes is empty there; a place
        past the end of the text stays. The arguments are those of `bring_event` of an overlay. Returns the number of the request, by which
        `next_event` of a client or `step` of an overlay tells once that it acted or was refused; a write that would find the same text as
        one that waits is that one, and has its number. Raises, in this order, and all is then as it was: NotText; NoMemory; Missing if no
        event has this kind; CountFull after 2**64-1 requests; Waiting while an edit was put that has not acted: go on first; TooMany if
        1,000 requests wait; CountFull; NoMemory."""
        event, request = event_of(kind, tag, start, number, version), c_uint64()
        data = bytes_of(text)
        self._call("ask", byref(event), data, len(data), byref(request))
        return request.value

    @property
    def requests(self) -> int:
        """Returns the number of requests that wait, those not among them that the terminal has."""
        return self._number("requests", c_size_t)

    def next_splice(self) -> Optional[Splice]:
        """Returns the next change of the shown text by the last step; None if none is left."""
        splice = CSplice()
        if not self._has("next_splice", byref(splice)):
            return None
        return Splice(SPLICE_KINDS[splice.kind], splice.tag, splice.place, splice.count)

    def splices(self) -> Iterator[Splice]:
        """Yields the changes of the shown text by the last step that were not handed out yet."""
        while (splice := self.next_splice()) is not None:
            yield splice

    def drop_next(self, tag: int) -> Optional[Dropped]:
        """Takes back the next insertion that waits over a file, if an edit could act at once and the file has no room for this one: that is
        where `put_next` of an overlay raises EditRefused (TOO_LONG). Returns it; None if nothing is to be taken back. Raises, in this
        order, and all is then as it was: Waiting if splices are left; NoMemory."""
        room = 4 * self.waiting(tag)
        into, splice, got = create_string_buffer(room), CSplice(), c_size_t()
        if not self._has("drop_next", tag, byref(splice), into, room, byref(got)):
            return None
        return Dropped(splice.tag, splice.place, splice.count, string_at(into, got.value).decode())

    def waiting(self, tag: int) -> int:
        """Returns the number of runes that wait over a file, those that a later edit takes out among them. It is 0 if the file is not open,
        or if only what takes runes out waits."""
        return self._number("waiting", c_uint32, tag)

    def next_waiting(self, first: int = 0) -> Optional[int]:
        """Returns the first file from the tag `first` on over which an edit waits, also one that only takes runes out; None if there is
        none."""
        return self._number_if_any("next_waiting", c_uint16, first)

    def is_waiting(self, tag: int) -> bool:
        """Returns whether an edit waits over a file, also one that only takes runes out."""
        return self.next_waiting(tag) == tag

    def first_gap(self, tag: int, place: int = 0) -> Optional[int]:
        """Returns the first place of the shown text of a file, at or after `place`, whose rune is not loaded; None if the file is not open,
        or if all are loaded from there on."""
        return self._number_if_any("first_gap", c_uint32, tag, place)

    def read(self, tag: int, place: int, count: int) -> List[Optional[str]]:
        """Returns the shown runes of an open file from the place `place` on, at most `count`; None stands for one that is not loaded.
        Raises Missing if the file is not open, and ValueError if a number is below 0."""
        place, count = index(c_uint32, place), index(c_size_t, count)
        room = min(count, max(0, self.len(tag) - place))
        into, got = (c_uint32 * room)(), c_uint32()
        self._call("read", tag, place, into, room, byref(got))
        return [None if rune == GAP else chr(rune) for rune in into[: got.value]]


class Overlay(Streams, Shown, Refusals):
    """A terminal for an editor that has a text of its own and takes each key at once. What the user does is shown at once, also while the
    file is locked. Until the file is free it waits over the terminal's text, and the host's changes go through it.

        overlay.replace(tag, 5, 5, "!")             the user typed: it is shown from now on
        overlay.ask(EventKind.WRITE, tag)           the user asked for something else
        overlay.bring(data)                         bytes of the host
        for splice in overlay.go_on(tag):           it goes on as far as it can: requests act, and what waits over this file is put
            ..                                      each change goes into the editor's own text
        sock.sendall(overlay.take_out())            bytes for the host

    Places count runes and gaps of the shown text. An editor that takes each splice before it tells of an edit has the shown text as its
    own, and its places are always right. A replacement makes no splice.
    """

    _prefix = "sam_overlay"

    # ---- What the user does

    def replace(self, tag: int, start: int, end: int, text: Text) -> None:
        """Replaces the shown runes from the place `start` to the place `end` by a text of any length, all or nothing. The new runes stand
        behind what is shown before `start`. They are shown at once, and wait for `put_next`; no lock refuses them, and no request that was
        asked for before finds them. Raises, in this order, and the overlay is then as it was: NotText; NoMemory; Waiting if splices are
        left; EditRefused (EXITED) if a request waits that ends the session, (NOT_OPEN) if one waits that closes the file, (EXITED) if the
        session is over; the fault by which the terminal has stopped; EditRefused (NO_FILE, COMMAND_FILE for tag 0, NOT_OPEN, BAD_POSITION
        for a range that the shown text doesn't have, TOO_LONG if these runes, the terminal's text and all that waits over it are more than
        1,000,000); NoMemory, also while an edit of the file was put that has not acted."""
        text = bytes_of(text)
        self._call("replace", tag, start, end, text, len(text))

    def put_next(self, tag: int) -> Put:
        """Puts the next edit of those that wait over a file as an event, if it can act at once and stands behind no request of the file or
        of the command lock, and returns what became of it. Call it, and make a step, as long as it returns EDIT. Raises, in this order, and
        the overlay is then as it was: the fault by which the terminal has stopped; EditRefused (TOO_LONG) if the file would have more than
        1,000,000 runes, because the host put more in meanwhile; CountFull; NoMemory."""
        return PUTS[self._number("put_next", c_uint32, tag)]

    def act_next(self) -> Turn:
        """Has the oldest request act, if all edits before it are put and it can act at once, and returns what became of it. Call it before
        `put_next`, and make a step, as long as it returns REQUEST. Raises as `put_next` does, in its order, but no EditRefused."""
        return TURNS[self._number("act_next", c_uint32)]

    def bring_event(
        self, kind: EventKind, tag: int = 0, start: int = 0, number: int = 0, *, version: int = 0, text: Text = ""
    ) -> None:
        """Takes an event beside the requests that wait, which stay; `step` has it act. `start` and `number` are the range of SELECT; for
        DCLICK, VIEW and LOAD the place and how many runes; for SCROLL `number` is how many lines. `version` is that of OFFER_VERSION,
        `text` that of SET_SNARF and TYPE_CMD. An event acts on the terminal's text, so put all that waits over its file first. Raises, in
        this order, and the overlay is then as it was: NotText; NoMemory; Missing if no event has this kind; the fault by which the terminal
        has stopped; Waiting until a step was IDLE or LOCKED, and while an edit was put that has not acted; CountFull; NoMemory."""
        event = event_of(kind, tag, start, number, version)
        data = bytes_of(text)
        self._call("bring_event", byref(event), data, len(data))

    # ---- Steps, and changes of what is shown

    def step(self) -> TerminalDid:
        """Makes one step with the frames and events that wait, as that of a terminal, and returns its result, whose change is that of the
        terminal's text. `splices` then has the changes of the shown text. Raises, in this order: Waiting if splices of an earlier step are
        left; the fault by which the terminal has stopped; Unfinished if memory is short, and nothing has changed; the fault by which the
        terminal stops at this step."""
        did = Did()
        self._call("step", byref(did))
        return did_of(did)

    def go_on(self, *tags: int) -> Iterator[Splice]:
        """Makes all steps that can be made without the host, has requests act, puts what waits over these files as they are free, and
        yields each change of the shown text. Take all: it goes no further than they are taken. Raises as `step`, `act_next` and `put_next`
        do."""
        moves = True
        while moves:
            yield from self.splices()
            while self.step().step not in (Step.IDLE, Step.LOCKED):
                yield from self.splices()
            moves = self.act_next() == Turn.REQUEST or any(self.put_next(tag) == Put.EDIT for tag in tags)
