"""The user's side of a session: an overlay, and its line to the host."""
import ctypes
import enum
import sys
from ctypes import byref, c_size_t, c_uint32
from typing import Iterator, List, NamedTuple, Optional, Sequence, Tuple, Union

from sulgrevad._library import CChanges, CReplacement, CSplice, Did, Text, bytes_of
from sulgrevad.carrier import MOST_NOTE, Bytes, id_of
from sulgrevad.edits import EDITING, text_of
from sulgrevad.line import Clocked
from sulgrevad.note import path_of
from sulgrevad.overlay import Shown, Splice, SpliceKind, did_of
from sulgrevad.results import TerminalDid
from sulgrevad.sides import Stopping, index
from sulgrevad.status import EditRefused, Kind, NoMemory

MOST_EDITS = 2_048  # steps that one call of `edits` makes
MOST_RUNES = 65_536  # that they bring

# A change of a shown text: a number of SpliceKind, the file, the place, how many runes or gaps, and those that came or were loaded.
ShownEdit = Tuple[int, int, int, int, str]
Replacement = Tuple[int, int, str]  # the places where the runes that go begin and end, and the text that comes

_WORDS = ctypes.sizeof(CSplice) // ctypes.sizeof(c_uint32)  # of a sam_splice
_WENT = int(SpliceKind.WENT)
_FOLLOWED = (Kind.HDATA, *EDITING)  # frames that edit a text or load it


class ClientEventKind(enum.IntEnum):
    """What a client tells as it goes on (enum sam_client_event of sulgrevad.h)."""

    IDLE = 0
    BUSY = 1
    STEPPED = 2
    REFUSED = 3
    NOTE = 4
    ANSWERED = 5
    UNANSWERED = 6
    RAN = 7
    LAPSED = 8


class ClientEvent(NamedTuple):
    """What a client told. IDLE: nothing moves until the host or the user does something, or the time comes; BUSY: 1,000 things moved that
    are not told, and more may; STEPPED: `did` says which frame was received or which event acted, and the splices are to be taken;
    REFUSED: an event was refused, whose number and reason `did` has; NOTE: a note came, which `note` of the client has; ANSWERED: a note
    came, which `note` has, and it answers the task `did.task`; UNANSWERED: the session is over, and no answer comes to that task; RAN: the
    command line `did.request` has run, and `did.change` says where in the command file stands what it printed; LAPSED: the session is over,
    and the request `did.request` never acts, or its command line has no answer."""

    kind: ClientEventKind
    did: Optional[TerminalDid] = None


KINDS = tuple(ClientEventKind)  # by their numbers
_WITHOUT_DID = (ClientEventKind.IDLE, ClientEventKind.BUSY, ClientEventKind.NOTE)


def _event_of(kind: ClientEventKind, did: Did) -> ClientEvent:
    """Returns what was told."""
    return ClientEvent(kind, None if kind in _WITHOUT_DID else did_of(did))


class _EditReader:
    """Room for what `step_edits` hands out: a command line may edit thousands of places, and a text comes in thousands of frames."""

    def __init__(self) -> None:
        self._splices, self._runes = (CSplice * MOST_EDITS)(), (c_uint32 * MOST_RUNES)()
        self.changes = CChanges(self._splices, MOST_EDITS, 0, self._runes, MOST_RUNES, 0)

    def take(self, into: List[ShownEdit], gap: str) -> None:
        """Puts what was handed out behind the edits in a list."""
        got = self.changes.got
        if got == 0:
            return
        words = memoryview(ctypes.string_at(self._splices, got * ctypes.sizeof(CSplice))).cast("I")
        text, at = text_of(self._runes, self.changes.used, gap), 0
        for kind, place, count, tag in zip(words[0::_WORDS], words[1::_WORDS], words[2::_WORDS], words[3::_WORDS]):
            start, at = at, at + (0 if kind == _WENT else count)
            into.append((kind, tag & 0xFFFF if sys.byteorder == "little" else tag >> 16, place, count, text[start:at]))


class Client(Clocked, Shown, Stopping):
    """The user's side of a session in one handle, for a front end whose user never waits, over connections that may break: an overlay, and
    its line to the host. It moves all between the two by itself. It opens no connection and has no clock: calls take the time, in
    milliseconds of any clock that doesn't jump, as of `time.monotonic`.

        while (tick := client.tick(now)) != Tick.NOTHING:   CONNECT: open a connection; DROP: close it
            ..
        attempt = client.connected(now)                     it is open; or client.not_connected(now)
        client.receive(attempt, data, now)                  all bytes that came on it; or client.broken(attempt, now)
        client.replace(tag, 5, 5, "!")                      the user typed: it is shown from now on
        client.begin(NoteKind.OPEN, b"/tmp/a", now=now)     the host's program is asked for a file
        client.write(tag)                                   a file is to be written as it is shown now
        client.ask(EventKind.LOOK, tag)                     the user asked for something else
        client.see(tag, 0, 2000)                            a window shows this: it is loaded first, and then the rest
        for told in client.go_on(now):                      after any of these: a Splice goes into the editor's own text,
            ..                                              a ClientEvent tells of steps, refusals, notes and answers
        sock.sendall(client.take_out(attempt))              bytes for the connection
        wait(client.due_in(now))                            for so long nothing is to be done

    Places count runes and gaps of the shown text. An editor that takes each splice before it tells of an edit has the shown text as its
    own. A replacement makes no splice. A connection that breaks takes nothing of what the user did.
    """

    _prefix = "sam_client"
    _reader: Optional["_EditReader"] = None

    def __init__(self, id: Bytes, take_over: bool, now: int) -> None:
        """Makes a client that knows no file, and whose first connection is due at once. The id is the session's name: 16 bytes that the
        terminal chose at random. It is no secret. With `take_over`, the session is to begin with the texts of another, as long as no host
        has welcomed this client. Then ask for OFFER_VERSION. Raises ValueError for an id of another length, NoMemory."""
        super().__init__(id_of(id), bool(take_over), now)

    # ---- What is told

    def next_event(self, now: int) -> ClientEvent:
        """Goes on until there is something to tell, and returns it. Call it after each call that brought something, until its kind is IDLE,
        and take all splices before each call. Raises, in this order: Waiting if splices are left, and all is as it was. Else some of what
        waited may be done, and nothing is lost: the fault by which the terminal has stopped, at this call or before; CountFull; Unfinished
        if memory is short: call it again later."""
        number, did = c_uint32(), Did()
        self._call("next_event", now, byref(number), byref(did))
        return _event_of(KINDS[number.value], did)

    def edits(self, now: int, into: List[ShownEdit], gap: str = "\N{REPLACEMENT CHARACTER}") -> ClientEvent:
        """Goes on as `next_event`, but over each step that is an edit of the host's, loads runes, or is an edit of the user's that acted,
        at most 2,048: puts their splices behind those that are in the list, each with the runes that it brought, `gap` for one that is
        not loaded. Returns what is told else; its splices are to be taken. It is IDLE only if no step was made. That takes less time if
        there are thousands. Raises as `next_event` does; the splices before are in the list then."""
        reader = self._reader = self._reader or _EditReader()
        number, did = c_uint32(), Did()
        try:
            self._call("step_edits", now, byref(reader.changes), byref(number), byref(did))
        finally:
            reader.take(into, gap)
            reader.changes.got = 0
        kind = KINDS[number.value]
        if kind == ClientEventKind.STEPPED and did.kind in _FOLLOWED:  # there was no room for more
            for what, tag, place, count in self.splices():
                into.append((what, tag, place, count, "" if what == SpliceKind.WENT else self.runes(tag, place, count, gap)))
            kind = ClientEventKind.BUSY
        return _event_of(kind, did)

    def go_on(self, now: int) -> Iterator[Union[ClientEvent, Splice]]:
        """Goes on until nothing moves, and yields what is told, but for IDLE and BUSY, and behind each step the changes of the shown text.
        Take all: it goes no further than they are taken. Raises as `next_event` does."""
        yield from self.splices()
        while (told := self.next_event(now)).kind != ClientEventKind.IDLE:
            if told.kind != ClientEventKind.BUSY:
                yield told
            yield from self.splices()

    @property
    def note(self) -> bytes:
        """Returns the note that was told last; b"" before the first."""
        into, count = ctypes.create_string_buffer(MOST_NOTE), c_size_t()
        self._call("note", into, len(into), byref(count))
        return into.raw[: count.value]

    def put_note(self, data: Bytes, now: int) -> None:
        """Puts a note for the host's program. It comes out behind the edits and events that have acted, and before those that wait.
        Raises, in this order, and the note is not put then: LinkFault (LINK_TOO_LONG) for more than 4,096 bytes; CountFull; NoMemory."""
        data = bytes(memoryview(data))
        self._call("put_note", data, len(data), now)

    # ---- What the user does

    def replace(self, tag: int, start: int, end: int, text: Text) -> None:
        """Replaces the shown runes from the place `start` to the place `end` by a text of any length, all or nothing. The new runes stand
        behind what is shown before `start`. They are shown at once, whatever is locked, and go to the host as the client goes on; no
        request that was asked for before finds them. Raises as `replace` of an overlay does, in its order."""
        text = bytes_of(text)
        self._call("replace", tag, start, end, text, len(text))

    def replace_each(self, tag: int, replacements: Sequence[Replacement]) -> int:
        """Makes replacements one after another, each as `replace` does, by one call: the places of each are those of the text that the ones
        before it have left. Returns how many were made: all, or those before one that is refused, for which `replace` says why. Raises, and
        none is made then: ValueError for a number below 0; NotText; NoMemory; Waiting; what refuses the first one."""
        text = "".join([came for _, _, came in replacements]).encode("utf-8", "surrogatepass")
        rows = (CReplacement * len(replacements))()
        for row, (start, end, came) in zip(rows, replacements):
            row.start, row.end, row.count = index(c_uint32, start), index(c_uint32, end), len(came)
        made = c_size_t()
        try:
            self._call("replace_each", tag, rows, len(rows), text, len(text), byref(made))
        except (EditRefused, NoMemory):
            if made.value == 0:
                raise
        return made.value

    # ---- What the host's program is to do

    def begin(self, kind: int, path: Text = b"", tag: int = 0, *, now: int) -> int:
        """Has the host's program do something, and returns the number of the task, counted from 1: NoteKind.OPEN, to join the file or the
        folder at a path; COMPLETE, to tell the names that complete a path; or RELOAD, to read the file of a tag anew from its disk. The
        message goes behind all that acted, as a note does. `next_event` tells once that the answer came (ANSWERED), or that none
        comes (UNANSWERED). A path is its bytes, or a `str` as `os.listdir` returns it. Raises, in this order, and no task is begun then:
        NotText for a surrogate that stands for no byte; NoteFault (NOTE_BAD_KIND) for another kind; TooMany if 1,000 tasks are open;
        CountFull; NoMemory; NoteFault (NOTE_BAD_FIELD) if the kind has no tag and the tag is not 0, or no path and the path is not empty,
        (NOTE_BAD_LENGTH) if the message would have more than 4,096 bytes, (NOTE_BAD_PATH) for a zero byte; CountFull; NoMemory."""
        path = path_of(path)
        return self._number("begin", c_uint32, kind, tag, path, len(path), now)

    def write(self, tag: int) -> int:
        """Asks for a file to be written as it is shown now, as `ask` does by WRITE, and returns the number of the task. Its answer is
        NoteKind.SAVED or NOT_SAVED; if the write is refused, no answer comes, and `did.task` is its number at REFUSED. A write that would
        find the same text as one that waits is that task. Raises, in this order, and no task is begun then: TooMany if 1,000 tasks are
        open; CountFull; NoMemory; then as `ask` does."""
        return self._number("write", c_uint32, tag)

    def run(self, tag: int, line: Text) -> int:
        """Has the host run a command line on an open file, from the file's dot on, as it is shown now: behind all that was asked for
        before. Returns the number of the request that types its newline. `next_event` tells once that the line has run (RAN), and then all
        is loaded that is told of what it printed: at most 65,536 runes, from `did.change.start` of the command file on, which has tag 0. Or
        it tells by that number that the line was refused, or lapsed. The command file is opened for it, and emptied at 100,000 runes.
        Raises, in this order, and the client is then as it was: NotText if the line is not UTF-8; NoMemory; NotText if it has a newline;
        EditRefused (REFUSAL_NOT_OPEN) if the file is not open, a close of it waits, it is the command file, or the user has left,
        (REFUSAL_TEXT_TOO_LONG) if the line has more than 400,000 runes; TooMany if 1,000 lines are open, or 1,000 requests would wait: it
        has one for each 512 runes, and three more. Or as `ask` does, in its order: the line doesn't run then, though some of its runes may
        come to stand in the command file."""
        line = bytes_of(line)
        return self._number("run", ctypes.c_uint64, tag, line, len(line))

    def see(self, tag: int, start: int, end: int) -> None:
        """Notes what a window shows of a file, from the place `start` to the place `end`, in the place of what it showed before. While
        nothing else waits, the client loads that by itself, then what is behind it and the rest of the file, in slices, but these only once
        nobody has pressed a key for a second (`rest`). Of several files, the one that was told last is first. Any tag and any place may be
        told, also before the file is open. Raises NoMemory, and all is as it was."""
        self._call("see", tag, start, end)

    def forget(self, tag: int) -> None:
        """Leaves out a file that no window shows: the client loads no more of it by itself."""
        self._call("forget", tag)

    def rest(self, now: int) -> None:
        """Counts a key of the user that edits nothing, as one that moves the caret: for a second only what windows show is loaded, so what
        the key asks for waits for no slice. A replacement counts by itself."""
        self._call("rest", now)

    # ---- The session

    @property
    def has_all(self) -> bool:
        """Returns whether the host has all that the user did, and all notes: nothing waits here, and the host's end of the link has
        acknowledged all."""
        return self._truth("has_all")

    def is_unsaved(self, tag: int) -> bool:
        """Returns whether the shown text of a file may differ from the text that was written last. It is False for a tag without a file,
        and for tag 0."""
        return self._truth("is_unsaved", tag)
