"""One end of a link, and hellos."""
import ctypes
import enum
from ctypes import byref, c_size_t, c_uint32, c_uint64
from typing import List, NamedTuple, Optional

from sulgrevad._library import LIBRARY, Place
from sulgrevad.carrier import ID_BYTES, MOST_PIECE, NOT_YET, Bytes, Carrier, id_of
from sulgrevad.sides import OK, Counts, index, least
from sulgrevad.status import Status, error_of

HELLO_BYTES = 42
MOST_PLACES = 1024  # places that are handed out together


class What(enum.IntEnum):
    """The kinds of a hello: a terminal says one of the first three, a host one of the others."""

    BEGIN = 1
    RESUME = 2
    TAKE_OVER = 3
    WELCOME = 4
    NOT_A_LINK = 17
    OTHER_VERSION = 18
    BAD_HELLO = 19
    NO_SESSION = 20
    OTHER_SESSION = 21
    OLD_ATTEMPT = 22
    WRONG_COUNT = 23


class Hello(NamedTuple):
    """A hello: its kind, the id of its session, and the number of its connection."""

    what: What
    id: bytes
    attempt: int


def read_hello(data: Bytes) -> Optional[Hello]:
    """Reads the hello with which the bytes begin, and returns it; None if nothing is wrong so far, but there are fewer than 42. Raises
    LinkFault, in this order: LINK_NOT_A_LINK as soon as the bytes differ from the mark; LINK_OTHER_VERSION with the ninth byte;
    LINK_BAD_HELLO with the tenth."""
    data = bytes(memoryview(data))
    what, name, attempt = c_uint32(), ctypes.create_string_buffer(ID_BYTES), c_uint64()
    code = LIBRARY.sam_link_read_hello(data, len(data), byref(what), name, byref(attempt))
    if code == Status.NONE:
        return None
    if code != OK:
        raise error_of(code)
    return Hello(What(what.value), name.raw, attempt.value)


def write_refusal(status: int, data: Bytes) -> bytes:
    """Returns the hello by which a host refuses a connection, for one of Status.LINK_NOT_A_LINK to LINK_WRONG_COUNT. It names the session
    and the connection of the hello with which the bytes begin; if `read_hello` reads none, it names all zeros. Raises ValueError for a
    number that a status can't be, Missing for any other status."""
    data = bytes(memoryview(data))
    into = ctypes.create_string_buffer(HELLO_BYTES)
    code = LIBRARY.sam_link_write_refusal(index(c_uint32, status), data, len(data), into)
    if code != OK:
        raise error_of(code)
    return into.raw


class Link(Counts, Carrier):
    """One end of a link, which carries bytes and notes over connections that may break at any byte: each comes out at the other side once
    and in order. It opens no connection and knows no clock. The terminal's side opens a connection and calls, the host's answers.

        attempt = link.call()                   a connection was opened; it has this number
        sock.sendall(link.take_out(attempt))    the hello first
        link.welcomed(sock_read_42_bytes)       and then the rest
        link.feed(attempt, data)                feed_into, if the next bytes are to come out at once
        while data := link.take_in(): ..        the program's bytes among them; then next_note

    A put, a note, a piece and a hello are taken whole or not at all: after an exception nothing has changed, but that after LINK_BAD_KIND,
    LINK_BAD_LENGTH and LINK_ACK_AHEAD of `feed` and `feed_into` the connection is over.
    """

    TERMINAL, HOST = 0, 1
    DOWN, ASKING, OPEN = 0, 1, 2

    _prefix = "sam_link"

    def __init__(self, role: int, id: Bytes) -> None:
        """Makes the end of one side, TERMINAL or HOST, before its first connection. The id is the session's name: 16 bytes that the
        terminal chose at random. It is no secret. Raises ValueError for an id of another length, LinkFault for another role, NoMemory."""
        super().__init__(role, id_of(id))

    # ---- Connections

    def call(self, take_over: bool = False) -> int:
        """Begins a connection that the program has opened, at the terminal's end: the connection before is over. Returns its number,
        counted from 1, which names it in the calls below. With `take_over`, the session is to begin with the texts of another, as long as
        no host has welcomed this end. Raises, in this order: LinkFault (LINK_WRONG_ROLE); CountFull."""
        attempt = self._number("call", c_uint64, bool(take_over))
        self._out.clear()
        return attempt

    def welcomed(self, hello: Bytes) -> None:
        """Takes the host's hello at the terminal's end: the first 42 bytes that came on the newest connection. Raises the faults of
        `read_hello`, and Missing for fewer bytes; then LinkFault, in this order: LINK_WRONG_ROLE; LINK_NOT_OPEN if no call waits for a
        welcome; the host's reason, if the host refuses; LINK_BAD_HELLO; LINK_OTHER_SESSION; LINK_OLD_ATTEMPT; LINK_WRONG_COUNT."""
        hello = bytes(memoryview(hello))
        self._call("welcomed", hello, len(hello))

    def answer(self, hello: Bytes) -> None:
        """Takes a connection at the host's end by its first 42 bytes, the terminal's hello: the connection before is over. Its number is
        the one that `read_hello` returns. Raises the faults of `read_hello`, and Missing for fewer bytes; then LinkFault, in this order:
        LINK_WRONG_ROLE; LINK_BAD_HELLO; LINK_NO_SESSION; LINK_OTHER_SESSION; LINK_OLD_ATTEMPT; LINK_WRONG_COUNT. The older connection goes
        on then."""
        hello = bytes(memoryview(hello))
        self._call("answer", hello, len(hello))
        self._out.clear()

    def broken(self, attempt: int) -> None:
        """Ends a connection at this end, because it broke or because the program gives it up. Nothing changes if it isn't the newest."""
        self._call("broken", attempt)

    # ---- Bytes and notes to send

    def put(self, data: Bytes) -> None:
        """Puts bytes for the other side's program, all or none, with or without a connection. Raises, in this order: CountFull if the
        stream would have more than 2**64-1 bytes; NoMemory."""
        data = bytes(memoryview(data))
        self._call("put", data, len(data))

    def put_note(self, data: Bytes) -> None:
        """Puts a note behind all bytes that were put: it comes out after these bytes and before later ones. Raises, in this order:
        LinkFault (LINK_TOO_LONG) for more than 4,096 bytes; CountFull; NoMemory."""
        data = bytes(memoryview(data))
        self._call("put_note", data, len(data))

    def ask(self) -> None:
        """Asks the other side to acknowledge now: if no byte comes, the line is broken. Raises, in this order: CountFull; NoMemory."""
        self._call("ask")

    # ---- Bytes out and in

    def feed(self, attempt: int, data: Bytes) -> None:
        """Takes bytes that came on a connection after the hello, in pieces of any length, all or none. Raises, in this order: LinkFault
        (LINK_NOT_OPEN) if the connection is over, isn't the newest, or has no hello yet; CountFull; NoMemory, and the piece may be fed
        again. Three other faults end the connection: LINK_BAD_KIND or LINK_BAD_LENGTH if the piece has a wrong packet; else LINK_ACK_AHEAD
        if it acknowledges bytes that this connection wasn't given."""
        data = bytes(memoryview(data))
        self._call("feed", attempt, data, len(data))

    def feed_into(self, attempt: int, data: Bytes, most: int = 65_536) -> bytes:
        """Takes bytes that came as `feed` does, and returns the next bytes of the other side's program, at most `most` and none behind a
        note: `take_in` has those after them. Raises as `feed` does, and ValueError if `most` is below 0."""
        room = least(most, MOST_PIECE)
        data = bytes(memoryview(data))
        if self._in and self._in[-1][2].value == NOT_YET:
            self._in.pop()  # of a call that an exception broke off
        into, count = ctypes.create_string_buffer(room), c_size_t(NOT_YET)
        self._in.append((into, 0, count))
        try:
            self._call("feed_into", attempt, data, len(data), into, room, byref(count))
        except BaseException:
            if count.value == NOT_YET:
                self._in.pop()
            raise
        try:
            if count.value == 0:
                self._in.pop()
            return (self._moved(self._in, room, "take_in") if self._in else None) or b""
        except MemoryError:
            return b""  # the piece was taken: if this were raised, it would be fed again

    def feed_places(self, attempt: int, data: Bytes, most: int = 32) -> List[Place]:
        """Takes bytes that came as `feed` does, and returns the places in `data` of the next bytes of the other side's program: of each its
        `start` and `len`. There are such places only if nothing is left of earlier pieces, no note and no part of a packet: then they are
        those of whole packets, at most `most` and none behind a note. `take_in` has all other bytes. Raises as `feed` does, and ValueError
        if `most` is below 0."""
        data = bytes(memoryview(data))
        places, count = (Place * least(most, MOST_PLACES))(), c_size_t(0)
        found = list(places)  # before the piece is taken: if MemoryError were raised behind it, it would be fed again
        if self._in:
            places = (Place * 0)()  # the bytes that an exception kept back come first
        try:
            self._call("feed_places", attempt, data, len(data), places, len(places), byref(count))
            while found and not found[-1].len:
                found.pop()
        except BaseException:
            self._in.extend((data, place.start, c_size_t(place.start + place.len)) for place in found[: count.value])
            raise
        return found

    # ---- Readers

    @property
    def phase(self) -> int:
        """Returns the state of the newest connection: DOWN if there is none, or it is over; ASKING if the terminal has called; OPEN if both
        sides have said hello."""
        return self._number("phase", c_uint32)

    @property
    def unsent(self) -> int:
        """Returns the number of bytes of this side's stream that the newest connection has not been given."""
        return self._number("unsent", c_size_t)
