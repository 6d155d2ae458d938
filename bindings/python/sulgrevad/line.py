"""The terminal's end of a link, with the clock of its connections."""
import ctypes
import enum
from ctypes import byref, c_size_t, c_uint32, c_uint64
from typing import NamedTuple, Optional

from sulgrevad._library import Details, reader_of
from sulgrevad.carrier import Bytes, Carrier, Outward, id_of

MOST_WORDS = 65_536  # bytes before the host's hello

_DETAILS = reader_of(Details)


class Tick(enum.IntEnum):
    """What a program is to do for its line or its client (enum sam_tick of sulgrevad.h)."""

    NOTHING = 0
    CONNECT = 1
    DROP = 2
    ASK = 3


TICKS = tuple(Tick)  # by their numbers


class LineDetails(NamedTuple):
    """The state, the counts and the times of a line. `state` is one of Line.DOWN to Line.LOST. `why` is the Status of the host's reason if
    the line is lost, else Status.OK. Times are in milliseconds: `silence` is that for which nothing has come, though something was due,
    `round_trip` that of the last question, and after `overdue_after` of silence the user is to know that an answer is overdue. Counts are
    in bytes, but for `failures`, the connections that failed one after another, up to 6, and `attempt`, the number of the newest one.
    `is_known` says whether a host has welcomed the line, `is_broken` whether there is no connection, though there was one, or one has
    failed, `has_all` whether the host has acknowledged all that was put."""

    silence: int
    round_trip: int
    overdue_after: int
    failures: int
    attempt: int
    put_count: int
    acknowledged: int
    received: int
    state: int
    why: int
    is_known: bool
    is_broken: bool
    has_all: bool


class Clocked(Outward):
    """The connections of a line or a client: when they are made, what comes on them, and how they stand."""

    DOWN, CONNECTING, OPEN, LATE, LOST = range(5)

    def tick(self, now: int) -> Tick:
        """Returns what the program is to do at this time. What it returns counts as begun: another call at the same time returns something
        else, so call it until it returns NOTHING. DROP means that the connection, or the attempt to make one, is over for the line."""
        return TICKS[self._number("tick", c_uint32, now)]

    def due_in(self, now: int) -> Optional[int]:
        """Returns the number of milliseconds until `tick` has something to say, if no other call comes before; None if it never has."""
        return self._number_if_any("due_in", c_uint64, now)

    def connected(self, now: int) -> int:
        """Takes a connection that the program has opened: the connection before is over. Returns its number, counted from 1, which names it
        in the calls below. Raises CountFull after 2**64-1 connections."""
        attempt = self._number("connected", c_uint64, now)
        self._out.clear()
        return attempt

    def not_connected(self, now: int) -> None:
        """Gives up the connection for which CONNECT asked, because it can't be made: another is tried after a pause. At any other time it
        changes nothing."""
        self._call("not_connected", now)

    def broken(self, attempt: int, now: int) -> None:
        """Ends a connection, because it broke or because the program gives it up: another is tried after a pause. Nothing changes if it
        isn't the newest, or is over already."""
        self._call("broken", attempt, now)

    def address_changed(self, now: int) -> None:
        """Doubts an open connection, because an address of the machine came or went: it is late, so call `ask`, and if no byte comes it is
        given up after 2 seconds. A connection that is to be made is tried after 1 second at most."""
        self._call("address_changed", now)

    def expect(self, expects: bool, now: int) -> None:
        """Notes whether the program waits for an answer of the host's program, as to a request: that holds over all connections, until
        another call says otherwise. While the program waits an answer is due, though the host has acknowledged all that was put: if no byte
        comes for 15 seconds, the connection is late, so call `ask`, and if none comes for 15 more, it is given up."""
        self._call("expect", bool(expects), now)

    def receive(self, attempt: int, data: Bytes, now: int) -> None:
        """Takes bytes that came on a connection, from its first one on, in pieces of any length, all or none. Raises, in this order:
        LinkFault (LINK_NOT_OPEN) if the connection is over or isn't the newest; LINK_TOO_MANY_ANSWERS; before the host's welcome
        LINK_TOO_MANY_WORDS, LINK_WRONG_HELLO, and the host's reason, if it refuses; then CountFull, LINK_BAD_KIND, LINK_BAD_LENGTH and
        LINK_ACK_AHEAD. After each of these but the first the connection is over. Raises NoMemory at any place: the connection stays, and
        the same bytes are to be given again."""
        data = bytes(memoryview(data))
        self._call("receive", attempt, data, len(data), now)

    def describe(self, now: int) -> LineDetails:
        """Returns the state, the counts and the times of the line."""
        details = Details()
        self._call("describe", now, byref(details))
        return LineDetails(*_DETAILS.unpack_from(details))

    @property
    def words(self) -> bytes:
        """Returns the words that came on the newest connection before the host's hello, perhaps of a login. They are bytes, and need be no
        text."""
        into, count = ctypes.create_string_buffer(MOST_WORDS), c_size_t()
        self._call("words", into, len(into), byref(count))
        return into.raw[: count.value]


class Line(Carrier, Clocked):
    """The terminal's end of a link, which also decides when a connection is to be made, when the host is to be asked, and when the
    connection is to be given up. It opens no connection and has no clock: each call takes the time, in milliseconds of any clock that
    doesn't jump, as of `time.monotonic`. A time below the greatest that was handed in counts as the greatest.

        while (tick := line.tick(now)) != Tick.NOTHING:     CONNECT: open a connection; DROP: close it; ASK: line.ask(now)
            ..
        attempt = line.connected(now)                       it is open; or line.not_connected(now)
        sock.sendall(line.take_out(attempt))                the hello first; again after each put, question and piece
        line.receive(attempt, data, now)                    all bytes that came, words of a login too
        while data := line.take_in(): ..                    the program's bytes among them; then next_note
        wait(line.due_in(now))                              for so long nothing is to be done

    A put, a note and a piece are taken whole or not at all.
    """

    _prefix = "sam_line"

    def __init__(self, id: Bytes, take_over: bool, now: int) -> None:
        """Makes a line, whose first connection is due at once. The id is the session's name: 16 bytes that the terminal chose at random. It
        is no secret. With `take_over`, the session is to begin with the texts of another, as long as no host has welcomed this line. Raises
        ValueError for an id of another length, NoMemory."""
        super().__init__(id_of(id), bool(take_over), now)

    # ---- Bytes and notes to send

    def put(self, data: Bytes, now: int) -> None:
        """Puts bytes for the host's program, all or none, with or without a connection. Raises, in this order: CountFull if the stream
        would have more than 2**64-1 bytes; NoMemory."""
        data = bytes(memoryview(data))
        self._call("put", data, len(data), now)

    def put_note(self, data: Bytes, now: int) -> None:
        """Puts a note behind all bytes that were put: it comes out after these bytes and before later ones. Raises, in this order:
        LinkFault (LINK_TOO_LONG) for more than 4,096 bytes; CountFull; NoMemory."""
        data = bytes(memoryview(data))
        self._call("put_note", data, len(data), now)

    def ask(self, now: int) -> None:
        """Asks the host whether all has come, if something that was put is not acknowledged, or the line is late; but not while such a
        question is under way. So it may be called after each put and each piece. Raises, in this order: CountFull; NoMemory."""
        self._call("ask", now)
