"""What a link, a line, a client and a durable server share: bytes and notes that are moved in and out."""
import ctypes
from collections import deque
from ctypes import byref, c_size_t
from typing import Any, Deque, Optional, Tuple, Union

from sulgrevad.sides import Held, least

ID_BYTES = 16
MOST_NOTE = 4096
MOST_BODY = 4096  # bytes that one packet has for the program
MOST_PIECE = 2**20  # bytes that are taken out together

# How much of a buffer a call has filled that was not made yet.
NOT_YET = 2 ** (8 * ctypes.sizeof(c_size_t)) - 1

Bytes = Union[bytes, bytearray, memoryview]


def id_of(id: Bytes) -> bytes:
    """Returns the id of a session as bytes. Raises ValueError for one of another length."""
    name = bytes(memoryview(id))
    if len(name) != ID_BYTES:
        raise ValueError(f"an id has {ID_BYTES} bytes, not {len(name)}")
    return name


class Mover(Held):
    """What hands out bytes once. Nothing is lost where an exception breaks in."""

    def _moved(self, left: Deque[Tuple[Any, int, c_size_t]], room: int, name: str, *arguments: Any) -> Optional[bytes]:
        """Returns the next bytes that a call moves out, at most `room`; None if the call answers SAM_NONE. If an exception breaks in, the
        next call has them."""
        moved = left.popleft() if left else (ctypes.create_string_buffer(room), 0, c_size_t(NOT_YET))
        into, start, count = moved
        try:
            if count.value == NOT_YET and not self._has(name, *arguments, into, len(into), byref(count)):
                return None
            end = min(start + room, count.value)
            taken: bytes = into[start:end]
            rest = (into, end, count) if end < count.value else None
        except BaseException:
            if count.value != NOT_YET:
                left.appendleft(moved)  # which wants no memory
            raise
        if rest:
            left.appendleft(rest)
        return taken


class Outward(Mover):
    """What hands out bytes for its connections."""

    def __init__(self, *arguments: Any) -> None:
        if not hasattr(self, "_out"):
            # The bytes that were moved out of the library when an exception broke in before they were returned: a buffer, how much of it
            # was returned, and how much it has.
            self._out: Deque[Tuple[Any, int, c_size_t]] = deque()
        super().__init__(*arguments)

    def free(self) -> None:
        """Frees it, with all the bytes that it keeps. Any later call but this one and `close` raises HandleFault."""
        self._out.clear()
        super().free()

    def close(self) -> None:
        """Frees it, as `free` does."""
        self.free()

    def acknowledge(self) -> None:
        """Acknowledges all bytes that have come. The end does so by itself when it is asked, and after each 16,384 bytes. Raises, in this
        order: CountFull; NoMemory."""
        self._call("acknowledge")

    def take_out(self, attempt: int, most: int = 65_536) -> bytes:
        """Returns the next bytes for a connection, at most `most`; b"" if there are none: first the hello, and then the stream from the
        place where this connection goes on. Before the welcome, a terminal's end hands out bytes of the stream on the first connection
        alone. Raises LinkFault (LINK_NOT_OPEN) if the connection is over or isn't the newest, ValueError if `most` is below 0."""
        room = least(most, MOST_PIECE)
        if self._out:
            self._call("take_out", attempt, ctypes.create_string_buffer(1), 0, byref(c_size_t()))  # is it still the newest?
        return self._moved(self._out, room, "take_out", attempt) or b""


class Carrier(Outward):
    """What moves bytes and notes between a program and its connections. Nothing is lost where an exception breaks in."""

    def __init__(self, *arguments: Any) -> None:
        if not hasattr(self, "_in"):
            self._in: Deque[Tuple[Any, int, c_size_t]] = deque()
            self._notes: Deque[Tuple[Any, int, c_size_t]] = deque()
        super().__init__(*arguments)

    def free(self) -> None:
        """Frees it, with all the bytes that it keeps. Any later call but this one and `close` raises HandleFault."""
        self._in.clear()
        self._notes.clear()
        super().free()

    def take_in(self, most: int = 65_536) -> bytes:
        """Returns the next bytes of the other side's program, at most `most` and of one packet. Call it until it returns b"": then a note
        is next, or nothing. Raises ValueError if `most` is below 0."""
        return self._moved(self._in, least(most, MOST_BODY), "take_in") or b""

    def next_note(self) -> Optional[bytes]:
        """Returns the note that is next; None if bytes before it are not taken in yet, or if none has come."""
        return None if self._in else self._moved(self._notes, MOST_NOTE, "next_note")
