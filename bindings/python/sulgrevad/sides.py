"""What the two sides share: their handles and calls, texts, and pending bytes."""
import ctypes
import operator
from collections import deque
from ctypes import byref, c_bool, c_size_t, c_uint8, c_uint16, c_uint32, c_uint64
from types import TracebackType
from typing import Any, Deque, Dict, List, NoReturn, Optional, SupportsIndex, Tuple, Type, TypeVar, Union

from sulgrevad._library import LIBRARY, PIECE, Handle
from sulgrevad.status import Status, Step, error_of

MOST_IN_NAME = 256  # bytes of the longest name
LEAST_PIECE = 256  # bytes that are read of a text, if so few runes are wished for

# SAM_OK as a plain number: once a call is done nothing may want memory, and up to Python 3.11 to look up a Status does.
OK, NONE = int(Status.OK), int(Status.NONE)
STEPS = tuple(Step)  # by their numbers

# The first number that is too great for a type of an argument.
END = {c_uint8: 2**8, c_uint16: 2**16, c_uint32: 2**32, c_uint64: 2**64, c_size_t: 2 ** (8 * ctypes.sizeof(c_size_t))}

_AnyHeld = TypeVar("_AnyHeld", bound="Held")


def index(kind: Any, number: SupportsIndex) -> int:
    """Returns the number as an int, because ctypes takes no other. Raises ValueError for one that C's type can't hold."""
    whole = operator.index(number)
    if not 0 <= whole < END[kind]:
        raise ValueError(f"{number} is not from 0 to {END[kind] - 1}")
    return whole


# Of each call that was made, for each argument after the handle the first number that is too great; 0 for no number.
_ENDS: Dict[str, Tuple[int, ...]] = {}


def _ends_of(name: str) -> Tuple[int, ...]:
    """Notes a call in _ENDS, and returns its entry."""
    ends = _ENDS[name] = tuple(END.get(kind, 0) for kind in getattr(LIBRARY, name).argtypes[1:])
    return ends


def least(most: Optional[int], there: int) -> int:
    """Returns the smaller of a wished number, if there is one, and of the number that there are. Raises ValueError for one below 0."""
    if most is None:
        return there
    if most < 0:
        raise ValueError(f"{most} is below 0")
    return min(operator.index(most), there)


class Held:
    """A handle and its calls."""

    _prefix = ""

    def __init__(self, *arguments: Any) -> None:
        if not hasattr(self, "_handle"):  # else it is made already, which the library says
            self._handle = Handle()
        self._call("new", *arguments)

    def __reduce__(self) -> NoReturn:
        """Refuses to be copied or pickled: a copy would free the handle of this one."""
        raise TypeError(f"a {type(self).__name__} can't be copied or pickled")

    def _answer(self, name: str, *arguments: Any) -> int:
        """Makes a call, and returns its status. Raises ValueError for a number that C's type can't hold, because ctypes would wrap it. A
        MemoryError comes only before the call is made."""
        whole = f"{self._prefix}_{name}"
        function = getattr(LIBRARY, whole)
        words: Any = arguments
        for end, word in zip(_ENDS.get(whole) or _ends_of(whole), arguments):
            if end and (type(word) is not int or not 0 <= word < end):
                words = [index(kind, word) if kind in END else word for kind, word in zip(function.argtypes[1:], arguments)]
                break
        try:
            status: int = function(byref(self._handle), *words)
        except ctypes.ArgumentError as error:  # all words are right, so this stands for a MemoryError
            raise MemoryError from error
        return status

    def _call(self, name: str, *arguments: Any) -> None:
        """Makes a call. Raises the exception of its status, if that is not SAM_OK."""
        code = self._answer(name, *arguments)
        if code != OK:
            raise error_of(code)

    def _has(self, name: str, *arguments: Any) -> bool:
        """Makes a call, and returns whether it hands out something; it doesn't if it answers SAM_NONE. Raises the exception of any other
        status that is not SAM_OK."""
        code = self._answer(name, *arguments)
        if code not in (OK, NONE):
            raise error_of(code)
        return code == OK

    def _number(self, name: str, kind: Any, *arguments: Any) -> int:
        """Makes a call that hands out one number, and returns the number."""
        result = kind()
        self._call(name, *arguments, byref(result))
        return int(result.value)

    def _number_if_any(self, name: str, kind: Any, *arguments: Any) -> Optional[int]:
        """Makes a call that hands out one number, and returns the number; None if the call answers SAM_NONE."""
        result = kind()
        return int(result.value) if self._has(name, *arguments, byref(result)) else None

    def _truth(self, name: str, *arguments: Any) -> bool:
        """Makes a call that hands out yes or no, and returns that."""
        return bool(self._number(name, c_bool, *arguments))

    def free(self) -> None:
        """Frees it, with all that it holds. Any later call but this one raises HandleFault."""
        self._answer("free")

    def __enter__(self: _AnyHeld) -> _AnyHeld:
        return self

    def __exit__(
        self, kind: Optional[Type[BaseException]], error: Optional[BaseException], trace: Optional[TracebackType]
    ) -> None:
        self.free()

    def __del__(self) -> None:
        if hasattr(self, "_handle"):
            self.free()


class Texts(Held):
    """The texts that can be read of host, terminal, overlay, client and durable server."""

    def _short_text(self, name: str, room: int, *arguments: Any) -> str:
        """Makes a call that fills a buffer which is always great enough, and returns its text."""
        into, length = ctypes.create_string_buffer(room), c_size_t()
        self._call(name, *arguments, into, room, byref(length))
        return ctypes.string_at(into, length.value).decode()

    def _long_text(self, name: str, place: int, most: Optional[int], *arguments: Any) -> str:
        """Returns the runes of a text from a place on: at most `most`, or all if that is None."""
        left = least(most, 2**32)
        into, count, runes = ctypes.create_string_buffer(min(PIECE, max(LEAST_PIECE, left))), c_size_t(), c_uint32()
        pieces: List[str] = []
        while True:
            room = min(len(into), max(LEAST_PIECE, left))  # if runes take more than a byte each, more pieces come
            self._call(name, *arguments, place, into, room, byref(count), byref(runes))
            piece = ctypes.string_at(into, count.value).decode()[:left]
            pieces.append(piece)
            place += len(piece)
            left -= len(piece)
            if not piece or left == 0:
                return "".join(pieces)


class Stopping(Held):
    """What may stop because of the other side's stream: host, terminal, overlay and client."""

    @property
    def fault_place(self) -> Optional[int]:
        """Returns the number of bytes of the other side's stream before the frame that is wrong, if this side has stopped by StreamFault;
        None if it goes on, or has stopped because of a refusal."""
        return self._number_if_any("fault_place", c_uint64)


class Counts(Held):
    """The counts of one end of a link: of a link and of a durable server."""

    @property
    def attempt(self) -> int:
        """Returns the number of the newest connection, or 0 before the first."""
        return self._number("attempt", c_uint64)

    @property
    def put_count(self) -> int:
        """Returns the number of bytes of this side's stream, heads of packets included."""
        return self._number("put_count", c_uint64)

    @property
    def acknowledged(self) -> int:
        """Returns the number of bytes of this side's stream that the other side has acknowledged. All bytes that were put by some time have
        come once this number is at least that of `put_count` at that time."""
        return self._number("acknowledged", c_uint64)

    @property
    def received(self) -> int:
        """Returns the number of bytes of the other side's stream that have come."""
        return self._number("received", c_uint64)


class Streams(Stopping, Texts):
    """The pending bytes of host, terminal and overlay."""

    def __init__(self) -> None:
        if not hasattr(self, "_left"):
            # The bytes that take_out moved out when an exception broke it off: a buffer, how much of it was returned, and how much it has.
            self._left: Deque[Tuple[Any, int, c_size_t]] = deque()
        super().__init__()

    def free(self) -> None:
        """Frees it, with its pending bytes. Any later call but this one raises HandleFault."""
        self._left.clear()
        super().free()

    def _range(self, name: str, tag: int) -> Tuple[int, int]:
        """Makes a call that hands out two places, and returns them."""
        start, end = c_uint32(), c_uint32()
        self._call(name, tag, byref(start), byref(end))
        return start.value, end.value

    def bring(self, data: Union[bytes, bytearray, memoryview]) -> None:
        """Takes bytes of the other side, in pieces of any length, but goes no further: `step` does the work. Raises, in this order, and the
        bytes are then not taken: the fault by which this side has stopped before; Waiting until a step was IDLE, or at a terminal LOCKED;
        CountFull; NoMemory."""
        data = bytes(memoryview(data))
        self._call("bring", data, len(data))

    def finish(self) -> None:
        """Tests whether the other side's stream may end here. Call it once the input has ended. It changes nothing. Raises, in this order:
        the fault by which this side has stopped before; Unfinished if some input, or a message that was composed, still waits for memory;
        StreamFault with the code TRUNCATED if the stream ends inside a message or frame."""
        self._call("finish")

    @property
    def pending(self) -> int:
        """Returns the number of bytes that are pending for the other side."""
        pending = self._number("pending", c_size_t)
        for _, start, count in list(self._left):
            pending += count.value - start
        return pending

    def take_out(self, most: Optional[int] = None) -> bytes:
        """Moves out the pending bytes, all or the first `most`, and returns them; b"" if there are none. Raises ValueError if `most` is
        below 0. If another exception breaks in, as a MemoryError, the bytes are still pending, and may come by more than one call."""
        room = least(most, self.pending)
        if room == 0:
            return b""
        moved = self._left.popleft() if self._left else (ctypes.create_string_buffer(room), 0, c_size_t())
        into, start, count = moved
        try:
            if not count:
                self._call("take_out", into, room, byref(count))
            end = min(start + room, count.value)
            taken: bytes = into[start:end]
            rest = (into, end, count) if end < count.value else None
        except BaseException:
            if count:
                self._left.appendleft(moved)  # which wants no memory
            raise
        if rest:
            self._left.appendleft(rest)
        return taken


class Side(Streams):
    """A side that goes on by itself as it takes bytes: host and terminal."""

    def feed(self, data: Union[bytes, bytearray, memoryview] = b"") -> None:
        """Takes bytes of the other side, in pieces of any length. A host answers each message that is whole; a terminal receives each frame
        that is whole, and then held events act. Without bytes it goes on with the work that waits after `Unfinished`. Raises, in this
        order, and the bytes are then not taken: the fault by which this side has stopped before; NoMemory, or a fault, as it goes on with
        earlier input; CountFull; NoMemory. Two come after the bytes were taken: Unfinished, and the fault by which this side stops."""
        data = bytes(memoryview(data))
        self._call("feed", data, len(data))
