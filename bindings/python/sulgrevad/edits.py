"""Runes as the library hands them out, and the edits that a terminal receives: a command line may edit thousands of places, so here each
call counts.
"""
import ctypes
import sys
from codecs import utf_16_be_decode, utf_16_le_decode, utf_32_be_decode, utf_32_le_decode
from ctypes import byref, c_size_t, c_uint32
from itertools import accumulate, repeat
from operator import add, sub
from typing import Any, Iterator, List, NamedTuple, Optional, Sequence, Tuple

from sulgrevad._library import LIBRARY, Did, Handle
from sulgrevad.status import Kind, Status, Step, error_of

EDITING = (Kind.HGROWDATA, Kind.HCUT)
MOST = 4096  # edits that one call receives
WINDOW = 65_536  # runes that are read before it, since it may cut them
FEW = 16  # edits for which that doesn't pay
LEAST = 63  # runes for which there is room, but one
ALONE = 64  # edits that are received one by one if it did not

_OK, _NONE, _RECEIVED = int(Status.OK), int(Status.NONE), int(Step.RECEIVED)
_WORDS = ctypes.sizeof(Did) // ctypes.sizeof(c_uint32)  # of a sam_did
_START, _GONE, _CAME = (getattr(Did, name).offset // ctypes.sizeof(c_uint32) for name in ("start", "gone", "came"))  # among these
_NOT_LOADED, _WIDTH = b"\xff" * 4, 4  # a rune that is not loaded; bytes of a rune
_DECODE, _HALVES, _LOW = (utf_32_le_decode, utf_16_le_decode, 0) if sys.byteorder == "little" else (utf_32_be_decode, utf_16_be_decode, 1)
_STAND_INS = [chr(rune) for rune in range(0xFDD0, 0xFDF0)]  # for what is not loaded: no text is likely to have them all


class Edit(NamedTuple):
    """An edit that a frame made: in the file `tag`, at the place `start`, the text `gone` gave way to `came`."""

    tag: int
    start: int
    gone: str
    came: str


class Pieces(NamedTuple):
    """Pieces of a text: from each of the places on, as many runes as its count says."""

    text: str
    places: Sequence[int]
    counts: List[int]

    def each(self) -> List[str]:
        """Returns the pieces."""
        text = self.text
        return [text[place : place + count] for place, count in zip(self.places, self.counts)]


class Edits:
    """Edits of one file, in the order in which frames made them: at each of the places `starts` the piece of `gone` gave way to that of
    `came`. There may be thousands, so each is made only when it is asked for."""

    def __init__(self, tag: int, starts: List[int], gone: Pieces, came: Pieces):
        self.tag, self.starts, self.gone, self.came = tag, starts, gone, came

    def __len__(self) -> int:
        return len(self.starts)

    def __iter__(self) -> Iterator[Edit]:
        return map(Edit, repeat(self.tag), self.starts, self.gone.each(), self.came.each())


def text_of(runes: Any, count: int, gap: str) -> str:
    """Returns the first `count` runes of an array as a text, with `gap` for each that is not loaded."""
    data = memoryview(runes)[:count]
    try:
        return _DECODE(data)[0]
    except UnicodeDecodeError:
        return _with_gaps(bytes(data), gap)


def _with_gaps(data: bytes, gap: str) -> str:
    count = len(data) // _WIDTH
    if data == _NOT_LOADED * count:
        return gap * count
    halves = _HALVES(data, "surrogatepass")[0]
    low, high = halves[_LOW::2], halves[1 - _LOW :: 2]
    gaps = high.count("\uffff")
    if gaps == low.count("\uffff") and gaps + high.count("\0") == count:  # each rune is below U+10000, and its low half
        return low.replace("\uffff", gap)
    for rune in _STAND_INS:
        stand_in = rune.encode("utf-32")[-_WIDTH:]  # in the order of this machine
        if stand_in not in data:
            return _DECODE(data.replace(_NOT_LOADED, stand_in))[0].replace(rune, gap)
    pieces = (data[at : at + _WIDTH] for at in range(0, len(data), _WIDTH))
    return "".join([gap if piece == _NOT_LOADED else _DECODE(piece)[0] for piece in pieces])


def read_runes(read: Any, handle: Handle, tag: int, place: int, count: int, gap: str) -> str:
    """Returns the runes of an open file from a place on, at most `count`, with `gap` for each that is not loaded, as a call of the library
    reads them. Raises Missing."""
    into, got = (c_uint32 * (1 << max(count - 1, LEAST).bit_length()))(), c_uint32()  # Python makes a type for each length of an array
    code = read(byref(handle), tag, place, into, count, byref(got))
    if code != _OK:
        raise error_of(code)
    return text_of(into, got.value, gap)


class _Receiver:
    """Receives the edits of one file."""

    def __init__(self, handle: Handle, gap: str):
        self._handle, self._gap, self._did = handle, gap, Did()
        self._at, self._did_at = byref(handle), byref(self._did)
        self._tag: Optional[int] = None
        self._dids: Any = None  # room for the edits that one call receives

    def is_next(self) -> bool:
        """Returns whether the next frame edits the file."""
        code = LIBRARY.sam_term_next_frame(self._at, self._did_at)
        if code not in (_OK, _NONE):
            raise error_of(code)
        if code == _NONE or self._did.kind not in EDITING:
            return False
        if self._tag is None:
            self._tag = self._did.tag
        return bool(self._tag == self._did.tag)

    def one(self) -> Tuple[Optional[Edits], int]:
        """Receives the edit that is next, and returns it, with the status of the call."""
        start, gone = self._did.start, self._read(self._did.start, self._did.gone)
        code = LIBRARY.sam_term_step(self._at, self._did_at)
        if code != _OK or self._did.step != _RECEIVED:  # it wrote messages that were left over
            return None, code
        came = self._read(start, self._did.came)
        return Edits(self._did.tag, [start], Pieces(gone, [0], [len(gone)]), Pieces(came, [0], [len(came)])), code

    def many(self) -> Tuple[Optional[Edits], int]:
        """Receives the edits from the next one on, as long as each is at the place of the one before it or above, and returns them, with
        the status of the call."""
        last = self._did.start + self._did.gone
        first = max(0, self._did.start - WINDOW)
        before = self._read(first, last - first)
        self._dids, got = self._dids or (Did * MOST)(), c_size_t()
        code = LIBRARY.sam_term_step_edits(self._at, first, self._dids, MOST, byref(got))
        if got.value == 0:
            return None, code
        words = memoryview(ctypes.string_at(self._dids, got.value * ctypes.sizeof(Did))).cast("I")
        starts, gone, came = (words[at::_WORDS].tolist() for at in (_START, _GONE, _CAME))
        moved = [*accumulate(map(sub, came[:0:-1], gone[:0:-1]), initial=0)][::-1]  # how far those after it move each
        low = starts[-1]
        after = self._read(low, starts[0] + moved[0] + came[0] - low)
        places = [*map(add, map(sub, starts, repeat(low)), moved)]
        return Edits(self._tag or 0, starts, Pieces(before, [*map(sub, starts, repeat(first))], gone), Pieces(after, places, came)), code

    def _read(self, place: int, count: int) -> str:
        return read_runes(LIBRARY.sam_term_read, self._handle, self._tag or 0, place, count, self._gap) if count else ""


def received(handle: Handle, gap: str) -> Iterator[Edits]:
    """Receives the next frames, as long as each edits a text and all of them that of one file, and yields their edits. Raises as a step
    does, once the edits before are yielded."""
    receiver, alone = _Receiver(handle, gap), FEW
    while receiver.is_next():
        found, code = receiver.many() if alone == 0 else receiver.one()
        if found is not None:
            yield found
        if code != _OK:
            raise error_of(code)
        if alone > 0:
            alone -= 1
        elif found is None or len(found) < FEW:
            alone = ALONE
