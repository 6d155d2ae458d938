"""The text of a file as it is shown: by it the editor knows what goes with a change, and reads without a call of the library."""
from typing import List, Optional, Sequence, Tuple

from .texts import GAP

PIECE = 4_096  # runes of a piece; none has more than twice as many
LEAST = 1_024  # runes of a piece that stays alone after a change

Edit = Tuple[int, int, str]  # a place, how many runes go there, and which come


class TextCopy:
    """A text in pieces, so that a change costs little however long it is. GAP stands for a rune that is not loaded."""

    def __init__(self) -> None:
        self.length = self.gaps = 0  # runes, and those among them that are not loaded
        self._pieces: List[str] = []
        self._at, self._start = 0, 0  # the piece that was looked at last, and its place: the next look is mostly near

    def _find(self, place: int) -> None:
        """Goes to the piece of a place; to the last one where the place is at the end, or behind."""
        while self._start > place:
            self._at -= 1
            self._start -= len(self._pieces[self._at])
        while self._at + 1 < len(self._pieces) and place >= self._start + len(self._pieces[self._at]):
            self._start += len(self._pieces[self._at])
            self._at += 1

    def read(self, place: int, count: int) -> str:
        """The runes from a place on, at most so many."""
        self._find(place)
        offset, read = place - self._start, self._pieces[self._at][place - self._start :][:count] if self._pieces else ""
        if len(read) == count or offset < 0:
            return read
        pieces, at, left = [read], self._at + 1, count - len(read)
        while left > 0 and at < len(self._pieces):
            pieces.append(self._pieces[at][:left])
            left -= len(pieces[-1])
            at += 1
        return "".join(pieces)

    def replace(self, start: int, end: int, came: str) -> str:
        """Puts runes in the place of others, and returns these."""
        self._find(start)
        low = high = self._start
        stop, pieces = self._at, []  # type: int, List[str]
        while stop < len(self._pieces) and (high < end or stop == self._at):
            pieces.append(self._pieces[stop])
            high += len(pieces[-1])
            stop += 1
        whole = "".join(pieces)
        gone, whole = whole[start - low : end - low], whole[: start - low] + came + whole[end - low :]
        if len(whole) < LEAST and stop < len(self._pieces):
            whole += self._pieces[stop]
            stop += 1
        length, gaps = self.length + len(came) - len(gone), self.gaps + came.count(GAP) - gone.count(GAP)
        self._pieces[self._at : stop] = _parted(whole)
        self.length, self.gaps = length, gaps
        if self._at >= len(self._pieces):
            self._at = self._start = 0
        return gone

    def replace_each(self, edits: Sequence[Edit]) -> List[str]:
        """The same at several places, each of which lies before the one of the edit before it, in less time for thousands."""
        if len(edits) == 1:
            (place, count, came), = edits
            return [self.replace(place, place + count, came)]
        low, high = edits[-1][0], edits[0][0] + edits[0][1]
        before, gone, after, last = self.read(low, high - low), [], [], high - low  # type: str, List[str], List[str], int
        for place, count, came in edits:
            start, end = place - low, place - low + count
            gone.append(before[start:end])
            after += (before[end:last], came)
            last = start
        self.replace(low, high, "".join(reversed(after)))
        return gone

    def first_gap(self, place: int) -> Optional[int]:
        """The first place from there on whose rune is not loaded; None where there is none."""
        if self.gaps == 0:
            return None
        self._find(place)
        start, offset = self._start, place - self._start
        for piece in self._pieces[self._at :]:
            if (found := piece.find(GAP, offset)) >= 0:
                return start + found
            start, offset = start + len(piece), 0
        return None

    def end_of_gap(self, place: int, most: int) -> int:
        """The first place from there on whose rune is loaded; the end, or `most` where that comes before, if there is none."""
        self._find(place)
        start, offset = self._start, place - self._start
        for piece in self._pieces[self._at :]:
            rest = piece[offset:].lstrip(GAP)
            if rest:
                return min(start + len(piece) - len(rest), most)
            start, offset = start + len(piece), 0
            if start >= most:
                return most
        return self.length

    def count(self, rune: str, start: int, end: int) -> int:
        """How often a rune stands from one place to another."""
        count, place = 0, start
        while place < end and (piece := self.read(place, min(PIECE, end - place))):
            count += piece.count(rune)
            place += len(piece)
        return count


def _parted(text: str) -> List[str]:
    """A text as pieces."""
    if len(text) <= 2 * PIECE:
        return [text] if text else []
    return [text[at : at + PIECE] for at in range(0, len(text), PIECE)]
