"""The line at the bottom of the screen: what was said last, a question, or what the host has told until it is read."""
import unicodedata
from typing import Callable, List, Optional, Tuple, Union

from .layout import is_hidden
from sulgrevad import Note, NoteCode, NoteKind

READ_AFTER = 0.5  # seconds that a line stands on the screen until a key counts as pressed by someone who read it
REPEAT = 0.15  # seconds within which the same key again means that it is held down
MOST_UNREAD = 100
SAMHOST, SAMTERM = "samhost: ", "samterm: "  # what the lines of these begin with

UNSAFE_KINDS = ("Cc", "Cs", "Zl", "Zp")  # controls, halves of runes, and ends of lines and paragraphs

RANKS = {NoteKind.LOST: 3, NoteKind.NO_JOURNAL: 2}  # of other messages of the host 1


def printable(line: str) -> str:
    """A line of which no screen does what stands there: with question marks for control characters, as a host tells it, and for what
    reorders or hides text."""
    return line if line.isprintable() else "".join("?" if is_unsafe(rune) else rune for rune in line)


def is_unsafe(rune: str) -> bool:
    return unicodedata.category(rune) in UNSAFE_KINDS or is_hidden(rune)


def words_of(told: Union[str, Note]) -> str:
    """The words for people of a message, or of a line of standard error."""
    return told if isinstance(told, str) else told.text and f"{SAMHOST}{told.text}"


def rank_of(told: Union[str, Note]) -> int:
    """How much they matter. 3: a text is lost; 2: it was not written, or the line can't go on; 1: other words of the host; 0: of others."""
    if isinstance(told, str):
        return 2 if told.startswith(SAMTERM) else int(told.startswith(SAMHOST))
    if told.kind == NoteKind.NOT_SAVED:
        return 2 if told.copy else 3
    if told.kind == NoteKind.ASIDE:
        return 1 if told.copy else 2
    return 0 if told.kind == NoteKind.SAVED and told.code == NoteCode.NO_CODE else RANKS.get(told.kind, 1)


class Notes:
    """What stands on the line, and when the user saw it. It begins with a hint, which goes for all else."""

    def __init__(self, clock: Callable[[], float], hint: str):
        self.clock = clock
        self.message = self._hint = hint
        self.question = ""  # the message, where a key answers it
        self.unread: List[Tuple[int, str]] = []  # what the host told, the worst first
        self.standing = ""  # what hides all of these as long as it holds
        self._drawn, self._drawn_at = "", 0.0
        self._is_seen = False  # it stood there long enough while no key came

    @property
    def line(self) -> str:
        """What stands on the line: that a text was not written first, other words of the host last."""
        if self.standing:
            return self.standing
        if not self._shows_unread:
            return self.message
        more = f" (the next key shows {len(self.unread) - 1} more)" if len(self.unread) > 1 else ""
        return self.unread[0][1] + more

    @property
    def _shows_unread(self) -> bool:
        return bool(self.unread) and (not self.message or self.unread[0][0] > 1)

    def drawn(self) -> None:
        """The line stands on the screen."""
        if self.line != self._drawn:
            self._drawn, self._drawn_at, self._is_seen = self.line, self.clock(), False

    def settle(self, since: float) -> None:
        """No key waits at the keyboard that was pressed before a time. So where this program was held up, a key that was pressed early
        doesn't count as a late one."""
        self._is_seen = self._is_seen or (self.line == self._drawn and since >= self._drawn_at + READ_AFTER)

    @property
    def left(self) -> Optional[float]:
        """Seconds until the line counts as read; None where it does, or need not."""
        is_waiting = (self.question or self.unread) and not self._is_seen and self.line == self._drawn
        return max(0.0, self._drawn_at + READ_AFTER - self.clock()) if is_waiting else None

    def say(self, message: str) -> None:
        self.message, self.question = message, ""

    def ask(self, question: str) -> None:
        """Asks; where it was asked already, the time to read it begins again."""
        self.message = self.question = question
        self._drawn = ""

    def keep(self, rank: int, line: str) -> None:
        """Shows a line until it is read, what is worse first."""
        if self.message == self._hint:
            self.message = ""
        if (rank, line) not in self.unread:
            self.unread.append((rank, line))
            self.unread.sort(key=lambda kept: -kept[0])
            del self.unread[MOST_UNREAD:]

    def forget(self, line: str) -> None:
        """A question says what a line did, or it is read."""
        self.unread = [kept for kept in self.unread if kept[1] != line]

    def forget_the_line(self) -> None:
        """What was told of how the host is reached is over."""
        self.unread = [kept for kept in self.unread if not kept[1].startswith(SAMTERM)]

    @property
    def is_read(self) -> bool:
        """Whether a key that comes now was pressed by someone who read the line."""
        return self._is_seen and self.line == self._drawn

    @property
    def read_line(self) -> str:
        """The line, of those that stay until they are read, that someone has read who presses a key now; "" where it is none."""
        first = self.unread[0][1] if self.unread else ""
        return first if self.is_read and self.line.startswith(first) else ""

    @property
    def answered(self) -> str:
        """The question that a key which comes now answers."""
        return self.question if not self._shows_unread and self.is_read else ""

    def take(self, read: str) -> None:
        """A key acts: the line goes that its user had read. Where the key has waited, another one may stand there by now."""
        self.forget(read)
        self.say("")
