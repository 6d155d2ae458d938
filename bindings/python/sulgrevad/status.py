"""The status codes that calls answer, and the exceptions that carry them."""
import enum
import operator
from typing import Any, Dict, Optional, Tuple

from sulgrevad._library import LIBRARY, version_of


class Status(enum.IntEnum):
    """The status of a call (enum sam_status of sulgrevad.h)."""

    OK = 0
    NO_MEMORY = 1
    UNFINISHED = 2
    COUNT_FULL = 3
    NO_HANDLE = 4
    MADE = 5
    NOT_TEXT = 6
    NONE = 7
    WAITING = 8
    NO_ROOM = 9
    TOO_MANY = 10
    ADD_TOO_LONG = 19
    ADD_NO_TAG = 20
    BAD_KIND = 33
    BAD_LENGTH = 34
    BAD_TEXT = 35
    TRUNCATED = 36
    MARK_COMMAND_FILE = 50
    MARK_NOT_ANNOUNCED = 51
    HOST_NO_FILE = 65
    HOST_NOT_OPEN = 66
    HOST_BAD_POSITION = 67
    HOST_TOO_LONG = 68
    HOST_BAD_VERSION = 69
    HOST_COUNT_FULL = 70
    HOST_COMMAND_FILE = 72
    TERM_FROM_THE_FUTURE = 97
    TERM_NO_FILE = 98
    TERM_NOT_OPEN = 99
    TERM_ALREADY_BOUND = 100
    TERM_BAD_POSITION = 101
    TERM_TOO_LONG = 102
    TERM_LOCK_NOT_HELD = 103
    TERM_COUNT_FULL = 104
    REFUSAL_EXITED = 129
    REFUSAL_NO_FILE = 130
    REFUSAL_NOT_OPEN = 131
    REFUSAL_BAD_POSITION = 132
    REFUSAL_TOO_LONG = 133
    REFUSAL_TEXT_TOO_LONG = 134
    REFUSAL_COMMAND_FILE = 135
    REFUSAL_BAD_VERSION = 136
    SCRIPT_LINE = 161
    SCRIPT_COUNT_FULL = 162
    LINK_NOT_A_LINK = 193
    LINK_OTHER_VERSION = 194
    LINK_BAD_HELLO = 195
    LINK_NO_SESSION = 196
    LINK_OTHER_SESSION = 197
    LINK_OLD_ATTEMPT = 198
    LINK_WRONG_COUNT = 199
    LINK_WRONG_ROLE = 200
    LINK_NOT_OPEN = 201
    LINK_TOO_LONG = 202
    LINK_BAD_KIND = 203
    LINK_BAD_LENGTH = 204
    LINK_ACK_AHEAD = 205
    LINK_NO_ROOM = 206
    LINK_TOO_MANY_WORDS = 207
    LINK_TOO_MANY_ANSWERS = 208
    LINK_WRONG_HELLO = 209
    NOTE_BAD_KIND = 225
    NOTE_BAD_FIELD = 226
    NOTE_BAD_LENGTH = 227
    NOTE_BAD_PATH = 228
    NOTE_BAD_TEXT = 229
    JOURNAL_SHORT = 257
    JOURNAL_NOT_A_JOURNAL = 258
    JOURNAL_OTHER_VERSION = 259
    JOURNAL_DAMAGED_HEAD = 260
    JOURNAL_DAMAGED = 261
    JOURNAL_TORN = 262
    JOURNAL_TOO_LONG = 263
    SERVER_COUNT_FULL = 289
    SERVER_NO_RECORD = 290
    SERVER_NOT_TAKEN = 291
    SERVER_EFFECT_WAITS = 292


class Kind(enum.IntEnum):
    """A kind of message or frame (enum sam_kind of sulgrevad.h); docs/reference/PROTOCOL.md says what each means."""

    TVERSION = 1
    TSTARTCMDFILE = 2
    TCHECK = 3
    TREQUEST = 4
    TORIGIN = 5
    TSTARTFILE = 6
    TWORKFILE = 7
    TTYPE = 8
    TCUT = 9
    TPASTE = 10
    TSNARF = 11
    TSTARTNEWFILE = 12
    TWRITE = 13
    TCLOSE = 14
    TLOOK = 15
    TSEARCH = 16
    TSEND = 17
    TDCLICK = 18
    TSTARTSNARF = 19
    TSETSNARF = 20
    TACK = 21
    TEXIT = 22
    HVERSION = 65
    HBINDNAME = 66
    HCURRENT = 67
    HNEWNAME = 68
    HMOVNAME = 69
    HGROW = 70
    HCHECK = 71
    HUNLOCK = 72
    HDATA = 73
    HORIGIN = 74
    HUNLOCKFILE = 75
    HSETDOT = 76
    HGROWDATA = 77
    HMOVETO = 78
    HCLEAN = 79
    HDIRTY = 80
    HCUT = 81
    HSETPAT = 82
    HDELNAME = 83
    HCLOSE = 84
    HSETSNARF = 85
    HSNARFLEN = 86
    HACK = 87
    HEXIT = 88


class Step(enum.IntEnum):
    """The kind of a step (enum sam_step of sulgrevad.h)."""

    IDLE = 0
    LOCKED = 1
    WROTE = 2
    EDITED = 3
    ANSWERED = 4
    RECEIVED = 5
    ACTED = 6
    REFUSED = 7


def status_text(code: int) -> str:
    """Returns the name of a status and a sentence about it, as "SAM_NOT_TEXT: the bytes are not UTF-8", or "unknown status" for any other
    number. Raises ValueError for a number that a status can't be."""
    if not 0 <= operator.index(code) < 2**32:
        raise ValueError(f"{code} is not from 0 to {2**32 - 1}")
    text: bytes = LIBRARY.sam_status_text(code)
    return text.decode()


def library_version() -> Tuple[int, int, int]:
    """Returns the version of the library that is loaded: the major, the minor and the patch number."""
    return version_of(LIBRARY)


class SamError(Exception):
    """A call that did not answer SAM_OK; `code` is its status. `taken` is how many bytes of a text `type_text` typed all the same."""

    code: int
    taken: int = 0

    def __init__(self, code: int) -> None:
        try:
            self.code = Status(code)
        except ValueError:
            self.code = code
        super().__init__(status_text(code) if isinstance(self.code, Status) else f"status {code}")

    @property
    def status(self) -> int:
        """Returns the same as `code`."""
        return self.code

    @property
    def is_stop(self) -> bool:
        """Returns whether the host, terminal or server has stopped for good: the other side's stream is wrong, or was refused, or a count
        of a server is full."""
        return bool(LIBRARY.sam_is_stop(self.code))

    def __reduce__(self) -> Tuple[Any, ...]:
        """Is copied and pickled by its code, of which the sentence is made."""
        return type(self), (self.code,), self.__dict__


class NoMemory(SamError, MemoryError):
    """Out of memory, and the input of the call was not taken: make the call again (SAM_NO_MEMORY)."""


class Unfinished(SamError, MemoryError):
    """Out of memory, but the input of the call was taken, and some of it waits: go on (SAM_UNFINISHED)."""


class CountFull(SamError, OverflowError):
    """A stream of 2**64 bytes, or 2**64 events or connections (SAM_COUNT_FULL)."""


class Waiting(SamError):
    """Earlier work waits, so make steps, and take the splices, first; the input was not taken (SAM_WAITING)."""


class TooMany(SamError):
    """1,000 requests wait, or 1,000 tasks or command lines are open, so go on first; the input was not taken (SAM_TOO_MANY)."""


class HandleFault(SamError, ValueError):
    """The object, as a host or a line, was freed (SAM_NO_HANDLE), or was made twice (SAM_MADE)."""


class NotText(SamError, ValueError):
    """The text is not UTF-8, or has a surrogate (SAM_NOT_TEXT)."""


class Missing(SamError, LookupError):
    """There is no such file, it is not open, or it was never written (SAM_NONE)."""


class AddRefused(SamError, ValueError):
    """A file can't be added: its name or text is too long, or no tag is left (SAM_ADD_..). The host is as it was."""


class MarkRefused(SamError, ValueError):
    """A file can't be marked as dirty: it is the command file, or the terminal was not told its name yet (SAM_MARK_..). The host is as it
    was."""


class StreamFault(SamError):
    """The other side's stream is wrong, and this side has stopped (SAM_BAD_..); or `finish` found that it ends inside a message or frame
    (SAM_TRUNCATED)."""


class HostRefused(SamError):
    """The host refused a message, and has stopped (SAM_HOST_..)."""


class TerminalRefused(SamError):
    """The terminal refused a frame, and has stopped (SAM_TERM_..)."""


class EditRefused(SamError, ValueError):
    """An edit or a command line of the user was refused (SAM_REFUSAL_..). The overlay, client or session is as it was."""


class LinkFault(SamError):
    """A call of a link or a line was refused, or bytes are no hello (SAM_LINK_..). The link or line goes on."""


class NoteFault(SamError, ValueError):
    """Bytes are no message of a session, or a message can't be written (SAM_NOTE_..)."""


class ServerFault(SamError, ValueError):
    """A record is not taken again (SAM_SERVER_NO_RECORD, SAM_SERVER_NOT_TAKEN), a durable server has stopped because a count is full
    (SAM_SERVER_COUNT_FULL), or it hands no texts on before its effect is done (SAM_SERVER_EFFECT_WAITS)."""


class ScriptFault(SamError, ValueError):
    """A script can't be replayed (SAM_SCRIPT_..). `line` is its first wrong line, counted from 1, or if none is wrong the line at
    which nothing is there to take; None if a count is full."""

    line: Optional[int] = None


SINGLE = {
    Status.NO_MEMORY: NoMemory,
    Status.UNFINISHED: Unfinished,
    Status.COUNT_FULL: CountFull,
    Status.NO_HANDLE: HandleFault,
    Status.MADE: HandleFault,
    Status.NOT_TEXT: NotText,
    Status.NONE: Missing,
    Status.WAITING: Waiting,
    Status.TOO_MANY: TooMany,
}
FAMILIES = (
    (range(16, 32), AddRefused),
    (range(32, 48), StreamFault),
    (range(48, 64), MarkRefused),
    (range(64, 96), HostRefused),
    (range(96, 128), TerminalRefused),
    (range(128, 160), EditRefused),
    (range(160, 192), ScriptFault),
    (range(192, 224), LinkFault),
    (range(224, 256), NoteFault),
    (range(288, 320), ServerFault),
)


# Raised if there is no memory for an exception either: the caller has to learn whether its input was taken.
SPARE: Dict[int, SamError] = {code: SINGLE[code](code) for code in (Status.NO_MEMORY, Status.UNFINISHED)}


def error_of(code: int) -> SamError:
    """Returns the exception of a status code."""
    try:
        if code in SINGLE:
            return SINGLE[Status(code)](code)
        return next((family for codes, family in FAMILIES if code in codes), SamError)(code)
    except MemoryError:
        if code in SPARE:
            return SPARE[code].with_traceback(None)
        raise
