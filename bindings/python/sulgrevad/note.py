"""The messages of a session, which samhost and its front ends exchange as the notes of a link: docs/reference/SESSION.md."""
import ctypes
import enum
from ctypes import byref, c_size_t, c_uint8, c_uint16, c_uint32, c_uint64
from typing import NamedTuple, Union

from sulgrevad._library import LIBRARY, CNote, Text, bytes_of
from sulgrevad.carrier import MOST_NOTE
from sulgrevad.sides import OK, index
from sulgrevad.status import NotText, Status, error_of

_Bytes = Union[bytes, bytearray, memoryview]


# What follows is written by tools/session_messages, from the tables of docs/reference/SESSION.md.
class NoteKind(enum.IntEnum):
    """The kinds of messages, with their fields: up to 64 those from the terminal."""

    OPEN = 1  # request, path: joins the file, or the folder, at the path
    COMPLETE = 2  # request, path: asks for the names that complete the path
    RELOAD = 3  # request, tag: reads a file anew from its disk
    RELOADED = 4  # tag, number: the user's edits have made the file what the file `number` has
    WRITE = 5  # request, tag: asks what becomes of the Twrite of this file that comes next
    SESSION = 65  # number, path, text: the first message: version of the messages, name of the session, machine
    SAID = 66  # text: words for people
    SHOWN = 67  # tag, number: another program wants the file shown at the line `number`, if not 0
    TAKEN_OVER = 68  # text: another terminal, at the machine that the text names, has the session now
    ENDED = 69  # code, number: the session is over, with this exit status: the last message
    OPENED = 70  # request, tag: the file of an Open
    REFUSED = 71  # request, code, text: what was asked for is not done, and why
    NAMES = 72  # request, code, path: names, each with a newline behind it; those of folders end in `/`
    ANEW = 73  # request, number: the file of the tag `number` is hidden; that of an answer has what stands on the disk
    SAVED = 74  # request, tag, code, path, copy, text: a write went to the disk, at the path
    NOT_SAVED = 75  # request, tag, code, path, copy, text: a write failed, and why; its text is in the copy, if not empty
    CHANGED = 76  # tag, code, path, text: another program changed the file, or removed it
    DATED = 77  # tag, number, path: the file was written last at this time, in seconds since 1970
    EARLIER = 78  # tag, code, number, path, copy, text: an earlier session left a text in the copy, of the time `number`
    ASIDE = 79  # tag, code, path, copy, text: a text that is on no disk under its name is in the copy
    LOST = 80  # tag, code, path, text: a text could be saved nowhere, and why
    NO_JOURNAL = 81  # code, text: what is done from now on survives no crash, and why


class NoteCode(enum.IntEnum):
    """What happened, or why. A number that isn't here comes from a later version, and counts as OTHER."""

    NO_CODE = 0  # nothing to say
    NO_SPACE = 1  # the disk is full
    NO_PERMISSION = 2  # the system allows it not
    READ_ONLY = 3  # it can only be read
    NOT_FOUND = 4  # it is not there
    IS_FOLDER = 5  # it is a folder
    NOT_TEXT = 6  # it is no UTF-8, or has a zero byte
    TOO_LONG = 7  # it has too many characters
    TOO_MANY = 8  # there are too many files
    NO_MEMORY = 9  # out of memory
    NO_NAME = 10  # the file has no name
    CHANGED_SINCE = 11  # another program changed the file; the next write replaces it, and keeps what it has
    EXISTS_ALREADY = 12  # it is there, and this session hasn't read it; the next write replaces it, and keeps what it has
    TAKEN_UNSAVED = 13  # it was not written before this terminal took the session over
    NO_SUCH_FILE = 14  # no file has this tag
    OTHER = 15  # the text says what
    HAS_MORE = 16  # there are more
    REPLACED = 17  # what another program had written there is in the copy
    BROKEN = 18  # a write broke off, and what the file was is in the copy
    NEWER = 19  # the copy is newer than the file
    OLDER = 20  # the copy is older than the file
    CUT = 21  # of what was cut last
    UNNAMED = 22  # of a file without a name
    FAILED = 23  # the disk failed
    UNREADABLE = 24  # it can't be read, so another program may have changed it; the next write replaces it, and keeps what it has

    @classmethod
    def _missing_(cls, value: object) -> "NoteCode":
        return cls.OTHER
# Up to here by tools/session_messages.


class Note(NamedTuple):
    """A message. A field that its kind has not is 0 or empty."""

    kind: int
    request: int = 0
    tag: int = 0
    code: int = 0
    number: int = 0
    path: bytes = b""
    copy: bytes = b""
    text: str = ""


def path_of(path: Text) -> bytes:
    """Returns a path as bytes. In a `str` the surrogates U+DC80 to U+DCFF stand for bytes that are no UTF-8, as in those of `os.listdir`.
    Raises NotText for any other surrogate."""
    try:
        return path.encode("utf-8", "surrogateescape") if isinstance(path, str) else bytes_of(path)
    except UnicodeEncodeError:
        raise NotText(Status.NOT_TEXT) from None


def read_note(data: _Bytes) -> Note:
    """Reads the message that the bytes spell, all of them, and returns it; its kind is a NoteKind, its code a NoteCode. Raises NoteFault,
    with the code NOTE_BAD_KIND for a kind that isn't in the table (skip such a message: it comes from a later version), NOTE_BAD_LENGTH,
    NOTE_BAD_PATH or NOTE_BAD_TEXT."""
    data = bytes(memoryview(data))
    read = CNote()
    code = LIBRARY.sam_note_read(data, len(data), byref(read))
    if code != OK:
        raise error_of(code)

    def part(start: int, length: int) -> bytes:
        return data[start : start + length]

    path, copy = part(read.path_at, read.path_len), part(read.copy_at, read.copy_len)
    text = part(read.text_at, read.text_len).decode()
    return Note(NoteKind(read.kind), read.request, read.tag, NoteCode(read.code), read.number, path, copy, text)


def write_note(note: Note) -> bytes:
    """Returns the bytes of a message. Raises NoteFault, with the code NOTE_BAD_KIND, NOTE_BAD_FIELD if a field that the kind has not is not
    0 or not empty, NOTE_BAD_LENGTH for more than MOST_NOTE bytes, NOTE_BAD_PATH for a zero byte in a path, or NOTE_BAD_TEXT for a surrogate
    in the text; ValueError for a number that its field can't hold."""
    path, copy, text = bytes_of(note.path), bytes_of(note.copy), bytes_of(note.text)
    written = CNote(
        index(c_uint8, note.kind), index(c_uint8, note.code), index(c_uint16, note.tag), index(c_uint32, note.request),
        index(c_uint64, note.number), path_len=len(path), copy_len=len(copy), text_len=len(text),
    )  # fmt: skip
    into, length = ctypes.create_string_buffer(MOST_NOTE), c_size_t()
    code = LIBRARY.sam_note_write(byref(written), path, copy, text, into, len(into), byref(length))
    if code != OK:
        raise error_of(code)
    return into.raw[: length.value]
