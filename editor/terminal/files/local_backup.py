"""What can't go to the host is written to files here."""
import contextlib
import os
import re
import stat
import sys
import time
from functools import partial
from itertools import chain
from typing import Callable, Collection, Dict, Iterable, Iterator, List, Optional, Set, Tuple

from ..text.client_terminal import ClientTerminal
from ..text.texts import GAP

MOST_NAMES = 1000  # names that are tried
MOST_IN_BASE = 200  # bytes of the front of a name that names of files here begin with
MOST_BYTES = 4_194_304  # of such a file that is read: a text has less
LONGEST_BEGUN = 86_400  # seconds after which a file that is begun and has no text is left by a kill, and not on a slow disk

NEW = ".new"  # ends the name of such a file while it is written again
SUFFIX = ".sam-here"  # what comes after the name of a file, and before a number
ENDS = re.compile(re.escape(SUFFIX) + r"(\.\d+)?$")
NUMBERED = re.compile("[0-9a-f]{16}-")  # begins the name of such a file in the user's own folder
GAPS = re.compile(f"{GAP}+")
TOLD_GAPS = re.compile(r"\[(\d+) characters that were not loaded\]")

# What is no file's text has a name that no file has.
OF_NO_FILE = "\0"
TYPED, UNNAMED, CUT, COMMAND_LINE = (OF_NO_FILE + name for name in ("typed", "unnamed", "cut", "command"))

LOOKS = (256, 64)  # characters beside a gap that are looked at, to find what it had
MOST_PLACES, MOST_COMPARED = 10_000, 10_000_000  # places that are looked at, and characters there; after more it is not found


def _current_folder() -> str:
    """This folder; empty where it is away."""
    try:
        return os.getcwd()
    except OSError:
        return ""


began_in = _current_folder()  # it may be away later, and what is written elsewhere then is offered once it is back
host: Tuple[str, ...] = ()  # the host's command
BEHIND_HOST = "--undo"  # stands there in the number of a text: by another word what a release up to 0.1 kept here would not be found


def loaded(terminal: ClientTerminal, tag: int) -> str:
    """An open file's text as far as it is loaded."""
    return told(terminal.runes(tag, 0, terminal.len(tag)))


def told(text: str) -> str:
    """A text in which each stretch that is not loaded is told in words."""
    return GAPS.sub(lambda found: f"[{len(found[0])} characters that were not loaded]", text)


def lacking(text: str) -> int:
    """How many characters such a text lacks, as it tells."""
    return sum(int(found[1]) for found in TOLD_GAPS.finditer(text) if len(found[1]) < 8)


def filled(text: str, whole: str) -> str:
    """Such a text with what it lacks, from a whole one that is nearly the same: where what stands before a gap and after it leads to one
    text there."""
    pieces = TOLD_GAPS.split(text)  # with the numbers of characters between them
    for at in range(1, len(pieces), 2):
        count = int(pieces[at])
        place = _place_of(whole, pieces[at - 1], count, pieces[at + 1])
        pieces[at] = f"[{count} characters that were not loaded]" if place is None else whole[place : place + count]
    return "".join(pieces)


def _place_of(whole: str, before: str, count: int, after: str) -> Optional[int]:
    """Where so many characters stand in a text between two others, as far as these are looked at; None where that may be several texts, or
    takes too long to find."""
    for width in LOOKS:
        places = _places_of(whole, before[-width:], count, after[:width])
        if places is None or len({whole[place : place + count] for place in places}) > 1:
            return None
        if places:
            return places[0]
    return None


def _places_of(whole: str, left: str, count: int, right: str) -> Optional[List[int]]:
    """All places of so many characters between two texts; at an end of the whole one where the text there is empty. None where these are
    too many."""
    places: List[int] = []
    start = whole.find(left)
    for _ in range(MOST_PLACES):
        place = start + len(left)
        end = place + count
        if start < 0 or (start > 0 and not left):
            return places
        if end <= len(whole) and whole.startswith(right, end) and (right or end == len(whole)):
            places.append(place)
            if len(places) * count > MOST_COMPARED:
                return None
        start = whole.find(left, start + 1)
    return None


def keep(name: str, text: str) -> Optional[str]:
    """Writes a text to a new file of this machine: NAME.sam-here in this folder, else in one of the user's own. Returns its path; None
    where none could be written."""
    return _keep_at(chain((_base(name),), _own_fronts(name)), name, text)


def keep_aside(name: str, text: str) -> Optional[str]:
    """The same in the user's own folders alone."""
    return _keep_at(_own_fronts(name), name, text)


def is_aside(path: str) -> bool:
    """Whether the file of a path is there."""
    return NUMBERED.match(os.path.basename(path)) is not None


def _keep_at(fronts: Iterable[str], name: str, text: str) -> Optional[str]:
    for front in fronts:
        path = _first_free(front, partial(_write, text))
        if path is not None:
            _note(name, os.path.realpath(path))
            return os.path.realpath(path)
    return None


def write_again(path: str, text: str) -> str:
    """Puts another text in the place of such a file's, whole or not at all. Returns its path. Until it is whole the new file has a name
    that leads from the path: what a kill has left of it is found by that."""
    new = path + NEW
    with contextlib.suppress(FileNotFoundError):
        os.unlink(new)
    file = os.open(new, os.O_WRONLY | os.O_CREAT | os.O_EXCL | os.O_CLOEXEC, 0o600)
    try:
        with open(file, "wb") as sink:
            sink.write(text.replace(GAP, "").encode("utf-8", "replace"))
            sink.flush()
            os.fsync(sink.fileno())
        os.replace(new, path)
    except BaseException:
        os.unlink(new)
        raise
    return path


def remove(path: str) -> None:
    """Removes such a file, and what a kill has left of writing it again."""
    with contextlib.suppress(OSError):
        os.unlink(path + NEW)
    os.unlink(path)


def renew(name: str, path: Optional[str], text: str) -> Optional[str]:
    """The same, unless it has that text already; where that can't be, as there is none yet, its disk is full or away, or the name is
    another by now, the text is kept elsewhere, and the old file goes. Returns the path; None where none could be written, and the old file
    stays as it is."""
    with contextlib.suppress(OSError):
        if path is not None and ENDS.sub("", os.path.basename(path)) in (_base(name), f"{_number(name)}-{_base(name)}"):
            return path if read(path) == text else write_again(path, text)
    elsewhere = keep(name, text)
    if path is not None and elsewhere is not None:
        with contextlib.suppress(OSError):
            remove(path)
    return elsewhere


def _first_free(front: str, make: Callable[[str], None]) -> Optional[str]:
    """Makes something under the first name that is free of those that begin so. Returns which; None where that can't be."""
    for at in range(1, MOST_NAMES + 1):
        path = front + SUFFIX + (f".{at}" if at > 1 else "")
        try:
            make(path)
        except FileExistsError:
            continue
        except OSError:
            return None
        return path
    return None


def _note(name: str, path: str) -> None:
    """Notes in the user's own folder, by a link, of which host's file a text is that was written elsewhere."""
    for front in _own_fronts(name):
        if os.path.realpath(os.path.dirname(front)) == os.path.dirname(path) or _first_free(front, partial(_lead, path)):
            return


def _lead(path: str, note: str) -> None:
    """Makes a link to a path, also in the place of one that led there: each time that the line is lost a text may be written there."""
    with contextlib.suppress(OSError):
        if os.readlink(note) == path:
            os.unlink(note)
    os.symlink(path, note)


def _has_lost(folder: str, note: str) -> bool:
    """Whether the text of which a note tells was removed from a folder: that has changed since. Else the folder is away, and may be mounted
    later; or another one is in its place, into which that is mounted."""
    try:
        return os.stat(folder).st_mtime_ns >= os.lstat(note).st_mtime_ns
    except OSError:
        return False


class Left:
    """The files of this machine that have texts from earlier sessions: those that were noted, and those in this folder of which nothing
    was."""

    def __init__(self) -> None:
        self._noted: Dict[str, List[str]] = {}  # by the numbers of their names
        self._here: Dict[str, List[str]] = {}  # by their names
        self._files: Set[str] = set()  # those of the latter that may be of a file that was asked for
        for folder in _own_folders(makes=False):
            for path in _entries(folder):
                self._note(path)
        known = set(chain.from_iterable(self._noted.values()))
        for path in _entries(""):
            if os.path.realpath(path) not in known and _is_own(path):
                self._here.setdefault(ENDS.sub("", path), []).append(path)

    def _note(self, path: str) -> None:
        target = os.path.realpath(path)
        if _is_own(target):
            self._noted.setdefault(os.path.basename(path).partition("-")[0], []).append(target)
        elif _has_lost(os.path.dirname(target), path):
            with contextlib.suppress(OSError):
                os.unlink(path)  # what it led to is gone

    @property
    def is_empty(self) -> bool:
        """Whether there are none, of whatever file."""
        return not self._noted and not self._here

    def of(self, name: str) -> List[str]:
        """Those of a name. What is no file's is asked for last: what nobody noted is rather a file's."""
        if self.is_empty:
            return []
        noted, base = self._noted.get(_number(name), []) if self._noted else [], _base(name)
        if not name.startswith(OF_NO_FILE):
            self._files.add(base)
        elif base in self._files:
            return noted
        return noted + self._here.get(name, self._here.get(base, []))


def left(names: Collection[str]) -> Dict[str, List[str]]:
    """The files of this machine that have texts of some files, from earlier sessions."""
    found = Left()
    of = {name: found.of(name) for name in sorted(names, key=lambda name: name.startswith(OF_NO_FILE))}
    return {name: of[name] for name in names}


def _entries(folder: str) -> List[str]:
    """The paths in a folder that may be of such files."""
    try:
        return [os.path.join(folder, entry) for entry in sorted(os.listdir(folder or ".")) if ENDS.search(entry)]
    except OSError:
        return []


def _is_own(path: str) -> bool:
    """Whether a path is a file of the user's with a text. One that a kill broke off before it had one is none, and goes after a while."""
    try:
        status = os.lstat(path)
        is_begun = status.st_size == 0 and not status.st_mode & stat.S_IWUSR
        if is_begun and _is_file_of_ours(status) and time.time() - status.st_mtime > LONGEST_BEGUN:
            remove(path)
        return _is_file_of_ours(status) and not is_begun
    except OSError:
        return False


def _is_file_of_ours(status: os.stat_result) -> bool:
    return stat.S_ISREG(status.st_mode) and status.st_uid == os.geteuid()


def read(path: str) -> Optional[str]:
    """What such a file has; None where it can't be read, is another user's or no file, or is too long to be a text."""
    try:
        file = os.open(path, os.O_RDONLY | os.O_NOFOLLOW | os.O_NONBLOCK | os.O_CLOEXEC)
        with open(file, "rb") as source:
            status = os.fstat(file)
            is_one = _is_file_of_ours(status) and status.st_size <= MOST_BYTES
            return source.read(MOST_BYTES).decode("utf-8") if is_one else None
    except (OSError, UnicodeDecodeError):
        return None


def _number(name: str) -> str:
    """A number of the host's command, the folder from which its names may be seen, and a file's name."""
    place = "" if name.startswith("/") else _current_folder() or began_in
    import hashlib  # it takes long to be read in, and few sessions need it

    return hashlib.sha256("\0".join((*host, BEHIND_HOST, place, name)).encode("utf-8", "surrogateescape")).hexdigest()[:16]


def _own_fronts(name: str) -> Iterator[str]:
    """What paths of files in the user's own folders begin with. There a file's name says too little, so the number stands before it."""
    for folder in _own_folders(makes=True):
        yield os.path.join(folder, f"{_number(name)}-{_base(name)}")


def _own_folders(makes: bool) -> Iterator[str]:
    """Folders that are the user's alone, the best first: for his state, and among those for temporary files."""
    for folder in _named_folders():
        with contextlib.suppress(OSError):
            if makes:
                os.makedirs(folder, mode=0o700, exist_ok=True)
            status = os.lstat(folder)
            if stat.S_ISDIR(status.st_mode) and status.st_uid == os.geteuid():
                if status.st_mode & 0o077:
                    os.chmod(folder, 0o700)
                yield folder


def _named_folders() -> Iterator[str]:
    state, temporary = os.environ.get("XDG_STATE_HOME", ""), os.environ.get("TMPDIR", "")
    if not state.startswith("/") and os.environ.get("HOME", "").startswith("/"):
        state = os.path.join(os.environ["HOME"], ".local", "state")
    if state.startswith("/"):
        yield os.path.join(state, "sulgrevad")
    for folder in (temporary, "/tmp"):
        if folder.startswith("/"):
            yield os.path.join(folder, f"sulgrevad-{os.geteuid()}")


def _base(name: str) -> str:
    """The last part of a name, as far as it fits into names of files of this machine: whole characters, and a question mark for one that
    these can't have."""
    base, encoding = os.path.basename(name.replace("\0", "")) or "unnamed", sys.getfilesystemencoding()
    return base.encode(encoding, "replace")[:MOST_IN_BASE].decode(encoding, "ignore")


def _write(text: str, path: str) -> None:
    """Writes a file that is not there yet, for its owner alone, whole or not at all. Until it is whole an empty one has its name, which
    nobody may write: so it is told from an empty text."""
    os.close(os.open(path, os.O_WRONLY | os.O_CREAT | os.O_EXCL, 0o400))
    try:
        write_again(path, text)
    except BaseException:
        os.unlink(path)
        raise
    with contextlib.suppress(OSError):  # some systems bring no folder to the disk
        folder = os.open(os.path.dirname(path) or ".", os.O_RDONLY | os.O_CLOEXEC)
        try:
            os.fsync(folder)
        finally:
            os.close(folder)
