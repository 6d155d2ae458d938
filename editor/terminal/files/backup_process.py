"""Texts that are written here while the line is lost: by a process of its own, which has them as they stand when it begins. So no key waits
for the disk, be it one that never answers, or until a long text is read."""
import contextlib
import marshal
import mmap
import os
import signal
import threading
import time
from typing import Callable, Dict, List, NamedTuple, Optional

from . import local_backup

MOST_IN_PATH, MOST_BESIDE = 16_384, 65_536  # bytes that it can tell of each path, and of all else
MOST_DESCRIPTORS = 256
LONGEST = 10.0  # seconds that are waited for a disk at the end of the session: then it counts as one that never answers
NAP = 0.005  # seconds between two looks whether the process has ended


class Unsaved(NamedTuple):
    """A text that the host may lack: by what its copy is known, of a file its tag, since a command line may give it another name; the name
    by which it is kept here; what reads it; and what it is, where the name doesn't say that."""

    which: str
    name: str
    read: Callable[[], str]
    what: str = ""


def in_time(does: Callable[[], Optional[str]]) -> Optional[str]:
    """What a call returns. It goes on in a thread of its own where a disk doesn't answer, and TimeoutError tells of that."""
    found: List[Optional[str]] = []
    errors: List[Exception] = []

    def work() -> None:
        try:
            found.append(does())
        except Exception as error:  # which is raised again
            errors.append(error)

    try:
        thread = threading.Thread(target=work, daemon=True)
        thread.start()
    except RuntimeError:  # there can be no more threads
        return does()
    thread.join(LONGEST)
    if errors:
        raise errors[0]
    if not found:
        raise TimeoutError("the disk doesn't answer")
    return found[0]


class BackupProcess:
    """The paths of what was written."""

    def __init__(self) -> None:
        self.paths: Dict[str, str] = {}
        self.took = 0.0  # seconds, to write the last texts
        self.is_stuck = False  # a disk has not answered for too long, so texts go to the user's own folder from then on
        self._left: List[str] = []  # what stays on such a disk, until it answers
        self._process = 0  # that writes; 0 for none
        self._told: Optional[mmap.mmap] = None  # where it tells of the paths: a 1 once it has, and then these

    @property
    def is_writing(self) -> bool:
        """Whether the last texts are still written. Once they aren't it is known what their process told."""
        if self._process:
            with contextlib.suppress(ChildProcessError):
                if os.waitpid(self._process, os.WNOHANG)[0] == 0:
                    return True
            self._process = 0
            if self._told[0]:  # else it was killed before
                self.took, self.is_stuck, self.paths, self._left = marshal.loads(memoryview(self._told)[1:])
        return False

    def write(self, texts: List[Unsaved]) -> None:
        """Begins to write texts, unless the last ones are still written. Copies of others go: of what is written at the host, or put in."""
        if self.is_writing or not (texts or self.paths or self._left):
            return
        count = len(texts) + 2 * len(self.paths) + len(self._left)
        try:
            self._told = mmap.mmap(-1, MOST_BESIDE + MOST_IN_PATH * count)  # which takes no descriptor
            self._process = os.fork()
        except OSError:  # there can be no more processes
            self._write(texts)
            return
        if self._process == 0:
            self._write_and_end(texts)

    def _write_and_end(self, texts: List[Unsaved]) -> None:
        """What the process does."""
        try:
            signal.set_wakeup_fd(-1)
            os.closerange(0, MOST_DESCRIPTORS)  # so it can open files where there can be no more descriptors, and holds no screen
            self._write(texts)
            data = marshal.dumps((self.took, self.is_stuck, self.paths, self._left))
            self._told[1 : 1 + len(data)] = data
            self._told[0] = 1
        finally:
            os._exit(0)

    def _write(self, texts: List[Unsaved]) -> None:
        start, was_stuck = time.monotonic(), self.is_stuck
        for text in texts:
            with contextlib.suppress(Exception):  # it is tried again, and at the end it is told
                path = self.renewed(text, self.paths.get(text.which))
                if path is not None:
                    self.paths[text.which] = path
        gone = [self.paths.pop(which) for which in self.paths.keys() - {text.which for text in texts}]
        if not texts:
            gone, self._left = gone + self._left, []
        for path in gone:
            self._remove(path)
        self.took = time.monotonic() - start if self.is_stuck == was_stuck else 0.0

    def _remove(self, path: str) -> None:
        try:
            in_time(lambda: local_backup.remove(path))
        except TimeoutError:
            self.is_stuck = True
            self._left.append(path)
        except OSError:  # it is gone, or can't be removed
            pass

    def finish(self) -> None:
        """Waits until all of it is written. A process that takes too long is killed."""
        until = time.monotonic() + LONGEST
        while self.is_writing and time.monotonic() < until:
            time.sleep(NAP)
        if self._process:
            os.kill(self._process, signal.SIGKILL)
            self._process, self.is_stuck = 0, True

    def drop(self) -> None:
        """What was written goes, at the end of the session. It goes later where its disk doesn't answer."""
        self.finish()
        self.write([])
        if not self.is_stuck:
            self.finish()

    def renewed(self, text: Unsaved, old: Optional[str]) -> Optional[str]:
        """Writes a text, in the place of an older copy where there is one, and waits for that; elsewhere where that disk doesn't answer.
        Returns the path; None where it can be written nowhere."""
        runes = text.read()
        if not self.is_stuck or (old is not None and local_backup.is_aside(old)):
            try:
                return in_time(lambda: local_backup.renew(text.name, old, runes))
            except TimeoutError:
                self.is_stuck = True
        path = in_time(lambda: local_backup.keep_aside(text.name, runes))
        if old is not None and path is not None:
            self._left.append(old)
        return path

    def take(self, which: str) -> Optional[str]:
        """The path of a text, which is not one of these any more; None where there is none."""
        self.finish()
        return self.paths.pop(which, None)
