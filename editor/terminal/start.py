"""The start: the host is run first, and while it answers the editor is read in."""
from typing import List, NamedTuple, Optional

from .files import local_backup
from .keys.bindings import KeySet
from .line.persistent_session import PersistentSession
from .line.shells import for_shells, shells_of

STATUS_NO_HOST = 1


class Shows(NamedTuple):
    """What is shown: the numbers of lines, details in the status line, tab stops so many columns apart; and all without colours."""

    numbers: bool
    details: bool
    tab: int
    plain: bool


class Wish(NamedTuple):
    """What the user asks for: the words of the host's command, the files, how Enter begins a line, for how many hours a session stays
    that is alone, whether he goes on with one that stays, whose name may be given in place of the files, what is shown, how many shells
    read the words after the command, None where the command shows that, and which set of keys."""

    command: List[str]
    files: List[str]
    indents: bool
    hours: Optional[str]
    takes_over: bool
    shows: Shows
    shells: Optional[int]
    keys: KeySet

    def words(self) -> List[str]:
        """The words for a host after those of the session."""
        times = ["--times"] if any(local_backup.left(self.files).values()) else []  # whether these are newer only the host can tell
        hours = ["--stay", self.hours] if self.hours is not None else []
        dash = ["--"] if any(name.startswith("-") for name in self.files) else []
        return self._quoted("--left", *times, *hours, *dash, *self.files)

    def _quoted(self, *words: str) -> List[str]:
        """Words that come after those of the command."""
        return for_shells(words, shells_of(self.command) if self.shells is None else self.shells)

    def link(self) -> PersistentSession:
        if self.takes_over:
            line = PersistentSession(self.command, lambda name: self._quoted("--take", *self.files), takes_over=True)
        else:
            line = PersistentSession(self.command, lambda name: ["--serve", name, *self.words()])
        line.keys, line.stays = self.keys, self.takes_over or self.hours is None or float(self.hours) > 0
        return line


def edit(wish: Wish) -> int:
    """Runs a host, and edits files. Returns the exit status."""
    local_backup.host = tuple(wish.command)
    try:
        link = wish.link()
    except OSError as error:
        from .session import say

        say(f"samterm: {wish.command[0]}: {error.strerror}")
        return STATUS_NO_HOST
    from .session import run_session  # the host begins meanwhile

    return run_session(wish, link)
