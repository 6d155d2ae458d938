"""The files of the session, by what the host's frames tell. There may be tens of thousands, so what a frame, a key or a line costs here
doesn't grow with their number."""
from bisect import bisect_left
from typing import List, Set

from ..text.client_terminal import ClientTerminal
from ..text.texts import COMMAND

ALL_TAGS = 65_536  # of a session


class SessionFiles:
    """The user's files are all but the command file and the hidden ones, of which the host tells; `tags` has them in their order."""

    def __init__(self, terminal: ClientTerminal):
        self.terminal = terminal
        self.tags: List[int] = []
        self.all: Set[int] = set()  # the same
        self.hidden: Set[int] = set()  # those that the host has told of; of some the names come later
        self.touched: Set[int] = set()  # files that were opened, or of which the host said that they are changed: no others can be either

    def hide(self, tag: int) -> None:
        """The host has told that a file is hidden."""
        if tag < ALL_TAGS:
            self.hidden.add(tag)
            self.sort(tag)

    def sort(self, tag: int) -> None:
        """A file is there, is hidden, or is gone: puts it among the user's, or takes it from these, where that is not so yet."""
        is_users = tag not in self.hidden and tag != COMMAND and self.terminal.is_known(tag)
        if is_users == (tag in self.all):
            return
        at = bisect_left(self.tags, tag)
        if is_users:
            self.all.add(tag)
            self.tags.insert(at, tag)
        else:
            self.all.remove(tag)
            del self.tags[at]

    def drop(self, tag: int) -> None:
        """A file is gone."""
        self.sort(tag)
        self.hidden.discard(tag)
        self.touched.discard(tag)
