"""How late the host's answers are, and how many messages are on the way: what the user is told of it, and what waits meanwhile."""
from typing import Callable, Optional

from .persistent_session import PersistentSession
from ..text.client_terminal import ClientTerminal

TOLD_AFTER = 0.15  # seconds on the way before messages are told of, so that with a quick host nothing flickers
KNOWN_AFTER = 3.0  # seconds for which answers are late until the user has to know: up to then keys wait, as over a slow line


class Lateness:
    """The way to the host: a line, and what stands on it."""

    def __init__(self, terminal: ClientTerminal, line: PersistentSession, clock: Callable[[], float]):
        self.terminal, self.line, self.clock = terminal, line, clock
        self._since: Optional[float] = None  # since when messages are on the way
        self._late_since: Optional[float] = None

    @property
    def is_late(self) -> bool:
        """Whether the line is lost, or an answer is late: what needs an answer is held back then."""
        return self.line.is_broken or self.line.silence >= self.line.late_after

    @property
    def is_known_late(self) -> bool:
        """Whether that stood on the screen for a while."""
        return self._late_since is not None and self.clock() - self._late_since >= KNOWN_AFTER

    def note_late(self) -> bool:
        """Looks whether answers are late, and returns that."""
        is_late = self.is_late
        if not is_late:
            self._late_since = None
        elif self._late_since is None:
            self._late_since = self.clock()
        return is_late

    @property
    def seconds_of_silence(self) -> Optional[float]:
        """How long until the line may be late, is known to be, or another second of that is to be told of; None where no answer is due."""
        silence = self.line.silence
        if silence <= 0 and not self.line.is_broken:
            return None
        if self._late_since is None:
            return max(0.0, self.line.late_after - silence)
        left = KNOWN_AFTER - (self.clock() - self._late_since)
        return left if left > 0 else 1.0 - silence % 1.0

    def _under_way(self) -> int:
        """How many messages the host may not have taken."""
        count = 0 if self.line.has_all else self.terminal.state().under_way
        if count == 0:
            self._since = None
        elif self._since is None:
            self._since = self.clock()
        return count

    @property
    def seconds(self) -> Optional[float]:
        """How long until the messages are to be told of; None where they are told of, or there are none."""
        return self._left if self._under_way() else None

    @property
    def _left(self) -> Optional[float]:
        left = 0.0 if self._since is None else self._since + TOLD_AFTER - self.clock()
        return left if left > 0 else None

    @property
    def told(self) -> int:
        """How many messages are to be told of, of those that were on the way as `seconds` looked."""
        return 0 if self._since is None or self._left is not None else self._under_way()
