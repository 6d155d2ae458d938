"""A limit of time for work of others' code on others' texts, as regular expressions of a lexer: it may take for ever."""
import signal
import time
from typing import Any


class TooSlow(BaseException):
    """The work has been stopped. No code takes it for an error of its own."""


class TimeLimit:
    """Stops what the first thread does in a `with` of it, by TooSlow, once that has taken so many seconds of the processor. What it calls
    has to look for signals, as regular expressions do. None stands inside of another."""

    def __init__(self, seconds: float):
        self.seconds = seconds
        self._is_on, self._until = False, 0.0

    def __enter__(self) -> None:
        signal.signal(signal.SIGALRM, self._ring)
        self._until, self._is_on = time.thread_time() + self.seconds, True
        signal.setitimer(signal.ITIMER_REAL, self.seconds)

    def __exit__(self, *_: Any) -> None:
        self._is_on = False
        signal.setitimer(signal.ITIMER_REAL, 0)

    def _ring(self, *_: Any) -> None:
        left = self._until - time.thread_time()
        if self._is_on and left > 0:  # other programs had the processor
            signal.setitimer(signal.ITIMER_REAL, left)
        elif self._is_on:
            self._is_on = False
            raise TooSlow
