"""One connection: a process, and the bytes that go to it and come from it."""
import contextlib
import fcntl
import os
import select
import signal
import subprocess
import time
from collections import deque
from typing import Callable, Deque, Dict, List, Optional

PIECE = 65_536  # bytes that one call reads
MOST_AT_ONCE = 131_072  # bytes that are taken of the pipe at once
IN_PIPE = 262_144  # bytes that wait in the pipe, so a relay need not wait for us at each piece
SECONDS_TO_END = 10  # how long the host may take to end
SECONDS_OF_SILENCE = 2  # the same where it has not answered for a while
MOST_IN_LINE = 4_096  # bytes of a line of standard error; more are dropped
MOST_LINES = 64  # lines of it that are taken before a key is


def poll_of(wanted: Dict[int, int]) -> "select.poll":
    """What waits for events by descriptor."""
    poll = select.poll()
    for descriptor, events in wanted.items():
        poll.register(descriptor, events)
    return poll


def polled(poll: "select.poll", seconds: Optional[float]) -> Dict[int, int]:
    """The events that are there, by descriptor. Waits for so many seconds at most; for ever where that is None."""
    return dict(poll.poll(None if seconds is None else max(0, int(seconds * 1000 + 0.999))))


def wait_for(wanted: Dict[int, int], seconds: Optional[float]) -> Dict[int, int]:
    """The same of what is wanted once."""
    return polled(poll_of(wanted), seconds)


class HostProcess:
    """A connection's process. Nothing here waits, but for `close`."""

    def __init__(self, command: List[str], own_session: bool = False):
        """In a session of its own a process has no screen, so that it can't ask there."""
        pipe, self._is_leader = subprocess.PIPE, own_session
        self.process = subprocess.Popen(command, stdin=pipe, stdout=pipe, stderr=pipe, bufsize=0, start_new_session=own_session)
        self.sink, self.source, self.messages = (
            end.fileno() for end in (self.process.stdin, self.process.stdout, self.process.stderr)
        )
        for end in (self.sink, self.source, self.messages):
            os.set_blocking(end, False)
        with contextlib.suppress(AttributeError, OSError):  # outside Linux, or where the user has many pipes
            fcntl.fcntl(self.source, fcntl.F_SETPIPE_SZ, IN_PIPE)
        self.waiting = bytearray()  # bytes that the pipe has not taken yet
        self.up = self.down = 0  # bytes that have gone each way
        self.is_lost = self.is_deaf = self._has_ended = False  # the host writes, reads, tells nothing more
        self._line = b""
        self._lines: Deque[bytes] = deque()  # that were not taken yet

    def send(self, data: bytes = b"") -> None:
        """Sends bytes, as many as go; the others wait. A host that reads no more may still have written something."""
        self.waiting += data
        while self.waiting and not self.is_deaf:
            try:
                count = os.write(self.sink, self.waiting)
            except BlockingIOError:
                return
            except OSError:
                self.is_deaf = True
                return
            self.up += count
            del self.waiting[:count]

    def receive(self) -> bytes:
        """What has come from the host; the link is lost where that has ended."""
        pieces: List[bytes] = []
        with contextlib.suppress(BlockingIOError):
            while len(pieces) < MOST_AT_ONCE // PIECE and not self.is_lost:
                pieces.append(self._read())
                self.is_lost = not pieces[-1]
                if len(pieces[-1]) < PIECE:
                    break
        data = b"".join(pieces)
        self.down += len(data)
        return data

    def _read(self) -> bytes:
        """One piece; none where the stream has ended."""
        try:
            return os.read(self.source, PIECE)
        except BlockingIOError:
            raise
        except OSError:
            return b""

    def listen(self) -> List[str]:
        """The lines that the host has written to its standard error since: so many at once that a key need not wait for them."""
        if not self._lines:
            self._read_lines()
        count = min(MOST_LINES, len(self._lines))
        return [self._lines.popleft().decode("utf-8", "replace") for _ in range(count)]

    def _read_lines(self) -> None:
        try:
            data = os.read(self.messages, PIECE)
        except BlockingIOError:
            return
        except OSError:
            data = b""
        self._has_ended = not data
        *lines, line = (self._line + data).split(b"\n") if data else [self._line, b""]
        self._line = line[:MOST_IN_LINE]
        self._lines.extend(line[:MOST_IN_LINE] for line in lines if line)

    @property
    def has_lines(self) -> bool:
        """Whether some have come, and were not taken yet."""
        return bool(self._lines)

    @property
    def is_quiet(self) -> bool:
        """Whether the host tells nothing more."""
        return self._has_ended and not self._lines

    def wanted(self) -> Dict[int, int]:
        """What to wait for: events by descriptor."""
        wanted = {}
        if not self.is_lost:
            wanted[self.source] = select.POLLIN
        if self.waiting and not self.is_deaf:
            wanted[self.sink] = select.POLLOUT
        if not self._has_ended:
            wanted[self.messages] = select.POLLIN
        return wanted

    def close(
        self, hear: Callable[[str], None], take: Callable[[bytes], None] = lambda data: None, seconds: float = SECONDS_TO_END
    ) -> Optional[int]:
        """Sends what waits, ends the streams, passes on what the host still tells and answers, and waits for its end. Returns its exit
        status; None where it doesn't end."""
        until = time.monotonic() + seconds
        while self.waiting and not self.is_deaf and self._pass_on(hear, take, until):
            self.send()
        self.process.stdin.close()
        self.is_deaf = True
        while not (self.is_quiet and self.is_lost) and self._pass_on(hear, take, until):
            pass
        try:
            return self.process.wait(max(0.1, until - time.monotonic()))
        except subprocess.TimeoutExpired:
            self.process.terminate()
            return None
        finally:
            self.process.stdout.close()
            self.process.stderr.close()

    def _pass_on(self, hear: Callable[[str], None], take: Callable[[bytes], None], until: float) -> bool:
        """Waits until something can be done, and passes on what has come: a host that still answers would else wait for us. Returns
        whether that was before a time."""
        has_lines = self.has_lines
        ready = wait_for(self.wanted(), 0.0 if has_lines else max(0.0, until - time.monotonic()))
        if self.source in ready and (data := self.receive()):
            take(data)
        if self.messages in ready or has_lines:
            for line in self.listen():
                hear(line)
        return (bool(ready) or has_lines) and time.monotonic() < until

    @property
    def early_status(self) -> Optional[int]:
        """The status with which the process has ended before its stream began; None where it goes on."""
        return self.process.returncode if self.is_lost and self.is_over(waits=True) else None

    def kill(self) -> None:
        """Ends the process, and what it has begun in a session of its own."""
        for end in (self.process.stdin, self.process.stdout, self.process.stderr):
            with contextlib.suppress(OSError):
                end.close()
        if self.process.poll() is None:
            with contextlib.suppress(OSError):
                os.killpg(self.process.pid, signal.SIGKILL) if self._is_leader else self.process.kill()

    def is_over(self, waits: bool = False) -> bool:
        """Whether the process is gone."""
        with contextlib.suppress(subprocess.TimeoutExpired):
            self.process.wait(SECONDS_OF_SILENCE if waits else 0)
        return self.process.returncode is not None
