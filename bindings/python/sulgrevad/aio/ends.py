"""What both ends of a session share: exceptions, the clock, callbacks, and bytes that move to and from the newest connection."""
import asyncio
import time
from typing import Any, Awaitable, Callable, Optional, TypeVar

from sulgrevad.note import Note, read_note
from sulgrevad.status import LinkFault, NoteFault, SamError, Status

MILLISECONDS = 1000  # in a second
MOST_PIECE = 65_536  # bytes that are read together
SHORT = 0.1  # seconds after which a call is made again for which memory was out
MESSAGES_VERSION = 1  # of the messages of a session


class SessionOver(Exception):
    """The session is over: it was closed here, a command line was `q`, or its host has ended it. `exit_status` is the one that the host
    told; None if it told none."""

    exit_status: Optional[int] = None


class SessionLost(SamError, SessionOver):
    """The session is lost: its host doesn't know it any more, another terminal has taken it over (LINK_OTHER_SESSION; `by` is its machine,
    if the host told it), or the host's bytes or messages are wrong. `code` is the status that says which. The texts of its documents can
    still be read."""

    by: str = ""


class RequestRefused(Exception):
    """The host didn't do what was asked for: `note` is its answer, with a `code` of NoteCode and a `text` for people."""

    def __init__(self, note: Note) -> None:
        super().__init__(note.text)
        self.note = note


def now() -> int:
    """Returns the time, in milliseconds of a clock that doesn't jump."""
    return int(time.monotonic() * MILLISECONDS)


def seconds(milliseconds: Optional[int]) -> Optional[float]:
    """Returns a time of that clock in seconds."""
    return None if milliseconds is None else milliseconds / MILLISECONDS


def heard(data: bytes) -> Optional[Note]:
    """Returns the message that came; None for one of a kind that only a later version knows. Raises NoteFault."""
    try:
        return read_note(data)
    except NoteFault as fault:
        if fault.code != Status.NOTE_BAD_KIND:
            raise
        return None


Result = TypeVar("Result")


async def within(limit: Optional[float], work: Awaitable[Result]) -> Result:
    """Does what takes at most so many seconds; None is no limit. Raises TimeoutError of asyncio. It is `asyncio.wait_for`, which before
    Python 3.12 drops a cancellation that comes as the work ends: then a program that is interrupted would go on for ever."""
    task = asyncio.ensure_future(work)
    try:
        await asyncio.wait({task}, timeout=limit)
        if not task.done():
            raise asyncio.TimeoutError
        return task.result()
    finally:
        if not task.cancel() and not task.cancelled():
            task.exception()  # which nobody asks for if this is cancelled


def told_of(callback: Callable[..., object], *arguments: Any) -> None:
    """Calls a callback of the program. What it raises goes to the loop's handler of exceptions, and ends nothing here."""
    try:
        callback(*arguments)
    except Exception as error:
        asyncio.get_running_loop().call_exception_handler({"message": f"{callback!r} has failed", "exception": error})


class End:
    """One end. What can't be done because memory is out is tried again later, and nothing is lost."""

    def __init__(self) -> None:
        self._writer: Optional[asyncio.StreamWriter] = None  # of the newest connection
        self._attempt = 0
        self._is_over = self._is_going = self._is_asked = False
        self._retry: Optional[asyncio.TimerHandle] = None

    # ---- What each end does in its own way

    def _advance(self) -> None:
        raise NotImplementedError

    def _take_out(self, attempt: int) -> bytes:
        raise NotImplementedError

    def _receive(self, attempt: int, data: bytes) -> None:
        raise NotImplementedError

    def _end(self, why: Exception) -> None:
        raise NotImplementedError

    # ---- What both do

    def _go_on(self) -> None:
        """Moves all that can move. If memory is out it tries again later. If a callback of the program calls it inside itself, it goes
        round once more."""
        self._is_asked = True
        if self._is_going:
            return
        self._is_going = True
        try:
            while self._is_asked and not self._is_over:
                self._is_asked = False
                self._advance()
                self._send()
        except MemoryError:
            if self._retry:
                self._retry.cancel()
            self._retry = asyncio.get_running_loop().call_later(SHORT, self._go_on)
        except (SamError, SessionOver) as why:
            self._end(why)
        finally:
            self._is_going = False

    def _send(self) -> None:
        try:
            while self._writer and (data := self._take_out(self._attempt)):
                self._writer.write(data)
        except LinkFault:
            self._drop(self._attempt)  # it is over

    async def _read(self, reader: asyncio.StreamReader, attempt: int) -> None:
        """Reads a connection until it is over."""
        try:
            while not self._is_over and (data := await reader.read(MOST_PIECE)):
                while not self._is_over:
                    try:
                        self._receive(attempt, data)
                        break
                    except MemoryError:
                        await asyncio.sleep(SHORT)  # no later bytes are read meanwhile
                self._go_on()
        except (OSError, EOFError, LinkFault):
            pass  # it is over for the link, too

    def _drop(self, attempt: int) -> None:
        """Closes the connection, if it is the newest. What it has not sent is of no use."""
        if self._writer and attempt == self._attempt:
            if not self._writer.is_closing():
                self._writer.transport.abort()
            self._writer = None
