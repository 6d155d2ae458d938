"""What a session asks of its client that is no edit."""
import asyncio
from collections import deque
from dataclasses import dataclass
from typing import Any, Callable, Deque, Dict, List, Optional

from sulgrevad.note import Note
from sulgrevad.results import Change, TerminalDid
from sulgrevad.status import EditRefused, NoMemory, NoteFault, Status, TooMany, Waiting, error_of

MOST_REQUESTS = 1000  # that wait
MOST_RUNES = 1_000_000  # of a text


def fail(future: "asyncio.Future[Any]", why: Exception) -> None:
    """Answers somebody who waits by an exception."""
    if not future.done():
        future.set_exception(why)


def succeed(future: "asyncio.Future[Any]", result: Any) -> None:
    """Answers somebody who waits by a result."""
    if not future.done():
        future.set_result(result)


@dataclass
class Request:
    """Something that the client is asked for: `ask` does that, and returns its number. `acted` is called once it has acted, `refused` if it
    does nothing and never will. That of a task of the host's program is answered instead of that it acts: whoever waits has `answer`. For a
    command line `ran` is called, with where its output stands. It counts as so many requests of the client."""

    ask: Callable[[], int]
    acted: Callable[[], None] = lambda: None
    refused: Callable[[Exception], None] = lambda why: None
    answer: "Optional[asyncio.Future[Note]]" = None
    ran: Optional[Callable[[Change], None]] = None
    count: int = 1


class Requests:
    """The requests of a client, in their order: those that it hasn't got, because memory was out; by their numbers those that have not
    acted; and by those of their tasks who waits for an answer."""

    def __init__(self) -> None:
        self._new: Deque[Request] = deque()
        self._waiting: Dict[int, Request] = {}
        self._tasks: "Dict[int, List[asyncio.Future[Note]]]" = {}
        self._runs: Dict[int, Request] = {}

    def __len__(self) -> int:
        counted = sum(request.count for request in (*self._new, *self._runs.values()))
        return counted + len(self._waiting) + len(self._tasks)

    @property
    def has_runs(self) -> bool:
        """Whether a command line is not answered."""
        return bool(self._runs) or any(request.ran for request in self._new)

    def add(self, *requests: Request) -> None:
        """Adds requests behind the others, all or none. Raises TooMany if 1,000 would wait."""
        if len(self) + sum(request.count for request in requests) > MOST_REQUESTS:
            raise TooMany(Status.TOO_MANY)
        self._new.extend(requests)

    def put(self) -> bool:
        """Gives the client what it hasn't got, and returns whether it has all then. Raises NoMemory: the rest stays."""
        while self._new:
            new = self._new[0]
            try:
                number = new.ask()
            except Waiting:  # an edit was put for whose step memory was out
                raise NoMemory(Status.NO_MEMORY) from None
            except TooMany:  # what it asks for by itself, to load a text, counts there: once some have acted the rest has room
                return False
            except (NoteFault, EditRefused) as why:  # no message can have this path, or the file of a command line is closed
                new.refused(why)
            else:
                if new.answer:
                    self._tasks.setdefault(number, []).append(new.answer)
                else:
                    (self._runs if new.ran else self._waiting)[number] = new
            self._new.popleft()
        return True

    def take(self, did: TerminalDid) -> None:
        """Answers the request that has acted, or was refused, if this tells of one: what the client loads by itself has a number, too."""
        request = self._waiting.pop(did.request, Request(lambda: 0))
        if did.why is None:
            request.acted()
            return
        request.refused(error_of(did.why))
        if run := self._runs.pop(did.request, None):
            run.refused(error_of(did.why))
        for future in self.answered(did.task):
            fail(future, error_of(did.why))

    def meet_run(self, did: TerminalDid) -> None:
        """Tells of the command line that has run."""
        run = self._runs.pop(did.request, None)
        if run and run.ran:
            run.ran(did.change)

    def answered(self, task: int) -> "List[asyncio.Future[Note]]":
        """Takes out those who wait for the answer of a task, and returns them."""
        return self._tasks.pop(task, [])
