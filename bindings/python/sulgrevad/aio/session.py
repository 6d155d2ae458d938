"""A terminal's session, which connects again by itself."""
import asyncio
import contextlib
import os
from collections import deque
from copy import copy
from functools import partial
from types import TracebackType
from typing import Any, Awaitable, Callable, Deque, Dict, List, Optional, Set, Tuple, Type

from sulgrevad.aio.document import Document
from sulgrevad.aio.ends import MESSAGES_VERSION, End, RequestRefused, SessionLost, SessionOver, heard, now, seconds, told_of, within
from sulgrevad.aio.requests import MOST_REQUESTS, MOST_RUNES, Request, Requests, fail, succeed
from sulgrevad.carrier import ID_BYTES
from sulgrevad.client import Client, ClientEvent, ClientEventKind
from sulgrevad.line import LineDetails, Tick
from sulgrevad.note import Note, NoteKind, path_of
from sulgrevad.overlay import EventKind, Splice, SpliceKind
from sulgrevad.results import Change, TerminalDid
from sulgrevad.status import NoMemory, SamError, Status, TooMany

VERSION = 2  # of the protocol
OPENING = 30.0  # seconds that a connection may take
COMMAND_FILE = 0  # its tag
MOST_TYPED = 512  # runes of a command line that are one request
REQUESTS_OF_A_LINE = 5  # at most, and one more for each 512 runes
NOT_LOADED = "\ufffd"  # stands for a rune that is not loaded
OTHER_VERSION = "the host is of another version: both sides have to be of one release"

Opener = Callable[[], Awaitable[Tuple[asyncio.StreamReader, asyncio.StreamWriter]]]
_Wait = Tuple[Callable[[], bool], Callable[[], None]]  # what is done once something holds


class Session(End):
    """A session at a host, over connections that may break: `opener` is called for each, as `lambda: asyncio.open_unix_connection(path)`.

    With `take_over` the session begins with the texts of another terminal's session, if the host has one, and that one is lost; without it
    the host refuses a second terminal. `on_line`, if the program gives it, is called without arguments whenever the state of the line has
    changed: `line` says what a status line shows. `on_note`, if the program sets it, is called as `on_note(note)` with each message of the
    host that answers nothing: as LOST, of a text that it could save nowhere, or CHANGED, of a file that another program has changed.

    The opener's OSError, EOFError or TimeoutError means that no connection can be made now. Any other exception of it ends the session.
    Make a session in the event loop. `async with` closes it at the end; if an exception leaves the block, the session stays at the host.
    Raises NoMemory.
    """

    def __init__(self, opener: Opener, take_over: bool = False, on_line: Optional[Callable[[], object]] = None) -> None:
        super().__init__()
        self._id = os.urandom(ID_BYTES)
        self._client = Client(self._id, take_over, now())
        self._opener, self._on_line = opener, on_line
        self.on_note: Optional[Callable[[Note], object]] = None
        self._documents: Dict[int, Document] = {}
        self._joins: "Dict[bytes, asyncio.Future[Note]]" = {}  # answers to come, by the paths that were asked for
        self._requests = Requests()
        self._waits: List[_Wait] = []
        self._futures: "Set[asyncio.Future[Any]]" = set()  # of all that wait
        self._changes: Deque[Callable[[], object]] = deque()  # that the program was not told of
        self._state = Client.DOWN
        self._is_greeted = False  # the host's first message has come
        self._is_closing = False
        self._why: Optional[BaseException] = None  # the session is over
        self._woken = asyncio.Event()
        self._requests.add(self._offer())
        self._keeper = asyncio.get_running_loop().create_task(self._keep())
        self._carrying: Optional["asyncio.Task[None]"] = None

    # ---- The program's calls

    async def open(self, name: str) -> Document:
        """Opens a text by its name, at samhost by its path, and returns it once all of it has come; a second time the same document. The
        path is one as `os.listdir` returns it. Raises NotText for a surrogate that stands for no byte; RequestRefused if the host has no
        such text, and NoteFault for a name that no message can have; TooMany if 1,000 requests wait; SessionOver and SessionLost, too."""
        self._check()
        tag = await self._join(path_of(name))
        known = self._documents.get(tag)
        document = self._begin_open(tag, name) if known is None else known  # one whose text is empty counts as false
        await self._until(lambda: document._is_ready or document._refusal is not None)
        if document._refusal:
            raise document._refusal
        return document

    @property
    def documents(self) -> List[Document]:
        """Returns the documents that are open."""
        return [document for document in self._documents.values() if document._is_ready and document.is_open]

    @property
    def id(self) -> bytes:
        """Returns the id of the session: 16 random bytes, a name and no secret. The first 8 of them in hex are samhost's name of it."""
        return self._id

    @property
    def line(self) -> LineDetails:
        """Returns the state of the line, for a status line: whether it `is_broken`, and by `silence` for how long an answer is missing,
        which is overdue from `overdue_after` on."""
        return self._client.describe(now())

    @property
    def has_all(self) -> bool:
        """Returns whether the host has all that was done here, and nothing waits."""
        return len(self._requests) == 0 and self._client.has_all

    def address_changed(self) -> None:
        """Doubts the line, because an address of the machine came or went: the host is asked, and if it doesn't answer within 2 seconds
        another connection is made. One that is to be made is tried after 1 second at most. It does nothing if the session is over."""
        if not self._is_over:
            self._client.address_changed(now())
            self._go_on()
            self._woken.set()

    async def wait(self) -> None:
        """Waits until the session is over: closed here, or ended by its host. Raises SessionLost if it is lost, and SessionOver if the
        opener has failed."""
        try:
            await self._until(lambda: False)
        except SessionOver as over:
            if isinstance(over, SessionLost) or over.__cause__:
                raise

    async def close(self) -> None:
        """Ends the session, after all that was asked for before, and returns once the host knows. What is not written is lost. If the await
        is cancelled, as by a timeout, the session is left. Raises SessionLost if it is lost while it waits; it does nothing if the session
        is over."""
        try:
            if self._is_over:
                return
            await self._until(lambda: len(self._requests) < MOST_REQUESTS and not self._requests.has_runs)
            self._is_closing = True
            self._requests.add(Request(partial(self._client.ask, EventKind.EXIT)))
            self._go_on()
            await self._until(lambda: self._client.state().exited)
            with contextlib.suppress(MemoryError, OSError):
                self._client.acknowledge()
                self._go_on()
                if self._writer:
                    await self._writer.drain()
        except SessionLost:
            raise
        except SessionOver:
            pass  # its host has ended it meanwhile
        finally:
            self.leave()

    def leave(self) -> None:
        """Ends this end alone, at once: the session stays at the host, as after a crash of this program. What has not come to the host is
        lost."""
        self._end(SessionOver("the session was closed"))

    async def __aenter__(self) -> "Session":
        return self

    async def __aexit__(
        self, kind: Optional[Type[BaseException]], error: Optional[BaseException], trace: Optional[TracebackType]
    ) -> None:
        if kind is None:
            await self.close()
        else:
            self.leave()

    # ---- What a document asks for

    def _check(self) -> None:
        """Raises the exception of a session that is over."""
        if self._why is not None:
            raise self._failure()

    def _failure(self) -> Exception:
        """Returns an exception of its own for each who waits."""
        if isinstance(self._why, SessionOver):
            return copy(self._why)
        failure = SessionLost(self._why.code) if isinstance(self._why, SamError) else SessionOver(str(self._why))
        failure.__cause__ = self._why
        return failure

    def _future(self) -> "asyncio.Future[Any]":
        """Returns a future that fails if the session is over first."""
        future: "asyncio.Future[Any]" = asyncio.get_running_loop().create_future()
        self._futures.add(future)
        future.add_done_callback(self._futures.discard)
        return future

    async def _until(self, holds: Callable[[], bool]) -> None:
        """Waits until something holds. Raises SessionOver or SessionLost if the session is over first."""
        self._check()
        if not holds():
            future = self._future()
            self._waits.append((lambda: future.done() or holds(), lambda: succeed(future, None)))
            self._expect()
            await future

    def _ask(self, future: "asyncio.Future[Any]", *requests: Request) -> None:
        """Asks for something of which somebody waits for the outcome. Raises TooMany."""
        try:
            self._requests.add(*requests)
        except TooMany:
            future.cancel()
            raise

    def _begin(self, ask: Callable[[], int]) -> "asyncio.Future[Note]":
        """Asks the host's program for something, and returns the future of its answer. Raises TooMany."""
        answer = self._future()
        self._ask(answer, Request(ask, refused=partial(fail, answer), answer=answer))
        self._go_on()
        return answer

    async def _join(self, path: bytes) -> int:
        """Has the host join a text, and returns its tag. All who ask for it meanwhile wait for one answer: else those who give up, and ask
        again as long as there is no line, would fill up what may wait."""
        if path not in self._joins:
            answer = self._joins[path] = self._begin(lambda: self._client.begin(NoteKind.OPEN, path=path, now=now()))
            answer.add_done_callback(partial(self._note_joined, path))
        answer = self._joins[path]
        await asyncio.wait({answer})  # a cancellation ends this wait alone
        return answer.result().tag

    def _note_joined(self, path: bytes, answer: "asyncio.Future[Note]") -> None:
        del self._joins[path]
        answer.exception()  # which nobody asks for if all have given up

    def _replace(self, document: Document, start: int, end: int, text: bytes) -> None:
        if not self._requests.put():  # what was asked for before doesn't find this edit
            raise NoMemory(Status.NO_MEMORY)
        self._client.replace(document.tag, start, end, text)
        self._note_change(document.on_change, start, end - start, text.decode())
        self._tell_changes()
        self._go_on()

    def _run(self, tag: int, line: str) -> "asyncio.Future[str]":
        printed = self._future()

        def ran(change: Change) -> None:
            """What it has put in a text is to be here, too: it may be more than came with it."""
            answer = partial(succeed, printed, self._client.text(COMMAND_FILE, change.start, change.came))
            self._waits.append((lambda: all(self._client.first_gap(tag) is None for tag in self._documents), answer))

        run, count = partial(self._client.run, tag, line), REQUESTS_OF_A_LINE + len(line) // MOST_TYPED
        self._ask(printed, Request(run, refused=partial(fail, printed), ran=ran, count=count))
        self._go_on()
        return printed

    def _offer(self) -> Request:
        """Returns the request that has the host tell the names of its files."""
        return Request(partial(self._client.ask, EventKind.OFFER_VERSION, version=VERSION))

    def _begin_open(self, tag: int, name: str) -> Document:
        """Asks for the names of files if this one is new, and for all of its text: at once, and whenever some of it is not loaded. An empty
        view asks for nothing by itself."""
        document = Document(self, tag, name)

        def see() -> int:
            self._client.see(tag, 0, MOST_RUNES)
            return self._client.ask(EventKind.OPEN, tag)

        def refuse(why: Exception) -> None:
            document._refusal = why
            self._documents.pop(tag, None)

        def loaded(_why: Optional[Exception] = None) -> None:
            self._waits.insert(0, (lambda: self._client.first_gap(tag) is None, document._note_ready))  # before `open`, which looks at that

        names = [] if self._client.file(tag).is_known else [self._offer()]
        load = Request(partial(self._client.ask, EventKind.LOAD, tag, number=MOST_RUNES))
        view = Request(partial(self._client.ask, EventKind.VIEW, tag), acted=loaded, refused=loaded)
        self._requests.add(*names, Request(see, refused=refuse), load, view)
        self._documents[tag] = document
        self._go_on()
        return document

    async def _close_document(self, document: Document) -> None:
        self._check()
        if document.is_open:
            self._requests.add(Request(partial(self._client.ask, EventKind.CLOSE, document.tag)))
            document._is_closing = True
            self._go_on()
        await self._until(lambda: not self._client.file(document.tag).is_open)
        self._documents.pop(document.tag, None)
        self._client.forget(document.tag)

    # ---- What comes

    def _advance(self) -> None:
        """Goes on until nothing moves."""
        try:
            self._requests.put()
            while (told := self._client.next_event(now())).kind != ClientEventKind.IDLE or self._take_back():
                self._take(told)
                self._requests.put()
            if self._client.state().exited and not self._is_closing:
                self._client.acknowledge()
                self._send()
                raise SessionOver("a command line has ended the session")
        finally:
            self._expect()

    def _take(self, told: ClientEvent) -> None:
        for splice in [*self._client.splices()]:
            self._show(splice)
        if told.kind in (ClientEventKind.NOTE, ClientEventKind.ANSWERED):
            self._hear(heard(self._client.note), told.did)
        elif told.kind in (ClientEventKind.STEPPED, ClientEventKind.REFUSED) and told.did:
            self._requests.take(told.did)
        elif told.kind == ClientEventKind.RAN and told.did:
            self._requests.meet_run(told.did)
        for wait in [*self._waits]:
            holds, act = wait
            if holds():
                self._waits.remove(wait)
                act()
        self._tell_changes()

    def _hear(self, note: Optional[Note], did: Optional[TerminalDid]) -> None:
        """Hears a message of the host, which may end a task. The first one says of which version all are."""
        if not self._is_greeted and (note is None or (note.kind, note.number) != (NoteKind.SESSION, MESSAGES_VERSION)):
            raise SessionOver(OTHER_VERSION)
        self._is_greeted = True
        if note is None:
            return
        if did:
            self._answer(self._requests.answered(did.task), note)
            return
        if note.kind == NoteKind.ENDED:
            self._meet_end(note.number)
        if note.kind == NoteKind.TAKEN_OVER:
            lost = SessionLost(Status.LINK_OTHER_SESSION)
            lost.by = note.text
            raise lost
        self._note_change(self.on_note, note)

    def _meet_end(self, status: int) -> None:
        """Meets the last message: the host goes once it knows that this has come."""
        with contextlib.suppress(MemoryError):
            self._client.acknowledge()
        self._send()
        over = SessionOver("its host has ended the session")
        over.exit_status = status
        raise over

    def _answer(self, futures: "List[asyncio.Future[Note]]", note: Note) -> None:
        """Answers those who wait for a message of the host; those of a write once all has come of that."""
        is_of_write = note.kind in (NoteKind.SAVED, NoteKind.NOT_SAVED)
        self._waits.append((self._write_ends(note) if is_of_write else lambda: True, partial(answer, futures, note)))

    def _write_ends(self, note: Note) -> Callable[[], bool]:
        """Returns what holds once all has come of a write: behind the host's message stands whether the file is dirty."""
        was_free = False

        def holds() -> bool:
            nonlocal was_free
            file = self._client.file(note.tag)
            was_free = was_free or not file.is_locked
            return not file.is_open or (was_free and (note.kind == NoteKind.SAVED or self._client.is_unsaved(note.tag)))

        return holds

    # ---- Texts

    def _text(self, tag: int, place: int, length: int) -> str:
        text = self._client.text(tag, place, length)
        if len(text) == length:
            return text
        rest = self._client.read(tag, place + len(text), length - len(text))
        return text + "".join(NOT_LOADED if rune is None else rune for rune in rest)

    def _show(self, splice: Splice) -> None:
        """Notes a change of a document that the program is to be told."""
        document = self._documents.get(splice.tag)
        if document is None or not document._is_ready or splice.kind == SpliceKind.EMPTIED:
            return
        came = 0 if splice.kind == SpliceKind.WENT else splice.length
        gone = 0 if splice.kind == SpliceKind.CAME else splice.length
        self._note_change(document.on_change, splice.place, gone, self._text(splice.tag, splice.place, came))

    def _note_change(self, callback: Optional[Callable[..., object]], *details: Any) -> None:
        if callback:
            self._changes.append(partial(callback, *details))

    def _tell_changes(self) -> None:
        """Tells the program of changes, one after another: what a callback changes is told behind what was changed before."""
        while self._changes:
            told_of(self._changes.popleft())

    def _take_back(self) -> bool:
        """Takes back a text for which the host has left no room. Returns whether there was one."""
        for tag, document in self._documents.items():
            is_left = self._client.is_waiting(tag) and self._client.file(tag).is_free
            if is_left and (dropped := self._client.drop_next(tag)):
                self._note_change(document.on_change, dropped.place, dropped.length, "")
                self._note_change(document.on_dropped or tell_dropped, dropped.text)
                return True
        return False

    # ---- The line

    def _tell_state(self) -> None:
        state = self.line.state
        if state != self._state:
            self._state = state
            if self._on_line:
                told_of(self._on_line)

    async def _keep(self) -> None:
        """Does what the client says."""
        try:
            while not self._is_over:
                tick = self._client.tick(now())
                self._tell_state()
                if tick == Tick.CONNECT:
                    await self._connect()
                elif tick == Tick.DROP:
                    self._drop(self._attempt)
                else:
                    self._go_on()  # which asks, too
                    if (line := self.line).state == Client.LOST:
                        raise SessionLost(line.why)
                if tick == Tick.NOTHING:
                    await self._pause()
        except Exception as why:
            self._end(why)

    def _expect(self) -> None:
        """Tells the line whether somebody waits, also for the end of the session, of which it doesn't know by itself."""
        self._client.expect(bool(self._futures), now())
        self._woken.set()  # what it says next may be due sooner now

    async def _pause(self) -> None:
        """Waits until the client has something to say."""
        self._woken.clear()  # a round before it has set it
        with contextlib.suppress(asyncio.TimeoutError):
            await within(seconds(self._client.due_in(now())), self._woken.wait())

    async def _connect(self) -> None:
        try:
            reader, writer = await within(OPENING, self._opener())
        except (OSError, EOFError, asyncio.TimeoutError):
            self._client.not_connected(now())
            return
        if self._carrying:
            self._carrying.cancel()
        self._attempt, self._writer = self._client.connected(now()), writer
        self._carrying = asyncio.get_running_loop().create_task(self._carry(reader, self._attempt))

    async def _carry(self, reader: asyncio.StreamReader, attempt: int) -> None:
        self._go_on()  # the hello goes first
        try:
            await self._read(reader, attempt)
        finally:
            self._client.broken(attempt, now())
            self._drop(attempt)
            self._woken.set()

    def _take_out(self, attempt: int) -> bytes:
        return self._client.take_out(attempt)

    def _receive(self, attempt: int, data: bytes) -> None:
        self._client.receive(attempt, data, now())

    def _end(self, why: BaseException) -> None:
        if self._is_over:
            return
        self._is_over, self._why = True, why
        for future in [*self._futures]:
            fail(future, self._failure())
        self._waits.clear()
        if self._writer:
            self._writer.close()  # once it has sent the rest
        current = asyncio.current_task()
        for task in (self._keeper, self._carrying):
            if task and task is not current:
                task.cancel()
        if self._on_line:
            told_of(self._on_line)


def answer(futures: "List[asyncio.Future[Note]]", note: Note) -> None:
    """Answers those who wait for a message of the host."""
    for future in futures:
        if note.kind in (NoteKind.REFUSED, NoteKind.NOT_SAVED):
            fail(future, RequestRefused(note))
        else:
            succeed(future, note)


def tell_dropped(text: str) -> None:
    """Tells the loop's handler of a text that was taken back."""
    message = "the host has no room for a text that was put in, so it is taken out again"
    asyncio.get_running_loop().call_exception_handler({"message": message, "text": text})
