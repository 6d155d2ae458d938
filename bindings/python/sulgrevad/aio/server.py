"""The host's end of a session."""
import asyncio
import contextlib
import errno
import inspect
import os
import socket
from collections import defaultdict, deque
from typing import Callable, DefaultDict, Deque, Dict, List, Mapping, Optional, Sequence, Set, Tuple, Union

from sulgrevad.aio.ends import MESSAGES_VERSION, End, heard, within
from sulgrevad.carrier import ID_BYTES
from sulgrevad.host import Host
from sulgrevad.link import HELLO_BYTES, Hello, Link, What, read_hello, write_refusal
from sulgrevad.note import Note, NoteCode, NoteKind, write_note
from sulgrevad.status import LinkFault, MarkRefused, Missing, Status, Step

MOST_WORDS = 900  # characters of words for people in one message
MOST_REQUESTS = 1000  # for writes of a file that wait
GREETING = 30.0  # seconds that a hello may take
LINGER = 30.0  # seconds for which an ended session waits for its terminal to hear of that
CLOSING = 1.0  # seconds that connections may take to close
CODES = {
    errno.ENOSPC: NoteCode.NO_SPACE, errno.EDQUOT: NoteCode.NO_SPACE, errno.EACCES: NoteCode.NO_PERMISSION,
    errno.EPERM: NoteCode.NO_PERMISSION, errno.EROFS: NoteCode.READ_ONLY, errno.ENOENT: NoteCode.NOT_FOUND,
    errno.EISDIR: NoteCode.IS_FOLDER, errno.EIO: NoteCode.FAILED,
}  # fmt: skip

OnWrite = Callable[[str, str], object]
Address = Union[str, "os.PathLike[str]", Tuple[str, int], Tuple[asyncio.StreamReader, asyncio.StreamWriter]]


class _Served(End):
    """The host's end of one terminal's session. What host or link couldn't take, because memory was out, is kept, and brought again."""

    def __init__(self, server: "Server", id: bytes) -> None:
        super().__init__()
        self.id, self.host, self.link, self.server = id, Host(), Link(Link.HOST, id), server
        self.tags: Dict[int, str] = {}
        self.requests: DefaultDict[int, Deque[int]] = defaultdict(lambda: deque(maxlen=MOST_REQUESTS))  # of the next writes
        self.to_mark: Set[int] = set()  # files that are dirty, and not marked yet
        self._came = b""  # bytes that the host has not taken
        self._heard: Optional[bytes] = None  # a note that is not done yet
        self._outgoing: Deque[Tuple[Callable[[bytes], None], bytes]] = deque()  # what the link has not taken, and by which call it does
        self._queue_note(Note(NoteKind.SESSION, number=MESSAGES_VERSION, path=id.hex().encode(), text=socket.gethostname()))

    def add(self, name: str, text: str) -> int:
        tag = self.host.add_file(name, text)
        write_note(Note(NoteKind.OPEN, path=name.encode()))  # raises what each terminal would meet that opens it
        self.tags[tag] = name
        return tag

    def tag_of(self, name: str) -> Optional[int]:
        return next((tag for tag, known in self.files() if known == name), None)

    def files(self) -> List[Tuple[int, str]]:
        """The tags and names of the texts that are not closed."""
        return [(tag, name) for tag, name in self.tags.items() if self.host.has_file(tag)]

    def new_files(self) -> List[Tuple[str, str]]:
        """The names and texts of the files that the terminal has made."""
        tags = [tag for tag in range(1, self.host.tags) if tag not in self.tags and self.host.has_file(tag)]
        return [(self.host.name(tag), self.host.text(tag)) for tag in tags]

    @property
    def has_heard(self) -> bool:
        """Whether the terminal has all that was put for it."""
        return not self._outgoing and self.host.pending == 0 and self.link.acknowledged >= self.link.put_count

    async def carry(self, reader: asyncio.StreamReader, writer: asyncio.StreamWriter, attempt: int) -> None:
        """Carries the session over a connection until that is over."""
        self._drop(self._attempt)  # a dead one, perhaps
        self._attempt, self._writer = attempt, writer
        self._go_on()
        try:
            await self._read(reader, attempt)
        finally:
            self.link.broken(attempt)
            self._drop(attempt)

    def stop(self) -> None:
        """Ends it for this host."""
        self._is_over = True
        if self._writer:
            self._writer.close()  # once it has sent the rest

    # ---- What moves

    def _advance(self) -> None:
        self._take_in()
        self._mark()
        self._put_out()

    def _take_in(self) -> None:
        self._make_steps()
        while True:
            if self._heard is None:
                self._came = self._came or self.link.take_in()
            if self._came:
                self.host.bring(self._came)
                self._came = b""
                self._make_steps()
            elif not self._take_note():
                return

    def _take_note(self) -> bool:
        """Takes the note that is next. Returns whether there was one."""
        if self._heard is None:
            self._heard = self.link.next_note()
        if self._heard is None:
            return False
        if note := heard(self._heard):
            self._hear(note)
        self._heard = None
        return True

    def _queue(self) -> None:
        """Moves what the host has for the terminal behind what goes out already."""
        if data := self.host.take_out():
            self._outgoing.append((self.link.put, data))

    def _queue_note(self, note: Note) -> None:
        """Moves a note behind what goes out already. What its words have of a name that is no UTF-8 is escaped."""
        text = note.text.encode("utf-8", "backslashreplace").decode()[:MOST_WORDS]
        self._outgoing.append((self.link.put_note, write_note(note._replace(text=text))))

    def _put_out(self) -> None:
        self._queue()
        while self._outgoing:
            put, data = self._outgoing[0]
            put(data)
            self._outgoing.popleft()
        if self.host.is_done:
            if not self.has_heard:
                self.link.ask()
            self.server._end_soon(self.has_heard)

    def _take_out(self, attempt: int) -> bytes:
        return self.link.take_out(attempt)

    def _receive(self, attempt: int, data: bytes) -> None:
        self.link.feed(attempt, data)

    def _end(self, why: Exception) -> None:
        self.stop()
        self.server._end(why)

    def _make_steps(self) -> None:
        while True:
            did = self.host.step()
            for tag in self.host.written():
                self._write(tag)
            self._mark()
            self._queue()
            if did.step == Step.IDLE:
                return

    def _write(self, tag: int) -> None:
        """Has the program write a text, and says what became of it before the answer goes out."""
        name, request = self.tags.get(tag) or self.host.name(tag), self.requests[tag].popleft() if self.requests[tag] else 0
        note = Note(NoteKind.SAVED, request, tag, path=name.encode(), text=f"{name} is written")
        try:
            if tag not in self.tags:
                raise LookupError("a file of the terminal's own")
            self.server._write(name, self.host.saved(tag))
        except Exception as why:
            code = CODES.get(why.errno or 0, NoteCode.OTHER) if isinstance(why, OSError) else NoteCode.OTHER
            note = note._replace(kind=NoteKind.NOT_SAVED, code=code, text=f"{name} is not written: {why}")
            self.to_mark.add(tag)
        self._queue_note(note)

    def _mark(self) -> None:
        """Marks files as dirty whose terminal knows them."""
        for tag in [*self.to_mark]:
            with contextlib.suppress(MarkRefused, Missing):
                self.host.mark_dirty(tag)
                self.to_mark.discard(tag)

    def _hear(self, note: Note) -> None:
        if note.kind == NoteKind.WRITE:
            self.requests[note.tag].append(note.request)
        elif note.kind == NoteKind.OPEN:
            self._open(note)
        elif note.request:
            self._queue_note(Note(NoteKind.REFUSED, note.request, code=NoteCode.OTHER, text="this host doesn't do that"))

    def _open(self, note: Note) -> None:
        name = note.path.decode("utf-8", "surrogateescape")
        tag = self.tag_of(name)
        if tag is None and name in self.server.saved:  # it was closed
            tag = self.add(name, self.server.saved[name])
        if tag is None:
            self._queue_note(Note(NoteKind.REFUSED, note.request, code=NoteCode.NOT_FOUND, text=f"there is no {name}"))
        else:
            self._queue_note(Note(NoteKind.OPENED, note.request, tag))


class Server:
    """A host for one session: texts by name, and terminals that come by `accept`, one at a time.

        server = Server({"notes": "tea\\n"}, on_write)
        async with await asyncio.start_unix_server(server.accept, path):
            await server.wait()

    The first terminal begins the session, and goes on over as many connections as it needs. Another one is refused, or takes the texts over
    if it asks for that. `on_write` is called as `on_write(name, text)` when a terminal has a text written: it returns once that is safe, or
    raises an exception, mostly an OSError, which the terminal is told. It is called in the event loop, so it should not take long, and is
    no coroutine function: of what would have to be awaited the terminal is told that it failed. A file that a terminal makes is none of
    these texts, and is not written. Raises AddRefused, NotText and NoMemory, and NoteFault (NOTE_BAD_PATH) for a name with a zero, which
    no terminal could open.
    """

    def __init__(self, files: Mapping[str, str], on_write: Optional[OnWrite] = None) -> None:
        self.saved = dict(files)
        self._on_write = on_write
        self._served: Optional[_Served] = None
        self._over: "asyncio.Future[None]" = asyncio.get_running_loop().create_future()
        self._linger: Optional[asyncio.TimerHandle] = None
        self._connections: Dict["Optional[asyncio.Task[None]]", asyncio.StreamWriter] = {}  # by the tasks that serve them
        self._begin(bytes(ID_BYTES), self.saved, ())  # which raises what these texts raise

    @property
    def texts(self) -> Dict[str, str]:
        """Returns the texts by name as they are now, written or not."""
        served = self._served
        return {**self.saved, **({name: served.host.text(tag) for tag, name in served.files()} if served else {})}

    @property
    def unsaved(self) -> List[str]:
        """Returns the names of the texts that were changed since they were written."""
        served = self._served
        return [name for tag, name in served.files() if tag in served.to_mark or served.host.is_dirty(tag)] if served else []

    async def accept(self, reader: asyncio.StreamReader, writer: asyncio.StreamWriter) -> None:
        """Serves one connection until it is over: give it to `asyncio.start_server` or `asyncio.start_unix_server`."""
        data, task = b"", asyncio.current_task()
        self._connections[task] = writer
        try:
            async def greet() -> Optional[Hello]:
                nonlocal data
                while (hello := read_hello(data)) is None and (more := await reader.read(HELLO_BYTES - len(data))):
                    data += more
                return hello

            hello = await within(GREETING, greet())
            if hello is not None and self._over.done():
                raise LinkFault(Status.LINK_NO_SESSION)
            if hello is not None:
                served = self._answer(hello, data)
                await served.carry(reader, writer, hello.attempt)
        except LinkFault as fault:
            writer.write(write_refusal(fault.code, data))
        except (OSError, EOFError, MemoryError, asyncio.TimeoutError):
            pass  # its terminal tries again
        finally:
            writer.close()
            self._connections.pop(task, None)

    async def wait(self) -> None:
        """Waits until the session is over. Raises the fault of a terminal whose bytes were wrong."""
        await asyncio.shield(self._over)

    async def close(self) -> None:
        """Ends the session for its terminal, too."""
        served = self._served
        if served and not served._is_over:
            served._queue_note(Note(NoteKind.ENDED))
            served._go_on()
            with contextlib.suppress(OSError):
                if served._writer:
                    await served._writer.drain()
            served.stop()
        self._end(None)
        for writer in self._connections.values():
            writer.close()
        if tasks := [task for task in self._connections if task and task is not asyncio.current_task()]:
            await asyncio.wait(tasks, timeout=CLOSING)

    # ---- Its sessions

    def _begin(self, id: bytes, texts: Mapping[str, str], unsaved: Sequence[str]) -> _Served:
        served = _Served(self, id)
        for name, text in texts.items():
            tag = served.add(name, text)
            if name in unsaved:
                served.to_mark.add(tag)
        return served

    def _answer(self, hello: Hello, data: bytes) -> _Served:
        """Takes a connection. Raises LinkFault if it is refused, and then nothing has changed."""
        served = self._served
        if served is None or (hello.what == What.TAKE_OVER and hello.id != served.id):
            served = self._heir(hello.id)
        served.link.answer(data)
        if served is not self._served:
            if self._served:
                self._served.stop()
            self._served = served
        return served

    def _heir(self, id: bytes) -> _Served:
        """Begins the session of a terminal, with the texts of the one before. Raises LinkFault if that one has ended its session."""
        before = self._served
        if before and before.host.is_done:
            raise LinkFault(Status.LINK_NO_SESSION)
        served = self._begin(id, self.texts, self.unsaved)
        served.to_mark.update(served.host.add_file(*file) for file in (before.new_files() if before else ()))
        return served

    def _write(self, name: str, text: str) -> None:
        if self._on_write and inspect.isawaitable(self._on_write(name, text)):
            raise TypeError("on_write is not to be awaited")  # nobody could know that the text is safe
        self.saved[name] = text

    def _end_soon(self, has_heard: bool) -> None:
        """Ends once the terminal has heard that the session is over, or after a while."""
        if has_heard:
            self._end(None)
        elif self._linger is None:
            self._linger = asyncio.get_running_loop().call_later(LINGER, self._end, None)

    def _end(self, why: Optional[Exception]) -> None:
        if not self._over.done():
            if why is None:
                self._over.set_result(None)
            else:
                self._over.set_exception(why)


async def _expect_unserved(path: str) -> None:
    """Raises OSError if a program listens at the path: asyncio would take its socket away, and its terminals would not find back."""
    try:
        _, writer = await asyncio.open_unix_connection(path)
    except OSError:
        return
    writer.close()
    raise OSError(errno.EADDRINUSE, os.strerror(errno.EADDRINUSE), path)


async def serve(files: Mapping[str, str], address: Address, on_write: Optional[OnWrite] = None) -> Dict[str, str]:
    """Serves texts by name to one session, as a `Server` does, and returns them once that is over, written or not. The address is the path
    of a Unix socket, a host and a port, or a reader and a writer that are connected: then the session ends with that connection. If the
    await is cancelled the terminal is told that the session is over. Raises what `Server` raises; OSError if nobody can listen there, or
    another program does; and the fault of a terminal whose bytes were wrong."""
    server, listener = Server(files, on_write), None
    try:
        if isinstance(address, (str, os.PathLike)):
            await _expect_unserved(os.fspath(address))
            listener = await asyncio.start_unix_server(server.accept, address)
        elif isinstance(address[0], asyncio.StreamReader):
            await server.accept(*address)
            return server.texts
        else:
            listener = await asyncio.start_server(server.accept, *address)
        await server.wait()
    finally:
        if listener:
            listener.close()
        await server.close()
    return server.texts
