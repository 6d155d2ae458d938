"""A durable server: a host with its end of a link, which goes on after a crash from records of what it took."""
import ctypes
import enum
from collections import deque
from ctypes import byref, c_size_t, c_uint16, c_uint32
from typing import Any, Deque, Iterable, NamedTuple, Optional, Tuple

from sulgrevad._library import CEffect, Handle, Text, bytes_of
from sulgrevad.carrier import MOST_NOTE, MOST_PIECE, Bytes, Mover, id_of
from sulgrevad.sides import MOST_IN_NAME, Counts, Held, Texts, least


class EffectKind(enum.IntEnum):
    """The kinds of effects: a file is to be written, a message to be heard, or a file that was dirty was closed."""

    WRITE = 1
    HEAR = 2
    CLOSE = 3


KINDS = {int(kind): kind for kind in EffectKind}


class Effect(NamedTuple):
    """What the program is asked to do: to write `saved` of the file `tag`; to hear the message `heard()`, of `len` bytes; or to keep a
    copy, if it does, of the file `tag`, which was closed while it was dirty: `closed_name()` and `closed_text()`, of `len` bytes. What a
    kind doesn't say is 0."""

    kind: EffectKind
    tag: int
    len: int


class DurableServer(Counts, Texts, Mover):
    """A host with its end of a link, which outlives a crash. It makes a record of each thing that it takes, and nothing that a record
    decides goes out before that record is durable. So the terminal never learns of anything that a crash undoes.

        server.accept(hello)                          the first 42 bytes of a new connection
        server.receive(attempt, data)                 the bytes that it brings behind them
        while (body := server.next_record()) is not None: ..    into the journal
        server.durable(count)                         so many more of the records are safe: after os.fdatasync, say
        sock.sendall(server.take_out(attempt))        bytes for the connection
        if effect := server.next_effect(): ..         what the program is asked to do
        server.effect_done()                          it is done, and the server goes on behind it

    After a crash `recover(id, records)` makes the server again, and the terminal connects again as after any broken connection. The other
    end is a `Link` or a `Line`. The server opens no file and no connection, and knows no clock.

    A call that takes something raises, in this order: the fault by which the server has stopped before (StreamFault, HostRefused,
    ServerFault); Waiting if earlier work is left; NoMemory; its own refusals. Nothing is taken then, and no record is made. Once it is
    taken, Unfinished says that memory is short: until `go_on` has returned, no other call takes anything, and nothing goes out.
    """

    _prefix = "sam_server"

    def __init__(self, id: Bytes) -> None:
        """Makes the server of a session without files (but the command file), before its first connection. The id is the session's name: 16
        bytes that the terminal chose at random. Raises ValueError for an id of another length, NoMemory."""
        self._prepare()
        super().__init__(id_of(id))

    def _prepare(self) -> None:
        """Makes room for what an exception keeps back: of records, and of the bytes for the connection `_attempt`."""
        if not hasattr(self, "_out"):
            self._out: Deque[Tuple[Any, int, c_size_t]] = deque()
            self._records: Deque[Tuple[Any, int, c_size_t]] = deque()
            self._attempt = 0

    def free(self) -> None:
        """Frees it, with all that it keeps. Any later call but this one raises HandleFault."""
        self._out.clear()
        self._records.clear()
        super().free()

    # ---- What it takes

    def add_file(self, name: Text, text: Text = "") -> int:
        """Adds a file, and returns its tag: 1 for the first, 2 for the next, and so on. Its own refusals: NotText; AddRefused. After
        Unfinished the file has joined under the next tag."""
        name, text = bytes_of(name), bytes_of(text)
        return self._number("add_file", c_uint16, name, len(name), text, len(text))

    def accept(self, hello: Bytes) -> None:
        """Takes a connection by its first 42 bytes, the terminal's hello: the connection before is over. Its number is the one that
        `read_hello` returns. Raises the faults of `read_hello` before all others, and Missing for fewer bytes. Its own refusals: LinkFault,
        LINK_BAD_HELLO to LINK_WRONG_COUNT, which `write_refusal` tells the terminal."""
        hello = bytes(memoryview(hello))
        self._call("accept", hello, len(hello))

    def receive(self, attempt: int, data: Bytes) -> None:
        """Takes bytes that came on a connection after the hello, in pieces of any length, all or none, and answers each message that is
        whole. Its own refusals: LinkFault, as of `Link.feed`; CountFull. Behind all of them comes the fault by which the server stops."""
        data = bytes(memoryview(data))
        self._call("receive", attempt, data, len(data))

    def broken(self, attempt: int) -> None:
        """Ends a connection, because it broke or because the program gives it up. Nothing changes if it isn't the newest."""
        self._call("broken", attempt)

    def say(self, message: Bytes) -> None:
        """Puts a message for the terminal's program, a note of the link, behind all bytes that were put. Its own refusals: LinkFault
        (LINK_TOO_LONG) for more than 4,096 bytes; CountFull."""
        message = bytes(memoryview(message))
        self._call("say", message, len(message))

    def mark_dirty(self, tag: int) -> None:
        """Marks a file as dirty: after a write that failed, before `effect_done`. Its own refusals: Missing if the tag has no file;
        MarkRefused for the command file, and if the terminal was not told the file's name yet."""
        self._call("mark_dirty", tag)

    def ask(self) -> None:
        """Asks the terminal to acknowledge now. Its own refusal: CountFull."""
        self._call("ask")

    def acknowledge(self) -> None:
        """Acknowledges all bytes that have come. Its own refusal: CountFull."""
        self._call("acknowledge")

    def go_on(self) -> None:
        """Goes on with what was taken last, after Unfinished; does nothing if no work is left. Raises, in this order: the fault by which
        the server has stopped, at this call or before; Unfinished."""
        self._call("go_on")

    # ---- Records, and bytes out

    @property
    def record_len(self) -> Optional[int]:
        """Returns the number of bytes of the record that `next_record` returns next; None if there is none."""
        if self._records:
            return self._records[0][2].value
        return self._number_if_any("record_len", c_size_t)

    def next_record(self) -> Optional[bytes]:
        """Returns the oldest record that was not returned; None if there is none. Put it into a journal, in order: none may be left out."""
        room = self.record_len
        return None if room is None else self._moved(self._records, room, "next_record")

    def durable(self, count: int) -> None:
        """Takes so many more of the records that were returned as durable, the oldest first."""
        self._call("durable", count)

    def take_out(self, attempt: int, most: int = 65_536) -> bytes:
        """Returns the next bytes for a connection that durable records decide, at most `most`; b"" if there are none: first the hello, and
        then the stream from the place where this connection goes on. Raises LinkFault (LINK_NOT_OPEN) if the connection is over or isn't
        the newest, ValueError if `most` is below 0."""
        room = least(most, MOST_PIECE)
        if self._out:
            self._call("take_out", attempt, ctypes.create_string_buffer(1), 0, byref(c_size_t()))  # is it still the newest?
            if self._attempt != attempt:
                self._out.clear()
        self._attempt = attempt
        return self._moved(self._out, room, "take_out", attempt) or b""

    # ---- Effects

    def next_effect(self) -> Optional[Effect]:
        """Returns the effect that is to be done now, the same until `effect_done`; None if there is none, or while the record that has it
        is not durable. What the terminal sent behind it waits for that: do it soon. After a crash an effect is returned again, unless the
        record of its end is durable."""
        effect = CEffect()
        return Effect(KINDS[effect.kind], effect.tag, effect.len) if self._has("next_effect", byref(effect)) else None

    def heard(self) -> bytes:
        """Returns the message that is to be heard now. Raises Missing if `next_effect` returns no message."""
        into, count = ctypes.create_string_buffer(MOST_NOTE), c_size_t()
        self._call("heard", into, MOST_NOTE, byref(count))
        return ctypes.string_at(into, count.value)

    def closed_name(self) -> str:
        """Returns the name of the file that was closed. Raises Missing if `next_effect` returns no such file."""
        return self._short_text("closed_name", MOST_IN_NAME)

    def closed_text(self) -> str:
        """Returns the text that the file had as it was closed. Raises Missing if `next_effect` returns no such file."""
        effect = self.next_effect()
        return self._short_text("closed_text", effect.len if effect else 0)

    def effect_done(self, ending: int = 0) -> None:
        """Ends the effect, which is done. `ending` is a number of the program's own for how it ended, which stands in the record. Its own
        refusal: Missing if `next_effect` returns None."""
        self._call("effect_done", ending)

    # ---- A takeover

    def heir(self, id: Bytes) -> "DurableServer":
        """Returns a server of another session, which begins with the texts of this one, for a terminal that takes them over. All files but
        the command file join it with their names and texts, in the order of their tags: from tag 1 on, with no gap. Its records begin a
        journal of its own: once that has the name of the old one, the texts are taken over. This server stays as it was. Marks of dirty
        files, what was written last and selections stay behind: call `mark_dirty` once the terminal has a file's name. Raises, in this
        order: ValueError for an id of another length; Waiting, for `go_on`; ServerFault (SERVER_EFFECT_WAITS) before an effect is done;
        NoMemory."""
        heir = _unmade()
        self._call("heir", id_of(id), byref(heir._handle))
        return heir

    # ---- Readers of its host

    @property
    def is_done(self) -> bool:
        """Returns whether the session is over: the terminal has sent Texit, or a command line was `q`."""
        return self._truth("is_done")

    @property
    def tags(self) -> int:
        """Returns the number of tags that were given, the command file's 0 included."""
        return self._number("tags", c_size_t)

    def has_file(self, tag: int) -> bool:
        """Returns whether the tag has a file now. The tag of a closed file has none."""
        return self._truth("has_file", tag)

    def name(self, tag: int) -> str:
        """Returns the name of a file. Raises Missing if the tag has no file."""
        return self._short_text("name", MOST_IN_NAME, tag)

    def len(self, tag: int) -> int:
        """Returns the length of a file's text in runes. Raises Missing if the tag has no file."""
        return self._number("len", c_uint32, tag)

    def is_dirty(self, tag: int) -> bool:
        """Returns whether a file was edited since it was made or written. Raises Missing if the tag has no file."""
        return self._truth("is_dirty", tag)

    def text(self, tag: int, place: int = 0, runes: Optional[int] = None) -> str:
        """Returns the text of a file from the place `place` on: at most `runes` runes, or all. Raises Missing if the tag has no file."""
        return self._long_text("text", place, runes, tag)

    def saved_len(self, tag: int) -> Optional[int]:
        """Returns the length in runes of the text that a file had when the terminal had it written last; None if it never was, or if the
        tag has no file."""
        return self._number_if_any("saved_len", c_uint32, tag)

    def saved(self, tag: int, place: int = 0, runes: Optional[int] = None) -> str:
        """Returns the text that a file had when the terminal had it written last, from the place `place` on: at most `runes` runes, or all.
        Raises Missing if the tag has no file, or if the file was never written."""
        return self._long_text("saved", place, runes, tag)

    def is_open(self, tag: int) -> bool:
        """Returns whether the terminal has opened the file. Raises Missing if the tag has no file."""
        return self._truth("is_open", tag)

    @property
    def snarf_len(self) -> int:
        """Returns the length of the snarf buffer in runes."""
        return self._number("snarf_len", c_uint32)

    def snarf(self, place: int = 0, runes: Optional[int] = None) -> str:
        """Returns the text of the snarf buffer from the place `place` on: at most `runes` runes, or all."""
        return self._long_text("snarf", place, runes)


def _unmade() -> DurableServer:
    """Returns a server that a call of the library is still to make."""
    server = DurableServer.__new__(DurableServer)
    server._prepare()
    server._handle = Handle()
    return server


class Recovery(Held):
    """A durable server that is made again of its records, one by one; `recover` does it at once."""

    _prefix = "sam_recovery"

    def __init__(self, id: Bytes) -> None:
        """Begins with the server of a session that has taken nothing. The id is that of the session whose records they are. Raises
        ValueError for an id of another length, NoMemory."""
        super().__init__(id_of(id))

    def take(self, body: Bytes) -> None:
        """Takes the next record of the journal again, as `next_record` returned it. Raises, in this order: ServerFault (SERVER_NO_RECORD);
        then ServerFault (SERVER_NOT_TAKEN) or NoMemory, whichever shows first. Begin anew then: any later call but `free` raises
        HandleFault."""
        body = bytes(memoryview(body))
        self._call("take", body, len(body))

    def finish(self) -> DurableServer:
        """Returns the server that goes on behind all these records. Its connection is over, and its records count as durable, so have the
        journal synced before: an effect that waits is to be done now. Any later call of this object but `free` raises HandleFault. Raises
        NoMemory, and nothing has changed."""
        server = _unmade()
        self._call("finish", byref(server._handle))
        return server


def recover(id: Bytes, records: Iterable[Bytes]) -> DurableServer:
    """Makes a durable server again, of the records of its journal from the oldest on, once that is synced. Raises ServerFault at a record
    that is none, or that the records before it don't lead to; NoMemory."""
    with Recovery(id) as recovery:
        for body in records:
            recovery.take(body)
        return recovery.finish()
