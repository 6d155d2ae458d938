"""A proved host and a proved terminal for editors whose screen and text live apart, after Rob Pike's sam.

A `Host` is the server: it holds whole texts and runs commands. A `Terminal` is the client: it holds windows, and of each open text the
parts that it has loaded. Neither of them reads or writes anything, because the program carries the bytes.

    from sulgrevad import Host, Terminal

    with Host() as host, Terminal() as terminal:
        tag = host.add_file("notes", "hello")
        terminal.offer_version(2)
        terminal.open(tag)
        terminal.type(tag, "X")
        while data := terminal.take_out():
            host.feed(data)
            terminal.feed(host.take_out())
            terminal.flush_now()
        assert host.text(tag) == "Xhello"

Units: places and lengths count runes (Unicode scalar values, the characters of a `str`), and a text has at most 1,000,000. A text that a
program gives may be a `str`, or its UTF-8 as `bytes`.

Words: the dot is the selection, a place an offset in runes, the snarf buffer the clipboard, which the host holds. A message goes to the
host, a frame to the terminal. docs/reference/GLOSSARY.md has the other words.

An `Overlay` is a terminal for an editor that takes each key at once: what its user does is shown while it waits. A
`Client` is that and its line to the host, for a front end whose connections may break.

A `Link` carries the bytes of both, and notes of the program, over connections that may break at any byte. A `Line` is the terminal's end of
one that also says when to connect, to ask and to give up. docs/howto/RECONNECTING.md has the order of calls. `sulgrevad.aio` does all of it
over asyncio. The notes that samhost and its front ends exchange are read by `read_note` and written by `write_note`:
docs/reference/SESSION.md.

A `DurableServer` is a host with its end of a link, which `recover` makes again after a crash, of the records that it made of all that it
took.

`replay` runs a script of docs/reference/SCRIPTS.md over a host and a terminal of its own.

Errors: each family of status codes has an exception class below `SamError`, whose `code` is the `Status`; `status_text` explains one. A
number that C's types can't hold is a `ValueError`, and an argument that is no number or no text a `TypeError`, before the library is
called. Once an object was freed, each call of it but `free` and `close` raises `HandleFault`.

Out of memory: after `NoMemory` the input of the call was not taken, so make the call again. After `Unfinished` it was taken, so don't bring
it again. The next `feed`, event or `flush_now` goes on, and `feed()` without bytes does just that; it raises `NoMemory` while memory is
still short. An overlay goes on by its next `step`, a client by `next_event`, a durable server by `go_on`. Both are `MemoryError`s, and
neither ends anything. A `MemoryError` that is neither is Python's own: the input of the call was not taken.

The shared library is the first of these that is there:

1. the file that the environment variable SAM_LIBRARY names; if that can't be used, no other is tried;
2. the library that a wheel has inside;
3. `out/libsulgrevad.so` of the repository or of the installed editor, if this package lies in one of these;
4. `libsulgrevad.so.0.1`, in a folder of the system's libraries: /usr/local/lib after `ldconfig`, or those of LD_LIBRARY_PATH.

Each call of the library keeps the interpreter's lock, so threads may share a handle. A free-threaded Python has no such lock, so use one of
your own there. `text`, `saved` and `snarfed` read a long text by several calls: let no other thread change it meanwhile.

A signal's handler that raises, as Python's own for ^C does, may break in once the library has done a call. Then nobody knows whether a
piece or an event was taken, and the result of `step`, `next_event`, `edits`, `next_written`, `next_refusal` or `changed` is lost. So a
program that goes on after a signal has a handler that only notes it. A `MemoryError` of Python's own may lose the results of these and of
`add_file`, too; but nothing that a link hands out.
"""
from sulgrevad.carrier import MOST_NOTE
from sulgrevad.client import Client, ClientEvent, ClientEventKind, Replacement, ShownEdit
from sulgrevad.edits import Edit, Edits, Pieces
from sulgrevad.host import Host
from sulgrevad.line import Line, LineDetails, Tick
from sulgrevad.link import HELLO_BYTES, Hello, Link, What, read_hello, write_refusal
from sulgrevad.note import Note, NoteCode, NoteKind, read_note, write_note
from sulgrevad.overlay import Dropped, EventKind, Overlay, Put, Splice, SpliceKind, Turn
from sulgrevad.results import Change, FileState, HostDid, NextFrame, Refusal, TerminalDid, TerminalState
from sulgrevad.scripts import replay
from sulgrevad.server import DurableServer, Effect, EffectKind, Recovery, recover
from sulgrevad.status import (
    AddRefused,
    CountFull,
    EditRefused,
    HandleFault,
    HostRefused,
    Kind,
    LinkFault,
    MarkRefused,
    Missing,
    NoMemory,
    NoteFault,
    NotText,
    SamError,
    ScriptFault,
    ServerFault,
    Status,
    Step,
    StreamFault,
    TerminalRefused,
    TooMany,
    Unfinished,
    Waiting,
    error_of,
    library_version,
    status_text,
)
from sulgrevad.terminal import Terminal

__version__ = "0.1.0"

__all__ = [
    "HELLO_BYTES", "MOST_NOTE", "AddRefused", "Change", "Client", "ClientEvent", "ClientEventKind", "CountFull", "Dropped",
    "DurableServer", "Edit", "EditRefused", "Edits", "Effect", "EffectKind", "EventKind", "FileState", "HandleFault", "Hello",
    "Host", "HostDid", "HostRefused", "Kind", "Line", "LineDetails", "Link", "LinkFault", "MarkRefused", "Missing", "NextFrame",
    "NoMemory", "NotText", "Note", "NoteCode", "NoteFault", "NoteKind", "Overlay", "Pieces", "Put", "Recovery", "Refusal",
    "Replacement", "SamError", "ScriptFault", "ServerFault", "ShownEdit", "Splice", "SpliceKind", "Status", "Step", "StreamFault",
    "Terminal", "TerminalDid", "TerminalRefused", "TerminalState", "Tick", "TooMany", "Turn", "Unfinished", "Waiting", "What", "error_of",
    "library_version", "read_hello", "read_note", "recover", "replay", "status_text", "write_note", "write_refusal",
]  # fmt: skip
