"""Sessions over asyncio: a terminal that connects again by itself, and a host that goes on when it does.

A terminal opens a text of a host, edits it, and has it written:

    from sulgrevad.aio import Session

    async with Session(lambda: asyncio.open_unix_connection("notes.socket")) as session:
        notes = await session.open("notes")
        notes.insert(0, "Shopping\\n")
        await notes.write()

A host serves texts to it, and is told what to write:

    from sulgrevad.aio import serve

    await serve({"notes": "tea\\n"}, "notes.socket", lambda name, text: Path(name).write_text(text))

No edit waits: it is shown before `insert` returns, also while the text is written, and with or without a connection. If the connection
breaks the session makes another: a `sulgrevad.Client` says when, and what was done comes to the host once and in order. Every await goes on
to wait. It ends by an answer, or by SessionOver or SessionLost if no answer can come. Put `asyncio.wait_for` round an await that shall not
wait so long: to cancel it takes nothing back that was asked for.

Both ends speak the messages of docs/reference/SESSION.md, so a `Session` also works over samhost, and opens files by their paths there.
Use all of it in the thread of the event loop. If memory is out an edit raises NoMemory, and the text is as it was: make the call again.
Everything else is kept, and tried again after a tenth of a second.
"""
from sulgrevad.aio.document import Document
from sulgrevad.aio.ends import RequestRefused, SessionLost, SessionOver
from sulgrevad.aio.server import Server, serve
from sulgrevad.aio.session import Session

__all__ = ["Document", "RequestRefused", "Server", "Session", "SessionLost", "SessionOver", "serve"]
