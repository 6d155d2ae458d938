"""A text that is open in a session."""
import asyncio
from functools import partial
from typing import TYPE_CHECKING, Callable, Optional

from sulgrevad._library import Text, bytes_of
from sulgrevad.note import Note
from sulgrevad.status import Missing, NotText, Status

if TYPE_CHECKING:
    from sulgrevad.aio.session import Session


class Document:
    """A text of the host that is open here. `Session.open` makes it.

    `on_change`, if the program sets it, is called as `on_change(start, gone, text)` for each change of the text, in order: from the place
    `start` on `gone` runes gave way to `text`. It tells changes of the host, of command lines and of `replace` alike; of an edit before
    `replace` returns. Places and lengths count runes.

    `on_dropped`, if the program sets it, is called as `on_dropped(text)` if the host has put so much in meanwhile that it has no room for a
    text which was put in here: that is taken out again, which `on_change` tells, too. Without it the loop's handler of exceptions is told.
    """

    def __init__(self, session: "Session", tag: int, name: str) -> None:
        self._session, self.tag, self.name = session, tag, name
        self.on_change: Optional[Callable[[int, int, str], object]] = None
        self.on_dropped: Optional[Callable[[str], object]] = None
        self._is_ready = False  # all of it has come once
        self._is_closing = False
        self._refusal: Optional[Exception] = None  # why it can't be opened

    # ---- Readers

    @property
    def is_open(self) -> bool:
        """Returns whether the document is open. A closed one can't be opened again: `Session.open` makes another."""
        return not self._is_closing and self._session._client.file(self.tag).is_open

    @property
    def text(self) -> str:
        """Returns the text as it is here, with all edits. While a long text is loaded that a command line has put in, U+FFFD stands for
        each rune of it. Raises Missing if the document is closed."""
        return self._session._text(self.tag, 0, len(self))

    def __len__(self) -> int:
        return self._session._client.len(self.tag)

    @property
    def is_unsaved(self) -> bool:
        """Returns whether the text may differ from the one that was written last."""
        return self._session._client.is_unsaved(self.tag)

    # ---- What the user does

    def replace(self, start: int, end: int, text: Text) -> None:
        """Replaces the runes from the place `start` to the place `end` by a text. The places are those of `text` now.

        It is done before the call returns, also while a write or a command line is under way, and with or without a connection. It goes to
        the host behind all that was asked for before. Raises, in this order, and nothing has changed then: SessionOver or SessionLost;
        Missing if the document is closed; NotText; NoMemory; EditRefused (REFUSAL_BAD_POSITION for places that the text doesn't have,
        REFUSAL_TOO_LONG if it would have more than 1,000,000 runes, with all edits that wait for the host); NoMemory."""
        self._check()
        self._session._replace(self, start, end, encoded(text))

    def insert(self, place: int, text: Text) -> None:
        """Inserts a text at a place, as `replace` does."""
        self.replace(place, place, text)

    def write(self) -> "asyncio.Future[Note]":
        """Writes the text as it is now, with what the host changes before its turn comes. Returns a future, whose result is the host's
        answer once it is done: a note of the kind SAVED, whose `path` and `text` say where. To cancel it takes nothing back. It raises
        RequestRefused if the host could not write the text, and then the document is unsaved; SessionOver and SessionLost. The call itself
        raises, in this order: SessionOver or SessionLost; Missing if the document is closed; TooMany if 1,000 requests wait."""
        self._check()
        return self._session._begin(partial(self._session._client.write, self.tag))

    def run(self, line: str) -> "asyncio.Future[str]":
        """Runs a command line on the text as it is now. Returns a future, whose result is what the line printed, at most 65,536 runes of
        it, once all that it changed is here: a line that is wrong prints `?` and why. docs/reference/COMMANDS.md has the lines. To cancel
        it takes nothing back. It raises EditRefused (REFUSAL_TEXT_TOO_LONG) for a line of more than 400,000 runes, (REFUSAL_TOO_LONG) if
        the line has no room behind what other lines have printed: then nothing is run; SessionOver and SessionLost. The call itself raises,
        in this order: SessionOver or SessionLost; Missing if the document is closed; ValueError for a newline in the line, in which `\\n`
        stands for one; NotText; TooMany if 1,000 requests wait, of which a line is five at most, and one more for each 512 runes."""
        self._check()
        if "\n" in line:
            raise ValueError("a command line has no newline inside")
        encoded(line)
        return self._session._run(self.tag, line)

    async def close(self) -> None:
        """Closes the document, after all that was asked for before: what is not written is lost. Raises SessionOver and SessionLost;
        TooMany if 1,000 requests wait."""
        await self._session._close_document(self)

    def _note_ready(self) -> None:
        """Notes that all of the text has come."""
        self._is_ready = True

    def _check(self) -> None:
        self._session._check()
        if not self.is_open:
            raise Missing(Status.NONE)


def encoded(text: Text) -> bytes:
    """Returns a text as bytes. Raises NotText for what is none."""
    data = bytes_of(text)
    try:
        data.decode()
    except UnicodeDecodeError:
        raise NotText(Status.NOT_TEXT) from None
    return data
