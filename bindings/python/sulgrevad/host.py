"""The host: whole texts and commands."""
from ctypes import byref, c_size_t, c_uint8, c_uint16, c_uint32, c_uint64
from typing import Iterator, List, Optional, SupportsIndex, Tuple

from sulgrevad._library import Did, Text, bytes_of
from sulgrevad.results import HostDid
from sulgrevad.sides import MOST_IN_NAME, STEPS, Side, index


class Host(Side):
    """The side that holds whole texts and runs commands. It begins with the command file alone, whose tag is 0."""

    _prefix = "sam_host"

    def add_file(self, name: Text, text: Text = "") -> int:
        """Adds a file, clean and closed, and returns its tag: 1 for the first, 2 for the next, and so on. A program may call it at any
        time: the answer to the terminal's next Tversion has the name. Raises, in this order: NotText; AddRefused for a name of more than 64
        runes or a text of more than 1,000,000, and then if no tag is left; NoMemory. The host is then as it was."""
        name, text = bytes_of(name), bytes_of(text)
        return self._number("add_file", c_uint16, name, len(name), text, len(text))

    def next_message(self) -> Optional[Tuple[int, int]]:
        """Returns the kind of the oldest message that waits, by the numbers of docs/reference/PROTOCOL.md, and the tag of the file that it
        names, or 0; None if no message waits. The next step that takes a message begins with this one."""
        kind, tag = c_uint8(), c_uint16()
        return (kind.value, tag.value) if self._has("next_message", byref(kind), byref(tag)) else None

    def step(self) -> HostDid:
        """Makes one step with the messages that wait, and returns its result. If frames of the last answer are left over, the step makes
        them pending. Else the host takes edits of one file that follow each other, with the checks (Tcheck) among them; or, if no edit is
        next, it answers the oldest message. `feed` makes steps until one is IDLE. Raises, in this order: the fault by which the host has
        stopped before; Unfinished if memory is short, and nothing has changed; the fault by which the host stops at this step."""
        did = Did()
        self._call("step", byref(did))
        return HostDid(STEPS[did.step], did.kind, did.tag, did.count)

    def next_written(self) -> Optional[int]:
        """Returns the tag of the next file that the terminal asked the host to write (Twrite); None if none is left. Write `saved` of it to
        disk now. Each Twrite gives its tag once, in order. Ask after each feed, because the saved text is gone once the file is closed."""
        return self._number_if_any("next_written", c_uint16)

    def written(self) -> Iterator[int]:
        """Yields the tags of `next_written`, up to the last."""
        while (tag := self.next_written()) is not None:
            yield tag

    def mark_dirty(self, tag: SupportsIndex) -> None:
        """Marks a file as dirty, open or not: for a program whose write of it failed, or that has another text on disk. If the file was
        clean, the frame that says so (Hdirty) is then pending, behind all answers of before. No text, dot or name changes. A program may
        call it at any time. Raises, in this order: Missing if the tag has no file; MarkRefused for the command file, and then if the
        terminal was not told the file's name yet; NoMemory. The host is then as it was."""
        self._call("mark_dirty", index(c_uint16, tag))

    @property
    def is_done(self) -> bool:
        """Returns whether the session is over: the terminal has sent Texit, or a command line was `q`."""
        return self._truth("is_done")

    @property
    def taken(self) -> int:
        """Returns the number of messages that the host has answered."""
        return self._number("taken", c_uint64)

    @property
    def version(self) -> int:
        """Returns the version of the protocol: 1 or 2."""
        return self._number("version", c_uint16)

    @property
    def tags(self) -> int:
        """Returns the number of tags that were given, the command file's 0 included."""
        return self._number("tags", c_size_t)

    def has_file(self, tag: int) -> bool:
        """Returns whether the tag has a file now. The tag of a closed file has none."""
        return self._truth("has_file", tag)

    def files(self) -> List[int]:
        """Returns the tags of all files, ascending."""
        return [tag for tag in range(self.tags) if self.has_file(tag)]

    def name(self, tag: int) -> str:
        """Returns the name of a file. Raises Missing if the tag has no file."""
        return self._short_text("name", MOST_IN_NAME, tag)

    def len(self, tag: int) -> int:
        """Returns the length of a file's text in runes. Raises Missing if the tag has no file."""
        return self._number("len", c_uint32, tag)

    def is_dirty(self, tag: int) -> bool:
        """Returns whether a file was edited since it was made or written. The command file, tag 0, is never dirty. Raises Missing if the
        tag has no file."""
        return self._truth("is_dirty", tag)

    def text(self, tag: int, place: int = 0, runes: Optional[int] = None) -> str:
        """Returns the text of a file from the place `place` on: at most `runes` runes, or all. Raises Missing if the tag has no file."""
        return self._long_text("text", place, runes, tag)

    def saved_len(self, tag: int) -> Optional[int]:
        """Returns the length in runes of the text that a file had when it was written last (Twrite); None if it never was, or if the tag
        has no file."""
        return self._number_if_any("saved_len", c_uint32, tag)

    def saved(self, tag: int, place: int = 0, runes: Optional[int] = None) -> str:
        """Returns the text that a file had when it was written last (Twrite), from the place `place` on: at most `runes` runes, or all.
        Raises Missing if the tag has no file, or if the file was never written."""
        return self._long_text("saved", place, runes, tag)

    def dot(self, tag: int) -> Tuple[int, int]:
        """Returns the dot of a file: the places where its selection begins and ends. Raises Missing if the tag has no file."""
        return self._range("dot", tag)

    @property
    def snarf_len(self) -> int:
        """Returns the length of the snarf buffer in runes."""
        return self._number("snarf_len", c_uint32)

    def snarf(self, place: int = 0, runes: Optional[int] = None) -> str:
        """Returns the text of the snarf buffer from the place `place` on: at most `runes` runes, or all."""
        return self._long_text("snarf", place, runes)
