"""A model of one end of a link, written from docs/reference/LINK.md alone: it shares no line with the library, and has the calls of
`sulgrevad.Link`. Tests compare the library with it, or join both by a line. It is slow, and forgets nothing that was put.

Where memory is short it knows nothing: no call of it raises NoMemory.
"""

import enum
import struct
from collections import deque
from typing import Deque, List, NamedTuple, Optional, Tuple

MARK = bytes.fromhex("8973616D6C696E6B")
VERSION = 1
HELLO_BYTES = 42
MOST_BODY = 4096
MOST_NOTE = 4096
TELL_AFTER = 16_384
MOST_COUNT = 2**64 - 1

DATA, NOTE, ACKNOWLEDGEMENT, ASK = 1, 2, 3, 4
BODIES = {DATA: (1, MOST_BODY), NOTE: (0, MOST_NOTE), ACKNOWLEDGEMENT: (8, 8), ASK: (0, 0)}


class Status(enum.IntEnum):
    """Those statuses of the library that a link or a line answers."""

    OK = 0
    NO_MEMORY = 1
    COUNT_FULL = 3
    NO_HANDLE = 4
    MADE = 5
    NONE = 7
    LINK_NOT_A_LINK = 193
    LINK_OTHER_VERSION = 194
    LINK_BAD_HELLO = 195
    LINK_NO_SESSION = 196
    LINK_OTHER_SESSION = 197
    LINK_OLD_ATTEMPT = 198
    LINK_WRONG_COUNT = 199
    LINK_WRONG_ROLE = 200
    LINK_NOT_OPEN = 201
    LINK_TOO_LONG = 202
    LINK_BAD_KIND = 203
    LINK_BAD_LENGTH = 204
    LINK_ACK_AHEAD = 205
    LINK_NO_ROOM = 206
    LINK_TOO_MANY_WORDS = 207
    LINK_TOO_MANY_ANSWERS = 208
    LINK_WRONG_HELLO = 209


class What(enum.IntEnum):
    """What a hello says."""

    BEGIN = 1
    RESUME = 2
    TAKE_OVER = 3
    WELCOME = 4
    NOT_A_LINK = 17
    OTHER_VERSION = 18
    BAD_HELLO = 19
    NO_SESSION = 20
    OTHER_SESSION = 21
    OLD_ATTEMPT = 22
    WRONG_COUNT = 23


CALLS = (What.BEGIN, What.RESUME, What.TAKE_OVER)
# A refusal's status, and its number on the wire
REFUSALS = {Status(193 + number - 17): What(number) for number in range(17, 24)}


class SamError(Exception):
    """A call that did not answer SAM_OK."""

    def __init__(self, code: Status) -> None:
        super().__init__(code.name)
        self.code = code

    @property
    def status(self) -> Status:
        """The same as `code`."""
        return self.code


class CountFull(SamError, OverflowError):
    """2^64-1 bytes, or connections, would be passed."""


class HandleFault(SamError, ValueError):
    """The end was freed."""


class Missing(SamError, LookupError):
    """Bytes that are to be a hello are a front of one."""


class LinkFault(SamError):
    """A call of a link was refused (LINK_..)."""


class Hello(NamedTuple):
    """What a hello says, the name of the session, and the number of the connection."""

    what: What
    id: bytes
    attempt: int


class Read(NamedTuple):
    """All that a hello says."""

    what: What
    id: bytes
    attempt: int
    received: int


def spelled(hello: Read) -> bytes:
    return MARK + bytes([VERSION, hello.what]) + hello.id + struct.pack(">QQ", hello.attempt, hello.received)


def read_whole(data: bytes) -> Optional[Read]:
    """The hello at the front of the bytes; None if more are wanted."""
    if data[: len(MARK)] != MARK[: len(data)]:
        raise LinkFault(Status.LINK_NOT_A_LINK)
    if len(data) > 8 and data[8] != VERSION:
        raise LinkFault(Status.LINK_OTHER_VERSION)
    if len(data) > 9 and data[9] not in set(What):
        raise LinkFault(Status.LINK_BAD_HELLO)
    if len(data) < HELLO_BYTES:
        return None
    return Read(What(data[9]), bytes(data[10:26]), *struct.unpack(">QQ", data[26:HELLO_BYTES]))


def read_hello(data: bytes) -> Optional[Hello]:
    """As `sulgrevad.read_hello`."""
    read = read_whole(data)
    return read and Hello(read.what, read.id, read.attempt)


def write_refusal(status: int, data: bytes) -> bytes:
    """As `sulgrevad.write_refusal`."""
    if status not in REFUSALS:
        raise Missing(Status.NONE)
    try:
        read = read_whole(data)
    except LinkFault:
        read = None
    id_and_attempt = (read.id, read.attempt) if read else (bytes(16), 0)
    return spelled(Read(REFUSALS[Status(status)], *id_and_attempt, 0))


def packet(kind: int, body: bytes = b"") -> bytes:
    return struct.pack(">BH", kind, len(body)) + body


def data_packets(data: bytes) -> bytes:
    """The packets of one put."""
    return b"".join(packet(DATA, data[at : at + MOST_BODY]) for at in range(0, len(data), MOST_BODY))


def split(data: bytes) -> Tuple[List[Tuple[int, bytes]], bytes]:
    """The whole packets at the front, as kinds and bodies, and the rest. LinkFault where a packet is wrong."""
    found, at = [], 0
    while at < len(data):
        if data[at] not in BODIES:
            raise LinkFault(Status.LINK_BAD_KIND)
        if len(data) < at + 3:
            break
        length = int.from_bytes(data[at + 1 : at + 3], "big")
        least, most = BODIES[data[at]]
        if not least <= length <= most:
            raise LinkFault(Status.LINK_BAD_LENGTH)
        if len(data) < at + 3 + length:
            break
        found.append((data[at], bytes(data[at + 3 : at + 3 + length])))
        at += 3 + length
    return found, bytes(data[at:])


class Link:
    """One end, as `sulgrevad.Link`."""

    TERMINAL, HOST = 0, 1
    DOWN, ASKING, OPEN = 0, 1, 2

    def __init__(self, role: int, id: bytes) -> None:
        if role not in (Link.TERMINAL, Link.HOST):
            raise LinkFault(Status.LINK_WRONG_ROLE)
        if len(id) != 16:
            raise ValueError("an id has 16 bytes")
        self._role, self._id, self._closed = role, bytes(id), False
        self._attempt, self._phase, self._welcomed = 0, Link.DOWN, False
        self._hello = b""
        self._first = 0  # the number of the first byte of _stream: tests of great counts set it
        self._stream = bytearray()  # S, from _first on
        self._acknowledged = 0
        self._given = 0  # up to which byte of S the newest connection was given it
        self._received = 0
        self._told = 0
        self._partial = b""
        self._items: Deque[Tuple[int, bytes]] = deque()

    def __enter__(self) -> "Link":
        return self

    def __exit__(self, *_: object) -> None:
        self.close()

    def close(self) -> None:
        self._closed = True

    def _open(self, role: Optional[int] = None) -> None:
        if self._closed:
            raise HandleFault(Status.NO_HANDLE)
        if role is not None and role != self._role:
            raise LinkFault(Status.LINK_WRONG_ROLE)

    # ---- Connections

    def _say(self, what: What) -> None:
        self._hello = spelled(Read(what, self._id, self._attempt, self._received))
        self._told = self._received

    def call(self, take_over: bool = False) -> int:
        self._open(Link.TERMINAL)
        if self._attempt == MOST_COUNT:
            raise CountFull(Status.COUNT_FULL)
        self._attempt += 1
        self._phase = Link.ASKING
        self._given = self._acknowledged
        self._say(What.RESUME if self._welcomed else What.TAKE_OVER if take_over else What.BEGIN)
        return self._attempt

    def _begins(self, received: int) -> None:
        self._acknowledged = self._given = received
        self._phase, self._welcomed = Link.OPEN, True

    def welcomed(self, hello: bytes) -> None:
        self._open()
        read = read_whole(hello)
        if read is None:
            raise Missing(Status.NONE)
        self._open(Link.TERMINAL)
        if self._phase != Link.ASKING:
            raise LinkFault(Status.LINK_NOT_OPEN)
        for status, number in REFUSALS.items():
            if read.what == number:
                raise LinkFault(status)
        if read.what != What.WELCOME:
            raise LinkFault(Status.LINK_BAD_HELLO)
        if read.id != self._id:
            raise LinkFault(Status.LINK_OTHER_SESSION)
        if read.attempt != self._attempt:
            raise LinkFault(Status.LINK_OLD_ATTEMPT)
        counts = (0, 0) if self._attempt == 1 else (self._acknowledged, self.put_count)
        if not counts[0] <= read.received <= counts[1]:
            raise LinkFault(Status.LINK_WRONG_COUNT)
        if self._attempt == 1:
            self._phase, self._welcomed = Link.OPEN, True
        else:
            self._begins(read.received)

    def answer(self, hello: bytes) -> None:
        self._open()
        read = read_whole(hello)
        if read is None:
            raise Missing(Status.NONE)
        self._open(Link.HOST)
        if read.what not in CALLS:
            raise LinkFault(Status.LINK_BAD_HELLO)
        if read.what == What.RESUME and not self._welcomed:
            raise LinkFault(Status.LINK_NO_SESSION)
        if read.id != self._id:
            raise LinkFault(Status.LINK_OTHER_SESSION)
        if read.attempt <= self._attempt:
            raise LinkFault(Status.LINK_OLD_ATTEMPT)
        if not self._acknowledged <= read.received <= self.put_count:
            raise LinkFault(Status.LINK_WRONG_COUNT)
        self._attempt = read.attempt
        self._begins(read.received)
        self._say(What.WELCOME)

    def _over(self) -> None:
        self._phase, self._hello = Link.DOWN, b""

    def broken(self, attempt: int) -> None:
        self._open()
        if attempt == self._attempt:
            self._over()

    # ---- What is put

    def _put(self, data: bytes) -> None:
        if self.put_count + len(data) > MOST_COUNT:
            raise CountFull(Status.COUNT_FULL)
        self._stream += data

    def put(self, data: bytes) -> None:
        self._open()
        self._put(data_packets(bytes(data)))

    def put_note(self, data: bytes) -> None:
        self._open()
        if len(data) > MOST_NOTE:
            raise LinkFault(Status.LINK_TOO_LONG)
        self._put(packet(NOTE, bytes(data)))

    def ask(self) -> None:
        self._open()
        self._put(packet(ASK))

    def acknowledge(self) -> None:
        self._open()
        self._put(packet(ACKNOWLEDGEMENT, struct.pack(">Q", self._received)))
        self._told = self._received

    # ---- Bytes of a connection

    def take_out(self, attempt: int, most: int = 65_536) -> bytes:
        self._open()
        if self._phase == Link.DOWN or attempt != self._attempt:
            raise LinkFault(Status.LINK_NOT_OPEN)
        out, self._hello = self._hello[:most], self._hello[most:]
        if self._phase == Link.OPEN or self._attempt == 1:
            start = self._given - self._first
            more = bytes(self._stream[start : start + most - len(out)])
            self._given += len(more)
            out += more
        return out

    def feed(self, attempt: int, data: bytes) -> None:
        self._open()
        if self._phase != Link.OPEN or attempt != self._attempt:
            raise LinkFault(Status.LINK_NOT_OPEN)
        if self._received + len(data) > MOST_COUNT:
            raise CountFull(Status.COUNT_FULL)
        try:
            packets, rest = split(self._partial + bytes(data))
            counts = [int.from_bytes(body, "big") for kind, body in packets if kind == ACKNOWLEDGEMENT]
            if max(counts, default=0) > self._given:
                raise LinkFault(Status.LINK_ACK_AHEAD)
        except LinkFault:
            self._over()
            raise
        self._received += len(data)
        self._partial = rest
        self._items += [(kind, body) for kind, body in packets if kind in (DATA, NOTE)]
        self._acknowledged = max([self._acknowledged, *counts])
        if any(kind == ASK for kind, _ in packets) or self._received - self._told >= TELL_AFTER:
            try:
                self.acknowledge()
            except CountFull:
                pass  # it is left out

    def feed_into(self, attempt: int, data: bytes, most: int = 65_536) -> bytes:
        self.feed(attempt, data)
        out = b""
        while more := self.take_in(most - len(out)):
            out += more
        return out

    def take_in(self, most: int = 65_536) -> bytes:
        self._open()
        if most == 0 or not self._items or self._items[0][0] != DATA:
            return b""
        body = self._items.popleft()[1]
        if rest := body[most:]:
            self._items.appendleft((DATA, rest))
        return body[:most]

    def next_note(self) -> Optional[bytes]:
        self._open()
        if self._items and self._items[0][0] == NOTE:
            return self._items.popleft()[1]
        return None

    # ---- Readers

    @property
    def phase(self) -> int:
        self._open()
        return self._phase

    @property
    def attempt(self) -> int:
        self._open()
        return self._attempt

    @property
    def put_count(self) -> int:
        self._open()
        return self._first + len(self._stream)

    @property
    def acknowledged(self) -> int:
        self._open()
        return self._acknowledged

    @property
    def unsent(self) -> int:
        self._open()
        return self.put_count - self._given

    @property
    def received(self) -> int:
        self._open()
        return self._received
