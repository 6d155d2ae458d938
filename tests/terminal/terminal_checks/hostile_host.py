#!/usr/bin/env python3
"""A hostile host: hostile_host.py HOW [WORD ..] -- [WORD OF SAMTERM ..]

It has the texts a.txt and b.txt, and serves one connection over its standard input and output, as samhost does; what of it is hostile HOW
says:

- notes WORD ..: puts these notes, each in hexadecimal digits, once the terminal has spoken
- dies WORD ..: the same, but it ends after a second
- flood: puts words for people without an end
- names: has 65,000 files more
- garbage: ends after a second; from the second connection on what comes after the hello is no packet
- refuses NUMBER: the same, but it refuses with that number
- fails WORDS: the same, but it says these words on standard error, and ends
"""
import os
import select
import sys
import time
from itertools import chain
from pathlib import Path

sys.dont_write_bytecode = True
sys.path.append(str(Path(__file__).resolve().parents[3] / "bindings" / "python"))

from sulgrevad import Host, Link, Note, NoteKind, write_note  # noqa: E402

HELLO_BYTES, WELCOME = 42, 4
FIRST_LIFE = 1.0  # seconds
MANY, PIECE = 65_000, 65_536
FIRST_MESSAGE = Note(NoteKind.SESSION, number=1, path=b"0123456789abcdef", text="box")
CAME = Path("came")  # how many bytes of the terminal's stream have come, for the next connection


def hello():
    """The terminal's hello."""
    data = b""
    while len(data) < HELLO_BYTES:
        data += os.read(0, HELLO_BYTES - len(data)) or sys.exit(1)
    return data


def flood():
    number = 0
    while True:
        number += 1
        yield write_note(Note(NoteKind.SAID, text=f"{number} of many"))


class Served:
    """A session of one connection."""

    def __init__(self, notes, files):
        self.host, self.notes = Host(), iter(notes)
        for name in ("a.txt", "b.txt", *files):
            self.host.add_file(name, f"text of {name}\n" * 30)
        greeting = hello()
        self.link = Link(Link.HOST, greeting[10:26])
        self.link.answer(greeting)
        self.pending, self.has_heard = bytearray(), False
        os.set_blocking(1, False)

    def go(self, seconds):
        until = time.monotonic() + seconds
        while time.monotonic() < until:
            self.fill()
            reads, writes, _ = select.select([0], [1] if self.pending else [], [], 0.1)
            if reads:
                self.take(os.read(0, PIECE) or sys.exit(0))
            if writes:
                del self.pending[: os.write(1, self.pending)]

    def take(self, data):
        self.link.feed(self.link.attempt, data)
        CAME.write_text(str(self.link.received))
        while (data := self.link.take_in()) or self.link.next_note() is not None:
            self.has_heard = self.has_heard or data != b""
            self.host.feed(data)
        if data := self.host.take_out():
            self.link.put(data)

    def fill(self):
        """Puts notes, and takes out what goes next."""
        while self.has_heard and len(self.pending) < PIECE and (note := next(self.notes, None)) is not None:
            self.link.put_note(note)
            self.pending += self.link.take_out(self.link.attempt)
        self.pending += self.link.take_out(self.link.attempt)


def answered(how, word):
    """What a connection after the first gets."""
    if how == "fails":
        sys.exit(f"{word}")
    greeting = hello()
    what, count, rest = (int(word), 0, b"") if how == "refuses" else (WELCOME, int(CAME.read_text()), b"\xff" * 64)
    os.write(1, greeting[:9] + bytes([what]) + greeting[10:34] + count.to_bytes(8, "big") + rest)
    time.sleep(FIRST_LIFE)


def main():
    at = sys.argv.index("--")
    how, *words = sys.argv[1:at]
    if "--attach" in sys.argv[at:] and how in ("garbage", "refuses", "fails"):
        answered(how, " ".join(words))
        return
    own = [bytes.fromhex(word) for word in words] if how in ("notes", "dies") else [write_note(FIRST_MESSAGE)]
    notes = chain(own, flood()) if how == "flood" else own
    files = [f"file {number}" for number in range(MANY)] if how == "names" else ()
    Served(notes, files).go(FIRST_LIFE if how in ("dies", "garbage", "refuses", "fails") else 1000)


main()
