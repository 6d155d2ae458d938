"""The part of MessagePack that Neovim's RPC uses."""
import struct


def packed(value):
    """The bytes of a value."""
    if value is None or isinstance(value, bool):
        return {None: b"\xc0", False: b"\xc2", True: b"\xc3"}[value]
    if isinstance(value, int):
        return struct.pack(">Bq", 0xD3, value)
    if isinstance(value, str):
        data = value.encode("utf-8", "surrogateescape")
        return struct.pack(">BI", 0xDB, len(data)) + data
    if isinstance(value, (list, tuple)):
        return struct.pack(">BI", 0xDD, len(value)) + b"".join(map(packed, value))
    return struct.pack(">BI", 0xDF, len(value)) + b"".join(packed(key) + packed(item) for key, item in value.items())


NUMBERS = {0xCA: ">f", 0xCB: ">d", 0xCC: ">B", 0xCD: ">H", 0xCE: ">I", 0xCF: ">Q", 0xD0: ">b", 0xD1: ">h", 0xD2: ">i", 0xD3: ">q"}
LENGTHS = {0xC4: ">B", 0xC5: ">H", 0xC6: ">I", 0xD9: ">B", 0xDA: ">H", 0xDB: ">I", 0xDC: ">H", 0xDD: ">I", 0xDE: ">H", 0xDF: ">I"}
EXTENSIONS = {0xC7: ">B", 0xC8: ">H", 0xC9: ">I"}


class Reader:
    """Reads values of a stream, of which `read` gives so many bytes."""

    def __init__(self, read):
        self.read = read

    def number(self, form):
        return struct.unpack(form, self.read(struct.calcsize(form)))[0]

    def text(self, length):
        return self.read(length).decode("utf-8", "surrogateescape")

    def items(self, length):
        return [self.value() for _ in range(length)]

    def pairs(self, length):
        return {self.value(): self.value() for _ in range(length)}

    def value(self):
        kind = self.number(">B")
        if kind < 0x80 or kind >= 0xE0:
            return kind if kind < 0x80 else kind - 0x100
        if kind < 0xC0:
            return self.pairs(kind & 0x0F) if kind < 0x90 else self.items(kind & 0x0F) if kind < 0xA0 else self.text(kind & 0x1F)
        if kind in NUMBERS:
            return self.number(NUMBERS[kind])
        if kind in LENGTHS:
            length = self.number(LENGTHS[kind])
            return (self.text if kind < 0xDC else self.items if kind < 0xDE else self.pairs)(length)
        if 0xD4 <= kind <= 0xD8 or kind in EXTENSIONS:  # the number of a buffer, a window or a page
            length = self.number(EXTENSIONS[kind]) if kind in EXTENSIONS else 1 << (kind - 0xD4)
            self.read(1)
            return Reader(iter_read(self.read(length))).value()
        return {0xC0: None, 0xC2: False, 0xC3: True}[kind]


def iter_read(data):
    """A function that gives the bytes of `data` in order."""
    at = 0

    def read(length):
        nonlocal at
        at += length
        return data[at - length : at]

    return read
