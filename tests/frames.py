"""Frames as docs/reference/PROTOCOL.md has them: the tables of a page, frames made by those of kinds and fields, and bytes read by them."""
import functools
import re
from pathlib import Path

TOP = Path(__file__).resolve().parent.parent
PROTOCOL = TOP / "docs/reference/PROTOCOL.md"
HEAD = 3  # bytes of a frame before its body: the kind and the length
STAMP = 8  # bytes that a host frame's body begins with


class Missing(Exception):
    """The page or the sources lack something that the comparison needs."""


def cells_of(line):
    """The cells of a line of a table: a bar before the first or after the last parts nothing."""
    return [cell.strip() for cell in re.split(r"(?<!\\)\|", re.sub(r"^\||(?<!\\)\|$", "", line.strip()))]


def is_rule(line):
    """Whether the line is the second one of a table."""
    return "|" in line and not line.strip("|- ")


class Page:
    """The tables of a page, by the heading above them."""

    def __init__(self, path):
        self.name = path.relative_to(TOP)
        self.text = path.read_text(encoding="utf-8")
        self.tables = {}
        heading, is_fenced, table, before = None, False, None, ""
        for line in self.text.splitlines():
            if line.startswith("```"):
                is_fenced = not is_fenced
            elif is_fenced:
                continue
            elif line.startswith("#"):
                heading, table = line.lstrip("#").strip(), None
            elif is_rule(line):
                table = [cells_of(before), cells_of(line)]
                self.tables.setdefault(heading, []).append(table)
            elif table is not None and line:
                row = cells_of(line)
                table.append(row + [""] * (len(table[0]) - len(row)))
            else:
                table = None
            before = line

    def rows(self, heading, first):
        """The rows of the table below the heading whose first column has this title."""
        for table in self.tables.get(heading, []):
            if table[0][0] == first:
                for row in table[2:]:
                    if len(row) != len(table[0]):
                        raise Missing(f"the row of '{row[0]}' below '{heading}' has {len(row)} cells, not {len(table[0])}")
                return table[2:]
        raise Missing(f"{self.name} has no table below '{heading}' whose first column is '{first}'")

    def said(self, pattern):
        """What the page says where a pattern stands, which has to."""
        match = re.search(pattern, self.text)
        if not match:
            raise Missing(f"{self.name} has no words like '{pattern}'")
        return match[1]


def fields_of(row):
    """The fields of a kind, each its type and its letter."""
    return [field.split(" ") for field in row[2].split(", ")] if row[2] else []


@functools.cache
def kinds():
    """Of each kind, by its name: its number, and how many bytes each of its fields has; None for a text, which takes the rest."""
    page = Page(PROTOCOL)
    sizes = {row[0]: int(row[1]) if row[1].isdigit() else None for row in page.rows("Field types", "Type")}
    rows = page.rows("Terminal kinds", "No") + page.rows("Host kinds", "No")
    return {row[1]: (int(row[0]), [sizes[kind] for kind, _ in fields_of(row)]) for row in rows}


def written(value, size):
    """A field: a number in so many bytes, or a text, which may be given as its bytes."""
    if size is None:
        return value.encode() if isinstance(value, str) else value
    return value.to_bytes(size, "big")


def frame(name, *values, seen=0):
    """The frame of a message, as frame("Ttype", 1, 0, "a"). One of the host has the stamp `seen`."""
    number, sizes = kinds()[name]
    if len(values) != len(sizes):
        raise Missing(f"{name}{values} has {len(values)} values, and the kind {len(sizes)} fields")
    body = b"" if name.startswith("T") else seen.to_bytes(STAMP, "big")
    body += b"".join(map(written, values, sizes))
    return bytes([number]) + len(body).to_bytes(2, "big") + body


def cut(data):
    """The bytes of each frame of a stream that has only whole ones."""
    while data:
        end = HEAD + int.from_bytes(data[1:HEAD], "big")
        if len(data) < end:
            raise ValueError(f"half a frame: {data.hex(' ')}")
        yield data[:end]
        data = data[end:]


def message_of(data):
    """What a frame says: its name and its values, as ("Ttype", 1, 0, "a")."""
    name, sizes = next((name, sizes) for name, (number, sizes) in kinds().items() if number == data[0])
    at = HEAD if name.startswith("T") else HEAD + STAMP
    values = []
    for size in sizes:
        end = len(data) if size is None else at + size
        values.append(data[at:end].decode() if size is None else int.from_bytes(data[at:end], "big"))
        at = end
    if at != len(data):
        raise ValueError(f"{name} of another length: {data.hex(' ')}")
    return name, *values


def messages(data):
    """What each frame of a stream says."""
    return [message_of(one) for one in cut(data)]


def stamps(data):
    """The stamp of each frame of a host's stream."""
    return [int.from_bytes(one[HEAD : HEAD + STAMP], "big") for one in cut(data)]
