"""Scripts: how their lines are read and written, and what is printed of one that is replayed."""

import re
from typing import NamedTuple

from . import texts
from .host import RefusedMark
from .world import NothingThere, World, escaped

TAG, NUMBER, PLACE = texts.MOST_TAGS - 1, texts.MOST_TAGS - 1, 2**32 - 1  # the greatest of each
TEXT = None
STEPS = ("act", "flush", "host", "term", "drain", "show")
# The values of each event: the greatest number, or a text, which may be missing.
EVENTS = {
    "type": (TAG, TEXT), "setsnarf": (TEXT,), "edit": (TAG, PLACE, PLACE, TEXT),
    "select": (TAG, PLACE, PLACE), "view": (TAG, PLACE, PLACE), "load": (TAG, PLACE, PLACE),
    "dclick": (TAG, PLACE), "scroll": (TAG, PLACE),
    **dict.fromkeys(("open", "close", "write", "work", "check", "cut", "paste", "snarf", "look", "search", "send"), (TAG,)),
    "version": (NUMBER,), **dict.fromkeys(("opencmd", "new", "getsnarf", "flush", "exit"), ()),
}  # fmt: skip


class WrongScript(Exception):
    """A fault of a script, with the number of its line."""


class Line(NamedTuple):
    """A line that is not skipped: `file` or `add` with name and text, `dirty` with a tag, `k` or `m` with an event, or a step alone."""

    number: int
    word: str
    values: tuple


def text_of(spelled):
    """The text that is spelled, or None where a backslash has neither `n` nor another behind it."""
    if re.search(r"\\", re.sub(r"\\[n\\]", "", spelled)):
        return None
    return re.sub(r"\\([n\\])", lambda escape: "\n" if escape[1] == "n" else "\\", spelled)


def file_of(rest):
    """The name and text of a `file` or `add` line, or None."""
    name, _, spelled = rest.partition(" ")
    text = text_of(spelled)
    if not 1 <= len(name) <= texts.MOST_IN_NAME or text is None or len(text) > texts.MOST_RUNES:
        return None
    return name, text


def tag_of(rest):
    """The tag of a `dirty` line, or None."""
    return (int(rest),) if re.fullmatch(r"[0-9]+", rest) and int(rest) <= TAG else None


def event_of(rest):
    """The event of a `k` or `m` line, or None."""
    word, *others = rest.split(" ", 1)
    values = [word]
    for kind in EVENTS.get(word, ()):
        if kind is TEXT:
            value, others = text_of(others[0] if others else ""), []
        elif others and re.match(r"[0-9]+( |$)", others[0]):
            digits, *others = others[0].split(" ", 1)
            value = int(digits) if int(digits) <= kind else None
        else:
            value = None
        if value is None:
            return None
        values.append(value)
    return tuple(values) if word in EVENTS and not others else None


def values_of(word, rest, is_open):
    """The values of a line, or None where it is wrong. A file may come while no other line has."""
    if word in ("k", "m") and rest is not None:
        return event_of(rest)
    if word == "add" or (word == "file" and is_open):
        return file_of(rest or "")
    if word == "dirty":
        return tag_of(rest or "")
    return () if word in STEPS and rest is None else None


def read(script):
    """The lines of a script, given as bytes. Raises WrongScript at the first that is wrong."""
    lines, is_open, files = [], True, 0
    for number, spelled in enumerate(script.split(b"\n"), 1):
        try:
            spelled = spelled.decode()
        except UnicodeDecodeError:
            raise WrongScript(number) from None
        if not spelled or spelled[0] in "#=":
            continue
        word, *rest = spelled.split(" ", 1)
        values = values_of(word, rest[0] if rest else None, is_open)
        files += word == "file"
        if values is None or files == texts.MOST_TAGS:
            raise WrongScript(number)
        is_open = word == "file"
        lines.append(Line(number, word, values))
    return lines


def run(world, line):
    """Does what a line of a script says, and returns what it prints."""
    if line.word in ("k", "m"):
        world.user(line.values)
    elif line.word == "add":
        if world.host.next_tag == texts.MOST_TAGS:
            raise WrongScript(line.number)
        world.host.add(*line.values)
    elif line.word == "dirty":
        try:
            world.mark(*line.values)
        except RefusedMark:
            raise WrongScript(line.number) from None
    elif line.word == "show":
        return world.show()
    else:
        calls = {"act": world.act, "flush": world.flush, "host": world.host_takes, "term": world.terminal_takes, "drain": world.drain}
        try:
            calls[line.word]()
        except NothingThere:
            raise WrongScript(line.number) from None
    return []


def replay(script):
    """The status and the lines that `sam_play replay` prints of a script."""
    try:
        lines = read(script)
        world = World([line.values for line in lines if line.word == "file"])
        printed = [shown for line in lines if line.word != "file" for shown in run(world, line)]
    except WrongScript as why:
        return 1, [f"= fault script {why}"]
    return 0, printed


def spelled(line):
    """A line of a script, as it is written, without its newline."""
    word, values = line
    parts = [escaped(value) if isinstance(value, str) else str(value) for value in values]
    if word in ("file", "add"):
        parts[0] = values[0]  # names have no escapes
    return " ".join([word, *parts])
