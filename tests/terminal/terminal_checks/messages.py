"""Messages of a host, as checks hand them to an editor."""
from . import support  # noqa: F401  it says where packages lie
from sulgrevad import Note, NoteCode, NoteKind, write_note

NO_ROOM = "No space left on device"


def said(text):
    return Note(NoteKind.SAID, text=text)


def hidden(tag):
    """A file is none of the user's."""
    return Note(NoteKind.ANEW, number=tag)


def saved(tag):
    """A write went to the disk."""
    return Note(NoteKind.SAVED, tag=tag, path=b"a path")


def not_saved(tag, code=NoteCode.NO_SPACE, copy="", why=NO_ROOM):
    """A write of a file failed; its text is in a copy, if one is named."""
    kept = f"its text is in {copy}" if copy else f"its text could not be saved: {why}"
    return Note(NoteKind.NOT_SAVED, tag=tag, code=code, path=b"a path", copy=copy.encode(), text=f"not written: a path: {why}; {kept}")


def replacing(tag):
    """A write would have replaced another program's text."""
    return not_saved(tag, NoteCode.CHANGED_SINCE, f"/tmp/{tag}.sam-saved", "another program changed it, and the next write replaces it")


def aside(tag, code=NoteCode.NO_CODE):
    """A text that was not written, or what was cut last, is in a copy."""
    return Note(NoteKind.ASIDE, tag=tag, code=code, path=b"a path", copy=b"/tmp/copy", text="a path was not written; its text is in /tmp/copy")


def lost(tag):
    """A text could be saved nowhere."""
    return Note(NoteKind.LOST, tag=tag, code=NoteCode.NO_SPACE, path=b"a path", text=f"the text of a path is lost: {NO_ROOM}")


def first_message(name=b"0123456789abcdef", version=1):
    """The first message, which names the session."""
    return Note(NoteKind.SESSION, number=version, path=name, text="box")


def wrong_messages():
    """Messages with wrong lengths, numbers, tags and words, as bytes: front parts, too long ones, kinds and codes that nobody knows."""
    most, names = (1 << 64) - 1, [b"x\n" * 1000, b"\xff\xfe\n/\n", b"", b"no end"]
    fields = [
        dict(kind=kind, request=request, tag=tag, code=code, number=number, path=path, copy=b"/tmp/copy", text=text)
        for kind in NoteKind if kind >= NoteKind.SAID and kind not in (NoteKind.ENDED, NoteKind.TAKEN_OVER)
        for request, tag, code, number, path, text in (
            (0, 0, 0, 0, names[2], ""), (most >> 32, 65_535, 255, most, names[0], "a\x1b[31m\x9b\u202eb" * 99), (1, 7, 4, 7, names[1], "x"),
            (1, 2, 16, 70_000, names[3], "\u2028"),
        )
    ]  # fmt: skip
    good = [write_note(of_kind(each)) for each in fields]
    return [*good, *(data[:count] for data in good for count in (0, 1, 2, 5, len(data) - 1)), *(data + b"\0" for data in good), b"\xff" * 40]


def of_kind(fields):
    """A message of a kind with those of the fields that it has."""
    note = Note(fields["kind"])
    for name, value in fields.items():
        if name != "kind" and has_field(note.kind, name):
            note = note._replace(**{name: value})
    return note


def has_field(kind, name):
    """Whether messages of a kind have a field: a value in one that it has not is refused."""
    from sulgrevad import SamError

    try:
        write_note(Note(kind, **{name: {"path": b"x", "copy": b"x", "text": "x"}.get(name, 1)}))
    except SamError:
        return False
    return True
