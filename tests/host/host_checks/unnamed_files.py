"""Copies of files that have no name, beside files that are named as these copies are."""
import os

from sulgrevad import NoteKind

from .journal_faults import on_full_disk
from .support import Session, as_nobody, expect_equal, made, names_in, text_of


def add_unnamed(session, text):
    """Makes a file without a name of this text; answers its tag."""
    session.terminal.new_file()
    session.settle()
    session.type(text, session.terminal.current)
    return session.terminal.current


def earlier_texts(place, session):
    """What a session is told of texts that earlier ones left."""
    notes = [note for note in session.line.messages if note.kind == NoteKind.EARLIER]
    return {(note.tag, note.code.name, text_of(place / os.fsdecode(note.copy))) for note in notes}


def check_unnamed_beside_a_file_of_that_name(folder):
    """The copies of a file without a name, and of files whose names begin as its copy has it, differ in name. Each is offered as what it is,
    beside the files and in the user's own folder."""
    for is_own in (False, True):
        place = folder / str(is_own)
        place.mkdir()
        made(place)
        names = "unnamed-3", "unnamed-notes"
        for name in names:
            (place / name).write_text(f"{name}\n")
        prefix = as_nobody(place) if is_own else ()
        place.chmod(0o555 if is_own else 0o755)
        with Session(place, *names, options=("--left",), prefix=prefix) as session:
            for tag in (1, 2):
                session.type("more\n", tag)
            expect_equal(add_unnamed(session, "nameless\n"), 3, "the tag")
            expect_equal(session.end(), 0, "the status")
        with Session(place, *names, options=("--left",), prefix=prefix) as session:
            wanted = {(1, "NEWER", "unnamed-3\nmore\n"), (2, "NEWER", "unnamed-notes\nmore\n"), (0, "UNNAMED", "nameless\n")}
            expect_equal(earlier_texts(place, session), wanted, f"own folder: {is_own}: what is told of earlier texts")
        place.chmod(0o755)


def check_unnamed_copy_is_the_users_alone(folder):
    """The copy of a file without a name is as little open to others as before, whatever file has a name like it."""
    made(folder, a="one\n")
    (folder / "unnamed-2").write_text("open to all")
    (folder / "unnamed-2").chmod(0o644)
    with Session(folder, "a.txt") as session:
        add_unnamed(session, "nameless\n")
        session.end()
    copy = folder / "unnamed-2.sam-saved"
    expect_equal((text_of(copy), copy.stat().st_mode & 0o777), ("nameless\n", 0o600), "the copy, and its mode")


def check_unnamed_closed_without_room(folder):
    """The text of a file without a name that was closed on a full disk is saved later, and is that of a file without a name still."""
    made(folder, a="one\n")
    words, full = on_full_disk(folder)
    with Session(folder, "a.txt", prefix=("env", *map("=".join, words.items()))) as session:
        tag = add_unnamed(session, "nameless\n")
        full.write_text("")
        session.terminal.close(tag)
        session.settle()
        full.unlink()
        expect_equal(session.end(), 0, "the status")
    expect_equal([name for name in names_in(folder) if "sam" in name], [f"unnamed-{tag}.sam-saved"], "the copies")
    with Session(folder, "a.txt") as session:
        expect_equal(earlier_texts(folder, session), {(0, "UNNAMED", "nameless\n")}, "what is told of earlier texts")
