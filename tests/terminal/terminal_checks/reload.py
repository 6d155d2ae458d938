"""Files that another program has changed: that it is told, and what they have now put in."""
import os
import time

from .breaks import expect_joining
from .left_texts import open_left
from .pairs import opened
from .support import STATE, Session, expect, made, wait_for_text, wait_until

OLD = "".join(f"line {number} {'x' * 60}\n" for number in range(1, 2001))
NEW = "".join(f"new {number} {'y' * 60}\n" for number in range(1, 3001))
TOLD = "a.txt: another program changed it"


def replaced(path, text):
    """Another program writes a file."""
    path.with_name(".other").write_text(text)
    os.replace(path.with_name(".other"), path)


def counted_in_journal(folder, words):
    (journal,) = (folder / STATE / "sulgrevad").glob("*/journal")
    return journal.read_bytes().count(words.encode())


def check_changed_while_shown(folder):
    """A file that another program changes is told of once while it is shown, and not where only its time has changed, or this session
    wrote it; nor a second time before it is read anew or written. Of one that isn't open nothing is told."""
    expect_joining()
    path, other = made(folder, a=OLD, b="two\n")
    with Session(folder, "a.txt", "b.txt", stays=True, width=120) as session:
        session.wait_for("line 10 ")
        session.type("q")
        session.keys("C-w")
        wait_for_text(path, "q" + OLD)
        session.wait_for_quiet()
        os.utime(path)
        replaced(other, "three\n")
        time.sleep(2.5)
        expect(not session.shows("another program"), "it is told though nobody changed it")
        replaced(path, NEW)
        session.wait_for(f"{TOLD}; ^U reloads it")
        expect(session.rows("a.txt")[0].startswith("qline 1 "), "it is put in unasked")
        replaced(path, NEW + "more\n")
        time.sleep(2.5)
        expect(counted_in_journal(folder, TOLD) == 1, "it is told again")
        expect(counted_in_journal(folder, "b.txt: another program") == 0, "a file is told of that isn't open")
        session.leave()


def check_reload(folder):
    """One key puts in what an unchanged file has now, though little of either text is loaded. `^Z` takes that back, `^R` makes it again.
    The file counts as written then, and isn't written again; what was copied stays, and the caret where it was."""
    expect_joining()
    (path,) = made(folder, a=OLD)
    with Session(folder, "a.txt", stays=True, slow=20, width=120) as session:
        session.wait_for("line 10 ")
        session.keys("S-Right", "S-Right", "C-c", "Down", "Down")
        replaced(path, NEW)
        session.wait_for(TOLD)
        before = path.stat()
        session.keys("C-u")
        session.wait_for("a.txt is reloaded")
        session.wait_for(f"of {len(NEW)}, line 3")
        session.wait_for_quiet()
        expect(session.rows("a.txt")[0].startswith("new 1 "), f"it shows {session.rows('a.txt')[0]!r}")
        expect(not session.shows("* a.txt"), "it counts as changed")
        expect(path.stat().st_mtime_ns == before.st_mtime_ns and path.stat().st_ino == before.st_ino, "it is written again")
        session.keys("C-z")
        session.wait_for(f"of {len(OLD)}")
        session.wait_for("* a.txt")
        session.keys("C-r")
        session.wait_for(f"of {len(NEW)}")
        session.keys("C-Home", "C-v", "C-w")
        wait_for_text(path, "li" + NEW)
        session.wait_for_quiet()
        expect(not session.shows("another program"), "the write asks")
        replaced(path, "last\n")
        session.wait_for(TOLD)
        session.keys("F9")
        session.wait_for("Left of earlier sessions")
        session.wait_for(TOLD)
        session.keys("Enter")
        wait_until(lambda: session.rows("a.txt")[:1] == ["last"], "the menu doesn't reload it")
        session.leave()
    left = sorted(entry.name for entry in folder.glob("*.sam-*"))
    expect(left == [], f"there are {left}")


def check_what_is_chosen_stays_chosen(folder):
    """While the menu of F9 shows, another program changes a file that comes before the one that was chosen: Enter is for that all the same."""
    from sulgrevad import NoteKind

    pair, editor, key, text = opened("one\n", "two\n")
    editor.reloading.meet_changed(2, "file1 was changed")
    pair.press(key("F9"))
    editor.reloading.meet_changed(1, "file0 was changed")
    lines = editor.menu.lines(9)
    wanted = [("file0: another program changed it", False), ("file1: another program changed it", True)]
    expect(lines == wanted, f"the menu has {lines}")
    pair.press(text("\n"))
    got = [note.tag for note in pair.ends.notes if note.kind == NoteKind.RELOAD]
    expect(got == [2], f"Enter reloads {got}")


def check_reload_asks(folder):
    """A changed file is asked for before; without an answer it stays. `^Z` brings back what was typed."""
    expect_joining()
    (path,) = made(folder, a=OLD)
    with Session(folder, "a.txt", stays=True, width=120) as session:
        session.wait_for("line 10 ")
        session.type("typed ")
        replaced(path, NEW)
        session.wait_for(TOLD)
        session.keys("C-u")
        session.wait_for("a.txt was not written; ^U again")
        session.keys("Left")
        session.wait_for_quiet()
        expect(session.rows("a.txt")[0].startswith("typed line 1 "), "it goes unasked")
        session.keys("C-u")
        session.answer("a.txt was not written; ^U again", "C-u")
        session.wait_for(f"of {len(NEW)}")
        session.wait_for("a.txt is reloaded")
        session.wait_for_quiet()
        session.keys("C-z")
        session.wait_for(f"of {len(OLD) + 6}")
        session.wait_for_quiet()
        session.keys("C-Home")
        wait_until(lambda: session.rows("a.txt")[0].startswith("typed line 1 "), "what was typed is lost")
        session.keys("C-w")
        wait_for_text(path, "typed " + OLD)
        path.unlink()
        session.keys("C-u")
        session.wait_for("a.txt is not reloaded")
        session.wait_for_quiet()
        session.type("x")
        session.wait_for("xtyped line 1 ")
        session.leave_unwritten()


def check_reload_over_what_was_taken(folder):
    """A text that an earlier session left is taken, and then what another program has written is put in its place: the old text stays, as
    it is in no file."""
    expect_joining()
    (path,) = made(folder, a="one\n")
    kept = folder / "a.txt.sam-here"
    kept.write_text("left\n")
    with Session(folder, "a.txt", stays=True, width=140) as session:
        session.wait_for("newer than the file; F9 takes it")
        session.read()
        open_left(session, "a.txt: ")
        session.keys("Enter")
        session.wait_for("a.txt has that text now")
        session.wait_for_quiet()
        replaced(path, "theirs\n")
        session.keys("C-u")
        session.answer("a.txt was not written; ^U again", "C-u")
        session.wait_for("a.txt is reloaded")
        session.leave()
    expect(kept.exists() and kept.read_text() == "left\n" and path.read_text() == "theirs\n", f"there are {list(folder.iterdir())}")


def check_reload_and_a_break(folder):
    """A file that is read anew as the line breaks is put in once it is back, and what was typed meanwhile goes into the new text."""
    expect_joining()
    (path,) = made(folder, a=OLD)
    with Session(folder, "a.txt", stays=True, slow=20, width=120) as session:
        session.wait_for("line 10 ")
        session.wait_for_quiet()
        replaced(path, NEW)
        session.wait_for(TOLD)
        with session.stopped_line():
            session.keys("C-u")
            session.type("t")
            session.wait_for("held 1")
            broken = session.break_line()
        session.wait_for_another_line(broken)
        session.wait_for(f"of {len(NEW) + 1}")
        session.wait_for_quiet()
        session.keys("C-w")
        wait_for_text(path, "t" + NEW)
        session.leave()
