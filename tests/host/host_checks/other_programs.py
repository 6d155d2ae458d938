"""Files that other programs change meanwhile, and files under several names."""
import os
import shutil
import time

from checks import Skipped, wait_until

from .support import IDLE, SAMHOST, Session, expect_equal, expect_line, expect_only, made, names_in, run_host, text_of


def check_changed_by_another(folder):
    """A file that another program changed is not replaced by the first write, but by the second."""
    (path,) = made(folder, a="one\n")
    with Session(folder, "a.txt") as session:
        session.type("two\n")
        path.write_text("other\n")
        session.write()
        line = r"not written: a.txt: another program changed it, and the next write replaces it; its text is in a.txt.sam-saved"
        expect_line(session.told(), line)
        expect_equal(text_of(path), "other\n", "the file")
        expect_equal(text_of(folder / "a.txt.sam-saved"), "one\ntwo\n", "the copy")
        path.write_text("again\n")
        session.write()
        expect_line(session.told(), line, "changed again: ")
        expect_equal(text_of(path), "again\n", "the file that was changed again")
        session.write()
        expect_line(session.told(), "a.txt is replaced; what another program had written there is in a.txt.sam-theirs")
        expect_equal(text_of(folder / "a.txt.sam-theirs"), "again\n", "the other program's text")
        expect_equal(text_of(path), "one\ntwo\n", "the file")
        path.write_text("other\n")
        session.write()
        expect_line(session.told(), line, "changed since it was written: ")
        expect_equal(session.end("exit"), 0, "the status")
        expect_line(session.lines, "a.txt was not written; its text is in a.txt.sam-saved")
    expect_equal(text_of(path), "other\n", "the file at the end")
    expect_equal(text_of(folder / "a.txt.sam-saved"), "one\ntwo\n", "the copy at the end")


def check_theirs_is_kept(folder):
    """Another program's text that a write replaces is kept beside the file, also where that is written in place, or no link can be made. A
    text that is the document's own, or the same, is not."""
    without = ("strace", "-qq", "-o", "/dev/null", "-e", "inject=link:error=EPERM")
    for at, (is_linked, prefix) in enumerate(((False, ()), (True, ()), (False, without))):
        if prefix and shutil.which("strace") is None:
            raise Skipped("no strace")
        place = folder / str(at)
        place.mkdir()
        (path,) = made(place, a="one\n")
        if is_linked:
            os.link(path, place / "b.txt")
        theirs = place / "a.txt.sam-theirs"
        with Session(place, "a.txt", prefix=prefix) as session:
            session.type("two\n")
            for text, copy in (("first\n", theirs), ("second\n", place / "a.txt.sam-theirs.2")):
                path.write_text(text)
                session.write()
                expect_line(session.told(), r"not written: a.txt: another program changed it, .*")
                session.write()
                expect_line(session.told(), f"a.txt is replaced; what another program had written there is in {copy.name}")
                expect_equal((text_of(path), text_of(copy)), ("one\ntwo\n", text), f"linked: {is_linked}: the file and the copy")
            session.type("three\n")
            session.write()
            path.write_text("other\n")
            session.write()
            path.write_text("one\ntwo\nthree\n")
            session.told()
            session.write()
            expect_equal(session.told(), [], "what it says where the file has that text")
            expect_equal(session.end(), 0, "the status")
        expect_only(place, "a.txt", "a.txt.sam-theirs", "a.txt.sam-theirs.2", *(["b.txt"] if is_linked else []))


def check_theirs_without_room(folder):
    """Where another program's text can't be kept it is not replaced."""
    (path,) = made(folder, a="one\n")
    os.link(path, folder / "b.txt")
    with Session(folder, "a.txt", limit=1000) as session:
        session.type("two\n")
        path.write_text("x" * 2000)
        session.write()
        session.told()
        session.write()
        expect_line(session.told(), r"not written: a.txt: File too large; its text is in a.txt.sam-saved")
        session.end()
    expect_equal(text_of(path), "x" * 2000, "the file")


def check_changed_within_its_marks(folder):
    """A change is found also where length and time are as before; a file that has the same bytes again is not changed."""
    (path,) = made(folder, a="one\n")
    before = path.stat()
    with Session(folder, "a.txt") as session:
        session.type("two\n")
        path.write_text("ONE\n")
        os.utime(path, ns=(before.st_atime_ns, before.st_mtime_ns))
        session.write()
        expect_line(session.told(), r"not written: a.txt: another program changed it, .*")
        expect_equal(text_of(path), "ONE\n", "the file")
        path.unlink()
        path.write_text("ONE\n")
        session.write()
        expect_line(session.told(), "a.txt is replaced; what another program had written there is in a.txt.sam-theirs")
        expect_equal(text_of(path), "one\ntwo\n", "the file")
        path.unlink()
        session.write()
        expect_equal(session.told(), [], "what it says of a file that is gone")
        session.end()
    expect_equal(text_of(path), "one\ntwo\n", "the file that was gone")


def check_changed_meanwhile(folder):
    """A change is found also where it comes while the host writes: up to the moment in which the file is replaced, or touched."""
    if shutil.which("strace") is None:
        raise Skipped("no strace")
    slow = ("strace", "-qq", "-o", "/dev/null", "-e", "inject=fsync:delay_enter=1500000:when=1")  # 1.5 seconds
    for is_linked in (False, True):
        (path,) = made(folder, a="one\n")
        if is_linked:
            os.link(path, folder / "b.txt")
        with Session(folder, "a.txt", prefix=slow) as session:
            session.type("two\n")
            session.terminal.write(1)
            session.send()
            wait_until(lambda: any(name.startswith(".sam-") for name in names_in(folder)), "it doesn't begin to write")
            path.write_text("other\n")
            expect_line(session.told(), r"not written: a.txt: another program changed it, .*", f"linked: {is_linked}: ")
            session.end()
        expect_equal(text_of(path), "other\n", f"linked: {is_linked}: the file")
        expect_equal(text_of(folder / "a.txt.sam-saved"), "one\ntwo\n", f"linked: {is_linked}: the copy")
        (folder / "a.txt.sam-saved").unlink()


def check_replaced_meanwhile(folder):
    """A change is also a file of the same bytes that another program puts in the place of one that is written in place: the text would go
    to a file that may have no name any more."""
    if shutil.which("strace") is None:
        raise Skipped("no strace")
    slow = ("strace", "-qq", "-o", "/dev/null", "-e", "inject=fsync:delay_enter=1500000:when=1")  # 1.5 seconds
    path, other = made(folder, a="one\n", other="one\n")
    os.link(path, folder / "b.txt")
    with Session(folder, "a.txt", prefix=slow) as session:
        session.type("two\n")
        session.terminal.write(1)
        session.send()
        wait_until(lambda: any(name.startswith(".sam-") for name in names_in(folder)), "it doesn't begin to write")
        other.rename(path)
        expect_line(session.told(), r"not written: a.txt: another program changed it, .*; its text is in a.txt.sam-saved")
        expect_equal((text_of(path), text_of(folder / "b.txt")), ("one\n", "one\n"), "the files")
        session.write()
        expect_equal(session.told(), [], "what it says")
        expect_equal(session.end(), 0, "the status")
    expect_equal((text_of(path), text_of(folder / "b.txt")), ("one\ntwo\n", "one\n"), "the files at the end")
    expect_only(folder, "a.txt", "b.txt")


def check_two_hosts(folder):
    """Of two hosts that write one file at the same moment one finds it changed, and says so."""
    if shutil.which("strace") is None:
        raise Skipped("no strace")
    # The first is held for a second once it has looked at the file, before it replaces it or writes into it.
    for is_linked, call in ((False, "rename:delay_enter=1000000:when=1"), (True, "pwrite64:delay_enter=1000000:when=2")):
        (path,) = made(folder, a="one\n")
        if is_linked:
            os.link(path, folder / "b.txt")
        slow = ("strace", "-qq", "-o", "/dev/null", "-e", f"inject={call}")
        with Session(folder, "a.txt", prefix=slow) as first, Session(folder, "a.txt") as second:
            first.type("first\n")
            second.type("second\n")
            first.terminal.write(1)
            first.send()
            begun = (".sam-", "a.txt.sam-old")
            wait_until(lambda: any(name.startswith(begun) for name in names_in(folder)) or text_of(path) != "one\n", "it doesn't begin")
            time.sleep(0.3)
            second.write()
            told = first.told() + second.told()
            expect_line(told, r"not written: a.txt: another program changed it, .*; its text is in a.txt.sam-saved", f"linked: {is_linked}: ")
            texts = {text_of(path), text_of(folder / "a.txt.sam-saved")}
            expect_equal(texts, {"one\nfirst\n", "one\nsecond\n"}, f"linked: {is_linked}: the texts")
            expect_equal((first.end(), second.end()), (0, 0), "the statuses")
        (folder / "a.txt.sam-saved").unlink()


def check_came_since(folder):
    """A file that wasn't there at the start, and is there now, is another program's."""
    made(folder)
    path = folder / "new.txt"
    with Session(folder, "new.txt") as session:
        session.type("two\n")
        path.write_text("other\n")
        session.write()
        line = r"not written: new.txt: it is there already, and the next write replaces it; its text is in new.txt.sam-saved"
        expect_line(session.told(), line)
        expect_equal(text_of(path), "other\n", "the file")
        session.write()
        session.end()
    expect_equal((text_of(path), text_of(folder / "new.txt.sam-theirs")), ("two\n", "other\n"), "the file, and the other one's text")
    expect_only(folder, "new.txt", "new.txt.sam-theirs")


def check_named_onto_a_file(folder):
    """`f NAME` onto a file that is there: the second write replaces it. Back to its own file one is enough."""
    first, second = made(folder, a="one\n", b="other\n")
    with Session(folder, "a.txt") as session:
        session.type("two\n")
        session.rename("b.txt")
        session.write()
        expect_line(session.told(), r"not written: b.txt: it is there already, and the next write replaces it; its text is in b.txt.sam-saved")
        expect_equal(text_of(second), "other\n", "the file")
        session.write()
        expect_line(session.told(), "b.txt is replaced; what another program had written there is in b.txt.sam-theirs")
        expect_equal(text_of(second), "one\ntwo\n", "the file")
        session.rename("a.txt")
        session.type("three\n")
        session.write()
        expect_equal(session.told(), [], "what it says")
        expect_equal(session.end(), 0, "the status")
    expect_equal(text_of(first), "one\ntwo\nthree\n", "its own file")
    expect_equal(text_of(folder / "b.txt.sam-theirs"), "other\n", "the other one's text")
    expect_only(folder, "a.txt", "b.txt", "b.txt.sam-theirs")


def check_named_as_another(folder):
    """`f NAME` onto the file of another document of the session: that one then finds its file changed."""
    first, second = made(folder, a="one\n", b="two\n")
    with Session(folder, "a.txt", "b.txt") as session:
        session.type("a\n", 1)
        session.type("b\n", 2)
        session.rename("b.txt", 1)
        session.write(1)
        expect_line(session.told(), r"not written: b.txt: it is there already, .*; its text is in b.txt.sam-saved")
        session.write(1)
        expect_equal(text_of(second), "one\na\n", "the file")
        session.write(2)
        expect_line(session.told(), r"not written: b.txt: another program changed it, .*; its text is in b.txt.sam-saved")
        expect_equal(text_of(folder / "b.txt.sam-saved"), "two\nb\n", "the copy")
        session.end()


def check_two_names(folder):
    """One file under two names is read once, whether it is there or not, and that is said."""
    (path,) = made(folder, a="one\n")
    os.link(path, folder / "hard")
    (folder / "soft").symlink_to("a.txt")
    (folder / "nowhere").symlink_to("./new")
    for names in (("a.txt", "a.txt"), ("a.txt", "./a.txt"), ("a.txt", "hard"), ("soft", "a.txt"), ("new", "./new"), ("nowhere", "new")):
        wanted = (0, [f"samhost: {names[1]}: it stands twice among the words"])
        expect_equal(run_host(folder, [SAMHOST, *names]), wanted, f"status and lines of {names}")
    (folder / "d").mkdir()
    with Session(folder, "a.txt", "new", "d/new", "d/a.txt") as session:
        expect_equal(len(session.terminal.files()), 5, "how many files it knows")


def check_copy_taken_for_a_file(folder):
    """A document that is written over another's copy keeps its text, and so does the other: that is asked as of any file that is there."""
    made(folder, a="one\n", b="two\n")
    (folder / "d").mkdir()
    copy = folder / "d.sam-saved"
    with Session(folder, "a.txt", "b.txt") as session:
        session.rename("d", 1)
        session.write(1)
        expect_equal(text_of(copy), "one\n", "the copy")
        session.rename(copy.name, 2)
        session.write(2)
        expect_equal(text_of(copy), "one\n", "the copy before the second write")
        session.write(2)
        expect_equal(text_of(copy), "two\n", "the file that stands where the copy was")
        expect_equal(text_of(folder / "d.sam-saved.sam-theirs"), "one\n", "what the copy had")
        session.told()
        expect_equal(session.end("exit"), 0, "the status")
        expect_line(session.lines, "d was not written; its text is in d.sam-saved.2")
    expect_equal((text_of(copy), text_of(folder / "d.sam-saved.2")), ("two\n", "one\n"), "what is there at the end")


def check_named_as_its_copy(folder):
    """A document that is named as the copy of its text keeps that file, before and after it is written."""
    made(folder, a="one\n")
    (folder / "d").mkdir()
    copy = folder / "d.sam-saved"
    with Session(folder, "a.txt") as session:
        session.rename("d")
        session.write()
        session.rename(copy.name)
        session.told()
        session.let_pass(IDLE + 1)
        expect_equal(text_of(copy), "one\n", "the copy that the document is named as")
        session.write()
        expect_equal(session.told(), [], "what it says")
        session.type("two\n")
        session.write()
        expect_equal(session.end(), 0, "the status")
    expect_equal(text_of(copy), "one\ntwo\n", "the file")
    expect_only(folder, "a.txt", "d", copy.name)
