"""Writes that fail: what is said, and where the text is then."""
import contextlib
import os
import re
import resource
import shutil
from pathlib import Path

from checks import Skipped, expect, wait_until
from sulgrevad import NoteCode, NoteKind

from .line import with_calls
from .support import (
    IDLE, IS_ROOT, LATE, LONGEST_UNSAVED, NOBODY, Session, as_nobody, expect_equal, expect_line, expect_only, front_of, made, names_in,
    own_copy, text_of, with_disk, without_mount,
)  # fmt: skip


def check_failed_write(folder):
    """The text is saved before the terminal hears that the file is clean, and the line has the file, the cause and the copy."""
    made(folder, a="one\n")
    with Session(folder, "a.txt") as session:
        session.type("two\n")
        session.rename("nowhere/c.txt")
        session.terminal.write(1)
        session.send()
        wait_until(lambda: session.receive(0.1) and (session.lines or not session.terminal.is_dirty(1)), "no answer")
        expect(session.lines, "the terminal hears that the file is clean before the host says that it is not written")
        copy = own_copy(folder, "nowhere/c.txt")
        line = rf"not written: nowhere/c.txt: No such file or directory; its text is in {copy}"
        expect_line(session.told(), line)
        expect_equal(text_of(copy), "one\ntwo\n", "the copy")
        status = session.end("exit")
        expect_equal(status, 0, "the status")
        expect_line(session.lines, f"nowhere/c.txt was not written; its text is in {copy}")
    expect_equal(text_of(copy), "one\ntwo\n", "the copy after the end")


def check_failed_then_written(folder):
    """Once the text is written after all, its copy is gone."""
    made(folder, a="one\n")
    with Session(folder, "a.txt") as session:
        session.type("two\n")
        session.rename("c")
        (folder / "c").mkdir()
        session.write()
        copy = folder / "c.sam-saved"
        expect_line(session.told(), r"not written: c: Is a directory; its text is in c.sam-saved")
        expect_equal(text_of(copy), "one\ntwo\n", "the copy")
        session.type("three\n")
        session.rename("c.txt")
        session.write()
        expect_equal(session.told(), [], "what it says")
        expect_equal(session.end(), 0, "the status")
    expect_equal(text_of(folder / "c.txt"), "one\ntwo\nthree\n", "the file")
    expect_only(folder, "a.txt", "c", "c.txt")


def check_limit_of_a_file(folder):
    """A limit of file sizes (SIGXFSZ) is a failed write. Without a place for the text the status says so; the file stays whole."""
    (path,) = made(folder, a="one\n")
    for is_lifted in (False, True):
        with Session(folder, "a.txt", limit=1000) as session:
            session.type("x" * 2000)
            session.write()
            lines = session.told()
            expect_line(lines, r"not written: a.txt: File too large; its text could not be saved: File too large")
            expect_equal(text_of(path), "one\n", "the file")
            if is_lifted:
                resource.prlimit(session.process.pid, resource.RLIMIT_FSIZE, (resource.RLIM_INFINITY, resource.RLIM_INFINITY))
            status = session.end()
            expect_equal(status, 0 if is_lifted else 5, "the status")
            last = "a.txt was not written; its text is in a.txt.sam-saved" if is_lifted else "the text of a.txt is lost: File too large"
            expect_line(session.lines, last)
        expect_equal(text_of(path), "one\n", "the file after the end")
        expect_equal(text_of(folder / "a.txt.sam-saved"), "one\n" + "x" * 2000 if is_lifted else None, "the copy")
    expect_only(folder, "a.txt", "a.txt.sam-saved")


def check_closed_and_not_saved(folder):
    """A changed text whose file is closed while it can't be saved is tried again: after a while, and at the end."""
    (path,) = made(folder, a="one\n")
    copy = folder / "a.txt.sam-saved"
    for lifted in ("never", "before the end", "a while before the end"):
        with Session(folder, "a.txt", limit=1000) as session:
            session.type("x" * 2000)
            session.terminal.close(1)
            expect_line(session.told(), "a.txt is closed, and its text can't be saved: File too large")
            if lifted != "never":
                resource.prlimit(session.process.pid, resource.RLIMIT_FSIZE, (resource.RLIM_INFINITY, resource.RLIM_INFINITY))
            if lifted == "a while before the end":
                wait_until(lambda: session.receive(0.1) and copy.exists(), "the text is not saved before the end", LONGEST_UNSAVED + LATE)
            expect_equal(session.end(), 5 if lifted == "never" else 0, f"{lifted}: the status")
            if lifted != "never":
                expect_line(session.lines, "a.txt was not written; its text is in a.txt.sam-saved", f"{lifted}: ")
        expect_equal(text_of(copy), None if lifted == "never" else "one\n" + "x" * 2000, f"{lifted}: the copy")
        copy.unlink(missing_ok=True)
    expect_equal(text_of(path), "one\n", "the file")
    expect_only(folder, "a.txt")


def check_full_disk(folder):
    """A disk without room: the file is whole, the copy is on another disk, and once there is room the file is written."""
    with Session(folder, "full/a.txt", prefix=with_disk(folder, "full", "size=64k")) as session:
        inside = Path(f"/proc/{session.process.pid}/cwd/full")
        (inside / "filler").write_bytes(bytes(40_000))
        session.type("x" * 50_000)
        session.write()
        copy = own_copy(folder, "full/a.txt")
        expect_line(session.told(), rf"not written: full/a.txt: No space left on device; its text is in {copy}")
        expect_equal(text_of(inside / "a.txt"), "one\n", "the file")
        expect_equal(text_of(copy), "one\n" + "x" * 50_000, "the copy")
        expect_equal(names_in(inside), ["a.txt", "filler"], "what is in the folder")
        (inside / "filler").unlink()
        session.write()
        expect_equal(text_of(inside / "a.txt"), "one\n" + "x" * 50_000, "the file")
        expect_equal(session.told(), [], "what it says")
        expect_equal(session.end(), 0, "the status")
    expect_only(folder, "full")


def check_full_disk_keeps_an_older_copy(folder):
    """Where a later text has room only in a folder for temporary files, which a power cut may empty, the older copy stays; so it is with what
    was cut."""
    prefix = with_disk(folder, "disk", "size=256k", text="one two\n", then="cd disk")
    environment = {"XDG_STATE_HOME": str(folder / "disk" / "state")}
    with Session(folder, "a.txt", prefix=prefix, options=("--left",), environment=environment) as session:
        inside, own = Path(f"/proc/{session.process.pid}/cwd"), folder / "temporary" / f"sulgrevad-{os.geteuid()}"
        older = {name: inside / f"{name}.sam-saved" for name in ("a.txt", "cut")}
        newer = {name: own / f"{front_of(folder / 'disk' / name)}.sam-saved" for name in older}

        def cut(end):
            session.terminal.select(1, 0, end)
            session.terminal.cut(1)
            session.settle()

        cut(3)
        wait_until(older["cut"].exists, "what was cut is not saved", IDLE + LATE)
        with open(inside / "filler", "wb", buffering=0) as filler, contextlib.suppress(OSError):
            while filler.write(bytes(4096)):
                pass
        cut(4)
        wait_until(newer["a.txt"].exists, "the text is not saved elsewhere", IDLE + LATE)
        session.let_pass(0.2)
        texts = [{name: text_of(copy) for name, copy in copies.items()} for copies in (newer, older)]
        expect_equal(texts, [{"a.txt": "\n", "cut": " two"}, {"a.txt": " two\n", "cut": "one"}], "the newer copies, and the older ones")
        (inside / "filler").unlink()
        session.write()
        expect_equal((session.told(), text_of(inside / "a.txt")), ([], "\n"), "what it says, and the file")
        expect(not newer["a.txt"].exists(), "the copy of a text that is written stays")
        session.end("exit")


def check_write_while_its_disk_is_gone(folder):
    """A file that is gone with its disk is not made anew under the place of that at once, where nobody finds it once the disk is back. That
    is said, and the next write makes it. A file that is only removed is made anew at once."""
    with Session(folder, "place/a.txt", prefix=with_disk(folder, "place")) as session:
        session.type("two\n")
        Path(f"/proc/{session.process.pid}/cwd/place/a.txt").unlink()
        session.write()
        expect_equal(session.told(), [], "what it says of a file that is removed")
        session.type("three\n")
        without_mount(session, "place")
        session.write()
        line = "it is gone, perhaps with its disk, and the next write makes it anew; its text is in place/a.txt.sam-saved"
        expect_line(session.told(), f"not written: place/a.txt: {line}")
        expect_equal(names_in(folder / "place"), ["a.txt.sam-saved"], "what is there then")
        session.write()
        expect_equal(session.told(), [], "what it says of the next write")
        expect_equal(session.end(), 0, "the status")
    expect_equal(text_of(folder / "place" / "a.txt"), "one\ntwo\nthree\n", "the file")
    expect_equal(names_in(folder / "place"), ["a.txt"], "what is there at the end")


def check_name_that_the_disk_lacks(folder):
    """A text whose file has its name only until the power fails is not written: it is saved, and the next write is taken. So is a copy."""
    if shutil.which("strace") is None:
        raise Skipped("no strace")
    (path,) = made(folder, a="one\n")
    own = own_copy(folder, "a.txt")
    for error, when, why, copy in (
        ("EIO", "2", "Input/output error", folder / "a.txt.sam-saved"),
        ("EROFS", "2", "Read-only file system", folder / "a.txt.sam-saved"),  # a disk that has met a fault, and takes no more
        ("EIO", "2..4", "Input/output error", own),
    ):
        failing = ("strace", "-qq", "-o", "/dev/null", "-e", f"inject=fsync:error={error}:when={when}")  # of the file, then of the folder
        with Session(folder, "a.txt", prefix=failing) as session:
            session.type("two\n")
            session.write()
            wanted = [f"samhost: not written: a.txt: {why}; its text is in {copy if copy == own else copy.name}"]
            expect_equal((session.told(), text_of(copy)), (wanted, text_of(path)), f"{error} {when}: what it says, and the copy")
            session.let_pass(IDLE + LATE)
            expect(copy.exists(), f"{error} {when}: the copy is gone")
            session.write()
            expect_equal(session.told(), [], f"{error} {when}: what it says of the next write")
            expect_equal(session.end(), 0, "the status")
        expect_only(folder, "a.txt")


def check_typed_on_behind_a_name_that_the_disk_lacks(folder):
    """What the host itself has put into a file is no other program's, though that counts as not written: the next text replaces it. What
    another program puts there since is not replaced."""
    if shutil.which("strace") is None:
        raise Skipped("no strace")
    for is_others in (False, True):
        (path,) = made(folder, a="one\n")
        failing = ("strace", "-qq", "-o", "/dev/null", "-e", "inject=fsync:error=EIO:when=2")
        with Session(folder, "a.txt", prefix=failing) as session:
            session.type("two\n")
            session.write()
            expect_line(session.told(), "not written: a.txt: Input/output error; its text is in a.txt.sam-saved")
            if is_others:
                path.write_text("another's\n")
            session.type("three\n")
            session.write()
            if is_others:
                expect_line(session.told(), "not written: a.txt: another program changed it, and the next write replaces it; its text is .*")
            else:
                expect_equal(session.told(), [], "what it says of the next write")
            expect_equal(session.end(), 0, "the status")
        expect_equal(text_of(path), "another's\n" if is_others else "one\ntwo\nthree\n", "the file")
        (folder / "a.txt.sam-saved").unlink(missing_ok=True)


def check_written_over_what_could_not_be_read(folder):
    """A file that can't be read as it is to be written is not replaced at once, and that is told as the reason. The next write replaces it,
    as that says, also where it can be read by then; and keeps what it had."""
    for is_linked in (False, True):
        (path,) = made(folder, a="one\n")
        if is_linked:
            os.link(path, folder / "b.txt")
        with Session(folder, "a.txt") as session:
            session.type("two\n")
            with with_calls(session.process.pid, f"inject=openat:error=EIO:when={5 if is_linked else 3}"):  # the look at what is replaced
                session.write()
            why = "it can't be read, so another program may have changed it, and the next write replaces it"
            expect_line(session.told(), f"not written: a.txt: {why}; its text is in a.txt.sam-saved")
            refused = [note.code for note in session.line.messages if note.kind == NoteKind.NOT_SAVED]
            expect_equal(refused, [NoteCode.UNREADABLE], "the code")
            expect_equal(text_of(path), "one\n", "the file")
            session.write()
            expect_line(session.told(), "a.txt is replaced; what another program had written there is in a.txt.sam-theirs")
            expect_equal((text_of(path), text_of(folder / "a.txt.sam-theirs")), ("one\ntwo\n", "one\n"), "the file, and what it had")
            expect_equal(session.end(), 0, "the status")
        (folder / "a.txt.sam-theirs").unlink()


def check_name_in_a_folder_that_can_t_be_read(folder):
    """Where a folder can't be opened all of its disk is synced once a file has its name, and so it is with a copy."""
    if shutil.which("strace") is None:
        raise Skipped("no strace")
    made(folder)
    prefix, place, calls = as_nobody(folder), folder / "place", folder / "temporary" / "calls"
    place.mkdir()
    (place / "a.txt").write_text("one\n")
    if IS_ROOT:
        for path in (place, place / "a.txt"):
            os.chown(path, NOBODY, NOBODY)
    place.chmod(0o300)
    traced = ("strace", "-qq", "-o", calls, "-e", "trace=rename,link,syncfs")
    with Session(folder, "place/a.txt", prefix=(*prefix, *traced)) as session:
        session.type("two\n")
        session.write()
        session.type("three\n")
        expect_equal(session.end(), 0, "the status")
    place.chmod(0o700)
    found = re.findall(r"^(\w+)\(.*\) += 0$", calls.read_text(), re.MULTILINE)
    expect_equal(found, ["rename", "syncfs", "link", "syncfs"], "the calls")


def check_read_only_disk(folder):
    """On a disk that is read only the text goes to the user's own folder."""
    with Session(folder, "disk/a.txt", prefix=with_disk(folder, "disk", then="mount -o remount,ro disk")) as session:
        session.type("two\n")
        session.write()
        copy = own_copy(folder, "disk/a.txt")
        expect_line(session.told(), rf"not written: disk/a.txt: Read-only file system; its text is in {copy}")
        expect_equal(session.end(), 0, "the status")
    expect_equal(text_of(copy), "one\ntwo\n", "the copy")


def check_not_regular(folder):
    """A name of what is no file: nothing is written there, and nothing waits for a reader."""
    made(folder, a="one\n")
    os.mkfifo(folder / "fifo")
    with Session(folder, "a.txt") as session:
        session.type("two\n")
        session.rename("fifo")
        session.write()
        expect_line(session.told(), r"not written: fifo: it is not a regular file; its text is in fifo.sam-saved")
        session.rename("no/where/")
        session.write()
        copy, line = folder / "unnamed-1.sam-saved", r"not written: file 1: it has no name yet, or .*; its text is in unnamed-1.sam-saved"
        expect_line(session.told(), line)
        expect(not (folder / "fifo.sam-saved").exists(), "the copy by the older name is there still")
        copy.unlink()
        session.write()
        expect_line(session.told(), line)
        session.terminal.new_file()
        session.settle()
        tag = session.terminal.current
        session.type("new\n", tag)
        session.write(tag)
        expect_line(session.told(), rf"not written: file {tag}: it has no name yet, or .*; its text is in unnamed-{tag}.sam-saved")
        session.rename("nul\0name", tag)
        session.write(tag)
        expect_line(session.told(), rf"not written: file {tag}: .* no file can have; its text is in unnamed-{tag}.sam-saved")
        expect_equal(session.end(), 0, "the status")
    expect_equal(text_of(folder / f"unnamed-{tag}.sam-saved"), "new\n", "the copy")
