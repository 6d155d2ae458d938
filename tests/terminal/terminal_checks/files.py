"""Reading, writing and naming files, in tmux."""
import os
import re
import signal
import time
from pathlib import Path

from .support import SAMHOST, SAMHOST_WORD, STATE, UNREAD, Session, expect, made, not_of_root, wait_for_text, wait_until


def check_new_file(folder):
    """A file that isn't there is made when it is written; a new one needs a name."""
    with Session(folder, "new.txt") as session:
        session.wait_for("0,0 of 0")
        session.type("text")
        session.keys("C-w")
        wait_for_text(folder / "new.txt", "text")
        session.keys("C-n")
        session.wait_for("no name")
        session.type("second")
        session.keys("C-w")
        session.wait_for("not written: ")
        aside = folder / "unnamed-2.sam-saved"
        wait_for_text(aside, "second")
        session.command("f other.txt")
        session.wait_for("other.txt")
        session.keys("C-w")
        wait_for_text(folder / "other.txt", "second")
        wait_until(lambda: not aside.exists(), "the saved text stays")
        session.leave()


def check_failed_write(folder):
    """A write that failed leaves the file changed: its mark, `^K` and `^Q`. What failed stays on the screen until it is read."""
    made(folder, a="one\n")
    with Session(folder, "a.txt") as session:
        session.wait_for("one")
        session.rename("nowhere/c.txt")
        session.type("x")
        begin = time.monotonic()
        session.keys("C-w")
        session.wait_for("not written: nowhere/c.txt")
        session.wait_for_quiet()
        session.keys("C-q")
        session.type("y")
        has_been_read = time.monotonic() - begin >= UNREAD  # as it may have on a busy machine
        expect(has_been_read or session.shows("not written: nowhere/c.txt"), "what failed is gone before anyone can have read it")
        session.wait_for("* nowhere/c.txt")
        session.read()
        session.keys("C-q")
        session.wait_for("not written: nowhere/c.txt")
        session.keys("C-k")
        session.answer("nowhere/c.txt was not written; ^K again", "C-k")
        wait_until(lambda: not session.rows("nowhere/c.txt"), "the file stays")
        session.wait_for_quiet()
        session.leave()
    texts = {path.read_text() for path in folder.rglob("*c.txt.sam-*")}
    expect("xyone\n" in texts, f"the text is lost: {texts}")


def check_changed_on_disk(folder):
    """A file that another program changed, and one that `f NAME` names, the first `^W` leaves alone, and asks; the text is saved aside.
    The second, once the question was read, replaces it, and keeps beside it what it had."""
    path, other = made(folder, a="one\n", b="theirs\n")
    with Session(folder, "a.txt", width=140) as session:
        session.wait_for("one")
        session.type("x")
        for file, before, told in ((path, "changed\n", "another program changed it"), (other, "theirs\n", "it is there already")):
            file.write_text(before)
            aside = folder / f"{file.name}.sam-saved"
            session.keys("C-w")
            session.wait_for(f"{file.name}: {told}; its text is in {aside.name}. ^W again replaces it")
            expect((file.read_text(), aside.read_text()) == (before, "xone\n"), "the first write replaces it, or saves nothing aside")
            session.wait_for(f"* {file.name}")
            session.answer("^W again replaces it", "C-w")
            wait_for_text(file, "xone\n")
            wait_until(lambda: not aside.exists(), "the saved text stays")
            session.wait_for_quiet()
            session.wait_for(f"what another program had written there is in {file.name}.sam-theirs")
            expect((folder / f"{file.name}.sam-theirs").read_text() == before, "the other program's text is not kept")
            session.read()
            expect(not session.shows(told) and not session.shows(f"* {file.name}"), "it is told twice, or the file stays marked")
            session.rename("b.txt")
        session.leave()


def check_written_in_place(folder):
    """What can't be renamed over is written in place: by a link to what isn't there yet, and in a folder that may not be written."""
    (folder / "link").symlink_to("new.txt")
    closed = folder / "closed"
    closed.mkdir()
    (path,) = made(closed, a="one\n")
    path.chmod(0o666)
    closed.chmod(0o555)
    before = path.stat().st_ino
    with Session(folder, "link", "closed/a.txt", host=not_of_root(folder, SAMHOST_WORD)) as session:
        session.wait_for("0,0 of 0")
        session.type("text")
        session.keys("C-w")
        wait_for_text(folder / "new.txt", "text")
        session.keys("C-t")
        session.wait_for("one")
        session.type("x")
        session.keys("C-w")
        wait_for_text(path, "xone\n")
        session.leave()
    closed.chmod(0o755)
    expect((folder / "link").is_symlink() and path.stat().st_ino == before, "the link, or the file, was replaced")
    left = {entry.name for entry in (*folder.iterdir(), *closed.iterdir())} - {"status", "stderr", ".tmux", STATE}
    expect(left == {"link", "new.txt", "closed", "a.txt"}, f"there are {left}")
    expect(not any(path.is_file() for path in (folder / STATE).rglob("*")), "what the file was stays")


def check_saved_by_itself(folder):
    """After some quiet seconds a changed text is saved aside, so that no kill costs more. The next start says so, and tells of a write that
    was broken off."""
    made(folder, a="one\n")
    (folder / ".sam-a.txt-begun").write_text("on")
    aside = folder / "a.txt.sam-saved"
    with Session(folder, "a.txt") as session:
        session.wait_for("one")
        session.read(".sam-a.txt-begun is left of a write")
        session.type("typed ")
        session.wait_for("typed one")
        wait_for_text(aside, "typed one\n")
        processes = session.processes()
        terminal = next(process for name, process in processes.items() if name.startswith("python"))
        for process, number in ((terminal, signal.SIGSTOP), (processes[SAMHOST.name], signal.SIGKILL), (terminal, signal.SIGKILL)):
            os.kill(process, number)
        wait_until(session.status_file.exists, "it doesn't end")
    session.status_file.unlink()
    with Session(folder, "a.txt", width=140) as session:
        session.read(f"a.txt has a text that was not written: it is in {aside.name}", ".sam-a.txt-begun is left of a write")
        session.leave()
    expect(aside.read_text() == "typed one\n", "the text is lost")


def check_no_room_anywhere(folder):
    """A limit of file sizes ends nothing. That the text can't be saved is the worst line, and the status tells it."""
    (path,) = made(folder, a="one\n")
    with Session(folder, "a.txt", settings="ulimit -f 1;", width=140) as session:
        session.wait_for("one")
        session.type("x" * 2000)
        session.wait_for_quiet()
        session.keys("C-w")
        session.read("not written: a.txt: File too large; its text could not be saved", "the text of a.txt can't be saved aside")
        session.wait_for("* a.txt")
        session.wait_for_quiet()
        session.keys("C-q")
        session.answer("not written: a.txt. ^Q again", "C-q")
        session.wait_for_end(5)
    expect(path.read_text() == "one\n", "the file is broken")


def check_named_as_its_copy(folder):
    """A file that is named as the copy of its text, and written once that was asked, is no copy any more."""
    made(folder, a="one\n")
    (folder / "d").mkdir()  # no file can be written there
    copy = folder / "d.sam-saved"
    with Session(folder, "a.txt", width=140) as session:
        session.wait_for("one")
        session.rename("d")
        session.type("x")
        session.keys("C-w")
        wait_for_text(copy, "xone\n")
        session.read("not written: d")  # what is worse than a question hides it until it is read
        session.rename(copy.name)
        session.type("y")
        session.keys("C-w")
        session.answer("^W again replaces it", "C-w")
        wait_for_text(copy, "yxone\n")
        wait_until(lambda: not session.shows(f"* {copy.name}"), "the file is still marked as changed")
        session.leave()
    expect(copy.exists() and copy.read_text() == "yxone\n", "the text is lost")


def check_written_over_a_copy(folder):
    """Another file that is written over the copy of a text, once that was asked, stays when that text is written."""
    made(folder, a="one\n", b="two\n")
    (folder / "d").mkdir()
    copy = folder / "d.sam-saved"
    with Session(folder, "a.txt", "b.txt", width=140) as session:
        session.wait_for("one")
        session.rename("d")
        session.keys("C-w")
        wait_for_text(copy, "one\n")
        session.read("not written: d")
        session.keys("C-t")
        session.wait_for("two")
        session.rename(copy.name)
        session.keys("C-w")
        session.answer("^W again replaces it", "C-w")
        wait_for_text(copy, "two\n")
        expect((folder / "d.sam-saved.sam-theirs").read_text() == "one\n", "the text that stood there is lost")
        session.keys("C-p", "C-p")
        session.wait_to_go_to("d")
        session.rename("c.txt")
        session.keys("C-w")
        wait_for_text(folder / "c.txt", "one\n")
        session.leave()
    expect(copy.exists() and copy.read_text() == "two\n", "the other file's text is lost")


def check_name_with_a_dash(folder):
    """A file's name may begin as an option does."""
    path = folder / "-x"
    path.write_text("one\n")
    with Session(folder, "--", "-x") as session:
        session.wait_for("one")
        session.type("y")
        session.keys("C-w")
        wait_for_text(path, "yone\n")
        session.leave()


def check_renamed(folder):
    (path,) = made(folder, a="one\n")
    with Session(folder, "a.txt") as session:
        session.wait_for("one")
        session.command("f b.txt")
        session.wait_for("b.txt")
        session.keys("C-w")
        wait_for_text(folder / "b.txt", "one\n")
        session.command("f nowhere/c.txt")
        session.wait_for("nowhere/c.txt")
        session.keys("C-w")
        session.wait_for("not written: nowhere/c.txt")
        session.read()
        session.leave_unwritten()
    expect(path.exists(), "the old file is gone")
    told = (folder / "stderr").read_text()
    saved = re.search(r"its text is in (\S+)", told)
    expect(saved is not None, f"the text that could not be written is nowhere: {told}")
    text = Path(saved.group(1)).read_text()
    os.remove(saved.group(1))
    expect(text == "one\n", f"the saved text is {text!r}")


def check_long_name(folder):
    """Of a long path the end is shown, and the path is written."""
    deep = folder / ("d" * 40) / ("e" * 40)
    deep.mkdir(parents=True)
    path = deep / "file.txt"
    path.write_text("deep\n")
    with Session(folder, str(path)) as session:
        session.wait_for("deep")
        session.wait_for("…")
        session.type("x")
        session.keys("C-w")
        wait_for_text(path, "xdeep\n")
        session.leave()


def check_link_kept(folder):
    """A symbolic link stays one, and the file that it names is written."""
    (path,) = made(folder, a="one\n")
    (folder / "link").symlink_to("a.txt")
    with Session(folder, "link") as session:
        session.wait_for("one")
        session.type("x")
        session.keys("C-w")
        wait_for_text(path, "xone\n")
        session.leave()
    expect((folder / "link").is_symlink(), "the link was replaced")


def check_files(folder):
    """Several files: the menu, a second window, closing."""
    made(folder, a="first\n", b="second\n", c="third\n")
    with Session(folder, "a.txt", "b.txt", "c.txt") as session:
        session.wait_for("first")
        session.keys("C-o")
        session.wait_for("Files")
        session.keys("Down", "Enter")
        session.wait_for("second")
        session.keys("C-t")
        session.wait_for("first")
        expect(session.shows("second"), "the first window is gone")
        session.type("x")
        session.keys("C-k")
        session.answer("was not written; ^K again", "C-k")
        wait_until(lambda: not session.shows("xfirst"), "the file is still shown")
        session.keys("C-o")
        session.wait_for("Files")
        session.keys("Down", "Enter")
        session.wait_for("third")
        session.keys("F1")
        session.wait_for("shows these keys")
        session.keys("Escape")
        session.wait_for("third")
        session.leave()


def check_mouse(folder):
    (path,) = made(folder, a="one two three\n")
    with Session(folder, "a.txt") as session:
        session.wait_for("one two three")
        row = next(at for at, line in enumerate(session.screen()) if line.startswith("one two"))
        session.mouse((0, 4, row), (3, 7, row))
        session.wait_for("4,7 of 14")
        time.sleep(0.5)
        session.mouse(*((button, 10, row) for button in (0, 3, 0, 3)))
        session.wait_for("8,13 of 14")
        session.type("3")
        session.keys("C-w")
        wait_for_text(path, "one two 3\n")
        session.leave()
