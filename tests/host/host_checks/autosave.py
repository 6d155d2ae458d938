"""What the host saves by itself, and what it says is left of earlier sessions."""
import contextlib
import os
import resource
import shutil
import signal
import subprocess
import threading
import time
from pathlib import Path

import sulgrevad
from checks import GIVEN_UP, expect, wait_until

from .line import traced
from .support import (
    AGE, IDLE, IS_ROOT, LATE, LONGEST_UNSAVED, NOBODY, SAMHOST, Session, as_nobody, expect_equal, expect_line, expect_only, front_of,
    made, names_in, own_copy, own_lines, stop, text_of, with_disk, without_mount,
)  # fmt: skip


def check_journal(folder):
    """A changed text is saved after some quiet seconds, is there after a kill, and is reported at the next start; it is never replaced."""
    (path,) = made(folder, a="one\n")
    copy = folder / "a.txt.sam-saved"
    with Session(folder, "a.txt") as session:
        begin = time.monotonic()
        session.type("two\n")
        wait_until(copy.exists, "the text is not saved", IDLE + LATE)
        expect(time.monotonic() - begin > IDLE / 2, "it is saved at once: this costs a write for each key")
        inode = copy.stat().st_ino
        session.type("three\n")
        wait_until(lambda: text_of(copy) == "one\ntwo\nthree\n", "a later text is not saved", IDLE + LATE)
        inode = copy.stat().st_ino
        session.command("1")
        session.let_pass(IDLE + 0.5)
        expect_equal(copy.stat().st_ino, inode, "the file of a copy that was up to date")
        expect_equal(session.told(), [], "what it says")
        session.kill()
    with Session(folder, "a.txt") as session:
        expect_line(session.lines, f"a.txt has a text that was not written: it is in a.txt.sam-saved{AGE}")
        session.type("four\n")
        session.end("exit")
        expect_line(session.lines, "a.txt was not written; its text is in a.txt.sam-saved.2")
    expect_equal(text_of(copy), "one\ntwo\nthree\n", "the copy of the session that was killed")
    expect_equal(text_of(folder / "a.txt.sam-saved.2"), "one\nfour\n", "the copy of the next session")
    expect_equal(text_of(path), "one\n", "the file")


def check_journal_is_removed(folder):
    """Once a text is written, or is again what its file has, its copy goes."""
    (path,) = made(folder, a="one\n")
    copy = folder / "a.txt.sam-saved"
    with Session(folder, "a.txt") as session:
        session.type("two\n")
        wait_until(copy.exists, "the text is not saved", IDLE + LATE)
        session.write()
        expect_only(folder, "a.txt")
        session.type("x")
        wait_until(copy.exists, "a later text is not saved", IDLE + LATE)
        end = session.terminal.len(1)
        session.terminal.select(1, end - 1, end)
        session.terminal.type(1, "")
        session.settle()
        wait_until(lambda: not copy.exists(), "the copy stays though the file has the text", IDLE + LATE)
        expect_equal(session.end(), 0, "the status")
        expect_equal(session.lines, [], "what it says")
    expect_equal(text_of(path), "one\ntwo\n", "the file")
    expect_only(folder, "a.txt")


def check_journal_while_typing(folder):
    """While the user types on and on the text is saved all the same."""
    made(folder, a="one\n")
    copy = folder / "a.txt.sam-saved"
    with Session(folder, "a.txt") as session:
        wait_until(lambda: session.type("x") or session.let_pass(0.1) or copy.exists(), "the text is not saved", LONGEST_UNSAVED + LATE)
        session.kill()
    expect(text_of(copy).startswith("one\nxx"), f"the copy has {text_of(copy)!r}")


def check_journal_without_room(folder):
    """That a changed text can't be saved is said once. It is tried again, also where nobody types any more."""
    made(folder, a="one\n")
    copy = folder / "a.txt.sam-saved"
    with Session(folder, "a.txt", limit=1000) as session:
        session.type("x" * 2000)
        wait_until(lambda: session.receive(0.1) and session.lines, "it doesn't say that there is no room", IDLE + LATE)
        session.type("y")
        session.let_pass(IDLE + 1)
        expect_equal(session.told(), ["samhost: the text of a.txt can't be saved aside: File too large"], "what it says")
        resource.prlimit(session.process.pid, resource.RLIMIT_FSIZE, (resource.RLIM_INFINITY, resource.RLIM_INFINITY))
        wait_until(copy.exists, "the text is not saved once there is room", LONGEST_UNSAVED + LATE)
        expect_equal(text_of(copy), "one\n" + "x" * 2000 + "y", "the copy")


def check_copy_of_the_user(folder):
    """A copy that the user changed, or took away, is his: the text goes elsewhere."""
    made(folder, a="one\n")
    copy = folder / "a.txt.sam-saved"
    with Session(folder, "a.txt") as session:
        session.type("two\n")
        wait_until(copy.exists, "the text is not saved", IDLE + LATE)
        copy.write_text("mine\n")
        session.type("three\n")
        second = folder / "a.txt.sam-saved.2"
        wait_until(second.exists, "the text is not saved elsewhere", IDLE + LATE)
        second.unlink()
        session.type("four\n")
        wait_until(second.exists, "the text is not saved again", IDLE + LATE)
        session.write()
        session.end()
    expect_equal(text_of(copy), "mine\n", "the file of the user")
    expect_only(folder, "a.txt", "a.txt.sam-saved")


def check_stale_host(folder):
    """A host whose line is dead saves its text at its end, also if its copy is gone since, as after a clean-up of the folder, unless the
    file has that text."""
    (path,) = made(folder, a="one\n")
    copy = folder / "a.txt.sam-saved"
    for how in ("input", signal.SIGHUP):
        for rest in ("is gone", "is another's", "is there", "is gone, and more was typed", "is written"):
            with Session(folder, "a.txt") as session:
                session.type("two\n")
                wait_until(copy.exists, "the text is not saved", IDLE + LATE)
                session.let_pass(0.2)
                if rest != "is there":
                    path.write_text("one\ntwo\n" if rest == "is written" else "one\ntwo\nthree\n")
                    copy.unlink()
                if rest == "is another's":
                    copy.write_text("another's\n")
                if "more" in rest:
                    session.terminal.type(1, "late ")
                    session.send()
                expect_equal(session.end(how), 0, "the status")
                copies = {text_of(left) for left in folder.glob("a.txt.sam-saved*")} - {"another's\n"}
                wanted = set() if rest == "is written" else {"one\ntwo\nlate " if "more" in rest else "one\ntwo\n"}
                expect_equal(copies, wanted, f"{how}, the copy {rest}: what is saved")
            for left in folder.glob("a.txt.sam-saved*"):
                left.unlink()
            path.write_text("one\n")


def check_copy_whose_disk_is_gone(folder):
    """Where a copy goes with its disk, the text is saved again at the end."""
    with Session(folder, "place/a.txt", prefix=with_disk(folder, "place")) as session:
        session.type("two\n")
        inside = Path(f"/proc/{session.process.pid}/cwd/place/a.txt.sam-saved")
        wait_until(inside.exists, "the text is not saved", IDLE + LATE)
        session.let_pass(0.2)
        without_mount(session, "place")
        expect_equal(session.end(), 0, "the status")
        expect_line(session.lines, "place/a.txt was not written; its text is in place/a.txt.sam-saved")
    expect_equal(text_of(folder / "place" / "a.txt.sam-saved"), "one\ntwo\n", "the copy")


def check_copy_whose_folder_is_gone(folder):
    """Where somebody removes the folder of a session that lives, its text is saved in the user's own folder, also if it had a copy there."""
    for is_typed in (False, True):
        place, state = folder / str(is_typed), folder / f"state{is_typed}"
        place.mkdir()
        made(place, a="one\n")
        with Session(place, "a.txt", environment={"XDG_STATE_HOME": str(state), "TMPDIR": str(state)}) as session:
            session.type("two\n")
            wait_until((place / "a.txt.sam-saved").exists, "the text is not saved", IDLE + LATE)
            session.let_pass(0.2)
            shutil.rmtree(place)
            copy = state / "sulgrevad" / f"{front_of('/a.txt')}.sam-saved"  # as if the folder were the root
            if is_typed:
                session.type("three\n")
                session.write()
                expect_line(session.told(), f"not written: a.txt: No such file or directory; its text is in {copy}")
            expect_equal(session.end(), 0, "the status")
            expect_line(session.lines, f"a.txt was not written; its text is in {copy}")
        expect_equal(text_of(copy), "one\ntwo\nthree\n" if is_typed else "one\ntwo\n", "the copy")


def check_copy_whose_folder_comes_back(folder):
    """Where a copy went with the folder of a session, the text is saved again once that folder is there, and at the end."""
    for seconds in (0, IDLE + LATE):
        place, state = folder / f"after{seconds}", folder / f"state{seconds}"
        place.mkdir()
        made(place, a="one\n")
        with Session(place, "a.txt", environment={"XDG_STATE_HOME": str(state), "TMPDIR": str(state)}) as session:
            session.type("two\n")
            copy = place / "a.txt.sam-saved"
            wait_until(copy.exists, "the text is not saved", IDLE + LATE)
            session.let_pass(0.2)
            shutil.rmtree(place)
            place.mkdir()
            session.let_pass(seconds)
            expect_equal(session.end(), 0, "the status")
            expect_line(session.lines, "a.txt was not written; its text is in a.txt.sam-saved")
        expect_equal(text_of(copy), "one\ntwo\n", f"after {seconds} s the copy")


def check_copy_of_a_renamed_file(folder):
    """A text whose file has got another name since it was saved is saved by that one: there a later session finds it."""
    made(folder, a="one\n")
    with Session(folder, "a.txt", options=("--left",)) as session:
        session.type("two\n")
        wait_until((folder / "a.txt.sam-saved").exists, "the text is not saved", IDLE + LATE)
        session.rename("b.txt")
        session.let_pass(IDLE + LATE)
        expect_only(folder, "a.txt", "b.txt.sam-saved")
        expect_equal(session.end(), 0, "the status")
        expect_line(session.lines, "b.txt was not written; its text is in b.txt.sam-saved")
    expect_only(folder, "a.txt", "b.txt.sam-saved")
    expect_equal(text_of(folder / "b.txt.sam-saved"), "one\ntwo\n", "the copy")


def check_offered(folder):
    """With --left a terminal is offered the texts that earlier sessions saved, each as a file named by the tag of its file,
    whether it is newer, and when it was saved. Written empty it goes, unless it has changed. One that its file has goes at once."""
    made(folder, a="one\n", b="b\n")
    own = own_copy(folder, "b.txt")
    own.parent.mkdir(mode=0o700)
    texts = {"a.txt.sam-saved": "saved\n", "a.txt.sam-saved.2": "older\n", "a.txt.sam-saved.3": "one\n", "cut.sam-saved": "cut"}
    for name, text in texts.items():
        (folder / name).write_text(text)
    own.write_text("own\n")
    when = 1_700_000_000
    os.utime(folder / "a.txt.sam-saved.2", (when, when))
    with Session(folder, "a.txt", "b.txt", options=("--left",)) as session:
        lines = session.told()
        shown = time.strftime("%Y-%m-%d %H:%M:%S", time.localtime(when))
        expect_line(lines, f"a.txt has a text that was not written: it is in a.txt.sam-saved.2, of {shown}, older than the file")
        expect_line(lines, r"what was cut last in an earlier session is in cut.sam-saved, of \d.*")
        terminal = session.terminal
        offered = {terminal.name(tag): tag for tag in terminal.files() if terminal.name(tag).startswith("~~left~~ ")}
        expect_equal(sorted(name[9:12] for name in offered), ["0 +", "1 +", "1 -", "2 +"], "what is offered")
        expect(f"~~left~~ 1 - {shown}" in offered, f"the times are wrong: {offered}")
        for name, tag in offered.items():
            terminal.load(tag, 0, terminal.len(tag))
            session.settle()
            text = terminal.text(tag, 0, terminal.len(tag))
            expect(text in ("saved\n", "older\n", "own\n", "cut"), f"{name} has {text!r}")
            if text == "older\n":
                (folder / "a.txt.sam-saved.2").write_text("changed since\n")
            terminal.edit(tag, 0, terminal.len(tag), "")
            terminal.write(tag)
            terminal.close(tag)
        expect_line(session.told(), "a.txt.sam-saved.2 is not dropped: it has changed since")
        expect_equal(session.end("exit"), 0, "the status")
        expect_equal(session.lines, [], "what it says at the end")
    expect_only(folder, "a.txt", "b.txt", "a.txt.sam-saved.2")


def check_times(folder):
    """With --times it tells when the files were written last, to programs alone."""
    (path,) = made(folder, a="one\n")
    os.utime(path, (1_700_000_000, 1_700_000_000))
    with Session(folder, "a.txt", "new.txt", options=("--times",)) as session:
        expect_equal(session.told(), [], "what it says")
        dated = [message for message in session.line.messages if message.kind == sulgrevad.NoteKind.DATED]
        expect_equal(dated, [sulgrevad.Note(sulgrevad.NoteKind.DATED, tag=1, number=1_700_000_000, path=b"a.txt")], "what it tells")


def check_left(folder):
    """What writes left that were broken off is reported, and stays."""
    made(folder, a="one\n")
    (folder / "d").mkdir()
    (folder / "link").symlink_to("d/b.txt")
    left = {".sam-Ab12Cd": "", ".sam-a.txt-Ab12Cd": "half", "a.txt.sam-old": "old", "a.txt.sam-saved.7": "seven", "d/b.txt.sam-old.2": "b"}
    left.update({"b.txt.sam-saved": "another's", "a.txt.sam-saved.x": "another's", "unnamed-3.sam-saved": "nameless"})
    for name, text in left.items():
        (folder / name).write_text(text)
    (folder / "temporary" / "a.txt.sam-saved").write_text("of any a.txt")
    own = own_copy(folder, "a.txt", ".sam-saved.2")
    own.parent.mkdir(mode=0o700)
    own.write_text("own")
    own_copy(folder, "d/a.txt").write_text("another's")
    if IS_ROOT:  # what another user has left of a write means nothing
        (folder / ".sam-Ef34Gh").write_text("")
        os.chown(folder / ".sam-Ef34Gh", NOBODY, NOBODY)
    with Session(folder, "a.txt", "link") as session:
        lines = session.told()
        for pattern in (
            r"\.sam-Ab12Cd is left of a write that was broken off",
            r"\.sam-a\.txt-Ab12Cd is left of a write that was broken off",
            r"a\.txt may be broken: what it was before a write is in a\.txt\.sam-old",
            rf"a\.txt has a text that was not written: it is in a\.txt\.sam-saved\.7{AGE}",
            r"link may be broken: what it was before a write is in d/b\.txt\.sam-old\.2",
            rf"a\.txt has a text that was not written: it is in {own}{AGE}",
            r"a file without a name was not written: its text is in unnamed-3\.sam-saved",
        ):
            expect_line(lines, pattern)
        expect_equal(len(lines), 7, "how many lines it says")
        session.type("two\n", 1)
        session.write(1)
        session.end()
    for name, text in left.items():
        expect_equal(text_of(folder / name), text, name)


def check_left_goes_once_its_file_is_on_the_disk(folder):
    """A copy whose text its file has goes once the disk has that file, which another program may just have written."""
    (path,) = made(folder, a="one\n")
    copy, log = folder / "a.txt.sam-saved", folder / "log"
    copy.write_text("one\n")
    with Session(folder, "a.txt", prefix=traced(log, "fsync,unlink")) as session:
        expect_equal((session.told(), copy.exists()), ([], False), "what it says, and whether the copy is there")
        session.end()
    calls = [line.split()[1].split("(")[0] for line in log.read_text().splitlines() if f"<{path}>" in line or "unlink" in line]
    expect_equal(calls[:2], ["fsync", "unlink"], f"of {calls} the first")


def check_left_in_a_closed_folder(folder):
    """A folder that may not be listed, but may have copies, is said to be so."""
    made(folder)
    (folder / "place").mkdir()
    (folder / "place" / "a.txt").write_text("one\n")
    prefix = as_nobody(folder)
    if IS_ROOT:
        os.chown(folder / "place", NOBODY, NOBODY)
    (folder / "place").chmod(0o300)
    with Session(folder, "place/a.txt", prefix=prefix) as session:
        lines = ["place/a.txt can only be read: Permission denied"] if IS_ROOT else []  # which has made the file
        lines += ["place/ can't be looked through for what is left of earlier sessions: Permission denied"]
        expect_equal(session.told(), [f"samhost: {line}" for line in lines], "what it says")
        session.end()


def check_ends(folder):
    """However a session ends, the text is saved, and that is said."""
    (path,) = made(folder, a="one\n")
    copy = folder / "a.txt.sam-saved"
    signals = (signal.SIGTERM, signal.SIGHUP, signal.SIGINT, signal.SIGQUIT, signal.SIGUSR1, signal.SIGUSR2, signal.SIGXCPU)
    for how in ("input", "exit", "q", *signals):
        with Session(folder, "a.txt") as session:
            session.type("two\n")
            expect_equal(session.end(how), 0, f"{how}: the status")
            expect_line(session.lines, "a.txt was not written; its text is in a.txt.sam-saved", f"{how}: ")
        expect_equal(text_of(copy), "one\ntwo\n", f"{how}: the copy")
        copy.unlink()
    with Session(folder, "a.txt") as session:
        session.type("two\n")
        session.give(b"\xff\xff\xff")
        expect_equal(session.end(), 3, "the status after a wrong stream")
    expect_equal(text_of(copy), "one\ntwo\n", "the copy after a wrong stream")
    expect_equal(text_of(path), "one\n", "the file")


def check_signal_after_bytes(folder):
    """What has come before a signal still counts."""
    made(folder, a="one\n")
    with Session(folder, "a.txt") as session:
        stop(session.process)
        for word in ("two ", "three "):
            session.terminal.type(1, word)
            session.send()
        session.process.send_signal(signal.SIGTERM)
        session.process.send_signal(signal.SIGCONT)
        while session.sources:
            expect(session.receive(GIVEN_UP), "it doesn't end")
        expect_equal(session.process.wait(GIVEN_UP), 0, "the status")
    expect_equal(text_of(folder / "a.txt.sam-saved"), "two three one\n", "the copy")


def check_closed_input(folder):
    """An input that is closed from the start can't be read."""
    made(folder, a="one\n")
    words = ("sh", "-c", 'exec "$0" a.txt <&-', SAMHOST)
    ended = subprocess.run(words, cwd=folder, capture_output=True, timeout=GIVEN_UP)
    expect_equal(own_lines(ended.stderr), ["samhost: standard input can't be read: Bad file descriptor"], "what it says")
    expect_equal(ended.returncode, 6, "the status")


def check_nothing_to_save(folder):
    """A session in which nothing was changed says nothing, and leaves nothing."""
    made(folder, a="one\n")
    for how in ("input", "exit", signal.SIGTERM):
        with Session(folder, "a.txt", "new.txt") as session:
            expect_equal(session.end(how), 0, "the status")
            expect_equal(session.lines, [], "what it says")
    expect_only(folder, "a.txt")


def check_closed(folder):
    """What is closed unwritten is saved all the same."""
    made(folder, a="one\n", b="b\n")
    with Session(folder, "a.txt", "b.txt") as session:
        session.type("two\n")
        session.terminal.close(1)
        session.terminal.close(2)
        expect_line(session.told(), "a.txt was not written; its text is in a.txt.sam-saved")
        expect_equal(session.end(), 0, "the status")
    expect_equal(text_of(folder / "a.txt.sam-saved"), "one\ntwo\n", "the copy")
    expect_only(folder, "a.txt", "a.txt.sam-saved", "b.txt")


def check_own_folder(folder):
    """What can't stand beside its file stands in the user's own folder for state, else in one among those for temporary files, with the
    user's number; never in a folder that is another's, or that others may read, and nowhere by the file's bare name."""
    own = f"sulgrevad-{os.geteuid()}"
    (folder / "full").write_text("no folder")
    (folder / "elsewhere").mkdir()
    (folder / "link").mkdir()
    (folder / "link" / "sulgrevad").symlink_to(folder / "elsewhere")
    home = {"XDG_STATE_HOME": "", "HOME": str(folder / "home")}
    for at, (environment, place) in enumerate((
        ({}, folder / "temporary" / "sulgrevad"), (home, folder / "home" / ".local" / "state" / "sulgrevad"),
        ({"XDG_STATE_HOME": "relative", "HOME": "also"}, folder / "temporary" / own),
        ({"XDG_STATE_HOME": str(folder / "full")}, folder / "temporary" / own),
        ({"XDG_STATE_HOME": str(folder / "link")}, folder / "temporary" / own),
        ({"XDG_STATE_HOME": str(folder / "full"), "TMPDIR": str(folder / "full")}, Path("/tmp") / own),
    )):  # fmt: skip
        made(folder, a="one\n")
        is_there = place.exists()
        if at == 3:
            place.chmod(0o755)
        with Session(folder, "a.txt", environment=environment) as session:
            session.type("two\n")
            session.rename(f"nowhere/{at}.txt")
            session.write()
            copy = place / (front_of(folder / f"nowhere/{at}.txt") + ".sam-saved")
            lines, text, mode = session.told(), text_of(copy), place.stat().st_mode & 0o777
            copy.unlink(missing_ok=True)
            expect_line(lines, rf"not written: nowhere/{at}.txt: .*; its text is in {copy}")
            expect_equal((text, mode), ("one\ntwo\n", 0o700), f"{environment}: the copy, and the mode of the folder")
        with contextlib.suppress(OSError):  # another check's host has a copy there
            if not is_there and place.parent == Path("/tmp"):
                place.rmdir()
    expect_equal(names_in(folder / "elsewhere"), [], "what is where a link leads")


def check_left_where_a_file_lies(folder):
    """What is left in the user's own folder is reported also where a file of the session lies there."""
    made(folder)
    (folder / "etc").mkdir()
    (folder / "etc" / "hosts").write_text("hosts\n")
    place = folder / "temporary" / "sulgrevad"
    place.mkdir(mode=0o700)
    hosts = front_of(folder / "etc" / "hosts")
    for name in ("x", f"{hosts}.sam-saved", f"{hosts}.sam-old", "hosts.sam-saved", "x.sam-saved", f".sam-{hosts}-Ab12Cd"):
        (place / name).write_text(name)
    nameless = front_of(folder / "unnamed-3")
    (place / f"{nameless}.sam-saved").write_text("")
    for paths in (("temporary/sulgrevad/x", "etc/hosts"), ("etc/hosts", "temporary/sulgrevad/x")):
        with Session(folder, *paths) as session:
            lines = session.told()
            for pattern in (
                rf"etc/hosts has a text that was not written: it is in {place}/{hosts}\.sam-saved{AGE}",
                rf"etc/hosts may be broken: what it was before a write is in {place}/{hosts}\.sam-old",
                rf"temporary/sulgrevad/x has a text that was not written: it is in temporary/sulgrevad/x\.sam-saved{AGE}",
                rf"{place}/\.sam-{hosts}-Ab12Cd is left of a write that was broken off",
                rf"a file without a name was not written: its text is in {place}/{nameless}\.sam-saved",
            ):
                expect_line(lines, pattern, f"{paths}: ")
            expect_equal(len(lines), 5, f"{paths}: how many lines it says")


def check_left_of_another_file(folder):
    """A copy in /tmp, or in the folder that TMPDIR names, is not taken for that of a file elsewhere that has the same name."""
    name = f"left-{os.getpid()}-{threading.get_ident()}.txt"
    copies = Path("/tmp") / f"{name}.sam-saved", folder / "temporary" / f"{name}.sam-saved"
    made(folder)
    (folder / name).write_text("one\n")
    for copy in copies:
        copy.write_text("one\ntwo\n")
    try:
        with Session(folder, name) as session:
            expect_equal(session.told(), [], "what it says")
    finally:
        copies[0].unlink()
