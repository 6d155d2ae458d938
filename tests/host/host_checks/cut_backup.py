"""What was cut last, and stands in no file."""
import os
import signal
import subprocess
import time

from checks import GIVEN_UP, expect, wait_until
from sulgrevad import NoteKind

from .support import IDLE, LATE, OPEN, SAMHOST, Line, Session, as_nobody, expect_equal, made, message, on_file, text_of, typed


def is_cut_saved(folder, session, cut, how):
    """Ends a session in which a text was cut; answers what the host has saved of it."""
    session.told()
    status = session.end(how)
    expect_equal(status, 0, f"{how}: the status")
    lines = [line for line in session.lines if "cut last" in line]
    copies = list(folder.glob("cut.sam-saved*"))
    texts = [text_of(copy) for copy in copies]
    expect_equal(lines, [f"samhost: what was cut last is in {copy.name}" for copy in copies], f"{how}: what it says")
    for copy in copies:
        copy.unlink()
    expect(texts in ([], [cut]), f"{how}: {texts} is saved")
    return texts == [cut]


def check_cut(folder):
    """What was cut last and stands nowhere else is saved whole, however the session ends but by the user's leaving."""
    lines = "".join(f"line {number} \u8c46\n" for number in range(3000))
    start, end = 1000, 20_000
    for how, wanted in (("input", True), (signal.SIGTERM, True), (signal.SIGHUP, True), ("exit", False), ("q", False)):
        made(folder, a=lines)
        with Session(folder, "a.txt", options=("--left",)) as session:
            session.terminal.select(1, start, end)
            session.terminal.cut(1)
            session.write()
            expect_equal(is_cut_saved(folder, session, lines[start:end], how), wanted, f"{how}: whether it is saved")
        expect_equal(text_of(folder / "a.txt"), lines[:start] + lines[end:], "the file")


def check_cut_and_more(folder):
    """A text that was pasted, or only copied, stands in a file; of two cuts the last counts."""

    def cut(session, tag, start, end):
        session.terminal.select(tag, start, end)
        session.terminal.cut(tag)

    def paste(session, tag, place):
        session.terminal.select(tag, place, place)
        session.terminal.paste(tag)

    def copy(session, tag, start, end):
        session.terminal.select(tag, start, end)
        session.terminal.snarf(tag)

    for what, does, wanted in (
        ("pasted", lambda session: (cut(session, 1, 0, 3), paste(session, 1, 5)), None),
        ("copied", lambda session: copy(session, 1, 0, 3), None), ("cut", lambda session: cut(session, 1, 4, 7), "two"),
        ("cut again", lambda session: (cut(session, 1, 0, 3), cut(session, 1, 1, 4)), "two"),
        ("copied and erased", lambda session: (copy(session, 1, 0, 3), session.terminal.edit(1, 0, 8, "")), "one"),
        ("set", lambda session: session.terminal.set_snarf("none"), "none"),
    ):  # fmt: skip
        made(folder, a="one\ntwo\nthree\n")
        with Session(folder, "a.txt", options=("--left",)) as session:
            does(session)
            session.settle()
            is_saved = is_cut_saved(folder, session, wanted, "input")
            expect(is_saved == (wanted is not None), f"{what}: it is saved: {is_saved}")
        (folder / "a.txt.sam-saved").unlink(missing_ok=True)


def check_cut_is_saved_by_itself(folder):
    """What was cut is saved after some quiet seconds, so that a kill costs no more, for its owner alone. The copy goes once the text is
    pasted, or the terminal leaves. Where somebody took it away it is saved again at the end."""
    copy = folder / "cut.sam-saved"
    (folder / "cut").write_text("open to all")
    for how in ("kill", "paste", "exit", "taken"):
        made(folder, a="one\ntwo\n")
        with Session(folder, "a.txt", options=("--left",)) as session:
            session.terminal.select(1, 0, 3)
            session.terminal.cut(1)
            session.write()
            wait_until(copy.exists, "it is not saved", IDLE + LATE)
            expect_equal((text_of(copy), copy.stat().st_mode & 0o777), ("one", 0o600), "the copy and its mode")
            session.let_pass(0.2)
            if how == "kill":
                session.kill()
                expect_equal(text_of(copy), "one", "the copy after a kill")
                copy.unlink()
                continue
            if how == "paste":
                session.terminal.paste(1)
                session.settle()
                wait_until(lambda: not copy.exists(), "it stays though it was pasted", IDLE + LATE)
            if how == "taken":
                copy.unlink()
            expect_equal(session.end("exit" if how == "exit" else "input"), 0, f"{how}: the status")
        expect_equal(text_of(copy), "one" if how == "taken" else None, f"{how}: what is there at the end")
        copy.unlink(missing_ok=True)
        (folder / "a.txt.sam-saved").unlink(missing_ok=True)


def check_cut_beside_a_file_of_that_name(folder):
    """The copy of a file that is named `cut` has another name than that of the last cut, and each is offered as what it is, beside the file
    and in the user's own folder."""
    for is_own in (False, True):
        place = folder / str(is_own)
        place.mkdir()
        made(place)
        (place / "cut").write_text("one\n")
        (place / "b.txt").write_text("two\n")
        prefix = ()
        if is_own:
            prefix = as_nobody(place)
            place.chmod(0o555)
        with Session(place, "cut", "b.txt", options=("--left",), prefix=prefix) as session:
            session.type("more\n")
            session.terminal.select(2, 0, 2)
            session.terminal.cut(2)
            session.settle()
            expect_equal(session.end(), 0, "the status")
        with Session(place, "cut", "b.txt", options=("--left",), prefix=prefix) as session:
            notes = [note for note in session.line.messages if note.kind == NoteKind.EARLIER]
            earlier = {(note.tag, note.code.name, text_of(place / os.fsdecode(note.copy))) for note in notes}
            wanted = {(1, "NEWER", "one\nmore\n"), (2, "NEWER", "o\n"), (0, "CUT", "tw")}
            expect_equal(earlier, wanted, f"own folder: {is_own}: what is told of earlier texts")
        place.chmod(0o755)


def check_cut_by_broken_lines(folder):
    """So it is where the line breaks inside a message, or the stream is wrong after it."""
    first_three = ((1).to_bytes(2, "big"), bytes(4), (3).to_bytes(4, "big"))
    snarf = message(11, *first_three) + message(9, *first_three)
    for rest, status in ((b"", 0), (typed(1, 0, b"ab")[:-1], 0), (b"\xff", 3), (message(11, b"\0\7", bytes(8)), 3)):
        made(folder, a="one\n")
        for is_whole in (True, False):
            line, pipe = Line(), subprocess.PIPE
            whole = line.carried(on_file(OPEN) + snarf + rest)
            pieces = [whole] if is_whole else [bytes([byte]) for byte in whole]
            with subprocess.Popen([SAMHOST, "a.txt"], cwd=folder, stdin=pipe, stdout=pipe, stderr=pipe) as process:
                for piece in pieces:
                    os.write(process.stdin.fileno(), piece)
                    time.sleep(0.002 if len(pieces) > 1 else 0)
                said = line.lines(*process.communicate(timeout=GIVEN_UP))
                expect_equal(process.returncode, status, "the status")
            expect("samhost: what was cut last is in cut.sam-saved" in said, f"{rest}: it says {said}")
            expect_equal(text_of(folder / "cut.sam-saved"), "one", f"after {rest} in {len(pieces)} pieces: what was cut")
            for name in ("cut.sam-saved", "a.txt.sam-saved"):
                (folder / name).unlink()
