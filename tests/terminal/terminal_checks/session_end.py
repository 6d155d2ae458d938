"""The end of a session: what is written here then, what is told, and the status."""
import contextlib
import io
import os
import signal
import sys

from .messages import aside, lost
from .pairs import Kept, opened
from .support import SECONDS, Failed, Session, expect, made, wait_for_text, wait_until


class Ending:
    """The link of a session that ends. The host takes as many bytes as it is given time for, tells some lines, and ends with a status."""

    stays = is_lost = is_broken = False
    ended_with, silence, late_after = None, 0.0, 1.0

    def __init__(self, pair, taken, lines, status):
        self.pair, self.taken, self.lines, self.status = pair, taken, lines, status
        self.waiting = bytearray(pair.up)

    @property
    def has_all(self):
        return not self.waiting

    def send(self):
        self.waiting += self.pair.ends.sent()

    def close(self, hear, go_on=lambda: None, seconds=10):
        count = len(self.waiting) if self.taken is None else self.taken
        self.pair.host.feed(bytes(self.waiting[:count]))
        del self.waiting[:count]
        self.pair.ends.bring(bytes(self.pair.down) + self.pair.host.take_out())
        go_on()
        for line in self.lines:
            hear(line)
        return self.status


def edited(pair, link):
    """A session that has ended but for its link."""
    from terminal.session import Session as Edited

    pair.editor.way.line = link
    return Edited(pair.terminal, link, pair.editor)


def ended(pair, taken, lines, status):
    """What is written here at the end of a session, with what it tells, and its status."""
    before = signal.getsignal(signal.SIGINT)
    with Kept() as kept, contextlib.redirect_stderr(io.StringIO()) as told:
        kept.status = edited(pair, Ending(pair, taken, lines, status))._end()
    signal.signal(signal.SIGINT, before)
    kept.told = told.getvalue()
    return kept


def check_end_without_the_last_bytes(folder):
    """At the end a status of 0 says nothing of what the host has not got: the stream may have been cut between two messages, or a signal
    may have ended the host. What it is told to have saved then lacks something."""
    told = (aside(1),)
    for taken, status, lines, wanted in (
        (None, 0, told, []), (None, None, told, []), (None, 255, told, []), (None, None, (), [("file0", "xya\n")]),
        (0, 0, told, [("file0", "xya\n")]), (0, 0, (), [("file0", "xya\n")]), (0, 255, told, [("file0", "xya\n")]),
        (None, 5, (lost(1),), [("file0", "xya\n")]),
        (None, 0, (lost(1),), [("file0", "xya\n")]),
    ):  # fmt: skip
        pair, editor, _, text = opened("a\n")
        pair.press(text("x"))
        editor.take(text("y"))
        ended(pair, taken, lines, status).expect(wanted, f"{taken} bytes taken, status {status}, told {lines}")


def check_interrupts_at_the_end(folder):
    """`^C` at the end doesn't wait for the host any longer. A second one doesn't stop what is written here."""
    from terminal.files import local_backup

    class Hanging(Ending):
        def close(self, hear, go_on=lambda: None, seconds=10):
            os.kill(os.getpid(), signal.SIGINT)
            expect(False, "the first doesn't end the waiting")

    def keep(name, text):
        os.kill(os.getpid(), signal.SIGINT)
        return kept(name, text)

    pair, editor, _, text = opened("a\n")
    pair.press(text("x"))
    os.chdir(folder)
    kept, local_backup.keep, before = local_backup.keep, keep, signal.getsignal(signal.SIGINT)
    try:
        with contextlib.redirect_stderr(io.StringIO()):
            edited(pair, Hanging(pair, 0, (), 0))._end()
    except KeyboardInterrupt as why:
        raise Failed("the second stops it") from why
    finally:
        local_backup.keep = kept
        signal.signal(signal.SIGINT, before)
    wait_for_text(folder / "file0.sam-here", "xa\n")


def check_fault_while_it_is_lost(folder):
    """What could not be written here when the host was lost, for a fault, is written at the end."""
    pair, editor, _, text = opened("a\n")
    pair.press(text("x"))
    keep_here, editor.keeping.keep_here = editor.keeping.keep_here, lambda *_: 1 // 0
    with contextlib.suppress(ZeroDivisionError):
        editor.lose("the host is gone")
    editor.keeping.keep_here = keep_here
    ended(pair, 0, (), None).expect([("file0", "xa\n")], "a fault")


def check_what_failed_is_tried_again(folder):
    """What could not be written here when the host was lost is written at the end, once there is room: texts, also of a closed file, what
    was typed, cut and begun. What was written then is not written again, and nothing is told to be lost that isn't."""
    texts = [("file0", "xa\n"), ("file1", "yb\n"), ("file2", "zc\n"), ("typed", "waits"), ("command", "$a/draft"), ("cut", "d")]
    for failing in (["file0", "file1", "file2", "typed", "command", "cut"], ["file1"], ["typed", "cut"]):
        pair, editor, key, text = opened("a\n", "b\n", "c\n", "de\n")
        for window, rune in zip(editor.files[:3], "xyz"):
            editor.go_to(window)
            pair.press(text(rune))
        pair.press(key("^K"), key("^K"))
        editor.go_to(editor.window_of(4))
        pair.press(key("Shift-Right"), key("^X"), key("^W"), key("Esc"), text("$a/draft"))
        editor.go_to(editor.window_of(2))
        pair.terminal.look(2)
        editor.take(text("waits"))
        with Kept() as kept:
            keep = kept.local_backup.keep
            kept.local_backup.keep = lambda name, text: None if name.lstrip("\0") in failing else keep(name, text)
            editor.lose("the host is gone")
        kept.expect([each for each in texts if each[0] not in failing], f"{failing} fail")
        expect(any("^Q tries again" in line for _, line in editor.notes.unread), f"it tells {editor.notes.unread}")
        kept = ended(pair, 0, (), None)
        kept.expect([each for each in texts if each[0] in failing], f"{failing} failed")
        expect("is lost" not in kept.told and kept.told.count("is here in /somewhere") == len(texts), f"it tells {kept.told}")
        expect(kept.status == 3, f"the status is {kept.status}")


def check_cut_text(folder):
    """What was cut is written here, unless it was pasted since (a short text at once, also where the host says nothing), something else was
    copied, or the user leaves."""
    for names, answered, wanted in (
        (("^X",), True, ["ab"]), (("^X", "End", "^V"), True, []), (("^X", "End", "^V"), False, []), (("^C",), True, []),
        (("^X", "Shift-Right", "^C"), True, []), (("^X", "^C"), True, ["ab"]), (("^X", "Shift-Right", "^X"), True, ["c"]),
    ):  # fmt: skip
        pair, editor, key, _ = opened("abc\n")
        pair.press(key("Shift-Right"), key("Shift-Right"))
        for name in names:
            editor.take(key(name))
            if answered:
                pair.finish()
        with Kept() as kept:
            editor.lose("the host is gone")
        cut = [text for name, text in kept.texts if name == "cut"]
        expect(cut == wanted, f"{names}, answered: {answered}: it keeps {cut}, wanted {wanted}")
    for leaves in (True, False):
        pair, editor, key, _ = opened("abc\n")
        pair.press(key("Shift-Right"), key("^X"))
        editor.is_over = leaves
        ended(pair, None, (aside(1),), None).expect([] if leaves else [("cut", "a")], f"the user leaves: {leaves}")
    for is_clean in (True, False):  # a host that ends with its line has saved what was cut, if it ends well
        pair, editor, key, _ = opened("abc\n")
        pair.press(key("Shift-Right"), key("^X"))
        told = (aside(1),)
        ended(pair, None, told, 0 if is_clean else 255).expect([] if is_clean else [("cut", "a")], f"the host ends well: {is_clean}")


def check_change_without_memory(folder):
    """Out of memory nothing of what is typed or pasted comes in, and nothing is told of it. It is written here at the end."""
    from sulgrevad import NoMemory, Status

    def short(*words):
        raise NoMemory(Status.NO_MEMORY)

    for gone, typed in (("a", "x"), ("a" * 512, "x" * 512 + "y" * 512 + "z"), ("", "xy")):
        pair, editor, key, _ = opened(gone + "end\n")
        pair.terminal.select(1, 0, len(gone))
        pair.finish()
        told = []
        editor.texts.listeners.append(told.extend)
        pair.ends.client.replace = short
        editor.take(pair.keys.Paste(typed))
        del pair.ends.client.replace
        expect("not enough memory" in editor.message, f"this test is wrong: {editor.message!r}")
        expect(not told, f"{len(gone)} runes go, it tells {told}")
        pair.finish()
        expect(pair.host.text(1) == gone + "end\n", f"the text is {pair.host.text(1)!r}")
        pair.press(key("^Z"))
        expect("nothing more" in editor.message, f"^Z tells {editor.message!r}")
        pair.press(pair.keys.Text("more"))
        ended(pair, None, (aside(1),), 0).expect([("typed", typed)], f"{len(gone)} runes were to go")


def check_paste_broken_off(folder):
    """A signal ends the session before the end of a paste has come: what has come is saved."""
    made(folder, a="one\n")
    with Session(folder, "a.txt") as session:
        session.wait_for("one")
        session.tmux("send-keys", "-H", *(f"{byte:x}" for byte in b"\x1b[200~first\nsecond "))
        session.wait_for("Esc twice")
        terminal = next(process for name, process in session.processes().items() if name.startswith("python"))
        os.kill(terminal, signal.SIGTERM)
        session.wait_for_end(128 + signal.SIGTERM)
        wait_for_text(folder / "a.txt.sam-saved", "first\nsecond one\n")


def check_last_answers(folder):
    """What the host answers at the end is heard, also once it tells nothing more; and all that waited is sent before."""
    from terminal.line.host_process import HostProcess

    code = "import os, sys; os.write(2, b'last line\\n'); os.close(2); os.write(1, b'%d bytes' % len(sys.stdin.buffer.read())); sys.exit(7)"
    lines, answers, link = [], [], HostProcess([sys.executable, "-c", code])
    link.send(bytes(300_000))
    expect(len(link.waiting) > 0, "this test is wrong: the pipe takes all at once")
    got = link.close(lines.append, answers.append, seconds=SECONDS), lines, b"".join(answers), len(link.waiting)
    expect(got == (7, ["last line"], b"300000 bytes", 0), f"status, lines, answers and what waits are {got}")


def check_end_with_a_dropped_text(folder):
    """A text that was dropped with open eyes is written here only where the host can't have saved it."""
    for status, lines, wanted in ((0, (), []), (255, (), [("file0", "xa\n")]), (255, (aside(1),), [])):
        pair, editor, key, text = opened("a\n")
        pair.press(text("x"), key("^K"), key("^K"))
        expect(not editor.tags, "this test is wrong: the file is open")
        ended(pair, None, lines, status).expect(wanted, f"status {status}, told {lines}")


def check_no_stray_text(folder):
    """A text that is again what its file has is neither saved nor written here: not when it is closed, and not at the end."""
    for closes in (True, False):
        place = folder / str(closes)
        place.mkdir()
        made(place, a="one\n", b="two\n")
        with Session(place, "a.txt", "b.txt") as session:
            session.wait_for("one")
            session.type("x")
            session.wait_for("xone")
            session.keys("BSpace")
            session.wait_for("* a.txt")
            if closes:
                session.keys("C-k")
                session.answer("a.txt was not written; ^K again", "C-k")
                wait_until(lambda: not session.rows("a.txt"), "the file stays")
                session.leave()
            else:
                session.leave_unwritten()
        left = {entry.name for entry in place.iterdir()} - {"a.txt", "b.txt", "status", "stderr", ".tmux"}
        told = (place / "stderr").read_text()
        expect(not left and "sam-" not in told, f"closed: {closes}: there are {left}, and it tells {told!r}")


def check_control_characters(folder):
    """A line on standard error does nothing to the screen."""
    from terminal import session

    with contextlib.redirect_stderr(io.StringIO()) as told:
        session.say("a\x1b[31mb\x7fc\x9bd\x80é豆")
    expect(told.getvalue() == "a?[31mb?c?d?é豆\n", f"it tells {told.getvalue()!r}")
