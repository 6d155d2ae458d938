"""Questions, and texts that were not written."""
import os
import random
import re
import signal

from .hostile import hostile
from .messages import Note, NoteCode, NoteKind, aside, first_message, lost, not_saved, said, write_note
from .pairs import Kept, Pair, opened
from .support import LONG_LOAD, SAMHOST, SAMHOST_WORD, Session, change_two, expect, host_that, made, wait_for_text, wait_until


def check_quit_by_selection(folder):
    """`^E` on a `q` asks as a `q` in the command window does."""
    pair, editor, key, text = opened("q\n")
    editor.take(text("x\n"))
    pair.terminal.select(editor.focus.tag, 2, 3)
    editor.take(key("^E"))
    pair.finish()
    expect(not editor.is_over and "not written" in editor.message, f"it doesn't ask: {editor.message}")
    editor.take(key("^E"))
    pair.finish()
    expect(editor.is_over, "it doesn't leave")


def check_question_of_a_window(folder):
    """A question is of the window that it was asked about."""
    pair, editor, key, text = opened("a\n", "b\n")
    first, second = editor.files
    for window in (second, first):
        editor.go_to(window)
        editor.take(text("x"))
        pair.finish()
    editor.take(key("^K"))
    pair.finish()
    expect("^K again" in editor.message, "it doesn't ask")
    editor.take(pair.keys.Mouse("press", second.y + 1, 0, 0.0))
    editor.take(key("^K"))
    pair.finish()
    expect(editor.files == [first, second], "a file is closed that was not asked about")


def check_quit_waits(folder):
    """A `q` waits for the answer to a paste before it asks."""
    pair, editor, key, text = opened("a\n")
    pair.terminal.set_snarf("pasted")
    pair.finish()
    for typed in (key("^V"), key("Esc"), text("q"), text("\n")):
        editor.take(typed)
    pair.finish()
    expect(not editor.is_over and "not written" in editor.message, f"it doesn't ask: {editor.message}")


def check_question_is_seen(folder):
    """A key that was pressed before its question stood on the screen doesn't answer it."""
    pair, editor, key, text = opened("q\nq\n", "b\n")
    first, second = editor.files
    editor.take(text("x"))
    pair.terminal.set_snarf("pasted")
    pair.finish()
    for name in ("^V", "^K", "^K"):
        editor.take(key(name))
    expect("wait" in editor.message, "it doesn't tell that the key waits")
    pair.finish()
    expect(pair.host.has_file(second.tag), "the file is closed though the user has seen no question")
    expect("^K again" in editor.message, f"it doesn't ask: {editor.message}")
    editor.go_to(first)
    pair.terminal.select(first.tag, 0, 1)
    for name in ("^L", "^E", "^E"):
        editor.take(key(name))
    pair.finish()
    expect(not editor.is_over and "^E again" in editor.message, f"it leaves though the user has seen no question: {editor.message}")
    for name in ("^Q", "^Q"):
        editor.take(key(name))
    pair.finish()
    expect(not editor.is_over and "^Q again" in editor.message, f"two keys at once leave: {editor.message}")
    editor.take(key("^Q"))
    pair.finish()
    expect(editor.is_over, "it doesn't leave")


def check_answer_waits(folder):
    """An answer that waits, since a larger screen has text loaded, is one all the same."""
    pair, editor, key, text = opened(("a long line " * 15 + "\n") * 250)
    editor.arrange(10, 40)
    for typed in (text("x"), key("Page Down"), key("^K")):
        editor.take(typed)
        pair.finish()
    expect("^K again" in editor.message, f"it doesn't ask: {editor.message}")
    editor.arrange(1000, 200)
    editor.update()
    expect(pair.terminal.locked(1), "this test is wrong")
    editor.take(key("^K"))
    pair.finish()
    expect(not pair.host.has_file(1), f"it asks twice: {editor.message}")


def check_quit_by_lines(folder):
    """An Enter that came together with the `q` is no answer to its question."""
    pair, editor, key, text = opened("a\n")
    for typed in (text("x"), key("Esc"), text("q\n\n")):
        editor.take(typed)
    pair.finish()
    expect(not editor.is_over and "Enter again" in editor.message, f"it doesn't ask: {editor.message}")
    editor.take(text("\n"))
    pair.finish()
    expect(editor.is_over, "it doesn't leave")


def check_quit_not_loaded(folder):
    """A selection that ends in a `q` which is not loaded leaves no more unasked than another. Where its last line is known, that counts."""
    for last, is_loaded, asks in (("q", False, True), ("q \n", False, True), ("q\n", True, True), ("end\n", True, False)):
        pair, editor, key, text = opened("line\n" * 40_000 + last)
        editor.take(text("x"))
        if is_loaded:
            editor.take(key("^End"))
        pair.finish()
        for name in ("^A", "^E"):
            editor.take(key(name))
        pair.finish()
        expect(not editor.is_over, f"{last!r}: it leaves unasked")
        expect(("not written" in editor.message) == asks, f"{last!r}: it tells {editor.message!r}")


def check_question_after_menu(folder):
    """A key that a menu takes takes a question back, too."""
    pair, editor, key, text = opened("a\n", "b\n")
    for typed in (text("x"), key("F2"), key("^Q")):
        editor.take(typed)
    pair.finish()
    expect("^Q again" in editor.message, f"it doesn't ask: {editor.message}")
    for typed in (text("\n"), key("^Q")):
        editor.take(typed)
    pair.finish()
    expect(not editor.is_over and "^Q again" in editor.message, "it leaves by a question that was taken back")


def check_quick_keys_answer_nothing(folder):
    """Two quick keys, and one that is held down, answer no question; one that is pressed later does."""
    for name, asks in (("^Q", "^Q again"), ("^K", "^K again")):
        for gaps in ((0.03,), (0.3,), (0.47,), (0.03,) * 100, (0.25,) + (0.03,) * 50, (0.66,) + (0.03,) * 50, (1.0,) + (0.09,) * 50):
            pair, editor, key, text = opened("a\n", "b\n")
            pair.press(text("x"), key(name), seconds=0)
            pair.now += 0.01
            for gap in gaps:
                pair.finish(gap)
                editor.take(key(name))
            pair.finish(0)
            expect(not editor.is_over and len(editor.files) == 2, f"{name}, then again after {gaps[:2]}..: it is done")
            pair.finish(0.3)
            expect(asks in editor.message, f"{name}, then again after {gaps[:2]}..: {editor.message!r}")
            pair.finish(0.3)
            pair.press(key(name))
            expect(editor.is_over or len(editor.files) == 1, f"{name}: it doesn't take an answer")


def check_dropped_is_saved(folder):
    """Two quick `^Q` do nothing but ask. What is dropped with open eyes is saved aside once: by `^K`, and by `^Q`."""
    made(folder, a="one\n", b="two\n")
    with Session(folder, "a.txt", "b.txt") as session:
        change_two(session)
        session.keys("C-q", "C-q")  # at once, since a busy machine makes pauses longer: those `check_quick_keys_answer_nothing` has
        session.wait_for("^Q again leaves without them")
        session.keys("Left")
        wait_until(lambda: not session.shows("^Q again"), "two quick keys leave, or a key doesn't take the question back")
        session.keys("C-k")
        session.answer("b.txt was not written; ^K again", "C-k")
        wait_until(lambda: not session.shows("ytwo"), "the file stays")
        session.leave_unwritten()
    for name, text in (("a.txt", "xone\n"), ("b.txt", "ytwo\n")):
        texts = [path.read_text() for path in folder.glob(f"{name}.sam-*")]
        expect(texts == [text], f"{name} is saved as {texts}")


def check_failed_writes(folder):
    """Where a write failed the file is changed; another that fails leaves it so, and one that doesn't takes that back."""
    pair, editor, key, text = opened("a\n")
    pair.failing = [not_saved(1), not_saved(1)]
    pair.press(text("x"), key("^W"))
    expect(editor.is_changed(1), "the file is taken for written")
    pair.press(key("^Q"))
    expect("^Q again leaves without" in editor.message, f"it doesn't ask: {editor.message}")
    pair.press(key("^W"))
    expect(editor.is_changed(1) and not pair.failing, "a write that failed again takes it back")
    pair.press(key("^W"))
    expect(not editor.is_changed(1), "a write that did not fail leaves the file changed")


def check_two_writes(folder):
    """Of two quick writes the second says whether the file is written. An edit after it leaves the file changed."""
    for first, second in ((True, True), (True, False), (False, True)):
        pair, editor, key, text = opened("a\n")
        pair.press(text("x"))
        for pressed, fails in ((key("^W"), first), (key("^W"), second)):
            editor.take(pressed)
            pair.failing += [not_saved(1, copy="/tmp/file0.sam-saved")] if fails else []
            pair.trip()
            while editor.deferred:  # the second waits for the answer to the first
                pair.trip()
        pair.finish()
        expect(editor.is_changed(1) == second, f"{first}, {second}: the file is taken for {'un' * (not second)}written")
        pair.press(text("y"))
        expect(editor.is_changed(1), "a later edit is taken for written")


def check_files_of_one_name(folder):
    """What the host tells of a file is known by its tag: another of the same name is not meant."""
    pair, editor, key, text = opened("a\n", "b\n")
    pair.failing = [not_saved(2)]
    for window in editor.files:
        editor.go_to(window)
        pair.press(key("Esc"), text("f same\n"), key("Esc"), text("x"), key("^W"))
    expect([pair.host.name(tag) for tag in (1, 2)] == ["same", "same"], "this test is wrong")
    changed = [editor.is_changed(tag) for tag in (1, 2)]
    expect(changed == [False, True], f"changed are {changed}: a write that failed is taken for done, or for another's")


def check_worst_line_first(folder):
    """What the host tells of a text stays until it is read, the worst first."""
    pair, editor, key, text = opened("a\n")
    journal = Note(NoteKind.NO_JOURNAL, code=NoteCode.NO_SPACE, text="the journal can't be written")
    for told in (aside(1), lost(1), not_saved(1, copy="/tmp/x"), journal, not_saved(1), said("a word")):
        editor.hear(told)
    editor.hear("another program")
    for wanted in ("is lost", "could not be saved", "its text is in /tmp/x", "journal", "its text is in /tmp/copy", "a word"):
        expect(wanted in editor.message, f"it shows {editor.message!r}, wanted {wanted!r}")
        editor.take(key("Left"))
        expect(wanted in editor.message, "a line that nobody can have read goes with a key")
        pair.finish()
        pair.press(key("Left"), seconds=0)
    expect(editor.message == "", f"it shows {editor.message!r}")


def check_worst_line_of_many(folder):
    """However many lines are not read yet, one that is worse comes first."""
    pair, editor, key, text = opened("a\n")
    for at in range(150):
        editor.hear(said(f"file{at}.sam-saved is there"))
    for told in (not_saved(1, copy="/tmp/x"), lost(1)):
        editor.hear(told)
        expect(told.text in editor.message, f"it shows {editor.message!r}, wanted {told.text!r}")


def check_a_line_that_comes_while_keys_wait(folder):
    """Keys that were pressed before a line stood there take it for read as little once they act, however long they waited, as do those that
    come at once behind the key that shows it."""
    pair, editor, key, text = opened("one\n")
    pair.press(key("Left"))  # the line at the bottom is empty then, and read
    for each in (key("^D"), text("x"), text("y")):
        editor.take(each)
    expect(editor.deferred, "this test is wrong: no key waits")
    for told in (not_saved(1, copy="/tmp/first"), not_saved(1, copy="/tmp/second")):
        editor.hear(told)
    pair.finish()
    expect(not editor.deferred and "/tmp/first" in editor.message, f"it shows {editor.message!r}")
    for each in (key("Left"), key("Left")):
        editor.take(each)
    expect("/tmp/second" in editor.message, f"the second line is gone unread: it shows {editor.message!r}")


def check_text_lost(folder):
    """The exit status tells that a text could not be saved anywhere."""
    notes = first_message(), lost(1), Note(NoteKind.ENDED, number=5)
    with Session(folder, "a.txt", "b.txt", host=hostile("notes", *(write_note(note).hex() for note in notes))) as session:
        session.wait_for("is lost: No space left on device")
        session.read("is lost: No space left on device")
        session.keys("C-q")
        session.wait_for_end(5)


def check_host_lost_with_a_text(folder):
    """The host is lost: what was changed is written here, its gaps marked, and the screen and standard error name the file."""
    made(folder, a="".join(f"line {number}\n" for number in range(20_000)))
    with Session(folder, "a.txt", slow=LONG_LOAD) as session:
        session.wait_for("line 14")
        session.type("typed ")
        session.wait_for("typed line 0")
        session.wait_for_quiet()
        os.kill(session.processes()[SAMHOST.name], signal.SIGKILL)
        session.wait_for("the host is gone")
        kept = folder / "a.txt.sam-here"
        wait_until(lambda: kept.name in "".join(session.screen()), "the file is not named")
        text = kept.read_text()
        expect(text.startswith("typed line 0\nline 1\n"), f"the text begins with {text[:40]!r}")
        expect(re.search(r"\[\d+ characters that were not loaded\]$", text) is not None, f"the text ends in {text[-60:]!r}")
        expect(kept.stat().st_mode & 0o077 == 0, "others may read the text")
        session.keys("C-q")
        session.wait_for_end(3)
    expect(len(list(folder.glob("a.txt.sam-here*"))) == 1, "it is written twice")


def check_typed_ahead_is_kept(folder):
    """What was typed and waits when the host is lost is written, too, to a file of its own: it is in no text. So is what was typed for a
    file that is not open yet, or before the files are known."""
    pair, editor, key, text = opened("a\n")
    pair.press(text("x"))
    for typed in (key("^D"), text("after")):
        editor.take(typed)
    with Kept() as kept:
        editor.lose("the host is gone")
    expect(kept.texts == [("file0", "xa\n"), ("typed", "after")], f"it keeps {kept.texts}")
    for trips in range(4):
        pair = Pair(random.Random(1), ["a\n"])
        for _ in range(trips):
            pair.trip()
        if pair.terminal.is_open(1):
            break
        pair.editor.take(text("early"))
        with Kept() as kept:
            pair.editor.lose("the host is gone")
        expect(kept.texts == [("typed", "early")], f"after {trips} round trips it keeps {kept.texts}")
    expect(trips > 1, "this test is wrong: the file is open at once")
    pair = Pair(random.Random(1), ["a\n", "b\n"])
    pair.editor.arrange(60, 80)
    pair.finish()
    for typed in (text("x"), key("^T"), text("late")):
        pair.editor.take(typed)
    with Kept() as kept:
        pair.editor.lose("the host is gone")
    expect(kept.texts == [("file0", "xa\n"), ("typed", "late")], f"it keeps {kept.texts}")


def check_lines_when_lost(folder):
    """Without a host, too, a line stays until it is read; then any key shows the next one, also a key that can't do anything."""
    pair, editor, key, text = opened("a\n", "b\n")
    for window in editor.files:
        editor.go_to(window)
        pair.press(text("x"))
    with Kept():
        editor.lose("the host is gone")
    for wanted, late in (("of file0 is here", key("Left")), ("of file1 is here", text("y"))):
        editor.take(late)
        expect(wanted in editor.message, f"it shows {editor.message!r}, wanted {wanted!r}")
        pair.finish()
        pair.press(late, seconds=0)
    expect("HOST LOST" in editor.message, f"that nothing can be typed is not told: {editor.message!r}")
    expect(editor.keeping.typed_late == "yy", f"of what is typed then it keeps {editor.keeping.typed_late!r}")


def check_saved_by_the_host(folder):
    """What the host says that it has saved is not written here too, where it has got all that was sent. A later change is."""
    pair, editor, key, text = opened("a\n")
    pair.press(text("x"))
    editor.hear(aside(1))
    with Kept() as kept:
        expect(editor.keeping.keep_here(True) == [] == kept.texts, f"it writes {kept.texts}, which the host has")
        expect(len(editor.keeping.keep_here(False)) == 1, "it tells nothing of a text which the host may lack")
    kept.expect([("file0", "xa\n")], "where the host may lack some")
    pair.press(text("y"))
    with Kept() as kept:
        expect(len(editor.keeping.keep_here(True)) == 1, "it tells nothing of a later change")
    kept.expect([("file0", "xya\n")], "after a later change")


def check_words_at_the_start(folder):
    """What the host tells at the start stands on the screen. A line before the stream is shown as what it is, and harms nothing."""
    (path,) = made(folder, a="one\n")
    host = host_that(folder, "echo Welcome to A box", "echo 'samhost: a.txt.sam-saved is there' >&2", f"exec {SAMHOST_WORD} \"$@\"")
    with Session(folder, "a.txt", host=host) as session:
        session.wait_for("one")
        session.read("samhost: a.txt.sam-saved is there", "printed: Welcome to A box")
        session.type("x")
        session.keys("C-w")
        wait_for_text(path, "xone\n")
        session.leave()


def check_noise_alone(folder):
    """A command that is no host: what it printed is told, and so is one whose stream ends, but which goes on."""
    for lines, wanted in ((["echo no samhost here"], "no samhost here"), (["exec >&-", "exec sleep 1000"], "doesn't answer")):
        (folder / "status").unlink(missing_ok=True)
        with Session(folder, "a.txt", host=host_that(folder, *lines)) as session:
            session.wait_for_end(1)
        told = (folder / "stderr").read_text()
        expect(wanted in told and "doesn't answer" in told, f"{lines}: it tells {told!r}")
