"""That nothing is lost: what was cut, and another program's text; and what goes on without a host."""
import os
import signal
import time

from checks import Skipped, times_longer

from .pairs import Kept, in_a_small_window, opened
from .messages import NoteCode, aside
from .support import HELD_DOWN, SAMHOST, UNREAD, Session, expect, made, stat_of, wait_for_text, wait_until

LINES = [f"line {number} {'x' * 60}\n" for number in range(1, 2001)]
CUT, REST = "".join(LINES[99:1500]), "".join(LINES[:99] + LINES[1500:])


def parent_of(process):
    return int(stat_of(process)[1])


# ---- What was cut


def cut_a_stretch(session, path):
    """Cuts lines 100 to 1500, of which few are loaded, and writes the file. Answers the processes of samterm, the line and the host."""
    session.wait_for("line 10 ")
    session.command("100,1500")
    session.wait_for("line 100 ")
    session.wait_for_quiet()
    session.keys("C-x")
    session.wait_for(f"of {len(REST)}")
    session.wait_for_quiet()
    session.keys("C-w")
    wait_for_text(path, REST)
    session.wait_for_quiet()
    host = session.processes()[SAMHOST.name]
    return parent_of(parent_of(host)), parent_of(host), host


def check_cut_survives(folder):
    """What was cut and not pasted is kept whole where the session ends by the line, by a signal to either side, or with the screen."""
    for how, who, number in (
        ("line", 1, signal.SIGKILL), ("host", 2, signal.SIGTERM), ("samterm", 0, signal.SIGTERM), ("killed", 0, signal.SIGKILL),
        ("screen", None, None),
    ):  # fmt: skip
        place = folder / how
        place.mkdir()
        (path,) = made(place, a="".join(LINES))
        with Session(place, "a.txt", slow=20) as session:
            processes = cut_a_stretch(session, path)
            if who is None:
                session.tmux("kill-session")
            else:
                os.kill(processes[who], number)
            wait_for_text(place / "cut.sam-saved", CUT)
            if how == "samterm":
                session.wait_for_end(128 + signal.SIGTERM)
                told = (place / "stderr").read_text()
                expect("what was cut last is in cut.sam-saved" in told and "sam-here" not in told, f"it tells {told!r}")
        expect(path.read_text() == REST, f"{how}: the file is changed")


def check_cut_and_a_killed_host(folder):
    """Where the host was killed all of a cut is here: what wasn't loaded was loaded before it went."""
    (path,) = made(folder, a="".join(LINES))
    with Session(folder, "a.txt", slow=20) as session:
        os.kill(cut_a_stretch(session, path)[2], signal.SIGKILL)
        session.wait_for("the host is gone")
        session.keys("C-q")
        session.wait_for_end(3)
    told, kept = (folder / "stderr").read_text(), (folder / "cut.sam-here").read_text()
    expect(kept == CUT and "cut.sam-here" in told, f"it keeps {kept[-200:]!r}, and tells {told!r}")


def check_cut_and_leaving(folder):
    """Who leaves has no more use for what he cut; but who leaves a host that doesn't answer may not have got at it."""
    for is_silent in (False, True):
        place = folder / str(is_silent)
        place.mkdir()
        (path,) = made(place, a="one\n")
        with Session(place, "a.txt") as session:
            session.wait_for("one")
            session.keys("S-Right", "C-x", "C-w")
            wait_for_text(path, "ne\n")
            session.wait_for_quiet()
            if is_silent:
                with session.stopped_host():
                    session.keys("C-d")
                    session.wait_for("no answer for")
                    session.keys("C-q")
                    session.wait_for_end(3)
                wait_for_text(place / "cut.sam-saved", "o")
            else:
                session.leave()
        left = sorted(entry.name for entry in place.glob("*.sam-*"))
        expect(left == (["cut.sam-here", "cut.sam-saved"] if is_silent else []), f"silent: {is_silent}: there are {left}")


def check_cut_that_the_host_saved(folder):
    """What the host has told that it saved of a cut is not written here as well, where it has got all that was sent."""
    for is_told, has_all in ((True, True), (True, False), (False, True)):
        pair, editor, key, text = opened("abc\n")
        pair.press(key("Shift-Right"), key("^X"))
        if is_told:
            editor.hear(aside(0, NoteCode.CUT))
        if not has_all:
            editor.take(text("late"))
        with Kept() as kept:
            editor.keeping.keep_here(editor.way.line.has_all)
        cut = [text for name, text in kept.texts if name == "cut"]
        expect(cut == ([] if is_told and has_all else ["a"]), f"told: {is_told}, all: {has_all}: it keeps {cut}")
    pair, editor, key, text = opened("abc\n")
    editor.hear(aside(0, NoteCode.CUT))  # of the terminal that had the session before
    pair.press(key("Shift-Right"), key("^X"))
    with Kept() as kept:
        editor.keeping.keep_here(editor.way.line.has_all)
    expect(("cut", "a") in kept.texts, f"what was cut after it was told is not kept: {kept.texts}")


def check_long_text_that_came_back(folder):
    """A text that came back is written here, where it is longer than the host takes, though the host has saved what was cut before."""
    from sulgrevad import Dropped

    pair, editor, key, _ = opened("abc\n")
    pair.press(key("Shift-Right"), key("^X"), key("^V"))
    given = "long " * 8_000
    pair.terminal.give_back(Dropped(1, 0, len(given), given))
    pair.finish()
    editor.hear(aside(0, NoteCode.CUT))
    with Kept() as kept:
        editor.keeping.keep_here(editor.way.line.has_all)
    expect(("cut", given) in kept.texts, f"it keeps {[(name, text[:9]) for name, text in kept.texts]}")


# ---- Another program's text


def expect_theirs(session, file, theirs, press):
    """Presses `^W` in a way that is no answer: the other program's text stays, and it is asked. Then one that is."""
    press()
    session.wait_for("^W again replaces it")
    session.wait_for_quiet()
    time.sleep(0.3)
    expect(session.shows("^W again replaces it"), "the question is gone:\n" + "\n".join(session.screen()))
    expect(file.read_text() == theirs, f"another program's text is replaced by {file.read_text()!r}")
    session.keys("Left")
    wait_until(lambda: not session.shows("^W again"), "another key doesn't take the question back")
    session.keys("C-w")
    session.answer("^W again replaces it", "C-w")
    wait_for_text(file, "xone\n")
    kept = file.with_name(f"{file.name}.sam-theirs")
    expect(kept.exists() and kept.read_text() == theirs, "another program's text is kept nowhere")


def press_apart(session, seconds, count):
    """Presses `^W` so often, with such pauses. Skips where the machine makes these so long that they are those of someone who has read what
    was asked."""
    times = []
    for _ in range(count):
        begin = time.monotonic()
        session.keys("C-w")
        times.append((begin, time.monotonic()))
        time.sleep(seconds)
    for (before, _), (_, after) in zip(times, times[1:]):
        if after - before >= HELD_DOWN and after - times[0][0] >= UNREAD:
            raise Skipped("the machine is so busy that quick keys are slow ones")


def check_asks_to_replace(folder):
    """Two `^W` together, a moment apart, one that is held down, and two that come while samterm is held up replace no text of another
    program: neither in a file that was changed, nor in one that `f NAME` names."""

    def while_stopped(session):
        with session.stopped_terminal():
            session.keys("C-w", "C-w")

    apart = lambda seconds, count=2: lambda session: press_apart(session, seconds, count)  # noqa: E731
    at_once = lambda session: session.keys("C-w", "C-w")  # noqa: E731
    for at, (press, slow, renames) in enumerate((
        (at_once, 0, False), (at_once, 100, False), (while_stopped, 0, False), (apart(0.1), 0, True), (apart(0.3), 0, False),
        (apart(0.03, 20), 100, True),
    )):  # fmt: skip
        place = folder / str(at)
        place.mkdir()
        path, other = made(place, a="one\n", b="theirs\n")
        with Session(place, "a.txt", slow=slow, width=140) as session:
            session.wait_for("one")
            session.type("x")
            session.wait_for("xone")
            session.wait_for_quiet()
            if renames:
                session.rename("b.txt")
                session.wait_for_quiet()
            file = other if renames else path
            file.write_text("theirs\n")
            expect_theirs(session, file, "theirs\n", lambda: press(session))


# ---- Without a host


def check_lost_host_serves(folder):
    """After the host is lost moves, selecting, finding and copying go on in what is loaded, also where an answer was due."""
    for is_due in (False, True):
        pair, editor, key, text = opened("one two\nthree two\nlast\n")
        if is_due:
            editor.take(key("^D"))
        with Kept():
            editor.lose("the host is gone")
        window = editor.focus
        for keys, dot in (
            (["Down"], (8, 8)), (["End"], (17, 17)), (["Up"], (7, 7)), (["^End"], (23, 23)), (["^Home"], (0, 0)),
            (["^Right"], (3, 3)), (["Shift-Left"], (2, 3)), (["^A"], (0, 23)), (["Right", "^Home"], (0, 0)),
        ):  # fmt: skip
            for name in keys:
                editor.take(key(name))
            editor.update()
            expect(window.dot == dot, f"due: {is_due}, {keys}: the dot is {window.dot}, wanted {dot}")
        editor.take(key("^S"))
        for each in ("two", "\n"):
            editor.take(text(each))
        expect(window.dot == (4, 7), f"it finds {window.dot}")
        editor.take(key("^F"))
        expect(window.dot == (14, 17), f"it finds {window.dot} next")
        editor.take(key("^B"))
        expect(window.dot == (4, 7), f"it finds {window.dot} above")
        editor.take(key("^C"))
        expect(editor.clip == "two", f"it copies {editor.clip!r}")
        editor.take(pair.keys.Mouse("press", window.y + 2, 1, 0.0))
        expect(window.dot == (9, 9), f"the mouse leads to {window.dot}")


def check_lost_host_follows(folder):
    """The window follows the caret then, as far as text is loaded."""
    pair, editor, key, text = in_a_small_window()
    with Kept():
        editor.lose("the host is gone")
    for _ in range(30):
        editor.take(key("Down"))
    editor.update()
    window = editor.focus
    expect(window.read(window.caret, 8) == "line 30 ", f"the caret stands before {window.read(window.caret, 8)!r}")
    expect(window.layout().shows(window.caret), "the caret is not shown")


def check_lost_host_tells(folder):
    """A key that can't act without a host says so."""
    for pressed, told in (
        ("^W", "HOST LOST: nothing can be written there; "), ("^X", "HOST LOST: ^X can't act"), ("^V", "^V can't act"),
        ("^K", "^K can't act"), ("^Z", "^Z can't act"), ("^N", "^N can't act"), ("Backspace", "Backspace can't act"),
        ("x", "What you type is written to typed.sam-here"),
    ):  # fmt: skip
        pair, editor, key, text = opened("one\n")
        pair.press(text("y"))
        with Kept():
            editor.lose("the host is gone")
        pair.finish()
        editor.take(key("Left"))
        editor.take(text(pressed) if pressed == "x" else key(pressed))
        expect(told in editor.message, f"{pressed}: it tells {editor.message!r}")


def check_no_answer(folder):
    """From a second on the status line says how long the host has not answered; and no more once it does."""
    made(folder, a="one\n")
    with Session(folder, "a.txt") as session:
        session.wait_for("one")
        session.wait_for_quiet()
        with session.stopped_host():
            start = time.monotonic()
            session.type("x")
            session.wait_for("xone")
            is_early = not session.shows("no answer")
            expect(is_early or time.monotonic() - start > 0.9, "it is told too early")
            for seconds in (5, 7):
                session.wait_for_seconds("no answer for", seconds)
        wait_until(lambda: not session.shows("no answer"), "it stays though the host answers")
        session.wait_for_quiet()
        time.sleep(3.5)
        expect(not session.shows("no answer"), "it is told though no answer is due")
        session.leave_unwritten()


# ---- Leaving


def check_leaving_a_dead_line(folder):
    """Who leaves a host that doesn't answer is asked once, and is out soon after. The status and standard error say what is left."""
    for is_changed in (True, False):
        place = folder / str(is_changed)
        place.mkdir()
        made(place, a="one\n")
        with Session(place, "a.txt") as session:
            session.wait_for("one")
            session.wait_for_quiet()
            with session.stopped_host():
                if is_changed:
                    session.type("x")
                    session.keys("C-w")
                else:
                    session.keys("C-d")
                session.wait_for("no answer for")
                session.keys("C-q")
                if is_changed:
                    session.answer("the host doesn't answer. ^Q again leaves", "C-q")
                start = time.monotonic()
                session.wait_for_end(3 if is_changed else 0)
                seconds = time.monotonic() - start
                expect(seconds < 6 * times_longer(), f"changed: {is_changed}: it takes {seconds:.1f} s")
            told = (place / "stderr").read_text()
        if is_changed:
            expect((place / "a.txt.sam-here").read_text() == "xone\n" and "a.txt.sam-here" in told, f"it tells {told!r}")
        else:
            expect("sam-here" not in told, f"it tells {told!r}")
