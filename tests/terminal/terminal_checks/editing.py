"""Typing, cutting, pasting and command lines, in tmux."""
import statistics
import time

from checks import times_longer

from .support import LINK, STATE, Session, expect, made, wait_for_text, wait_until


def edit_all(folder, slow):
    """Types, cuts, pastes, runs a command line on all occurrences, and writes."""
    (path,) = made(folder, a="one two\nthree two\n")
    path.chmod(0o640)
    with Session(folder, "a.txt", slow=slow) as session:
        session.wait_for("three two")
        session.type("Xyz ")
        session.wait_for("Xyz one two")
        session.keys("S-Left", "S-Left", "C-x", "End", "C-v")
        session.wait_for("Xyone twoz")
        session.command(",x/two/c/2/")
        session.wait_for("Xyone 2z")
        session.wait_for("* a.txt")
        session.wait_for_quiet()
        session.keys("C-w")
        wait_for_text(path, "Xyone 2z \nthree 2\n")
        session.wait_for_quiet()
        expect(not session.shows("* a.txt") and not session.shows("a.txt *"), "the file is still marked as dirty")
        session.leave()
    expect(path.stat().st_mode & 0o777 == 0o640, "the mode bits are not kept")
    # In STATE a copy stood for a while, if a busy machine held the line up.
    left = {entry.name for entry in folder.iterdir()} - {"a.txt", "status", "stderr", ".tmux", STATE}
    expect(not left, f"other files are left: {left}")

SLOW_TRIP = 1500  # milliseconds each way: so long that a key comes before its answer


def check_edit(folder):
    edit_all(folder, None)


def check_edit_slow(folder):
    edit_all(folder, LINK)


def check_typing_at_once(folder):
    """Each key stands on the screen while no answer comes, and sooner than one could over a slow line."""
    made(folder, a="one two\n")
    with Session(folder, "a.txt", slow=LINK) as session:
        session.wait_for("one two")
        session.wait_for_quiet()
        before, times = session.bytes_down(), []
        limit = 2 * LINK / 1000 * times_longer()
        with session.stopped_host():
            for at in range(1, 10):
                text = "".join(map(str, range(1, at + 1)))
                start = time.monotonic()
                session.type(str(at))
                session.wait_for(text + "one two")
                times.append(time.monotonic() - start)
            expect(session.bytes_down() == before, "this test is wrong: the host has answered")
        middle = statistics.median(times)
        expect(middle < limit, f"the middle key took {middle * 1000:.0f} of {limit * 1000:.0f} ms: {times}")


def check_on_the_way(folder):
    """The status line counts the messages on the way, and goes back to none though typing has no answer."""
    (path,) = made(folder, a="one two\n")
    with Session(folder, "a.txt") as session:
        session.wait_for("one two")
        session.keys("Escape", "Escape")  # so that the command file is open, and no rest has it opened meanwhile
        session.wait_for_quiet()
        with session.stopped_host():
            for keys, shown in (("x", "xone two"), ("S-Left", "0,1 of 9"), ("C-x", "0,0 of 8")):
                session.keys(keys)
                session.wait_for(shown)
            session.wait_for("on the way")
            expect("held" not in session.status() and "unsent" not in session.status(), f"something waits: {session.status()}")
        wait_until(lambda: "on the way" not in session.status(), "messages stay on the way")

        def is_silent():
            down = session.bytes_down()
            time.sleep(3 * LINK / 1000)
            return session.bytes_down() == down

        wait_until(is_silent, "the host is asked again and again")
        with session.stopped_host():
            session.keys("C-w")
            session.wait_for("on the way")
        wait_for_text(path, "one two\n")
        session.leave()


def check_crossing(folder):
    """A long text is cut and pasted over a slow line: all shows at once, and what is typed then stands behind what was pasted."""
    long = "ab" * 2500
    (path,) = made(folder, a=f"{long}c\n")
    with Session(folder, "a.txt", slow=SLOW_TRIP, width=160) as session:
        session.wait_for("abab")
        session.wait_for_quiet()
        session.keys("S-End", "S-Left", "C-x", "C-v", "C-v")
        session.type("typed")
        session.wait_for("typedc")
        expect(not session.held(), f"keys wait: {session.status()}")
        session.wait_for_quiet()
        session.keys("C-w")
        wait_for_text(path, f"{long}{long}typedc\n")
        session.leave()


def check_moves_wait(folder):
    """Keys that go by places wait for the lock, with those after them."""
    (path,) = made(folder, a="abc\n")
    with Session(folder, "a.txt", slow=LINK) as session:
        session.wait_for("abc")
        session.wait_for_quiet()
        session.keys("S-Right", "C-c", "C-v", "Right", "C-v")
        session.keys("Right")
        session.type("|")
        session.keys("BSpace")
        session.type("!")
        session.wait_for_quiet()
        session.keys("C-w")
        wait_for_text(path, "abac!\n")
        session.leave()


def check_long_command(folder):
    """A command over a file of 100,000 runes: a page of words, of which each tenth changes."""
    words = ("word " * 9 + "other\n") * 1961
    (path,) = made(folder, a=words[:100_000])
    with Session(folder, "a.txt") as session:
        session.wait_for("word word")
        session.wait_for_quiet()
        session.command(",x/other/c/O/")
        session.wait_for("word O")
        session.wait_for_quiet()
        session.keys("C-w")
        wait_for_text(path, words[:100_000].replace("other", "O"))
        session.leave()


def check_prints(folder):
    """What a command line prints stands in the command window; so does what is wrong with one."""
    made(folder, a="one two\nthree two\n")
    with Session(folder, "a.txt") as session:
        session.wait_for("three two")
        session.command("2p")
        wait_until(lambda: session.screen()[2].startswith("three two"), "the line is not printed")
        session.command("nonsense")
        session.wait_for("? command")
        session.command("/two/")
        session.wait_for("4,7 of 18")
        session.keys("C-l")
        session.wait_for("14,17 of 18")
        session.keys("C-f")
        session.wait_for("4,7 of 18")
        session.leave()


def check_many_lines(folder):
    """Many lines at once, as from the clipboard of the user's screen: into a file, and as command lines."""
    (path,) = made(folder, a="end\n")
    lines = "".join(f"line {number}\n" for number in range(200))
    with Session(folder, "a.txt", slow=20) as session:
        session.wait_for("end")
        session.wait_for_quiet()
        session.type(lines)
        session.wait_for("line 199")
        session.command("1,2d\n/line 9/\nc/nine/")
        session.wait_for_quiet()
        session.keys("C-w")
        wait_for_text(path, lines.replace("line 0\nline 1\n", "").replace("line 9\n", "nine\n", 1) + "end\n")
        session.leave()


def check_send(folder):
    """A selection of a file runs as a command line."""
    (path,) = made(folder, a=",x/o/c/0/\none two\n")
    with Session(folder, "a.txt") as session:
        session.wait_for("one two")
        session.keys("S-End", "C-e")
        session.wait_for("0ne tw0")
        session.wait_for_quiet()
        session.keys("C-w")
        wait_for_text(path, ",x/0/c/0/\n0ne tw0\n")
        session.leave()


def check_leave_waits(folder):
    """An edit is held, or a paste is under way: leaving waits for it, and then asks, since the file was not written."""
    made(folder, a="one one\n")
    with Session(folder, "a.txt", slow=SLOW_TRIP) as session:
        session.wait_for("one one")
        session.wait_for_quiet()
        session.keys("S-Right", "C-c", "C-l")
        session.wait_for("locked: this")
        before = session.held()
        session.type("x")
        wait_until(lambda: session.held() > before, "what is typed doesn't wait")
        expect(not session.shows("* a.txt"), "a held edit is shown as a change")
        session.keys("C-q")
        session.wait_for("keys wait for the host")
        session.wait_for("not written: a.txt")
        session.keys("C-w")
        wait_until(lambda: not session.shows("* a.txt"), "the file is still marked as changed")
        session.wait_for_quiet()
        session.keys("S-Left", "C-l")
        session.type("y")
        session.keys("C-q")
        session.wait_for("keys wait for the host")
        session.wait_for("not written: a.txt")
        session.keys("C-w")
        wait_until(lambda: not session.shows("* a.txt"), "the file is still marked as changed")
        session.wait_for_quiet()
        session.leave()


def check_leave_asks(folder):
    made(folder, a="one\n")
    with Session(folder, "a.txt") as session:
        session.wait_for("one")
        session.type("x")
        session.keys("C-q")
        session.wait_for("not written: a.txt")
        session.switch()
        session.type("q")
        session.keys("Enter")
        session.answer("Enter again leaves", "Enter")
        session.wait_for_end(0)
    expect((folder / "a.txt").read_text() == "one\n", "it was written")
