"""What stands on the screen, in tmux."""
import random
import re
import time
from types import SimpleNamespace

from checks import expect_sleep, in_some_try

from .pairs import opened
from .stalled_line import OnTerminal
from .support import LONG_LOAD, Session, expect, made, wait_for_text, wait_until


def check_runes(folder):
    """Wide and combining runes, tabs, control characters and long lines."""
    made(folder, a="日本語|\tx\ncafe\u0301|\nbell\x07|\n" + "m" * 100 + "\nend")
    with Session(folder, "a.txt") as session:
        session.wait_for("end")
        rows = session.rows("a.txt")[:6]
        wanted = ["日本語| x", "cafe\u0301|", "bell^G|", "m" * 80, "m" * 20, "end"]
        expect(rows == wanted, f"rows {rows}")
        session.keys("End")
        session.wait_for("6,6 of")
        column, _ = session.tmux("display-message", "-p", "#{cursor_x} #{cursor_y}").split()
        expect(column == "9", f"the cursor stands in column {column}, wanted 9")
        session.keys("Down", "Home", "Right", "Right", "Right", "Right")
        session.wait_for("12,12 of")
        session.keys("Left", "Delete")
        session.wait_for("caf|")
        session.leave_unwritten()


def check_rows_of_letters(folder):
    """A long line of letters is cut into rows as a whole, also where they aren't ASCII; letter by letter the rows are the same."""
    from terminal.view import layout

    def rows(strips):
        return [(strip.start, strip.end, [*strip.offsets], [*strip.columns], [*strip.texts], strip.width) for strip in strips]

    for width in (7, 80):
        line, maker, add = "größer als été " * 20, layout.StripMaker(width), layout.StripMaker.add
        for at, rune in enumerate(line):
            maker.add(at, rune)
        maker.finish(len(line))
        layout.StripMaker.add = None
        try:
            expect(rows(layout.strips_of(line, width, True)) == rows(maker.strips), f"{width} columns: the rows differ")
        finally:
            layout.StripMaker.add = add


def check_last_row_of_a_piece(folder):
    """Where the last row of a piece of a line begins is the same where it is worked out without the rows."""
    from terminal.text.texts import GAP
    from terminal.view import layout

    for seed in range(2000):
        numbers = random.Random(seed)
        runes = numbers.choice(("ab日本", "ab日本é𝄞\x01", f"a日e\u0301\t\u202e{GAP}"))
        text, width = "".join(numbers.choice(runes) for _ in range(numbers.randrange(60))), numbers.randrange(1, 14)
        got, wanted = layout._last_row(text, width), layout.strips_of(text, width, False)[-1].start
        expect(got == wanted, f"the last of {width} columns of {text!r} begins at {got}, wanted {wanted}")


def check_c_locale(folder):
    """In the C locale, too, all characters can be typed and are drawn."""
    (path,) = made(folder, a="豆b\n")
    with Session(folder, "a.txt", settings="LC_ALL=C") as session:
        session.wait_for("豆b")
        session.type("é")
        session.wait_for("é豆b")
        session.keys("C-w")
        wait_until(lambda: path.read_bytes() == "é豆b\n".encode(), lambda: f"a.txt has {path.read_bytes()}")
        session.leave()


def check_resize(folder):
    made(folder, a="x" * 100 + "\nend\n")
    with Session(folder, "a.txt") as session:
        session.wait_for("end")
        session.tmux("resize-window", "-x", "120", "-y", "30")
        wait_until(lambda: session.rows("a.txt")[:2] == ["x" * 100, "end"], "the long line is still broken")
        session.wait_for("| up ")
        wait_until(lambda: "| up " in "".join(session.screen()[28:29]), "the status line stands elsewhere")
        session.tmux("resize-window", "-x", "40", "-y", "12")
        wait_until(lambda: session.rows("a.txt")[2:4] == ["x" * 20, "end"], "the long line is not broken")
        session.tmux("resize-window", "-x", "4", "-y", "2")
        time.sleep(0.2)
        session.tmux("resize-window", "-x", "80", "-y", "24")
        wait_until(lambda: session.rows("a.txt")[1:3] == ["x" * 20, "end"], "a small screen was too small")
        session.leave()


def check_rows_after_resize(folder):
    """However the width of the screen changes, a window begins with a row."""
    text = "".join("x" * (at * 37 % 300) + "\n" for at in range(200))
    pair, editor, key, _ = opened(text, size=(20, 60))
    offsets = []
    for width in (60, 120, 60, 77, 40, 60, 13, 200, 60, 119) * 3:
        editor.arrange(20, width)
        pair.finish()
        top = editor.focus.top
        offsets.append(top - text.rfind("\n", 0, top) - 1)
        expect(offsets[-1] % width == 0, f"{width} columns: the window begins {offsets[-1]} characters after the start of a line")
        pair.press(key("Page Down"))
    expect(any(offsets), "this test is wrong: each window begins with a line")


def look_round(session):
    """Looks at some pages of 20,000 numbered lines, one after another, and last at the end."""
    session.wait_for("0000010 ")
    session.wait_for_quiet()
    for last in (30, 45, 60):
        session.keys("NPage")
        session.wait_for(f"{last:07} ")
        session.wait_for_quiet()
    session.keys("PPage")
    session.wait_for("0000036 ")
    session.wait_for_quiet()
    session.command("10000")
    session.wait_for("0009999 ")
    session.wait_for_quiet()
    session.keys("C-End")
    session.wait_for("0019999 ")
    session.wait_for_quiet()


def check_large(folder):
    """A file of 1,000,000 runes: only what is looked at crosses, until some seconds pass without a key. No key makes it longer."""
    lines = [f"{number:07} {'.' * 41}\n" for number in range(20_000)]
    (path,) = made(folder, a="".join(lines))
    expect(path.stat().st_size == 1_000_000, "this test is wrong")

    def expect_few():
        with Session(folder, "a.txt") as session:
            session.status_file.unlink(missing_ok=True)
            look_round(session)
            down = session.bytes_down()
            expect(down < 20_000, f"{down} bytes crossed")
            session.leave()

    in_some_try(expect_few)
    with Session(folder, "a.txt") as session:
        session.status_file.unlink(missing_ok=True)
        session.wait_for("0000010 ")
        session.keys("C-End")
        session.wait_for("0019999 ")
        session.type("x")
        session.wait_for("more than 1,000,000 characters")
        session.keys(*["S-Left"] * 8)
        session.type("the end")
        session.keys("C-w")
        wait_for_text(path, "".join(lines)[:-8] + "the end")
        session.leave()


def check_gaps(folder):
    """What is not loaded is drawn as a shade, and fills."""
    made(folder, a="".join(f"line {number}\n" for number in range(80_000)))
    with Session(folder, "a.txt", slow=LONG_LOAD) as session:
        session.wait_for("line 14")
        session.wait_for_quiet()
        with session.stopped_host():
            session.keys("C-End")
            session.wait_for("░░░░░")

        def is_filled():
            rows = session.rows("a.txt")
            return "line 79999" in rows and all(re.fullmatch(r"(line \d+)?", row) for row in rows)

        wait_until(is_filled, lambda: f"the shade never fills: rows {session.rows('a.txt')}")
        session.keys("C-q")  # the rest of the text would take minutes to come: he leaves while it does
        session.wait_for_end(0)


def check_status_line(folder):
    """With details the status line has what is locked, keys that wait, and bytes that the pipe doesn't take."""
    pair, editor, key, text = opened("a\n", "b\n", "c\n")
    editor.has_details = True
    first, second, third = editor.files
    pair.terminal.set_snarf("pasted")
    pair.finish()

    def parts(count=0):
        return pair.screen.status(editor, SimpleNamespace(waiting=bytes(count))).split(" | ")

    expect(parts() == ["file2", "0,0 of 2, line 1", "free"], f"it has {parts()}")
    expect(parts(12_345)[-1] == "waiting 12345", f"it has {parts(12_345)}")
    editor.take(key("^W"))
    expect("locked: this" in parts(), f"a write is under way here: it has {parts()}")
    for rune in "xy":
        editor.take(text(rune))
    expect("unsent 2" in parts(), f"two characters wait: it has {parts()}")
    pair.finish()
    expect("free" in parts() and not any("unsent" in part for part in parts()), f"all is done: it has {parts()}")
    pair.terminal.look(third.tag)
    for rune in "xy":
        editor.take(text(rune))
    expect("held 2" in parts(), f"two keys wait: it has {parts()}")
    pair.finish()
    expect("free" in parts() and not any("held" in part for part in parts()), f"all is done: it has {parts()}")
    editor.take(key("^W"))
    editor.go_to(first)
    expect("locked: 1" in parts(), f"a write is under way in another window: it has {parts()}")
    editor.take(key("^W"))
    expect("locked: 2" in parts(), f"two writes are under way: it has {parts()}")
    pair.finish()
    for typed in (key("Esc"), text("2p\n")):
        editor.take(typed)
    expect("locked: all" in parts(), f"a command line is under way: it has {parts()}")
    pair.finish()
    expect("free" in parts(), f"all is done: it has {parts()}")


def check_full_pipe(folder):
    """While the host takes nothing, bytes wait that the pipe has no room for. Keys act all the same, and nothing is lost."""
    (path,) = made(folder, a="end\n")
    text = "".join(f"line {number}\n" for number in range(20_000))
    (folder / "text").write_text(text)
    with Session(folder, "a.txt", width=140) as session:  # on a busy machine the status line is longer than 80
        session.wait_for("end")
        session.wait_for_quiet()
        with session.stopped_host():
            session.tmux("load-buffer", str(folder / "text"))
            session.tmux("paste-buffer", "-p")
            session.wait_for("line 19999")
            told = "the status line doesn't tell of it:\n"
            wait_until(lambda: re.search(r"\| waiting \d+", session.status()), lambda: told + "\n".join(session.screen()))
            session.type("|")
            session.wait_for("|end")
        wait_until(lambda: "| waiting" not in (session.status() or "| waiting"), lambda: f"bytes still wait: {session.status()}")
        session.wait_for_quiet()
        session.keys("C-w")
        wait_for_text(path, text + "|end\n")
        session.leave()


def check_sleeps(folder):
    """A quiet editor costs no processor time."""
    made(folder, a="one\n")
    with Session(folder, "a.txt") as session:
        session.wait_for("one")
        session.type("x")
        session.wait_for_quiet()
        expect_sleep(session.processes().values())
        session.leave_unwritten()


def check_rows_with_wide_characters(folder):
    """A row with a wide character is sent whole where it changes: what stays of one that is written over in part differs from screen to
    screen. Of another only what changes is."""
    for text, is_whole in (("日本 tail", True), ("ab tail", False)):
        place = folder / text[:1]
        place.mkdir()
        made(place, a=text)
        with OnTerminal(place, "a.txt") as session:
            session.read_until("tail")
            session.rest(1.0)
            session.type("\x1b[1;5FΩ")  # to the end, and a letter
            shown = session.read_all_until("Ω")
            expect((text[:2] in shown) == is_whole, f"of {text!r} and Ω it sends {shown!r}")
