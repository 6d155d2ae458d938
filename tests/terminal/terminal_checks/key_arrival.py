"""Keys mean the same however they arrive, and go where they say over text that is not loaded."""
import random
import time

from checks import Skipped

from .model import Model
from .pairs import KNOWN_LATE, opened
from .support import COMMAND_WINDOW, Session, expect, made, wait_until

ENDS = ((2_700, (24, 80)), (10_000, (50, 80)), (20_000, (24, 80)))  # of long lines, and the screen
SELECTING = ("left", "right", "up", "down", "home", "end", "word_left", "word_right")
NAMES = {"word_left": "^Left", "word_right": "^Right", "first": "^Home", "last": "^End"}


def check_ends_of_long_lines(folder):
    """Home and End go to the ends of a line that is not loaded, and what comes next waits for that. No screen is between them."""
    for count, size in ENDS:
        line = ("x" * count + "word")[-count:]
        for is_slow in (False, True):
            for keys, wanted in (
                (("End", "Z"), f"{line}Z\nend\n"), (("^End", "Up", "Up", "Home", "Z"), f"Z{line}\nend\n"),
                (("Down", "End", "Z"), f"{line}Z\nend\n" if count > size[1] else ""),
                (("^End", "Left", "Up", "End", "Shift-Home", "^X"), "\nend\n"), (("Shift-End", "Z"), "Z\nend\n"),
                (("^Right", "Z"), f"{line}Z\nend\n"), (("End", "^Left", "Z"), f"Z{line}\nend\n"),
            ):  # fmt: skip
                pair, editor, key, text = opened(f"{line}\nend\n", size=size)
                for name in keys:
                    editor.take(text(name) if name == "Z" else key(name))
                    pair.settle() if is_slow else pair.finish()
                pair.finish()
                got = pair.host.text(1)
                told = f"it has {len(got)} characters, Z at {got.find('Z')}, wanted {wanted.find('Z')}"
                expect(got == wanted, f"{count}, {size}, {keys}: {told}")


def check_end_on_the_screen(folder):
    """The same as the user sees it, over a slow line."""
    (path,) = made(folder, a="x" * 2_700 + "\nend\n")
    with Session(folder, "a.txt", slow=50) as session:
        session.wait_for("xxx")
        session.keys("End", "Z")
        session.wait_for("2701,2701 of 2706")
        session.wait_for("xZ")
        session.keys("C-w")
        wait_until(lambda: path.read_text() == "x" * 2_700 + "Z\nend\n", "Z stands elsewhere")
        session.leave()


def moves_text(numbers):
    words = ("a", "to", "日本", "e\u0301te\u0301", "\t", "x" * 90, "x, " * 900, "long" * 3000)
    lines = [" ".join(numbers.choice(words[:6]) for _ in range(numbers.randrange(9))) for _ in range(100)]
    for word in words[6:]:
        lines.insert(numbers.randrange(100), word)
    return numbers.choice(("\n", "\n", "\r\n")).join(lines)


def check_moves_by_model(folder):
    """Moves and selections lead where a model says that knows the whole text, however much of it is loaded, and however the keys arrive."""
    for seed in range(6):
        numbers = random.Random(seed)
        whole = moves_text(numbers)
        model, (pair, editor, key, text) = Model(whole, 80), opened(whole, size=(22, 80))
        at = numbers.randrange(len(whole))
        at = model.line_start(at)
        pair.press(key("Esc"), text(f"#{at}\n"), key("Esc"))
        model.select(at, at)
        names = []
        for _ in range(14):
            name, extends = numbers.choice((*SELECTING, "up", "down", "up", "down", "first", "last")), numbers.random() < 0.3
            names.append(("Shift-" if extends and name in SELECTING else "") + NAMES.get(name, name.capitalize()))
            getattr(model, name)(*([extends] if name in SELECTING else []))
            editor.take(key(names[-1]))
            if seed % 2:
                pair.finish()
                got, wanted = (editor.focus.dot, editor.focus.caret), (model.dot, model.caret)
                expect(got == wanted, f"seed {seed}: {names} lead to {got}, wanted {wanted}")
            else:
                pair.settle()
        pair.finish()
        got, wanted = (editor.focus.dot, editor.focus.caret), (model.dot, model.caret)
        expect(got == wanted, f"seed {seed}, at once from {at}: {names} lead to {got}, wanted {wanted}")


def check_a_click_waits_for_text(folder):
    """A press goes by what is shown once all of that is loaded."""
    lines = "".join(f"line {at} {'x' * (at * 37 % 150)}\n" for at in range(2000))
    dots = []
    for is_slow in (False, True):
        pair, editor, key, text = opened(lines, size=(30, 80))
        mouse = pair.keys.Mouse
        row = 100
        for each in (text("x"), None, mouse("press", row, 5, 0.0), mouse("release", row, 5, 0.0), text("!")):
            if each is None:  # what a larger screen shows is not asked for while the user types
                editor.arrange(120, 80)
            else:
                editor.take(each)
            pair.settle() if is_slow else pair.finish()
        pair.finish()
        dots.append(editor.focus.dot)
    expect(dots[0] == dots[1], f"a click leads to {dots}")


def check_rows_begin_with_their_lines(folder):
    """Where a text grows above what a window shows, that still begins with a row of its line."""
    pair, editor, key, text = opened("one x\n" + "word " * 400 + "\nend\n", size=(20, 80))
    pair.press(key("^End"), key("Esc"), text(",x/word/c/other/\n"), key("Esc"), key("Up"), key("Up"))
    for names in ((), ("Left", "x", "y")):
        pair.press(*(text(name) if name.islower() else key(name) for name in names))
        window = editor.focus
        whole, (_, column) = pair.host.text(1), window.layout().position_of(window.caret)
        start = whole.rfind("\n", 0, window.caret) + 1
        expect(column == (window.caret - start) % 80, f"the caret is drawn in column {column}, wanted {(window.caret - start) % 80}")
        expect((window.top - start) % 80 == 0 or window.top <= start, f"the window begins at {window.top}, the line at {start}")


def check_caret_after_a_line(folder):
    """After a command line the caret stands after its last change, or at the end of what it has selected, and the next key replaces
    nothing. An address alone selects; a line that selects nothing leaves what is selected."""
    before = "old one\nold two\nend\n"
    for line, wanted, dot in (
        (",x/old/c/new/", "new one\nnew two\nend\n", (11, 11)), (",x/old/c/newer/", "newer one\nnewer two\nend\n", (15, 15)),
        (",x/old/d", " one\n two\nend\n", (5, 5)), ("2c/x/", "old one\nxend\n", (9, 9)), ("1a/x/", "old one\nxold two\nend\n", (9, 9)),
        ("0i/x/", "xold one\nold two\nend\n", (1, 1)), ("1,2d", "end\n", (0, 0)), ("2p", before, (16, 16)), (",p", before, (20, 20)),
        (",x/none/c/new/", before, (20, 20)), (",y/old/d", "oldold", (6, 6)), (",", before, (0, 20)), ("2", before, (8, 16)),
        ("/two/", before, (12, 15)),
        ("p", before, (4, 7)), ("f name", before, (4, 7)), ("wrong line", before, (4, 7)),
    ):  # fmt: skip
        for keys in ((), ("x",)):
            for waits in (True, False):
                pair, editor, key, text = opened(before)
                pair.press(key("^Right"), key("Right"), *[key("Shift-Right")] * 3)
                for each in (key("Esc"), text(line + "\n"), key("Esc"), *map(text, keys)):
                    editor.take(each)
                    if waits:
                        pair.finish()
                pair.finish()
                start, end = dot
                text_then, dot_then = (wanted[:start] + "x" + wanted[end:], (start + 1, start + 1)) if keys else (wanted, dot)
                got = pair.host.text(1), editor.files[0].dot
                expect(got == (text_then, dot_then), f"{line}, {keys}, one by one: {waits}: {got}, wanted {text_then!r}, {dot_then}")
    pair, editor, key, text = opened("old " * 3000 + "end\n", size=(20, 80))
    pair.press(key("Esc"), text(",x/old/c/new/\n"), key("Esc"), text("x"))
    expect(pair.host.text(1) == "new " * 2999 + "newx end\n", f"where little is loaded it ends in {pair.host.text(1)[-20:]!r}")
    pair.press(key("^Z"), key("^Z"))
    expect(pair.host.text(1) == "old " * 3000 + "end\n", f"it is not taken back: {editor.message}")


def check_lines_at_once(folder):
    """Text that comes at once does what it does one by one: Enter repeats the blanks, and undo has the same steps."""
    typed = "\none();\n\ttwo();\n" + "word " * 30 + "\n" + "y"
    ends = []
    for count in (1, len(typed), 7):
        pair, editor, key, text = opened("  begin\n")
        pair.press(key("End"))
        for at in range(0, len(typed), count):
            pair.press(text(typed[at : at + count]))
        ends.append([pair.host.text(1)])
        for _ in range(9):
            pair.press(key("^Z"))
            ends[-1].append(pair.host.text(1))
    wanted = "  begin\n  one();\n  \ttwo();\n  \t" + "word " * 30 + "\n  \ty\n"
    expect(ends[0][0] == wanted, f"one by one it is {ends[0][0]!r}")
    expect(ends[0] == ends[1] == ends[2], f"at once it is {ends[1]}, or {ends[2]}, one by one {ends[0]}")


def check_lines_without_room(folder):
    """Of lines that come at once into the command window none runs behind one that has no room there: they come back together."""
    for before in ("", "2\n"):
        pair, editor, key, text = opened("one\ntwo\n")
        lines = "x" * 1_000_000 + "\n,d\n"
        pair.press(key("Esc"), pair.keys.Paste(before + lines))
        expect(pair.host.text(1) == "one\ntwo\n", f"behind {before!r} a line runs: {pair.host.text(1)!r}")
        expect("^V has what you typed" in editor.message, f"behind {before!r} it tells {editor.message!r}")
        expect(editor.cut_text == lines, f"behind {before!r} {len(editor.cut_text)} characters come back, wanted {len(lines)}")


def check_esc_while_held_up(folder):
    """An Esc and a command line that samterm finds at once, since it was held up, are that."""
    made(folder, a="one\ntwo\nthree\nfour\n")
    with Session(folder, "a.txt") as session:
        session.wait_for("four")
        with session.stopped_terminal():
            session.keys("Escape")
            session.type("2,3d")
            session.keys("Enter", "Escape")
        wait_until(lambda: session.rows("a.txt")[:3] == ["one", "four", ""], lambda: f"the text is {session.rows('a.txt')}")
        session.wait_to_go_to("a.txt")
        with session.stopped_terminal():
            session.keys("End", "Enter")
            session.type("\tone()")
            session.keys("Enter")
            session.type("two()")
        wanted = ["one", "four", "        one()", "        two()", ""]
        wait_until(lambda: session.rows("a.txt")[:5] == wanted, lambda: f"the text is {session.rows('a.txt')}")
        session.leave_unwritten()


def check_esc_behind_any_key(folder):
    """The screen shows at once where Esc leads, whichever keys wait before it; and all keys go where they go one by one."""
    made(folder, a="one\n", b="two\n")
    with Session(folder, "a.txt", "b.txt") as session:
        session.wait_for("one")
        session.keys("C-t")
        session.wait_for("two")
        session.keys("C-p", "C-p")
        session.wait_to_go_to("a.txt")
        session.wait_for_quiet()
        start = time.monotonic()
        with session.stopped_host():
            session.keys("C-v", "C-p", "Z")
            session.keys("Escape")
            session.wait_to_go_to(COMMAND_WINDOW)
            session.type("$a/!/")
            session.keys("Enter", "Escape")
            wait_until(lambda: not session.goes_to(COMMAND_WINDOW), "it shows the command window")
            session.keys("C-n", "Escape")
            session.wait_to_go_to(COMMAND_WINDOW)
            session.type("f new.txt")
            session.keys("Enter", "Escape", "N")
            wait_until(lambda: not session.goes_to(COMMAND_WINDOW), "it shows the command window")
            session.keys("F2", "Down", "Escape", "Escape")
            session.wait_to_go_to(COMMAND_WINDOW)
            if time.monotonic() - start > KNOWN_LATE:
                raise Skipped("the machine is so busy that keys may be refused, as on a lost line")
            wait_until(lambda: session.held() > 4, lambda: "nothing waits: this test is wrong\n" + "\n".join(session.screen()))
        session.wait_for("N")
        session.wait_for_quiet()
        session.wait_to_go_to(COMMAND_WINDOW)
        got = {name: session.rows(name) for name in ("a.txt", "new.txt")}
        expect(got["a.txt"][:2] == ["one", ""] and got["new.txt"][:1] == ["N"], f"the windows have {got}")
        session.keys("Escape", "C-w")
        wait_until(lambda: (folder / "new.txt").exists(), "the new file is not written")
        session.keys("F2")
        session.wait_for("b.txt")
        session.type("b.txt")
        session.keys("Enter")
        session.wait_to_go_to("b.txt")
        session.keys("C-w")
        wait_until(lambda: (folder / "b.txt").read_text() == "Ztwo\n!", lambda: f"b.txt has {(folder / 'b.txt').read_text()!r}")
        session.leave()


def check_esc_leads_where_it_shows(folder):
    """Over keys that lead elsewhere, all keys that come at once do what they do one by one, and what Esc shows meanwhile is where it
    leads in the end."""
    for seed in range(40):
        numbers = random.Random(seed)
        (quick, first, key, text), (slow, second, _, _) = (opened("one two\n", "b\n", "c\n", size=(40, 80)) for _ in range(2))
        for pair in (quick, slow):
            pair.terminal.set_snarf("pasted ")
            pair.finish()
        keys = [key("^V")]
        for _ in range(numbers.randrange(1, 6)):
            keys.append(numbers.choice((key("^P"), key("^N"), key("Esc"), key("^T"), key("^Y"), text("x"), key("^D"), key("^W"))))
        keys.append(key("Esc"))
        for each in keys:
            first.take(each)
            quick.finish()
            second.take(each)
        shown, waits = second.shown_focus is second.command, bool(second.deferred)
        slow.finish()
        for tail in (text("y"),):
            first.take(tail)
            quick.finish()
            second.take(tail)
            slow.finish()
        ends = [({tag: pair.host.text(tag) for tag in pair.files()}, pair.editor.focus.tag) for pair in (quick, slow)]
        expect(ends[0] == ends[1], f"seed {seed}, {keys}: at once {ends[1]}, one by one {ends[0]}")
        if waits and not {"^T", "^Y"} & {each.name for each in keys if hasattr(each, "name")}:
            expect(shown == (second.focus is second.command), f"seed {seed}, {keys}: Esc shows another window than it leads to")


# The actions that need no settled place, each with what it waits for. All others wait for that.
FREE = {"help", "switch", "next_window", "menu", "split", "unsplit", "small", "numbers", "details", "redraw", "suspend", "old", "new"}


def check_all_actions_wait(folder):
    """Each key of each set waits while a text is asked for that is to be pasted, but for those whose action needs no settled place."""
    from terminal.keys.bindings import KEY_SETS

    for name, binding, key_name in ((name, each, key) for name in KEY_SETS for each in KEY_SETS[name].bindings for key in each.keys):
        pair, editor, key, text = opened("one two\n", "b\n", key_set=name)
        pair.terminal.set_snarf("pasted")
        pair.finish()
        editor.take(key("^V"))
        expect(editor.pasting is not None, "this test is wrong: nothing is asked for")
        editor.take(key(key_name))
        expect(bool(editor.deferred) == (binding.action not in FREE), f"{name}: {key_name} waits: {bool(editor.deferred)}")


def check_ahead_of_waiting_keys(folder):
    """The help, what is pressed over it, Esc and another size of the screen come before keys that wait. Those go where they would have
    gone, and so does what comes after Esc."""
    made(folder, a="x" * 5_000 + "\nend\n", b="b\n")
    with Session(folder, "a.txt", "b.txt") as session:
        session.wait_for("xxx")
        session.keys("C-t")
        session.wait_for("b.txt")
        session.keys("C-p", "C-p")
        session.wait_to_go_to("a.txt")
        session.wait_for_quiet()
        with session.stopped_host():
            session.keys("End", "Z", "Y")
            wait_until(session.held, "nothing waits: this test is wrong")
            session.keys("F1")
            session.wait_for("shows these keys")
            session.keys("Down", "q")
            wait_until(lambda: not session.shows("shows these keys") and session.shows("xxx"), "the help stays")
            session.keys("Escape")
            session.wait_to_go_to(COMMAND_WINDOW)
            session.type("$a/!/")
            session.keys("Enter")
            session.tmux("resize-window", "-x", "120", "-y", "30")
            wait_until(lambda: " | held " in "".join(session.screen()[28:29]), "it keeps its size")
            session.keys("Escape")
            session.wait_to_go_to("a.txt")
            session.keys("W")
            expect(session.held() > 0, "nothing waits: this test is wrong")
        session.wait_for("end")
        session.wait_for_quiet()
        session.keys("C-w")
        wanted = "x" * 5_000 + "ZY\nend\n!W"
        path = folder / "a.txt"
        wait_until(lambda: path.read_text() == wanted, lambda: f"it has {path.read_text()[4_990:]!r}")
        session.leave()
