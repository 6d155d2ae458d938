"""What terminals send for keys, pastes, finding, line numbers and the clipboard."""
import time

from checks import expect_equal

from .pairs import LONG, Line, in_a_small_window, opened
from .support import Session, expect, made, wait_for_text, wait_until


def check_sequences(folder):
    """What terminals send for keys is taken as one, and what nobody knows types nothing."""
    from terminal.keys.decoder import Decoder

    known = {
        "^Left": ("[1;5D", "Od"), "^Right": ("[1;5C", "Oc"), "Shift-Left": ("[1;2D", "[d"), "Shift-Home": ("[1;2H", "[7$"),
        "^Home": ("[1;5H", "[7^"), "Home": ("[H", "OH", "[1~", "[7~"), "End": ("[F", "OF", "[4~", "[8~"), "F1": ("OP", "[11~", "[[A"),
        "F2": ("OQ", "[12~", "[[B"), "F3": ("OR", "[13~", "[[C"), "F4": ("OS", "[14~", "[[D"), "F5": ("[15~", "[[E"), "F6": ("[17~",),
        "F7": ("[18~",), "F8": ("[19~",), "F12": ("[24~",), "Alt-b": ("b",), "Up": ("[A", "OA"), "Alt-Up": ("[1;3A",),
        "Delete": ("[3~",), "^Delete": ("[3;5~", "[3^"), "^A": ("[97;5u", "[27;5;97~"), "Shift-Tab": ("[Z",),
    }  # fmt: skip
    for name, forms in known.items():
        for form in forms:
            got = Decoder().feed(b"\x1b" + form.encode() + b"x", 0.0)
            expect([tuple(key) for key in got] == [(name,), ("x",)], f"Esc {form!r} is taken for {got}")
    for form in ("[I", "[O", "[?62;1c", "]11;rgb:0/0/0\x07", "]52;c;aGk=\x1b\\", "P>|xterm(380)\x1b\\", "[?2026;2$y", "[M~!!"):
        for at in range(1, len(form)):
            decoder = Decoder()
            got = decoder.feed(b"\x1b" + form[:at].encode(), 0.0) + decoder.feed(form[at:].encode() + b"x", 0.1)
            expect([tuple(key) for key in got] == [("x",)], f"Esc {form!r} in two parts is taken for {got}")
    decoder = Decoder()
    got = decoder.feed(b"\x1b[200~a\r\nb\x1b[A", 0.0) + decoder.feed(b"c\x1b[20", 0.1) + decoder.feed(b"1~d", 0.2)
    expect([tuple(key) for key in got] == [("a\nb\x1b[Ac",), ("d",)], f"a paste is taken for {got}")
    got = Decoder().feed(b"\x1b\x1b[200~a\x1b[201~\x1b\x1b[<0;2;3M\x1b\x1b[?62;1c", 5.0)
    wanted = [("Esc",), ("a",), ("Esc",), ("press", 2, 1, 5.0), ("Esc",)]
    expect([tuple(key) for key in got] == wanted, f"Esc at once with a paste, a click and an answer is taken for {got}")
    for alone, rest in ((b"\x1b", ()), (b"\x1b[", ("[",)), (b"\x1bO", ("O",))):
        decoder = Decoder()
        got = decoder.feed(alone, 0.0) + decoder.flush(0.01) + decoder.flush(0.03)
        expect([tuple(key) for key in got] == [("Esc",), *((text,) for text in rest)], f"{alone} alone is taken for {got}")


def check_key_after_esc(folder):
    """A key that comes at once with an Esc is a key of its own, as where a line or a busy machine holds both up: only b and f make Alt with
    it. A text there waits for no end of a sequence, a character of several bytes may come in parts, and a wrong byte goes alone."""
    import locale

    from terminal.keys.decoder import Decoder

    locale.setlocale(locale.LC_CTYPE, "C.UTF-8")
    for data, wanted in (
        ((b"\x1b2,3d\r",), [("Esc",), ("2,3d\n",)]), ((b"\x1b\x07",), [("Esc",), ("^G",)]), ((b"\x1b\r",), [("Esc",), ("\n",)]),
        ((b"\x1b\t",), [("Esc",), ("\t",)]), ((b"\x1b\n",), [("Esc",), ("\n",)]), ((b"\x1bx",), [("Esc",), ("x",)]),
        ((b"\x1b\x7f",), [("Esc",), ("Backspace",)]), ((b"\x1b\x1b[A",), [("Esc",), ("Up",)]),
        ((b"\x1b\x1b\x1bOP",), [("Esc",), ("Esc",), ("F1",)]),
        ((b"\x1bb\x1bfx",), [("Alt-b",), ("Alt-f",), ("x",)]), ((b"\x1bB",), [("Esc",), ("B",)]),
        ((b"\x1b\xe8", b"\xb1\x86x"), [("Esc",), ("豆x",)]), ((b"\x1b\xe9ABC",), [("Esc",), ("\ufffdABC",)]),
        ((b"\x1b\xc3", b"\xa9"), [("Esc",), ("é",)]),
        *(((f"\x1b{sign}lease note".encode(),), [("Esc",), (f"{sign}lease note",)]) for sign in "]PX^_"),
    ):  # fmt: skip
        decoder = Decoder()
        got = [tuple(key) for piece in data for key in decoder.feed(piece, 0.0)]
        expect(got == wanted, f"{data}: it is taken for {got}, wanted {wanted}")


def check_paste_over_the_windows(folder):
    """A paste while a text is sought is part of that, with its line ends. Over a list of keys or of files it goes to the window, whole. A
    text that reads as the name of a key is none."""
    pair, editor, key, text = opened("one\ntwo\none\nthree\n", "b\n")
    paste = pair.keys.Paste
    editor.go_to(editor.files[0])
    pair.press(key("^S"), paste("one\nth"))
    expect(editor.focus.dot == (8, 14), f"it finds {editor.focus.dot}; it tells {editor.message!r}")
    pair.press(paste("^Q"), paste("\n"))
    expect(editor.menu and editor.menu.pattern == "one\nth^Q\n", f"what is sought is {editor.menu and editor.menu.pattern!r}")
    pair.press(key("Esc"), key("^Home"))
    expect(pair.host.text(1) == "one\ntwo\none\nthree\n", f"the text is {pair.host.text(1)!r}")
    for at, name in enumerate(("F1", "F2")):
        pair.press(key(name), paste("\nx\n"))
        expect(editor.menu is None and editor.help is None, f"{name}: it stays")
        expect(pair.host.text(1) == "\nx\n" * (at + 1) + "one\ntwo\none\nthree\n", f"{name}: the text is {pair.host.text(1)!r}")


def check_unknown_keys(folder):
    """On every kind of terminal, sequences that nobody knows change nothing; word moves move."""
    unknown = ("1b 5b 49", "1b 5b 31 3b 37 41", "1b 5b 39 39 7e", "1b 4f 7a", "1b 5b 31 3b 33 43", "1b 5d 31 31 3b 78 07")
    made(folder, a="one two three\n")
    for term in ("xterm-256color", "screen", "linux", "rxvt", "tmux-256color"):
        place = folder / term
        place.mkdir()
        (path,) = made(place, a="one two three\n")
        with Session(place, "a.txt", settings=f"TERM={term}") as session:
            session.wait_for("one two three")
            for codes in unknown:
                session.tmux("send-keys", "-H", *codes.split())
                time.sleep(0.05)
            session.tmux("send-keys", "-H", *"1b 5b 31 3b 35 43 1b 4f 63".split())  # Control-Right of xterm, and of rxvt
            session.wait_for("7,7 of 14")
            session.type("|")
            session.keys("C-w")
            wait_for_text(path, "one two| three\n")
            session.leave()


def check_paste_of_the_screen(folder):
    """A paste of the user's terminal is one text: nothing is indented, and one key takes it back."""
    (path,) = made(folder, a="  begin\n")
    with Session(folder, "a.txt") as session:
        session.wait_for("begin")
        session.keys("End", "Enter")
        session.wait_for("line 2")
        session.tmux("set-buffer", "x\n  y\n\tz\x1b[A")
        session.tmux("paste-buffer", "-p")
        session.wait_for("z^[[A")
        session.keys("C-w")
        wait_for_text(path, "  begin\n  x\n  y\n\tz\x1b[A\n")
        session.keys("C-z", "C-w")
        wait_for_text(path, "  begin\n  \n")
        session.leave()


def check_paste_that_stops(folder):
    """What comes after a pause of a paste is part of it, whatever it is. Esc twice ends one whose end is lost, once it has stopped."""
    from terminal.keys.decoder import Decoder

    def taken(*pieces):
        """What comes of pieces of bytes, with ten seconds after each."""
        decoder, got = Decoder(), []
        for at, piece in enumerate(pieces):
            got += decoder.feed(piece, 10.0 * at)
            while (left := decoder.delay(10.0 * at)) is not None and left < 10.0:
                got += decoder.flush(10.0 * at + left)
                if decoder.delay(10.0 * at + left) == 0.0:
                    break
        return [tuple(key) for key in got]

    for pieces, wanted in (
        ((b"\x1b[200~one\n", b"q\n\x11\x0b", b"\x1b[A\x1b", b"[20", b"1~x"), [("one\nq\n\x11\x0b\x1b[A",), ("x",)]),
        ((b"\x1b[200~one", b"\x1b\x1b\x11"), []),
        ((b"\x1b[200~one", b" two\x1b\x1b", b"\x11"), [("one two",), ("^Q",)]),
        ((b"\x1b[200~one", b"\x1b", b"\x1b", b"x"), [("one",), ("x",)]),
        ((b"\x1b[200~one\x1b", b"\x1b", b"\x1b", b"\x1b[201~x"), [("one\x1b",), ("x",)]),
        ((b"\x1b[200~a\x1b\x1b", b"b\x1b[201~"), [("a\x1b\x1bb",)]),
        ((b"\x1b[200~", b"\x1b\x1b", b"x"), [("x",)]),
    ):  # fmt: skip
        expect(taken(*pieces) == wanted, f"{pieces} are taken for {taken(*pieces)}, wanted {wanted}")


def check_paste_over_a_bad_line(folder):
    """A paste that stops for a while runs no command line and writes no file. The line at the bottom says how to end it."""
    (path,) = made(folder, a="end\n")

    def send(session, data):
        session.tmux("send-keys", "-H", *(f"{byte:x}" for byte in data))

    with Session(folder, "a.txt") as session:
        session.wait_for("end")
        session.switch()
        send(session, b"\x1b[200~$a/one")
        session.wait_for("Esc twice")
        send(session, b"/\n,d\n\x17")
        time.sleep(0.3)
        expect(session.shows("Esc twice") and "end" in session.rows("a.txt"), "what comes after a pause acts")
        send(session, b"/")
        session.keys("Escape", "Escape")
        wait_until(lambda: not session.shows("Esc twice"), "Esc twice doesn't end it")
        wait_until(lambda: session.rows("a.txt")[0] == "", lambda: f"the lines are not run: {session.rows('a.txt')}")
        session.wait_to_go_to("~~sam~~")
        expect(path.read_text() == "end\n", f"the file is written: {path.read_text()!r}")
        session.switch()
        session.keys("C-z")
        session.wait_for("one")
        session.keys("C-w")
        wait_for_text(path, "end\none")
        session.leave()


def check_caret_after_a_paste(folder):
    """The caret stands after what was pasted, also for keys that come before the host has answered, of which some go by the selection."""
    for keys, wanted, dot in (
        (("^V",), "ababc\nabc\n", 2), (("^V", "x"), "abxabc\nabc\n", 3), (("^V", "^V", "y", "Left", "^V"), "abababyabc\nabc\n", 6),
        (("Shift-Right", "^V", "Shift-Left", "x"), "axbc\nabc\n", 2), (("^V", "^L", "x"), "abxabc\nabc\n", 3),
        (("Esc", "^V", "Esc", "x"), "xabc\nabc\n", 1),
    ):  # fmt: skip
        for waits in (True, False):
            pair, editor, key, text = opened("abc\nabc\n")
            pair.press(key("Shift-Right"), key("Shift-Right"), key("^C"), key("Home"))
            for name in keys:
                editor.take(text(name) if name.islower() else key(name))
                if waits:
                    pair.finish()
            pair.finish()
            got = pair.host.text(1), editor.focus.dot
            expect(got == (wanted, (dot, dot)), f"{keys}, one by one: {waits}: it has {got}, wanted {wanted!r}, {dot}")
            expect("Esc" not in keys or pair.host.text(0) == "ab", f"the command window has {pair.host.text(0)!r}")
    pair, editor, key, text = opened("abc " * 2000)
    pair.press(key("^A"), key("^C"), key("^V"), text("x"))
    expect(pair.host.text(1) == "abc " * 2000 + "x" and editor.focus.dot == (8001, 8001), f"after a long paste: {editor.focus.dot}")
    expect(pair.screen.cursor_of(editor) is not None, "after a long paste the caret is not on the screen")
    pair.press(key("^Z"), key("^Z"))
    expect(pair.host.text(1) == "abc " * 2000, f"it is not taken back: {editor.message}")


def check_selection_after_a_paste(folder):
    """A paste of nothing, and one that has an answer already, leave the selections that are made later."""
    pair, editor, key, _ = opened("abc\n")
    pair.press(key("^V"), key("^D"))
    expect(editor.focus.dot == (0, 3), f"after a paste of nothing ^D selects {editor.focus.dot}")
    pair.press(key("^C"), key("^V"), key("^D"), key("^W"))
    expect(editor.focus.dot == (0, 3) and pair.host.text(1) == "abc\n", f"after a paste ^D selects {editor.focus.dot}")


def check_indents(folder):
    """Enter repeats the blanks before the line above, unless that is turned off; also where it comes at once with the lines."""
    for at, (words, wanted) in enumerate((((), "\tone\n\ttwo\n  x\n    y\n    "), (("--no-indent",), "\tone\ntwo\n  x\n    y\n"))):
        place = folder / str(at)
        place.mkdir()
        (path,) = made(place, a="\tone\n")
        with Session(place, *words, "a.txt") as session:
            session.wait_for("one")
            session.keys("End", "Enter")
            session.type("two")
            session.keys("Down")
            session.type("  x\n  y\n" if at == 0 else "  x\n    y\n")
            session.keys("C-w")
            wait_for_text(path, wanted)
            session.leave()


def check_selected_lines(folder):
    """Tab puts a tab before each selected line, Shift-Tab takes one or as many blanks; both are one step of undo, and a Tab over part of a
    line is typed."""
    from terminal.view import layout

    before = "one\n  two\n\tthree\n\nfive"
    pair, editor, key, text = opened(before)
    window = editor.focus
    editor.texts.select(1, 1, len("one\n  two\n\tthr"))
    pair.press(text("\t"))
    expect(pair.host.text(1) == "\tone\n\t  two\n\t\tthree\n\nfive", f"after a Tab: {pair.host.text(1)!r}")
    expect(window.dot == (2, len("\tone\n\t  two\n\t\tthr")), f"after a Tab {window.dot} is selected")
    pair.press(key("^Z"))
    expect(pair.host.text(1) == before, f"a Tab is not taken back: {pair.host.text(1)!r}")
    pair.press(key("^R"))
    editor.texts.select(1, 1, len("\tone\n\t  two\n\t\tthr"))
    pair.press(key("Shift-Tab"))
    expect(pair.host.text(1) == before, f"after a Shift-Tab: {pair.host.text(1)!r}")
    pair.press(key("Shift-Tab"), key("Shift-Tab"))
    expect(pair.host.text(1) == "one\ntwo\nthree\n\nfive", f"after three: {pair.host.text(1)!r}")
    pair.press(key("^Home"), text("\t"), text(" "), key("End"), key("Shift-Tab"))
    expect(pair.host.text(1) == " one\ntwo\nthree\n\nfive", f"with the caret in a line: {pair.host.text(1)!r}")
    pair.press(key("Shift-Tab"))
    editor.texts.select(1, 1, 2)
    pair.press(text("\t"))
    expect(pair.host.text(1) == "o\te\ntwo\nthree\n\nfive", f"in a line: {pair.host.text(1)!r}")
    expect(layout.TAB == 8, "another check has changed the tab stops")


def check_numbers(folder):
    """`--numbers` and F10 show the numbers of lines, the rest of a long line without one; clicks and the caret go by the text."""
    made(folder, a="one\n" + "x" * 75 + "\nthree\n" + "\n" * 30)
    with Session(folder, "--numbers", "a.txt", height=24) as session:
        session.wait_for("      1 one")
        expect([row[:8] for row in session.rows("a.txt")[:4]] == ["      1 ", "      2 ", "        ", "      3 "], session.screen())
        session.keys("Down", "End")
        session.wait_for_quiet()
        session.type("!")
        session.wait_for("xxx!")
        top = next(at for at, line in enumerate(session.screen()) if "a.txt" in line and line.startswith(">"))
        session.mouse((0, 8 + 3, top + 1), (3, 8 + 3, top + 1))
        session.type("?")
        session.wait_for("      1 one?")
        session.keys("F10")
        wait_until(lambda: session.rows("a.txt")[:1] == ["one?"], lambda: "\n".join(session.screen()))
        session.keys("C-w")
        session.leave()
    with Session(folder, "--tab", "3", "a.txt") as session:
        session.wait_for("one?")
        session.type("\tx")
        session.wait_for("   xone?")
        session.keys("C-w")
        session.leave()


def check_line_too_long(folder):
    """A command line that would make a text too long says what may help."""
    pair, editor, key, text = opened("a\n" * 400_000)
    editor.go_to(editor.command)
    pair.press(text(",x/a/c/bbb/\n"))
    pair.finish(0)
    expect("? long: the text and all" in editor.message and "select a part" in editor.message, f"it says {editor.message!r}")
    expect(pair.host.len(1) == 800_000, "the line was run")


def check_calls_of_a_key(folder):
    """A key makes at most 25 calls of the library until it is drawn and sent, and so does the host's answer to it."""
    from sulgrevad import sides, terminal

    class Counting:
        """The library, with a count of its calls."""

        def __init__(self, library):
            self.library, self.calls = library, 0

        def __getattr__(self, name):
            self.calls += name.startswith("sam_client")
            return getattr(self.library, name)

    pair, editor, key, text = opened("one\ntwo\n" * 20)
    pair.finish()
    library = sides.LIBRARY
    sides.LIBRARY = terminal.LIBRARY = counting = Counting(library)
    try:
        for typed in (text("x"), key("Left"), text("y"), key("Backspace")):
            counting.calls = 0
            editor.take(typed)
            pair.pause()
            expect(0 < counting.calls <= 25, f"{typed} makes {counting.calls} calls")
    finally:
        sides.LIBRARY = terminal.LIBRARY = library
    pair.finish()
    expect(pair.host.text(1).startswith("xone") or pair.host.text(1).startswith("one"), "the keys are lost")


def check_find(folder):
    """Finding as the user types, next and previous, asks no host; at Enter it goes to the place, and knows the pattern. All is loaded, and
    the command file is open: else both come at the first rest, which brings bytes."""
    lines = "".join(f"line {at}\n" for at in range(3000))
    made(folder, a=lines)
    with Session(folder, "a.txt", slow=50) as session:
        session.wait_for("line 14")
        wait_until(lambda: session.bytes_down() > len(lines), lambda: f"the text is not loaded: {session.status()}")
        session.open_command_file()
        before = session.bytes_down()
        session.keys("C-s")
        session.type("ne 1")
        session.wait_for("find: ne 1")
        session.wait_for(f"{lines.find('ne 1')},{lines.find('ne 1') + 4} of")
        session.keys("Down", "Down", "Up")
        session.wait_for(f"{lines.find('ne 10')},{lines.find('ne 10') + 4} of")
        expect(session.bytes_down() == before, "the host is asked")
        session.type("2")
        session.wait_for(f"{lines.find('ne 12')},{lines.find('ne 12') + 5} of")
        session.type("34")
        session.wait_for(f"{lines.find('ne 1234')},{lines.find('ne 1234') + 7} of")
        session.keys("Enter")
        wait_until(lambda: not session.shows("find:"), "Enter doesn't end the search")
        session.wait_for(f"{lines.find('ne 1234')},{lines.find('ne 1234') + 7} of")
        session.wait_for("line 1236")
        origin = lines.find("ne 1234")
        session.keys("C-s")
        session.type("ne 1239")
        session.wait_for(f"{lines.find('ne 1239')},{lines.find('ne 1239') + 7} of")
        session.keys("BSpace")
        session.wait_for(f"{origin},{origin + 6} of")
        expect(session.screen()[-1].rstrip() == "find: ne 123", f"after Backspace it tells {session.screen()[-1]!r}")
        session.keys("Down")
        session.wait_for(f"{lines.find('ne 1235')},{lines.find('ne 1235') + 6} of")
        session.keys("Escape")
        wait_until(lambda: not session.shows("find:"), "Esc doesn't end the search")
        session.wait_for(f"{origin},{origin + 7} of")
        session.leave()


def check_find_in_any_case(folder):
    """What is typed without a capital letter finds letters of any case in what is loaded, up and down; with one it is exact. At Enter the
    host looks for what was found, as it stands there: `^F` goes on so. What isn't loaded, or isn't found, it looks for as it was typed."""
    first = "one\nÖre İx TWO ix\nTwo two\nTWO\n"
    pair, editor, key, text = opened(first + "-\n" * 20_000 + "far FAR far\n")

    def selected():
        start, end = editor.focus.dot
        return start, editor.focus.read(start, end - start)

    pair.press(key("^S"), text("two"))
    expect_equal(selected(), (first.index("TWO"), "TWO"))
    expect_equal(editor.message, "find: two (in any case; Enter has the host look for TWO)")
    pair.press(key("Down"))
    expect_equal(selected(), (first.index("Two"), "Two"))
    pair.press(key("Down"))
    expect_equal((selected(), editor.message), ((first.index("two"), "two"), "find: two"))
    pair.press(key("Up"), key("Up"), text("\n"))
    expect_equal(selected(), (first.index("TWO"), "TWO"))
    pair.press(key("^F"))
    expect_equal(selected(), (first.rindex("TWO"), "TWO"))
    pair.press(key("^Home"), key("^S"), text("Two"))
    expect_equal(selected(), (first.index("Two"), "Two"))
    pair.press(key("Esc"), key("^S"), text("öre"))
    expect_equal(selected(), (first.index("Öre"), "Öre"))
    pair.press(key("Esc"), key("^S"), text("ix"))
    expect_equal(selected(), (first.index("ix"), "ix"))
    pair.press(key("Esc"), key("^S"), text("far"))
    expect("not in what is loaded" in editor.message, f"it says {editor.message!r}")
    pair.press(text("\n"))
    expect_equal(selected()[1], "far")
    pair.check()


def check_find_in_process(folder):
    """A line that was begun in the command window outlives a search, and `^B` goes back."""
    pair, editor, key, text = opened("one two one\n")
    pair.press(key("Esc"), text("beg"), key("Esc"), key("^S"), text("one"), key("Down"), text("\n"))
    expect(editor.focus.dot == (8, 11), f"it finds {editor.focus.dot}")
    expect(pair.host.text(0) == "/one/\nbeg", f"the command window has {pair.host.text(0)!r}")
    pair.press(key("^B"))
    expect(editor.focus.dot == (0, 3), f"^B goes to {editor.focus.dot}")
    pair.press(key("^S"), text("t"), key("End"), text("x"))
    expect(pair.host.text(1) == "one two onex\n", f"another key is not done after the search: {pair.host.text(1)!r}")
    pair.press(key("^S"), text("a.b\\c/"), text("\n"))
    expect(pair.host.text(0).startswith("/one/\n/a\\.b\\\\c\\//\n? search"), f"the command window has {pair.host.text(0)!r}")


def check_long_line_outlives_a_search(folder):
    """So does one that is longer than what one message brings."""
    begun = "".join(f"{at} " for at in range(500))
    pair, editor, key, text = opened("one two one\n")
    pair.press(key("Esc"), text(begun), key("Esc"), key("^S"), text("two"), text("\n"))
    expect(editor.focus.dot == (4, 7), f"it finds {editor.focus.dot}")
    expect(pair.host.text(0) == "/two/\n" + begun, f"the command window has {pair.host.text(0)!r}; it tells {editor.message!r}")


def check_search_back(folder):
    """`^B` also finds what stands above in text that is not loaded, and says where there is nothing. Esc stops it."""
    lines = "".join(f"line {at} {'x' * 60}\n" for at in range(12_000))
    pair, editor, key, text = opened(lines, size=(30, 80))
    for at in (10, 4000):
        pair.press(key("^Home"), key("^S"), text(f"line {at} "), text("\n"), key("^End"), key("^B"))
        place = lines.index(f"line {at} ")
        expect(editor.focus.dot == (place, place + 6 + len(str(at))), f"line {at}: ^B goes to {editor.focus.dot}; {editor.message}")
    pair.press(key("^B"))
    expect("nowhere above" in editor.message, f"it tells {editor.message!r}")
    for at in range(1, 6):  # a place of which some is loaded by one round trip, and the rest by the next
        pair, editor, key, text = opened(lines, size=(30, 80))
        pair.press(key("^End"))
        loaded = next(place for place in range(len(lines) - 1, 0, -1) if pair.terminal.first_gap(1, place) is not None) + 1
        place = loaded - 4096 - at
        whole = "a place" + lines[7:place] + "a place" + lines[place + 7 :]
        pair, editor, key, text = opened(whole, size=(30, 80))
        pair.press(key("^S"), text("a place"), text("\n"), key("^End"), key("^B"))
        expect(editor.focus.dot == (place, place + 7), f"^B goes to {editor.focus.dot}, wanted {place}; {editor.message}")
    pair, editor, key, text = opened(lines)
    pair.press(key("^S"), text("line 3000 "), text("\n"), key("^End"))
    place = editor.focus.dot
    editor.take(key("^B"))
    pair.settle()
    expect("Esc stops" in editor.message, f"it tells {editor.message!r}")
    editor.take(key("Esc"))
    pair.finish()
    expect(editor.focus.dot == place and editor.message == "stopped", f"it doesn't stop: {editor.focus.dot}, {editor.message!r}")


def check_line_numbers(folder):
    """The number of the caret's line, where it is known."""
    lines = [f"line {at}\n" for at in range(1, 3001)]
    pair, editor, key, text = opened("".join(lines))
    editor.arrange(20, 80)
    pair.finish()
    numbers, window = editor.numbers, editor.focus

    def line():
        return numbers.line(window.tag, window.caret)

    pair.press(key("Down"), key("Down"))
    expect(line() == 3, f"line {line()}, wanted 3")
    pair.press(key("^End"))
    expect(line() is None, f"a line is told where it can't be known: {line()}")
    pair.press(key("Esc"), text("2000\n"), key("Esc"))
    expect(numbers.line(window.tag, window.dot[0]) == 2000, f"line {line()}, wanted 2000")
    pair.press(key("Left"), text("a\nb\n"), key("Backspace"), key("Up"))
    expect(line() == 2000, f"line {line()}, wanted 2000")
    pair.press(key("Down"), key("Down"))
    expect(line() == 2002, f"line {line()}, wanted 2002")
    pair.press(key("Esc"), text("1,2d\n"), key("Esc"))
    pair.press(key("Esc"), text("#0\n"), key("Esc"))
    expect(line() == 1, f"line {line()}, wanted 1")


def check_clipboard(folder):
    """What is cut or copied stands on the clipboard of the user's terminal."""
    made(folder, a="one two\n")
    with Session(folder, "a.txt") as session:
        session.tmux("set-option", "-s", "set-clipboard", "on")
        session.wait_for("one two")
        session.keys("S-Right", "S-Right", "S-Right", "C-x")
        wait_until(lambda: session.tmux("list-buffers"), "nothing is on the clipboard")
        expect(session.tmux("show-buffer") == "one", f"the clipboard has {session.tmux('show-buffer')!r}")
        session.keys(*["S-Right"] * 4, "C-c")
        wait_until(lambda: session.tmux("show-buffer") == " two", lambda: f"the clipboard has {session.tmux('show-buffer')!r}")
        expect(session.rows("a.txt")[0] == " two", "copying changes the text")
        session.leave_unwritten()


def check_clipboard_not_loaded(folder):
    """What is copied or cut and isn't loaded is loaded before. Where that can't be, the clipboard keeps what it has, and that is told."""
    pair, editor, key, _ = opened("one two\n")
    for name in ("^C", "^X"):
        editor.clip = None
        pair.press(key("Home"), *[key("Shift-Right")] * 3, key(name))
        expect(editor.clip == "one", f"{name}: the clipboard is to have {editor.clip!r}")
    for name, left in (("^C", LONG), ("^X", "")):
        pair, editor, key, _ = in_a_small_window()
        pair.press(key("^A"), key(name))
        expect(editor.clip == LONG, f"{name}: the clipboard is to have {editor.clip and len(editor.clip)} characters")
        expect(pair.terminal.snarf_len == len(LONG), f"{name}: {pair.terminal.snarf_len} characters are copied")
        expect(pair.host.text(1) == left, f"{name} leaves {len(pair.host.text(1))} characters")
    pair, editor, key, _ = in_a_small_window()
    pair.take_line(Line()).is_broken = True
    pair.press(key("^A"), key("^C"))
    expect(editor.clip is None and "not all loaded" in editor.message, f"without a line it tells {editor.message!r}")


def check_no_room_to_paste(folder):
    """Where a file would get too long by what was copied, `^V` says so, and what is selected stays."""
    pair, editor, key, _ = opened("line\n" * 120_000)
    pair.press(key("^A"), key("^C"), key("^Home"), key("Shift-End"), key("^V"))
    expect(len(pair.host.text(1)) == 600_000, f"the text has {len(pair.host.text(1))} characters")
    expect("more than 1,000,000 characters" in editor.message, f"it tells {editor.message!r}")
    pair.press(key("Shift-Left"), key("^C"), key("^V"))
    expect(len(pair.host.text(1)) == 600_000 and editor.message == "", f"it doesn't paste what has room: {editor.message!r}")


def check_room_under_a_lock(folder):
    """What goes while its file is locked takes up room until the host answers: a key for whose text there is none until then waits."""
    lines = "line\n" * 120_000
    for names, wanted in ((("^X", "^V"), lines), (("^X", "^Z"), lines), (("^X", "^Z", "^R"), ""), (("^X", "^Z", "x"), lines + "x")):
        pair, editor, key, text = opened(lines)
        pair.press(key("^A"), key("^C"))  # which loads it
        for name in ("^W", *names):
            editor.take(text(name) if name == "x" else key(name))
        expect(editor.deferred and "more than" not in editor.message, f"{names}: {editor.deferred} wait, it tells {editor.message!r}")
        pair.finish()
        expect(pair.host.text(1) == wanted, f"{names}: the text has {len(pair.host.text(1))} characters, wanted {len(wanted)}")
        pair.check()


def check_full_command_window(folder):
    """Of a command line that has no room in the command window no part is typed, so none runs."""
    pair, editor, key, text = opened("one\n")
    pair.press(key("Esc"), text("x"))
    editor.command.drop_front = lambda most: None  # as where the user looks at its front
    while (room := 1_000_000 - editor.command.length) > 300:
        pair.press(text("y" * min(room - 300, 100_000)))
    pair.press(text("\n"), pair.keys.Paste("x" * 512 + ",d\n"))
    expect(pair.host.text(1) == "one\n", f"a part of the line has run: the text is {pair.host.text(1)!r}")
    expect("more than 1,000,000 characters" in editor.message, f"it tells {editor.message!r}")


def check_no_room_for_a_paste_of_the_screen(folder):
    """So does a paste of the user's terminal: not even its end comes in."""
    for count, is_room in ((601, False), (600, True)):
        pair, editor, key, _ = opened("line\n" * 199_880)
        pair.press(pair.keys.Paste("x" * count))
        expect(pair.host.text(1) == "x" * count * is_room + "line\n" * 199_880, f"{count}: it begins with {pair.host.text(1)[:9]!r}")
        expect(("more than 1,000,000 characters" in editor.message) != is_room, f"{count}: it tells {editor.message!r}")


def check_words(folder):
    """The keys by words, with Shift too, and that which selects the word, as xterm sends them."""
    from terminal.keys.decoder import Decoder

    pair, editor, key, _ = opened("one two_3 x")
    for name, sent, dot in (
        ("End", b"\x1b[F", (11, 11)), ("^Left", b"\x1b[1;5D", (10, 10)), ("Alt-b", b"\x1bb", (4, 4)),
        ("Shift-^Right", b"\x1b[1;6C", (4, 9)), ("Left", b"\x1b[D", (4, 4)), ("^D", b"\x04", (4, 9)), ("Left", b"\x1b[D", (4, 4)),
        ("Alt-f", b"\x1bf", (9, 9)), ("^Right", b"\x1b[1;5C", (11, 11)), ("Shift-^Left", b"\x1b[1;6D", (10, 11)),
        ("Shift-^Left", b"\x1b[1;6D", (4, 11)), ("Shift-^Right", b"\x1b[1;6C", (9, 11)),
    ):  # fmt: skip
        pair.press(*Decoder().feed(sent, 0.0))
        expect(editor.focus.dot == dot, f"{name} leads to {editor.focus.dot}, wanted {dot}")


def check_help(folder):
    """F1 and `^G` show the keys: arrows scroll, any other key goes back and does nothing else."""
    made(folder, a="one\n")
    first, last = "shows these keys", "the selection stays"  # what stands in the first line, and in the last
    with Session(folder, "a.txt") as session:
        session.wait_for("one")
        for name in ("F1", "C-g"):
            session.keys(name)
            session.wait_for(first)
            expect(not session.shows(last), "this test is wrong: the screen has room for all of them")
            session.keys(*["Down"] * 9)
            session.wait_for(last)
            expect(not session.shows(first), "the first line stays")
            session.keys(*["Up"] * 9)
            session.wait_for(first)
            session.keys("x")
            wait_until(lambda: not session.shows(first), "another key doesn't go back")
        session.type("y")
        session.wait_for("yone")
        session.leave_unwritten()


def check_carriage_returns(folder):
    """Lines that end in CR LF show no `^M`, keep their ends, and are one step of the caret and of an erasing key."""
    path = folder / "a.txt"
    path.write_bytes(b"one\r\ntwo\r\n")
    with Session(folder, "a.txt") as session:
        session.wait_for("two")
        expect(not session.shows("^M"), "it shows a ^M")
        session.keys("End")
        session.wait_for("3,3 of 10")
        session.keys("Right")
        session.wait_for("5,5 of 10")
        session.type("x")
        session.keys("Enter")
        session.wait_for("line 3")
        session.keys("Down", "BSpace", "BSpace")
        session.keys("C-w")
        wait_until(lambda: path.read_bytes() == b"one\r\nx\r\ntw", lambda: f"the file has {path.read_bytes()}")
        session.leave()


def check_long_numbers(folder):
    """A number of any length, in the command window and in what a terminal sends, ends nothing. A long one is the wrong address that it
    is, or with zeros before it the right one."""
    from terminal.keys.decoder import Decoder

    lines = "".join(f"line {at}\n" for at in range(1, 30_001))
    long = "9" * 5000
    for line in (long, f"{long}d", f"1,{long}d", f"{long},2d", f",x/{long}/d", "8" * 8):
        pair, editor, key, text = opened(lines)
        pair.press(key("Esc"), text(f"{line}\n"))
        if "Enter again" in editor.message:  # it may take out what is not loaded
            pair.press(text("\n"))
        expect(pair.host.text(1) == lines and not editor.is_lost, f"{line[:20]}..: the text is changed, or {editor.message!r}")
        expect("?" in pair.host.text(0) or "x/" in line, f"{line[:20]}..: the host takes it: {pair.host.text(0)[-40:]!r}")
    pair, editor, key, text = opened(lines)
    pair.press(key("Esc"), text("0" * 5000 + "20000\n"), key("Esc"))
    window = editor.files[0]
    expect(editor.numbers.line(1, window.dot[0]) == 20_000, f"the line is {editor.numbers.line(1, window.dot[0])}, at {window.dot}")
    for form in (f"[{long}~", f"[{long}u", f"[{long}A", f"[1;{long}A", f"[{long}$", f"[<{long};1;1M", f"O{long}P", f"[27;5;{long}~"):
        got = Decoder().feed(b"\x1b" + form.encode() + b"x", 0.0)
        expect(tuple(got[-1]) == ("x",) and len(got) <= 2, f"Esc {form[:9]}.. is taken for {got}")
    zeros = Decoder().feed(b"\x1b[" + b"0" * 5000 + b"3;0005~", 0.0)
    expect([tuple(key) for key in zeros] == [("^Delete",)], f"a number with zeros before it is taken for {zeros}")
