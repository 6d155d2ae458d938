"""Windows, and folders."""
import random
import time

from .pairs import LONG, Pair, opened
from .support import READ_AFTER, Session, expect, made, wait_for_text, wait_until


def check_close_shows_another(folder):
    """When the last window's file is closed, another open file is shown."""
    pair = Pair(random.Random(1), ["a\n", "b\n", "c\n"])
    editor, key, text = pair.editor, pair.keys.Key, pair.keys.Text
    editor.arrange(30, 80)
    pair.finish()
    pair.press(key("F2"), key("Down"), key("Down"), text("\n"), key("^K"))
    expect([window.tag for window in editor.files] == [1] and editor.focus.tag == 1, "no file is shown, or one that is not open")
    pair.press(key("^K"), text("x"))
    expect(pair.host.text(2) == "xb\n", "keys go elsewhere")
    pair.press(key("^Z"), key("^K"), key("^K"))
    expect(editor.files == [] and editor.focus is editor.command, f"a window stays: {editor.message}")


def check_unsplit(folder):
    """`^Y` and F4 take a window off the screen. Its file stays open and as it is, and can be shown again."""
    for name in ("^Y", "F4"):
        pair, editor, key, text = opened("a\n", "b\n")
        pair.press(text("x"), key(name))
        expect([window.tag for window in editor.files] == [1] and editor.focus.tag == 1, f"{name}: the window stays, or keys go nowhere")
        expect(pair.terminal.is_open(1) and pair.terminal.is_open(2), f"{name}: a file is closed")
        expect(pair.host.text(2) == "xb\n" and editor.is_changed(2), f"{name}: the file is not as it was")
        pair.press(text("y"), key("^T"))
        expect([window.tag for window in editor.files] == [1, 2] and editor.focus.tag == 2, f"{name}: ^T doesn't bring it back")
        pair.press(text("z"))
        texts = [pair.host.text(tag) for tag in (1, 2)]
        expect(texts == ["ya\n", "xzb\n"], f"{name}: the texts are {texts}")


def check_typing_at_the_menu(folder):
    """What is typed at the menu leaves the files whose names have it, and chooses the first in which a part of the path begins so."""
    names = ("notes.txt", "d/e/tab.txt", "Data/a.c", "extra.c")
    pair, editor, key, text = opened(*(f"{name}\n" for name in names))
    for tag, name in enumerate(names, 1):
        editor.go_to(editor.window_of(tag))
        pair.press(key("Esc"), text(f"f {name}\n"), key("Esc"))

    def shown():
        lines = [(line.strip(), is_chosen) for line, is_chosen in editor.menu.lines(20)]
        return [name for name, _ in lines if name and not name.startswith("+ ")], next((name for name, is_chosen in lines if is_chosen), None)

    for keys, wanted in (
        ((text("t"),), (list(names), "d/e/tab.txt")),
        ((text("a"),), (["d/e/tab.txt", "Data/a.c"], "d/e/tab.txt")),
        ((key("Down"),), (["d/e/tab.txt", "Data/a.c"], "Data/a.c")),
        ((key("Backspace"), key("Backspace"), text("d")), (["d/e/tab.txt", "Data/a.c"], "d/e/tab.txt")),
        ((text("zz"), key("Down")), ([], "+ dzz  (a new file)")),
        ((key("Backspace"),) * 3, (list(names), "notes.txt")),
        ((text("A.c"),), (["Data/a.c", "extra.c"], "Data/a.c")),
    ):  # fmt: skip
        if editor.menu is None:
            pair.press(key("F2"))
        pair.press(*keys)
        expect(editor.menu is not None and shown() == wanted, f"after {keys}: {editor.menu and shown()}, wanted {wanted}")
    pair.press(text("\nx"))
    expect(editor.menu is None and pair.host.text(3) == "xData/a.c\n", f"Enter doesn't open it: {editor.focus.tag}, {pair.host.text(3)!r}")
    pair.press(key("F2"), key("Backspace"))
    expect(editor.menu is None, "Backspace doesn't go back where nothing was typed")
    pair.press(key("F2"), text("x"), key("Esc"), key("F2"))
    expect(editor.menu is not None and shown()[0] == ["notes.txt", "d/e/tab.txt", "* Data/a.c", "extra.c"], f"it shows {shown()}")


def check_page_keys_of_the_menu(folder):
    """The page keys of the menu go by ten of the host's paths as by ten files, and wait for them as the arrows do."""
    from sulgrevad import Note, NoteKind

    pair, editor, key, text = opened("a\n")
    pair.press(key("F2"), text("f"))
    paths = "".join(f"f{at}\n" for at in range(10, 40))
    editor.menu.meet_names(Note(NoteKind.NAMES, request=editor.menu._asked, path=paths.encode()))
    for name, wanted in (
        ("Page Down", "+ f19"), ("Page Down", "+ f29"), ("Up", "+ f28"), ("Page Down", "+ f38"), ("Page Down", "+ f  (a new file)"),
        ("Page Up", "+ f30"), ("Page Up", "+ f20"), ("Page Up", "+ f10"), ("Page Up", "file0"),
    ):  # fmt: skip
        pair.press(key(name))
        (chosen,) = [line.strip() for line, is_chosen in editor.menu.lines(50) if is_chosen]
        expect(chosen == wanted, f"{name} goes to {chosen!r}, wanted {wanted!r}")
    for each in (text("1"), key("Page Down")):
        editor.take(each)
    expect(len(editor.deferred) == 1, "it goes by the host's paths before these have come")
    pair.finish()
    expect(not editor.deferred, "it waits though they have come")


def check_line_of_a_wished_file(folder):
    """A file that another program wishes shown goes to its line, which is selected; but not once its user has typed there: what comes next
    would replace that line."""
    from sulgrevad import Note, NoteKind

    for typed, wanted in (("", "line 1\nyline 3\n"), ("x", "xyline 1\nline 2\nline 3\n")):
        pair, editor, key, text = opened("a\n")
        pair.host.add_file("wished", "line 1\nline 2\nline 3\n")
        editor.hear(Note(NoteKind.SHOWN, tag=2, number=2))
        for _ in range(9):
            if editor.active.tag != 2:
                pair.trip()
        expect(editor.active.tag == 2, "it doesn't come up")
        pair.now += 0.1
        for rune in typed:
            editor.take(text(rune))
        pair.finish()
        pair.press(text("y"))
        expect(pair.host.text(2) == wanted, f"behind {typed!r} the text is {pair.host.text(2)!r}, wanted {wanted!r}")


def check_tiny_screen(folder):
    """A screen that has no room for all windows shows that to which the keys go, and takes clicks for it."""
    pair, editor, key, text = opened("a\nb\n", "c\n")
    first, second = editor.files
    for rows, is_tiny in ((5, True), (6, False)):
        editor.arrange(rows, 20)
        for window, title, line in ((editor.command, "~~sam~~", ""), (first, "file0", "a"), (second, "file1", "c")):
            editor.go_to(window)
            pair.finish()
            frame = pair.screen.joined(pair.screen.parts_of(editor, rows + 2, 20), rows + 2)
            shown = ["".join(part for part, _ in frame.get(y, [])).rstrip() for y in range(rows)]
            at = shown.index(f">  {title}")
            expect(shown[at + 1] == line, f"{rows} rows: below the title of {title} it shows {shown}")
            expect(at == 0 or not is_tiny, f"{rows} rows: other windows are shown with {title}: {shown}")
            expect(pair.screen.cursor_of(editor)[0] == at + 1, f"{rows} rows: the caret of {title} is at {pair.screen.cursor_of(editor)}")
            editor.take(pair.keys.Mouse("press", at + 1, 0, 0.0))
            expect(editor.focus is window, f"{rows} rows: a click on {title} goes elsewhere")


def check_small_command_window(folder):
    made(folder, a="one\n")
    with Session(folder, "a.txt") as session:
        session.wait_for("one")
        rows = [next(at for at, line in enumerate(session.screen()) if "a.txt" in line)]
        session.keys("F8")
        wait_until(lambda: session.screen()[1].startswith(">  a.txt"), "the command window is not small")
        session.command("2p")
        session.keys("F8")
        wait_until(lambda: session.screen()[rows[0]].startswith(">  a.txt"), "it is not large again")
        session.leave()


def check_long_command_window(folder):
    """What lines print pushes the front out of a long command window, so it takes lines for ever; what the user has copied stays."""
    line = "x" * 99 + "\n"
    pair, editor, key, text = opened(line * 4000)
    window = editor.command
    pair.press(key("Shift-Right"), key("^C"), key("Esc"))
    for run in range(4):
        pair.press(text("=\n"), text(",p\n"))
        expect(window.length <= 500_000, f"after line {run} the command window has {window.length} characters")
        expect(pair.host.text(0).endswith(line * 2000), f"after line {run} it ends in {pair.host.text(0)[-120:]!r}")
        shown = window.read(window.top, window.length - window.top)
        expect(shown and shown in line * 99, f"after line {run} it shows {shown[:120]!r}")
        expect(window.dot == (window.length, window.length), f"after line {run} the caret is at {window.dot} of {window.length}")
        pair.check()
    pair.press(text("2p"), key("Left"), text("1"), text("\n"))
    expect(pair.host.text(0).endswith(f"{line}21p\n{line}"), f"the next line leads to {pair.host.text(0)[-120:]!r}")
    expect(pair.host.snarf() == "x", f"what was copied is {pair.host.snarf()[:99]!r}")


ONE_LINE = "日y\tz" * 10_000 + "\n"


def after_keys(names, file, size, is_cut):
    """How an editor stands after keys in its long command window, of which the front goes or not: what it shows, where the caret is, and
    what else may not go by that; and how long the command window is."""
    from terminal.keys import command_lines

    pair, editor, key, text = opened(file, size=size)
    window = editor.command
    command_lines.MOST_KEPT, command_lines.LEAST_LEFT = 1_000_000, 20_000
    pair.press(key("Shift-Right"), key("^C"), key("Esc"), text(",p\n"))
    if file == ONE_LINE:  # of which little is loaded, so it isn't known where its rows begin
        pair.terminal.load(0, 0, window.length)
        pair.press(key("^Home"), key("^End"))
    command_lines.MOST_KEPT = 30_000 if is_cut else 1_000_000
    for name in names:
        editor.take(text(name) if name == name.lower() else key(name))
        if name[-1] != "p":  # else the next one comes at once
            pair.finish()
    pair.finish(3)
    pair.check()
    rows = [window.read(row.start, row.end - row.start) for row in window.layout().rows]
    start, end = window.dot
    last = window.read(start - 20, 20), end - start, window.length - end, pair.host.text(0)[-20:]
    return (rows, pair.screen.cursor_of(editor), *last, pair.host.snarf(), pair.host.text(1)), window.length


def check_front_of_the_command_window(folder):
    """Without its front the command window shows what it would show with it, with the caret at the same place, also in a long line. A line
    that is begun stays, also where a search runs before it; so do lines that wait, and what was copied."""
    for names, file, goes in (
        (("2,3p\n",), LONG, True), (("1,60p\n",), LONG, True), (("2,3p", "Left", "\n", "dra"), LONG, True),
        (("nonsense\n", ",x/foo/c/b/\n"), LONG, True), (("2p", "\n3p", "\n4p", "\n", "dra"), LONG, True),
        (("$a/draft/", "Esc", "^S", "line 7", "\n"), LONG, False), (("Page Up", "^Home", "2p\n"), LONG, True),
        (("$a/draft/", "Esc", "^S", "line 7", "\n", "Esc", "\n"), LONG, True), (("=\n",), ONE_LINE, True), ((",p\n",), ONE_LINE, True),
    ):  # fmt: skip
        for size in ((60, 200), (20, 50)):
            (whole, _), (stands, length) = (after_keys(names, file, size, is_cut) for is_cut in (False, True))
            expect(stands == whole, f"{names}: it stands as {stands[:-1]}, wanted {whole[:-1]}")
            expect((length < 21_000) == goes, f"{names}: the command window has {length} characters")


def check_front_without_memory(folder):
    """Where memory is out for it the front of the command window stays, and so does the caret: what is typed next stands behind it."""
    from sulgrevad import NoMemory, Status
    from terminal.keys import command_lines

    def short(runes):
        if runes == "":
            raise NoMemory(Status.NO_MEMORY)
        type_command(runes)

    pair, editor, key, text = opened(LONG)
    command_lines.MOST_KEPT, command_lines.LEAST_LEFT = 30_000, 20_000
    type_command, pair.terminal.type_command = pair.terminal.type_command, short
    pair.press(key("Esc"), text(",p\n"))
    length = editor.command.length
    expect(length > 30_000 and editor.command.dot == (length, length), f"the caret is at {editor.command.dot} of {length}")
    pair.press(text("2p"))
    pair.terminal.type_command = type_command
    pair.press(text("\n"))
    expect(pair.host.text(0).endswith("line 2999 foo\n2p\nline 1 foo\n"), f"the next line leads to {pair.host.text(0)[-60:]!r}")
    expect(editor.command.length < 21_000, f"the command window has {editor.command.length} characters")
    pair.check()


def check_name_that_a_shell_reads(folder):
    """A file whose name the host's shell reads otherwise than it was given is no folder: it is shown at once, and takes what was typed."""
    for asked_for, is_menu in ((["'my file'"], False), (["file*"], True)):
        pair = Pair(random.Random(1), ["a\n"] * (1 + is_menu))
        pair.editor.asked_for = set(asked_for)
        pair.editor.take(pair.keys.Text("x"))
        pair.finish()
        expect((pair.editor.menu is not None) == is_menu, f"{asked_for}: files are offered: {not is_menu}")
        expect(is_menu or pair.host.text(1) == "xa\n", f"{asked_for}: the text is {pair.host.text(1)!r}")


def check_thousands_of_files(folder):
    """A key doesn't ask of each of thousands of files whether it is there."""
    pair = Pair(random.Random(1), ["a\n"] * 3000)
    pair.finish()
    asked, is_known = [], pair.terminal.is_known
    pair.terminal.is_known = lambda tag: asked.append(tag) or is_known(tag)
    pair.press(pair.keys.Text("x"), pair.keys.Key("Left"))
    expect(pair.host.text(1) == "xa\n" and len(asked) < 300, f"two keys ask {len(asked)} times")
    pair.press(pair.keys.Key("^N"), pair.keys.Text("y"), pair.keys.Key("^K"), pair.keys.Key("^K"))
    expect(len(pair.editor.tags) == 3000, f"a new file stays after it was closed: {pair.editor.message!r}")


def check_folder(folder):
    """Of a folder the text files below it are offered, also over a link; what is left out is told."""
    made(folder, z="zeta\n")
    (folder / "d" / "e").mkdir(parents=True)
    (folder / "d" / ".git").mkdir()
    for name, data in (("b.txt", b"beta\n"), ("e/c.txt", b"gamma\n"), ("bin", b"\0\1"), (".git/config", b"x"), ("latin", b"\xe9")):
        (folder / "d" / name).write_bytes(data)
    with Session(folder, "z.txt", "d", slow=20) as session:
        session.wait_for("Files")
        session.wait_for("d/e/c.txt")
        session.wait_for("2 files are left out")
        expect(not session.shows("config") and not session.shows("latin"), "a file is offered that is no text, or is hidden")
        time.sleep(READ_AFTER)
        session.keys("Down", "Down", "Enter")
        session.wait_for("gamma")
        session.type("x")
        session.keys("C-w")
        wait_for_text(folder / "d" / "e" / "c.txt", "xgamma\n")
        session.leave()


def check_tab_after_a_full_row(folder):
    """A tab for which a row has no column left begins the next row, and goes to the first stop of that."""
    opened("")  # so that the editor's modules are found
    from terminal.view import layout

    widths = [strip.width for strip in layout.strips_of("a" * 101 + "\tb", 101, False)]
    expect(widths == [101, 9], f"the rows have {widths} columns")


def check_rows_without_text(folder):
    """With one file and a small command window four of 24 rows show none of the file: that window, the title, the status and the bottom
    line. The command window then has its title before the one row that it shows, and runs lines there; on a narrow screen it is above."""
    made(folder, a="".join(f"line {number}\n" for number in range(1, 101)))
    with Session(folder, "a.txt") as session:
        session.wait_for("line 10")
        session.wait_for_quiet()
        session.keys("F8")
        wait_until(lambda: len(session.rows("a.txt")) == 20, lambda: f"the file has {len(session.rows('a.txt'))} rows")
        expect(session.rows("a.txt") == [f"line {number}" for number in range(1, 21)], "the rows are not those of the file")
        session.keys("Escape")
        wait_until(lambda: session.screen()[0].startswith(">  ~~sam~~"), lambda: f"keys go elsewhere: {session.screen()[0]!r}")
        session.type("1d")
        wait_until(lambda: session.screen()[0] == ">  ~~sam~~ 1d", lambda: f"the first row is {session.screen()[0]!r}")
        session.keys("Enter", "Escape")
        wait_until(lambda: session.rows("a.txt")[:1] == ["line 2"], "the line doesn't run")
        session.mouse((0, 12, 0), (3, 12, 0))
        wait_until(lambda: session.screen()[0].startswith(">"), "a click doesn't go to the command window")
        session.tmux("resize-window", "-x", "30", "-y", "24")
        wait_until(lambda: session.goes_to("~~sam~~") and "a.txt" in session.screen()[2], "the title is not above on a narrow screen")


def check_write_locks_its_file(folder):
    """`^W` locks its file, and `^V` none. They hold back no key of any file: each shows at once, and none of it goes elsewhere."""
    for name, is_locked in (("^W", True), ("^V", False)):
        pair, editor, key, text = opened("one\n", "two\n")
        pair.press(*[key("^P")] * (1 if editor.focus.tag == 0 else 2), key("Shift-Right"), key("^C"), text("a"))
        expect(editor.focus.tag == 1, f"this test is wrong: keys go to {editor.focus.tag}")
        for pressed in (key(name), key("^P"), text("d")):
            editor.take(pressed)
        expect(pair.terminal.locked(1) == is_locked, f"{name}: its file is locked: {not is_locked}")
        expect(editor.focus.tag == 2 and not editor.deferred, f"{name}: {len(editor.deferred)} keys wait")
        shown = pair.terminal.runes(2, 0, 9)
        expect("d" in shown, f"{name}: the other file has {shown!r}")
        for pressed in (key("^P"), key("^P"), text("e")):
            editor.take(pressed)
        expect(editor.focus.tag == 1 and not editor.deferred, f"{name}: {len(editor.deferred)} keys wait, of {editor.focus.tag}")
        expect("e" in pair.terminal.runes(1, 0, 9), f"{name}: it is not there at once")
        pair.finish()
        pair.check()
