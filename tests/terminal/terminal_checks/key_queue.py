"""Keys that wait, menus, the mouse, and what is read without a screen."""
import random
import sys

from .pairs import Pair, opened, some_keys
from .support import Failed, expect


def check_random(folder):
    """Random keys of either set while bytes are under way: at the end nothing waits, and both sides agree on what is shown."""
    for seed in range(15):
        numbers = random.Random(seed)
        texts = ["".join(numbers.choice("ab c\n\t日é\u0301") for _ in range(numbers.choice((0, 5, 300, 5000)))) for _ in range(3)]
        pair = Pair(numbers, texts, key_set=("sam", "usual")[seed % 2])
        for _ in range(250):
            numbers.choice((pair.key, pair.carry, pair.carry, pair.editor.pause))()
            pair.settle()
        pair.finish()
        try:
            pair.check()
        except Failed as why:
            raise Failed(f"seed {seed}: {why}") from why


def check_slow_as_quick(folder):
    """Keys do the same over a slow link, where they come before the answers, as over a quick one."""
    for seed in range(20):
        numbers = random.Random(seed)
        quick, slow = (Pair(random.Random(seed), ["ab cd\nef\n", "x\ny\n"][: seed % 3]) for _ in range(2))
        for pair in (quick, slow):
            pair.editor.arrange(60, 80)
        quick.finish()
        for _ in range(20):
            for key in some_keys(numbers, quick.keys):
                quick.editor.take(key)
                quick.finish()
                slow.editor.take(key)
            slow.random.choice((slow.carry, slow.editor.pause, slow.settle))()
            slow.settle()
        slow.finish()
        got, wanted = (
            (
                {tag: (pair.host.name(tag), pair.host.text(tag)) for tag in pair.files()},
                [(window.tag, window.is_open and window.dot) for window in (pair.editor.focus, *pair.editor.windows)],
            )
            for pair in (slow, quick)
        )
        expect(got == wanted, f"seed {seed}: {got}, wanted {wanted}")


def check_keys_after_new(folder):
    """Keys after `^N` go to the new file."""
    pair, editor, key, text = opened("old\n")
    for typed in (key("^N"), text("draft"), key("Esc"), text("f name\n"), key("Esc"), text("!")):
        editor.take(typed)
    pair.finish()
    texts = [pair.host.text(tag) for tag in (1, 2)]
    expect(texts == ["old\n", "draft!"], f"the texts are {texts}")
    expect(pair.host.name(2) == "name", f"the name is {pair.host.name(2)!r}")


def check_help_after_new_and_close(folder):
    """After `^N` and `^K` the help comes before the answer. All other keys wait for that, and act then."""
    for name, texts in (("^N", ["a\n", "b\n", "x"]), ("^K", ["xa\n"])):
        for help_key in ("F1", "^G"):
            pair, editor, key, text = opened("a\n", "b\n")
            before = pair.files()
            editor.take(key(name))
            editor.take(key(help_key))
            expect(editor.help is not None and pair.files() == before, f"{name}: {help_key} waits")
            for typed in (key("Esc"), key("F8"), text("x")):
                editor.take(typed)
            is_waiting = editor.typed_ahead == "x" and not editor.is_small
            expect(editor.help is None and is_waiting, f"{name}: what is pressed after the help doesn't wait")
            pair.finish()
            got = [pair.host.text(tag) for tag in pair.files() if tag]
            expect(got == texts and editor.is_small, f"{name}: the texts are {got}")


def check_keys_after_close(folder):
    """Keys after `^K` go to the window that keys go to then; a menu has no file that is gone."""
    pair, editor, key, text = opened("a\n", "b\n")
    first, second = editor.files
    for typed in (key("^K"), text("x"), key("F2"), key("Down"), text("\n")):
        editor.take(typed)
    pair.finish()
    expect(not pair.host.has_file(second.tag), "the file is not closed")
    expect(pair.host.text(first.tag) == "xa\n", f"the text is {pair.host.text(first.tag)!r}")
    expect(editor.files == [first], "a file that is gone has a window")


def check_title_at_the_start(folder):
    """The command window has its title before the host has told its name."""
    pair = Pair(random.Random(1), ["a\n"])
    (text, _), = pair.screen.drawn_of(pair.editor, pair.editor.command).frame[0]
    expect(text.rstrip() == ">  ~~sam~~", f"the title is {text!r}")


def check_type_ahead(folder):
    """Keys that come before the first file is shown go to it, in order; `^Q` twice leaves."""
    pair = Pair(random.Random(1), ["end\n"])
    key, text = pair.keys.Key, pair.keys.Text
    for typed in (text("a"), text("\nb"), key("Left"), text("c")):
        pair.editor.take(typed)
    pair.finish()
    expect(pair.host.text(1) == "a\ncbend\n", f"the text is {pair.host.text(1)!r}")
    expect(pair.host.text(0) == "", f"the command window has {pair.host.text(0)!r}")
    for texts in ([], ["end\n"]):
        pair = Pair(random.Random(1), texts)
        pair.editor.take(key("^Q"))
        for seconds, leaves in ((0.3, False), (0.7, True)):
            pair.editor.notes.drawn()
            pair.now += seconds
            pair.editor.notes.settle(pair.now)
            pair.editor.take(key("^Q"))
            pair.now += 0.2
            pair.editor.update()
            expect(pair.editor.is_over == leaves, f"{seconds} s after the question: {pair.editor.message}")


def check_menu_waits(folder):
    """Keys after one that waits go to the menu which they open, and a text goes on after the menu."""
    pair = Pair(random.Random(1), ["a\n", "b\n"])
    pair.terminal.set_snarf("pasted")
    pair.finish()
    editor, key, text = pair.editor, pair.keys.Key, pair.keys.Text
    for typed in (key("^V"), key("Right"), key("F2"), key("Down"), text("\nx")):
        editor.take(typed)
    pair.finish()
    texts = [pair.host.text(tag) for tag in (1, 2)]
    expect(editor.menu is None, "the menu stays")
    expect(texts == ["pasteda\n", "xb\n"], f"the texts are {texts}")


def check_menu_without_memory(folder):
    """A file for which memory is wanting is not opened, and can be opened later."""
    from sulgrevad import NoMemory, Status

    pair = Pair(random.Random(1), ["a\n", "b\n"])
    pair.finish()
    editor, before = pair.editor, pair.editor.focus

    def refuse(tag):
        del pair.terminal.open
        raise NoMemory(Status.NO_MEMORY)

    pair.terminal.open = refuse
    for is_opened in (False, True):
        try:
            for typed in (pair.keys.Key("F2"), pair.keys.Key("Down"), pair.keys.Text("\n")):
                editor.take(typed)
        except NoMemory as why:
            raise Failed("want of memory ends the editor") from why
        expect(("not enough memory" in editor.message) != is_opened, f"it tells {editor.message!r}")
        pair.finish()
        expect(editor.menu is None, "the menu stays")
        expect((editor.focus is not before) == is_opened, "another file has the window")
    expect(editor.focus.is_open, "the file is not open")


def check_click_on_no_text(folder):
    """A press that hits no text selects nothing, and neither does what follows it."""
    pair, editor, _, _ = opened("one two\n" * 3, "three\n")
    first, second = editor.files

    def point(row, *whats):
        for what in whats:
            editor.take(pair.keys.Mouse(what, row, 4, 0.0))
        pair.finish()

    point(first.y + 1, "press", "release")
    expect(first.dot == (4, 4), f"the click selects {first.dot}")
    point(60, "press", "move", "release")  # the status line
    expect(first.dot == (4, 4), f"a click on the status line selects {first.dot}")
    point(second.y, "press", "move", "release")  # the title
    expect(editor.focus is second and second.dot == (0, 0), f"a click on a title selects {second.dot}")


def check_click_waits(folder):
    """A click into a window that is locked is done when it is free."""
    pair, editor, key, text = opened("a\n", "b\n")
    first, second = editor.files
    pair.terminal.set_snarf("pasted")
    pair.finish()
    editor.take(key("^V"))
    editor.go_to(first)
    editor.take(pair.keys.Mouse("press", second.y + 1, 3, 0.0))
    editor.take(text("|"))
    pair.finish()
    texts = [pair.host.text(tag) for tag in (first.tag, second.tag)]
    expect(texts == ["a\n", "pas|tedb\n"], f"the texts are {texts}")


def check_move_shows_caret(folder):
    """A move shows the caret, where it can't move on, too."""
    lines = "".join(f"line {at}\n" for at in range(500))
    pair, editor, key, _ = opened(lines)
    ends = ((0, "Page Down", ("^Home", "Left", "Up", "Home")), (len(lines), "Page Up", ("^End", "Right", "Down", "End")))
    for place, page, moves in ends:
        editor.take(key(moves[0]))
        pair.finish()
        for move in moves:
            for _ in range(3):
                editor.take(key(page))
                pair.finish()
            expect(pair.screen.cursor_of(editor) is None, "this test is wrong")
            editor.take(key(move))
            pair.finish()
            expect(editor.focus.dot == (place, place), f"{move} goes to {editor.focus.dot}, wanted {place}")
            expect(pair.screen.cursor_of(editor) is not None, f"{move} leaves the caret out of sight")


def check_moves_wait_for_text(folder):
    """A move by rows that are not loaded waits until they are."""
    lines = "".join(f"line {at}\n" for at in range(5000))
    pair, editor, key, text = opened(lines)
    for typed in (key("^End"), key("Up"), text("x")):
        editor.take(typed)
    pair.finish()
    got = pair.host.text(1)
    expect(got == lines[:-10] + "xline 4999\n", f"the text ends in {got[-40:]!r}")


def check_window_stays(folder):
    """The answer to a command line brings no file back that another one has taken the window of."""
    pair = Pair(random.Random(1), ["a\n", "b\n"])
    pair.finish()
    editor, key, text = pair.editor, pair.keys.Key, pair.keys.Text
    for typed in (key("Esc"), text("f name\n"), key("F2"), key("Down"), text("\n")):
        editor.take(typed)
    pair.finish()
    expect(pair.host.name(1) == "name", "the command line is not done")
    expect([window.tag for window in editor.files] == [2], f"the windows are {[window.tag for window in editor.files]}")
    expect(editor.focus.tag == 2, "keys go elsewhere")


def check_enter_in_a_line(folder):
    """Enter runs the whole line, wherever the caret stands in it."""
    pair, editor, key, text = opened("".join(f"{at}\n" for at in range(1, 15)))
    for typed in (key("Esc"), text("2d"), key("Home"), text("1\n")):
        editor.take(typed)
    pair.finish()
    wanted = "".join(f"{at}\n" for at in range(1, 15) if at != 12)
    expect(pair.host.text(1) == wanted, f"the text is {pair.host.text(1)!r}")
    expect(pair.host.text(0) == "12d\n", f"the command window has {pair.host.text(0)!r}")
    for typed in (text("q"), key("Home"), text("\n")):
        editor.take(typed)
    pair.finish()
    expect(not editor.is_over and "Enter again" in editor.message, f"it doesn't ask: {editor.message}")


def check_rune_without_base(folder):
    """A combining rune at the start of a line has a cell of its own, so that the caret stops before it."""
    pair, editor, key, _ = opened("a\n\u0301\u0302x")
    for name, place in (("^End", 5), ("Left", 4), ("Left", 2), ("Left", 1)):
        editor.take(key(name))
        pair.finish()
        expect(editor.focus.dot == (place, place), f"{name} goes to {editor.focus.dot}, wanted {place}")
    editor.take(key("Delete"))
    pair.finish()
    expect(pair.host.text(1) == "a\u0301\u0302x", f"Delete leaves {pair.host.text(1)!r}")


def check_close_elsewhere(folder):
    """When a file is gone, the window that keys went to since stays the one that is worked on."""
    pair, editor, key, text = opened("a\n", "b\n", "c\n")
    _, second, third = editor.files
    editor.go_to(second)
    editor.take(key("^K"))
    editor.go_to(third)
    pair.finish()
    expect(second not in editor.files, "the file is not closed")
    expect(editor.focus is third and editor.active is third, "another window is worked on")


def check_keys_while_opening(folder):
    """Keys that go by places wait until the file is open."""
    pair = Pair(random.Random(1), ["a\n", "b\n"])
    pair.finish()
    editor, key, text = pair.editor, pair.keys.Key, pair.keys.Text
    other = next(tag for tag in pair.files() if tag not in (0, editor.focus.tag))
    editor.show(other)
    editor.take(key("^End"))
    editor.take(text("x"))
    pair.finish()
    expect(pair.host.text(other) == "b\nx", f"the text is {pair.host.text(other)!r}")


def check_split_runes(folder):
    """The bytes of a rune may come one after the other; wrong bytes cost no rune and end nothing."""
    import locale

    from terminal.keys.decoder import Decoder

    locale.setlocale(locale.LC_CTYPE, "C.UTF-8")
    decoder = Decoder()
    came = [decoder.feed(data, 0.0) for data in (b"a\xe8\xb1", b"\x86b", b"\xe9ABC", b"\xf4\x90\x80\x80z")]
    got = ["".join(text.runes for text in texts) for texts in came]
    expect(got[:2] == ["a", "豆b"], f"a rune in two parts: {got[:2]}")
    expect(got[2].endswith("ABC") and got[3].endswith("z"), f"wrong bytes cost runes: {got[2:]}")


def check_reading_when_lost(folder):
    """Without a host all that is loaded can be reached, by the page keys and by the wheel, and nothing is asked."""
    pair, editor, key, _ = opened("".join(f"line {at}\n" for at in range(3000)))
    window = editor.focus
    editor.take(key("^End"))
    pair.finish()
    editor.lose("the host is gone")
    top = window.top
    for _ in range(200):
        editor.take(key("Page Up"))
        window.update()
    expect(pair.terminal.held == 0, "a host that is gone is asked")
    expect(window.top == 0, f"from {top} it goes up to {window.top} alone")
    pair, editor, key, _ = opened("line\n" * 300)
    editor.lose("the host is gone")
    for what, top in (("wheel down", 15), ("wheel up", 0)):  # by three rows
        editor.take(pair.keys.Mouse(what, editor.focus.y + 1, 0, 0.0))
        expect(editor.focus.top == top, f"the {what} leads to {editor.focus.top}, wanted {top}")


def check_top_when_lost(folder):
    """Without a host no key counts on past the top of a text that is not loaded throughout: so many rows down lead away from it at once."""
    for is_lost_first in (True, False):  # the wheel counts over a gap before the host is gone, too
        pair, editor, key, _ = opened("line of a text\n" * 3000)
        window = editor.focus
        pair.press(key("^End"))
        wheel_up, wheel_down = (pair.keys.Mouse(what, window.y + 1, 0, 0.0) for what in ("wheel up", "wheel down"))
        if is_lost_first:
            editor.lose("the host is gone")
        for _ in range(300):
            editor.take(wheel_up)
        editor.lose("the host is gone")
        for _ in range(9 if is_lost_first else 0):
            editor.take(key("Page Up"))
        expect(window.top == 0, f"it goes up to {window.top}")
        editor.take(wheel_down)
        low, high = 2 * window.width, 3 * window.width
        expect(low < window.top <= high, f"three rows down from the top lead to {window.top}, wanted more than {low}, up to {high}")
        for _ in range(70):
            editor.take(key("Page Down"))
        expect(window.layout().is_whole, f"Page Down leads to {window.top} alone, which doesn't show the end")


def check_window_of_one_row(folder):
    """Page Down goes on by a row where there is one row alone."""
    pair, editor, key, _ = opened("".join(f"line {at}\n" for at in range(30)))
    window = editor.focus
    editor.arrange(6, 80)
    window.put(window.y, 1, 80)
    pair.finish()
    top = window.top
    editor.take(key("Page Down"))
    pair.finish()
    expect(window.top > top, "it stays where it is")


def check_no_memory(folder):
    """Bytes of the host for which there is no memory stay, and are taken again, before those that came since."""
    from sulgrevad import NoMemory, Status
    from terminal.line import persistent_session

    line, taken, is_short = persistent_session.PersistentSession(["sleep", "100"], lambda name: []), [], [True]

    def receive(attempt, data, now):
        if is_short[0]:
            raise NoMemory(Status.NO_MEMORY)
        taken.append(data)

    line.client.receive = receive
    line._hear(b"one ")
    expect(taken == [] and line.delay() is not None and line.delay() <= 1, "bytes of the host are lost")
    is_short[0] = False
    line._hear(b"two")
    expect(taken == [b"one two"], f"it takes {taken}")
    line.close(print, seconds=0)


def check_no_memory_at_the_start(folder):
    """So it is while the host's stream is to begin: they are taken once."""
    from sulgrevad import NoMemory, Status
    from terminal.line import persistent_session

    host = [sys.executable, "-c", "import os, time; os.write(1, b'hello'); time.sleep(100)"]
    line, taken, refused = persistent_session.PersistentSession(host, lambda name: []), [], []

    def receive(attempt, data, now):
        if not refused:
            refused.append(data)
            raise NoMemory(Status.NO_MEMORY)
        taken.append(data)

    line.client.receive = receive
    line.wait_for_stream(print, lambda: bool(taken))
    expect(taken == [b"hello"], f"it takes {taken}")
    line.close(print, seconds=0)
