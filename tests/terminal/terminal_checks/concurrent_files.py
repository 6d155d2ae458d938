"""Keys of one file, while those of another wait for the host."""
import random

from .pairs import Kept, in_a_small_window, opened
from .support import expect

RESIZING = (54, 187, 497, 623, 886, 1104)  # seeds of random keys among which F8 comes while output is under way, and then a click


def go_to(pair, tag):
    """Has keys go to the window of a file."""
    for _ in range(4):
        if pair.editor.focus.tag != tag:
            pair.press(pair.keys.Key("^P"))
    expect(pair.editor.focus.tag == tag, f"this test is wrong: keys go to {pair.editor.focus.tag}")


def locked(*texts, name="look"):
    """An editor whose first file waits for the host, and has the keys. The host looks for nothing, so it selects nothing."""
    pair, editor, key, text = opened(*texts)
    go_to(pair, 1)
    pair.terminal.set_snarf("pasted ")
    pair.press(text("."))
    if name == "look":
        pair.terminal.look(1)
    else:
        editor.take(key(name))
    expect(pair.terminal.locked(1) or editor.pasting, "this test is wrong: the file is not locked")
    return pair, editor, key, text


def asked(pair):
    """How much was asked for: what the terminal has, and what waits."""
    return pair.terminal.state().events + pair.terminal.held


def shown(pair, tag):
    return pair.terminal.runes(tag, 0, pair.terminal.len(tag))


def check_keys_of_another_file(folder):
    """While keys wait for a locked file those of others act at once, and so do keys and clicks that lead there; none goes elsewhere. What is
    typed behind `^V` waits for nothing."""
    for name, before in (("look", ""), ("^V", "pasted ")):
        pair, editor, key, text = locked("one\n", "two\n", "three\n", name=name)
        second, third = (editor.window_of(tag) for tag in (2, 3))
        for each in (text("x"), key("^P"), text("y"), key("^End"), key("Backspace"), key("^Z"), text("!")):
            editor.take(each)
        expect(shown(pair, 2) == "ytwo\n!", f"{name}: the second file has {shown(pair, 2)!r}")
        waits = name == "look"
        expect(editor.focus is second and len(editor.deferred) == waits, f"{name}: {len(editor.deferred)} keys wait, of {editor.focus.tag}")
        for what in ("press", "release"):
            editor.take(pair.keys.Mouse(what, third.y + 1, 3, 0.0))
        editor.take(text("z"))
        expect(shown(pair, 3) == "thrzee\n", f"{name}: the third file has {shown(pair, 3)!r}")
        for each in (key("Esc"), text("1,$p"), key("^O"), text("file0"), text("\n"), text("w")):
            editor.take(each)
        expect(shown(pair, 0) == "1,$p" and editor.focus.tag == 1, f"{name}: the command window has {shown(pair, 0)!r}")
        expect(shown(pair, 1) == (".one\n" if waits else ".xwone\n"), f"{name}: the first file has {shown(pair, 1)!r} already")
        pair.finish()
        got = [pair.host.text(tag) for tag in range(4)]
        expect(got == ["1,$p", f".{before}xwone\n", "ytwo\n!", "thrzee\n"], f"{name}: the texts are {got}")
        pair.check()


def check_keys_of_a_file_that_leaves_the_screen(folder):
    """A key that waits for text which its window shows acts, too, where another file takes that window's place before the text is asked
    for."""
    pair, editor, key, text = in_a_small_window()
    pair.host.add_file("other", "two\n")
    pair.terminal.offer_version(2)
    pair.finish()
    first = editor.active
    editor.take(text("x"))
    editor.arrange(400, 80)  # what a larger screen shows is not asked for while the user types
    for each in (key("Page Down"), text("y"), key("^O"), text("other"), text("\n")):
        editor.take(each)
    expect(editor.deferred and first not in editor.windows, f"this test is wrong: {editor.deferred} wait")
    pair.finish()
    expect(not editor.deferred and pair.host.text(first.tag).startswith("xyline 0"), f"{len(editor.deferred)} keys wait")


def check_enter_after_keys_of_all_files(folder):
    """A command line runs once the keys before it have acted, and those after it wait for it."""
    pair, editor, key, text = locked("one\n", "two\n")
    for each in (text("x"), key("Esc"), text(",d\n"), key("Esc"), text("y"), key("^P"), key("^P"), text("z")):
        editor.take(each)
    expect(shown(pair, 0) == "" and shown(pair, 2) == "two\n", "a key comes before a command line that waits")
    pair.finish()
    got = [pair.host.text(tag) for tag in range(3)]
    expect(got == [",d\nz", "y", "two\n"], f"keys go elsewhere: the texts are {got}")


def beside_a_locked_file(texts=("one\n", "two\n", "three\n")):
    """An editor with a key that waits for its first file, and the keyboard in the second."""
    pair, editor, key, text = locked(*texts)
    for each in (text("x"), key("^P")):
        editor.take(each)
    expect(editor.focus.tag == 2 and len(editor.deferred) == 1, "this test is wrong: no key waits")
    return pair, editor, key, text


def check_screen_keys_beside_a_locked_file(folder):
    """F8, F10, ^T and ^Y wait for no other file. Of a file whose keys wait ^Y takes the window off once these have acted."""
    pair, editor, key, text = beside_a_locked_file()
    second = editor.focus
    editor.take(key("F8"))
    editor.take(key("F10"))
    expect(editor.is_small and editor.has_numbers, "F8 or F10 waits for another file")
    editor.take(key("^Y"))
    expect(second not in editor.files, "^Y waits for another file")
    editor.take(key("^T"))
    editor.take(text("!"))
    expect(second in editor.files and shown(pair, 2) == "!two\n", f"^T waits for another file: {shown(pair, 2)!r}")
    first = editor.window_of(1)
    editor.go_to(first)
    for each in (key("^Y"), text("y")):
        editor.take(each)
    expect(first in editor.files, "^Y comes before the keys of its own file")
    pair.finish()
    got = [pair.host.text(tag) for tag in (1, 2, 3)]
    expect(first not in editor.files and editor.has_numbers, "the window stays")
    expect(got == [".xone\n", "!two\n", "ythree\n"] and editor.focus.tag == 3, f"keys go elsewhere: {got}")


def check_screen_keys_behind_a_click(folder):
    """A key that shares the screen anew waits for clicks and moves by rows before it: these go by the rows that their user saw."""
    for name in ("F8", "F10", "^T", "^Y"):
        dots = []
        for waits in (True, False):
            pair, editor, key, text = opened("one two three\n" * 60, "b\n", "c\n", size=(40, 80))
            pair.press(key("^Y"))
            go_to(pair, 1)
            window = editor.focus
            pair.press(text("."))
            pair.terminal.look(1)
            keys = [pair.keys.Mouse(what, window.y + 5, 3, 0.0) for what in ("press", "release")] + [key("Down"), key(name)]
            for each in keys if name != "^Y" else [*keys[:3], key("^P"), key("^P"), key(name)]:
                editor.take(each)
                if not waits:
                    pair.finish()
            if waits:
                expect(len(editor.deferred) == 4, f"{name} comes before a click")
            pair.finish()
            dots.append((window.dot, editor.focus.tag))
        expect(dots[0] == dots[1], f"{name}: a click leads to {dots[0]}, over a quick line to {dots[1]}")


def check_new_and_close_beside_a_locked_file(folder):
    """^N and ^K wait for their own file alone; what waits for another goes there all the same, and what comes after them to the new file,
    or to the window that stays."""
    for name, wanted, focus in (("^N", [".xone\n", "two\n", "three\n", "y"], 4), ("^K", [".xyone\n", None, "three\n"], 1)):
        pair, editor, key, text = beside_a_locked_file()
        events = asked(pair)
        editor.take(key(name))
        expect(asked(pair) > events, f"{name} waits for another file")
        editor.take(text("y"))
        pair.finish()
        got = [pair.host.text(tag) if pair.host.has_file(tag) else None for tag in range(1, len(wanted) + 1)]
        expect(got == wanted and editor.focus.tag == focus, f"{name}: the texts are {got}, keys go to {editor.focus.tag}")
        pair.check()
    for name, wanted in (("^N", [".xone\n", "two\n", "y"]), ("^K", [None, "ytwo\n"])):
        pair, editor, key, text = locked("one\n", "two\n")
        events = asked(pair)
        for each in (text("x"), *[key("^W")] * (name == "^K"), key(name), text("y")):
            editor.take(each)
        expect(asked(pair) == events, f"{name} comes before the keys of its own file")
        pair.finish()
        got = [pair.host.text(tag) if pair.host.has_file(tag) else None for tag in range(1, len(wanted) + 1)]
        expect(got == wanted, f"{name}: the texts are {got}")


def check_lines_beside_a_locked_file(folder):
    """While a command line waits, keys of files that it doesn't work on act. It works on the file that was used last when it was pressed,
    and what is typed there comes after it."""
    for name in ("Enter", "^E"):
        pair, editor, key, text = locked("one\n", "aa\nbb\n2d", "three\n")
        second, third = editor.window_of(2), editor.window_of(3)
        pair.terminal.select(2, 6, 8)
        editor.go_to(second)
        for each in [key("Esc"), text("2d\n"), key("Esc")] if name == "Enter" else [key("^E")]:
            editor.take(each)
        for each in (text("y"), key("^P"), text("z")):
            editor.take(each)
        expect(editor.focus is third and shown(pair, 3) == "zthree\n", f"{name}: the third file has {shown(pair, 3)!r}")
        expect(shown(pair, 2) == "aa\nbb\n2d", f"{name}: the second file has {shown(pair, 2)!r} already")
        pair.finish()
        got = [pair.host.text(tag) for tag in (1, 2, 3)]
        expect(got == [".one\n", "aa\ny2d", "zthree\n"], f"{name}: the texts are {got}")
        expect(editor.focus is third, f"{name}: keys go to {editor.focus.tag}")
        pair.check()


def check_line_that_leaves(folder):
    """The command line `q` waits for the keys of all files, and asks of what they have changed; all keys after it wait, too."""
    pair, editor, key, text = locked("one\n", "two\n", "three\n")
    for each in (text("x"), key("^P"), key("Esc"), text("q\n"), key("Esc"), key("^P"), text("z")):
        editor.take(each)
    expect(shown(pair, 3) == "three\n", "a key comes before a line that leaves")
    pair.finish()
    got = [pair.host.text(tag) for tag in (1, 2, 3)]
    expect(not editor.is_over and got == [".xone\n", "two\n", "zthree\n"], f"it leaves, or the texts are {got}")


def check_search_beside_a_command_line(folder):
    """While a command line is not answered the host is asked for a search in another file: what is typed in the first comes after its line
    all the same."""
    pair, editor, key, text = opened("one two\n", "two one\n")
    go_to(pair, 1)
    searches = key("^S"), text("one"), text("\n")
    for each in (key("Esc"), text(",x/two/c/2/\n"), *[key("^P")] * 2, *searches, *[key("^P")] * 2, text("x")):
        editor.take(each)
    expect(shown(pair, 1) == "one two\n", f"what is typed shows already: {shown(pair, 1)!r}")
    pair.finish()
    got = [pair.host.text(tag) for tag in (1, 2)]
    expect(got == ["one 2x\n", "two one\n"] and editor.window_of(2).dot == (4, 7), f"the texts are {got}")
    pair.check()


def check_two_searches_beside_a_begun_line(folder):
    """Of two quick searches the second comes after what the first has printed: a command line that was begun stays one by itself."""
    pair, editor, key, text = opened("one\n", "two\n")
    go_to(pair, 1)
    pair.press(key("Esc"), text("draft"), key("Esc"))
    for each in (key("^S"), text("zz"), text("\n"), key("^P"), key("^S"), text("yy"), text("\n")):
        editor.take(each)
    pair.finish()
    expect(pair.host.text(0) == "/zz/\n? search\n/yy/\n? search\ndraft", f"the command window has {pair.host.text(0)!r}")


def check_reload_beside_a_locked_file(folder):
    """^U waits until no answer is due, and holds back its own file alone."""
    pair, editor, key, text = beside_a_locked_file()
    third = editor.window_of(3)
    for each in (key("^U"), text("y"), key("^P"), text("z")):
        editor.take(each)
    expect(shown(pair, 2) == "two\n" and shown(pair, 3) == "zthree\n", f"the files have {shown(pair, 2)!r} and {shown(pair, 3)!r}")
    expect("reloaded" not in editor.message, "it doesn't wait")
    pair.finish()
    got = [pair.host.text(tag) for tag in (1, 2, 3)]
    expect(got == [".xone\n", "ytwo\n", "zthree\n"] and editor.focus is third, f"the texts are {got}")


def check_what_files_share(folder):
    """What was cut in a file that waits is pasted into another; what was looked for there is found."""
    pair, editor, key, text = locked("one\n", "two\n")
    for each in (key("Shift-Home"), key("^X"), key("^P"), text("y"), key("^V"), text("z")):
        editor.take(each)
    expect(shown(pair, 2) == "ytwo\n", f"the second file has {shown(pair, 2)!r} before the cut")
    pair.finish()
    got = [pair.host.text(tag) for tag in (1, 2)]
    expect(got == ["one\n", "y.ztwo\n"], f"the texts are {got}")
    pair, editor, key, text = locked("two one\n", "one\ntwo\n")
    for each in (key("^D"), key("^L"), key("^P"), key("^F"), text("!")):
        editor.take(each)
    pair.finish()
    expect(pair.host.text(2) == "one\n!\n", f"the second file has {pair.host.text(2)!r}")


def check_clipboard_while_it_is_asked_for(folder):
    """While the host is asked for what another terminal has copied, another file's `^V` waits for that, and so does its `^X`: what was cut
    is what is pasted next."""
    for names, wanted in ((("^V",), "pasted pasted two\n"), (("Shift-Right", "^X", "^End"), "wo\nt")):
        pair, editor, key, text = locked("one\n", "two\n", name="^V")
        for name in ("^P", *names):
            editor.take(key(name))
        pair.finish()
        pair.press(key("^V"))
        got = [pair.host.text(tag) for tag in (1, 2)]
        expect(got == [".pasted one\n", wanted], f"{names}: the texts are {got}")


def check_typed_text_of_each_file_is_kept(folder):
    """What was typed into files that wait when the host is lost is kept, of each by itself."""
    pair, editor, key, text = locked("one\n", "two\n")
    for each in (text("first"), key("^P"), text("!")):
        editor.take(each)
    pair.terminal.look(2)
    editor.take(text("second"))
    with Kept() as kept:
        editor.lose("the host is gone")
    typed = [text for name, text in kept.texts if name == "typed"]
    expect(typed == ["first", "second"], f"it keeps {kept.texts}")
    expect(not any("first" in text or "second" in text for name, text in kept.texts if name != "typed"), f"it keeps {kept.texts}")


def check_question_beside_a_late_key(folder):
    """A key that waited for another file takes back no question that was asked after it was pressed."""
    pair, editor, key, text = locked("one\n", "two\n")
    for each in (text("x"), key("^P")):
        editor.take(each)
    pair.now += 0.1
    editor.take(text("y"))
    editor._acts_since = pair.now
    editor._ask("sure?", key("^X"))
    pair.finish()
    expect(pair.host.text(1) == ".xone\n", f"the first file has {pair.host.text(1)!r}")
    expect(editor.notes.question == "sure?", f"the line has {editor.message!r}")


KEYS = ("^P", "^P", "^P", "Esc", "^W", "^W", "^V", "^V", "^X", "^C", "^Z", "^R", "^D", "^A", "^L", "^F", "^T", "^Y", "F8", "F10", "Left",
        "Right", "Up", "Down", "Home", "End", "^Home", "^End", "Shift-Right", "Shift-Down", "Backspace", "Delete", "^Right", "^T", "^Y",
        "F8", "F10", "^E", "^E", "^N", "F9")  # fmt: skip


def random_keys(numbers, keys):
    """A key, or some that belong together."""
    mouse = [keys.Mouse(what, numbers.randrange(40), numbers.randrange(9), numbers.random() * 1e6) for what in ("press", "release")]
    line = [keys.Key("Esc"), keys.Text(numbers.choice((",x/o/c/00/\n", "1d\n", "2\n", "/e/\n"))), keys.Key("Esc")]
    menu = [keys.Key("F2"), *[keys.Key("Down")] * numbers.randrange(3), keys.Text("\n")]
    typed = [keys.Text(numbers.choice(("a", "bc", "d\n", "\t")))]
    close = [keys.Key("^W"), keys.Key("^K")]
    one = [[keys.Key(numbers.choice(KEYS))] for _ in range(6)]
    return numbers.choice((mouse, mouse, line, line, menu, close, typed, typed, typed, *one))


def check_several_files_as_quick(folder):
    """However the answers for several files come, each key does what it does over a quick line; also a click, after the command window has
    changed its size while output was under way."""
    for seed in (*range(12), *RESIZING):
        numbers = random.Random(seed)
        texts = ("one two\nlong " + "x" * 90 + "\nend\n", "two one\n\nthree\n", "three\n")
        (quick, *_), (slow, *_) = (opened(*texts, size=(38, 40)) for _ in range(2))
        told = []
        for _ in range(30):
            for each in random_keys(numbers, quick.keys):
                told.append(each)
                quick.editor.take(each)
                quick.finish()
                slow.editor.take(each)
            slow.random.choice((slow.carry, slow.carry, slow.editor.pause, slow.settle))()
            slow.settle()
        slow.finish()
        ends = [
            (
                {tag: pair.host.text(tag) for tag in pair.files()}, pair.host.snarf(),
                [(window.tag, window.is_open and window.dot) for window in (pair.editor.focus, pair.editor.active, *pair.editor.windows)],
            )
            for pair in (quick, slow)
        ]  # fmt: skip
        expect(ends[0] == ends[1], f"seed {seed}: {ends[1]}, wanted {ends[0]}; {told}")
        slow.check()


def check_tab_over_what_is_not_loaded(folder):
    """Tab and Shift-Tab over lines that are not loaded indent them once they are, and replace nothing; where that is too much they say
    so."""
    from terminal.keys.motions import MOST_TO_INDENT

    pair, editor, key, text = in_a_small_window()
    lines = pair.host.text(1)
    pair.press(key("^A"), text("\t"))
    wanted = "".join("\t" + line for line in lines.splitlines(True))
    expect(pair.host.text(1) == wanted, f"after Tab the text begins with {pair.host.text(1)[:40]!r}, of {pair.terminal.len(1)} characters")
    pair.press(key("Shift-Tab"))
    expect(pair.host.text(1) == lines, f"after Shift-Tab the text begins with {pair.host.text(1)[:40]!r}")
    long = "some words\n" * (MOST_TO_INDENT // 8)
    for each in (text("\t"), key("Shift-Tab")):
        pair, editor, key, text = opened(long, size=(20, 80))
        pair.press(key("^A"), each)
        expect("not loaded" in editor.message, f"{each}: it says {editor.message!r}")
        pair.press(each, key("Left"), text("x"))
        expect(pair.host.text(1) == "x" + long, f"{each}: the text has changed, and begins with {pair.host.text(1)[:40]!r}")
