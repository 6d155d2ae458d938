"""Keys while a session's line is lost, without a screen."""
import random

from .messages import NoteKind, hidden
from .model import Model
from .pairs import KNOWN_LATE, LONG, Line, Pair, in_a_small_window, with_line
from .support import expect

TOLD = 0.6  # seconds in which the user has read what he was told


def check_keys_on_a_lost_line(folder):
    """While the line is lost all that needs no answer acts at once, what can't act says so, and nothing locks a file."""
    pair, editor, key, text, line = with_line("one two\nthree\n")
    line.is_broken = True
    pair.wait(0.5)
    keys = (text("x"), key("^Right"), key("^W"), key("Shift-Home"), key("^X"), key("^End"), key("^V"), text("!"), key("^Z"), key("^R"))
    for each in keys:
        editor.take(each)
        editor.go_on()
        expect(not editor.deferred and not pair.terminal.locked(1), f"{each} waits, or locks the file")
    model = Model("one two\nthree\n", 200)
    for act in (lambda: model.type("x"), lambda: model.word_right(False), lambda: model.home(True), model.cut, model.last, model.paste):
        act()
    model.type("!")
    window = editor.focus
    expect(window.read(0, window.length) == model.text, f"the text is {window.read(0, window.length)!r}, wanted {model.text!r}")
    pair.wait(4)
    for name in ("^N", "^K", "^D", "^E"):
        editor.take(key(name))
        expect(f"{name} can't act until the line is back" in editor.message, f"{name}: {editor.message}")
        pair.wait(TOLD)
        expect(not editor.deferred, f"{name} waits")
    for name in ("^L", "^F", "^S"):
        editor.take(key(name))
        expect(not editor.deferred and not pair.terminal.locked(1), f"{name} waits")
    editor.take(key("Esc"))
    for each in (key("Esc"), text("1d\n")):
        editor.take(each)
    pair.wait(TOLD)
    for each in (key("Esc"), text("?")):
        editor.take(each)
    expect(list(pair.terminal.runes(0, 0, 10)) == list("1d"), "the command line is not there, or has run")
    model.last()
    model.type("?")
    line.is_broken = False
    pair.finish()
    expect(pair.host.text(1) == model.text, f"the host has {pair.host.text(1)!r}, wanted {model.text!r}")
    expect(pair.written == [1], "the file is not written once the line is back")
    expect(pair.host.text(0) == "1d", f"the command window has {pair.host.text(0)!r}")


def check_keys_of_a_short_break(folder):
    """Over a break of less than three seconds keys do what they do over a line that holds; and no key that has text typed behind it goes,
    however long the break is."""
    for seconds, keys in ((2, ("^D", "^F", "Esc", "1d\n", "Esc", "x")), (9, ("^D", "x")), (9, ("^N", "x", "Esc", "f name\n"))):
        texts = []
        for is_broken in (False, True):
            pair, editor, key, text, line = with_line("one two\ntwo\n", "b\n")
            line.is_broken = is_broken
            pair.wait(0.2)
            for name in keys:
                editor.take(text(name) if name[0] not in "^E" else key(name))
                if not is_broken:
                    pair.finish()
            pair.wait(seconds)
            line.is_broken = False
            pair.finish()
            texts.append({tag: (pair.host.name(tag), pair.host.text(tag)) for tag in pair.files()})
        expect(texts[0] == texts[1], f"{keys}: over a break of {seconds} s {texts[1]}, else {texts[0]}")


def check_line_behind_a_write_in_a_short_break(folder):
    """A write that was put off comes before the command line behind it: the file has the text and the name from before that."""
    for typed in (",d\n", "f other\n"):
        pair, editor, key, text, line = with_line("one\n")
        names, written = [], pair.host.written
        pair.host.written = lambda: [names.append(pair.host.name(tag)) or tag for tag in written()]
        line.is_broken = True
        pair.wait(0.2)
        for each in (text("x"), key("^W"), key("Esc"), text(typed)):
            editor.take(each)
        expect(len(editor.deferred) == 1, f"this test is wrong: {editor.deferred} wait")
        pair.wait(2)
        line.is_broken = False
        pair.finish()
        got = names, pair.host.saved(1), pair.host.name(1), pair.host.text(1)
        expect(got == (["file0"], "xone\n", *(("file0", "") if typed == ",d\n" else ("other", "xone\n"))), f"{typed!r}: {got}")


# Keys that can't act on a lost line, by what a long text lacks, and what is pressed right behind them; and before the line is lost.
FAST = (
    ((), ("^End", "Up", "x")),
    ((), ("^End", "Up", "Backspace")),
    ((), ("^End", "Left", "Shift-Up", "^C", "^Home", "^V")),
    ((), ("^S", "line 2000", "\n", "x")),
    ((), ("^S", "line 2000", "\n", "^X", "^Home", "^V")),
    (("^S", "foo", "\n"), ("^End", "^B", "x")),
    (("^S", "line 9", "\n", "^Home"), ("^S", "line 2999", "\n", "^F", "x")),
    ((), ("^End", "^L", "y")),
    ((), ("^D", "word")),
    ((), ("^D", "^X")),
    ((), ("Esc", "1d\n", "2d\n", "Esc", "x")),
)


def pressed(pair, name):
    """A key of this name, or what is typed."""
    return pair.keys.Key(name) if name[0] == "^" or name in ("Up", "Left", "Shift-Up", "Backspace", "Esc") else pair.keys.Text(name)


def check_fast_keys_on_a_lost_line(folder):
    """What is typed, erased or copied right behind a key that can't act until the line is back goes where it would over a line that holds:
    it waits with that key."""
    for before, keys in FAST:
        texts = []
        for is_broken in (False, True):
            pair, editor, *_ = in_a_small_window()
            line = pair.take_line(Line())
            pair.press(*(pressed(pair, name) for name in before), seconds=0.1)
            expect(pair.terminal.first_gap(1) is not None, "this test is wrong: all is loaded")
            line.is_broken = is_broken
            pair.wait(KNOWN_LATE if is_broken else 0.1)
            for name in keys:
                editor.take(pressed(pair, name))
                if not is_broken:
                    pair.finish()
            pair.wait(9)
            line.is_broken = False
            pair.finish(9)
            texts.append([pair.host.text(tag) for tag in pair.files()])
        at = next((at for at, pair in enumerate(zip(*texts)) if pair[0] != pair[1]), None)
        expect(texts[0] == texts[1], f"{before}, {keys}: file {at} differs: {editor.message!r}, {editor.deferred}")


def check_text_that_goes_in_a_short_break(folder):
    """A key that takes out text which isn't loaded waits while the line is gone for a moment: then `^Z` brings that back, and `^R` what a
    `^Z` took out."""
    come = "b" * 1000
    for before, name, then, back, wanted in (
        ((), "x", "x", "^Z", LONG), ((), "^X", "", "^Z", LONG), ((), "Backspace", "", "^Z", LONG),
        (("Esc", f"$a/{come}/\n", "Esc"), "^Z", LONG, "^R", LONG + come),
    ):  # fmt: skip
        pair, editor, key, *_ = in_a_small_window()
        pair.press(*(pressed(pair, each) for each in before))
        line = pair.take_line(Line())
        line.is_broken = True
        pair.wait(0.2)
        for each in ("^A", name):
            editor.take(pressed(pair, each))
        pair.wait(2)
        expect(editor.deferred and not editor.notes.question, f"{name} asks: {editor.message!r}")
        line.is_broken = False
        pair.finish()
        expect(pair.host.text(1) == then, f"behind {name} the host has {len(pair.host.text(1))} characters: {editor.message!r}")
        pair.press(key(back))
        expect(pair.host.text(1) == wanted, f"{back} doesn't take {name} back: {editor.message!r}")


def check_text_that_goes_on_a_lost_line(folder):
    """Where the line doesn't come back such a key goes after three seconds, once its user was told; but text waits, and what has text right
    behind it. On a line that is known to be lost it asks at once."""
    for keys, is_known, waits, told in (
        ("x", False, True, ""), (("^X", "y"), False, True, ""), (("^X",), False, False, "^X can't act until the line is back"),
        (("^X",), True, False, "can't bring them back"), ("x", True, False, "can't bring them back"),
    ):  # fmt: skip
        pair, editor, *_ = in_a_small_window()
        line = pair.take_line(Line())
        line.is_broken = True
        pair.wait(KNOWN_LATE if is_known else 0.2)
        for name in ("^A", *keys):
            editor.take(pressed(pair, name))
        pair.wait(KNOWN_LATE)
        expect(bool(editor.deferred) == waits and told in editor.message, f"{keys}: {editor.deferred}, {editor.message!r}")
        line.is_broken = False
        pair.finish()
        wanted = keys[-1] if waits else LONG
        expect(pair.host.text(1) == wanted, f"{keys}: the host has {len(pair.host.text(1))} characters")


def check_keys_once_a_refusal_is_read(folder):
    """A key that can't act goes half a second after its user was told, however long it is held down; what comes later goes to the caret."""
    for before, name, words in (
        ("^End", "Up", "Up can't act until the line is back"), ("^End", "^B", "not in what is loaded above"),
        ("^End", "^D", "^D can't act until the line is back"), ("^Home", "^F", "not in what is loaded below"),
    ):  # fmt: skip
        pair, editor, key, text = in_a_small_window()
        line = pair.take_line(Line())
        pair.press(key("^S"), text("line 1"), text("\n"), seconds=0.1)
        editor.sought_here = "line 2345"
        line.is_broken = True
        pair.wait(KNOWN_LATE)
        editor.take(key(before))
        places = editor.focus.dot
        for _ in range(20):  # for a second, as a key does that is held down
            editor.take(key(name))
            pair.wait(0.05)
        expect(editor.message == words, f"{name} tells {editor.message!r}")
        pair.wait(TOLD)
        expect(not editor.deferred and editor.focus.dot == places, f"{name} waits: {editor.deferred}, {editor.focus.dot}")
        editor.take(text("x"))
        expect(list(pair.terminal.runes(1, places[0], 1)) == ["x"], f"behind {name} what is typed doesn't stand at the caret")


def check_menu_entry_on_a_lost_line(folder):
    """While the line is lost the menu stays where the chosen file is not open, and Enter goes once its user has read that it can't act.
    What is typed right behind it waits with it, and goes into the chosen file."""
    for typed, wanted in (("", ["one\n", "two\n"]), ("x", ["one\n", "xtwo\n"])):
        pair = Pair(random.Random(1), ("one\n", "two\n"))
        editor, key, text = pair.editor, pair.keys.Key, pair.keys.Text
        pair.finish(3)
        line = pair.take_line(Line())
        line.is_broken = True
        pair.wait(KNOWN_LATE)
        for each in (key("F2"), key("Down"), text("\n"), *map(text, typed)):
            editor.take(each)
        expect(editor.menu is not None, f"the menu goes: {editor.message!r}")
        pair.wait(TOLD)
        expect(bool(editor.deferred) == bool(typed), f"{typed!r} behind Enter: {editor.deferred} wait")
        line.is_broken = False
        pair.finish()
        texts = [pair.host.text(tag) for tag in (1, 2)]
        expect(texts == wanted, f"{typed!r} behind Enter leads to {texts}")


def check_enter_of_a_menu_in_a_short_break(folder):
    """Enter on a path, or on a file that is not open, which comes while the line is gone for a moment, acts once it is back."""
    for keys, tag in (((("F2"), "two.txt", "\n"), None), (("F2", "Down", "\n"), 2)):
        pair = Pair(random.Random(1), ("one\n", "two\n"))
        editor, key, text = pair.editor, pair.keys.Key, pair.keys.Text
        pair.finish(3)
        line = pair.take_line(Line())
        line.is_broken = True
        pair.wait(0.2)
        for name in keys:
            editor.take(text(name) if name in ("two.txt", "\n") else key(name))
        expect("the line is back" in editor.message, f"{keys}: it tells {editor.message!r}")
        line.is_broken = False
        pair.finish()
        opened_paths = [note.path for note in pair.ends.notes if note.kind == NoteKind.OPEN]
        expect(opened_paths == ([b"two.txt"] if tag is None else []), f"{keys}: it opens {opened_paths}")
        expect(tag is None or editor.active.tag == tag, f"{keys}: it shows {editor.active.tag}")


def check_old_texts_on_a_lost_line(folder):
    """In the menu of what earlier sessions left a key that needs the host says so, and the menu stays. What is typed behind it waits."""
    pair = Pair(random.Random(1), ("one\n", "old\n"), names=["a.txt", "~~left~~ 1 + 2026-11-30 02:00:00"])
    editor, key, text = pair.editor, pair.keys.Key, pair.keys.Text
    editor.hear(hidden(2))
    pair.finish(3)
    line = pair.take_line(Line())
    line.is_broken = True
    pair.wait(KNOWN_LATE)
    editor.take(key("F9"))
    expect(editor.menu is not None, f"this test is wrong: there is no menu, but {editor.message!r}")
    editor.take(text("\n"))
    expect("only where the host answers" in editor.message, f"it tells {editor.message!r}")
    pair.wait(TOLD)
    expect(editor.menu is not None and not editor.deferred, f"the menu is {editor.menu}, and {editor.deferred} wait")
    for each in (text("\n"), text("x")):
        editor.take(each)
    pair.wait(KNOWN_LATE)
    is_as_before = pair.terminal.runes(1, 0, pair.terminal.len(1)) == "one\n"
    expect(editor.typed_ahead == "\nx" and is_as_before, f"what waits is {editor.typed_ahead!r}")


def check_enter_of_a_menu_on_a_lost_line(folder):
    """Enter in the menu of files, which waits for a write, says that it can't act once the line is known to be lost, wherever keys go; and
    keys act again. Over a short break it opens the path once the write is answered."""
    for goes_to_commands, seconds in ((False, 4), (True, 4), (False, 2), (True, 2)):
        pair, editor, key, text, line = with_line("one\n")
        editor.take(text("x"))
        if goes_to_commands:
            pair.press(key("Esc"))
        for each in (key("^W"), key("F2"), text("two.txt")):
            editor.take(each)
        pair.settle()
        editor.go_on()  # the host has told the names
        editor.take(text("\n"))
        expect(len(editor.deferred) == 1, f"this test is wrong: {editor.deferred}")
        line.is_broken = True
        pair.wait(seconds)
        is_refused = "Enter can't act until the line is back" == editor.message
        expect(is_refused == (seconds > 3) == (not editor.deferred), f"after {seconds} s: {editor.message!r}, {editor.deferred}")
        if is_refused:
            editor.take(key("Esc"))
            expect(editor.menu is None and not editor.deferred, f"Esc waits: {editor.deferred}")
        line.is_broken = False
        pair.finish()
        opened_paths = [note.path for note in pair.ends.notes if note.kind == NoteKind.OPEN]
        expect(opened_paths == ([] if is_refused else [b"two.txt"]), f"after {seconds} s it opens {opened_paths}")
