"""Undo and redo."""
import random
import time

from .pairs import KNOWN_LATE, LONG, Line, Pair, in_a_small_window, opened
from .support import Session, expect, made, wait_for_text


def check_undo_random(folder):
    """Random changes with pastes and command lines, undone to the start and redone to the end, over a link of any delay."""
    for seed in range(8):
        numbers = random.Random(seed)
        text = "".join(numbers.choice("ab c\n日") for _ in range(numbers.choice((0, 40, 400))))
        pair, editor, key, typed = opened(text)
        pair.random = numbers
        lines = (",x/a/c/bb/", "1d", ",x/b/d", "#2,$d", "/a/c/long text/", "$a/end\\n/", ",y/a/d", ",c/" + "ab" * 400 + "/")
        texts = [pair.host.text(1)]
        for _ in range(30):
            choose, draw = numbers.choice, numbers.random()
            if draw < 0.4:
                keys = [typed(choose(("x", "yy", "w\n", "日", "\n")))]
            elif draw < 0.8:
                names = ("Left", "Shift-Right", "Shift-Down", "^X", "^C", "^V", "Backspace", "Delete", "^A", "^End", "Up", "^L", "^D")
                keys = [key(choose(names))]
            else:
                keys = [key("Esc"), typed(choose(lines) + "\n"), key("Esc")]
            for each in keys:
                editor.take(each)
                numbers.choice((pair.carry, pair.settle))()
            if numbers.random() < 0.3:
                pair.finish()
        pair.finish()
        last = pair.host.text(1)
        for name, wanted, message in (("^Z", texts[0], "nothing more"), ("^R", last, "nothing was"), ("^Z", texts[0], "nothing more")):
            for _ in range(300):
                pair.press(key(name))
                if message in editor.message:
                    break
                if "loaded" in editor.message:
                    pair.press(key(name))
            got = pair.host.text(1)
            expect(got == wanted, f"seed {seed}, {name}: {got[:80]!r}, wanted {wanted[:80]!r}, it tells {editor.message!r}")
        pair.check()


def check_undo_steps(folder):
    """What is taken back at once: a word that was typed, characters erased in a row, a command line."""
    pair, editor, key, text = opened("one two\n")
    pair.press(*(text(rune) for rune in "abc"), key("Right"), text("d"), key("Backspace"), key("Backspace"), key("Backspace"))
    pair.press(key("Esc"), text(",x/o/c/0/\n"), key("Esc"))
    got = []
    for name in ("^Z", "^Z", "^Z", "^Z", "^R", "^R", "^R", "^R"):
        got.append(pair.host.text(1))
        pair.press(key(name))
    wanted = ["abne tw0\n", "abne two\n", "abcodne two\n", "abcone two\n", "one two\n", "abcone two\n", "abcodne two\n", "abne two\n"]
    expect(got == wanted, f"the texts are {got}")
    pair.press(key("^Z"), text("y"), key("^R"))
    expect("nothing was taken back" in editor.message, "it makes again what was done before something else")


def check_undo_in_the_command_window(folder):
    """There it takes back what was typed there, and then tells how to take back in the text."""
    pair, editor, key, text = opened("one two\n")
    pair.press(key("Esc"), text(",x/o/c/0/\n"))
    for _ in range(20):
        pair.press(key("^Z"))
        if "nothing more" in editor.message:
            break
    expect("Esc goes to the text" in editor.message, f"it tells {editor.message!r}")
    expect(pair.host.text(1) == "0ne tw0\n", "the text is changed")
    pair.press(key("Esc"), key("^Z"))
    expect(pair.host.text(1) == "one two\n", "the command line is not taken back")


def check_undo_of_a_pattern(folder):
    """What is the pattern of a command line can be brought back, though it is not loaded."""
    pair, editor, key, text = in_a_small_window()
    pair.press(key("Esc"), text(",x/foo/c/barbar/\n"), key("Esc"))
    expect(pair.host.text(1) == LONG.replace("foo", "barbar"), "the line is not run")
    pair.press(key("^Z"))
    expect(pair.host.text(1) == LONG, f"the pattern is not brought back: {editor.message}")
    expect(pair.terminal.first_gap(1) is not None, "this test is wrong")


def check_undo_without_a_line(folder):
    """Where text that is not loaded can't be, since the line is lost, it is told before that goes."""
    for name, wanted in (("x", "x"), ("^X", ""), ("Backspace", "")):
        pair, editor, key, text = in_a_small_window()
        line, last = pair.take_line(Line()), text(name) if name == "x" else key(name)
        line.is_broken = True
        pair.wait(KNOWN_LATE)
        pair.press(key("^A"), last)
        shown = editor.active.read(0, editor.active.length)
        expect(len(shown) == len(LONG) and "can't bring them back" in editor.message, f"{last}: it isn't told: {editor.message}")
        pair.press(last)
        expect(editor.active.read(0, editor.active.length) == wanted, f"{last}: an answer is not taken: {editor.message}")
        pair.press(key("^Z"))
        expect("can't be taken back" in editor.message, f"{last}: it takes back what is not known: {editor.message}")


def check_undo_not_loaded(folder):
    """What goes and is not loaded is loaded before: it is taken back and made again, and what was copied stays so."""
    lines = LONG.splitlines(True)
    for names, wanted in (
        (("^A", "^X"), ""), (("^A", "x"), "x"), (("^A", "Delete"), ""), (("^A", "^V"), "line 0 foo"),
        (("Esc", "81,2500d\n", "Esc"), "".join(lines[:80] + lines[2500:])),
        (("Esc", ",y/e 1/c/long text/\n", "Esc"), "e 1".join(["long text"] * len(LONG.split("e 1")))), (("Esc", ",d\n", "Esc"), ""),
    ):  # fmt: skip
        pair, editor, key, text = in_a_small_window()
        pair.press(key("Shift-End"), key("^C"), key("Home"))
        expect(pair.terminal.first_gap(1) is not None, "this test is wrong: all is loaded")
        pair.press(*(text(name) if name == "x" or "\n" in name else key(name) for name in names))
        expect(pair.host.text(1) == wanted, f"{names}: the text is {pair.host.text(1)[:60]!r}; it tells {editor.message!r}")
        for name, then in (("^Z", LONG), ("^R", wanted), ("^Z", LONG), ("^R", wanted), ("^Z", LONG)):
            pair.press(key(name))
            got = pair.host.text(1)
            expect(got == then, f"{names}, {name}: the text is {got[:60]!r}; it tells {editor.message!r}")
            expect(pair.screen.cursor_of(editor) is not None, f"{names}, {name}: the caret is not on the screen")
        expect(pair.terminal.snarf_len == (len(LONG) if "^X" in names else 10), "what was copied has changed")
        pair.check()


def check_undo_of_a_paste_that_the_host_has(folder):
    """So it is where only the host has what is pasted, as in a session that another terminal began."""
    pair, editor, key, text = in_a_small_window()
    pair.terminal.set_snarf("pasted")
    pair.finish()
    expect(pair.terminal.first_gap(1) is not None and not editor.knows_snarfed, "this test is wrong: all is loaded, or known")
    for name, wanted in (("^A", LONG), ("^V", "pasted"), ("^Z", LONG), ("^R", "pasted")):
        pair.press(key(name))
        got = pair.host.text(1)
        expect(got == wanted, f"{name}: the text is {got[:60]!r}; it tells {editor.message!r}")
    pair.check()


def check_undo_of_all_kinds(folder):
    """Random changes in small windows over long texts, undone to the start and redone to the end."""
    for seed in range(6):
        numbers = random.Random(seed)
        first = "".join(numbers.choice("ab c\n日") for _ in range(4000))
        pair = Pair(numbers, [first])
        editor, key, typed = pair.editor, pair.keys.Key, pair.keys.Text
        editor.arrange(12, 20)
        pair.finish()
        lines = (",x/a/c/bb/", "3,100d", ",x/b /d", "#2,$d", "/a/,/b/c/long text/", "$a/end\\n/", ",y/a/d", "5,9y/b/c/q/")
        lines += (",c/" + "ab" * 400 + "/",)
        names = ("^A", "^A", "^X", "^V", "Backspace", "^End", "^Home", "Page Down", "Shift-Down", "^C")
        for _ in range(25):
            if numbers.random() < 0.4:
                keys = [key("Esc"), typed(numbers.choice(lines) + "\n"), key("Esc")]
            else:
                keys = [numbers.choice((typed("x"), *map(key, names)))]
            for each in keys:
                editor.take(each)
                numbers.choice((pair.carry, pair.settle))()
            if numbers.random() < 0.3:
                pair.finish()
        pair.finish()
        last = pair.host.text(1)
        for name, wanted, message in (("^Z", first, "nothing more"), ("^R", last, "nothing was"), ("^Z", first, "nothing more")):
            for _ in range(300):
                pair.press(key(name))
                if message in editor.message:
                    break
                expect("loaded" not in editor.message, f"seed {seed}, {name}: {editor.message}")
            got = pair.host.text(1)
            expect(got == wanted, f"seed {seed}, {name}: {got[:80]!r}, wanted {wanted[:80]!r}, it tells {editor.message!r}")
        pair.check()


class Noted:
    """An editor in a small window over a long text, and what the host's text was when so many steps could be taken back."""

    LINES = (",x/a/c/bb/", ",x/b/d", ",x/\\n/c/\\n\\n/", ",y/a /c/q/", "3,40d", "#9,#900x/ /a/-/", ",x/c/i/long text/", ",x/a b/d")

    def __init__(self, seed):
        self.random = random.Random(seed)
        text = "".join(self.random.choice("ab c\n日") for _ in range(self.random.choice((300, 4000))))
        self.pair, self.editor, self.key, self.text = opened(text, size=(12, 20))
        self.texts = {0: text}
        self.pair.random = self.random

    @property
    def steps(self):
        return sum(bool(step.changes) for step in self.editor.log.past.get(1, []))

    def change(self):
        """Does something that changes the text, or moves."""
        key, text, choose = self.key, self.text, self.random.choice
        keys = [text(rune) for rune in choose(("x", "yy", "w\n", "日"))]  # a newline is a step of its own
        if self.random.random() < 0.4:
            keys = [key("Esc"), text(choose(self.LINES) + "\n"), key("Esc")]
        elif self.random.random() < 0.6:
            keys = [key(choose(("Backspace", "Delete", "^X", "^V", "^A", "Page Down", "Down", "Shift-Down", "^C", "^End")))]
        for each in keys:
            self.pair.press(each)
            if self.steps:
                self.texts[self.steps] = self.pair.host.text(1)

    def expect_text(self, told):
        got, wanted = self.pair.host.text(1), self.texts[self.steps]
        expect(got == wanted, f"{told}: the text is {got[:80]!r}, wanted {wanted[:80]!r}; it tells {self.editor.message!r}")
        self.pair.check()


def check_runs(folder):
    """Changes that touch are one run, and runs come to the same text as their changes one by one. What is not known stays alone."""
    from terminal.text.texts import GAP, Change, runs

    numbers = random.Random(1)
    for _ in range(2000):
        text = wanted = "".join(numbers.choice("abcd" + GAP) for _ in range(30))
        changes, place = [], 15
        for at in range(numbers.randrange(1, 9)):
            place = min(len(wanted), max(0, place + numbers.choice((-3, -1, 0, 0, 1, 1, 3))))
            gone, came = wanted[place : place + numbers.randrange(3)], numbers.choice(("", str(at), f"{at}x"))
            changes.append(Change(1, place, gone, came))
            wanted = wanted[:place] + came + wanted[place + len(gone) :]
        got = list(runs(changes))
        for run in got:
            text = text[: run.place] + "".join(run.came) + text[run.place + run.gone :]
        expect(text == wanted, f"{changes}: the text is {text!r}, wanted {wanted!r}")
        expect(sum(run.count for run in got) == len(changes), f"{changes}: {[run.count for run in got]} changes")
        expect(all(run.count == 1 or run.is_known for run in got), f"{changes}: what is not known is not alone")
    touching = [Change(1, 5, "ab", ""), Change(1, 5, "", "c"), Change(1, 6, "d", "ef"), Change(1, 4, "g", "")]
    counts = [run.count for run in runs([*touching, Change(1, 9, "h", "")])]
    expect(counts == [4, 1], f"the runs have {counts} changes")


def check_received_changes(folder):
    """Changes that are told together move each place as they do one by one. The caret goes to the end of the one that stands farthest down
    then."""
    from terminal.text.texts import Change, Changes

    numbers, (_, editor, *_) = random.Random(2), opened("")
    for _ in range(500):
        each, length = [], 40
        while len(each) < numbers.randrange(1, 12):
            start = numbers.randrange(length + 1)
            gone, came = "abc"[: numbers.randrange(min(4, length - start + 1))], "xyz"[: numbers.randrange(4)]
            length += len(came) - len(gone)
            each += [Change(1, start, gone, came)] if gone or came else []
        if not each:
            continue
        got = Changes(each)
        for place in range(42):
            wanted = place
            for change in each:
                wanted = change.moved(wanted)
            expect(got.moved(place) == wanted, f"{each} move {place} to {got.moved(place)}, wanted {wanted}")
        end = -1
        for change in each:
            last = change.place + len(change.came)
            end = max(last, end + len(change.came) - len(change.gone)) if end > change.place else last
        editor._before, editor._ends = {}, {}
        at = numbers.randrange(len(each))
        for changes in filter(None, (each[:at], each[at:])):
            editor.hear_run(Changes(changes))
        expect(editor._ends == {1: end}, f"{each}: the caret goes to {editor._ends}, wanted {end}")


def check_steps_beside_the_host(folder):
    """What the host changes while a word is typed joins no step of it: each is taken back as it was made."""
    from terminal.text.texts import Change, Changes

    pair, editor, key, text = opened("one two three\n")
    pair.press(text("a"))
    editor.terminal.edit(1, 9, 14, "")
    editor.texts.hear(Changes([Change(1, 9, "three", "")]))
    pair.press(text("b"))
    expect(pair.host.text(1) == "abone two \n", f"this test is wrong: {pair.host.text(1)!r}")
    for _ in range(3):
        pair.press(key("^Z"))
    expect(pair.host.text(1) == "one two three\n", f"the text is {pair.host.text(1)!r}")


def check_undo_step_by_step(folder):
    """After each step that is taken back or made again the text is what it was, also where it is not loaded."""
    for seed in range(4):
        noted = Noted(seed)
        for at in range(20):
            if noted.random.random() < 0.6:
                noted.change()
                continue
            for name in [noted.random.choice(("^Z", "^R"))] * noted.random.randrange(1, 4):
                steps, is_any = noted.steps, noted.editor.log.last(getattr(noted.editor.log, "past" if name == "^Z" else "future"), 1)
                noted.pair.press(noted.key(name))
                wanted = steps + (0 if is_any is None else 1 if name == "^R" else -1)
                expect(noted.steps == wanted, f"seed {seed}, {at}, {name}: {noted.steps} steps, wanted {wanted}")
                noted.expect_text(f"seed {seed}, {at}, {name}")


def check_undo_without_memory(folder):
    """Where memory is out while a step is taken back or made again, the same key goes on, the other one turns round, and what is typed in
    between is taken back first."""
    from sulgrevad import NoMemory, Status

    for seed in range(4):
        noted = Noted(seed)
        for _ in range(6):
            noted.change()
        numbers, client = noted.random, noted.pair.ends.client
        replace, replace_each = client.replace, client.replace_each

        def short(*words):
            if numbers.random() < 0.3:
                raise NoMemory(Status.NO_MEMORY)
            return replace(*words)

        def short_each(tag, rows):
            draw = numbers.random()
            if draw < 0.1:
                raise NoMemory(Status.NO_MEMORY)
            return replace_each(tag, rows if draw > 0.5 else rows[: numbers.randrange(1, len(rows) + 1)])

        client.replace, client.replace_each = short, short_each
        for at in range(30):
            log, name = noted.editor.log, numbers.choice(("^Z", "^Z", "^R"))
            noted.pair.press(noted.key(name))
            if 1 not in log._halves:
                noted.expect_text(f"seed {seed}, {at}, {name}")
            elif numbers.random() < 0.2:
                noted.texts[noted.steps + 1] = noted.pair.host.text(1)
                noted.pair.press(noted.text("z"))
                noted.texts[noted.steps] = noted.pair.host.text(1)
        del client.replace, client.replace_each
        while noted.steps or 1 in noted.editor.log._halves:
            noted.pair.press(noted.key("^Z"))
            noted.expect_text(f"seed {seed}, at the end")
        expect(noted.pair.host.text(1) == noted.texts[0], f"seed {seed}: it is not all taken back")


def check_undo_that_is_broken_off(folder):
    """Where Python has no memory amid the changes of a step nobody knows which were made. So it is forgotten, and what is shown is what the
    host has."""
    first = "abc\n" * 50
    pair, editor, key, text = opened(first)
    pair.press(key("Esc"), text(",x/a/c/d/\n"), key("Esc"))
    client = pair.ends.client
    replace_each = client.replace_each

    def broken_off(tag, rows):
        replace_each(tag, rows[:7])
        raise MemoryError

    client.replace_each = broken_off
    editor.take(key("^Z"))
    del client.replace_each
    expect("not enough memory" in editor.message, f"it tells {editor.message!r}")
    pair.finish()
    pair.check()
    there = pair.host.text(1)
    expect(there.count("a") == 7, f"this test is wrong: the text is {there!r}")
    for name, told in (("^Z", "nothing more"), ("^R", "nothing was")):
        pair.press(key(name))
        expect(pair.host.text(1) == there and told in editor.message, f"{name}: it tells {editor.message!r}")


def check_many_changes_under_a_lock(folder):
    """A key that changes tens of thousands of places waits while the file is locked; one that changes thousands acts at once."""
    for lines, waits in ((21_000, True), (3_000, False)):
        first = "abc\n" * lines
        pair, editor, key, text = opened(first)
        pair.terminal.load(1, 0, len(first))
        pair.press(key("Esc"), text(",x/a/c/d/\n"), key("Esc"))
        for name, wanted in (("^Z", first), ("^R", first.replace("a", "d")), ("Tab", "\tdbc\n" * lines)):
            if name == "Tab":
                pair.press(key("^A"))
            editor.take(key("^W"))
            expect(pair.terminal.locked(1), "this test is wrong: the file is not locked")
            editor.take(text("\t") if name == "Tab" else key(name))
            expect(bool(editor.deferred) == waits, f"{name} of {lines} lines waits: {bool(editor.deferred)}, {editor.message!r}")
            pair.finish()
            got = pair.host.text(1)
            expect(got == wanted, f"{name} of {lines} lines: the text is {got[:40]!r}")
        pair.check()


def check_undo_of_the_longest_text(folder):
    """A text of the greatest length that isn't loaded goes at once, in a round trip, and comes back."""
    first = "line\n" * 200_000
    for keys, wanted in (("^A", "^X"), ""), (("^A", "x"), "x"):
        pair, editor, key, text = opened(first, size=(20, 80))
        pair.press(*(text(name) if name == "x" else key(name) for name in keys))
        expect(pair.host.text(1) == wanted, f"{keys}: it doesn't go: {editor.message}")
        pair.press(key("^Z"))
        expect(pair.host.text(1) == first, f"{keys}: it doesn't come back: {editor.message}")
        pair.press(key("^R"))
        expect(pair.host.text(1) == wanted, f"{keys}: it doesn't go again: {editor.message}")
        pair.check()


def check_undo_over_a_slow_link(folder):
    """Lines that are not loaded go, and come back."""
    (path,) = made(folder, a=LONG)
    with Session(folder, "a.txt", slow=50) as session:
        session.wait_for("line 14 foo")
        session.command("100,2900d")
        session.wait_for("line 2900 foo")
        session.keys("C-z")
        session.wait_for("line 2895 foo")  # the caret stands behind what came
        session.wait_for_quiet()
        session.keys("C-w")
        wait_for_text(path, LONG)
        session.keys("C-r")
        session.wait_for("line 2900 foo")
        session.keys("C-w")
        lines = LONG.splitlines(True)
        wait_for_text(path, "".join(lines[:99] + lines[2900:]))
        time.sleep(2.5)  # the host saves what has changed
        session.leave()
    left = {entry.name for entry in folder.iterdir()} - {"a.txt", "status", "stderr", ".tmux"}
    expect(not left, f"other files are left: {left}")


def check_undo(folder):
    """Over a slow link: a command line and a word are taken back and made again, and written."""
    (path,) = made(folder, a="one two\nthree two\n")
    with Session(folder, "a.txt", slow=100) as session:
        session.wait_for("three two")
        session.type("Xyz ")
        session.command(",x/two/c/2/")
        session.keys("C-z", "C-z", "C-z")
        session.wait_for("nothing more")
        session.keys("C-r")
        session.wait_for("Xyz one two")
        session.keys("C-w")
        wait_for_text(path, "Xyz one two\nthree two\n")
        session.leave()
