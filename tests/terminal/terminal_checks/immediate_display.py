"""What a user need not wait for: keys in a file that is being loaded, and what the bottom lines say."""
import random
import re
import shutil
import struct
import subprocess
from pathlib import Path

from checks import Failed, Skipped, expect_equal, times_longer

from .key_times import LINE, LINES, PACE, ROW, WORDS, after_the_start, of_words, until_all_is_loaded
from .pairs import LONG, Ends, Line, Pair, loads_of, opened
from .stalled_line import RUNES, OnTerminal, share_of
from .support import expect

TEXTS = (
    "".join(f"line {at} {'x' * (at * 37 % 150)}\n" for at in range(900)),
    "".join(f"{' ' * (at % 5)}{chr(9) * (at % 3)}word {at}\r\n" for at in range(900)),
    "日本語 é\n" * 700 + "end",
)
KEYS = ("x", "yz", "\n", "\n", "\n\n", "a\nb", "日", "e\u0301", "\t", "Backspace", "Backspace", "Backspace")
OTHERS = ("Left", "^Z", "Down", "Home")
A_SLICE = 10_000  # bytes of the host at once that are those of a slice


class LinkEnds(Ends):
    """The same, whose bytes are those of the link itself, with all that the two ends say of it."""

    def __init__(self):
        super().__init__()
        self.answers = []  # when the host said something, and how many bytes

    def sent(self):
        return b"".join(iter(lambda: self.client.take_out(self.attempt), b""))

    def bring(self, data):
        self.client.receive(self.attempt, data, int(self.pair.now * 1000))

    def served(self, data):
        """What the host says to bytes of the terminal."""
        self.link.feed(self.attempt, data)
        while (came := self.link.take_in()) or self._takes_note():
            self.pair.host.feed(came)
        if data := self.pair.host.take_out():
            self.answers.append((self.pair.now, len(data)))
            self.link.put(data)
        return b"".join(iter(lambda: self.link.take_out(self.attempt), b""))


def slow(*texts, size=(20, 80), speed=1_000_000, each_way=0.3, seed=1):
    """A pair in a session that stays, over a line that carries so many bytes a second, so many seconds each way, by a clock of its own."""
    ends = LinkEnds()
    pair = Pair(random.Random(seed), texts, ends=ends)
    ends.pair = pair
    pair.editor.arrange(*size)
    line = pair.take_line(Line())
    pair.speed, pair.each_way, pair.coming, pair.free_at = speed, each_way, [], 0.0
    return pair


def run_until(pair, when):
    """The clock goes on to a time; bytes take their time on the line each way."""
    while True:
        pair.pause()
        if pair.up:
            pair.coming.append((pair.now + pair.each_way, "up", bytes(pair.up)))
            pair.up.clear()
        wakes = pair.wakes_in()
        due = [at for at, _, _ in pair.coming] + ([pair.now + max(wakes, 0.001)] if wakes is not None else [])
        if not due or min(due) > when:
            pair.now = max(pair.now, when)
            pair.pause()
            return
        pair.now = max(pair.now, min(due))
        for item in [item for item in pair.coming if item[0] <= pair.now]:
            pair.coming.remove(item)
            if item[1] == "up":
                data = pair.ends.served(item[2])
                for start in range(0, len(data), 16_384):
                    piece = data[start : start + 16_384]
                    pair.free_at = max(pair.free_at, pair.now) + len(piece) / pair.speed
                    pair.coming.append((pair.free_at + pair.each_way, "down", piece))
            else:
                pair.feed(item[2])


def shown(pair, *windows):
    """The rows of these windows, or of all, and the cursor."""
    editor = pair.editor
    rows = {}
    for window in windows or editor.windows:
        rows.update(pair.screen.drawn_of(editor, window).frame)
    return rows, pair.screen.cursor_of(editor)


def until_text(pair):
    """The clock goes on until the first text shows."""
    while not pair.editor.active.is_open or pair.editor.active.read(0, 1) in ("", pair.gap):
        run_until(pair, pair.now + 0.01)
        expect(pair.now < 20, "no text comes")


def check_command_file_opens_at_rest(folder):
    """The command file isn't opened while the first text shows, so the first key acts at once; it is after two seconds of rest, and at
    the first key that needs it: a command line runs all the same."""
    for name, wanted in ((None, 2.0), ("Esc", 0.0), ("^P", 0.0)):
        pair = slow("one\ntwo\n")
        until_text(pair)
        start, editor = pair.now, pair.editor
        editor.take(pair.keys.Text("x"))
        expect(not editor.deferred and list(pair.terminal.runes(1, 0, 1)) == ["x"], "the first key waits")
        if name is None:
            run_until(pair, start + wanted - 0.1)
            expect(not pair.terminal.command_locked and not editor.command.is_open, "the command file is opened before")
            run_until(pair, start + wanted + 0.7)
        else:
            editor.take(pair.keys.Key(name))
            run_until(pair, start + 0.7)
            expect(editor.command.is_open, f"{name} doesn't open the command file")
            editor.take(pair.keys.Text("2d\n"))
            run_until(pair, start + 4)
            expect_equal(pair.host.text(1), "xone\n")
        expect(editor.command.is_open, f"the command file is not open after {name or 'a rest'}")


def check_find_without_the_command_file(folder):
    """Enter has the host look for what was sought, also where the command file isn't open yet."""
    pair = slow("one\ntwo\n")
    until_text(pair)
    for key in (pair.keys.Key("^S"), pair.keys.Text("two"), pair.keys.Text("\n")):
        pair.editor.take(key)
    run_until(pair, pair.now + 3)
    expect_equal((pair.terminal.dot(1), pair.terminal.pattern), ((4, 7), "two"))


def check_whole_file_at_rest(folder):
    """Over a line of 1 MB/s, 300 ms each way, a text of 852,000 characters is there within three seconds of the first one; no slice takes
    the line much longer than a second, also where it is slower, and none begins within two seconds of a key."""
    text = "".join(f"{at:05} the quick brown fox jumps over the lazy dog and runs away from it\n" for at in range(12_000))
    for speed, most in ((1_000_000, 3.0), (100_000, 20.0)):
        pair = slow(text, speed=speed)
        until_text(pair)
        start = pair.now
        while pair.terminal.first_gap(1) is not None:
            run_until(pair, pair.now + 0.05)
            expect(pair.now - start <= most, f"at {speed} bytes a second it takes more than {most} s: {pair.ends.answers}")
        longest = max(count for _, count in pair.ends.answers) / speed
        expect(longest < 1.3, f"at {speed} bytes a second a slice takes {longest} s: {pair.ends.answers}")
    pair = slow(text, speed=200_000)
    until_text(pair)
    run_until(pair, pair.now + 3)
    pair.editor.take(pair.keys.Key("Down"))
    pressed = pair.now
    run_until(pair, pressed + 8)
    begun = [when - pair.each_way for when, count in pair.ends.answers if count > A_SLICE and when - pair.each_way > pressed]
    expect(min(begun) > pressed + 1.9, f"a slice begins right after a key, at {pressed}: {begun}")
    expect(len(begun) > 1, f"it loads no more: {begun}")


def check_words_meet_no_lock(folder):
    """Of one who types words from the first text on, eight keys a second, no key waits and none meets a lock, however slow the line is:
    nothing is asked for meanwhile."""
    text = "".join(map(LINE.format, range(LINES)))
    for each_way in (0.0, 0.05, 0.3):
        pair = slow(text, speed=1_000_000, each_way=each_way, size=(30, 100))
        until_text(pair)
        start, typed, loads = pair.now, "", loads_of(pair)
        for number in range(WORDS):
            run_until(pair, start + number * PACE)
            typed += "\n" if number % ROW == ROW - 1 else "x"
            expect(not pair.editor.is_lock_held, f"{each_way} s each way: key {number} meets a lock; it asks by {loads}")
            pair.editor.take(pair.keys.Text(typed[-1]))
            expect(not pair.editor.deferred, f"{each_way} s each way: key {number} waits")
            expect_equal(pair.editor.active.read(0, len(typed)), typed)
        run_until(pair, pair.now + 2)
        expect(pair.host.text(1).startswith(typed + LINE.format(0)), f"{each_way} s each way: the host has {pair.host.text(1)[:120]!r}")


def waits_for_a_load(pair, numbers):
    """The first page is there, or what some keys lead to; and a load is under way, or the command file is opened."""
    until_text(pair)
    if numbers.random() < 0.6:
        for name in numbers.choice((["Down"] * 4, ["End", "Down"], ["^End"], ["Page Down", "Down"])):
            pair.editor.take(pair.keys.Key(name))
        run_until(pair, pair.now + numbers.choice((1.0, 3.0, 6.0)))
    for _ in range(400):
        if not pair.editor.deferred and pair.terminal.file(1).is_locked:
            return
        run_until(pair, pair.now + 0.02)


def waits_for_a_text(pair):
    """All of the first text is loaded."""
    until_text(pair)
    while pair.editor.active.read(0, pair.editor.active.length).count(pair.gap) and pair.now < 60:
        run_until(pair, pair.now + 1)


def until_rest(pair):
    """No key waits, and no lock is held."""
    for _ in range(200):
        run_until(pair, pair.now + 0.1)
        if not pair.editor.deferred and not pair.editor.is_lock_held:
            return
    raise Failed("this test is wrong: keys wait though nothing is asked for")


def waits_for_a_write(pair, numbers):
    """Something is typed into a text that is loaded, and written; the answer is under way."""
    waits_for_a_text(pair)
    for name in numbers.choice(([], ["Down", "Right"], ["^End"], ["Page Down", "Up"])):
        pair.editor.take(pair.keys.Key(name))
    pair.editor.take(pair.keys.Text(numbers.choice(("x", "\n", "日本"))))
    until_rest(pair)
    pair.editor.take(pair.keys.Key("^W"))
    run_until(pair, pair.now + numbers.choice((0.0, 0.1, 0.25)))


def waits_for_a_line(pair, numbers):
    """A command line works on the second text, and its answer is under way. Keys go to the first, which is shown and loaded."""
    waits_for_a_text(pair)
    pair.editor.show(2, replaces=False)
    for key in (pair.keys.Key("Esc"), pair.keys.Key("^End"), pair.keys.Text(numbers.choice((",d\n", ",x/e/c/bb/\n")))):
        until_rest(pair)
        pair.editor.take(key)
    pair.editor.update()
    pair.editor.go_to(pair.editor.window_of(1))
    run_until(pair, pair.now + numbers.choice((0.0, 0.1, 0.25)))


def are_shown_at_once(pair, numbers, seed):
    """Whether a lock is held; if so, keys that come now are shown at once, and the host has then what is shown."""
    editor, window = pair.editor, pair.editor.active
    if editor.deferred or not pair.terminal.file(1).is_locked:
        return False
    for at in range(numbers.randrange(1, 12)):
        name, (start, end), before = numbers.choice(KEYS), window.dot, window.read(0, window.length)
        editor.take(pair.keys.Key(name) if name == "Backspace" else pair.keys.Text(name))
        if editor.deferred and name in ("\n", "\n\n", "a\nb", "Backspace"):
            break  # what it goes by is not loaded
        expect(not editor.deferred, f"seed {seed}: {name!r} waits")
        if name in ("x", "yz", "日"):
            expect_equal(window.read(0, window.length), before[:start] + name + before[end:])
    expect(pair.terminal.file(1).is_locked, f"seed {seed}: this test is wrong: the lock is gone")
    editor.update()
    before, text = shown(pair, window), window.read(0, window.length)
    is_done = not editor.deferred
    until_rest(pair)
    run_until(pair, pair.now + 2)
    expect(not editor.is_lost, editor.message)
    after, now, there = shown(pair, window), window.read(0, window.length), pair.host.text(1)
    expect(len(now) == len(there) and all(one in (other, pair.gap) for one, other in zip(now, there)), f"seed {seed}: the host has another")
    if is_done:
        differ = [at for at, (one, other) in enumerate(zip(text, there)) if one not in (other, pair.gap)]
        expect(len(text) == len(there) and not differ, f"seed {seed}: at {differ[:3]} the host has another text than was shown")
        if "░" not in str(before[0]):  # what is missing may move the window as it comes
            expect(before[1] == after[1], f"seed {seed}: the cursor stood at {before[1]}, and then at {after[1]}")
    return True


def shown_at_once(waits, speed, *others):
    """How often of 30 times keys are typed while a file is locked. They are shown at once, and the host has them later."""
    seen = 0
    for seed in range(30):
        numbers = random.Random(seed)
        pair = slow(numbers.choice(TEXTS), *others, speed=speed, seed=seed, size=numbers.choice(((12, 40), (22, 80), (40, 120))))
        waits(pair, numbers)
        seen += are_shown_at_once(pair, numbers, seed)
    return seen


def check_keys_under_loads(folder):
    """Typing, Backspace and Enter show at once while the file is loaded or the command file is opened."""
    seen = shown_at_once(waits_for_a_load, speed=20_000)
    expect(seen >= 10, f"this test is wrong: a lock was held {seen} times")


def check_keys_under_writes(folder):
    """They show at once, too, while the answer to a write is under way."""
    seen = shown_at_once(waits_for_a_write, speed=1_000_000)
    expect(seen >= 25, f"this test is wrong: a lock was held {seen} times of 30")


def check_keys_under_lines(folder):
    """And so they do while a command line works on another file."""
    seen = shown_at_once(waits_for_a_line, 1_000_000, "another text\n")
    expect(seen >= 25, f"this test is wrong: a lock was held {seen} times of 30")


def check_other_keys_under_loads(folder):
    """Keys that move act at once, too, while a file is loaded or written; behind a search on the file, and behind a command line on it, all
    keys wait for what that selects."""
    pair = slow(LONG, speed=20_000)
    until_text(pair)
    editor = pair.editor
    while not pair.terminal.file(1).is_locked:
        run_until(pair, pair.now + 0.02)
    for name in ("q", "Left", "r"):
        editor.take(pair.keys.Key(name) if len(name) > 1 else pair.keys.Text(name))
    expect_equal((editor.active.read(0, 6), len(editor.deferred)), ("rqline", 0))
    run_until(pair, pair.now + 5)
    expect_equal(pair.host.text(1)[:6], "rqline")
    editor.take(pair.keys.Key("^W"))
    editor.take(pair.keys.Text("s"))
    expect(pair.terminal.locked(1) and not editor.deferred, "a key waits while the file is written")
    pair, editor, key, text = opened(LONG, size=(20, 80))
    for before, after in (([key("Shift-End"), key("^L")], ""), ([key("Esc"), key("^End"), text("2\n"), key("Esc")], "line 1 foo")):
        for each in before:
            editor.take(each)
            pair.settle()
        editor.take(text("s"))
        expect(len(editor.deferred) >= 1, f"a key acts before {before[-1]} has selected")
        pair.finish()


def check_a_paste_that_is_asked_for(folder):
    """What another put into the snarf buffer is asked for; what is typed meanwhile shows at once, and stands behind it."""
    pair, editor, key, text = opened("one\n", size=(20, 80))
    pair.terminal.set_snarf("pasted")
    pair.finish()
    editor.take(key("End"))
    editor.take(key("^V"))
    pair.settle()
    for each in (text("s"), text("t")):
        editor.take(each)
        expect(not editor.deferred, f"{each} waits")
    expect_equal(editor.active.read(0, 6), "onest\n")
    editor.take(key("Backspace"))
    expect(len(editor.deferred) == 1, "Backspace acts before the text has come")
    pair.finish()
    expect_equal(pair.host.text(1), "onepasteds\n")
    pair.press(key("^Z"), key("^Z"), key("^Z"))
    expect_equal(pair.host.text(1), "one\n")


def check_keys_while_names_come(folder):
    """While the host tells names, as where another program opens a file, typed keys act; where it makes a file they wait."""
    for ask, wanted in (("offer_version", (2,)), ("new_file", ())):
        pair, editor, key, text = opened(LONG, size=(20, 80))
        getattr(pair.terminal, ask)(*wanted)
        if ask == "new_file":
            editor.await_file()
        editor.take(text("s"))
        expect((not editor.deferred) == (ask == "offer_version"), f"{ask}: {editor.deferred} waits")
        pair.finish()
        tag = 1 if ask == "offer_version" else 2
        expect(pair.host.text(tag).startswith("s"), f"{ask}: the text is {pair.host.text(tag)[:20]!r}")


def check_keys_of_a_start(folder):
    """The keys of one who types from the first text on show at once, over a slow line, while the file is loaded."""
    most = 0.02 * times_longer()
    found = of_words(folder, 100)
    expect(share_of(found, 50) < most, f"half of the keys take {share_of(found, 50) * 1000:.0f} ms and more")
    late = [seconds for seconds in found if seconds > max(0.1, 4 * most)]
    expect(len(late) <= 2, f"{len(late)} of {len(found)} keys take {[round(seconds * 1000) for seconds in late]} ms")
    found = after_the_start(folder, 100)
    late = {pause: seconds for pause, seconds in found.items() if seconds > max(0.1, 4 * most)}
    expect(len(late) <= 1, f"keys after so many seconds take {late} s")


def check_loaded_over_a_line(folder):
    """A text of 852,000 characters is loaded whole soon after it shows; the status line says so by the number of its lines."""
    took = until_all_is_loaded(folder, "50 2000000")
    expect(took < 3 * times_longer(), f"it takes {took:.1f} s")


COUNTING = Path(__file__).with_name("call_counter.py")
KEYS_COUNTED = 20
MOST_SYSTEM_CALLS, MOST_LIBRARY_CALLS = 12, 15  # for a key


def typed_apart(session):
    """Types some keys, each once all is quiet."""
    for rune in RUNES[:KEYS_COUNTED]:
        session.type(rune)
        session.read_until(rune)
        session.rest(0.3)


def in_a_line(folder, **more):
    (folder / "a.txt").write_text("".join(f"line {number}\n" for number in range(1, 400)))
    return OnTerminal(folder, "a.txt", **more)


def check_library_calls_of_a_key(folder):
    """A typed key takes few calls of the library, until it is drawn, sent and known to have arrived; the first one asks once more what has
    changed."""
    count = folder / "count"
    with in_a_line(folder, program=(COUNTING, count)) as session:
        session.read_until("line 1")
        session.rest(4.0)
        session.type("a")
        session.read_until("a")
        session.rest(0.5)
        before = struct.unpack("Q", count.read_bytes())[0]
        typed_apart(session)
        calls = (struct.unpack("Q", count.read_bytes())[0] - before) / KEYS_COUNTED
    expect(0 < calls <= MOST_LIBRARY_CALLS, f"a key takes {calls} calls of the library")


def check_system_calls_of_a_key(folder):
    """The same of system calls."""
    if shutil.which("strace") is None:
        raise Skipped("no strace")
    trace = folder / "trace"
    with in_a_line(folder) as session:
        session.read_until("line 1")
        session.rest(4.0)
        tracer = subprocess.Popen(["strace", "-o", trace, "-p", str(session.process.pid)], stderr=subprocess.PIPE)
        try:
            if b"attached" not in tracer.stderr.readline():
                raise Skipped("strace may not look at a process")
            session.type("a")
            session.read_until("a")
            session.rest(0.5)
            before = len(trace.read_text().splitlines())
            typed_apart(session)
            lines = trace.read_text().splitlines()[before:]
        finally:
            tracer.terminate()
            tracer.wait()
            tracer.stderr.close()
    calls = [line.partition("(")[0] for line in lines]
    kinds = {call: calls.count(call) / KEYS_COUNTED for call in calls}
    expect(len(calls) <= MOST_SYSTEM_CALLS * KEYS_COUNTED, f"a key takes {len(calls) / KEYS_COUNTED} system calls: {kinds}")


def check_pauses_until_a_line_is_tried_again(folder):
    """A line that breaks is tried at once, then after 1, 2, 4 seconds and so on."""
    from terminal.line import persistent_session

    now, pauses = [100.0], []
    session = persistent_session.PersistentSession(["sleep", "100"], lambda name: [], clock=lambda: now[0])
    try:
        for _ in range(8):
            session._break()
            pauses.append(session.delay())
            now[0] += session.delay()
            session.connect()
        expect_equal(pauses, [0, 1, 2, 4, 8, 16, 30, 30])
    finally:
        session.ends, session.relay = False, session.relay and session.relay.kill()


# ---- What the bottom lines say


class Counted(Line):
    waiting, up, down = b"", 0, 0


def check_status_line_says(folder):
    """It says the file, whether it was changed, and the line of how many, wherever that is in a loaded text; with details also selection,
    locks and bytes."""
    lines = 60_000
    pair, editor, key, text = opened("a line of text\n" * lines, "b", size=(20, 80))
    editor.go_to(editor.files[0])
    while (gap := pair.terminal.first_gap(1)) is not None:
        pair.terminal.load(1, gap, min(400_000, pair.terminal.len(1) - gap))
        pair.finish()
    say = lambda: pair.screen.status(editor, Counted())  # noqa: E731
    expect_equal(say(), f"file0 | line 1 of {lines}")
    pair.press(key("^End"), key("Up"), text("x\n"))
    expect_equal(say(), f"file0 * | line {lines + 1} of {lines + 1}")
    pair.press(key("^Home"), key("Down"))
    expect_equal(say(), f"file0 * | line 2 of {lines + 1}")
    pair.press(key("F11"))
    expect(re.fullmatch(r"file0 \* \| \d+,\d+ of \d+, line 2 \| free", say()), f"with details it says {say()!r}")
    pair.press(key("F11"), key("^P"))
    expect_equal(say(), "file1 | line 1 of 1")


def check_number_of_lines(folder):
    """However a text changes, its number of lines is that of its newlines, and one more where it ends in none."""
    numbers = random.Random(3)
    pair, editor, key, text = opened("a\nb\nc", size=(20, 80))
    keys = [text("x"), text("\n"), *map(key, ("Backspace", "^Home", "^End", "^Z", "^R", "Up"))]
    for _ in range(200):
        pair.editor.take(numbers.choice(keys))
        pair.finish(0.1)
        window = editor.active
        whole = window.read(0, window.length)
        wanted = whole.count("\n") + (not whole.endswith("\n"))
        expect_equal(editor.numbers.count(1, window.length), wanted)


def check_one_line_for_a_key(folder):
    """A key that is typed in a line leaves the status line as it is."""
    pair, editor, _, text = opened("some text\n", size=(20, 80))
    pair.press(text("x"))
    before = pair.screen.status(editor, Counted())
    editor.take(text("y"))
    expect_equal(pair.screen.status(editor, Counted()), before)
    pair.trip()
    expect_equal(pair.screen.status(editor, Counted()), before)


def check_help_fits(folder):
    """The help fits a screen of 80 columns."""
    from terminal.keys.bindings import KEY_SETS

    long = [line for key_set in KEY_SETS.values() for line in key_set.table() if len(line) > 78]
    expect(not long, f"too long: {long}")


def check_find_says_what_it_does(folder):
    """`^S` shows its prompt at once; it goes on from the other end of a loaded text, and says so; and `^F`, `^L` say what they lack."""
    pair, editor, key, text = opened("one two\nthree two\nend\n", size=(20, 80))
    pair.press(key("^F"))
    expect("nothing was searched yet" in editor.message, f"^F says {editor.message!r}")
    pair.press(key("^L"))
    expect("nothing is selected" in editor.message, f"^L says {editor.message!r}")
    editor.take(key("^S"))
    expect_equal(editor.message, "find: ")
    down, up = key("Down"), key("Up")
    first, second = (4, 7), (14, 17)
    for each, dot, words in ((text("two"), first, ""), (down, second, ""), (down, first, "from the top"), (up, second, "from the end")):
        editor.take(each)
        says = words in editor.message and ("from" in editor.message) == (words != "")
        expect(editor.active.dot == dot and says, f"{editor.active.dot}, {editor.message!r}")
    editor.take(text("zz"))
    expect("nowhere" in editor.message and "loaded" not in editor.message, f"of a loaded text it says {editor.message!r}")
    pair.press(key("Esc"), key("^End"), key("^S"), text("one"))
    expect(editor.active.dot == (0, 3) and "from the top on" in editor.message, f"{editor.active.dot}, {editor.message!r}")


def check_find_in_a_text_with_gaps(folder):
    """Where text below isn't loaded it doesn't go on from the top: a place might stand there."""
    pair, editor, key, text = opened(LONG, size=(20, 80))
    pair.press(key("Down"), key("Down"), key("^S"), text("line 0"))
    expect("not in what is loaded" in editor.message, f"it says {editor.message!r}")


HELPED = (
    ("w", r"\^W writes"), ("s/a/b/", ",x/a/c/b/"), ("%s/a.b/c/g", r",x/a\\.b/c/c/"), ("/[/", "plain text"), ("zzz", ",x/old/c/new/"),
    ("/zz/", "nowhere"), ("99", "no such line"), (",x/a/c/\\q/", "after"), ("q!", "q leaves"), ("  w  ", r"\^W writes"),
)  # fmt: skip


def check_errors_help(folder):
    """The bottom line says what helps where a command line didn't run; nothing is said of one that did."""
    pair, editor, key, text = opened("a b\n", size=(20, 80))
    for line, words in HELPED:
        pair.press(key("Esc"), key("^End"), text(line), text("\n"), seconds=0.1)
        expect(re.search(words, editor.message), f"{line!r}: it says {editor.message!r}")
        pair.press(key("Esc"), seconds=0.1)
    for line in (",p", "1", ",x/b/c/c/"):
        pair.press(key("Esc"), key("^End"), text(line), text("\n"), seconds=0.1)
        expect("?" not in editor.message, f"{line!r}: it says {editor.message!r}")
        pair.press(key("Esc"), seconds=0.1)


# ---- Lines that are too long for the host


def loaded(*texts):
    """A pair with all of its texts loaded."""
    pair, editor, key, text = opened(*texts, size=(20, 80))
    while (gap := pair.terminal.first_gap(1)) is not None:
        pair.terminal.load(1, gap, min(900_000, pair.terminal.len(1) - gap))
        pair.trip()
    pair.finish()
    return pair, editor, key, text


def run_line(pair, line):
    """Runs a command line, and goes back. Answers what the bottom line says of it."""
    pair.press(pair.keys.Key("Esc"), pair.keys.Key("^End"), pair.keys.Text(line), seconds=0.1)
    pair.editor.take(pair.keys.Text("\n"))
    for _ in range(200):
        pair.trip()
        if not pair.editor.is_lock_held:
            break
    told = pair.editor.message
    pair.press(pair.keys.Key("Esc"), seconds=0.1)
    return told


def check_long_lines(folder):
    """A line that changes each place of a pattern runs in parts where it is too long for one: the text is what Python makes of it, the
    caret stands after the last change, one `^Z` takes all back, and `^R` makes it again."""
    cases = (
        ("the quick fox\n" * 60_000, ",x/quick/c/slow/", "quick", "slow"), ("aaaaa" * 180_000, ",x/aa/c/b/", "aa", "b"),
        ("aba" * 300_000, ",x/aba/c/ab", "aba", "ab"), ("x..y\n" * 180_000, r" , x /\.\./c/\// ", "..", "/"),
        ("a\n\n" * 300_000, r",x/\n\n/c/\n/", "\n\n", "\n"), ("日本語" * 260_000, ",x/本語/c/語/", "本語", "語"),
    )  # fmt: skip
    for before, line, pattern, came in cases:
        pair, editor, key, _ = loaded(before)
        told, after = run_line(pair, line), before.replace(pattern, came)
        expect(pair.host.text(1) == after, f"{line}: the text is another: {told!r}")
        expect("parts" in told, f"this test is wrong: {line} was not too long: {told!r}")
        place = after.rfind(came) + len(came)
        expect_equal(editor.active.dot, (place, place))
        pair.press(key("^Z"))
        expect(pair.host.text(1) == before, f"{line}: ^Z doesn't take all of it back")
        pair.press(key("^R"))
        expect(pair.host.text(1) == after, f"{line}: ^R doesn't make all of it again")


def check_long_lines_of_a_selection(folder):
    """A line without an address changes what is selected, and no more; keys that come meanwhile act after it."""
    before = "the quick fox\n" * 64_000
    pair, editor, key, text = loaded(before)
    pair.terminal.select(1, 7, 890_007)
    pair.finish()
    pair.press(key("Esc"), key("^End"), text("x/quick/c/slow/"), seconds=0.1)
    for each in (text("\n"), key("Esc"), text("!")):
        editor.take(each)
    for _ in range(100):
        pair.trip()
    middle = before[7:890_007].replace("quick", "slow")
    after = before[:7] + middle + before[890_007:]
    place = 7 + middle.rfind("slow") + 4
    expect(pair.host.text(1) == after[:place] + "!" + after[place:], f"the text is another: {editor.message!r}")


def check_long_lines_that_stay_refused(folder):
    """What would not fit, has gaps, or is of another form stays refused, with a word; and nothing changes."""
    before = "ab\n" * 300_000
    for line, words in ((",x/ab/c/abcdef/", "more than 1,000,000"), (",x/ab/x/a/c/b/", "select a part"), ("1,$x/ab/c/a/", "select a part")):
        pair, editor, key, _ = loaded(before)
        told = run_line(pair, line)
        expect(pair.host.text(1) == before and words in told, f"{line}: it says {told!r}")
    pair, editor, key, text = opened(before, size=(20, 80))
    told = run_line(pair, ",x/ab/c/a/")
    expect(pair.host.text(1) == before and "loaded" in told, f"of a text that is not loaded it says {told!r}")


def check_parts_of_random_lines(folder):
    """The parts of a line do, one after the other, what the whole line does, whatever overlaps where one part ends."""
    from terminal.keys import long_lines

    numbers, most = random.Random(7), long_lines.MOST_RUNES
    long_lines.MOST_RUNES = 60
    try:
        for _ in range(3000):
            text = "".join(numbers.choice("ab") for _ in range(numbers.randrange(1, 60)))
            pattern = "".join(numbers.choice("ab") for _ in range(numbers.randrange(1, 4)))
            came = "".join(numbers.choice("abc") for _ in range(numbers.randrange(0, 4)))
            start, end = sorted(numbers.randrange(len(text) + 1) for _ in range(2))
            address = numbers.choice((",", "", "."))
            low, high = (0, len(text)) if address == "," else (start, end)
            wanted = text[:low] + text[low:high].replace(pattern, came) + text[high:]
            parts = long_lines.parts_of(f"{address}x/{pattern}/c/{came}/", len(text), (start, end), lambda at, count: text[at : at + count])
            if parts.why_not:
                expect(not parts.lines, "it says why not, and runs")
                continue
            got = text
            for part in parts.lines:
                first, last, sought, put = re.fullmatch(r"#(\d+),#(\d+)x/(.*)/c/(.*)/", part).groups()
                first, last = int(first), int(last)
                puts = len(got) + got[first:last].count(sought) * len(put)
                expect(puts <= 60, f"{part} is too long itself")
                got = got[:first] + got[first:last].replace(sought, put) + got[last:]
            expect(got == wanted, f"{address}x/{pattern}/c/{came}/ on {text}, {start, end}: {got}, wanted {wanted}")
    finally:
        long_lines.MOST_RUNES = most
