"""What a slow line costs: round trips, Loads and layouts."""
import random
import re
import time
from types import SimpleNamespace

from checks import expect_cheap, seconds_of

from .pairs import Line, Pair, is_loaded_beside, loads_of, opened
from .redraw import Paper, screen_on
from .support import Session, expect, made, wait_until

MOST_AT_REST = 10  # seconds in which a text of 600 KB is loaded at rest over no delay: a loader that isn't woken takes half a minute


def check_pages_wait(folder):
    """The page keys and jumps go by what is shown: they lead to the same place however fast the link is. So they do in a window that
    grows, where what comes in is not asked for while the user types."""
    lines = "".join(f"line {at} {'x' * (at * 37 % 150)}\n" for at in range(2000))
    names = ("Page Down", "Page Down", "Page Up", "Page Up", "^End", "^Home", "Up", "Down", "End", "typed", "typed", "grown", "grown")
    for seed in range(8):
        numbers, ends = random.Random(seed), []
        typed = [numbers.choice(names) for _ in range(30)]
        for is_slow in (False, True):
            pair, editor, key, text = opened(lines, size=(20, 80))
            for name in typed:
                if name == "grown":  # no key: it doesn't wait
                    pair.finish()
                    editor.arrange(120 - editor.rows, 80)
                else:
                    editor.take(text("x") if name == "typed" else key(name))
                pair.settle() if is_slow else pair.finish()
            pair.finish()
            ends.append((editor.focus.top, editor.focus.dot))
        expect(ends[0] == ends[1], f"seed {seed}: the windows begin at, and the dots are {ends}; {typed}")
    tops = []
    for is_slow in (False, True):  # while the user types, what a larger window shows is not asked for, until a page key needs it
        pair, editor, key, text = opened(lines, size=(20, 80))
        editor.arrange(120, 80)
        for typed in (text("x"), key("Page Down")):
            editor.take(typed)
            pair.settle() if is_slow else pair.finish()
        pair.finish()
        tops.append(editor.focus.top)
    expect(tops[0] == tops[1], f"a page key after a typed one leads to {tops}")


def check_page_keys_that_wait(folder):
    """Of page keys that come quickly, as of one that is held down, those that wait are answered together."""
    lines = "".join(f"line {at} {'x' * (at * 37 % 60)}\n" for at in range(5000))
    for start, name in (("^Home", "Page Down"), ("^End", "Page Up")):
        tops = []
        for is_slow in (False, True):
            pair, editor, key, _ = opened(lines, size=(30, 80))
            pair.press(key(start))
            for _ in range(30):
                editor.take(key(name))
                pair.settle() if is_slow else pair.finish()
            trips = 0
            while editor.deferred or pair.terminal.locked(1):
                pair.trip()
                trips += 1
            expect(trips <= 5, f"30 times {name} take {trips} round trips")
            tops.append(editor.focus.top)
        expect(tops[0] == tops[1], f"30 times {name} lead to {tops}")


def check_wheel(folder):
    """The wheel turns by as many rows where it is turned before the text has come."""
    lines = "".join(f"line {at} {'x' * (at * 37 % 150)}\n" for at in range(2000))
    tops = []
    for is_slow in (False, True):
        pair, editor, key, text = opened(lines, size=(30, 80))
        pair.press(key("^End"))
        for at in range(60):
            editor.take(pair.keys.Mouse("wheel down" if at % 7 == 6 else "wheel up", editor.focus.y + 1, 0, 0.0))
            pair.settle() if is_slow else pair.finish()
        pair.finish()
        tops.append(editor.focus.top)
    expect(tops[0] == tops[1] < len(lines) - 5000, f"the window begins at {tops}")


def check_long_line(folder):
    """A place in a line that is much longer than the screen is shown."""
    pair, editor, key, text = opened("x" * 100_000 + "\nend", size=(30, 80))
    for keys in ((key("Esc"), text("#50000\n"), key("Esc")), *((key(name),) for name in ("^End", "Up", "^Home", "End"))):
        pair.press(*keys)
        expect(not any(row.has_gap for row in editor.focus.layout().rows), f"{keys}: a gap stays on the screen")
        window = editor.focus
        expect(pair.screen.cursor_of(editor) is not None, f"{keys}: the caret at {window.dot} is not on the screen from {window.top}")


def check_one_trip(folder):
    """A jump, Page Down and Page Up over text that is not loaded show all of it after one round trip, without long lines."""
    lines = "".join(f"line {at} {'x' * (at * 37 % 60)}\n" for at in range(5000))
    pair, editor, key, text = opened(lines, size=(30, 80))

    for name in ("^End", "Page Up", "Page Down"):
        if name == "Page Down":
            pair.press(key("^Home"))
        for _ in range(20):  # up to one that shows text which is not loaded
            editor.take(key(name))
            editor.update()
            if any(row.has_gap for row in editor.focus.layout().rows):
                break
            pair.finish()
        expect(any(row.has_gap for row in editor.focus.layout().rows), f"{name}: this test is wrong, all is loaded")
        pair.trip()
        layout = editor.focus.layout()
        expect(not any(row.has_gap for row in layout.rows), f"{name}: after a round trip a gap is on the screen")
        expect(not pair.terminal.locked(1), f"{name}: after a round trip it asks for more")
        expect(lines[layout.top - 1] == "\n", f"{name}: the window begins at {lines[layout.top : layout.top + 20]!r}")
        pair.finish()


def check_key_after_jump(folder):
    """What is typed right after a jump stands on the screen at once, though no text round it is loaded; other keys wait for that."""
    lines = "".join(f"\tline {at} {'x' * (at * 37 % 60)}\n" for at in range(5000))[:-1]
    pair, editor, key, text = opened(lines, size=(30, 80))
    for typed in (key("^End"), text("typed")):
        editor.take(typed)
    pair.pause()
    expect(list(pair.terminal.runes(1, len(lines), 5)) == list("typed"), "a typed key waits")
    expect(pair.screen.cursor_of(editor) is not None, "the caret is not on the screen")
    for typed in (text("\n"), text("end"), key("Up"), text("!"), key("Home"), text("?")):
        editor.take(typed)
    pair.finish()
    last = pair.host.text(1).rpartition("\n\t")[2]
    expect(last == "end", f"Enter doesn't repeat the blanks: the text ends in {pair.host.text(1)[-40:]!r}")
    expect(pair.host.text(1).splitlines()[-2].startswith("?\tlin!e 4999"), f"the text ends in {pair.host.text(1)[-80:]!r}")
    pair.check()
    pair, editor, key, text = opened(lines, size=(30, 80))
    for typed in (key("^End"), text("\n"), text("end")):
        editor.take(typed)
    pair.finish()
    expect(pair.host.text(1) == lines + "\n\tend", f"Enter doesn't wait for the blanks: the text ends in {pair.host.text(1)[-40:]!r}")


def check_key_after_command(folder):
    """What is typed right after a command line waits for its answer, and for no text."""
    pair, editor, key, text = opened("".join(f"line {at} {'x' * 60}\n" for at in range(2000)), size=(30, 80))
    for typed in (key("Esc"), text("#50000\n"), key("Esc"), text("typed")):
        editor.take(typed)
    pair.trip()
    expect(list(pair.terminal.runes(1, 50_000, 5)) == list("typed"), "it waits for more than one answer")
    pair.finish()
    pair.check()


def check_two_trips(folder):
    """A search, and a line by its number, take a round trip more, in which the host finds the place."""
    lines = "".join(f"line {at} {'x' * (at * 37 % 60)}{'here' if at % 1000 == 500 else ''}\n" for at in range(5000))
    pair, editor, key, text = opened(lines, size=(30, 80))
    for keys, shown in (
        ((key("^S"), text("here"), text("\n")), "line 500 "),
        ((key("^F"),), "line 1500 "),
        ((key("^L"),), "line 2500 "),
        ((key("Esc"), text("4000\n"), key("Esc")), "line 3999 "),
    ):
        for each in keys:
            editor.take(each)
        for _ in range(2):
            pair.trip()
        layout = editor.active.layout()
        rows = pair.host.text(1)[layout.top : layout.end]
        expect(f"\n{shown}" in rows, f"{keys}: the place is not shown, but {rows!r}")
        expect(not any(row.has_gap for row in layout.rows), f"{keys}: after two round trips a gap is on the screen")
        pair.finish()


def check_first_trips(folder):
    """The first screen takes three round trips: the names, the opened file, its text."""
    pair = Pair(random.Random(1), ["".join(f"line {at} {'x' * 60}\n" for at in range(5000))])
    for trips in range(1, 9):
        pair.trip()
        window = pair.editor.focus
        if window.tag == 1 and window.is_open and not any(row.has_gap for row in window.layout().rows) and window.length:
            break
    expect(trips == 3, f"it takes {trips} round trips")


def check_one_load(folder):
    """What a window shows, and a page on either side, is asked for by one Load."""
    lines = "".join(f"line {at} {'x' * (at * 37 % 60)}\n" for at in range(5000))
    pair, editor, key, text = opened(lines, size=(30, 80))
    loads = loads_of(pair)
    for keys in ((key("^End"),), (key("Esc"), text("1000\n"), key("Esc")), (key("^S"), text("line 3000"), text("\n"))):
        loads.clear()
        pair.press(*keys)
        asked = [load for load in loads if load[0] == 1]
        expect(len(asked) == 1, f"{keys}: it asks by {asked}")
        layout = editor.files[0].layout()
        expect(is_loaded_beside(pair, 1, layout), f"{keys}: {layout.top} to {layout.end} is shown, and it asks by {asked}")


def rescue_of(pair, tag, most):
    """What is written of a text when the host is lost, for which no more than so many runes are read."""
    from terminal.files import local_backup

    counts, read = [], pair.terminal.runes
    pair.terminal.runes = lambda *words: counts.append(len(found := read(*words))) or found
    try:
        kept = local_backup.loaded(pair.terminal, tag)
    finally:
        del pair.terminal.runes
    expect(sum(counts) <= most, f"it reads {sum(counts)} runes")
    return kept


def check_many_gaps(folder):
    """After a command line over the whole text, and its undo, the text is loaded in many small pieces with gaps between them. A jump there
    takes no more than a few round trips, and the file is free then."""
    lines = "".join(f"line {at} the quick fox and the lazy dog, the cat and the cow\n" for at in range(1000))
    pair, editor, key, text = opened(lines, size=(40, 80))
    pair.press(key("Esc"), text(",x/the/c/THE/\n"), key("Esc"), key("^Z"))
    expect(pair.host.text(1) == lines, "this test is wrong: the undo is not done")
    for typed in (key("Esc"), text("500\n"), key("Esc")):
        editor.take(typed)
    trips, window = 0, editor.files[0]
    runes = pair.terminal.runes(1, 0, len(lines))
    missing, kept = runes.count(pair.gap), rescue_of(pair, 1, 2 * len(lines))
    told = re.findall(r"\[(\d+) characters that were not loaded\]", kept)
    expect(len(told) > 1000 and sum(map(int, told)) == missing, f"of {missing} runes that are not loaded it tells {sum(map(int, told))}")
    while trips == 0 or pair.terminal.locked(1) or any(row.has_gap for row in window.layout().rows):
        pair.now += 0.6
        pair.trip()
        trips += 1
        expect(trips <= 6, "after six round trips it still loads")
    pair.finish()
    pair.check()


def check_keys_before_loading(folder):
    """While keys come, and the text at the caret is loaded, nothing more is asked for, though not all that is shown is loaded. Each key
    stands in the text at once. Afterwards all is asked for."""
    lines = "".join(f"line {at} {'x' * 60}\n" for at in range(2000))
    pair, editor, key, text = opened(lines, size=(20, 80))
    loads = loads_of(pair)
    editor.arrange(200, 80)
    for at, rune in enumerate("abcdefgh"):
        editor.take(text(rune))
        pair.pause()
        expect(list(pair.terminal.runes(1, 0, at + 1)) == list("abcdefgh"[: at + 1]), f"the key {rune} waits")
        pair.now += 0.1
    expect(any(row.has_gap for row in editor.focus.layout().rows), "this test is wrong: all is loaded")
    expect(not loads, f"while keys come it asks by {loads}")
    pair.finish()
    expect(len(loads) == 1, f"after them it asks by {loads}")
    pair.check()


def check_what_is_shown_between_slices(folder):
    """Between two slices a window asks for what it lacks, though the user rests: where a slice takes seconds the last page shows after two
    trips."""
    lines = "".join(f"line {at} {'x' * 60}\n" for at in range(2000))
    pair, editor, key, _ = opened(lines, size=(20, 80))
    pair.take_line(Line())
    pair.wait(3)
    expect(pair.terminal.locked(1), "this test is wrong: no slice is under way")
    editor.take(key("^End"))
    pair.wait(3)
    for _ in range(2):
        pair.now += 1.0
        pair.trip()
    layout = editor.focus.layout()
    expect(layout.end == editor.focus.length and not any(row.has_gap for row in layout.rows), "the last page doesn't show")


def check_all_is_loaded_at_rest(folder):
    """While nobody presses a key the whole text comes, slice after slice, of a host that stays, and of one that doesn't."""
    text = "".join(f"line {number}\n" for number in range(60_000))
    made(folder, a=text)
    for stays in (False, True):
        with Session(folder, "a.txt", stays=stays) as session:
            session.wait_for("line 14")
            wait_until(lambda: session.bytes_down() > len(text), "it does not load all in time", MOST_AT_REST)
            session.leave()
        (folder / "status").unlink()


def check_loading_when_held_up(folder):
    """What is not asked for while keys come is asked for later, also where the machine holds the editor up at that moment."""
    lines = "".join(f"line {at} {'x' * 60}\n" for at in range(2000))
    for before, held_up in ((0.1, 0.01), (0.249, 0.002), (0.249, 0.1), (0.2, 5.0)):
        pair, editor, key, text = opened(lines, size=(20, 80))
        loads = loads_of(pair)
        editor.take(text("x"))
        pair.trip()
        editor.arrange(200, 80)
        pair.now += before
        editor.update()
        expect(not loads, f"this test is wrong: it asks by {loads}")
        pair.now += held_up
        seconds = editor.wakes_in()
        expect(seconds is not None and seconds <= 0.25, f"held up by {held_up} s it sleeps {seconds} s, until a key or the host wakes it")
        pair.now += seconds
        editor.update()
        expect(len(loads) == 1, f"held up by {held_up} s it asks by {loads}")


def check_pages_ahead(folder):
    """Who rests on a page, to read it, need not wait for the next. Before he rests nothing is asked for, so no key waits for it."""
    lines = "".join(f"line {at} {'x' * 60}\n" for at in range(2000))
    pair, editor, key, _ = opened(lines, size=(30, 80))
    loads = loads_of(pair)
    for name in ("Page Down",) * 4 + ("Page Up",) * 2:
        loads.clear()
        pair.press(key(name), seconds=0)
        layout = editor.focus.layout()
        expect(not loads and not any(row.has_gap for row in layout.rows), f"{name} shows a gap, or asks by {loads}")
        pair.finish()
        expect(is_loaded_beside(pair, 1, layout), f"{name}: the pages on either side are not asked for")
    loads.clear()
    pair.press(pair.keys.Text("x"))
    expect(not loads, f"typing asks by {loads}")


def check_first_file_first(folder):
    """The first file is there before the command file is."""
    pair = Pair(random.Random(1), ["text\n"])
    for _ in range(1000):
        pair.settle()
        pair.carry()
        if pair.editor.command.is_open:
            break
    expect(pair.terminal.is_open(1) and pair.terminal.first_gap(1) is None, "the command file comes first")


def check_layouts(folder):
    """A key that changes a row has the screen laid out once; a move not at all."""
    from terminal.view import layout
    from terminal.view import windows

    pair, editor, key, text = opened("".join(f"line {at} {'x' * 50}\n" for at in range(500)))
    editor.arrange(40, 80)
    pair.finish()
    made_layouts = []

    class Counted(layout.Layout):
        def __init__(self, *words):
            made_layouts.append(words)
            super().__init__(*words)

    windows.Layout = Counted
    try:
        for count, name in ((200, None), (50, "Right")):
            made_layouts.clear()
            for _ in range(count):
                editor.take(text("y") if name is None else key(name))
                pair.pause()
            most = count if name is None else 0
            expect(len(made_layouts) <= most, f"{count} keys have the screen laid out {len(made_layouts)} times")
    finally:
        windows.Layout = layout.Layout


def check_cost_of_a_key(folder):
    """A typed key costs little of a quiet processor: it took 1.7 to 1.9 milliseconds of one."""
    made(folder, a="".join(f"line {at} {'x' * 60}\n" for at in range(500)))
    with Session(folder, "a.txt", width=120, height=50) as session:
        session.wait_for("line 20")
        session.wait_for_quiet()
        terminal = session.terminal()

        def cost():
            before = seconds_of(terminal)
            for at in range(200):
                session.type("abcdefghij"[at % 10])
            session.wait_for("abcdefghij" * 6)
            session.wait_for_quiet()
            return (seconds_of(terminal) - before) / 200

        expect_cheap(cost, 0.006, "a key")
        session.leave_unwritten()


def check_cost_of_a_key_in_the_editor(folder):
    """A typed key costs the editor, with the library, little of a quiet processor until it is drawn and is to be sent. The screen's own
    time, and that of the line, come to that."""
    pair, editor, key, text = opened("".join(f"line {at} {'x' * 60}\n" for at in range(500)), size=(38, 80))
    screen, link = screen_on(pair, Paper(40, 80)), SimpleNamespace(up=1, down=2, waiting=b"")
    editor.take(key("Down"))
    pair.finish()

    def typed():
        editor.take(text("x"))
        editor.update()
        editor.pause()
        sent = pair.ends.sent()
        screen.draw(editor, link)
        return sent

    def cost():
        total = 0.0
        for _ in range(60):
            before = time.process_time()
            sent = typed()
            total += time.process_time() - before
            pair.up += sent
            pair.finish()
        pair.press(*[key("Backspace")] * 60)
        return total / 60

    typed()
    pair.finish()
    expect_cheap(cost, 0.001, "a key in the editor")
    expect(pair.host.text(1).startswith("line 0 "), "this test is wrong: the keys went elsewhere")


def check_cost_of_a_long_line(folder):
    """`^End` in a long line costs little of a quiet processor, also where its characters are wide, and so its rows are not all as long."""
    from terminal.view import layout

    numbers = random.Random(1)
    pair, editor, key, text = opened("".join(numbers.choice((",", chr(numbers.randrange(0x4E00, 0x5500)))) for _ in range(900_000)))
    while (gap := pair.terminal.first_gap(1)) is not None:
        pair.terminal.load(1, gap, min(400_000, pair.terminal.len(1) - gap))
        pair.finish()

    def cost():
        pair.press(key("^Home"))
        layout._last_row.cache_clear()
        before = time.process_time()
        editor.take(key("^End"))
        editor.update()
        return time.process_time() - before

    expect_cheap(cost, 0.4, "^End")
    expect(editor.focus.layout().shows(900_000), "this test is wrong: the end is not shown")


PIECE = 65_536  # bytes of the host that the loop reads at once; keys are taken between two pieces


def cost_of_many_edits():
    """The seconds of the processor in which a command line changes 54,000 places of a text of which little is loaded."""
    pair, editor, key, text = opened("abcdefghijklmno\n" * 54_000, size=(40, 80))
    for typed in (key("Esc"), text(",x/a/c/b/\n")):
        editor.take(typed)
    answer = b""
    for _ in range(9):
        pair.feed(answer)
        pair.pause()
        pair.host.feed(bytes(pair.up))
        pair.up.clear()
        answer = pair.host.take_out()
        if len(answer) > 54_000:
            break
    before = time.process_time()
    for at in range(0, len(answer), PIECE):
        pair.feed(answer[at : at + PIECE])
        editor.update()
    cost = time.process_time() - before
    pair.finish()
    pair.check()
    step = editor.log.last(editor.log.past, 1)
    expect(len(step.changes) == 108_000 and step.lacks == 0, f"{len(step.changes)} changes can be taken back, but for {step.lacks} runes")
    return cost


def check_cost_of_many_edits(folder):
    """A command line that changes 54,000 places of a text of which little is loaded costs less than a second of a quiet processor."""
    expect_cheap(cost_of_many_edits, 1.0, "54,000 edits")


def check_cost_of_undo(folder):
    """Taking back what a command line changed in 9,000 places of a text of which little is loaded, and making it again, costs less than
    half a second of a quiet processor each; and one call of the terminal for each place."""
    first = "abcdefghijklmno\n" * 9_000
    pair, editor, key, text = opened(first, size=(40, 80))
    pair.press(key("Esc"), text(",x/a/c/b/\n"), key("Esc"))
    calls, client = [], pair.ends.client
    answer = client._answer

    def counted(name, *arguments):
        calls.append(name)
        return answer(name, *arguments)

    def cost_of(name, wanted):
        sent, before, client._answer = client.state().sent, time.process_time(), counted
        editor.take(key(name))
        editor.update()
        editor.go_on()
        cost = time.process_time() - before
        client._answer = answer
        sent = client.state().sent - sent
        pair.finish()
        expect(pair.host.text(1) == wanted, f"{name}: the text is {pair.host.text(1)[:60]!r}; it tells {editor.message!r}")
        expect(sent < 18_100, f"{name}: {sent} messages are made")
        return cost

    def cost():
        calls.clear()
        dearest = max(cost_of("^Z", first), cost_of("^R", first.replace("a", "b")))
        expect(len(calls) < 2 * 9_500, f"{len(calls)} calls are made")
        return dearest

    expect_cheap(cost, 0.5, "an undo")
    expect(pair.terminal.first_gap(1) is not None, "this test is wrong: all is loaded")
    pair.check()
