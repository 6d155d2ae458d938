"""Hostile files, hosts and neighbours: whatever they do no key waits for long, and no command of theirs is run."""
import contextlib
import gc
import os
import random
import re
import select
import shlex
import signal
import statistics
import sys
import threading
import time
from pathlib import Path
from types import SimpleNamespace

from checks import Failed, expect_cheap, in_some_try, seconds_of, times_dearer, times_longer

from .colours import expect_pygments
from .messages import Note, NoteKind, aside, first_message, not_saved, said, wrong_messages, write_note
from .pairs import Pair, opened
from .stalled_line import OnTerminal
from .support import READ_AFTER, SAMHOST_WORD, SECONDS, STATE, Session, expect, host_that, made, wait_until

HOST = Path(__file__).with_name("hostile_host.py")
RUNES = "αβγδεζηθικλμνξο"  # that are typed: nothing else on the screen has them
LEAVE = "\x11"  # the key
MOST_FOR_A_KEY = 0.05  # seconds of the processor until it shows
MOST_BESIDE_COLOURS = 0.01  # the same beside a lexer that takes for ever, and what a key costs without one
SECONDS_TO_END = 5
MANY_NAMES = 65_000
FEWEST_HELPS = 5  # that are shown while so many come


def hostile(*words):
    """The command of a hostile host."""
    return shlex.join([sys.executable, str(HOST), *words, "--"])


def costs_of_keys(session):
    """Types some runes, each once the last one shows. Answers the seconds of the processor that samterm takes for each."""
    costs = []
    for rune in RUNES:
        before = seconds_of(session.process.pid)
        session.type(rune)
        session.read_until(rune)
        costs.append(seconds_of(session.process.pid) - before)
        session.rest(0.02)
    return costs


def expect_quick(session, most, what):
    """A key takes no more of a quiet processor. The middle one of some counts: what would hold up keys does that to each, and the work of
    others makes some of them three times dearer."""
    expect_cheap(lambda: statistics.median(costs_of_keys(session)), most, f"{what}: a key")


def expect_end(session, what, key=""):
    """The session is over soon; a key is pressed for that again and again, as by someone who has read what it asks."""
    until, pressed = time.monotonic() + SECONDS_TO_END * times_longer(), time.monotonic()
    while session.process.poll() is None and time.monotonic() < until:
        with contextlib.suppress(OSError):  # its end of the terminal goes before it does
            session.read(0.05)
            if key and time.monotonic() - pressed >= READ_AFTER:
                session.type(key)
                pressed = time.monotonic()
    expect(session.process.poll() is not None, f"{what}: it doesn't end")


# ---- Files


def check_lexers_that_take_for_ever(folder):
    """In a text for which a lexer would take for ever keys show at once, `^Q` leaves, and a signal ends the session; the next lines have
    their colours all the same."""
    expect_pygments()
    texts = {
        "lines.c": "a b\n" + "//\\\n" * 40, "quotes.pl": "qr/\n" + "'\n" * 40, "empty.c": "int a" + "\n" * 1900 + "x\n",
        "blanks.c": "int a" + " " * 1900 + "x\n",
    }  # fmt: skip
    for name, text in texts.items():
        place = folder / name.partition(".")[0]
        place.mkdir()
        (place / name).write_text(f"{text}static int one = 1;\n")
        with OnTerminal(place, "--details", name) as session:
            session.read_until("free")
            session.rest(1.0)
            expect_quick(session, MOST_BESIDE_COLOURS, name)
            if name.endswith("pl"):
                os.kill(session.process.pid, signal.SIGTERM)
                expect_end(session, name)
            else:
                session.type(LEAVE)
                session.read_until("not written")
                expect_end(session, name, LEAVE)


def check_files_without_colours_are_told(folder):
    """A file whose colours take too long again and again is plain from then on, which is told once; others keep theirs."""
    expect_pygments()
    from terminal.view import colours

    slow, told = "int a" + " " * 1900 + "x\n", []
    texts = {1: slow * 30, 2: "int one = 1;\n" * 30}
    found = colours.Colours(lambda tag: "a.c", tell=told.append)
    found.attributes = [0] * 9
    windows = [
        SimpleNamespace(
            tag=tag, length=len(text), layout=lambda text=text: SimpleNamespace(top=0, end=len(text)),
            read=lambda place, count, text=text: text[place : place + count],
        )
        for tag, text in texts.items()
    ]  # fmt: skip
    for _ in range(200):
        found.begin()
        plain, coloured = (found.of(window) for window in reversed(windows))
        time.sleep(0.005 if found.seconds else 0)
    expect(plain and not coloured, f"the colours are {plain} and {coloured}")
    expect(len(told) == 1 and "a.c is shown without colours" in told[0], f"it tells {told}")


def check_signal_while_it_is_held_up(folder):
    """A signal ends the session also while something takes for ever; what was typed is taken late then."""
    import curses

    from terminal import loop

    curses.setupterm("xterm", os.open("/dev/null", os.O_WRONLY))
    late = []
    editor = SimpleNamespace(is_over=False, take_late=late.extend, arrange=lambda *size: None)
    turns = loop.Loop(SimpleNamespace(read_anew=lambda: None), None, SimpleNamespace(size=(20, 80)), editor, None)
    turns.keys.append("typed")

    def held_up():
        while time.process_time() < 2 * SECONDS_TO_END:
            pass
        raise Failed("a signal does nothing")

    turns._go_round = held_up
    threading.Timer(0.2, os.kill, (os.getpid(), signal.SIGTERM)).start()
    turns.run()
    expect((editor.is_over, turns.ended_by, late) == (True, signal.SIGTERM, ["typed"]), f"{editor.is_over}, {turns.ended_by}, {late}")


# ---- What a host says


def check_name_of_the_session(folder):
    """A session's name that the host tells goes into a command line only where it is one: another is refused and told, and the old one
    stays."""
    (path,) = made(folder, a="one\n")
    words = folder / "words"
    for at, name in enumerate(("$(touch OWNED)", "0123456789abcde", "0123456789ABCDEF", "0123456789abcdef0", "\\0a\\nb", "")):
        from terminal.line import persistent_session

        line = persistent_session.PersistentSession(["sleep", "100"], lambda name: [])
        old = line.name
        line.meet(write_note(first_message(name.encode().decode("unicode_escape").replace("\0", "?").encode())))
        told = line._told_of()
        line.close(print, seconds=0)
        expect(line.name == old and len(told) == 1 and "no name" in told[0], f"{name!r}: it is {line.name}, told {told!r}")
    host = hostile("dies", write_note(first_message(b"$(touch${IFS}OWNED)")).hex())
    program = host_that(folder, f'echo "$*" >> {words}', 'case "$*" in *--attach*) exec sh -c "true $*";; esac', f'exec {host} "$@"')
    with Session(folder, "a.txt", "b.txt", host=program, stays=True, width=140) as session:
        session.wait_for("which is no name")
        wait_until(lambda: words.read_text().count("--attach") > 0, "it doesn't try another connection")
    attached = re.findall(r"--attach (.*)", words.read_text())
    expect(all(re.fullmatch("[0-9a-f]{16}", name) for name in attached), f"it joins {attached}")
    expect(not (folder / "OWNED").exists(), "a command of the host was run")


def check_wrong_messages_end_nothing(folder):
    """Messages with wrong lengths, numbers, tags and words do nothing; nor do those of kinds and codes that nobody knows."""
    messages = wrong_messages()
    host = hostile("notes", write_note(first_message()).hex(), *(data.hex() for data in messages if len(data) < 500))
    with OnTerminal(folder, "a.txt", "b.txt", host=host) as terminal:
        terminal.read_until("b.txt")
        terminal.type("x")
        terminal.read_until("x")
        expect(terminal.process.poll() is None, "it has ended")
    from terminal.line import persistent_session

    pair, editor, _, text = opened("a\n")
    line = persistent_session.PersistentSession(["sleep", "100"], lambda name: [])
    line.meet(write_note(first_message()))
    for data in messages:
        note = line.meet(data)
        if note is not None:
            editor.hear(note)
        pair.finish()
    pair.press(text("x"))
    expect(pair.host.text(1) == "xa\n" and not editor.is_lost and not line.is_lost, f"the text is {pair.host.text(1)!r}, {editor.message}")
    line.close(print, seconds=0)


def check_host_of_another_version(folder):
    """A host whose first message is no name of a session, or of another version, is left, and that is told."""
    from terminal.line import persistent_session

    for first in (b"session 0123456789abcdef box", write_note(first_message(version=2)), write_note(said("a word")), b""):
        line = persistent_session.PersistentSession(["sleep", "100"], lambda name: [])
        line.meet(first)
        line.close(print, seconds=0)
        expect(line.is_lost and "another version" in line.why, f"{first!r}: it goes on, {line.why!r}")
    with OnTerminal(folder, "a.txt", "b.txt", host=hostile("notes", b"session 0123456789abcdef box".hex())) as terminal:
        terminal.read_until("another version")


def check_files_of_names_that_are_ours(folder):
    """A file of the user's is one of his, though it has the name of a hidden one."""
    names = [f"~~{name}" for name in ("left~~ 1 + 2026-11-29 10:00:00", "anew~~ 1", "sam~~")]
    pair = Pair(random.Random(1), ["a\n", "b\n", "c\n"], names=names)
    pair.finish()
    editor = pair.editor
    expect([editor.name(tag) for tag in editor.tags] == names, f"the files are {[editor.name(tag) for tag in editor.tags]}")
    expect(not editor.left.all and not editor.session_files.hidden, "one of them is taken for a hidden one")


def check_floods(folder):
    """No key waits for notes or lines without an end, for a line without an end, for 65,000 names, or for 900,000 runes that stand on
    one."""
    for name in ("names", "marks", "flood", "lines", "line"):
        place = folder / name
        place.mkdir()
        (place / "a.txt").write_text(f"a{chr(0x301) * (900_000 if name == 'marks' else 0)}\ntext of a.txt\n")
        noise = {"lines": "seq 99999999 >&2 &", "line": "yes | tr -d '\\n' >&2 &"}.get(name, "")
        host = hostile(name) if name in ("flood", "names") else host_that(place, noise, f'exec {SAMHOST_WORD} "$@"')
        with OnTerminal(place, "a.txt", *["b.txt"] * (name == "flood"), host=host) as session:
            if name == "names":
                expect_quick_help(session)
            session.read_until({"marks": "◌", "names": "a path opens any"}.get(name, "text of a.txt"))
            if name == "names":
                session.type("\x1b")  # the menu goes
            if name in ("flood", "lines"):
                until = time.monotonic() + 1
                while time.monotonic() < until:  # it never rests
                    session.read(0.1)
            else:
                session.rest(1.0)
            expect_quick(session, MOST_FOR_A_KEY, name)


def expect_quick_help(session):
    """While names come, which all other keys wait for, F1 shows the help at once, again and again."""
    costs = []
    session.read_until("~~sam~~")
    while len(costs) < FEWEST_HELPS:
        before = seconds_of(session.process.pid)
        session.type("\x1bOP")
        shown = session.read_all_until("Keys")
        expect("a path opens any" not in shown, f"this test is wrong: all names have come after {len(costs)} keys")
        costs.append(seconds_of(session.process.pid) - before)
        session.type("\x1bOP")  # the help goes
        session.read_until("~~sam~~")
    most = MOST_FOR_A_KEY * times_dearer()
    told = f"while names come keys cost {[f'{cost * 1000:.0f}' for cost in costs]} ms, wanted {most * 1000:.0f}"
    expect(statistics.median(costs) < most, told)


class Steps:
    """What steps cost of the processor, by their names."""

    def __init__(self):
        self.costs = {}

    @contextlib.contextmanager
    def step(self, what):
        before = time.process_time()
        yield
        self.costs.setdefault(what, []).append(time.process_time() - before)

    def dearest(self, what):
        """The dearest of a name; of many all but two, which the work of others may have made dearer."""
        costs = sorted(self.costs[what])
        return costs[-3] if len(costs) > 20 else costs[-1]


def steps_of_names():
    """The steps in which samterm takes 65,000 names, and what comes after them, each with what the screen shows then."""
    from terminal import loop

    pair, steps = Pair(random.Random(1), ["a\n"] * MANY_NAMES), Steps()
    editor, key, text, turns = pair.editor, pair.keys.Key, pair.keys.Text, loop.Loop.__new__(loop.Loop)
    editor.asked_for = {"file0"}
    editor.arrange(30, 100)
    pair.settle()
    pair.host.feed(bytes(pair.up))
    pair.up.clear()
    pair.ends.bring(pair.host.take_out())
    turns.terminal, turns.editor = pair.terminal, editor
    turns.link = SimpleNamespace(is_lost=False, news=0, take=lambda ready: [])
    pair.terminal.clock = time.monotonic
    turns._is_behind, turns._level_at, turns.is_short = True, None, False
    while turns._is_behind:
        with steps.step("names"):
            turns._take_bytes({})
            editor.update()
    pair.terminal.clock = lambda: pair.now
    pair.settle()
    while editor.left.seconds == 0:
        with steps.step("texts that are here"):
            editor.update()
    pair.finish()
    expect(editor.menu is not None and len(editor.tags) == MANY_NAMES, f"there are {len(editor.tags)} files")
    for pressed in (text("file6"), key("Down"), text("\n"), text("x"), key("F2"), key("Esc"), key("^Q"), key("^T"), key("^Y"), key("Left")):
        with steps.step(f"{pressed}"):
            editor.take(pressed)
            pair.settle()
        pair.finish()
    changed = Note(NoteKind.CHANGED, tag=8, path=b"file7", text="file7: another program changed it")
    pair.host.mark_dirty(65_000)
    pair.feed(pair.host.take_out())
    for told in (not_saved(65_000), aside(64_999), changed):
        with steps.step(told.text):
            editor.hear(told)
            pair.settle()
    with steps.step("what is written here while the line is lost"):
        editor.keeping.write_here()
    editor.keeping._copies.drop()
    expect([editor.name(tag) for tag in editor.changed_tags] == ["file60", "file64999"], f"changed are {editor.changed_names}")
    return steps


def expect_cheap_steps():
    """Each step, at its cheapest of three, takes no more of a quiet processor than a key may."""
    tries, most = [steps_of_names() for _ in range(3)], MOST_FOR_A_KEY * times_dearer()
    for what in tries[0].costs:
        least = min(steps.dearest(what) for steps in tries)
        expect(least < most, f"{what}: a step costs {least * 1000:.0f} ms, wanted {most * 1000:.0f}")


def check_steps_of_many_names(folder):
    """Where a host has 65,000 files, each step takes no more time of the processor than a key may wait: as their names come, while texts of
    earlier sessions are looked for, and at keys and lines of the host afterwards."""
    from terminal.files import local_backup

    os.environ["XDG_STATE_HOME"], before = str(folder / STATE), os.getcwd()
    os.chdir(folder)
    gc.disable()  # as samterm does: it looks for what only leads to itself while its user rests
    try:
        for name in ("file3", "file64000", local_backup.TYPED):
            local_backup.keep(name, "text")
        in_some_try(expect_cheap_steps)
    finally:
        os.chdir(before)
        gc.enable()


def check_files_of_many_names(folder):
    """The files are known as they come, are hidden, and go; and thousands cost little."""
    from terminal.files.session_files import SessionFiles

    numbers, known, hidden = random.Random(5), set(), set()
    files = SessionFiles(SimpleNamespace(is_known=known.__contains__))
    for _ in range(4000):
        tag, draw = numbers.randrange(12), numbers.random()
        if draw < 0.2 and tag in known:
            known.discard(tag)
            hidden.discard(tag)
            files.drop(tag)
        elif draw < 0.25:
            hidden.add(tag)
            files.hide(tag)
        elif tag not in known:
            known.add(tag)
            files.sort(tag)
        users = known - hidden - {0}
        expect(files.tags == sorted(users) and files.all == users, f"the files are {files.tags}, wanted {sorted(users)}")
    known.update(range(1, MANY_NAMES))

    def cost():
        before = time.process_time()
        for tag in range(1, MANY_NAMES):
            files.sort(tag)
        return time.process_time() - before

    expect_cheap(cost, 1.0, f"{MANY_NAMES} files")


def check_long_lines_of_words(folder):
    """A line of standard error is cut."""
    from terminal.line.host_process import MOST_IN_LINE, HostProcess, wait_for

    code = "import os; os.write(2, b'x' * 300_000 + b'\\nlast\\n' + b'y' * 300_000)"
    lines, process = [], HostProcess([sys.executable, "-c", code])
    process.close(lines.append)
    got = [line[:1] + str(len(line)) for line in lines]
    expect(got == [f"x{MOST_IN_LINE}", "l4", f"y{MOST_IN_LINE}"], f"it tells {got}")
    process, pieces = HostProcess(["sh", "-c", "yes | tr -d '\\n' >&2"]), 0
    while pieces < 30:
        pieces += process.messages in wait_for({process.messages: select.POLLIN}, 1.0)
        expect(not process.listen() and len(process._line) <= MOST_IN_LINE, f"of a line without an end it keeps {len(process._line)} bytes")
    process.kill()


def check_unseen_runes(folder):
    """Format characters that reorder or hide text have marks in texts and titles, and question marks in told lines; those that join
    don't."""
    from terminal.view.layout import fitted, looks
    from terminal.view.screen import lines_of
    from terminal.view.status_line import printable

    for rune in "\u00ad\u061c\u180e\u200b\u200e\u200f\u202a\u202e\u2060\u2066\u2069\ufeff\ufff9\U000e0001\U000e0041":
        mark = f"<{ord(rune):04X}>"
        expect(looks(rune) == (mark, len(mark)), f"{rune!r} looks as {looks(rune)}")
        expect(fitted(f"a{rune}b", 20) == f"a{mark}b".ljust(20), f"a title has {fitted(f'a{rune}b', 20)!r}")
        expect(printable(f"a{rune}b") == "a?b", f"{rune!r} is told as {printable(rune)!r}")
        expect(lines_of(f"a{rune}b", 20, 24)[0].rstrip() == "a?b", f"the bottom line has {lines_of(f'a{rune}b', 20, 24)}")
    for rune in "\u200c\u200d\ufe0f\u0601\U000e0100":
        expect(looks(rune)[0] == rune and printable(f"a{rune}") == f"a{rune}", f"{rune!r} looks as {looks(rune)}")
    expect(printable("a\x9bb\u2028c\ud800d") == "a?b?c?d", f"it tells {printable(chr(0x9b))!r}")
    (folder / "a\u202eb.txt").write_text("if x\u202e{ y\u2066 z\ufeff\n")
    with Session(folder, "a*b.txt", width=100) as session:
        session.wait_for("if x<202E>{ y<2066> z<FEFF>")
        expect(session.shows("a<202E>b.txt"), "the title has no mark")
        session.type("zz")
        session.wait_for("zzif x<202E>{ y<2066>")
        session.keys("End")
        session.type("!")
        session.wait_for("z<FEFF>!")
        session.leave_unwritten()


def check_texts_that_take_long_to_compare(folder):
    """Two texts of lines that are all alike are compared no longer than a user waits."""
    from terminal.files.recovery import differences

    start = time.process_time()
    lines = differences("a\nb\n" * 500, "b\nb\na\na\n" * 250)
    expect(time.process_time() - start < 2 and len(lines) > 0, f"it takes {time.process_time() - start:.1f} s")
    expect(differences("a\nb\n", "a\nc\n")[1:] == ["- b", "+ c"], f"it shows {differences(chr(97), chr(98))}")


# ---- Words that a shell reads


def check_names_are_no_commands(folder):
    """A name of a file is that on its way through the shells of ssh, of one ssh or of two, and without one; `~/` is the far home."""
    from terminal.line.shells import for_shells, shells_of

    for command, count in (("ssh box samhost", 1), ("/usr/bin/ssh -p 22 box sudo samhost", 1), ("ssh a ssh b samhost", 2), ("samhost", 0)):
        expect(shells_of(command.split()) == count, f"{command}: {shells_of(command.split())} shells")
    expect(for_shells(["~/a b", "~", "--left"], 1) == ["~/'a b'", "'~'", "--left"], f"{for_shells(['~/a b', '~', '--left'], 1)}")
    ssh = folder / "ssh"
    ssh.write_text('#!/bin/sh\nshift\nexec sh -c "$*"\n')
    ssh.chmod(0o755)
    name = "x$(touch OWNED) 'y\"`touch OWNED`;touch OWNED.txt"
    once = shlex.quote(SAMHOST_WORD)
    twice = shlex.quote(once)
    for at, (host, words) in enumerate((
        (f"{ssh} box {once}", ""), (f"{ssh} jump {ssh} box {twice}", ""), (SAMHOST_WORD, ""),
        (host_that(folder, f'exec {ssh} box {once} "$@"'), "--shells 1"),
    )):  # fmt: skip
        place = folder / str(at)
        place.mkdir()
        (place / name).write_text("one\n")
        with Session(place, words, shlex.quote(name), host=host, stays=at != 2, width=140) as session:
            session.wait_for("one")
            session.type("x")
            session.keys("C-w")
            wait_until(lambda: (place / name).read_text() == "xone\n", lambda: f"{host}: there are {list(place.iterdir())}")
            session.leave()
        expect(not list(place.glob("OWNED*")), f"{host}: a name is taken for a command")


# ---- Neighbours


def check_copies_beside_neighbours(folder):
    """A copy goes on beside its place where the name by which it is renewed is taken. Whatever is in its place by now, it is renewed: a
    link, also to a file with the same text, a pipe, or what is too long. None of these is read."""
    from terminal.files import local_backup

    os.chdir(folder)
    taken = local_backup.keep("a.txt", "first")
    Path(taken + ".new").mkdir()
    path = local_backup.renew("a.txt", taken, "second")
    expect(not Path(taken).exists() and Path(path).parent == folder.resolve(), f"{taken} is renewed as {path}")
    expect(Path(path).stat().st_mode & 0o777 == 0o600, "others may read it")
    expect(local_backup.read(path) == "second", f"it reads {local_backup.read(path)!r}")
    (folder / "another").write_text("third")
    rows = (
        ("a link", lambda: os.symlink(folder / "another", path)),
        ("a pipe", lambda: os.mkfifo(path)),
        ("a terabyte", lambda: (Path(path).touch(), os.truncate(path, 1 << 40))),
    )
    for what, make in rows:
        os.unlink(path)
        make()
        expect(local_backup.read(path) is None, f"it reads {what}")
        renewing = threading.Thread(target=local_backup.write_again, args=(path, "third"), daemon=True)
        renewing.start()
        renewing.join(SECONDS)
        expect(not renewing.is_alive(), f"{what} is waited for")
        expect(not Path(path).is_symlink() and local_backup.read(path) == "third", f"{what} stays in its place")


def check_gaps_of_a_text_of_one_letter(folder):
    """A gap that may have stood at a million places takes no time to be given up."""
    from terminal.files import local_backup

    start = time.process_time()
    for count, after in ((500_000, "a" * 1000), (2, "b")):
        text = f"{'a' * 1000}[{count} characters that were not loaded]{after}"
        local_backup.filled(text, "a" * 1_000_000)
    expect(time.process_time() - start < 1, f"it takes {time.process_time() - start:.1f} s")
    end = local_backup.filled(f"{'abc' * 100}[300 characters that were not loaded]", "abc" * 200)
    expect(end == "abc" * 200, f"a gap at the end is filled as {end[-60:]!r}")
