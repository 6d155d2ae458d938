"""A session that stays at the host, over a line that breaks."""
import contextlib
import os
import random
import re
import signal
import subprocess
import sys
import threading
import time
from pathlib import Path

from checks import Failed, Skipped, expect_cheap

from .fuzz import Run
from .messages import NoteCode, not_saved, replacing
from .model import Model
from .pairs import LONG as MANY_LINES
from .pairs import Line, in_a_small_window, loads_of, opened, with_line
from .stalled_line import MOST_FOR_A_KEY
from .support import COMMAND_WINDOW, LINK, READ_AFTER, SAMHOST, SAMHOST_WORD, SECONDS, STATE, Session, expect, host_that, made
from .support import wait_for_text, wait_until

MOST_LOADED = 30_000  # runes at once
LINES = [f"line {number} {'x' * (number * 7 % 60)}\n" for number in range(1, 1501)]
LONG = "".join(LINES)


# ---- Without a screen


def check_nothing_is_loaded_without_a_line(folder):
    """While the line is lost nothing is asked for, and a key that needs text which isn't loaded says so."""
    pair, editor, key, text = in_a_small_window()
    line = pair.take_line(Line())
    line.is_broken = True
    pair.wait(4)
    loads = loads_of(pair)
    for name in ("^End", "Up", "Page Up", "^Home", "Page Down", "Page Down", "Page Down"):
        editor.take(key(name))
        pair.wait(0.5)
        expect(not editor.deferred, f"{name} waits")
    expect(not loads, f"it loads {loads}")
    editor.take(text("x"))
    expect(list(pair.terminal.runes(1, 0, 1)) == ["x"], "what is typed doesn't stand at the caret")
    line.is_broken = False
    pair.finish()
    expect(pair.host.text(1) == "x" + MANY_LINES, "the host has another text")


def cost_of_a_copy(folder):
    """The seconds of the processor that this process takes to have a long text written here, as it stands, while the line is lost."""
    before = os.getcwd()
    pair, editor, key, text, line = with_line("some words\n" * 80_000)
    while (gap := pair.terminal.first_gap(1)) is not None:
        pair.terminal.load(1, gap, min(MOST_LOADED, pair.terminal.len(1) - gap))
        pair.trip()
    editor.take(text("x"))
    wanted = pair.terminal.runes(1, 0, pair.terminal.len(1))
    line.is_broken, line.silence = True, 11.0
    os.chdir(folder)
    try:
        expect(editor.keeping.is_here_due, "it is not due")
        start = time.process_time()
        editor.keeping.write_here()
        editor.update()
        cost = time.process_time() - start
        editor.take(text("y"))
        path = folder / "file0.sam-here"
        wait_until(lambda: path.exists() and path.stat().st_size >= len(wanted), lambda: f"it writes {list(folder.iterdir())}")
        expect(path.read_text() == wanted, f"it writes a text that begins with {path.read_text()[:20]!r}")
        line.is_broken, line.silence = False, 0.0
        pair.finish()
        wait_until(lambda: not path.exists(), "it stays though the line is back")
        return cost
    finally:
        os.chdir(before)


def check_long_text_beside_keys(folder):
    """A long text is written here while the line is lost, and that takes less of this process than a key may."""
    expect_cheap(lambda: cost_of_a_copy(folder), MOST_FOR_A_KEY, "a copy")


def check_slices(folder):
    """While the user rests the whole text is loaded; while keys come nothing is asked for."""
    pair, editor, key, text = in_a_small_window()
    pair.take_line(Line())
    pair.finish(3)
    expect(pair.terminal.first_gap(1) is None, "the text is not loaded whole")


# ---- On the screen


class BrokenRun(Run):
    """Random keys against the model, while the line breaks again and again."""

    HOW = (signal.SIGKILL, signal.SIGTERM, signal.SIGSTOP)
    LONG_PAUSE, STEADY = 4, 1.0  # seconds: after such a pause a connection stands for so long, so that pauses begin anew
    # What samterm says of a key that asks the host, once the line is lost for seconds; of Enter in a menu that is no matter, as it goes on.
    # What is asked of text that goes and is not loaded is answered by no key.
    REFUSED = re.compile(r"(?<!Enter )can't act until the line is back|the command line stays|characters of it are not loaded")
    EACH = 0.1  # seconds, after each of which it is looked whether that is said: it stands there for longer

    def __init__(self, seed):
        super().__init__(seed, delay=None)
        self.breaks, self.is_refused = 0, False

    def session(self, folder):
        return Session(folder, "a.txt", slow=self.delay, width=self.width, height=self.height, stays=True)

    @contextlib.contextmanager
    def broken(self, session):
        """Breaks the line at random meanwhile: the process that carries the bytes is killed, or stands still before."""
        numbers, is_over = random.Random(f"{self.seed} {self.breaks}"), threading.Event()

        def go_on():
            is_long, back_at = False, 0.0
            while not is_over.wait(numbers.random() * 0.7):
                screen = " ".join(session.screen())
                pause = re.search(r"LINE LOST \d+ s, again in (\d+) s", screen)
                is_long = is_long or (pause is not None and int(pause[1]) >= self.LONG_PAUSE)
                if "LINE LOST" in screen or "no answer" in screen:
                    back_at = 0.0
                    continue  # a break of some seconds is no short one
                back_at = back_at or time.monotonic()
                if is_long and time.monotonic() - back_at < self.STEADY:
                    continue
                is_long = False
                relay = session.relay()
                with contextlib.suppress(ProcessLookupError, TypeError):
                    how = numbers.choice(self.HOW)
                    os.kill(relay, how)
                    self.breaks += 1
                    if how == signal.SIGSTOP:
                        is_over.wait(numbers.random())
                        os.kill(relay, numbers.choice((signal.SIGCONT, signal.SIGKILL)))

        thread = threading.Thread(target=go_on)
        thread.start()
        try:
            with self.watched(session):
                yield
        finally:
            is_over.set()
            thread.join()

    @contextlib.contextmanager
    def watched(self, session):
        """Notes meanwhile whether a key is refused. What is judged before is no matter then."""
        is_over = threading.Event()

        def look():
            while not is_over.wait(self.EACH):
                self.is_refused = self.is_refused or any(map(self.REFUSED.search, session.screen()))

        thread = threading.Thread(target=look)
        thread.start()
        try:
            yield
        except Failed:
            self.skip_where_refused()
            raise
        finally:
            is_over.set()
            thread.join()
        self.skip_where_refused()

    def check(self, session):
        with self.watched(session):
            self.wait_for_line(session)
            super().check(session)

    def wait_for_line(self, session):
        """Waits until the line is back, and answers come over it."""
        wait_until(lambda: not session.shows("LINE LOST") and not session.shows("no answer for"), "the line doesn't come back")

    def arrive(self, session, keys):
        with self.broken(session):
            for key in keys:
                self.send(session, key)
                time.sleep(self.numbers.choice((0, 0.05, 0.3, 0.6)))

    def skip_where_refused(self):
        """The model knows of no key that is refused. On a busy machine a break may take so long: from there on nothing is judged."""
        if self.is_refused:
            raise Skipped(f"seed {self.seed}: a break took seconds, so a key was refused")


def run_breaks(folder, seeds):
    breaks = 0
    for seed in seeds:
        place = folder / str(seed)
        place.mkdir()
        run = BrokenRun(seed)
        run.go(place)
        breaks += run.breaks
    return breaks


def check_random_breaks(folder):
    """Over a line that breaks at random the text, the caret and the screen are as over one that holds. tests/terminal/breaks tries more."""
    breaks = run_breaks(folder, range(3))
    expect(breaks > 3, f"this test is wrong: the line broke {breaks} times")


def check_typing_on_a_stopped_line(folder):
    """While the line stands still each key on loaded text shows; when it goes on, the host has all."""
    (path,) = made(folder, a=LONG)
    with Session(folder, "a.txt", stays=True, width=160) as session:
        session.wait_for("line 1 ")
        session.open_command_file()
        model = Model(LONG, 160)
        wait_until_loaded(session)
        with session.stopped_line():
            for count in range(60):
                rune = "abcdefghij"[count % 10]
                session.type(rune)
                model.type(rune)
                wait_until(lambda: f"{len(model.text)}, line" in session.status(), lambda: f"{rune} doesn't show: {session.status()}")
                if count == 20:
                    session.keys("C-Home", "S-End", "C-x", "Down", "C-v", "C-z", "C-r")
                    for act in (model.first, lambda: model.end(True), model.cut, lambda: model.down(False), model.paste):
                        act()
            session.wait_for("no answer for")
            session.keys("C-w")
            session.wait_for("written when the line is back")
            session.type("!")
            model.type("!")
            expect(path.read_text() == LONG, "it is written already: this test is wrong")
        wait_for_text(path, model.text)
        session.leave()


def wait_until_loaded(session):
    """Waits until all of the text is loaded: nothing more comes for a second then."""
    while True:
        before = wait_until(lambda: session.bytes_down() > len(LONG) and session.bytes_down(), "the text doesn't come")
        time.sleep(1)
        if session.bytes_down() == before:
            return


def check_address_gone(folder):
    """Where an address of this machine has gone, a silent line is replaced after 2 seconds and a pause of one, not after 15."""
    apart = ["unshare", "-n"] if os.getuid() == 0 else ["unshare", "-rn"]
    try:
        subprocess.run([*apart, "ip", "address"], check=True, capture_output=True)
    except (OSError, subprocess.CalledProcessError) as why:
        raise Skipped("unshare or ip is missing, or may not be used here") from why
    (folder / "a.txt").write_text("text\n")
    own = {**os.environ, "TMPDIR": str(folder), "XDG_STATE_HOME": str(folder / STATE)}
    words = [*apart, sys.executable, str(Path(__file__).with_name("network_change.py")), SAMHOST]
    ran = subprocess.run(words, cwd=folder, env=own, capture_output=True, text=True, timeout=SECONDS)
    seconds = float(ran.stdout.split()[-1]) if ran.returncode == 0 else ran.stderr
    expect(isinstance(seconds, float) and 2 <= seconds < 9, f"another line is there after {seconds} seconds")


def check_lost_line(folder):
    """A line that is lost for a while is told of, and so is what can't be done meanwhile; changed texts are written here, and no longer
    once it is back."""
    (path,) = made(folder, a="one\ntwo\n")
    block = folder / "block"
    host = folder / "host"
    host.write_text(f"#!/bin/sh\n[ -e {block} ] && exit 1\nexec {SAMHOST_WORD} \"$@\"\n")
    host.chmod(0o755)
    with Session(folder, "a.txt", host=str(host), stays=True, width=120) as session:
        session.wait_for("two")
        session.type("x")
        session.wait_for("xone")
        session.open_command_file()
        block.touch()
        session.break_line()
        session.wait_for("LINE LOST")
        session.wait_for("again in")
        session.type("y")
        session.wait_for("xyone")
        session.keys("C-w")
        session.wait_for("a.txt is written when the line is back")
        time.sleep(3.5)
        for key, words in (("C-d", "^D can't act until the line is back"), ("C-n", "^N can't act"), ("C-k", "^K can't act")):
            session.keys(key)
            session.wait_for(words)
            time.sleep(READ_AFTER)
        session.switch()
        for line in ("1d", "2d"):  # the second takes the place of the first
            session.type(line)
            wait_until(lambda: line in session.rows(COMMAND_WINDOW), lambda: f"the command window has {session.rows(COMMAND_WINDOW)}")
            session.keys("Enter")
            session.wait_for("the command line stays")
            time.sleep(READ_AFTER)
        session.switch()
        session.type("z")
        session.wait_for("xyzone")
        here = folder / "a.txt.sam-here"
        wait_until(lambda: here.exists() and here.read_text() == "xyzone\ntwo\n", "no text is written here")
        block.unlink()
        session.keys("F5")
        wait_until(lambda: not session.shows("LINE LOST"), "the line is not tried at once", 5)
        wait_for_text(path, "xyzone\ntwo\n")
        wait_until(lambda: not list(folder.glob("*.sam-here")), lambda: f"there are {list(folder.glob('*.sam-here'))}")
        session.switch()
        session.keys("Enter")
        wait_until(lambda: session.rows("a.txt")[:2] == ["xyzone", ""], lambda: f"the line has not run: {session.rows('a.txt')}")
        session.keys("C-q")
        session.answer("not written", "C-q")
        session.wait_for_end(0)


def check_password_for_a_lost_line(folder):
    """A connection that is tried again can't ask on the screen of the text; F5 gives it the screen, and `^C` takes that back."""
    made(folder, a="one\n")
    asks, host = folder / "asks", folder / "host"
    host.write_text(f"""#!/bin/sh
if [ -e {asks} ]; then
    exec 3<> /dev/tty || exit 1
    printf 'password: ' >&3
    read -r word <&3
    [ "$word" = secret ] || exit 1
fi 2> /dev/null
exec {SAMHOST_WORD} "$@"
""")
    host.chmod(0o755)
    with Session(folder, "a.txt", host=str(host), stays=True, width=120, settings="trap : INT;") as session:
        session.wait_for("one")
        session.wait_for_quiet()
        asks.touch()
        session.break_line()
        session.wait_for_seconds("LINE LOST", 4)
        expect(not session.shows("password"), "it asks on the screen of the text")
        session.type("x")
        session.wait_for("xone")
        session.keys("F5")
        session.wait_for("password:")
        session.keys("C-c")
        session.wait_for("xone")
        session.wait_for("LINE LOST")
        session.keys("F5")
        session.wait_for("password:")
        session.type("secret")
        session.keys("Enter")
        session.wait_for("xone")
        wait_until(lambda: not session.shows("LINE LOST"), "the line doesn't come back")
        session.wait_for_quiet()
        session.keys("C-w")
        wait_for_text(folder / "a.txt", "xone\n")
        session.leave()


def check_leave_and_take(folder):
    """Who leaves on a dead line is asked once, and told how he comes back; then all is there."""
    (path,) = made(folder, a="one\ntwo\n")
    with Session(folder, "a.txt", stays=True, width=160) as session:
        session.ends_staying = False
        session.wait_for("two")
        session.type("x")
        session.wait_for("xone")
        session.wait_for_quiet()
        with session.stopped_line():
            session.type("y")
            session.wait_for("no answer for")
            session.keys("C-q")
            session.answer("^Q again leaves", "C-q")
            session.wait_for_end(3)
    told = (folder / "stderr").read_text()
    name = re.search(r"--take .+ ([0-9a-f]{16})$", told, re.MULTILINE)
    expect(name is not None and "session stays" in told, f"it tells {told!r}")
    expect((folder / "a.txt.sam-here").read_text() == "xyone\ntwo\n", "the text is not written here")
    (folder / "status").unlink()
    with Session(folder, take=name[1]) as session:
        session.wait_for("it was not written before")
        wait_until(lambda: session.rows("a.txt")[:2] in (["xone", "two"], ["xyone", "two"]), lambda: f"it has {session.rows('a.txt')}")
        expect(session.shows(">* a.txt"), "it is not marked as changed")
        session.keys("C-w")
        wait_until(lambda: path.read_text() in ("xone\ntwo\n", "xyone\ntwo\n"), "it is not written")
        wait_until(lambda: session.shows(">  a.txt"), "it stays marked as changed")
        session.leave()
    told = (folder / "stderr").read_text()
    expect("written" not in told, f"it tells at the end {told!r}")


def check_taken_text_is_unsaved(folder):
    """A text of which the host tells that an earlier terminal had not written it counts as changed until it is written."""
    pair, editor, key, text = opened("a\n", "b\n")
    taken = "it was not written before this terminal took the session over"
    editor.hear(not_saved(2, NoteCode.TAKEN_UNSAVED, "/tmp/x.sam-saved", taken))
    pair.host.mark_dirty(2)
    pair.down += pair.host.take_out()
    pair.finish()
    expect({tag for tag in editor.tags if editor.is_changed(tag)} == {2}, "not as changed counts what should")
    expect(taken in editor.message, f"it tells {editor.message!r}")
    editor.go_to(editor.files[1])
    pair.press(key("^W"))
    expect(not editor.is_changed(2), "it counts as changed though it is written")


def check_one_answer_after_a_break(folder):
    """A write was put off, since the line was lost, and another program has changed the file: once the line is back that is asked at once,
    and one `^W` answers it; where it was answered before, nothing is asked."""
    for when in ("known before", "answered meanwhile", "told afterwards"):
        pair, editor, key, text, line = with_line("a\n")
        pair.press(text("x"))
        if when != "told afterwards":
            pair.failing = [replacing(1)]
            editor.take(key("^W"))
            pair.finish()
            expect("^W again replaces it" in editor.message, f"{when}: this test is wrong: {editor.message!r}")
        if when == "known before":
            pair.press(key("Left"))
        line.is_broken, line.silence = True, 9.0
        pair.wait(1)
        editor.take(key("^W"))
        pair.wait(1)
        expect("is written when the line is back" in editor.message, f"{when}: it tells {editor.message!r}")
        editor.take(key("Left"))
        pair.wait(2)
        line.is_broken, line.silence = False, 0.0
        pair.failing = [replacing(1)] if when == "told afterwards" else []
        pair.finish()
        if when != "answered meanwhile":
            expect("^W again replaces it" in editor.message, f"{when}: it doesn't ask, but tells {editor.message!r}")
            pair.press(key("^W"))
        expect(not editor.is_changed(1) and not editor.notes.unread, f"{when}: it isn't written; {editor.message!r}, {editor.notes.unread}")


# ---- Files that join


def expect_joining():
    """Skips where the library takes no file once a session has begun."""
    from sulgrevad import AddRefused, Host, Terminal

    with Host() as host, Terminal() as terminal:
        terminal.offer_version(2)
        host.feed(terminal.take_out())
        try:
            host.add_file("late")
        except AddRefused as why:
            raise Skipped("the library takes no file once a session has begun") from why


def open_path(session, path, shown=None):
    """Opens a path by the menu of files, once an entry shows."""
    session.keys("F2")
    session.wait_for("Files; a path opens another")
    session.type(path)
    session.wait_for(f"+ {shown or path}")
    session.keys("Enter")


def check_open_by_path(folder):
    """The menu of files opens what is beside the host: by its path, by a part of it, in a folder, one that isn't there as new, and one that
    is open already by its window. What was typed for a path that can't be opened goes into no other file."""
    expect_joining()
    path, other = made(folder, a="one\n", bee="bee\n")
    (folder / "sub").mkdir()
    (folder / "sub" / "deep.txt").write_text("deep\n")
    with Session(folder, "a.txt", stays=True, slow=20, width=120) as session:
        session.wait_for("one")
        session.wait_for_quiet()
        open_path(session, "be", "bee.txt")
        session.wait_to_go_to("bee.txt")
        wait_until(lambda: session.rows("bee.txt")[:1] == ["bee"], "it is not shown")
        session.type("x")
        session.keys("C-w")
        wait_for_text(other, "xbee\n")
        open_path(session, "su", "sub/")
        session.wait_for("+ sub/deep.txt")
        session.keys("Enter")
        session.wait_to_go_to("sub/deep.txt")
        open_path(session, "new.txt", "new.txt  (a new file)")
        session.type("hi")
        session.wait_to_go_to("new.txt")
        session.wait_for("hi")
        session.keys("C-w")
        wait_for_text(folder / "new.txt", "hi")
        open_path(session, "./bee.txt")
        session.wait_to_go_to("bee.txt")
        session.wait_for_quiet()
        session.keys("F2")
        session.wait_for("Files; a path")
        names = [line.strip() for line in session.screen() if line.startswith("    ") and ".txt" in line]
        expect(sorted(names) == ["a.txt", "bee.txt", "new.txt", "sub/deep.txt"], f"the menu has {names}")
        session.keys("Escape")
        session.keys("F2")
        session.type("nowhere/x.txt")
        session.keys("Enter", *"stray")  # at once, before the host's answer
        session.wait_for("is not opened")
        session.wait_for("^V has what you typed")
        session.wait_for_quiet()
        expect(session.rows("bee.txt")[:1] == ["xbee"], f"it goes into {session.rows('bee.txt')[:1]}")
        session.keys("End", "C-v")
        session.wait_for("xbeestray")
        session.keys("C-w")
        wait_for_text(other, "xbeestray\n")
        session.leave()


def check_keys_behind_a_path_at_once(folder):
    """Keys that come before the host's answer open what they would over a quick line, also where they are the front of a path. Of those
    behind a path that is refused the ones for it go, and the others act."""
    path, other = made(folder, note="one\n", paper="two\n")
    with Session(folder, "note.txt", stays=True, slow=LINK, width=200) as session:
        session.wait_for("one")
        session.wait_for_quiet()
        session.keys("F2")
        session.wait_for("Files; a path")
        session.keys(*"pap", "Enter", *"typed", "C-w")
        session.wait_to_go_to("paper.txt")
        wait_for_text(other, "typedtwo\n")
        session.wait_for_quiet()
        session.keys("F2", *"nowhere/x.txt", "Enter", *"stray", "C-w", "F2", *"note.txt", "Enter", *"more", "C-w")
        session.wait_for("other keys for it are not done; ^V has what you typed")
        wait_for_text(path, "moreone\n")
        session.wait_to_go_to("note.txt")
        session.keys("C-v")
        session.wait_for("morestrayone")
        session.keys("C-w")
        wait_for_text(path, "morestrayone\n")
        session.leave()
    expect(sorted(path.name for path in folder.glob("pap*")) == ["paper.txt"], "the front of a path is a file of its own")


def check_wished_file(folder):
    """A program at the host has a file shown, and a line of it selected, once no key comes."""
    expect_joining()
    made(folder, a="one\n", bee="".join(f"line {number}\n" for number in range(1, 9)))
    with Session(folder, "a.txt", stays=True, width=120) as session:
        session.wait_for("one")
        session.wait_for_quiet()
        environment = {**os.environ, "XDG_STATE_HOME": str(folder / STATE)}
        subprocess.run([SAMHOST, "--open", "bee.txt", "+3"], cwd=folder, env=environment, check=True, timeout=SECONDS)
        session.wait_to_go_to("bee.txt")
        session.wait_for("14,21 of 56")
        session.leave()


def check_open_while_the_line_breaks(folder):
    """A path that was opened as the line broke comes once it is back, and what was typed for it goes into it."""
    expect_joining()
    made(folder, a="one\n", bee="bee\n")
    with Session(folder, "a.txt", stays=True, width=120) as session:
        session.wait_for("one")
        session.wait_for_quiet()
        with session.stopped_line():
            session.keys("F2")
            session.type("bee.txt")
            session.keys("Enter")
            session.type("x")
            wait_until(session.held, "nothing waits")  # Enter may wait, too
            broken = session.break_line()
        session.wait_for_another_line(broken)
        session.wait_for("xbee")
        session.wait_for_quiet()
        expect(session.rows("bee.txt")[:1] == ["xbee"], f"the windows are {session.screen()}")
        session.leave_unwritten()


# ---- Ends


def host_of(folder):
    """The process of the samhost that stays, which its lock names."""
    (lock,) = (folder / STATE / "sulgrevad").glob("*/lock")
    return int(lock.read_text())


def check_end_by_a_signal(folder):
    """A signal to samterm leaves the session at the host, with all that was typed; nothing is written here. Another takes it up."""
    (path,) = made(folder, a="one\n")
    with Session(folder, "a.txt", stays=True, width=120) as session:
        session.ends_staying = False
        session.wait_for("one")
        session.type("x")
        session.wait_for("xone")
        os.kill(session.terminal(), signal.SIGTERM)
        session.wait_for_end(128 + signal.SIGTERM)
    told = (folder / "stderr").read_text()
    expect("the session stays at the host. This goes on with it" in told, f"it tells {told!r}")
    expect(not list(folder.glob("*.sam-here")), f"there are {list(folder.glob('*.sam-here'))}")
    (folder / "status").unlink()
    with Session(folder, take="", width=120) as session:
        wait_until(lambda: session.shows(">* a.txt") and session.rows("a.txt")[:1] == ["xone"], "its text doesn't come back as changed")
        session.keys("C-w")
        wait_for_text(path, "xone\n")
        session.leave()


def check_taken_over(folder):
    """Who takes a session over that is shown elsewhere has its texts; the other is told so, and keeps here what the host may lack."""
    made(folder, a="one\n")
    beside = folder / "beside"
    beside.mkdir()
    with Session(folder, "a.txt", stays=True, width=120) as session:
        session.wait_for("one")
        session.type("x")
        session.wait_for("xone")
        session.wait_for_quiet()
        settings = f"XDG_STATE_HOME={folder / STATE}"
        with Session(beside, take="", settings=settings, width=120) as other:
            other.wait_for("xone")
            session.wait_for("HOST LOST")
            session.wait_for("taken the session over")
            session.keys("C-q")
            session.wait_for_end(3)
            other.keys("C-w")
            wait_for_text(folder / "a.txt", "xone\n")
            other.leave()


def check_host_is_killed(folder):
    """Another samhost begins where a killed one was, and the session goes on: text, undo and what was copied."""
    (path,) = made(folder, a="one\ntwo\n")
    with Session(folder, "a.txt", stays=True, width=120) as session:
        session.wait_for("two")
        session.keys("S-Right", "C-c")
        session.type("x")
        session.wait_for("xne")
        session.wait_for_quiet()
        relay = session.relay()
        os.kill(host_of(folder), signal.SIGKILL)
        session.type("y")
        session.wait_for("xyne")
        session.wait_for_another_line(relay)
        session.wait_for_quiet()
        session.keys("C-v")
        session.wait_for("xyone")
        session.keys("C-w")
        wait_for_text(path, "xyone\ntwo\n")
        session.keys("C-z", "C-z", "C-z")
        session.wait_for_quiet()
        session.keys("C-w")
        wait_for_text(path, "one\ntwo\n")
        session.leave()


def check_old_host(folder):
    """Where samhost knows of no session that stays, no session begins, and why is told."""
    made(folder, a="one\n")
    host = host_that(folder, '[ "$1" = --serve ] && echo "usage: samhost [--undo] [--times] [--] [FILE ..]" >&2 && exit 2')
    with Session(folder, "a.txt", host=host, stays=True) as session:
        session.wait_for_end(1)
    told = (folder / "stderr").read_text()
    expect("that samhost is too old" in told, f"it tells {told!r}")


def check_break_while_leaving(folder):
    """A break amid leaving ends nothing too early: once the line is back the session ends, and its text is saved."""
    (path,) = made(folder, a="one\n")
    with Session(folder, "a.txt", stays=True, width=120) as session:
        session.wait_for("one")
        session.type("x")
        session.wait_for("xone")
        session.wait_for_quiet()
        session.keys("C-q")
        session.wait_for("not written")
        with session.stopped_line():
            session.answer("not written", "C-q")
            session.wait_for("leaving")
            session.break_line()
        session.wait_for_end(0)
    wait_for_text(folder / "a.txt.sam-saved", "xone\n")
    expect(path.read_text() == "one\n", "it is written")
    wait_until(lambda: not list((folder / STATE / "sulgrevad").glob("*/socket")), "the session is still there")


def check_keys_that_wait_are_kept(folder):
    """Who leaves on a dead line while typed text waits finds it here."""
    made(folder, a="x" * 5_000 + "\nend\n")
    with Session(folder, "a.txt", stays=True, width=120) as session:
        session.wait_for("xxx")
        session.wait_for_quiet()
        with session.stopped_line():
            session.keys("C-n")
            session.type("typed for the new file")
            session.wait_for("no answer for")
            session.keys("C-q")
            session.answer("^Q again leaves", "C-q")
            session.wait_for_end(3)
    kept = "".join(path.read_text() for path in folder.glob("*.sam-here"))
    expect("typed for the new file" in kept, f"it keeps {kept[-200:]!r}")
