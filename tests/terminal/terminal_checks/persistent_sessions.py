"""A session that lasts: one of a long day, whose line breaks again and again, and one whose processes are killed."""
import contextlib
import os
import random
import re
import signal
import time

from .breaks import BrokenRun, host_of
from .model import Model
from .support import STATE, Failed, Session, expect, wait_for_text, wait_until

# ---- One session, many breaks

FILES = ("a.txt", "q1.md", "w2.cc", "z3")  # of which the first is open from the beginning, and the last is new
UNDO, REDO, WRITE, MENU = "\x1a", "\x12", "\x17", "F2"
MENU_TITLE = "Files; a path"
DRAW = "\x1b[15~"  # F5, which would try a line that is known to be lost, and give the screen back meanwhile
MOST_RUNES = 4_000  # of a text, so that all of it is soon loaded
OPENED_WITHIN = 2  # seconds after the line is back, where Enter waited for it


class OneSession(BrokenRun):
    """One session of several files, with undo, writing and opening, until its line has broken so often."""

    def __init__(self, seed, breaks):
        super().__init__(seed)
        self.most, self.keys_typed, self.undos, self.opened = breaks, 0, 0, 0
        numbers = random.Random(seed)
        self.width, self.height = 101, 30
        lines = ("a line of x1_2, über", "日本 e\u0301te\u0301 to", "\tone();", "", "  {line => 3.5}")
        texts = ["".join(numbers.choice(lines) + "\n" for _ in range(count)) for count in (40, 12, 25)]
        self.texts = dict(zip(FILES, [*texts, ""]))
        self.models, self.name, self.text = {}, FILES[0], self.texts[FILES[0]]
        self.show(FILES[0])

    def show(self, name):
        """The keys go to this file from now on; what was cut is one for all."""
        clip = self.model.clip
        self.name = name
        self.model = self.models.setdefault(name, Model(self.texts[name], self.width))
        self.model.clip = clip

    # ---- Keys

    def undone(self):
        """Text that is pasted, typed and cut, and taken back and made again, in part or all."""
        model, choose = self.model, self.numbers.choice
        model.right(False)
        place = model.caret
        words, typed = choose(("pq", "  two\n  lines\n")), choose(("zz", "日x", "y1"))
        model.paste_of_the_screen(words.replace("\n", "\r\n") if self.ends_lines_with_returns() else words)
        after_paste = model.caret
        model.type(typed)
        keys = f"\x1b[C\x1b[200~{words}\x1b[201~{typed}"
        if choose((True, False)):
            model.move(model.caret - len(typed), True)
            model.cut()
            model.replace(typed)  # which is taken back
            keys += "\x1b[1;2D" * len(typed) + "\x18" + UNDO
        back = choose((1, 2, 2))
        again = choose((0, back))
        states = [(model.text, model.caret)]
        states.append((model.text[:after_paste] + model.text[after_paste + len(typed) :], after_paste))
        states.append((model.text[:place] + model.text[after_paste + len(typed) :], place))
        at = back - again
        self.undos += 1
        model.text = states[at][0]
        model.select(states[at][1], states[at][1])
        return keys + UNDO * back + REDO * again

    def key(self, after):
        if self.numbers.random() < 0.1 and not after.endswith("\x1b"):
            return self.undone()
        while True:
            saved = self.saved()
            key = super().key(after)
            if key != DRAW and len(self.model.text) < max(MOST_RUNES, len(saved["text"]) + 1):
                return key
            self.restore(saved)

    # ---- Files

    def open(self, session, name):
        """Opens a file by its path, or goes to its window; where that can't be until the line is back, again."""
        while not self.tried_to_open(session, name):
            if session.shows(MENU_TITLE):
                session.keys("Escape")
            self.send(session, "\x1b[D")  # what it says goes with the next key
            wait_until(lambda: not self.could_not(session), "it stays")
        self.opened += 1
        self.show(name)
        self.send(session, "\x1b[1;5F")
        self.model.last()

    def tried_to_open(self, session, name):
        """Types a path in the menu. Returns whether its file is shown: if the line was gone for a moment, that is once it is back."""
        session.keys(MENU)
        session.type(name)
        session.keys("Enter")
        wait_until(
            lambda: session.goes_to(name) or self.could_not(session),
            lambda: f"{name} is not opened:\n" + "\n".join(session.screen()),
        )
        if not session.goes_to(name):
            self.wait_for_line(session)
            with contextlib.suppress(Failed):
                wait_until(lambda: session.goes_to(name), "", OPENED_WITHIN)
        return session.goes_to(name)

    def could_not(self, session):
        """Whether it says that a file can't be opened before the line is back."""
        return any(session.shows(f"{words} the line is back") for words in ("opened when", "done when", "can't act until"))

    def session(self, folder):
        return Session(folder, FILES[0], width=self.width, height=self.height, stays=True)

    # ---- All of it

    def go(self, folder):
        for name in FILES[:-1]:
            (folder / name).write_text(self.texts[name])
        with self.session(folder) as session:
            session.wait_to_go_to(FILES[0])
            session.wait_for_quiet()
            try:
                while self.breaks < self.most:
                    self.round(session)
                self.written(session, folder)
            except Failed as why:
                raise Failed(f"seed {self.seed}, after {self.breaks} breaks, {self.name}: {why}; {self.told[-60:]}") from why
            session.leave()

    def round(self, session):
        """Some keys over a line that breaks, a file that is written perhaps, another file perhaps; then all is as it should be."""
        choose = self.numbers.choice
        with self.broken(session):
            for key in self.keys(choose((4, 12, 25))):
                self.send(session, key)
                self.keys_typed += 1
                time.sleep(choose((0, 0, 0.05, 0.3)))
            if choose((True, False)):
                self.send(session, WRITE)
            if self.numbers.random() < 0.4:
                self.open(session, choose(FILES))
        self.check(session)

    def written(self, session, folder):
        """Each file is written, and has what the model says."""
        for name in self.models:
            self.open(session, name)
            self.send(session, WRITE)
            wait_for_text(folder / name, self.model.text)


# ---- One session, many kills

RELAY, HOST, TERMINAL = "relay", "samhost", "samterm"
KILLED = ((RELAY,), (HOST,), (TERMINAL,), (RELAY, HOST), (HOST, TERMINAL), (TERMINAL,), (HOST,))  # what is killed at once


class Killed:
    """A user who types numbered words at random places, cuts and pastes, and never loses one while samterm lives. What the host had got is
    never lost: its journal has it."""

    def __init__(self, folder, seed, kills):
        self.folder, self.numbers, self.most = folder, random.Random(seed), kills
        self.seed, self.words, self.kills, self.takeovers = seed, 0, 0, 0
        self.path = folder / "a.txt"
        self.path.write_text("".join(f"line {number}\n" for number in range(30)))
        self.model = Model(self.path.read_text(), 120)
        self.begin_anew(self.model.text)

    def begin_anew(self, text):
        """The text is known to be this; what was before doesn't count any more."""
        self.model.text, self.history = text, [text]  # after each key
        self.typed_at = {}  # after which key a word was there

    # ---- Keys

    def press(self, session, data, *acts):
        """Sends a key, or several at once, and notes what the text is after each."""
        session.tmux("send-keys", "-H", *(f"{code:x}" for code in data.encode()))
        for act in acts:
            act()
            self.history.append(self.model.text)

    def move(self, session):
        """Goes to some line."""
        choose, model = self.numbers.choice, self.model
        self.press(session, *choose((("\x1b[1;5H", model.first), ("\x1b[1;5F", model.last))))
        moves = (("\x1b[1;1B", model.down), ("\x1b[1;1A", model.up), ("\x1b[1;1F", model.end))
        for _ in range(choose((0, 2, 5))):
            code, act = choose(moves)
            self.press(session, code, lambda act=act: act(False))

    def step(self, session):
        """Goes somewhere and types a word, or changes what is there."""
        model, what = self.model, self.numbers.random()
        self.move(session)
        if what < 0.7 or len(model.text) < 200:
            self.words += 1
            word = f"<{self.words}>"
            self.press(session, word, *(lambda rune=rune: model.type(rune) for rune in word))
            self.typed_at[self.words] = len(self.history) - 1
        elif what < 0.8:
            self.press(session, "\x1b[200~(pasted)\n\x1b[201~", lambda: model.paste_of_the_screen("(pasted)\n"))
        elif what < 0.9:
            self.press(session, "\x7f" * 6, *[model.erase_left] * 6)
        else:
            self.press(session, WRITE)

    # ---- Kills

    def processes(self, session, names):
        """The processes of these names, as far as they are there."""
        found = {}
        with contextlib.suppress(StopIteration):
            found[TERMINAL] = session.terminal()
        with contextlib.suppress(ValueError, OSError):
            found[HOST] = host_of(self.folder)
        if TERMINAL in found:
            found[RELAY] = session.relay()
        return [found[name] for name in names if found.get(name) is not None]

    def kill(self, session):
        """Kills some of them at once. Returns whether samterm is one."""
        names = self.numbers.choice(KILLED)
        for process in self.processes(session, names):
            with contextlib.suppress(ProcessLookupError):
                os.kill(process, signal.SIGKILL)
                self.kills += 1
        return TERMINAL in names

    def reached(self):
        """The number of the last word of which the journal says that the host has got it; words go in order."""
        journals = (self.folder / STATE / "sulgrevad").glob("*/journal")
        return max((int(number) for journal in journals for number in re.findall(rb"<(\d+)>", journal.read_bytes())), default=0)

    # ---- What is there

    def check(self, session):
        """The host comes to have all that was typed, and writes it."""
        wait_until(lambda: not session.shows("LINE LOST"), lambda: "the line doesn't come back:\n" + "\n".join(session.screen()))
        session.wait_for_quiet()
        session.keys("C-w")
        wait_for_text(self.path, self.model.text)
        wait_until(lambda: session.shows(">  a.txt"), "it stays marked as changed")
        self.begin_anew(self.model.text)

    def come_back(self, session, reached):
        """Another samterm has a text that was there before, with all that the host had got."""
        wait_until(lambda: session.goes_to("a.txt"), lambda: "it doesn't come back:\n" + "\n".join(session.screen()))
        session.wait_for_quiet()
        if session.shows(">* a.txt"):
            session.keys("C-w")
            wait_until(lambda: session.shows(">  a.txt"), lambda: "it is not written:\n" + "\n".join(session.screen()))
        text = self.path.read_text()
        expect(text in self.history, f"it has a text that never was: {text!r}")
        last = len(self.history) - 1 - self.history[::-1].index(text)
        expect(last >= self.typed_at.get(reached, 0), f"the host had got <{reached}>, and its text is {text!r}")
        self.model = Model(text, 120)
        self.begin_anew(text)
        self.takeovers += 1
        self.press(session, "\x1b[1;5H", self.model.first)

    # ---- All of it

    def one_life(self, session):
        """Until samterm is killed, or there were enough kills. Returns what of the words the host had got by then; None at the end."""
        while self.kills < self.most:
            for _ in range(self.numbers.choice((1, 3, 6))):
                self.step(session)
                time.sleep(self.numbers.choice((0, 0.02, 0.2)))
            if self.kill(session):
                return self.reached()
            if self.numbers.random() < 0.3:
                self.check(session)
        self.check(session)
        session.leave()
        return None

    def go(self):
        take = None
        try:
            while True:
                (self.folder / "status").unlink(missing_ok=True)
                with Session(self.folder, *(["a.txt"] if take is None else []), stays=take is None, take=take, width=120) as session:
                    session.ends_staying = False
                    if take is None:
                        session.wait_for("line 1")
                        session.wait_for_quiet()
                    else:
                        self.come_back(session, reached)
                    reached = self.one_life(session)
                    session.ends_staying = reached is None
                if reached is None:
                    return
                take = ""
        except Failed as why:
            raise Failed(f"seed {self.seed}, after {self.kills} kills: {why}") from why
        finally:
            for lock in (self.folder / STATE / "sulgrevad").glob("*/lock"):
                with contextlib.suppress(OSError, ValueError):
                    os.kill(int(lock.read_text()), signal.SIGTERM)


# ---- A little of both, for ./test


def check_one_session_through_breaks(folder):
    """One session of several files goes through breaks with undo, writing and opening. tests/terminal/breaks --one tries 1,000."""
    run = OneSession(3, 25)
    run.go(folder)
    expect(run.opened > 3 and run.undos > 3, f"this test is wrong: it opens {run.opened} files, and takes back {run.undos} times")


def check_killed_at_random(folder):
    """Relay, samhost and samterm are killed at random moments, and nothing is lost. tests/terminal/breaks --kills kills 300 times."""
    run = Killed(folder, 4, 12)
    run.go()
    expect(run.takeovers > 0 and run.words > 10, f"this test is wrong: {run.takeovers} takeovers, {run.words} words")


# ---- A write that failed


def check_failed_write_through_breaks(folder):
    """A write that failed leaves the file marked, also after a break, a kill of samhost, and for who takes the session over. One that
    doesn't fail takes the mark away."""
    place = folder / "gone"
    place.mkdir()
    with Session(folder, "gone/a.txt", stays=True, width=120) as session:
        session.ends_staying = False
        session.wait_for(">  gone/a.txt")
        session.type("x")
        session.wait_for(">* gone/a.txt")
        place.rmdir()
        session.keys("C-w")
        session.wait_for("not written: gone/a.txt")
        session.wait_for_quiet()
        expect(session.shows(">* gone/a.txt"), "it is not marked as changed")
        for what, act in (("break", session.break_line), ("kill", lambda: os.kill(host_of(folder), signal.SIGKILL))):
            relay = session.relay()
            act()
            session.wait_for_another_line(relay)
            session.wait_for_quiet()
            expect(session.shows(">* gone/a.txt"), f"after a {what} it is not marked as changed")
        os.kill(session.terminal(), signal.SIGTERM)
        session.wait_for_end(128 + signal.SIGTERM)
    name = re.search(r"--take .+ ([0-9a-f]{16})$", (folder / "stderr").read_text(), re.MULTILINE)
    (folder / "status").unlink()
    with Session(folder, take=name[1]) as session:
        session.wait_for("it was not written before")
        session.wait_for(">* gone/a.txt")
        place.mkdir()
        session.keys("C-w")
        wait_for_text(place / "a.txt", "x")
        session.wait_for(">  gone/a.txt")
        session.leave()
