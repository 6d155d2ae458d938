"""The split editors of examples/split, in Python and in C, over a line that is slow and cut, with a terminal or a host that is killed."""
import contextlib
import os
import shlex
import shutil
import signal
import socket
import subprocess
import sys
import threading
import time
from typing import List, NamedTuple

from checks import LIBRARY, ROOT, SECONDS, Failed, Skipped, expect, expect_equal, wait_until

from .programs import build_disk

sys.path.append(str(ROOT / "bindings/python"))

SPLIT = ROOT / "examples/split"
NAME = "notes.txt"
SETTING = {"PYTHONPATH": str(ROOT / "bindings/python"), "PYTHONDONTWRITEBYTECODE": "1", "LC_ALL": "C.UTF-8", "SHELL": "/bin/sh"}
STOOD = 1.1  # seconds for which a connection stands, so that the pauses between connections begin anew
DELAY = 0.15  # seconds that a byte takes each way on a slow line
HELLO_BYTES = 42
MOST_PIECE = 50  # bytes that are carried together, so that a cut falls between few of them
CC = [*(os.environ.get("CC") or "cc").split(), "-std=c11", "-Wall", "-Wextra", "-Wpedantic", "-Wshadow", "-Werror", "-O1"]
REST = 1.0  # seconds in which a terminal that has something to send sends a piece of it


class Line:
    """A line to the host's socket, which can be slow, and cut. What is on it then is lost."""

    def __init__(self, place, host):
        self.host, self.delay, self.is_cut, self.connections = host, 0.0, False, []
        self.sent = 0  # bytes to the host over the newest connection
        self.count = 0  # of all connections
        self.lock = threading.Lock()
        self.listener = socket.socket(socket.AF_UNIX)
        self.listener.bind(str(place))
        self.listener.listen()
        threading.Thread(target=self.accept, daemon=True).start()

    def accept(self):
        while True:
            near, _ = self.listener.accept()
            with self.lock:
                if self.is_cut:
                    near.close()
                    continue
                far = socket.socket(socket.AF_UNIX)
                try:
                    far.connect(str(self.host.place))
                except OSError:  # it was killed
                    near.close()
                    continue
                self.connections += [near, far]
                self.sent = 0
                self.count += 1
            for source, target in ((near, far), (far, near)):
                threading.Thread(target=self.carry, args=(source, target), daemon=True).start()

    def carry(self, source, target):
        with contextlib.suppress(OSError):
            while data := source.recv(MOST_PIECE):
                time.sleep(self.delay)
                target.sendall(data)
                self.sent += len(data) if source in self.connections[::2] else 0
        for end in (source, target):
            with contextlib.suppress(OSError):
                end.shutdown(socket.SHUT_RDWR)

    def cut(self):
        """Ends all connections, and lets none begin until `mend`."""
        with self.lock:
            self.is_cut = True
            while self.connections:
                with contextlib.suppress(OSError):
                    self.connections.pop().shutdown(socket.SHUT_RDWR)

    def mend(self):
        self.is_cut = False

    def wait_for_rest(self):
        """Waits until all that the terminal has for the host was carried over the newest connection."""
        wait_until(lambda: self.sent > HELLO_BYTES, "the terminal doesn't go on")
        sent = 0
        while sent != self.sent:
            sent = self.sent
            time.sleep(REST)


class Screen:
    """A terminal of the split editor on a screen of its own."""

    def __init__(self, folder, pair, place):
        self.words = ["tmux", "-S", str(folder / f"{place.name}.tmux"), "-f", "/dev/null", "-u"]
        self.stderr = folder / f"{place.name}.stderr"
        command = f"exec {shlex.join([*pair.terminal, str(place)])} 2> {shlex.quote(str(self.stderr))}"
        setting = dict(os.environ, **SETTING)
        words = [*self.words, "new-session", "-d", "-x", "80", "-y", "24", command]
        wait_until(lambda: subprocess.run(words, env=setting, cwd=folder, capture_output=True).returncode == 0, "tmux doesn't begin")

    def tmux(self, *words):
        ran = subprocess.run([*self.words, *words], capture_output=True, text=True)
        if ran.returncode != 0:
            raise Failed(f"the terminal has ended: {self.stderr.read_text()}")
        return ran.stdout

    def press(self, *keys):
        self.tmux("send-keys", *keys)

    def type(self, text):
        self.tmux("send-keys", "-l", text)

    @property
    def lines(self):
        """The line that says how things stand, and those of the text, with the bar for the caret."""
        return self.tmux("capture-pane", "-p").rstrip("\n").split("\n")

    @property
    def text(self):
        return "\n".join(self.lines[1:]).replace("|", "").rstrip("\n")

    def wait_for(self, text):
        wait_until(lambda: self.text == text.rstrip("\n"), lambda: f"the screen doesn't show {text!r}:\n" + "\n".join(self.lines))

    def wait_for_state(self, state):
        wait_until(lambda: self.lines[0].strip() == state, lambda: f"the first line isn't {state!r}:\n" + "\n".join(self.lines))

    def wait_for_end(self):
        words = [*self.words, "has-session"]
        wait_until(lambda: subprocess.run(words, capture_output=True).returncode != 0, "the terminal doesn't end")

    def kill(self):
        os.kill(int(self.tmux("display", "-p", "#{pane_pid}")), signal.SIGKILL)

    def close(self):
        subprocess.run([*self.words, "kill-server"], capture_output=True)


class Pair(NamedTuple):
    """The commands of a host and of a terminal."""

    host: List[str]
    terminal: List[str]


def in_python(_folder):
    return Pair(*([sys.executable, str(SPLIT / f"{name}.py")] for name in Pair._fields))


def in_c(folder):
    """The pair in C, which is compiled here."""
    if not shutil.which(CC[0]):
        raise Skipped(f"{CC[0]} is not installed")
    for name in Pair._fields:
        words = [*CC, f"-I{ROOT / 'include'}", str(SPLIT / f"{name}.c"), str(LIBRARY.with_name("libsulgrevad.a")), "-o", str(folder / name)]
        ran = subprocess.run(words, capture_output=True, text=True)
        expect(ran.returncode == 0, ran.stderr)
    return Pair(*([str(folder / name)] for name in Pair._fields))


class Host:
    """The host of a pair, which may be killed and started again."""

    def __init__(self, folder, pair, more=()):
        self.folder, self.pair, self.place = folder, pair, folder / f"{NAME}.socket"
        self.setting = dict(os.environ, **SETTING, **dict(more))
        self.start()

    def start(self):
        self.place.unlink(missing_ok=True)
        with open(self.folder / "host.stderr", "w") as told:
            self.process = subprocess.Popen([*self.pair.host, NAME], cwd=self.folder, env=self.setting, stderr=told)
        wait_until(lambda: self.place.exists() or self.process.poll() is not None, "the host doesn't begin")
        self.expect_alive()

    def expect_alive(self):
        expect(self.process.poll() is None, f"the host has ended: {(self.folder / 'host.stderr').read_text()}")

    def kill(self):
        self.process.kill()
        self.process.wait()


@contextlib.contextmanager
def served(folder, pair, text, more=()):
    """A host with this text, and a line to it."""
    if not shutil.which("tmux"):
        raise Skipped("tmux is not installed")
    (folder / NAME).write_text(text)
    host = Host(folder, pair, more)
    try:
        yield Line(folder / "line", host)
        host.expect_alive()
    finally:
        host.kill()


@contextlib.contextmanager
def shown(folder, pair, place="line"):
    screen = Screen(folder, pair, folder / place)
    try:
        yield screen
    finally:
        screen.close()


def saved(folder, screen, text):
    """Waits until screen and disk have a text, once it is saved."""
    screen.wait_for(text)
    screen.press("C-w")
    wait_until(lambda: (folder / NAME).read_text() == text, lambda: f"the file is {(folder / NAME).read_text()!r}, not {text!r}")


def goes_on(folder, pair):
    """Over a slow line that is cut nine times, also while keys are typed, screen and disk have the same text at the end."""
    with served(folder, pair, "Shopping\n") as line, shown(folder, pair) as screen:
        screen.wait_for("Shopping\n")
        screen.wait_for_state("")
        screen.press(*["Right"] * 9)
        typed = "Shopping\n"
        line.delay = DELAY
        for number in range(9):
            word = f"word {number}\n"
            screen.type(word[:4])
            if number % 3 != 0:  # else the connection is cut while its hello or those keys are on the way
                time.sleep(DELAY * number)
            line.cut()
            screen.wait_for_state("no connection")
            screen.type(word[4:-1])
            screen.press("Enter")
            typed += word
            screen.wait_for(typed)  # keys show at once, also without a connection
            line.mend()
            if number % 3 != 2:
                screen.wait_for_state("")
        screen.press("BSpace", "BSpace", "x", "Enter")
        screen.press("C-w", "a", "b", "BSpace", "Enter")
        saved(folder, screen, typed[:-2] + "x\na\n")


def shows_at_once(folder, pair):
    """Keys show at once while the text is saved, though the host doesn't answer; and what is saved is without them."""
    with served(folder, pair, "Shopping\n") as line, shown(folder, pair) as screen:
        screen.wait_for("Shopping\n")
        screen.type("now ")
        screen.wait_for("now Shopping\n")
        line.wait_for_rest()
        os.kill(line.host.process.pid, signal.SIGSTOP)
        try:
            screen.press("C-w")
            screen.type("and then ")
            screen.wait_for("now and then Shopping\n")
        finally:
            os.kill(line.host.process.pid, signal.SIGCONT)
        wait_until(lambda: (folder / NAME).read_text() == "now Shopping\n", lambda: f"the file is {(folder / NAME).read_text()!r}")
        saved(folder, screen, "now and then Shopping\n")


def is_killed(folder, pair):
    """A terminal is killed, and the next one has all that has come to the host. It saves that."""
    with served(folder, pair, "Shopping\n") as line:
        with shown(folder, pair) as screen:
            screen.wait_for("Shopping\n")
            screen.type("not saved: ")
            screen.wait_for("not saved: Shopping\n")
            line.cut()  # what has not come by now comes with the next connection
            line.mend()
            line.wait_for_rest()
            screen.kill()
        expect_equal((folder / NAME).read_text(), "Shopping\n")
        with shown(folder, pair) as screen:
            screen.wait_for("not saved: Shopping\n")
            screen.type("now ")
            saved(folder, screen, "now not saved: Shopping\n")


def save_fails(folder, pair):
    """A write that fails is told, and loses nothing: a second try writes the text."""
    with served(folder, pair, "Shopping\n") as line, shown(folder, pair) as screen:
        screen.wait_for("Shopping\n")
        screen.type("now ")
        screen.wait_for("now Shopping\n")
        in_the_way = folder / f"{NAME}.new"
        in_the_way.mkdir()
        screen.press("C-w")
        wait_until(lambda: "not written" in screen.lines[0], lambda: f"it doesn't tell: {screen.lines[0]}")
        in_the_way.rmdir()
        screen.type("and then ")
        saved(folder, screen, "now and then Shopping\n")
        screen.wait_for_state("")
        expect_equal(line.count, 1)


def is_taken_over(folder, pair, is_cut):
    """A second terminal takes the text over. The first one, with a connection or without, is refused, and what it types changes nothing."""
    with served(folder, pair, "Shopping\n") as line, shown(folder, pair) as first:
        first.wait_for("Shopping\n")
        if is_cut:
            line.cut()
            first.wait_for_state("no connection")
        with shown(folder, pair, f"{NAME}.socket") as second:
            second.wait_for("Shopping\n")
            second.type("new ")
            saved(folder, second, "new Shopping\n")
            with contextlib.suppress(Failed):  # it may have been refused, and have ended, before it can type
                first.type("old ")
            line.mend()
            wait_until(lambda: "LINK_OTHER_SESSION" in first.stderr.read_text(), "the first terminal isn't refused")
            second.type("and ")
            saved(folder, second, "new and Shopping\n")


def is_left(folder, pair):
    """^C leaves at once if the host has all, and by a second one if it hasn't, which is told. The next terminal has what the host has."""
    with served(folder, pair, "Shopping\n") as line:
        with shown(folder, pair) as screen:
            screen.wait_for("Shopping\n")
            screen.type("new ")
            screen.wait_for("new Shopping\n")
            line.wait_for_rest()
            screen.press("C-c")
            screen.wait_for_end()
        (folder / "line.tmux").unlink(missing_ok=True)
        with shown(folder, pair) as screen:
            screen.wait_for("new Shopping\n")
            line.cut()
            screen.wait_for_state("no connection")
            screen.type("lost ")
            screen.wait_for("lost new Shopping\n")
            screen.press("C-c")
            screen.wait_for_state("no connection the host hasn't all yet; ^C again leaves")
            screen.press("C-c")
            screen.wait_for_end()
        line.mend()
        (folder / "line.tmux").unlink(missing_ok=True)
        with shown(folder, pair) as screen:
            screen.wait_for("new Shopping\n")


def other_keys(folder, pair):
    """Keys of several bytes that do nothing here put nothing in, and neither does Escape; a tab comes in."""
    with served(folder, pair, "Shopping\n"), shown(folder, pair) as screen:
        screen.wait_for("Shopping\n")
        screen.press("DC", "PPage", "F5", "C-Right", "C-a", "Escape")
        for key in ("a", "Tab", "b"):
            screen.press(key)
        wanted = "a\tbShopping\n"
        screen.wait_for(wanted.expandtabs())
        screen.press("C-w")
        wait_until(lambda: (folder / NAME).read_text() == wanted, lambda: f"the file is {(folder / NAME).read_text()!r}")


def keys_wait(folder, pair):
    """What is typed before the text has come stands in it."""
    with served(folder, pair, "Shopping\n") as line:
        line.cut()
        with shown(folder, pair) as screen:
            screen.wait_for_state("no connection")
            screen.type("now ")
            line.mend()
            saved(folder, screen, "now Shopping\n")


def is_full(folder, pair):
    """A key for which the text has no room is told of, and the next one that needs none does its work."""
    text = "line of 16 runes" * 62_500
    with served(folder, pair, text), shown(folder, pair, f"{NAME}.socket") as screen:
        wait_until(lambda: "line of" in screen.text, "the text doesn't come")
        screen.type("x")
        wait_until(lambda: "REFUSAL_TOO_LONG" in screen.lines[0], lambda: f"it doesn't tell: {screen.lines[0]}")
        screen.press("Right", "BSpace", "C-w")
        wait_until(lambda: (folder / NAME).read_text() == text[1:], "the next keys do nothing")


def is_safe(folder, pair):
    """A text is safe on the disk before it takes the name of the old one, and then its name is. Returns what was done to names, and what
    became safe, in order."""
    notes, library = folder / "notes", build_disk(folder)
    with served(folder, pair, "Shopping\n", {"LD_PRELOAD": str(library), "NOTED": str(notes)}), shown(folder, pair, f"{NAME}.socket") as screen:
        screen.wait_for("Shopping\n")
        screen.type("now ")
        saved(folder, screen, "now Shopping\n")
        screen.press("C-w")  # which is answered once all of the first one is done
        rename = f"rename {NAME}.new {NAME}"
        wait_until(lambda: notes.read_text().count(rename) == 2, lambda: f"it has noted {notes.read_text()}")
    lines = notes.read_text().splitlines()
    at = lines.index(rename)
    expect(f"sync {folder / NAME}.new" in lines[:at], f"a text that isn't safe takes the old one's name: {lines}")
    expect_equal(lines[at + 1], f"sync {folder}")
    return lines


def has_one_host(folder, pair):
    """A second host of the file ends, and the first one keeps its terminal."""
    with served(folder, pair, "Shopping\n") as line, shown(folder, pair) as screen:
        screen.wait_for("Shopping\n")
        screen.wait_for_state("")
        words = [*pair.host, NAME]
        second = subprocess.run(words, cwd=folder, env=line.host.setting, capture_output=True, text=True, timeout=SECONDS)
        expect((second.returncode, "Address already in use" in second.stderr) == (1, True), f"it ends by {second}")
        line.cut()
        screen.type("now ")
        line.mend()
        screen.wait_for_state("")
        saved(folder, screen, "now Shopping\n")


def check_split_editor(folder):
    goes_on(folder, in_python(folder))


def check_split_editor_in_c(folder):
    goes_on(folder, in_c(folder))


def check_split_editor_shows_at_once(folder):
    shows_at_once(folder, in_python(folder))


def check_split_editor_in_c_shows_at_once(folder):
    shows_at_once(folder, in_c(folder))


def check_split_editor_is_killed(folder):
    is_killed(folder, in_python(folder))


def check_split_editor_in_c_is_killed(folder):
    is_killed(folder, in_c(folder))


def check_split_editor_in_c_host_is_killed(folder):
    """The host is killed eight times, while keys are typed, and goes on: what was typed is on the screen, and then on the disk."""
    pair, typed = in_c(folder), ""
    with served(folder, pair, "Shopping\n") as line, shown(folder, pair) as screen:
        screen.wait_for("Shopping\n")
        for number in range(8):
            for letter in f"w{number} ":  # each in a record of its own
                screen.type(letter)
                time.sleep(DELAY * (number % 3) / 3)
            line.host.kill()
            screen.type("x ")
            typed += f"w{number} x "
            screen.wait_for(f"{typed}Shopping\n")
            if number % 2:
                screen.press("C-w")
            line.host.start()
            screen.wait_for_state("")
            time.sleep(STOOD)
        saved(folder, screen, f"{typed}Shopping\n")


def check_split_editor_save_fails(folder):
    save_fails(folder, in_python(folder))


def check_split_editor_in_c_save_fails(folder):
    save_fails(folder, in_c(folder))


def check_split_editor_taken_over(folder):
    is_taken_over(folder, in_python(folder), False)


def check_split_editor_in_c_taken_over(folder):
    is_taken_over(folder, in_c(folder), False)


def check_split_editor_taken_over_without_a_connection(folder):
    is_taken_over(folder, in_python(folder), True)


def check_split_editor_in_c_taken_over_without_a_connection(folder):
    is_taken_over(folder, in_c(folder), True)


def check_split_editor_is_left(folder):
    is_left(folder, in_python(folder))


def check_split_editor_in_c_is_left(folder):
    is_left(folder, in_c(folder))


def check_split_editor_other_keys(folder):
    other_keys(folder, in_python(folder))


def check_split_editor_in_c_other_keys(folder):
    other_keys(folder, in_c(folder))


def check_split_editor_keys_wait(folder):
    keys_wait(folder, in_python(folder))


def check_split_editor_in_c_keys_wait(folder):
    keys_wait(folder, in_c(folder))


def check_split_editor_is_full(folder):
    is_full(folder, in_python(folder))


def check_split_editor_in_c_is_full(folder):
    is_full(folder, in_c(folder))


def check_split_editor_is_safe(folder):
    is_safe(folder, in_python(folder))


def check_split_editor_in_c_is_safe(folder):
    """So are the journal and its name."""
    lines = is_safe(folder, in_c(folder))
    at = lines.index(f"rename {NAME}.journal.new {NAME}.journal")
    expect(f"sync {folder / NAME}.journal.new" in lines[:at], f"a journal that isn't safe takes its name: {lines}")
    expect_equal(lines[at + 1], f"sync {folder}")


def check_split_editor_has_one_host(folder):
    has_one_host(folder, in_python(folder))


def check_split_editor_in_c_has_one_host(folder):
    has_one_host(folder, in_c(folder))


def check_split_editor_in_c_new_file(folder):
    """A file that a terminal makes is not written, in the place of the text least of all, and the host goes on."""
    from sulgrevad import Link, Terminal

    with served(folder, in_c(folder), "Shopping\n") as line, socket.socket(socket.AF_UNIX) as connection:
        link, terminal = Link(Link.TERMINAL, bytes(16)), Terminal()
        connection.settimeout(SECONDS)
        connection.connect(str(line.host.place))
        attempt = link.call(True)
        connection.sendall(link.take_out(attempt, HELLO_BYTES))
        link.welcomed(connection.recv(HELLO_BYTES, socket.MSG_WAITALL))
        terminal.offer_version(2)
        terminal.new_file()
        terminal.type(2, "other")
        terminal.write(2)
        while (note := link.next_note()) is None:
            link.put(terminal.take_out())
            connection.sendall(link.take_out(attempt))
            came = connection.recv(4096)
            expect(came, "the host has ended")
            link.feed(attempt, came)
            while data := link.take_in():
                terminal.feed(data)
        expect_equal((note, terminal.text(2)), (b"not written: it is another file", "other"))
    expect_equal((folder / NAME).read_text(), "Shopping\n")


def check_split_editor_in_c_long_file(folder):
    """A file that is longer than a text can be is refused whole."""
    pair, text = in_c(folder), "\U0001d11e" * 1_000_000 + "x"
    with contextlib.suppress(Failed), served(folder, pair, text) as line, shown(folder, pair):
        wait_until(lambda: line.host.process.poll() is not None, "the host serves it")
    expect_equal((line.host.process.returncode, (folder / "host.stderr").read_text()), (1, f"{NAME}: File too large\n"))
    expect_equal(sorted(path.name for path in folder.glob(f"{NAME}*")), [NAME, f"{NAME}.socket"])
    expect((folder / NAME).read_text() == text, "the file is another")
