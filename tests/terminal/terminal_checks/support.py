"""What the checks of the editor have in common: sessions in tmux, and files."""
import contextlib
import os
import re
import shlex
import signal
import subprocess
import sys
import time
from pathlib import Path

from checks import LIBRARY, ROOT, SAMHOST, SECONDS, Failed, expect, wait_until

SAMTERM = ROOT / "editor/terminal/samterm"
SLOW = ROOT / "tools/delay"
SAMTERM_WORD, SAMHOST_WORD, SLOW_WORD = (shlex.quote(str(path)) for path in (SAMTERM, SAMHOST, SLOW))  # for a shell
PAGE, KEYS_PAGE = ROOT / "docs/howto/EDITOR.md", ROOT / "docs/reference/KEYS.md"
sys.path[:0] = [str(SAMTERM.parents[1]), str(ROOT / "bindings" / "python")]

LINK = 300  # milliseconds each way
COMMAND_WINDOW = "~~sam~~"  # its title
NOBODY = 65534  # a user who may not do what root may
STATE = ".state"  # the folder for what can't stand beside its file
LONG_LOAD = "0 2000"  # a line on which 120 KB take a minute, as tools/delay has it: so no machine is so busy that all is there
UNREAD, READ_AFTER = 0.5, 0.7  # seconds until which a line that stands on the screen counts as not read, and after which it was
HELD_DOWN = 0.15  # seconds within which the same key again is one that is held down
SECONDS_TO_ANSWER, MOST_ANSWERS = 5, 3  # seconds in which a question goes that a key has answered; and how often the key is pressed


def stat_of(process):
    """The fields of /proc/PROCESS/stat after the name; None where it is gone."""
    try:
        return Path(f"/proc/{process}/stat").read_text().rpartition(")")[2].split()
    except OSError:
        return None


def below(process):
    """The children of a process."""
    stats = {int(entry.name): stat_of(entry.name) for entry in Path("/proc").iterdir() if entry.name.isdecimal()}
    return [child for child, stat in stats.items() if stat is not None and int(stat[1]) == process]


def children_of(process):
    """The processes below a process, by the name of their command."""
    found = {}
    for entry in Path("/proc").iterdir():
        stat = stat_of(entry.name) if entry.name.isdecimal() else None
        if stat is not None and int(stat[1]) == process:
            try:
                found[Path(os.readlink(entry / "exe")).name] = int(entry.name)
            except OSError:
                continue
            found.update(children_of(int(entry.name)))
    return found


@contextlib.contextmanager
def stopped(process, what):
    """A process stands still meanwhile."""
    os.kill(process, signal.SIGSTOP)
    try:
        wait_until(lambda: stat_of(process)[0] == "T", f"{what} doesn't stop")
        yield process
    finally:
        with contextlib.suppress(ProcessLookupError):  # a check has killed it
            os.kill(process, signal.SIGCONT)


class Session:
    """A terminal in a tmux of its own."""

    def __init__(
        self, folder, *files, slow=None, width=80, height=24, settings="", program=SAMTERM, host=None, stays=False, take=None,
        details=True,
    ):
        """Where the session stays, it goes on through a line that breaks; with a name it is one that another has left. With details the
        status line says what goes over the line, by which the checks know when it is quiet."""
        self.folder, self.status_file = folder, folder / "status"
        self.ends_staying = True  # else the session is left at the host, for another
        self.tmux_words = ["tmux", "-S", str(folder / ".tmux"), "-f", "/dev/null", "-u"]
        words = host or (f"{SLOW_WORD} {slow} {SAMHOST_WORD}" if slow is not None else SAMHOST_WORD)
        host = f"--host {shlex.quote(words)}"
        host = "" if words == shlex.quote(str(ROOT / "out" / "samhost")) else host  # it is what samterm takes by itself
        host += "" if stays else " --stay 0"
        if take is not None:
            host = f"--take {shlex.quote(words)} {take}"
        host += " --details" if details and "samterm" in str(program) else ""
        program = shlex.quote(str(program)) if isinstance(program, Path) else program
        command = f"cd {shlex.quote(str(folder))}; {settings} {program} {host} {' '.join(files)} 2> stderr; echo $? > status; exec sleep 1000"
        own = {"TMPDIR": str(folder), "XDG_STATE_HOME": str(folder / STATE)}
        environment = {**os.environ, "SAM_LIBRARY": str(LIBRARY), "LC_ALL": "C.UTF-8", "SHELL": "/bin/sh", **own}
        words = [*self.tmux_words, "new-session", "-d", "-x", str(width), "-y", str(height), command]
        wait_until(lambda: subprocess.run(words, env=environment, capture_output=True).returncode == 0, "tmux doesn't begin")  # or ends still

    def __enter__(self):
        return self

    def __exit__(self, *_):
        """Ends all of it, and waits for that: what still ends may save a text."""
        processes = list(self.processes().values()) if self.is_there() else []
        subprocess.run([*self.tmux_words, "kill-server"], capture_output=True)
        processes += self.end_staying() if self.ends_staying else []
        until = time.monotonic() + SECONDS
        while time.monotonic() < until and any((stat_of(process) or "Z")[0] != "Z" for process in processes):
            time.sleep(0.01)

    def end_staying(self):
        """Ends the sessions that stay. Answers the processes of their hosts, which their locks name."""
        hosts = []
        for lock in (self.folder / STATE / "sulgrevad").glob("*/lock"):
            with contextlib.suppress(OSError, ValueError):
                hosts.append(int(lock.read_text()))
                os.kill(hosts[-1], signal.SIGTERM)
        return hosts

    def is_there(self):
        return subprocess.run([*self.tmux_words, "has-session"], capture_output=True).returncode == 0

    def tmux(self, *words, **more):
        return subprocess.run([*self.tmux_words, *words], check=True, capture_output=True, timeout=SECONDS, **more).stdout.decode()

    def keys(self, *names):
        self.tmux("send-keys", *names)

    def type(self, text):
        self.tmux("send-keys", "-l", text)

    def mouse(self, *events):
        """The bytes that a terminal sends for events (button, column, row), all at once: 0 pressed, 3 released, 64 and 65 the wheel."""
        codes = (code for button, column, row in events for code in (27, 91, 77, 32 + button, 33 + column, 33 + row))
        self.tmux("send-keys", "-H", *(f"{code:x}" for code in codes))

    def goes_to(self, name):
        """Whether the keys go to the window with a title."""
        return any(re.fullmatch(rf">[ *] {re.escape(name)}\s*", line) for line in self.screen())

    def wait_to_go_to(self, name):
        wait_until(lambda: self.goes_to(name), lambda: f"keys don't go to {name}:\n" + "\n".join(self.screen()))

    def switch(self):
        """Goes to the command window, or back. It waits until that shows: the editor takes Esc and a byte soon after it for one key."""
        before = self.goes_to(COMMAND_WINDOW)
        self.keys("Escape")
        wait_until(lambda: self.goes_to(COMMAND_WINDOW) != before, lambda: "Esc doesn't switch:\n" + "\n".join(self.screen()))

    def open_command_file(self):
        """Goes to the command window and back, so that it is there where the line breaks."""
        for _ in range(2):
            self.switch()
            self.wait_for_quiet()

    def command(self, line):
        """Runs a command line, and goes back."""
        self.switch()
        self.type(line)
        self.keys("Enter")
        self.switch()

    def stopped_host(self):
        """The host stands still meanwhile, as behind a line that is as slow as a check needs: it takes nothing, and answers nothing."""
        return stopped(self.processes()[SAMHOST.name], "the host")

    @contextlib.contextmanager
    def stopped_host_at_rest(self):
        """The same from a moment on at which nothing is loaded ahead: for two seconds after a key nothing is."""
        while True:
            self.keys("Left")
            self.wait_for_quiet()
            with self.stopped_host() as host:
                if self.is_quiet():
                    yield host
                    return

    def rename(self, name):
        """Names the file that was used last."""
        self.command(f"f {name}")
        wait_until(lambda: self.rows(name), lambda: f"no file is named {name}:\n" + "\n".join(self.screen()))

    def screen(self):
        return self.tmux("capture-pane", "-p").rstrip("\n").split("\n")

    def shows(self, text):
        return any(text in line for line in self.screen())

    def wait_for(self, text, seconds=None):
        wait_until(lambda: self.shows(text), lambda: f"no {text!r} on the screen:\n" + "\n".join(self.screen()), seconds)

    def wait_for_quiet(self):
        wait_until(self.is_quiet, lambda: "it never gets quiet:\n" + "\n".join(self.screen()))

    def is_quiet(self):
        """Whether no lock is held, nothing waits, and no message is told of as on the way."""
        line = self.status()
        return "free" in line and not any(word in line for word in ("held", "unsent", "on the way"))

    def rows(self, name):
        """The rows of the window with a title; none while it isn't drawn."""
        lines = self.screen()
        at = next((at for at, line in enumerate(lines) if re.fullmatch(rf"[> ][* ] {re.escape(name)}\s*", line)), None)
        if at is None:
            return []
        end = next((end for end in range(at + 1, len(lines)) if "| up " in lines[end]), len(lines))
        return [row.rstrip() for row in lines[at + 1 : end]]

    def status(self):
        """The status line; empty while it isn't drawn."""
        return next((line for line in self.screen() if "| up " in line), "")

    def wait_for_seconds(self, words, least):
        """Waits until the status line has these words and at least so many seconds: no machine is so busy that all greater ones pass."""

        def told():
            found = re.search(rf"{words} (\d+) s", self.status())
            return found is not None and int(found[1]) >= least

        wait_until(told, lambda: f"it doesn't tell {words!r} and {least} s: {self.status()}")

    def held(self):
        """How many keys wait."""
        found = re.search(r"\| held (\d+)", self.status())
        return int(found[1]) if found else 0

    def bytes_down(self):
        return int(re.search(r"down (\d+)", "\n".join(self.screen())).group(1))

    def processes(self):
        return children_of(int(self.tmux("display-message", "-p", "#{pane_pid}")))

    def wait_for_end(self, status):
        wait_until(lambda: self.status_file.exists() and self.status_file.read_text(), "it doesn't end")
        got = int(self.status_file.read_text())
        expect(got == status, f"it ends with {got}, wanted {status}; it told: {(self.folder / 'stderr').read_text()}")

    def leave(self):
        self.wait_for_quiet()
        self.keys("C-q")
        self.wait_for_end(0)

    def line_with(self, words):
        """The first line of the screen that has these words; empty where none has."""
        return next((line for line in self.screen() if words in line), "")

    def answer(self, question, key):
        """Answers a question once it stands on the screen, as someone who has read it. An editor that was held up takes a key for an early
        one, and asks on: then it is pressed again."""
        asked = wait_until(lambda: self.line_with(question), lambda: f"nobody asks {question!r}:\n" + "\n".join(self.screen()))
        for _ in range(MOST_ANSWERS):
            time.sleep(READ_AFTER)
            self.keys(key)
            with contextlib.suppress(Failed):
                wait_until(lambda: self.line_with(question) != asked, "it stays", SECONDS_TO_ANSWER)
                return

    def told(self):
        """The line that the host told, or another program in its place, where one stands there; else empty."""
        return next((line for line in self.screen() if line.startswith(("samhost: ", "the host's command printed: "))), "")

    def read(self, *wanted):
        """Reads what the host told, line after line, until nothing more stands there, and each of these words has come. Answers the lines.
        An editor that was held up takes a key for an early one: then it is pressed again."""
        lines = []

        def missing():
            return [words for words in wanted if not any(words in line for line in lines)]

        while self.told() or missing():
            line = wait_until(self.told, lambda: f"nobody tells {missing()}, but {lines}:\n" + "\n".join(self.screen()))
            lines += [line] if line not in lines else []
            time.sleep(READ_AFTER)
            self.keys("Left")
            with contextlib.suppress(Failed):
                wait_until(lambda: self.told() != line, "it stays", 2)
        return lines

    def leave_unwritten(self, status=0):
        self.wait_for_quiet()
        self.keys("C-q")
        self.answer("not written", "C-q")
        self.wait_for_end(status)

    def relay(self):
        """The process that carries the bytes of a session that stays; None between two."""
        terminal = next(iter(below(int(self.tmux("display-message", "-p", "#{pane_pid}")))), None)
        return next((process for process in below(terminal) if (stat_of(process) or "Z")[0] != "Z"), None)

    def break_line(self, number=signal.SIGKILL):
        """Ends the process that carries the bytes. Answers which that was."""
        relay = wait_until(self.relay, "there is no line to break")
        with contextlib.suppress(ProcessLookupError):
            os.kill(relay, number)
        return relay

    def wait_for_another_line(self, relay):
        """Waits until another process carries the bytes than this one."""
        wait_until(lambda: self.relay() not in (None, relay), "the line is not tried again")

    def stopped_line(self):
        """The line stands still meanwhile: nothing goes over it, and nobody says so."""
        return stopped(wait_until(self.relay, "there is no line to stop"), "the line")

    def stopped_terminal(self):
        """samterm stands still meanwhile, and then finds all that came at once."""
        return stopped(self.terminal(), "samterm")

    def terminal(self):
        """The process of samterm."""
        return next(process for name, process in self.processes().items() if name.startswith("python"))


def change_two(session):
    """Types `x` into the first file, `one`, and `y` into the second, `two`."""
    session.wait_for("one")
    session.type("x")
    session.keys("C-t")
    session.wait_for("two")
    session.type("y")
    session.wait_for("ytwo")
    session.wait_for_quiet()


def made(folder, **texts):
    """Files NAME.txt with their texts; answers their paths."""
    paths = []
    for name, text in texts.items():
        paths.append(folder / f"{name}.txt")
        paths[-1].write_text(text, newline="")
    return paths


def wait_for_text(path, text):
    def wrong():
        got = path.read_text() if path.exists() else "no file"
        return f"{path.name} has {got[:200]!r}, wanted {text[:200]!r}"

    wait_until(lambda: path.exists() and path.read_text() == text, wrong)


def not_of_root(folder, command):
    """A command that another user runs where root would; the folder is open to all."""
    folder.chmod(0o777)
    return command if os.geteuid() != 0 else f"setpriv --reuid={NOBODY} --regid={NOBODY} --clear-groups {command}"


def host_that(folder, *lines):
    """A host's command that does something more, by lines for the shell."""
    path = folder / "host"
    path.write_text("\n".join(("#!/bin/sh", *lines, "")))
    path.chmod(0o755)
    return shlex.quote(str(path))
