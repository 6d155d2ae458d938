"""A terminal whose line to a session that stays breaks: a relay's process, and a link's end."""
import contextlib
import os
import select
import shutil
import signal
import subprocess
import time
from pathlib import Path

import sulgrevad
from checks import GIVEN_UP, SECONDS, Skipped, expect, times_longer, wait_until
from link_model import HELLO_BYTES, MARK, Link, read_whole

from .support import SAMHOST, expect_equal, said_in


def state_of(folder):
    """Where the folders of sessions lie."""
    return folder / "temporary" / "sulgrevad"


def home_of(folder, name):
    return state_of(folder) / name


def pid_of(folder, name):
    """The process of a session, as its lock says."""
    return int((home_of(folder, name) / "lock").read_text())


def is_running(pid):
    """Whether a process is there, and has not ended."""
    try:
        return Path(f"/proc/{pid}/stat").read_text().rpartition(")")[2].split()[0] != "Z"
    except (FileNotFoundError, ProcessLookupError):
        return False


def expect_gone(folder, staying):
    """The session has ended, and left no folder."""
    wait_until(lambda: not home_of(folder, staying.name).exists(), "its folder stays")


def traced(log, calls):
    """Words that run a command, and have strace note in a file its calls of these names, with paths, and without other texts."""
    if shutil.which("strace") is None:
        raise Skipped("no strace")
    return ("strace", "-f", "-qq", "-y", "-s", "0", "-o", log, "-e", f"trace={calls}")


@contextlib.contextmanager
def with_calls(pid, *words):
    """Has strace do something to calls of a process, as these words of it say, until this ends or the process does."""
    if shutil.which("strace") is None:
        raise Skipped("no strace")
    command = ("strace", "-qq", "-f", "-o", "/dev/null", "-p", str(pid), *(word for each in words for word in ("-e", each)))
    with subprocess.Popen(command, stderr=subprocess.DEVNULL) as tracer:
        wait_until(lambda: "TracerPid:\t0\n" not in Path(f"/proc/{pid}/status").read_text(), "it is not traced")
        try:
            yield
        finally:
            tracer.terminate()


class Staying:
    """A terminal, and the line to its session: the relay that it runs now. A line that breaks is made anew."""

    def __init__(self, folder, *files, options=(), begin=True, takes=None, prefix=(), kind=Link, id=None):
        """With `takes` it takes over the session of that name, or the only one where it is empty. The words of `prefix` run the first
        relay, and `kind` makes the link's end. With an `id` that is the session's."""
        self.folder, self.id = folder, id or os.urandom(16)
        self.name = self.id[:8].hex()
        place = str(folder / "temporary")
        self.environment = {**os.environ, "TMPDIR": place, "XDG_STATE_HOME": place}
        self.link, self.terminal = kind(kind.TERMINAL, self.id), sulgrevad.Terminal()
        self.messages, self.errors, self.breaks, self.left = [], b"", 0, None
        self.prefix = prefix  # words that run the next relay; none run those after it
        self.process, self.others, self.takes_over = None, [], takes is not None
        self.start(*(["--serve", self.name, *options, "--", *files] if takes is None else ["--take", *([takes] if takes else [])]))
        if begin:
            self.begin()

    def begin(self):
        self.terminal.open_cmd()
        self.terminal.offer_version(2)
        self.settle()
        for tag in self.terminal.files():
            if tag != 0 and not self.terminal.name(tag).startswith("~~"):
                self.terminal.open(tag)
        self.settle()

    def __enter__(self):
        return self

    def __exit__(self, *_):
        self.abandon()
        for process in self.others:
            process.kill()
            process.wait()
            for end in (process.stdin, process.stdout, process.stderr):
                end.close()
        try:
            os.kill(pid_of(self.folder, self.name), signal.SIGKILL)
        except (FileNotFoundError, ValueError, ProcessLookupError, NotADirectoryError):
            pass
        self.terminal.free()

    def run(self, *words):
        return subprocess.run([SAMHOST, *words], cwd=self.folder, env=self.environment, capture_output=True, text=True, timeout=GIVEN_UP)

    # Lines

    def start(self, *words):
        """Opens a connection by a relay of these words."""
        pipe = subprocess.PIPE
        prefix, self.prefix = self.prefix, ()
        self.process = subprocess.Popen(
            [*prefix, SAMHOST, *words], cwd=self.folder, env=self.environment, stdin=pipe, stdout=pipe, stderr=pipe, bufsize=0
        )
        self.attempt, self.came, self.is_welcomed = self.link.call(self.takes_over), b"", False
        self.asked_at = -1

    def attach(self):
        self.start("--attach", self.name)

    def abandon(self):
        """Gives the connection up, and leaves the relay alone."""
        if self.process is not None:
            self.others.append(self.process)
            self.link.broken(self.attempt)
            self.process = None

    def drop(self):
        """Breaks the connection."""
        if self.process is not None:
            self.process.kill()
            self.breaks += 1
            self.abandon()

    def spend(self, count):
        """Notes bytes that went over the line, which breaks after some."""
        if self.left is not None:
            self.left -= count
            if self.left <= 0:
                self.left = None
                self.drop()

    # Bytes

    def send(self):
        self.terminal.flush_now()
        self.link.put(self.terminal.take_out())
        if self.link.acknowledged < self.link.put_count and self.link.put_count != self.asked_at:
            self.link.ask()
            self.asked_at = self.link.put_count
        self.give()

    def give(self):
        if self.process is None:
            return
        data = self.link.take_out(self.attempt, min(65536, self.left or 65536))
        try:
            if data:
                os.write(self.process.stdin.fileno(), data)
        except BrokenPipeError:
            return
        self.spend(len(data))

    def receive(self, seconds):
        """Takes what comes in so long. Returns whether something came."""
        if self.process is None:
            return False
        ready, _, _ = select.select([self.process.stdout, self.process.stderr], [], [], seconds)
        if self.process.stderr in ready:
            self.errors += os.read(self.process.stderr.fileno(), 65536)
        if self.process.stdout in ready:
            data = os.read(self.process.stdout.fileno(), min(65536, self.left or 65536))
            if data:
                self.hear(data)
                self.spend(len(data))
            else:
                self.breaks += 1
                self.abandon()
        return bool(ready)

    def hear(self, data):
        if not self.is_welcomed:
            self.came += data
            expect(MARK.startswith(self.came[:8]) or self.came.startswith(MARK), f"no hello: {self.came!r}")
            if len(self.came) < HELLO_BYTES:
                return
            self.link.welcomed(self.came[:HELLO_BYTES])
            self.is_welcomed, data = True, self.came[HELLO_BYTES:]
        self.link.feed(self.attempt, data)
        while (taken := self.link.take_in()) or (note := self.link.next_note()) is not None:
            if taken:
                self.terminal.feed(taken)
            else:
                self.messages.append(sulgrevad.read_note(note))

    def refusal(self):
        """What the first 42 bytes of the line refuse."""
        while len(self.came) < HELLO_BYTES:
            self.give()
            ready, _, _ = select.select([self.process.stdout], [], [], GIVEN_UP)
            expect(ready, "no answer comes")
            data = os.read(self.process.stdout.fileno(), HELLO_BYTES - len(self.came))
            expect(data, f"the line ends after {self.came!r}")
            self.came += data
        return read_whole(self.came).what

    def carry(self, holds, told):
        """Carries bytes over one line after another until something holds."""
        until, is_late = time.monotonic() + SECONDS, False
        while not holds():
            if self.process is None:
                self.attach()
            self.send()
            if not self.receive(0.2):
                self.asked_at = -1
            if time.monotonic() > until and not is_late:
                is_late = True
                until += SECONDS * times_longer()
            expect(time.monotonic() < until, f"{told}; {self.messages}; {self.errors!r}")

    def is_quiet(self):
        terminal = self.terminal
        return not (terminal.held or terminal.under_way or terminal.unsent or terminal.command_locked)

    def settle(self):
        """Waits until the host has taken all, and has said so."""

        def holds():
            terminal = self.terminal
            if not self.is_quiet() and not terminal.held and not terminal.command_locked and self.link.acknowledged == self.link.put_count:
                terminal.check(0)
            return self.is_quiet() and not terminal.pending and self.link.acknowledged == self.link.put_count

        self.carry(holds, "it never gets quiet")
        while self.receive(0):
            pass

    def let_pass(self, seconds):
        until = time.monotonic() + seconds
        while (left := until - time.monotonic()) > 0:
            self.receive(left)

    def of(self, kind, **fields):
        """The messages of a kind that have these fields."""
        number = sulgrevad.NoteKind[kind]
        return [it for it in self.messages if it.kind == number and all(getattr(it, name) == field for name, field in fields.items())]

    def said(self):
        """The sentences for people, in the order in which they came."""
        return said_in(self.messages)

    def put_note(self, kind, **fields):
        """Puts a message of the terminal, behind all that was put."""
        self.link.put_note(sulgrevad.write_note(sulgrevad.Note(sulgrevad.NoteKind[kind], **fields)))

    def wait_for_end(self, status):
        """Waits for the last message, which has this status, and acknowledges all that came."""
        self.carry(lambda: self.of("ENDED"), "it doesn't say that it ends")
        expect_equal((self.messages[-1], self.messages[-1].number), (self.of("ENDED")[0], status), "the last message, and its status")
        self.link.acknowledge()
        self.give()

    def wait(self):
        """The exit status of the relay."""
        return self.process.wait(GIVEN_UP)

    # What the user does

    def text(self, tag=1):
        """All of a file's text, which is loaded for that."""
        self.terminal.load(tag, 0, self.terminal.len(tag))
        self.settle()
        return self.terminal.text(tag, 0, self.terminal.len(tag))

    def type(self, text, tag=1):
        """Types at the end of a file."""
        end = self.terminal.len(tag)
        self.terminal.select(tag, end, end)
        for at in range(0, len(text), 500):
            self.terminal.type(tag, text[at : at + 500])
        self.settle()

    def write(self, tag=1):
        self.terminal.write(tag)
        self.settle()

    def rename(self, name, tag=1):
        """Has a command line name a file."""
        self.terminal.work(tag)
        end = self.terminal.len(0)
        self.terminal.select(0, end, end)
        self.terminal.type(0, f"f {name}\n")
        self.settle()

    def leave(self):
        """Leaves the session, as the user does."""
        self.terminal.exit()
        self.wait_for_end(0)
        expect_gone(self.folder, self)
