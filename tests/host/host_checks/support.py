"""What the checks of the host have in common: sessions, messages, and files."""
import os
import re
import resource
import select
import shlex
import shutil
import signal
import subprocess
import time
from pathlib import Path

import sulgrevad
from checks import GIVEN_UP, Skipped, expect, wait_until
from link_model import HELLO_BYTES, Link

SAMHOST = Path(os.environ["SAMHOST"])  # a copy that every user can reach
IDLE = 2.0  # seconds of quiet after which the host saves changed texts aside
LONGEST_UNSAVED = 10.0  # seconds after which it does while messages still come
LATE = 6.0  # seconds that a busy machine may add
NOBODY = 65534
IS_ROOT = os.geteuid() == 0
VERSION, REQUEST, OPEN, CUT, WRITE, CLOSE, EXIT = 1, 4, 6, 9, 13, 14, 22  # kinds of the terminal's messages
# What a host says that no terminal has greeted.
NO_HELLO = "samhost: standard input has no hello of a terminal; samterm, samweb and Emacs start samhost, and samterm FILE edits a file"
# What a host that begins says of the user's folder in a /tmp that it shares with those of other checks.
OF_OTHERS = re.compile(r"samhost: (/tmp/sulgrevad-\d+/\.sam-[^/]* is left .*|a file without a name .* in /tmp/sulgrevad-\d+/[^/]*)")
AGE = r", of \d{4}-\d\d-\d\d \d\d:\d\d:\d\d, newer than the file"


def expect_equal(got, wanted, what):
    expect(got == wanted, f"{what} is {got!r}, wanted {wanted!r}")


def own_lines(said):
    """The lines that a host has said, but for those that hosts of other checks are to blame for."""
    has_own_tmp = "TMP_IS_OWN" in os.environ
    return [line for line in said.decode().split("\n") if line and (has_own_tmp or not OF_OTHERS.fullmatch(line))]


def text_of(path):
    """What a file has; None where there is none."""
    try:
        return path.read_bytes().decode()
    except FileNotFoundError:
        return None


def names_in(folder):
    return sorted(entry.name for entry in folder.iterdir())


class Line:
    """A terminal's end of a link whose only connection are the streams of a host."""

    def __init__(self):
        self.id, self.messages, self._came = os.urandom(16), [], b""
        self.link = Link(Link.TERMINAL, self.id)
        self._attempt = self.link.call()

    def carried(self, stream=b""):
        """The bytes that bring a stream, behind the hello where that has not gone."""
        self.link.put(stream)
        pieces = iter(lambda: self.link.take_out(self._attempt), b"")
        return b"".join(pieces)

    def heard(self, data):
        """The stream that bytes of the host bring, and the messages, which are kept."""
        if len(self._came) < HELLO_BYTES:
            self._came += data
            if len(self._came) < HELLO_BYTES:
                return b"", []
            self.link.welcomed(self._came[:HELLO_BYTES])
            data = self._came[HELLO_BYTES:]
        self.link.feed(self._attempt, data)
        stream, new = b"", []
        while (taken := self.link.take_in()) or (note := self.link.next_note()) is not None:
            if taken:
                stream += taken
            else:
                new.append(sulgrevad.read_note(note))
        self.messages += new
        return stream, new

    def lines(self, output, errors):
        """What a host has said, by messages of its output and on standard error, where some of it stands, too."""
        aloud, (_, new) = own_lines(errors), self.heard(output) if output else (b"", [])
        said = own_lines("".join(f"samhost: {text}\n" for text in said_in(new)).encode())
        return [text for text in said if text not in aloud] + aloud


def carried(stream):
    """The bytes by which a terminal greets a host and brings it a stream, all at once."""
    return Line().carried(stream)


def run_host(folder, words, stream=b""):
    """Runs a host for a terminal that greets it, brings it a stream, and is gone. Returns its status and its lines."""
    line = Line()
    ended = subprocess.run(words, cwd=folder, input=line.carried(stream), capture_output=True, timeout=GIVEN_UP)
    return ended.returncode, line.lines(ended.stdout, ended.stderr)


def said_in(messages):
    """The sentences for people of messages."""
    return [message.text for message in messages if message.text and message.kind != sulgrevad.NoteKind.SESSION]


class Session:
    """A host's process, and a terminal that has opened its files; without `begin` a terminal that hears only what is said."""

    def __init__(self, folder, *files, prefix=(), options=(), environment=None, begin=True, limit=None):
        self.folder, self.terminal, self.line = folder, sulgrevad.Terminal(), Line()
        self.answers = {}  # of each file, the kind of what its last write was answered
        self.lines, self.aloud, self._line = [], [], b""  # lines that it has said; those of standard error, and the one that isn't whole
        more = {"TMPDIR": str(folder / "temporary"), "XDG_STATE_HOME": str(folder / "temporary"), **(environment or {})}
        pipe = subprocess.PIPE
        set_limit = (lambda: resource.setrlimit(resource.RLIMIT_FSIZE, (limit, resource.RLIM_INFINITY))) if limit else None
        self.process = subprocess.Popen(
            [*prefix, SAMHOST, *options, "--", *files], cwd=folder, stdin=pipe, stdout=pipe, stderr=pipe, bufsize=0,
            env={**os.environ, **more}, preexec_fn=set_limit,
        )  # fmt: skip
        self.sources, self.has_begun = [self.process.stderr, self.process.stdout], begin
        if begin:
            self.terminal.open_cmd()
            self.terminal.offer_version(2)
            self.settle()
            for tag in self.terminal.files():
                if tag != 0:
                    self.terminal.open(tag)
            self.settle()

    def __enter__(self):
        return self

    def __exit__(self, *_):
        self.process.kill()
        self.process.wait()
        for end in (self.process.stdin, *self.sources):
            end.close()
        self.terminal.free()

    # Bytes

    def send(self):
        self.terminal.flush_now()
        self.give(self.terminal.take_out())

    def give(self, data):
        """Gives the host bytes of the stream."""
        self.give_bare(self.line.carried(data))

    def give_bare(self, data):
        """Gives it bytes of the line as they stand."""
        if data:
            os.write(self.process.stdin.fileno(), data)

    def receive(self, seconds):
        """Takes what comes in so long. Returns whether something came."""
        ready, _, _ = select.select(self.sources, [], [], seconds)
        for end in ready:
            data = os.read(end.fileno(), 65536)
            if not data:
                self.sources.remove(end)
            elif end is self.process.stdout:
                self.hear(data)
            else:
                *lines, self._line = (self._line + data).split(b"\n")
                self.aloud += own_lines(b"\n".join(lines))
                self.lines += own_lines(b"\n".join(lines))
        return bool(ready)

    def hear(self, data):
        """Takes what the host sends. What it says once its input has ended, or while memory is out, stands on standard error, too."""
        stream, messages = self.line.heard(data)
        kinds = sulgrevad.NoteKind.SAVED, sulgrevad.NoteKind.NOT_SAVED
        self.answers.update((message.tag, message.kind) for message in messages if message.kind in kinds)
        if self.has_begun:
            self.terminal.feed(stream)
        for line in own_lines("".join(f"samhost: {text}\n" for text in said_in(messages)).encode()):
            if line in self.aloud:
                self.aloud.remove(line)
            elif not self.process.stdin.closed:
                self.lines.append(line)

    def is_quiet(self):
        terminal = self.terminal
        return not (terminal.held or terminal.under_way or terminal.unsent or terminal.command_locked)

    def settle(self):
        """Waits until the host has taken all, which it is asked for by a message of the core that it answers."""
        until, is_asked, terminal = time.monotonic() + GIVEN_UP, False, self.terminal
        self.send()
        while not self.is_quiet():
            if not (is_asked or terminal.held or terminal.command_locked):
                terminal.check(0)
                is_asked = True
            self.send()
            expect(self.process.stdout in self.sources, f"the host is gone; it says {self.lines}")
            expect(time.monotonic() < until, f"it never gets quiet; it says {self.lines}")
            is_asked = not self.receive(0.2) and is_asked
        while self.receive(0):
            pass

    def let_pass(self, seconds):
        until = time.monotonic() + seconds
        while (left := until - time.monotonic()) > 0:
            self.receive(left)

    # What the user does

    def type(self, text, tag=1):
        """Types at the end of a file."""
        end = self.terminal.len(tag)
        self.terminal.select(tag, end, end)
        for at in range(0, len(text), 500):
            self.terminal.type(tag, text[at : at + 500])
        self.settle()

    def replace(self, text, tag=1):
        """Types in the place of all that a file has."""
        self.terminal.select(tag, 0, self.terminal.len(tag))
        self.terminal.type(tag, text)
        self.settle()

    def write(self, tag=1):
        self.terminal.write(tag)
        self.settle()
        expect_equal(self.terminal.is_dirty(tag), self.answers.get(tag) == sulgrevad.NoteKind.NOT_SAVED, "whether the file is dirty")

    def command(self, line, tag=1):
        self.terminal.work(tag)
        end = self.terminal.len(0)
        self.terminal.select(0, end, end)
        self.terminal.type(0, line + "\n")
        self.settle()

    def rename(self, name, tag=1):
        self.command(f"f {name}", tag)

    def told(self):
        """The lines that the host has said since this was asked last."""
        self.settle()
        lines, self.lines = self.lines, []
        return lines

    # Ends

    def end(self, how="input"):
        """Ends the session; returns the exit status. The last lines are in `lines`."""
        if how == "input":
            self.process.stdin.close()
        elif how == "exit":
            self.terminal.exit()
            self.send()
        elif how == "q":
            self.terminal.type(0, "q\n")
            self.send()
        else:
            self.process.send_signal(how)
        while self.sources:
            expect(self.receive(GIVEN_UP), "it doesn't end")
        return self.process.wait(GIVEN_UP)

    def kill(self):
        self.process.kill()
        self.process.wait()

    def wait_for_times(self):
        """Waits for the end of the process, which has closed its output. Returns the exit status, and the seconds of the processor."""
        _, status, used = os.wait4(self.process.pid, 0)
        self.process.returncode = os.waitstatus_to_exitcode(status)
        return self.process.returncode, used.ru_utime + used.ru_stime


def made(folder, **texts):
    """Files NAME.txt with their texts; answers their paths. A folder for temporary files stands beside them."""
    (folder / "temporary").mkdir(exist_ok=True)
    paths = []
    for name, text in texts.items():
        paths.append(folder / f"{name}.txt")
        paths[-1].write_bytes(text.encode())
    return paths


def expect_line(lines, pattern, what=""):
    """One line has just this form."""
    found = [line for line in lines if re.fullmatch(f"samhost: {pattern}", line)]
    expect(len(found) == 1, f"{what}no line, or several, {pattern!r} in {lines}")
    return found[0]


def expect_only(folder, *names):
    """Nothing else is in the folder, and nothing in the one for temporary files."""
    expect_equal(names_in(folder), sorted(["temporary", *names]), "what is in the folder")
    expect_equal(files_below(folder / "temporary"), [], "what is in the folder for temporary files")


def files_below(folder):
    return sorted(str(path.relative_to(folder)) for path in folder.rglob("*") if path.is_file())


def front_of(path, name=None):
    """What the name of a copy begins with in the user's own folder: FNV-1a of 64 bits of the whole path, and the name."""
    number = 0xCBF29CE484222325
    for byte in os.fsencode(path):
        number = (number ^ byte) * 0x100000001B3 % 2**64
    return f"{number:016x}-{name or Path(path).name}"


def own_copy(folder, path, suffix=".sam-saved"):
    """Where the copy of a file stands that has no place beside it."""
    return folder / "temporary" / "sulgrevad" / (front_of(folder / path) + suffix)


def as_nobody(folder):
    """Words that run a command as a user who may not do all; the folder is his."""
    if not IS_ROOT:
        return ()
    if shutil.which("setpriv") is None:
        raise Skipped("no setpriv, and root may do all")
    for place in (folder, folder / "temporary"):
        os.chown(place, NOBODY, NOBODY)
    return ("setpriv", f"--reuid={NOBODY}", f"--regid={NOBODY}", "--clear-groups")


def with_mount(folder, mount):
    """Words that run a command where something is mounted that others don't see."""
    ours = "mount --make-rprivate /"
    words = ("unshare", "-m", "sh", "-c", f'{ours} && {mount} && exec "$@"', "sh")
    if not IS_ROOT or shutil.which("unshare") is None:
        raise Skipped("no unshare, or not root, so nothing can be mounted")
    if subprocess.run([*words, "true"], cwd=folder, capture_output=True).returncode != 0:
        raise Skipped("nothing can be mounted here")
    return words


def with_disk(folder, name, options="defaults", text="one\n", then="true"):
    """Words that run a command where a new folder of this name is a disk of its own, which has the text as a.txt; `then` is done before."""
    made(folder)
    (folder / name).mkdir()
    return with_mount(folder, f"mount -t tmpfs -o {options} none {name} && printf %s {shlex.quote(text)} >{name}/a.txt && {then}")


def without_mount(session, place):
    """Takes from a host what was mounted for it alone."""
    if shutil.which("nsenter") is None:
        raise Skipped("no nsenter")
    words = ("nsenter", "-m", "-t", str(session.process.pid), "umount", session.folder / place)
    subprocess.run(words, check=True, timeout=GIVEN_UP)


def names_of(session):
    return [session.terminal.name(tag) for tag in session.terminal.files() if tag != 0]


def stop(process):
    """Stops a process until SIGCONT."""
    process.send_signal(signal.SIGSTOP)
    status = Path(f"/proc/{process.pid}/status")
    wait_until(lambda: re.search(r"^State:\s*T", status.read_text(), re.MULTILINE), "it doesn't stop")


def message(kind, *fields):
    body = b"".join(fields)
    return bytes([kind]) + len(body).to_bytes(2, "big") + body


def typed(tag, place, text):
    return message(8, tag.to_bytes(2, "big"), place.to_bytes(4, "big"), text)


def on_file(kind, tag=1):
    return message(kind, tag.to_bytes(2, "big"))


