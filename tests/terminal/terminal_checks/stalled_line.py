"""A line that stands still: how soon a key shows meanwhile, and how soon the host has all that was typed once it is back. samterm has a
terminal of its own here, with nothing between it and the clock."""
import contextlib
import fcntl
import os
import pty
import select
import shlex
import signal
import struct
import subprocess
import sys
import termios
import time
from pathlib import Path
from types import SimpleNamespace

from checks import seconds_of, times_longer

from .support import LIBRARY, SAMHOST, SAMTERM, SECONDS, STATE, below, expect, stat_of, wait_until

GATE = Path(__file__).with_name("gate.py")
WIDTH, HEIGHT = 100, 30
RUNES = "αβγδεζηθικλμνξοπρστυφχψω"  # that are typed: nothing else on the screen has them
LAST = "Ω"  # typed last
NAP = 0.0005  # seconds between two looks into the journal
MOST_FOR_A_KEY = 0.02  # seconds until it shows
MOST_WORK = 0.1  # seconds until the host has all, beside two round trips


class OnTerminal:
    """samterm on a terminal of its own, to a session that stays, over a line that may be stopped."""

    def __init__(self, folder, *files, delay=0, host=None, program=(SAMTERM,)):
        self.folder, self.block, self.log = folder, folder / "block", folder / "connected"
        host = host or shlex.join(map(str, (sys.executable, GATE, self.block, self.log, *str(delay).split(), SAMHOST)))
        environment = {**os.environ, "SAM_LIBRARY": str(LIBRARY), "LC_ALL": "C.UTF-8", "TERM": "xterm-256color", "TMPDIR": str(folder)}
        environment["XDG_STATE_HOME"] = str(folder / STATE)
        self.end, inner = pty.openpty()
        fcntl.ioctl(inner, termios.TIOCSWINSZ, struct.pack("HHHH", HEIGHT, WIDTH, 0, 0))
        self.process = subprocess.Popen(
            [sys.executable, *program, "--host", host, *files], stdin=inner, stdout=inner, stderr=subprocess.DEVNULL, cwd=folder,
            env=environment, start_new_session=True, preexec_fn=lambda: fcntl.ioctl(0, termios.TIOCSCTTY, 0),
        )  # fmt: skip
        os.close(inner)

    def __enter__(self):
        return self

    def __exit__(self, *_):
        self.process.kill()
        self.process.wait()
        os.close(self.end)
        for lock in (self.folder / STATE / "sulgrevad").glob("*/lock"):
            with contextlib.suppress(OSError, ValueError):
                os.kill(int(lock.read_text()), signal.SIGTERM)
        if self.block.exists():
            self.block.unlink()

    def read(self, seconds):
        """What the screen is sent within so long."""
        ready, _, _ = select.select([self.end], [], [], max(0.0, seconds))
        return os.read(self.end, 65536).decode("utf-8", "replace") if ready else ""

    def read_all_until(self, words, seconds=SECONDS):
        """Reads until these words are sent. Answers all that was."""
        until, shown = time.monotonic() + seconds, ""
        while words not in shown:
            left = until - time.monotonic()
            expect(left > 0, f"{words!r} doesn't show; what came last is {shown[-400:]!r}")
            shown += self.read(left)
        return shown

    def read_until(self, words, seconds=SECONDS):
        """The same; answers how many seconds that took."""
        start = time.monotonic()
        self.read_all_until(words, seconds)
        return time.monotonic() - start

    def rest(self, seconds):
        """Reads until nothing has come for so long."""
        while self.read(seconds):
            pass

    def type(self, runes):
        os.write(self.end, runes.encode())

    # ---- The line

    def relays(self):
        """The processes that carry bytes now."""
        return [child for child in below(self.process.pid) if (stat_of(child) or "Z")[0] != "Z"]

    @contextlib.contextmanager
    def stopped_line(self):
        """Nothing is carried meanwhile, nor by a new connection."""
        self.block.touch()
        stopped = self.relays()
        for relay in stopped:
            os.kill(relay, signal.SIGSTOP)
        try:
            yield
        finally:
            self.log.unlink(missing_ok=True)
            self.block.unlink()
            self.back_at = time.monotonic()
            for relay in stopped:
                with contextlib.suppress(ProcessLookupError):
                    os.kill(relay, signal.SIGCONT)

    def host_has(self, words):
        """Waits until the journal has these words: the host has got them then. Answers when that was."""
        (journal,) = (self.folder / STATE / "sulgrevad").glob("*/journal")
        until = time.monotonic() + 3 * SECONDS
        with open(journal, "rb") as file:
            file.seek(max(0, journal.stat().st_size - 65536))
            data = b""
            while words.encode() not in data:
                expect(time.monotonic() < until, f"the host never gets {words!r}")
                data = data[-8:] + file.read()
                self.read(NAP)
        return time.monotonic()

    def connected_at(self):
        """When the connection was made that the line has now."""
        return float(self.log.read_text()) if self.log.exists() else self.back_at


def share_of(numbers, hundredths):
    """What so many of a hundred are at most."""
    count = -(-len(numbers) * hundredths // 100)
    return sorted(numbers)[max(0, count - 1)]


class Measured:
    """Keys typed on loaded text while the line stands still: the seconds until each shows, and those of the processor that samterm takes
    for it; and from the moment on that the line is back until the host has all. The delay is that of the line each way, in
    milliseconds."""

    def __init__(self, folder, seconds, delay):
        (folder / "a.txt").write_text("".join(f"line {number}\n" for number in range(1, 400)))
        self.keys, self.costs = [], []
        with OnTerminal(folder, "a.txt", delay=delay) as session:
            session.read_until("line 1")
            session.rest(1.0 + 0.004 * delay)
            with session.stopped_line():
                until, number = time.monotonic() + seconds, 0
                while time.monotonic() < until:
                    rune = RUNES[number % len(RUNES)]
                    before = seconds_of(session.process.pid)
                    session.type(rune)
                    self.keys.append(session.read_until(rune))
                    self.costs.append(seconds_of(session.process.pid) - before)
                    session.rest(0.02)
                    number += 1
                    if number % len(RUNES) == 0:
                        session.type("\r")  # a row that is drawn again has no rune twice
                        session.rest(0.1)
                session.type(LAST)
                session.read_until(LAST)
            self.all_after = session.host_has(LAST) - session.connected_at()

    @property
    def slowest(self):
        return max(self.keys)

    @property
    def most(self):
        """That all but one in a hundred need at most."""
        return share_of(self.keys, 99)

    @property
    def usual(self):
        """That half of the keys need at most."""
        return share_of(self.keys, 50)


def check_writes_here_between_keys(folder):
    """Changed texts begin to be written here right after a key, or once none has come for a while; where keys leave no such moment, a
    second later all the same."""
    from terminal.files import unsaved_texts

    way = SimpleNamespace(is_late=True, line=SimpleNamespace(silence=0.0))
    editor = SimpleNamespace(terminal=None, way=way, is_lost=False, quiet_for=0.0, clock=lambda: 0.0)
    kept, after = unsaved_texts.UnsavedTexts(editor), unsaved_texts.HERE_AFTER
    for silence, quiet, wanted in (
        (after - 1, 0.1, 1.0), (after, 0.1, 0.15), (after + 0.97, 0.1, 0.03), (after, 0.005, 0.0), (after, 0.3, 0.0), (after + 1, 0.1, 0.0),
    ):  # fmt: skip
        way.line.silence, editor.quiet_for = silence, quiet
        left = kept.seconds_until_here
        expect(abs(max(0.0, left) - wanted) < 1e-6, f"after {silence} s, {quiet} after a key, it waits {left} s more, wanted {wanted}")
        expect(kept.is_here_due == (wanted == 0), f"after {silence} s, {quiet} after a key, it is {kept.is_here_due} that it begins")
    kept._here_at, editor.clock = 0.0, lambda: 5.0
    for quiet, took, wanted in ((4.0, 0.0, -4.0), (6.0, 0.0, 5.0), (4.0, 0.5, 5.0)):
        editor.quiet_for, kept._copies.took = quiet, took
        left = kept.seconds_until_here
        expect(abs(left - wanted) < 1e-6, f"5 s after copies that took {took} s, {quiet} after a key, it waits {left} s, wanted {wanted}")
    editor.is_lost = True
    expect(kept.seconds_until_here is None and not kept.is_here_due, "it is written again once the host is lost")


def check_writes_here_behind_a_slow_copy(folder):
    """A key that comes while texts are still written here is in the next copies, which follow as soon as what these took allows."""
    from terminal.files import backup_process, unsaved_texts

    os.chdir(folder)
    way = SimpleNamespace(is_late=True, line=SimpleNamespace(silence=9.0))
    editor = SimpleNamespace(terminal=None, way=way, is_lost=False, quiet_for=1.0, clock=lambda: 1.5)
    kept, took = unsaved_texts.UnsavedTexts(editor), 0.5
    kept._here_at = 0.0
    kept._copies.write([backup_process.Unsaved("slow", "slow", lambda: time.sleep(took) or "text")])
    expect(not kept.is_here_due, "copies are due while the last ones are written")
    wait_until(lambda: kept.seconds_until_here != unsaved_texts.AGAIN, "they are never written")
    left = kept.seconds_until_here
    expect(left >= unsaved_texts.PAUSE * took - 1.5, f"1.5 s after copies that took {took} s it waits {left} s more")
    editor.clock = lambda: 1.5 + left
    expect(kept.is_here_due, "a key that came meanwhile is in no copy")


def check_draws_a_long_answer(folder):
    """An answer that comes without a pause is drawn while it comes, but no more often than each 50 milliseconds."""
    from terminal import loop

    drawn, turns = [], loop.Loop.__new__(loop.Loop)
    turns.drawn_at, turns._quiet_at = time.monotonic(), 0.0
    turns._idle = lambda: drawn.append(time.monotonic())
    turns._ready = lambda seconds: {0: 1}
    turns._take_keys = turns._take_signals = lambda ready: None
    turns._take_bytes, turns._send = lambda ready: time.sleep(0.02), lambda: None
    for _ in range(20):
        turns._go_round()
    expect(len(drawn) >= 5, f"it is drawn {len(drawn)} times")
    expect(all(later - sooner >= 0.05 for sooner, later in zip(drawn, drawn[1:])), f"it is drawn at {drawn}")


def check_keys_while_the_line_stands_still(folder):
    """Each key on loaded text shows at once while the line stands still, and the host has all soon after it is back. tests/terminal/breaks
    --stopped measures a minute of it."""
    late = times_longer()
    found = Measured(folder, 4, 50)
    late = max(late, times_longer())
    expect(len(found.keys) > 20, f"this test is wrong: it types {len(found.keys)} keys")
    cost = share_of(found.costs, 50)
    expect(cost < MOST_FOR_A_KEY, f"a key takes {cost * 1000:.1f} ms of the processor, {found.usual * 1000:.1f} by the clock")
    expect(found.all_after < 4 * 0.05 + late * MOST_WORK, f"the host has all after {found.all_after * 1000:.0f} ms")
