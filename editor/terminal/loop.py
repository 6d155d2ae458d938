"""The loop: sleeps until a key, bytes of the host or a signal come, and passes them on.

What the user does goes one way: keys, the terminal, the link, the host, the link, the terminal, the screen.
"""
import contextlib
import gc
import os
import select
import signal
import time
from collections import deque
from typing import Callable, Deque, Dict, List, Optional, Tuple

from .keys.decoder import Decoder
from .editor import Editor
from .text.client_terminal import ClientTerminal
from .keys.bindings import Input
from .line.host_process import poll_of, polled
from .view.status_line import printable
from .line.persistent_session import PersistentSession
from sulgrevad import SamError
from .view.screen import Screen, sequences

KEYBOARD = 0
ENDS = (signal.SIGTERM, signal.SIGHUP, signal.SIGINT, signal.SIGQUIT)
SCREENS = (signal.SIGWINCH, signal.SIGCONT, signal.SIGTSTP)
RETRY = 0.1  # seconds until that for which the memory was too small is tried again
LONGEST_UNDRAWN = 0.05  # seconds of an answer that comes without a pause, after which what has come is drawn
LONGEST_AT_ONCE = 0.01  # seconds that may be worked on what has come before it is looked for keys
MOST_READ = 65_536  # bytes of keys that are read at once
# Objects that are made and not freed until it is looked which of them only lead to themselves: a key that comes then waits for that, some
# 5 milliseconds.
MOST_UNCOLLECTED = 50_000
MOST_SIGNALS = 4096  # numbers of signals that are read at once
SECONDS_TO_ACT = 1.0  # of the processor, after which a signal that ends the session doesn't wait for what is done
BROKEN_PASTE = "the end of a paste has not come, so all keys are part of it. Esc twice ends it"


class HeldUp(Exception):
    """A signal ends the session, and what is done takes too long."""


class Loop:
    """One session at a screen."""

    def __init__(self, terminal: ClientTerminal, link: PersistentSession, screen: Screen, editor: Editor, hear: Callable[[str], None]):
        self.terminal, self.link, self.screen, self.editor, self.hear = terminal, link, screen, editor, hear
        self.decoder = Decoder(sequences())
        self.keys: Deque[Input] = deque()  # those that the editor has not taken
        self._is_behind = False  # not all of what has come is done
        self._level_at: Optional[Tuple[int, int]] = None  # after how many deeds and news of the line the client had nothing more to do
        self.is_short = False  # memory was too small since the last pause
        self.ended_by = 0  # the signal that ended the session
        self.drawn_at = 0.0  # when what had come was drawn, or there was nothing more to draw
        self._wanted: Optional[Dict[int, int]] = None  # what is waited for of the link
        self._poll = select.poll()
        self._is_updated = False  # the editor is, by what came last, and nothing is left to be done by that
        self._quiet_at = 0.0  # when nothing was there after it slept; 0 where something was
        self.signals, wakes = os.pipe()
        for end in (self.signals, wakes):
            os.set_blocking(end, False)
        signal.set_wakeup_fd(wakes, warn_on_full_buffer=False)
        for number in SCREENS:
            signal.signal(number, lambda *_: None)
        for number in ENDS:
            signal.signal(number, lambda *_: signal.setitimer(signal.ITIMER_PROF, SECONDS_TO_ACT, SECONDS_TO_ACT))
        signal.signal(signal.SIGPROF, self._give_up)

    def run(self) -> None:
        """Returns when the user has left, or can't be reached any more."""
        self.editor.arrange(*self.screen.size)
        gc.freeze()  # what was read in stays: to look through all of it now would take as long as a key may
        gc.disable()
        try:
            while not self.editor.is_over:
                self._go_round()
            if self.ended_by:  # what came of a paste
                self._act_on(self.decoder.finish(time.monotonic()))
        except HeldUp:
            signal.signal(signal.SIGPROF, signal.SIG_IGN)
            self.terminal.read_anew()
        finally:
            signal.signal(signal.SIGPROF, signal.SIG_IGN)
            self._take_rest()
            self.editor.take_late([*self.keys, *self.decoder.finish(time.monotonic())])

    def _give_up(self, *_) -> None:
        """What is done has taken so long since a signal that ends the session."""
        numbers = self._heard()
        if not self.ended_by:
            self._end(next((number for number in ENDS if number in numbers), signal.SIGTERM))
        signal.setitimer(signal.ITIMER_PROF, SECONDS_TO_ACT, SECONDS_TO_ACT)
        raise HeldUp

    def _go_round(self) -> None:
        quiet_at, self._quiet_at = self._quiet_at, 0.0
        since = quiet_at or time.monotonic()
        ready = {} if quiet_at else self._ready(0)
        if not ready and not self._is_behind:
            self.editor.notes.settle(since)
            ready = self._sleep(self._idle())
            self.drawn_at = time.monotonic()
        elif since - self.drawn_at >= LONGEST_UNDRAWN:
            self._idle()
            self.drawn_at = time.monotonic()
        self._is_updated = False
        if self._take_keys(ready) and (self._is_behind or len(ready) > 1):  # what they do shows before more is taken
            self._idle()
            self.drawn_at = time.monotonic()
        self._take_signals(ready)
        self._take_bytes(ready)
        self._send()

    def _sleep(self, seconds: Optional[float]) -> Dict[int, int]:
        """The same as `_ready`. Where nothing came, nothing need be looked for once more before it sleeps again."""
        start = time.monotonic()
        ready = self._ready(seconds)
        if not ready and seconds is not None:
            self._quiet_at = start + seconds
        return ready

    def _ready(self, seconds: Optional[float]) -> Dict[int, int]:
        """What is there to be read or written: events by descriptor. Sleeps until something is, or so long where a time is given."""
        wanted = self.link.wanted()
        if wanted != self._wanted:
            self._wanted, self._poll = wanted, poll_of({KEYBOARD: select.POLLIN, self.signals: select.POLLIN, **wanted})
        return polled(self._poll, seconds)

    def _idle(self) -> Optional[float]:
        """Before it sleeps: sends what was typed, and draws. Returns how many seconds it may sleep; None where that has no end."""
        self.is_short = False
        if not self._is_updated:
            self._do(self.editor.update)
        deeds = self.terminal.deeds
        if not self.editor.is_lost:
            self._do(self.editor.pause)
            self._do(self._go_on)
        self._send()
        # Before it draws: what ends in between is drawn then.
        waits = [self.editor.wakes_in(), self.link.delay(), self.decoder.delay(time.monotonic())]
        if self.editor.is_over:
            return 0
        waits += [self.screen.draw(self.editor, self.link), self.editor.colours.seconds]
        self.editor.notes.drawn()
        self._write_here()
        waits.append(self.editor.notes.left)
        if self._is_behind or deeds != self.terminal.deeds:  # which the editor looks at before it sleeps
            waits.append(0.0)
        if self.is_short:
            waits.append(RETRY)
        if gc.get_count()[0] > MOST_UNCOLLECTED and self.editor.rests:
            self._collect()
        return min((wait for wait in waits if wait is not None), default=None)

    def _write_here(self) -> None:
        """Where it is due, and no key waits, has another process write changed texts. That shares the memory of this one, and what is
        written to first is copied: this draws once more at once, so no key pays for it."""
        if self.editor.keeping.is_here_due and not self._ready(0):
            self._do(self.editor.keeping.write_here)
            self._do(self.editor.update)
            self.screen.draw(self.editor, self.link)

    def _collect(self) -> None:
        """Frees what only leads to itself, and looks at what is left no more: while keys come one would wait for that."""
        gc.collect()
        gc.freeze()

    def _take_keys(self, ready: Dict[int, int]) -> bool:
        """Takes what was pressed. Returns whether there was a key."""
        now = time.monotonic()
        if ready.get(KEYBOARD, 0) & (select.POLLHUP | select.POLLERR | select.POLLNVAL):
            self._end(signal.SIGHUP)
            return False
        keys = self.decoder.feed(self._read_keys(), now) if KEYBOARD in ready else self.decoder.flush(now)
        self.editor.notes.standing = BROKEN_PASTE if self.decoder.is_broken else ""
        self._act_on(keys)
        return bool(keys)

    def _read_keys(self) -> bytes:
        try:
            data = os.read(KEYBOARD, MOST_READ)
        except BlockingIOError:
            return b""
        except OSError:
            data = b""
        if not data:
            self._end(signal.SIGHUP)
        return data

    def _act_on(self, keys: List[Input]) -> None:
        self.keys.extend(keys)
        while self.keys:
            self.editor.take(self.keys.popleft())
        if self.editor.clip is not None:
            self.screen.put_on_clipboard(self.editor.clip)
            self.editor.clip = None
        wishes, self.editor.wishes = self.editor.wishes, []
        for wish in wishes:
            self._connect() if wish == "connect" else getattr(self.screen, wish)()

    def _connect(self) -> None:
        """Tries the line at once, and gives the screen back meanwhile: ssh may ask there. `^C` ends that."""
        self.screen.give_back("samterm: connecting; ^C goes back to the text")
        self.link.connect_in_front(lambda line: print(printable(line), flush=True), self.signals, self._is_stopped)
        self.screen.redraw()
        self._is_stopped()  # by a `^C` that ended the connection before it was seen here
        self._fit()

    def _is_stopped(self) -> bool:
        """Whether a signal has come that ends waiting for the line: `^C` that alone, others the session."""
        numbers = self._heard()
        for number in ENDS:
            if number in numbers and number != signal.SIGINT:
                self._end(number)
        return any(number in numbers for number in ENDS)

    def _heard(self) -> bytes:
        """The numbers of the signals that have come since. They are taken, so none of them ends what is done."""
        signal.setitimer(signal.ITIMER_PROF, 0)
        try:
            return os.read(self.signals, MOST_SIGNALS)
        except BlockingIOError:
            return b""

    def _end(self, number: int) -> None:
        self.editor.is_over, self.ended_by = True, number

    def _take_signals(self, ready: Dict[int, int]) -> None:
        if self.signals not in ready:
            return
        numbers = self._heard()
        for number in ENDS:
            if number in numbers and not self.ended_by:
                self._end(number)
        if self.editor.is_over:
            return
        if signal.SIGTSTP in numbers:
            self.screen.suspend(is_group=False)
        elif signal.SIGCONT in numbers:
            self.screen.redraw()
        if any(number in numbers for number in SCREENS):
            self._fit()

    def _fit(self) -> None:
        """Takes the size that the screen has now, where it is still there."""
        try:
            columns, rows = os.get_terminal_size(KEYBOARD)
        except OSError:
            return
        if rows > 0 and columns > 0:  # some terminals tell of no size while they are hidden
            self.screen.resize(rows, columns)
            self.editor.arrange(*self.screen.size)

    def _take_bytes(self, ready: Dict[int, int]) -> None:
        """Takes what has come, as much of it as leaves a key time; the rest once it was looked for keys."""
        for line in self.link.take({} if self._is_behind else ready):
            self._is_updated = False
            self.hear(line)
        deeds, self._is_behind = self.terminal.deeds, False
        if not self.editor.is_lost:
            self._do(self._go_on)
        if deeds != self.terminal.deeds:
            self._update()
        if self.link.is_lost and not self._is_behind and not self.editor.is_over:
            self._is_updated = False
            self.editor.lose(self.link.why)

    def _go_on(self) -> None:
        """Goes on for a while, if anything was done or heard since nothing was left."""
        if self._level_at == (self.terminal.deeds, self.link.news):
            return
        news, self._level_at = self.link.news, None
        self._is_behind = not self.editor.go_on(time.monotonic() + LONGEST_AT_ONCE)
        if not self._is_behind:
            self._level_at = self.terminal.deeds, news
            if self.editor.slices.is_loading:
                self.link.look_at_time()

    def _update(self) -> None:
        """Bytes have come. Where nothing is left to be done by that, it need not be looked for that again before it sleeps."""
        deeds = self.terminal.deeds
        self._do(self.editor.update)
        self._is_updated = deeds == self.terminal.deeds and not (self.editor.deferred or self.is_short or self._is_behind)

    def _take_rest(self) -> None:
        """The session is over: takes what has come and was not taken yet, since it says what has arrived."""
        with contextlib.suppress(Exception):  # whatever goes wrong, the texts are kept
            self.editor.go_on()

    def _send(self) -> None:
        self.link.send(self.terminal.deeds)

    def _do(self, action) -> None:
        """Does something that the terminal may refuse. Memory may be too small for a while: it is tried again, and goes on with what
        waits."""
        try:
            action()
        except MemoryError as error:
            self.is_short = self.link.has_out = True
            self.editor.message = f"there is not enough memory ({error})"
        except SamError as error:
            self.editor.lose(f"the host's stream is wrong ({error})")
