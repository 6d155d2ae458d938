"""A model of a line, written from docs/howto/RECONNECTING.md, docs/reference/LINK.md and include/sulgrevad.h: the terminal's end of a link
(link_model.py) with the clock of its connections. Times are in milliseconds."""
from typing import Callable, NamedTuple, Optional

import link_model
from link_model import HELLO_BYTES, MARK, CountFull, Link, LinkFault, SamError, Status, What

DOWN, CONNECTING, OPEN, LATE, LOST = range(5)
NOTHING, CONNECT, DROP, ASK = range(4)
PAUSES = (0, 1_000, 2_000, 4_000, 8_000, 16_000, 30_000)
ASK_AFTER, DROP_AFTER, WELCOME_WITHIN = 15_000, 15_000, 30_000
RETRY_AFTER_MOVE, DROP_AFTER_MOVE = 1_000, 2_000
STEADY_AFTER, MISSING_FOR = 1_000, 60_000
MOST_WORDS, MOST_ANSWERS = 65_536, 65_536
FINAL = (Status.LINK_OTHER_VERSION, Status.LINK_OTHER_SESSION, Status.LINK_WRONG_COUNT)


class Details(NamedTuple):
    """As `sulgrevad.LineDetails`."""

    silence: int
    round_trip: int
    overdue_after: int
    failures: int
    attempt: int
    put_count: int
    acknowledged: int
    received: int
    state: int
    why: int
    is_known: bool
    is_broken: bool
    has_all: bool


def words_before(data: bytes) -> int:
    """How many bytes stand before the first place from which on a hello may begin."""
    return next(at for at in range(len(data) + 1) if data[at : at + len(MARK)] == MARK[: len(data) - at])


class Line:
    """As `sulgrevad.Line`."""

    DOWN, CONNECTING, OPEN, LATE, LOST = DOWN, CONNECTING, OPEN, LATE, LOST

    def __init__(self, id: bytes, take_over: bool, now: int) -> None:
        self.link, self.take_over, self.time = Link(Link.TERMINAL, id), take_over, now
        self.state, self.until, self.why = DOWN, now, 0
        self.quiet = self.opened = now
        self.failures, self.missing = 0, None  # type: int, Optional[int]
        self.due = self.asked = self.round_trip = self.answers = 0
        self.asked_at: Optional[int] = None
        self.begun = b""  # what came of a connection before its welcome
        self.expects = False  # the program waits for an answer

    # ---- How it stands

    @property
    def has_all(self) -> bool:
        return self.due <= self.link.acknowledged

    @property
    def is_due(self) -> bool:
        return self.expects or not self.has_all

    @property
    def is_up(self) -> bool:
        return self.link.phase != Link.DOWN

    def _set(self, now: int) -> None:
        self.time = max(self.time, now)

    def _deadline(self) -> Optional[int]:
        if self.state == OPEN:
            return self.quiet + ASK_AFTER if self.is_due else None
        return None if self.state == LOST else self.until

    def due_in(self, now: int) -> Optional[int]:
        until = self._deadline()
        return None if until is None else max(0, until - max(self.time, now))

    def _silence(self, now: int) -> int:
        return 0 if self.state == OPEN and not self.is_due else max(self.time, now) - self.quiet

    def describe(self, now: int) -> Details:
        link = self.link
        counts = (self.failures, link.attempt, link.put_count, link.acknowledged, link.received)
        is_broken = self.state not in (OPEN, LATE) and (link._welcomed or self.failures > 0)
        times = (self._silence(now), self.round_trip, 1_000 + 2 * self.round_trip)
        return Details(*times, *counts, self.state, self.why, link._welcomed, is_broken, self.has_all)

    @property
    def words(self) -> bytes:
        return self.begun[: words_before(self.begun)]

    # ---- Connections

    def _rest(self) -> None:
        """Nothing is due on an open line: silence counts from now on."""
        if self.state == OPEN and not self.is_due:
            self.quiet = self.time

    def _fail(self) -> None:
        self._rest()
        if self.state in (OPEN, LATE) and self.time - self.opened >= STEADY_AFTER:
            self.failures = 0
        self.link.broken(self.link.attempt)
        self.state, self.until = DOWN, self.time + PAUSES[min(self.failures, 6)]
        self.failures = min(self.failures, 5) + 1

    def _refuse(self, why: Status) -> None:
        if why == Status.LINK_NO_SESSION and self.missing is None:
            self.missing = self.time
        is_missing = why == Status.LINK_NO_SESSION and not (self.link._welcomed and self.time - self.missing < MISSING_FOR)
        if why in FINAL or is_missing:
            self._rest()
            self.link.broken(self.link.attempt)
            self.state, self.why = LOST, why
        else:
            self._fail()

    def tick(self, now: int) -> int:
        self._set(now)
        until, state = self._deadline(), self.state
        if until is None or self.time < until:
            return NOTHING
        if state == DOWN:
            self.state, self.until = CONNECTING, self.time + WELCOME_WITHIN
            return CONNECT
        if state == OPEN:
            self.state, self.until = LATE, self.time + DROP_AFTER
            return ASK
        self._fail()
        return DROP

    def connected(self, now: int) -> int:
        self._set(now)
        attempt = self.link.call(self.take_over)
        self.state, self.until = CONNECTING, self.time + WELCOME_WITHIN
        self.asked_at, self.begun = None, b""
        return attempt

    def not_connected(self, now: int) -> None:
        self._set(now)
        if self.state == CONNECTING and not self.is_up:
            self._fail()

    def broken(self, attempt: int, now: int) -> None:
        self._set(now)
        if self.is_up and attempt == self.link.attempt:
            self._fail()

    def address_changed(self, now: int) -> None:
        self._set(now)
        self._rest()
        if self.state == DOWN:
            self.until = min(self.until, self.time + RETRY_AFTER_MOVE)
        elif self.state == OPEN:
            self.state, self.until = LATE, self.time + DROP_AFTER_MOVE
        elif self.state == LATE:
            self.until = min(self.until, self.time + DROP_AFTER_MOVE)

    def expect(self, expects: bool, now: int) -> None:
        self._set(now)
        self._rest()
        self.expects = expects

    # ---- What is put

    def _owe(self, put: Callable[[bytes], None], data: bytes, now: int) -> None:
        self._set(now)
        put(data)
        self._rest()
        self.due = self.link.put_count

    def put(self, data: bytes, now: int) -> None:
        self._owe(self.link.put, data, now)

    def put_note(self, data: bytes, now: int) -> None:
        self._owe(self.link.put_note, data, now)

    def ask(self, now: int) -> None:
        self._set(now)
        if self.asked <= self.link.acknowledged and (not self.has_all or self.state == LATE):
            self.link.ask()
            self._rest()
            self.due = self.asked = self.link.put_count
            self.asked_at = self.time

    def acknowledge(self) -> None:
        self.link.acknowledge()

    # ---- Bytes

    def take_out(self, attempt: int, most: int = 65_536) -> bytes:
        return self.link.take_out(attempt, most)

    def take_in(self, most: int = 65_536) -> bytes:
        return self.link.take_in(min(most, 4096))

    def next_note(self) -> Optional[bytes]:
        return self.link.next_note()

    def receive(self, attempt: int, data: bytes, now: int) -> None:
        self._set(now)
        if not self.is_up or attempt != self.link.attempt:
            raise LinkFault(Status.LINK_NOT_OPEN)
        if self.answers >= MOST_ANSWERS:
            self._fail()
            raise LinkFault(Status.LINK_TOO_MANY_ANSWERS)
        if self.state == CONNECTING:
            data = self._greeted(data)
            if data is None:
                return
            self.state, self.quiet, self.opened, self.missing = OPEN, self.time, self.time, None
            self.asked_at = None
        self._feed(attempt, data)

    def _greeted(self, data: bytes) -> Optional[bytes]:
        """What stands behind the host's hello; None if that is not there yet."""
        self.begun += data
        words = words_before(self.begun)
        if words > MOST_WORDS:
            self._fail()
            raise LinkFault(Status.LINK_TOO_MANY_WORDS)
        hello = self.begun[words:][:HELLO_BYTES]
        read = None
        try:
            read = link_model.read_whole(hello)
            if read is None:
                return None
            self.link.welcomed(hello)
        except SamError as fault:
            if read is not None and read.what >= What.NOT_A_LINK:
                self._refuse(fault.code)
                raise
            self._fail()
            raise LinkFault(Status.LINK_WRONG_HELLO) from fault
        return self.begun[words + HELLO_BYTES :]

    def _feed(self, attempt: int, data: bytes) -> None:
        before = self.link.put_count
        try:
            self.link.feed(attempt, data)
        except (LinkFault, CountFull):
            self._fail()
            raise
        self.state, self.quiet = OPEN, self.time
        if self.asked_at is not None and self.asked <= self.link.acknowledged:
            self.round_trip, self.asked_at = self.time - self.asked_at, None
        self.answers = min(self.answers + self.link.put_count - before, self.link.put_count - self.link.acknowledged)
