"""A line that goes on through breaks: the stream and notes of a session that stays at the host, over one connection after another.

Each connection is a process that carries bytes to the session and back (a relay). The library's `Client` keeps what the host has not
acknowledged, and says when a connection is made, asked and given up.
"""
import contextlib
import os
import re
import select
import time
from typing import Callable, Dict, List, Optional, Sequence, Tuple

from ..keys.bindings import SAM
from .host_process import SECONDS_TO_END, HostProcess, wait_for
from .network import Network
from sulgrevad import Client, Note, NoteKind, SamError, Status, Tick, read_note, write_note

ID_BYTES, NAME_BYTES = 16, 8  # of a session; of its name the first ones, in hexadecimal digits
LEAST_PIECE, PIECE = 4_096, 65_536  # bytes that are taken at once: first so many, and then more

SECONDS_TO_GO = 2  # that the last bytes may take where the session stays
SURE_AFTER = 0.1  # seconds of silence from which on the client is asked whether something is due: before that nobody goes by it
RETRY = 0.1  # seconds until that for which the memory was too small is tried again
MOST_EARLY = 100_000  # notes that may come before the stream begins
MOST_LAST_LINES = 1_024  # of a connection that has ended
SECONDS_MISSING = 60  # for which the line tries a session that the host doesn't find: its folder may not be there yet
ALIKE = 3  # connections that end alike, one after another, of which the user is told
SECONDS_APART = 60.0  # that a connection lasts whose end is no more of the same
SESSION = re.compile("[0-9a-f]{16}")  # a session's name: it goes into a command line
MOST_IN_NAME = 40  # runes of another that are told
MOST_STATUS, WRONG_WORDS = 255, 2  # of a process that ends; and that of one which knows no such words
MESSAGES = 1  # the version of the session's messages
OTHER_MESSAGES = "samhost there is of another version: both have to be of one release"

# Why the line is lost, by the host's reason.
LOST = {
    Status.LINK_OTHER_VERSION: "the host knows another version of the link",
    Status.LINK_NO_SESSION: "the session is not there any more",
    Status.LINK_OTHER_SESSION: "another terminal has taken the session over",
    Status.LINK_WRONG_COUNT: "the host has begun again, and lacks some of what it said: samterm --take goes on with the texts that it has",
}
# Why a connection alone is over; WRONG_BYTES in all other cases.
ENDS = {
    Status.LINK_NOT_A_LINK: "the host took the first bytes for no hello",
    Status.LINK_BAD_HELLO: "the host took the hello for wrong",
    Status.LINK_OLD_ATTEMPT: "the host knows a newer connection",
    Status.LINK_NO_SESSION: "",  # which is told otherwise
    Status.LINK_TOO_MANY_WORDS: "what came first was no hello",
    Status.LINK_WRONG_HELLO: "the host's hello doesn't fit what was sent",
}
WRONG_BYTES, SILENT = "what came is not what the host said before", "no answer came"
# What the user can do, by the keys that he has.
CAN = "{leave} leaves and keeps the texts here; samterm --take then goes on with those that the host has"
CAN_ASK = "{redraw} tries at once, and ssh can ask then; {leave} leaves and keeps the texts here"


class PersistentSession:
    """The terminal's end. Nothing here waits, but for `wait_for_stream`, `connect_in_front` and `close`."""

    def __init__(self, command: List[str], begin: Callable[[str], List[str]], takes_over: bool = False, clock=time.monotonic):
        """The command runs samhost with words after it: those of `begin`, which is told the session's name, at first, and then those that
        join the session again."""
        self.command, self.clock, self.keys = command, clock, SAM
        identity = os.urandom(ID_BYTES)
        self.name, self.machine = identity[:NAME_BYTES].hex(), ""
        self.client = Client(identity, takes_over, self._now)
        self.relay: Optional[HostProcess] = None  # the newest connection; None between two
        self._attempt = 0  # its number
        self._old: List[HostProcess] = []  # those that are ended, until their processes are gone
        self._gone = (0, 0)  # bytes that older connections have carried each way
        self.is_lost, self.why = False, ""  # no connection comes any more
        self._network = Network()
        self.ended_with: Optional[int] = None  # the status with which the session has ended
        self._last_line = ""  # of a connection's standard error
        self._unheard = bytearray()  # what came, and for which there was no memory
        self.has_out = True  # the client may have something for the connection
        self.news = 0  # how often the line was told something, by which the client may go on
        self._sent_at: Optional[int] = None  # how much was done then
        self._notes_met = 0
        self._called_at = 0.0
        self._words, self._is_in_front = "", False  # of the newest connection: what it told last, and whether the user waits for it
        self._end_was, self._alike = "", 0  # how the last connection ended, and how many before it ended like that
        self._tells: List[str] = []  # what is to be told of connections
        self._is_named = False  # the host has said the first message
        self._is_missing = False  # no host finds the session, and that is told
        self.expects = False  # an answer of the host is waited for, of which the client knows nothing
        self._details, self._quiet_at = self.client.describe(self._now), 0.0
        self._is_due: Optional[bool] = None  # whether something has to come; None where it was not looked since the line heard something
        self._due_at: Optional[float] = None  # when the line may have something to say: never later than it has
        self.client.tick(self._now)
        self._call(begin(self.name), in_front=True)

    @property
    def _now(self) -> int:
        return int(self.clock() * 1000)

    def _note(self) -> None:
        """The line was told something: it may have bytes, the client may go on by that, and it may stand otherwise."""
        self.has_out = True
        self.news += 1
        self._look()

    def _look(self) -> None:
        """The line may stand otherwise. It is looked at several times at each key, and asked once; what comes on a line that stands makes
        nothing due sooner."""
        now, was = self._now, self._details.state
        self._details = self.client.describe(now)
        self._quiet_at, self._is_due = self.clock() - self._details.silence / 1000, None
        if not (was == self._details.state == Client.OPEN and self._due_at is not None and self.clock() < self._due_at):
            self.look_at_time()

    def look_at_time(self) -> None:
        """When something is due by the clock, as the client stands: once it has gone on, what it loads next may be due sooner."""
        now = self._now
        left = self.client.due_in(now)
        is_passed = left == 0 and not self._is_timed  # it is the line's, which is waited for all the same
        self._due_at = None if left is None or is_passed else (now + left) / 1000

    # ---- Connections

    def _call(self, words: Sequence[str], in_front: bool = False) -> None:
        """Begins another connection. But for the first, and those that the user waits for, it has no screen on which ssh could ask."""
        self._words, self._is_in_front, self._called_at = "", in_front, self.clock()
        try:
            self.relay = HostProcess([*self.command, *words], own_session=not in_front)
        except OSError:
            self.client.not_connected(self._now)
            self._note()
            if not self._attempt:
                raise
            return
        self._attempt = self.client.connected(self._now)
        self._note()
        self.send()

    def connect(self, in_front: bool = False) -> None:
        """Tries another connection now, if the session stays."""
        if self.stays:
            self._drop()
            self._call(["--attach", self.name], in_front)

    def _drop(self) -> None:
        """Ends the newest connection."""
        relay, self.relay = self.relay, None
        if relay is not None:
            self.client.broken(self._attempt, self._now)
            self._note()
            self._unheard.clear()
            self._gone = (self._gone[0] + relay.up, self._gone[1] + relay.down)
            relay.kill()
            self._old.append(relay)

    def _break(self, why: str = "") -> None:
        """The newest connection is over. Where several end alike, why is told."""
        if self._details.is_known and not self.stays:
            self._lose("the host is gone")
            return
        if why != self._end_was or self.clock() - self._called_at > SECONDS_APART:
            self._alike = 0
        self._end_was, self._alike = why, self._alike + 1
        if why and self._alike == ALIKE:
            can = (CAN_ASK if why in (self._words, SILENT) else CAN).format(leave=self.keys.of("leave"), redraw=self.keys.of("redraw"))
            self._tells.append(f"samterm: {ALIKE} connections in a row ended alike: {why}. {can}")
        self._drop()

    def _lose(self, why: str) -> None:
        if not self.is_lost:
            self.is_lost, self.why = True, why

    @property
    def is_open(self) -> bool:
        return self._details.state in (Client.OPEN, Client.LATE)

    @property
    def is_connecting(self) -> bool:
        return self.relay is not None and not self.is_open and not self.is_lost

    @property
    def _is_timed(self) -> bool:
        """Whether the line's times count: a host that ends with its line is waited for, and so is a connection at which ssh may ask."""
        return self.stays and not self.is_lost and (self.relay is None or not self._is_in_front or self.is_open)

    def expect(self, expects: bool) -> None:
        """Notes whether an answer of the host is waited for that neither is one of a task nor frees a lock: those the client knows."""
        if expects != self.expects:
            self.expects = expects
            self.client.expect(expects, self._now)
            self._note()

    def go_on(self) -> None:
        """Does what is due by the clock; a question goes out as the client goes on."""
        if self._old:
            self._old = [relay for relay in self._old if not relay.is_over()]
        while self._due_at is not None and self.clock() >= self._due_at:
            why = "" if self.is_open else self._words or SILENT
            tick = self.client.tick(self._now) if self._is_timed else Tick.NOTHING
            self._note()
            if tick == Tick.CONNECT:
                self.connect()
            elif tick == Tick.DROP:
                self._break(why)
            else:
                return  # a load is due, for which the client asks as it goes on

    def _hear_network(self, ready: Dict[int, int]) -> None:
        """Where an address has gone, or one has come and there is no line, the line hears of it."""
        heard = self._network.hear(ready)
        if heard.gone or (heard.came and self.relay is None):
            self.client.address_changed(self._now)
            self._note()

    def delay(self) -> Optional[float]:
        """Seconds until something is due by the clock; None where nothing is."""
        has_ended = self.relay is not None and (self.relay.has_lines or (self.relay.is_lost and not self.is_lost))
        if self._tells or has_ended:
            return 0.0
        if self._unheard:
            return RETRY
        return None if self._due_at is None else max(0.0, self._due_at - self.clock())

    # ---- Bytes

    @property
    def up(self) -> int:
        return self._gone[0] + (self.relay.up if self.relay else 0)

    @property
    def down(self) -> int:
        return self._gone[1] + (self.relay.down if self.relay else 0)

    @property
    def waiting(self) -> bytes:
        """Bytes that the pipe has not taken yet."""
        return bytes(self.relay.waiting) if self.relay and self.relay.waiting else b""

    def send(self, deeds: Optional[int] = None) -> None:
        """Sends what the client has for the connection, as much as goes. It has nothing new where no more was done than at the last call,
        and the line has heard nothing."""
        relay, room = self.relay, LEAST_PIECE
        if deeds is not None and deeds == self._sent_at and not self.has_out and not self.waiting:
            return
        self._sent_at = deeds
        while relay is not None and not relay.is_deaf:
            was_waiting = bool(relay.waiting)
            data = b"" if was_waiting else self._taken_out(room)
            relay.send(data)
            if data:
                self._look()
            self.has_out = bool(relay.waiting)
            if relay.waiting or (len(data) < room and not was_waiting):
                return
            room = PIECE

    def put_note(self, note: Note) -> None:
        """Sends a message, behind all that has acted."""
        self.client.put_note(write_note(note), self._now)
        self._note()

    def _taken_out(self, room: int) -> bytes:
        """The next bytes for the connection; none where it is over."""
        try:
            return self.client.take_out(self._attempt, room)
        except SamError:
            return b""

    def wanted(self) -> Dict[int, int]:
        """What to wait for: events by descriptor."""
        if self.is_lost:
            return {}
        wanted = {} if self.relay is None else self.relay.wanted()
        wanted.update(self._network.wanted())
        return wanted

    def take(self, ready: Dict[int, int]) -> List[str]:
        """Gives the client what has come. Returns what there is to tell."""
        self._hear_network(ready)
        relay, tells = self.relay, []  # type: Optional[HostProcess], List[str]
        if relay is not None:
            data, tells = self._hear_relay(relay, ready)
            if relay.is_lost and not data and relay is self.relay and not self.is_lost:  # all that came is met before
                tells += self._last_lines(relay)
                self._break("" if self.is_open else self._words)
        self.go_on()
        return [*tells, *self._told_of()]

    def _hear_relay(self, relay: HostProcess, ready: Dict[int, int]) -> Tuple[bytes, List[str]]:
        """Gives the client what has come on a connection. Returns that, and what its programs have told."""
        data = relay.receive() if relay.source in ready and not relay.is_lost else b""
        # It tells of a text before it answers; an open line tells by notes.
        has_told = relay.messages in ready or relay.has_lines or (relay.source in ready and not (data and self.is_open))
        tells = self._new_lines(relay) if has_told and not relay.is_quiet else []
        if data or self._unheard:
            self._hear(data)
        return data, tells

    def _told_of(self) -> List[str]:
        """What there is to tell of connections."""
        tells, self._tells = self._tells, []
        return tells

    def _new_lines(self, relay: HostProcess) -> List[str]:
        """What a connection's programs write to standard error; each line once, however many connections fail by the same."""
        lines = relay.listen()
        self._words = lines[-1] if lines else self._words
        lines = [line for line in lines if line != self._last_line]
        self._last_line = lines[-1] if lines else self._last_line
        return lines

    def _last_lines(self, relay: HostProcess) -> List[str]:
        """The same of one whose stream has ended, as far as that is there."""
        lines: List[str] = []
        while len(lines) < MOST_LAST_LINES and not relay.is_quiet and (more := self._new_lines(relay)):
            lines += more
        return lines

    def _hear(self, data: bytes) -> None:
        """Bytes of the connection have come."""
        self._unheard += data
        try:
            self.client.receive(self._attempt, bytes(self._unheard), self._now)
        except MemoryError:
            return
        except SamError as error:
            self._unheard.clear()
            self._note()
            self._meet_fault(error.code)
            return
        self._unheard.clear()
        self._note()
        self._is_missing = self._is_missing and not self.is_open

    def _meet_fault(self, code: int) -> None:
        """What came has ended the connection, or the line. Where a session isn't found, a key's try is the last."""
        if self._details.state == Client.LOST or (code == Status.LINK_NO_SESSION and self._is_in_front):
            self._lose(LOST[Status(code)])
            return
        if code == Status.LINK_NO_SESSION and not self._is_missing:
            self._is_missing = True
            last = f"{self.keys.of('redraw')} tries a last time"
            self._tells.append(f"samterm: the host doesn't find the session. It is tried for {SECONDS_MISSING} s; {last}")
        self._break(ENDS.get(Status(code), WRONG_BYTES))

    def meet(self, data: bytes) -> Optional[Note]:
        """Reads a message of the host. Returns it, unless it is of the line. What only a later version says is skipped."""
        self._notes_met += 1
        try:
            note = read_note(data)
        except SamError:
            note = None
        if not self._is_named and (note is None or note.kind != NoteKind.SESSION or note.number != MESSAGES):
            self._lose(OTHER_MESSAGES)
        elif note is not None and note.kind == NoteKind.SESSION:
            self._meet_name(note)
        elif note is not None and note.kind == NoteKind.ENDED:
            self.ended_with = min(note.number, MOST_STATUS)
            with contextlib.suppress(MemoryError):  # it waits for that, and not for long
                self.client.acknowledge()
            self.send()
            self._lose("the host is gone")
        elif note is not None and note.kind == NoteKind.TAKEN_OVER:
            self._lose(f"another terminal has taken the session over: {note.text}")
        else:
            return note
        return None

    def _meet_name(self, note: Note) -> None:
        """The first message, which names the session and the host's machine. A wrong name is told."""
        name = note.path.decode("utf-8", "replace")
        self._is_named, self.machine = True, note.text
        if SESSION.fullmatch(name) is None:
            self._tells.append(f"samterm: the host calls the session {name[:MOST_IN_NAME]!r}, which is no name: it stays {self.name}")
        else:
            self.name = name

    # ---- How the line is

    @property
    def has_all(self) -> bool:
        """Whether the host is known to have all that the user did."""
        return self._details.has_all and self.client.has_all

    @property
    def silence(self) -> float:
        """For how many seconds nothing has come, though something was due."""
        silence = self.clock() - self._quiet_at
        if self._is_due is not False and silence >= SURE_AFTER:
            self._is_due = self.client.describe(self._now).silence > 0
        return 0.0 if self._is_due is False else silence

    @property
    def late_after(self) -> float:
        """The silence after which an answer counts as late."""
        return self._details.overdue_after / 1000

    @property
    def is_broken(self) -> bool:
        """Whether there is no line, though there was one."""
        return self._details.is_broken

    @property
    def told(self) -> str:
        """What the status line says of a line that is lost."""
        seconds = f"LINE LOST {int(self.silence)} s"
        if self.relay is not None:
            return f"{seconds}, connecting"
        return f"{seconds}, again in {round(max(0.0, (self._due_at or 0.0) - self.clock()))} s"

    # ---- The begin and the end

    @property
    def noise(self) -> List[str]:
        """The lines that came before the hello of the newest connection."""
        return [line for line in self.client.words.decode("utf-8", "replace").splitlines() if line.strip()]

    @property
    def refused_words(self) -> bool:
        """Whether the host's command has ended at its words, before any byte: a samhost that knows of no session that stays."""
        return self.relay is not None and not self.relay.down and self.early_status == WRONG_WORDS

    @property
    def early_status(self) -> Optional[int]:
        """The status with which the host's command has ended before the stream began; None where it goes on."""
        return None if self.relay is None else self.relay.early_status

    def wait_for_stream(self, hear: Callable[[str], None], go_on: Callable[[], bool]) -> bool:
        """Waits until the host's stream has begun, as a call that goes on with what has come says. Passes on what is told meanwhile, and
        returns whether it has."""
        has_begun = go_on()
        while not has_begun and not self.is_lost and self.relay is not None:
            self.send()
            relay, ready = self.relay, wait_for(self.wanted(), self.delay())
            self._hear_network(ready)
            for line in self._hear_relay(relay, ready)[1]:
                hear(line)
            has_begun = go_on()
            if self._notes_met > MOST_EARLY:
                self._lose("the host tells without an end")
            if relay.is_lost:
                break
        self.send()
        for line in self._told_of():
            hear(line)
        if self.is_lost:
            hear(f"samterm: {self.why}")
        return has_begun

    def connect_in_front(self, hear: Callable[[str], None], signals: int, is_stopped: Callable[[], bool]) -> None:
        """Tries another connection while the user waits for it, at a screen on which ssh may ask. A signal may stop that."""
        self.connect(in_front=True)
        while self.is_connecting and self.relay is not None:
            ready = wait_for({**self.wanted(), signals: select.POLLIN}, self.delay())
            if signals in ready and is_stopped():
                self._break()
                return
            for line in self.take(ready):
                hear(line)
            self.send()

    def close(
        self, hear: Callable[[str], None], go_on: Callable[[], None] = lambda: None, seconds: float = SECONDS_TO_END
    ) -> Optional[int]:
        """Sends what waits, and goes on by a call with what still comes. Where the session ends, or ends with its line, waits for that, and
        returns its status, None where it doesn't end; else waits for the host's word that it has all, and returns None: the session
        stays."""
        until = self.clock() + seconds
        while self.ended_with is None and self.clock() < until and not self.is_lost and self.relay is not None:
            if not self.ends and self.has_all:
                break
            self.send()
            left = min(until - self.clock(), 1.0 if self.delay() is None else self.delay())
            for line in self.take(wait_for(self.wanted(), left)):
                hear(line)
            go_on()
        status = self.ended_with
        if self.relay is not None and status is not None:
            self.relay.close(hear, seconds=SECONDS_TO_GO)
        elif self.relay is not None and not self.stays:  # the process is the host, which saves what it has
            relay, self.relay = self.relay, None
            status = relay.close(hear, seconds=max(SECONDS_TO_GO, until - self.clock()))
        self._drop()
        self._network.close()
        for relay in self._old:
            relay.is_over(waits=True)
        return status

    ends = False  # whether the user has left, so that the session ends
    stays = True  # whether the session goes on where the line breaks

