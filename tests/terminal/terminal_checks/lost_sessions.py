"""Sessions that can't go on, or can't begin: why is told, and when that is final; the times of a line, and what waits for memory."""
import contextlib
import os
import signal
import time
from unittest import mock

from .hostile import hostile
from .support import STATE, Session, below, expect, host_that, made, wait_until

IDENTITY = bytes(range(16))  # of a session


def samterm_of(session):
    """The process of samterm, beside a host in Python."""
    return below(int(session.tmux("display-message", "-p", "#{pane_pid}")))[0]


def check_tells_why_it_cannot_go_on(folder):
    """After three connections that end alike it is told why, and what the user can do; and it goes on trying, with longer pauses."""
    rows = (
        (("fails", "no way to box"), "no way to box"), (("refuses", "22"), "the host knows a newer connection"),
        (("garbage",), "what came is not what the host said before"),
    )  # fmt: skip
    with contextlib.ExitStack() as stack:
        sessions = []
        for how, _ in rows:
            place = folder / how[0]
            place.mkdir()
            program = host_that(place, f"date +%s.%N >> {place / 'calls'}", f'exec {hostile(*how)} "$@"')
            sessions.append(stack.enter_context(Session(place, "a.txt", "b.txt", host=program, stays=True, width=200)))
        for session in sessions:
            session.wait_for("LINE LOST")
            session.type("typed ")
        for session, (_, wanted) in zip(sessions, rows):
            session.wait_for("3 connections in a row ended alike")
            expect(session.shows(wanted) and session.shows("^Q leaves"), f"{wanted}: it tells\n" + "\n".join(session.screen()))
        calls = sessions[-1].folder / "calls"
        wait_until(lambda: len(calls.read_text().split()) >= 5, "it doesn't try any more")
        times = [*map(float, calls.read_text().split())]
        expect(times[4] - times[3] > 3, f"it tries at {times}")
        for session in sessions:
            os.kill(samterm_of(session), signal.SIGTERM)
        for session in sessions:
            session.wait_for_end(128 + signal.SIGTERM)
            kept = [path.read_text() for path in session.folder.glob("a.txt.sam-here")]
            told = (session.folder / "stderr").read_text()
            expect(len(kept) == 1 and kept[0].startswith("typed text"), f"it keeps {kept}, and tells {told!r}")


def check_session_that_is_not_there_yet(folder):
    """Where the host doesn't find a session that was there, that is told, and it is tried on: so a folder may come a little later. After a
    minute, or by a key, that is final."""
    made(folder, a="one\n")
    state = folder / STATE / "sulgrevad"
    with Session(folder, "a.txt", stays=True, width=140) as session:
        for comes_back in (True, False):
            session.wait_for("one")
            session.wait_for_quiet()
            (lock,) = state.glob("*/lock")
            host = int(lock.read_text())
            state.rename(folder / "away")  # before samterm can try another connection
            os.kill(host, signal.SIGKILL)
            session.wait_for("the host doesn't find the session")
            session.type("x" if comes_back else "y")
            if comes_back:
                (folder / "away").rename(state)
                wait_until(lambda: not session.shows("LINE LOST"), "it doesn't go on")
                session.wait_for("xone")
            else:
                session.wait_for_seconds("LINE LOST", 4)
                session.keys("F5")
                session.wait_for("the session is not there any more")
                session.keys("C-q")
                session.wait_for_end(3)
    expect((folder / "a.txt.sam-here").read_text() == "xyone\n", "what was typed is lost")


def said_on(session, what):
    """The host says this hello on the newest connection."""
    session._hear(spelled(what, session._attempt))


def spelled(what, attempt):
    return b"\x89samlink\1" + bytes([what]) + IDENTITY + attempt.to_bytes(8, "big") + bytes(8)


def check_when_a_missing_session_is_final(folder):
    """The same by the clock, without a host: a session that was there is tried for a minute, and one that never was is not."""
    from terminal.line import persistent_session as line

    now, welcome, no_session = [100.0], 4, 20
    with mock.patch.object(os, "urandom", lambda count: IDENTITY[:count]):
        session = line.PersistentSession(["sleep", "100"], lambda name: [], clock=lambda: now[0])
        first = line.PersistentSession(["sleep", "100"], lambda name: [])
    said_on(session, welcome)
    expect(session.is_open, "this test is wrong: it is not welcome")
    for seconds, is_final in ((0, False), (1, False), (30, False), (59, False), (60, True)):
        now[0] = 100.0 + seconds
        session.connect()
        said_on(session, no_session)
        expect(session.is_lost == is_final, f"after {seconds} s: final is {session.is_lost}")
    told = [item for item in session._told_of() if "doesn't find" in item]
    expect(len(told) == 1, f"it tells {told}")
    session.close(print, seconds=0)
    said_on(first, no_session)
    expect(first.is_lost, "a session that never was is waited for")
    first.close(print, seconds=0)


def check_times_of_a_line(folder):
    """A connection that no host welcomes is given up after 30 seconds, but not while the user waits for it; and so is a silent line where
    an answer is due or waited for, but not where none is."""
    from sulgrevad import EventKind
    from terminal.line import persistent_session as line

    now = [100.0]
    with mock.patch.object(os, "urandom", lambda count: IDENTITY[:count]):
        session = line.PersistentSession(["sleep", "100"], lambda name: [], clock=lambda: now[0])

    def goes_on(seconds):
        """Whether the connection is still the same after so many seconds, of which each is looked at."""
        first = session.relay
        for _ in range(10 * seconds):
            now[0] += 0.1
            session.go_on()
            list(session.client.go_on(session._now))
            session.send()
        return session.relay is first

    expect(goes_on(100), "the first one is given up while the user waits")
    session.connect()
    expect(goes_on(29) and not goes_on(2), "one that isn't welcome isn't given up after 30 seconds")
    session.connect(in_front=True)
    expect(goes_on(100), "one is given up while the user waits")
    said_on(session, 4)
    expect(session.is_open and goes_on(100), "an open line is given up though nothing is due")
    session.expect(True)
    expect(session.has_all and goes_on(29) and session.silence > 28 and not goes_on(2), "a line isn't given up that brings no answer")
    session.expect(False)
    session.connect()
    said_on(session, 4)
    session.client.ask(EventKind.GET_SNARF)
    list(session.client.go_on(session._now))
    session.send()
    expect(not session.has_all and goes_on(29) and session.silence > 28 and not goes_on(2), "a silent line isn't given up after 30 seconds")
    session.close(print, seconds=0)


def check_session_that_cannot_begin(folder):
    """Where all files are refused, why is told at once, each of them; and so is what else is told at the start, one line after another."""
    from terminal.line.persistent_session import PersistentSession

    names = [f"{at}.txt" for at in range(300)]
    for name in names:
        (folder / name).write_bytes(b"\xff")
    (folder / "long.txt").write_text("x" * 1_600_000)
    for words in (["long.txt"], names):
        for stays in (True, False):
            (folder / "status").unlink(missing_ok=True)
            with Session(folder, *words, stays=stays) as session:
                session.wait_for_end(1)
            told = (folder / "stderr").read_text()
            expect(all(f"{name}: it is " in told for name in words), f"{words[:1]}: it tells {told[-300:]!r}")
            expect("doesn't answer" not in told, f"{words[:1]}: it tells {told[-300:]!r}")
    ended = PersistentSession(["sh", "-c", "echo why >&2; exit 3"], lambda name: [])
    lines = []
    expect(not ended.wait_for_stream(lines.append, lambda: False) and ended.early_status == 3, f"this test is wrong: {ended.early_status}")
    start = time.monotonic()
    ended.close(lines.append)
    expect(time.monotonic() - start < 5 and lines == ["why"], f"it takes {time.monotonic() - start:.1f} s, and tells {lines}")
    made(folder, a="one\n")
    (folder / "status").unlink()
    with Session(folder, "a.txt", "0.txt", "1.txt", "long.txt", stays=True, width=140) as session:
        session.wait_for("the next key shows 2 more")
        session.read("0.txt: it is not UTF-8", "1.txt: it is not UTF-8", "long.txt: it is longer")
        session.leave()
