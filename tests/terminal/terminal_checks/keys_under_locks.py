"""What is typed while a file is locked shows at once, over a line of 300 ms each way: a round trip is as long as thirty keys may take."""
import contextlib
import time

from checks import times_longer

from .key_times import FIRST, made_file, shown_after
from .stalled_line import MOST_FOR_A_KEY, RUNES, OnTerminal
from .support import expect

DELAY = 300  # milliseconds each way
KEYS = 10  # that are typed within the round trip
ENTER, WRITE, COPY, PASTE, NEXT_WINDOW, SHIFT_END = "\r", "\x17", "\x03", "\x16", "\x10", "\x1b[1;2F"
SETTLED = 2.0  # seconds without a byte for the screen, after which no answer is under way
MOST_HELD_UP = 1  # keys that other programs may hold up


def expect_at_once(session, what, runes=RUNES[:KEYS]):
    """Each of some runes shows soon after it is typed."""
    found, most = [shown_after(session, rune) for rune in runes], MOST_FOR_A_KEY * times_longer()
    late = [seconds for seconds in found if seconds > most]
    told = f"{what}: keys take {[round(seconds * 1000) for seconds in found]} ms, and {most * 1000:.0f} are wanted"
    expect(len(late) <= MOST_HELD_UP, told)


@contextlib.contextmanager
def settled(folder, *files, delay=DELAY):
    """samterm with files that are loaded, and no answer under way."""
    with OnTerminal(folder, *files, delay=delay) as session:
        session.read_until("one")
        session.rest(SETTLED)
        yield session


def check_keys_while_a_file_loads(folder):
    """While a long file is loaded, which takes this line half a minute."""
    made_file(folder)
    with OnTerminal(folder, "a.txt", delay=f"{DELAY} 30000") as session:
        session.read_all_until(FIRST)
        until = time.monotonic() + 1.5
        while (left := until - time.monotonic()) > 0:
            session.read(left)
        expect_at_once(session, "while the file is loaded")


def check_keys_while_a_file_is_written(folder):
    """Behind `^W`, while the answer is under way; and the file has what stood there as the key was pressed."""
    path = folder / "a.txt"
    path.write_text("one\n")
    with settled(folder, "a.txt") as session:
        session.type("Ω")
        session.read_until("Ω")
        session.type(WRITE)
        expect_at_once(session, "behind ^W")
        session.rest(SETTLED)
        expect(path.read_text() == "Ωone\n", f"the file has {path.read_text()!r}")
        session.type(WRITE)
        session.rest(SETTLED)
        expect(path.read_text() == f"Ω{RUNES[:KEYS]}one\n", f"then it has {path.read_text()!r}")


def check_keys_behind_a_paste(folder):
    """Behind `^V`; and they stand behind what was pasted."""
    path = folder / "a.txt"
    path.write_text("one\ntwo\n")
    with settled(folder, "a.txt") as session:
        session.type(SHIFT_END)
        session.type(COPY)
        session.type(PASTE)
        session.type(PASTE)
        expect_at_once(session, "behind ^V")
        session.type(WRITE)
        session.rest(SETTLED)
        expect(path.read_text() == f"oneone{RUNES[:KEYS]}\ntwo\n", f"the file has {path.read_text()!r}")


def check_keys_beside_a_command_line(folder):
    """In a file, while a command line runs on another one."""
    (folder / "a.txt").write_text("one\n")
    (folder / "b.txt").write_text("two\n")
    with settled(folder, "a.txt", "b.txt") as session:
        session.type("\x1b")
        session.rest(0.5)
        session.type(",x/one/c/three/")
        session.rest(SETTLED)
        session.type("\x14")  # a window for the other file
        session.read_until("two")
        session.rest(SETTLED)
        for _ in range(2):
            session.type(NEXT_WINDOW)
            session.rest(0.5)
        session.type("\x1b")  # from the first file, on which the line works
        session.rest(0.5)
        session.type(ENTER)
        session.type(NEXT_WINDOW)
        session.type(NEXT_WINDOW)
        expect_at_once(session, "beside a command line")
        session.type(WRITE)
        session.rest(SETTLED)
        expect((folder / "b.txt").read_text() == f"{RUNES[:KEYS]}two\n", f"the file has {(folder / 'b.txt').read_text()!r}")


def check_keys_under_a_lock_of_a_dead_line(folder):
    """While the line stands still before the answer to a write came; and all of it is there once the line is back."""
    path = folder / "a.txt"
    path.write_text("one\n")
    with settled(folder, "a.txt") as session:
        session.type("Ω")
        session.read_until("Ω")
        session.type(WRITE)
        session.read(0.05)
        with session.stopped_line():
            expect_at_once(session, "on a line that stands still", RUNES[: KEYS // 2])
            until = time.monotonic() + 4
            while (left := until - time.monotonic()) > 0:
                session.read(left)
            expect_at_once(session, "where that is known", RUNES[KEYS // 2 : KEYS])
        session.host_has(RUNES[KEYS - 1])
        session.rest(SETTLED)
        session.type(WRITE)
        session.rest(SETTLED)
        expect(path.read_text() == f"Ω{RUNES[:KEYS]}one\n", f"the file has {path.read_text()!r}")
