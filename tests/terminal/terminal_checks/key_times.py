"""How soon keys show in a file that has just been opened, while the rest of it is loaded."""
import time

from .stalled_line import RUNES, OnTerminal, share_of

LINES = 12_000
LINE = "{:05} the quick brown fox jumps over the lazy dog and runs away from it\n"
FIRST = "00000 the quick"  # what shows first
PAUSES = (0.0, 0.3, 1.0, 2.0, 5.0, 10.0)  # seconds after that at which keys are pressed
PACE = 0.12  # seconds from a key to the next of one who types words
ROW = len(RUNES)  # keys of a row, of which Enter is the last: a row that is drawn again has no rune twice
WORDS = 104  # keys of these, of which 100 are no Enter


def made_file(folder):
    """A file of 852,000 characters."""
    (folder / "a.txt").write_text("".join(map(LINE.format, range(LINES))))


def shown_after(session, rune):
    """Seconds until a rune shows that is typed now."""
    session.type(rune)
    return session.read_until(rune)


def after_the_start(folder, line, **more):
    """Seconds until each key shows, by the pause after the first text; the line is as tools/delay takes it."""
    made_file(folder)
    with OnTerminal(folder, "a.txt", delay=line, **more) as session:
        session.read_all_until(FIRST)
        start, found = time.monotonic(), {}
        for pause, rune in zip(PAUSES, RUNES):
            while (left := start + pause - time.monotonic()) > 0:
                session.read(left)
            found[pause] = shown_after(session, rune)
    return found


def of_words(folder, line, **more):
    """Seconds until each key shows of words that are typed from the first text on."""
    made_file(folder)
    found = []
    with OnTerminal(folder, "a.txt", delay=line, **more) as session:
        session.read_all_until(FIRST)
        start = time.monotonic()
        for number in range(WORDS):
            while (left := start + number * PACE - time.monotonic()) > 0:
                session.read(left)
            if number % ROW == ROW - 1:
                session.type("\r")
            else:
                found.append(shown_after(session, RUNES[number % ROW]))
    return found


def until_all_is_loaded(folder, line, **more):
    """Seconds from the first text on until all of the file is loaded: then the status line says how many lines it has."""
    made_file(folder)
    with OnTerminal(folder, "a.txt", delay=line, **more) as session:
        session.read_all_until(FIRST)
        return session.read_until(f"of {LINES}")


def most_of(times):
    """What 99 of 100 take at most, and the slowest."""
    return share_of(times, 99), max(times)
