"""Requests for memory that are refused to a session that stays: while it begins and runs, while another terminal takes it over, and while
another samhost makes it again of its journal."""
import concurrent.futures
import os
import time

from checks import GIVEN_UP, Failed, expect, remove, wait_until

from .journals import ENDED, kill, kinds_of
from .line import Staying, home_of, is_running, pid_of
from .memory import build_full_disk, build_refusing
from .support import expect_equal, made, text_of

MOST_REQUESTS = 1500  # that are refused: later ones are of steps that came before, too
RUNS = 12  # sessions at once, which wait for the most part
TRIES = 20  # takeovers that are tried: a samhost without memory answers none
BROKEN, NO_MEMORY = 6, 4  # statuses
FIRST, STEP = 60, 29  # of the requests from the first number on every so manieth is refused
SOON = 30  # seconds: half as long as a session waits for a terminal that left and is gone


def refusing(place, library, number, count):
    """Words that run a program which gets no memory at its request of that number, and those after it: so many in all. A refusal leaves a
    byte in a file, which is handed out, too."""
    met = place.parent / f"{place.name}.met"
    settings = (f"LD_PRELOAD={library}", f"REFUSE={number}", f"REFUSE_COUNT={count}")
    return ("sh", "-c", 'exec "$@" 9>>"$0"', met, "env", *settings), met


def is_welcomed(session):
    """Whether the relay that runs now brings the session's welcome; else it has ended."""
    session.send()
    while session.process is not None and not session.is_welcomed:
        session.give()
        expect(session.receive(GIVEN_UP), "no welcome comes")
    return session.process is not None


def live(session):
    """Types, writes, opens another file, which can't be written, goes on after a break, and cuts. Returns whether the other file was
    opened."""
    session.begin()
    session.type("two\n")
    session.write()
    session.put_note("OPEN", request=1, path=b"b.txt")
    session.terminal.offer_version(2)
    session.settle()
    tags = [tag for tag in session.terminal.files() if session.terminal.name(tag) == "b.txt"]
    for tag in tags:
        session.terminal.open(tag)
        session.settle()
        session.type("more\n", tag)
        session.rename("gone/b.txt", tag)
        session.write(tag)
        expect(session.terminal.is_changed(tag), "what can't be written isn't changed")
    session.drop()
    session.type("three\n")
    session.terminal.select(1, 0, 4)
    session.terminal.cut(1)
    session.settle()
    return bool(tags)


def taken(place, name):
    """A terminal that takes the session over."""
    for _ in range(TRIES):
        session = Staying(place, takes=name, begin=False)
        if is_welcomed(session):
            session.begin()
            return session
        session.__exit__()
    raise Failed("the session can't be taken over")


def texts_in(place, *sessions):
    """What stands in the files of a folder, and in those that sessions have named: where memory is out a copy may stand elsewhere."""
    named = [os.fsdecode(message.copy) for session in sessions for message in session.messages if message.copy]
    paths = [*place.rglob("*"), *(place / copy for copy in named)]
    return {text_of(path) for path in paths if path.is_file()}


def begin_and_live(place, prefix):
    """A session without memory doesn't begin, and says so, or loses nothing."""
    made(place, a="one\n", b="other\n")
    with Staying(place, "a.txt", options=("--left",), prefix=prefix, begin=False) as session:
        if not is_welcomed(session):
            status = session.others[-1].wait(GIVEN_UP)
            expect(status in (NO_MEMORY, BROKEN), f"the status is {status}: {session.errors!r}")
            if status == NO_MEMORY:
                expect(b"memory" in session.errors, f"it says {session.errors!r}")
                expect(not home_of(place, session.name).exists(), "a session that has not begun leaves a folder")
                return
        has_other = live(session)
        with taken(place, session.name) as heir:
            expect_equal(heir.text(1), "two\nthree\n", "the text that is taken over")
            heir.leave()
    texts = texts_in(place, session, heir)
    expect("two\nthree\n" in texts, f"its text is lost: there is {texts}")
    expect(not has_other or "other\nmore\n" in texts, f"the text of the other file is lost: there is {texts}")


def begin_again(place, prefix):
    """So does one that another samhost is to make again: then the next one does."""
    made(place, a="one\n")
    with Staying(place, "a.txt", options=("--left",)) as session:
        session.type("two\n")
        session.write()
        session.terminal.select(1, 0, 4)
        session.terminal.cut(1)
        session.type("three\n")
        session.rename("gone/a.txt")
        session.write()
        session.drop()
        kill(place, session)
        session.prefix = prefix
        session.attach()
        session.settle()
        expect(session.terminal.is_changed(1), "what can't be written isn't changed")
        session.type("four\n")
        expect_equal(session.text(), "two\nthree\nfour\n", "the text")
        session.leave()
    texts = texts_in(place, session)
    expect("two\nthree\nfour\n" in texts, f"its text is lost: there is {texts}")


def leave(place, prefix):
    """A session without memory as its terminal leaves says soon that it ends, and loses nothing. What that takes is one request after
    another, so each is refused."""
    made(place, a="one\n")
    leaves = place.parent / f"{place.name}.leaves"
    with Staying(place, "a.txt", prefix=(*prefix, f"REFUSE_ONCE={leaves}")) as session:
        session.type("two\n")
        began = time.monotonic()
        leaves.touch()
        session.leave()
        expect(time.monotonic() - began < SOON, "it waits for a terminal that has left and has heard all")
    texts = texts_in(place, session)
    expect("one\ntwo\n" in texts, f"its text is lost: there is {texts}")


def leave_unsaved(place, prefix):
    """So does one whose text can't be saved either: its journal stays, with its end, and --end saves the text."""
    made(place, a="one\n")
    leaves = place.parent / f"{place.name}.leaves"
    with Staying(place, "a.txt", prefix=(*prefix, f"REFUSE_ONCE={leaves}", f"FULL={leaves}")) as session:
        session.type("two\n")
        pid, journal = pid_of(place, session.name), home_of(place, session.name) / "journal"
        leaves.write_text("words that the journal has not, so it has room")
        session.terminal.exit()
        session.wait_for_end(5)
        wait_until(lambda: not is_running(pid), "it doesn't go")
        expect(journal.exists(), "its journal is gone")
        expect(ENDED in kinds_of(journal.read_bytes()), "its journal doesn't have its end")
        ended = session.run("--end", session.name)
        expect_equal(ended.returncode, 0, f"after {ended.stderr!r} the status of --end")
    expect_equal(text_of(place / "a.txt.sam-saved"), "one\ntwo\n", "the copy")


def sweep(folder, count, run, *others):
    """Runs sessions of which a request is refused, and those after it: so many in all. Each of the first requests is, and of those after
    them every so manieth. Other libraries are loaded, too."""
    library = ":".join(map(str, (build_refusing(folder), *others)))

    def refuse(number):
        place = folder / f"{run.__name__}-{count}-{number}"
        place.mkdir()
        prefix, met = refusing(place, library, number, count)
        try:
            run(place, prefix)
        except Failed as why:
            raise Failed(f"request {number}, {count} in a row: {why}") from why
        remove(place)
        return met.stat().st_size > 0

    numbers = [*range(1, FIRST), *range(FIRST, MOST_REQUESTS, STEP)]
    with concurrent.futures.ThreadPoolExecutor(RUNS) as pool:
        for at in range(0, len(numbers), RUNS):
            if not all(pool.map(refuse, numbers[at : at + RUNS])):
                expect(at > RUNS, "this test is wrong: it makes so few requests for memory")
                return


def check_stays_where_memory_is_refused(folder):
    """Where a request for memory is refused a session that stays doesn't begin, or loses nothing: as it goes on after breaks, opens files
    and is taken over."""
    sweep(folder, 1, begin_and_live)


def check_stays_where_memory_is_short(folder):
    """So it is where several requests in a row are refused."""
    sweep(folder, 4, begin_and_live)


def check_journal_where_memory_is_refused(folder):
    """So it is where another samhost begins from its journal: it does, or the next one does."""
    for count in (1, 4):
        sweep(folder, count, begin_again)


def check_leaves_where_memory_is_refused(folder):
    """A terminal that leaves hears soon that the session has ended, which waits for nothing then, where memory is refused meanwhile."""
    for count in (1, 4):
        sweep(folder, count, leave)


def check_journal_stays_where_memory_is_refused(folder):
    """A session whose text can't be saved at its end keeps its journal, where memory is refused meanwhile."""
    for count in (1, 4):
        sweep(folder, count, leave_unsaved, build_full_disk(folder))
