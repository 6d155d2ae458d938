"""Files whose text is on no disk: the host marks them as dirty, so that each terminal knows them as changed."""
import os
import resource
import signal

from checks import wait_until
from sulgrevad import NoteCode

from .journals import DONE, kill, kinds_of, records_of
from .line import Staying, home_of, is_running, pid_of, with_calls
from .support import expect_equal, made, text_of

NO_LIMIT = (resource.RLIM_INFINITY, resource.RLIM_INFINITY)


def changed(session, *tags):
    """Which of these files the terminal knows as changed."""
    return [tag for tag in tags or (1,) if session.terminal.is_changed(tag)]


def expect_failed(session, code, count):
    """So many writes of the first file have failed, the last one with a code, and it is changed."""
    failed = session.of("NOT_SAVED", tag=1)
    expect_equal((len(failed), NoteCode(failed[-1].code).name), (count, code.name), "how many writes failed, and why the last one did")
    expect_equal(changed(session), [1], f"{code.name}: changed are")


def check_marked_where_a_write_failed(folder):
    """A write that fails leaves the file changed, also the second one; one that doesn't fail leaves it clean."""
    (path,) = made(folder, a="one\n")
    with Staying(folder, "a.txt") as session:
        session.type("two\n")
        session.rename("gone/a.txt")
        for count in (1, 2):
            session.write()
            expect_failed(session, NoteCode.NOT_FOUND, count)
        (folder / "gone").mkdir()
        session.write()
        expect_equal((changed(session), text_of(folder / "gone/a.txt")), ([], "one\ntwo\n"), "what is changed, and the file")
        session.rename("a.txt")
        session.type("x" * 200)
        resource.prlimit(pid_of(folder, session.name), resource.RLIMIT_FSIZE, (100, resource.RLIM_INFINITY))
        session.write()
        expect_failed(session, NoteCode.NO_SPACE, 3)
        resource.prlimit(pid_of(folder, session.name), resource.RLIMIT_FSIZE, NO_LIMIT)
        session.write()
        expect_equal((changed(session), text_of(path)), ([], "one\ntwo\n" + "x" * 200), "what is changed, and the file")
        session.leave()


def check_marked_where_the_disk_refused(folder):
    """The same where the system refuses it: there is no room, it isn't allowed, the disk has failed."""
    made(folder, a="one\n")
    with Staying(folder, "a.txt") as session:
        errors = {"ENOSPC": NoteCode.NO_SPACE, "EACCES": NoteCode.NO_PERMISSION, "EIO": NoteCode.FAILED}
        for count, (error, code) in enumerate(errors.items(), 1):
            session.type(f"{error}\n")
            with with_calls(pid_of(folder, session.name), f"inject=fsync:error={error}"):
                session.write()
            expect_failed(session, code, count)
            session.write()
            expect_equal(changed(session), [], f"{error}: changed are")
        session.leave()


def check_marked_among_writes(folder):
    """Of writes under way each says it of its file, the last one of a file for good; a later edit keeps the file changed."""
    first, _, _ = made(folder, a="one\n", b="other\n", c="third\n")
    with Staying(folder, "a.txt", "b.txt", "c.txt") as session:
        for tag in (1, 2, 3):
            session.type("two\n", tag)
        session.rename("gone/b.txt", 2)
        first.write_text("another program's\n")
        for tag in (1, 1, 2, 3):  # the first write of a file that another program changed fails, and the next replaces it
            session.terminal.write(tag)
        session.settle()
        kinds = [len(session.of(kind, tag=tag)) for tag in (1, 2, 3) for kind in ("NOT_SAVED", "SAVED")]
        expect_equal(kinds, [1, 1, 1, 0, 0, 1], "the writes that failed, and those that didn't")
        expect_equal(changed(session, 1, 2, 3), [2], "changed are")
        session.type("three\n", 3)
        expect_equal(changed(session, 1, 2, 3), [2, 3], "after an edit changed are")
        session.leave()


def killed_at_a_write(place, session, records_left):
    """Has a write fail, and kills samhost before its record, behind that, or behind all."""
    journal = home_of(place, session.name) / "journal"
    session.terminal.write(1)
    session.send()
    pid = pid_of(place, session.name)
    wait_until(lambda: DONE in kinds_of(journal.read_bytes()), "no write is noted")
    os.kill(pid, signal.SIGKILL)
    wait_until(lambda: not is_running(pid), "it still runs")
    data = journal.read_bytes()
    records, end = records_of(data)
    at = next(number for number, (_, kind) in enumerate(records) if DONE in kind)
    ends = [start for start, _ in records] + [end]
    journal.write_bytes(data[: ends[(at, at + 1, -1)[records_left]]])
    session.drop()


def check_marked_through_kills(folder):
    """A samhost that is killed before the record of a write that failed, behind it, or behind all: the next one has the file changed,
    unless it could write it."""
    for records_left, comes in ((0, False), (1, False), (2, False), (0, True), (1, True)):
        place = folder / f"{records_left} {comes}"
        place.mkdir()
        made(place, a="one\n")
        with Staying(place, "a.txt") as session:
            session.type("two\n")
            session.rename("gone/a.txt")
            killed_at_a_write(place, session, records_left)
            if comes:
                (place / "gone").mkdir()
            session.settle()
            is_written = comes and records_left == 0  # it is done once more
            expect_equal(changed(session), [] if is_written else [1], f"{place.name}: changed are")
            kill(place, session)
            session.settle()
            (place / "gone").mkdir(exist_ok=True)
            session.write()
            expect_equal(changed(session), [], f"{place.name}: once it is written changed are")
            kill(place, session)
            session.settle()
            expect_equal((changed(session), text_of(place / "gone/a.txt")), ([], "one\ntwo\n"), f"{place.name}: what is changed, the file")
            session.leave()


def check_marked_where_a_session_is_taken(folder):
    """Whoever takes a session over has what was not written as changed, also where samhost is killed before that terminal said a word, and
    where another one takes it before."""
    for way in ("at once", "killed", "taken again"):
        place = folder / way
        place.mkdir()
        made(place, a="one\n", b="other\n")
        with Staying(place, "a.txt", "b.txt") as old:
            old.type("two\n")
            old.drop()
            with Staying(place, takes=old.name, begin=False) as silent:
                silent.give()
                wait_until(lambda: silent.receive(0.1) and silent.is_welcomed, "it isn't welcomed")
                if way == "killed":
                    kill(place, silent)
                if way == "taken again":
                    silent.drop()
                with Staying(place, takes=silent.name) if way == "taken again" else silent as new:
                    if way != "taken again":
                        new.begin()
                    expect_equal(changed(new, 1, 2), [1], f"{way}: changed are")
                    new.write()
                    expect_equal((changed(new, 1, 2), text_of(place / "a.txt")), ([], "one\ntwo\n"), f"{way}: what is changed, the file")
                    new.leave()
