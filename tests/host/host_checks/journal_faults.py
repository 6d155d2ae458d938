"""A journal that can't be written for a while: that is told, and it is begun anew once it can."""
import concurrent.futures
import os
import resource
import signal
import subprocess
import time

from checks import GIVEN_UP, MNT_DETACH, Skipped, expect, libc, wait_until
from link_model import What

from .journals import ENDED, kill, kinds_of, records_of, typed
from .line import Staying, expect_gone, home_of, is_running, pid_of, state_of, with_calls
from .memory import build_full_disk
from .support import SAMHOST, expect_equal, made, names_in, text_of

FAULTS = int(os.environ.get("FAULTS") or 24)  # how many single faults are tried of each call and error; 1000: all that there are
AT_ONCE = 4
AGAIN = "the journal is written again"
ROOM = 512 * 1024  # bytes of a small disk


def is_begun_anew(session, times=1):
    """Waits until the terminal has heard so often that the journal is written again."""
    session.carry(lambda: session.said().count(AGAIN) == times, "it isn't begun anew")


def losses(session):
    return [message.text for message in session.of("NO_JOURNAL")]


def expect_goes_on(folder, session, text):
    """Another samhost goes on with the same terminal and all that it has typed."""
    kill(folder, session)
    session.type("after\n")
    expect_equal(session.text(), text + "after\n", "the text")
    session.write()
    expect_equal(text_of(folder / "a.txt"), text + "after\n", "the file")
    session.leave()


def check_journal_is_begun_anew(folder):
    """Once the journal can be written again there is one, with all that was typed meanwhile. Both are told, each time."""
    with typed(folder) as session:
        journal, pid, text = home_of(folder, session.name) / "journal", pid_of(folder, session.name), "one\ntwo\n"
        for times in (1, 2):
            resource.prlimit(pid, resource.RLIMIT_FSIZE, (journal.stat().st_size + 20, resource.RLIM_INFINITY))
            for number in range(3):
                session.type(f"{times} {number}\n")
                text += f"{times} {number}\n"
            session.carry(lambda: len(losses(session)) == times, "it isn't told")
            expect(not journal.exists(), "a journal that lacks steps is there")
            resource.prlimit(pid, resource.RLIMIT_FSIZE, (resource.RLIM_INFINITY, resource.RLIM_INFINITY))
            is_begun_anew(session, times)
        expect_equal(records_of(journal.read_bytes())[1], journal.stat().st_size, "where its records end")
        expect_equal(len(losses(session)), 2, f"how often it says so, in {session.messages}: it")
        expect_goes_on(folder, session, text)


def check_journal_is_begun_anew_before_a_signal_ends_it(folder):
    """At a signal a journal that was held is begun anew at once, if it can be: the session goes on."""
    with typed(folder) as session:
        pid = pid_of(folder, session.name)
        with with_calls(pid, "inject=writev:error=ENOSPC:when=1"):
            session.type("three\n")
            session.carry(lambda: losses(session), "it isn't told")
            os.kill(pid, 15)
            wait_until(lambda: (home_of(folder, session.name) / "journal").exists(), "it isn't begun anew")
        session.type("four\n")
        expect(pid_of(folder, session.name) != pid, "no other samhost has begun")
        expect_equal(session.text(), "one\ntwo\nthree\nfour\n", "the text")
        session.leave()


def check_journal_on_a_full_disk(folder):
    """On a disk without room the session goes on, and its journal is begun anew once there is room."""
    if "TMP_IS_OWN" not in os.environ:
        raise Skipped("nothing can be mounted here")
    state = state_of(folder)
    state.mkdir(parents=True, mode=0o700)
    if libc.mount(b"none", os.fsencode(state), b"tmpfs", 0, f"size={ROOM},mode=700".encode()) != 0:
        raise Skipped("nothing can be mounted here")
    try:
        with typed(folder) as session:
            filler = state / "filler"
            with open(filler, "wb", buffering=0) as file:
                try:
                    while True:
                        file.write(bytes(4096))
                except OSError:
                    pass
            text = "one\ntwo\n"
            for number in range(200):
                text += f"{number:60}\n"
                session.type(f"{number:60}\n")
            expect(losses(session)[0].startswith("the journal can't be written: No space left on device"), f"it tells {session.messages}")
            session.let_pass(4)
            expect_equal(names_in(home_of(folder, session.name)), ["journal.unfinished", "lock", "name", "socket"], "what is in its folder")
            filler.unlink()
            is_begun_anew(session)
            expect_goes_on(folder, session, text)
    finally:
        libc.umount2(os.fsencode(state), MNT_DETACH)


def check_journal_that_never_began(folder):
    """A session that could not begin a journal begins it later."""
    made(folder, a="one\n")
    words = ("strace", "-f", "-qq", "-o", "/dev/null", "-e", "inject=writev:error=ENOSPC:when=1")  # of each process, so twice
    with Staying(folder, "a.txt", prefix=words) as session:
        is_begun_anew(session)
        expect_equal(len(losses(session)), 1, f"how often it says so, in {session.messages}: it")
        session.type("two\n")
        expect_goes_on(folder, session, "one\ntwo\n")


def check_journal_that_the_first_terminal_begins(folder):
    """So it does where that comes of the first connection: the terminal hears that the journal is written again."""
    made(folder, a="one\n")
    log = folder / "temporary" / "log"
    words = ("strace", "-f", "-qq", "-o", log, "-e", "trace=writev", "-e", "inject=writev:error=ENOSPC:when=1")  # of each process
    with Staying(folder, "a.txt", prefix=words, begin=False) as session:
        wait_until(lambda: log.exists() and log.read_text().count("INJECTED") == 2, "the journal is not tried once more")
        session.begin()
        is_begun_anew(session)
        expect_equal(len(losses(session)), 1, f"how often it says that it can't be, in {session.messages}: it")
        session.type("two\n")
        expect_goes_on(folder, session, "one\ntwo\n")


def went_on(place, call, error, when):
    """Tries a session in which one call on the journal fails, and whose samhost is killed once it is begun anew. Returns whether the call
    came."""
    place.mkdir()
    made(place, a="one\n", b="other\n")
    with Staying(place, "a.txt", options=("--left",)) as session:
        text = "one\n"
        with with_calls(pid_of(place, session.name), f"inject={call}:error={error}:when={when}"):
            for number in range(3):
                session.type(f"{number}\n")
                text += f"{number}\n"
            session.write()
            session.put_note("OPEN", request=1, path=b"b.txt")
            session.carry(lambda: session.of("OPENED", request=1), "it isn't opened")
            session.terminal.select(1, 0, 4)
            session.terminal.cut(1)
            session.settle()
            text = text[4:]
            session.let_pass(0.2)
            has_come = bool(losses(session))
            if has_come:
                is_begun_anew(session)
        expect_equal(len(losses(session)), int(has_come), f"{call} {when}: how often it says so, in {session.messages}: it")
        expect_goes_on(place, session, text)
        expect_equal(len(session.of("OPENED", request=1)), 1, f"{call} {when}: how often it is opened, in {session.messages}")
    return has_come


def check_journal_at_each_fault(folder):
    """One write or sync of the journal that fails, any of them, costs nothing: it is told, and after a kill the same terminal goes on."""

    def tried(case):
        call, error, when = case
        return went_on(folder / f"{call}{error}{when}", call, error, when)

    for call, error in (("writev", "ENOSPC"), ("fdatasync", "EIO"), ("writev", "EIO"), ("fdatasync", "ENOSPC")):
        with concurrent.futures.ThreadPoolExecutor(AT_ONCE) as pool:
            came, first = 0, 1
            while came < FAULTS:
                found = list(pool.map(tried, [(call, error, when) for when in range(first, first + AT_ONCE)]))
                came, first = came + sum(found), first + AT_ONCE
                if not all(found):
                    break
        expect(came > 4, f"this test is wrong: {call} fails {came} times")


def on_full_disk(folder):
    """Words of the environment that run samhost on a disk which is full while a file is there; and that file."""
    full = folder / "temporary" / "full"
    return {"LD_PRELOAD": str(build_full_disk(folder)), "FULL": str(full)}, full


def check_journal_stays_where_its_end_finds_no_room(folder):
    """A session whose text can't be saved at its end keeps its journal, also where that takes nothing more, not even that it stays. So does
    --end while there is no room. Once there is some, it saves the text."""
    made(folder, a="one\n")
    words, full = on_full_disk(folder)
    with Staying(folder, "a.txt", prefix=("env", *map("=".join, words.items()))) as session:
        session.type("two\n")
        pid, journal = pid_of(folder, session.name), home_of(folder, session.name) / "journal"
        full.write_text("samhost --end")
        session.terminal.exit()
        session.wait_for_end(5)
        wait_until(lambda: not is_running(pid), "it doesn't go")
        expect(any("samhost --end" in said for said in session.said()), f"it doesn't say that the journal stays: {session.said()}")
        expect(journal.exists(), "the journal is gone that was to stay")
        expect(ENDED not in kinds_of(journal.read_bytes()), "this test is wrong: the journal has room")
        full.write_text("")
        session.environment.update(words)
        ended = session.run("--end", session.name)
        expect_equal(ended.returncode, 5, f"after {ended.stderr!r} the status of --end on a full disk")
        expect(journal.exists(), f"the journal is gone, and --end says {ended.stderr!r}")
        full.unlink()
        ended = session.run("--end", session.name)
        wanted = (0, "samhost: a.txt was not written; its text is in a.txt.sam-saved\n")
        expect_equal((ended.returncode, ended.stderr), wanted, "what comes of --end once there is room")
        expect_gone(folder, session)
    expect_equal(text_of(folder / "a.txt.sam-saved"), "one\ntwo\n", "the copy")


def check_journal_stays_where_late_text_finds_no_room(folder):
    """Where there is no room for what is typed once the texts are saved for the end, the journal stays, which has it, and --end saves it from
    there; also where another samhost has waited with the terminal since."""
    for is_ended_late in (False, True):
        place = folder / str(is_ended_late)
        place.mkdir()
        made(place, a="one\n")
        words, full = on_full_disk(place)
        with Staying(place, "a.txt", prefix=("env", *map("=".join, words.items()))) as session:
            session.type("two\n")
            pid, home, end = pid_of(place, session.name), home_of(place, session.name), [SAMHOST, "--end", session.name]
            with subprocess.Popen(end, cwd=place, env=session.environment, stderr=subprocess.DEVNULL) as ending:
                session.carry(lambda: session.of("ENDED"), "it doesn't say that it ends")
                if is_ended_late:
                    ending.kill()
                full.write_text("words that the journal never has")
                session.terminal.select(1, 0, 0)
                session.terminal.type(1, "late\n")
                session.send()
                session.carry(lambda: session.link.acknowledged == session.link.put_count, "it isn't acknowledged")
                session.link.acknowledge()
                session.give()
                wait_until(lambda: not is_running(pid), "it doesn't go")
            if is_ended_late:
                expect((home / "journal").exists(), "the journal is gone")
                session.drop()
                session.start("--attach", session.name)
                session.carry(lambda: session.process is None, "the session goes on")
                expect_equal(session.run("--end", session.name).returncode, 0, "the status of --end")
            expect_gone(place, session)
        expect_equal(text_of(place / "a.txt.sam-saved"), "late\none\ntwo\n", f"{is_ended_late}: the copy")


def check_journal_keeps_each_text_of_closed_files(folder):
    """A text of a closed file that is lost at the end is not lost for good where that of a file is saved which is closed later."""
    made(folder, a="one\n", b="other\n")
    words, full = on_full_disk(folder)
    with Staying(folder, "a.txt", "b.txt", prefix=("env", *map("=".join, words.items()))) as session:
        full.write_text("words that the journal never has")
        session.type("two\n")
        session.type("more\n", 2)
        session.terminal.close(1)
        session.settle()
        pid, end = pid_of(folder, session.name), [SAMHOST, "--end", session.name]
        with subprocess.Popen(end, cwd=folder, env=session.environment, stderr=subprocess.DEVNULL) as ending:
            session.carry(lambda: session.of("ENDED"), "it doesn't say that it ends")
            session.terminal.close(2)
            session.carry(lambda: session.of("ASIDE", tag=2), "it isn't told that the second text can't be saved")
            full.unlink()
            session.put_note("COMPLETE", request=1, path=b"a")
            session.carry(lambda: session.of("NAMES"), "it isn't answered")
            session.link.acknowledge()
            session.give()
            wait_until(lambda: not is_running(pid), "it doesn't go")
            ending.wait(GIVEN_UP)
        session.run("--end", session.name)
        expect_gone(folder, session)
    found = [text_of(folder / f"{name}.txt.sam-saved") for name in "ab"]
    expect_equal(found, ["one\ntwo\n", "other\nmore\n"], "the copies")


def check_journal_stays_at_a_signal_without_room(folder):
    """At a signal a journal that takes nothing more stays as it is, and another samhost goes on from it with the same terminal."""
    made(folder, a="one\n")
    words, full = on_full_disk(folder)
    with Staying(folder, "a.txt", prefix=("env", *map("=".join, words.items()))) as session:
        session.type("two\n")
        pid = pid_of(folder, session.name)
        full.touch()
        os.kill(pid, signal.SIGTERM)
        wait_until(lambda: not is_running(pid), "it doesn't go")
        session.type("three\n")
        expect(pid_of(folder, session.name) != pid, "no other samhost has begun")
        expect_equal(session.text(), "one\ntwo\nthree\n", "the text")
        session.leave()


def full_and_killed(folder, session, full):
    """Has the disk be full, and samhost be killed then. Returns once it is gone."""
    full.write_text("")
    session.type("three\n")
    session.carry(lambda: losses(session), "it isn't told")
    expect(not (folder / "a.txt.sam-saved").exists(), "this test is late: the text is saved")
    kill(folder, session)
    full.unlink()


def check_journal_keeps_what_it_has_without_room(folder):
    """What a journal had on the disk before that was full is not lost where samhost is killed then: --end, or the next connection, saves it
    aside, and says that what came later may be missing."""
    for way in ("--end", "--attach"):
        place = folder / way.strip("-")
        place.mkdir()
        words, full = on_full_disk(place)
        with typed(place, prefix=("env", *map("=".join, words.items()))) as session:
            full_and_killed(place, session, full)
            line = f"{session.name}  its samhost is gone, and --end saves what its journal has  a.txt, in {place}"
            expect(line in session.run("--list").stdout.splitlines(), f"the list is {session.run('--list').stdout!r}")
            session.drop()
            if way == "--end":
                ended = session.run("--end", session.name)
                status, said = ended.returncode, ended.stderr
            else:
                session.start("--attach", session.name)
                expect_equal(session.refusal(), What.NO_SESSION, "what the terminal hears")
                status, said = session.wait(), session.process.stderr.read().decode()
            why = "its journal could not be written to its end, so of what came then only the copies are known that it has saved"
            wanted = f"samhost: session {session.name} can't go on: {why}\nsamhost: a.txt was not written; its text is in a.txt.sam-saved\n"
            expect_equal((status, said), (1 if way == "--end" else 7, wanted), f"{way}: the status, and what it says")
            expect_gone(place, session)
        expect_equal(text_of(place / "a.txt.sam-saved"), "one\ntwo\n", f"{way}: the copy")


def check_journal_keeps_what_it_has_through_a_takeover_without_room(folder):
    """So it is where another terminal takes the session over on a full disk, whose journal can't begin then."""
    words, full = on_full_disk(folder)
    with typed(folder, prefix=("env", *map("=".join, words.items()))) as old:
        old.drop()
        full.write_text("")
        with Staying(folder, takes=old.name) as new:
            new.carry(lambda: losses(new), "it isn't told")
            expect(not (folder / "a.txt.sam-saved").exists(), "this test is late: the text is saved")
            kill(folder, new)
            full.unlink()
            new.abandon()
            expect_equal(new.run("--end", new.name).returncode, 1, "the status of --end")
            expect_gone(folder, new)
    expect_equal(text_of(folder / "a.txt.sam-saved"), "one\ntwo\n", "the copy")


def check_journal_keeps_what_it_has_at_a_signal_without_room(folder):
    """So it is where a signal ends samhost while its disk is full, and has been for a while."""
    words, full = on_full_disk(folder)
    with typed(folder, prefix=("env", *map("=".join, words.items()))) as session:
        pid = pid_of(folder, session.name)
        full.write_text("")
        session.type("three\n")
        session.carry(lambda: losses(session), "it isn't told")
        os.kill(pid, signal.SIGTERM)
        wait_until(lambda: not is_running(pid), "it doesn't go")
        session.abandon()
        full.unlink()
        expect(not (folder / "a.txt.sam-saved").exists(), "this test is late: the text is saved")
        expect_equal(session.run("--end", session.name).returncode, 1, "the status of --end")
        expect_gone(folder, session)
    expect_equal(text_of(folder / "a.txt.sam-saved"), "one\ntwo\n", "the copy")


def check_stays_without_a_journal_after_a_kill(folder):
    """A session whose journal could not begin, and whose samhost was killed then, is not left out: --list and --end say what there is of it,
    --take without a name takes the other one, and the terminal hears why it is refused. Its folder goes with that, or after three days."""
    for way in ("--end", "--attach", "days"):
        place = folder / way.strip("-")
        place.mkdir()
        made(place, a="one\n", b="other\n")
        failing = ("strace", "-f", "-qq", "-o", "/dev/null", "-e", "inject=writev:error=ENOSPC")
        with Staying(place, "a.txt", prefix=failing) as lost, Staying(place, "b.txt") as other:
            lost.type("two\n")
            expect(not (home_of(place, lost.name) / "journal").exists(), "the journal can be written")
            kill(place, lost)
            lost.abandon()
            said = f"session {lost.name} has no journal, so of its texts nothing is known but the copies that it has saved"
            line = f"{lost.name}  its samhost is gone, and there is no journal  a.txt, in {place}"
            expect(line in lost.run("--list").stdout.splitlines(), f"{way}: the list is {lost.run('--list').stdout!r}")
            if way == "--end":
                ended = lost.run("--end", lost.name)
                expect_equal((ended.returncode, ended.stderr), (1, f"samhost: {said}\n"), "what comes of --end")
            elif way == "--attach":
                lost.start("--attach", lost.name)
                expect_equal((lost.refusal(), lost.wait()), (What.NO_SESSION, 7), "what the terminal hears")
                expect(f"samhost: {said}\n" in lost.process.stderr.read().decode(), "it doesn't say why")
            else:
                with Staying(place, takes="") as taking:
                    expect_equal(taking.text(), "other\n", "the text of the session that is taken")
                    os.utime(home_of(place, lost.name), 2 * (time.time() - 73 * 3600,))
                    with Staying(place, "a.txt") as new:
                        expect_gone(place, lost)
                        new.leave()
                    taking.leave()
            expect_gone(place, lost)
            if way != "days":
                other.leave()
