"""A session that another terminal takes over."""
import contextlib
import os
import signal

import sulgrevad
from checks import GIVEN_UP, expect, wait_until
from link_model import What

from .file_requests import waiting
from .journal_faults import AGAIN
from .journals import SYNCED, kill, killed, records_of, typed
from .line import Staying, home_of, is_running, pid_of, state_of, with_calls
from .support import CLOSE, EXIT, IDLE, OPEN, VERSION, expect_equal, made, message, names_in, on_file, text_of

RENAMES = "renameat,renameat2"  # calls of the system that rename the journal, and then the folder
RECORDS = 7  # calls that write the new journal: its head, its begin and two syncs


def names_of(session):
    return [session.terminal.name(tag) for tag in session.terminal.files() if tag != 0]


def check_taken_by_one_that_only_calls(folder):
    """A terminal that says nothing before its welcome is welcomed at once, also by a session that has nothing left to do."""
    with typed(folder) as old:
        old.write()
        old.let_pass(IDLE + 1)
        with Staying(folder, takes=old.name, begin=False) as new:
            new.give()
            wait_until(lambda: new.receive(0.1) and new.is_welcomed, "it isn't welcomed")
            new.begin()
            expect_equal(new.text(), "one\ntwo\n", "the text")
            new.leave()


def check_taken_with_texts_and_marks(folder):
    """A takeover brings names, texts and what was not written; the older terminal is told, and its session is there no more."""
    first, second = made(folder, a="one\n", b="other\n")
    with Staying(folder, "a.txt", "b.txt", options=("--left",)) as old:
        old.type("two\n")
        old.type("more\n", 2)
        old.write(2)
        old.rename("c.txt", 2)
        pid = pid_of(folder, old.name)
        with Staying(folder, takes=old.name) as new:
            expect_equal((new.messages[0], new.messages[0].path), (new.of("SESSION")[0], new.name.encode()), "the first message")
            expect_equal(names_of(new), ["a.txt", "c.txt"], "the names")
            expect_equal((new.text(1), new.text(2)), ("one\ntwo\n", "other\nmore\n"), "the texts")
            line = "not written: a.txt: it was not written before this terminal took the session over; its text is in a.txt.sam-saved"
            expect_equal(new.said(), [line], "what it says")
            taken = new.of("NOT_SAVED", tag=1, request=0, code=sulgrevad.NoteCode.TAKEN_UNSAVED, path=b"a.txt", copy=b"a.txt.sam-saved")
            expect_equal(len(taken), 1, f"how often it tells so, in {new.messages}: it")
            old.carry(lambda: old.of("TAKEN_OVER"), "the older one isn't told")
            expect_equal(pid_of(folder, new.name), pid, "the process")
            expect_equal(names_in(home_of(folder, new.name).parent), [new.name], "the folders of sessions")
            old.drop()
            old.start("--attach", old.name)
            expect_equal((old.refusal(), old.wait()), (What.OTHER_SESSION, 7), "what the older terminal finds")
            new.type("three\n")
            new.write(1)
            expect_equal(text_of(first), "one\ntwo\nthree\n", "the file")
            expect_equal([said for said in new.said() if said.startswith("not written: ")], [line], "what it says of the write")
            new.leave()
            wait_until(lambda: not home_of(folder, new.name).exists(), "its folder stays")
    expect_equal(text_of(second), "other\nmore\n", "the other file")
    expect_equal([name for name in names_in(folder) if "sam" in name], [], "the copies that are left")


def check_taken_and_killed(folder):
    """A session that was taken over goes on from its own journal where its samhost is killed."""
    with typed(folder) as old:
        old.drop()
        with Staying(folder, takes="") as new:
            new.type("three\n")
            kill(folder, new)
            new.type("four\n")
            new.write()
            expect_equal(text_of(folder / "a.txt"), "one\ntwo\nthree\nfour\n", "the file")
            new.leave()


def check_taken_from_a_journal(folder):
    """A session whose samhost was killed is taken over, too."""
    with killed(folder) as old:
        with Staying(folder, takes=old.name) as new:
            expect_equal(new.text(), "one\ntwo\n", "the text")
            new.leave()


def answer_to(session, *words):
    """What the samhost of these words answers to a hello, and its status."""
    session.drop()
    session.start(*words)
    return session.refusal(), session.wait()


def check_taken_is_told_to_who_was_away(folder):
    """A terminal whose line was dead while others took its session over, one after the other, hears that it was taken, also where its
    samhost was killed since; it may take it back. Once the session has ended it hears that."""
    made(folder, a="one\n")
    with Staying(folder, "a.txt") as first:
        first.type("two\n")
        first.drop()
        with Staying(folder, takes=first.name) as second:
            second.drop()
            with Staying(folder, takes="") as third:
                third.type("three\n")
                expect_equal(answer_to(first, "--attach", first.name), (What.OTHER_SESSION, 7), "what the first one finds")
                kill(folder, third)
                expect_equal(answer_to(second, "--attach", second.name), (What.OTHER_SESSION, 7), "what the second one finds")
                third.drop()
                with Staying(folder, takes=first.name) as again:
                    expect_equal(again.text(), "one\ntwo\nthree\n", "the text that comes back")
                    again.leave()
            expect_equal(answer_to(second, "--attach", second.name), (What.NO_SESSION, 7), "what it finds after the end")


def check_taken_by_its_name(folder):
    """Of several sessions one has to be named; where there is none the terminal is refused."""
    made(folder, a="one\n", b="two\n")
    with Staying(folder, "a.txt") as one, Staying(folder, "b.txt") as other:
        ended = one.run("--take")
        expect_equal((ended.returncode, ended.stdout), (2, ""), "what comes of --take where there are two")
        expect(ended.stderr.startswith("samhost: there are several sessions"), f"it says {ended.stderr!r}")
        one.leave()
        other.leave()
        wait_until(lambda: other.run("--list").stdout == "", "they don't end")
        other.drop()
        other.start("--take")
        expect_equal((other.refusal(), other.wait()), (What.NO_SESSION, 7), "what comes of --take where there is none")


def expect_line_last(session, line):
    """A sentence has come, and no other after it."""
    session.carry(lambda: line in session.said(), f"no {line!r} comes")
    expect_equal(session.said()[-1], line, "what it has said last")


def check_taken_back_once_it_is_written(folder):
    """What the new terminal was told of a file that was not written is taken back once that is written, and once only; also where samhost
    was killed in between."""
    for is_killed in (False, True):
        place = folder / str(is_killed)
        place.mkdir()
        made(place, a="one\n", b="other\n")
        with Staying(place, "a.txt", "b.txt") as old:
            old.type("two\n")
            old.drop()
            with Staying(place, takes=old.name) as new:
                expect(any(said.startswith("not written: a.txt: it was not written before") for said in new.said()), f"it says {new.said()}")
                if is_killed:
                    kill(place, new)
                new.write(2)
                new.write(1)
                expect_line_last(new, "a.txt is written")
                new.type("three\n")
                new.write(1)
                expect_equal(new.said().count("a.txt is written"), 1, "how often it says so")
                expect_equal([message.tag for message in new.of("SAVED")], [2, 1, 1], "the files of which it tells that they are written")
                new.leave()
        expect_equal(text_of(place / "a.txt"), "one\ntwo\nthree\n", "the file")
        expect_equal([name for name in names_in(place) if "sam" in name], [], "the copies that are left")


class Deaf:
    """A terminal's program that hears nothing of what is answered to its messages."""

    def flush_now(self):
        pass

    def take_out(self):
        return b""

    def feed(self, data):
        pass

    def free(self):
        pass


def check_taken_and_closed_at_once(folder):
    """A file that the new terminal closes before it can have been marked as changed is saved aside all the same."""
    made(folder, a="one\n")
    with Staying(folder, "a.txt") as old:
        old.type("two\n")
        old.drop()
        with Staying(folder, takes=old.name, begin=False) as new:
            new.give()
            wait_until(lambda: new.receive(0.1) and new.is_welcomed, "it isn't welcomed")
            new.terminal.free()
            new.terminal = Deaf()
            new.link.put(message(VERSION, b"\0\2") + on_file(OPEN) + on_file(CLOSE) + message(EXIT))
            new.wait_for_end(0)
    expect_equal(text_of(folder / "a.txt.sam-saved"), "one\ntwo\n", "the copy")


def check_taken_with_a_closed_text(folder):
    """A text that could not be saved as its file was closed is there again for the terminal that takes the session over, as not written, also
    where samhost is killed then; and goes into its file."""
    made(folder, a="one\n", b="other\n")
    with Staying(folder, "a.txt", "b.txt") as old:
        with with_calls(pid_of(folder, old.name), "inject=pwrite64:error=ENOSPC"):
            old.type("two\n")
            old.terminal.close(1)
            old.settle()
            expect(old.of("ASIDE", tag=1, code=sulgrevad.NoteCode.NO_SPACE, path=b"a.txt"), f"it tells {old.messages}")
            old.drop()
            new = Staying(folder, takes=old.name)
            expect_equal((new.text(), new.terminal.is_changed(1)), ("one\ntwo\n", True), "the text, and whether it is changed")
            kill(folder, new)
        with new:
            new.type("three\n")
            new.write()
            expect_equal(text_of(folder / "a.txt"), "one\ntwo\nthree\n", "the file")
            new.leave()


def alone(folder, old):
    """Has a terminal go, and waits until its session has nothing left to do."""
    old.type("two\n")
    old.drop()
    wait_until(lambda: text_of(folder / "a.txt.sam-saved") == "one\ntwo\n", "it isn't saved aside")
    journal = home_of(folder, old.name) / "journal"
    wait_until(lambda: b"a.txt.sam-saved" in journal.read_bytes(), "it isn't noted")
    wait_until(lambda: records_of(journal.read_bytes())[0][-1][1] == {SYNCED}, "it isn't on the disk")
    return pid_of(folder, old.name)


def check_taken_where_the_new_journal_is_lost(folder):
    """Where the new session's journal can't be on the disk no journal is left: one that nobody writes would bring an older text back. The
    terminal is told, and the journal is begun anew once it can be."""
    for call, error, when in (("fdatasync", "EIO", "1+"), ("fdatasync", "EIO", "2+"), ("fdatasync", "ENOSPC", "2+"), ("fsync", "EIO", "4+")):
        place = folder / f"{call}{error}{when}"
        place.mkdir()
        made(place, a="one\n")
        with Staying(place, "a.txt") as old, contextlib.ExitStack() as stack:
            with with_calls(alone(place, old), f"inject={call}:error={error}:when={when}"):  # the fourth fsync is of its name
                new = stack.enter_context(Staying(place, takes=old.name))
                new.type("three\n")
                new.carry(lambda: new.of("NO_JOURNAL"), "it isn't told")
                told = [it.text for it in new.of("NO_JOURNAL") if it.text.startswith("the journal can't be written: ")]
                expect_equal(len(told), 1, f"how often it says so, in {new.messages}: it")
                new.let_pass(1.5)  # it is tried meanwhile
                expect(not (home_of(place, new.name) / "journal").exists(), f"{call}, {error} at {when}: a journal is there")
            new.carry(lambda: AGAIN in new.said(), "it isn't begun anew")
            kill(place, new)
            expect_equal(new.text(), "one\ntwo\nthree\n", f"{call}, {error} at {when}: the text")
            new.leave()


def check_taken_and_killed_at_each_step(folder):
    """Where samhost is killed in a takeover, also between the renaming of the journal and that of the folder, the new terminal goes on by
    the name that it knows."""
    steps = [("fsync", 1), ("fdatasync", 1), ("fdatasync", 2), (RENAMES, 1), (RENAMES, 2), ("fsync", 4)]
    for call, when in steps + [("writev", number) for number in range(1, RECORDS + 1)]:
        place = folder / f"{call}{when}"
        place.mkdir()
        made(place, a="one\n")
        with Staying(place, "a.txt") as old:
            pid = alone(place, old)
            with with_calls(pid, f"inject={call}:signal=KILL:when={when}"), Staying(place, takes=old.name, begin=False) as new:
                new.give()
                wait_until(lambda: not is_running(pid), f"{call} {when}: it isn't killed")
                new.begin()
                expect_equal(new.text(), "one\ntwo\n", f"{call} {when}: the text")
                new.type("three\n")
                expect_equal(names_in(state_of(place)), [new.name], f"{call} {when}: the folders of sessions")
                expect_equal(answer_to(old, "--attach", old.name), (What.OTHER_SESSION, 7), f"{call} {when}: what the older one finds")
                new.leave()


def check_taken_where_something_was_under_way(folder):
    """Killed before it has written a file that was to be written, or has saved one that was closed, the next samhost does that before it
    hands the session on."""
    for what in ("write", "close"):
        place = folder / what
        place.mkdir()
        made(place, a="one\n", b="other\n")
        with Staying(place, "a.txt", "b.txt") as old:
            pid = alone(place, old)
            old.carry(lambda: old.process is not None and old.is_welcomed, "it isn't welcomed")
            with with_calls(pid, "inject=fdatasync:signal=KILL:when=1"):
                old.terminal.type(1, "three\n")
                (old.terminal.write if what == "write" else old.terminal.close)(1)
                old.send()
                wait_until(lambda: not is_running(pid), "it isn't killed")
            old.drop()
            found = text_of(place / "a.txt"), text_of(place / "a.txt.sam-saved")
            expect_equal(found, ("one\n", "one\ntwo\n"), f"{what}: the file and its copy")
            with Staying(place, takes=old.name) as new:
                found = text_of(place / ("a.txt" if what == "write" else "a.txt.sam-saved"))
                expect_equal(found, "one\ntwo\nthree\n", f"{what}: what is on the disk")
                expect_equal(names_of(new), ["a.txt", "b.txt"] if what == "write" else ["b.txt"], f"{what}: the files")
                new.leave()


def check_taken_where_the_folder_stays(folder):
    """A session whose folder can't be named anew is told of it, and found by the new name all the same: after a break, after a kill, and by
    --end."""
    made(folder, a="one\n")
    with Staying(folder, "a.txt") as old:
        pid = alone(folder, old)
        with with_calls(pid, f"inject={RENAMES}:error=EIO:when=2"), Staying(folder, takes=old.name) as new:
            told = f"the folder of session {old.name} can't be named anew: Input/output error; it is found all the same"
            expect(told in new.said(), f"it says {new.said()}")
            expect_equal(names_in(state_of(folder)), [old.name], "the folders of sessions")
            new.drop()
            new.type("three\n")
            os.kill(pid, signal.SIGKILL)
            wait_until(lambda: not is_running(pid), "it still runs")
            new.type("four\n")
            expect_equal(new.text(), "one\ntwo\nthree\nfour\n", "the text")
            expect_equal(names_in(state_of(folder)), [new.name], "the folders of sessions after another has begun")
            expect_equal(new.run("--end", new.name).returncode, 0, "the status of --end")
            expect_equal(names_in(state_of(folder)), [], "the folders of sessions at the end")


def check_taken_while_somebody_waits(folder):
    """Who waits until a file is closed goes on to wait where another terminal takes the session over, in which the file has another tag."""
    made(folder, a="one\n", b="other\n")
    with Staying(folder, "a.txt", "b.txt") as old:
        old.terminal.close(1)
        old.settle()
        with waiting(old, "b.txt") as process:
            old.carry(lambda: old.of("SHOWN", tag=2), "it isn't to be shown")
            with Staying(folder, takes=old.name) as new:
                new.type("more\n")
                new.write()
                expect(process.poll() is None, "it doesn't wait any more")
                new.terminal.close(1)
                new.settle()
                expect_equal(process.wait(GIVEN_UP), 0, "the status of who waits")
                new.leave()


def check_taken_keeps_what_was_cut(folder):
    """What was cut last and stands nowhere else is saved aside where another terminal takes the session over."""
    made(folder, a="one two\n")
    with Staying(folder, "a.txt", options=("--left",)) as old:
        old.terminal.select(1, 0, 4)
        old.terminal.cut(1)
        old.settle()
        with Staying(folder, takes=old.name) as new:
            expect_equal(new.text(), "two\n", "the text")
            told = new.of("ASIDE", code=sulgrevad.NoteCode.CUT)
            expect_equal([it.text for it in told], ["what was cut last is in cut.sam-saved"], f"what it tells of it, in {new.messages}")
            expect_equal(text_of(folder / os.fsdecode(told[0].copy)), "one ", "what was cut")
            new.leave()
