"""How a session that stays ends: with its terminal, after a time alone, by --end, and at a signal; and what is saved then."""
import contextlib
import os
import shutil
import signal
import subprocess
import time

import sulgrevad
from checks import GIVEN_UP, SECONDS, Skipped, expect, times_longer, wait_until
from link_model import What

from .journals import CUT, UP, kill, kinds_of, typed
from .line import Staying, expect_gone, home_of, is_running, pid_of, state_of, with_calls
from .persistent_session import OWN
from .support import IDLE, LATE, SAMHOST, WRITE, expect_equal, front_of, made, names_in, on_file, text_of

MINUTE = 60.0  # seconds that a session stays to which no terminal came


def check_stays_alone_a_while(folder):
    """Alone for as long as the words say, it saves the texts aside and goes."""
    made(folder, a="one\n")
    with Staying(folder, "a.txt", options=("--stay", "0.0006")) as session:  # 2.16 seconds
        session.type("two\n")
        session.let_pass(3)
        expect(home_of(folder, session.name).exists(), "it goes though a terminal is there")
        pid = pid_of(folder, session.name)
        session.drop()
        wait_until(lambda: not is_running(pid), "it doesn't go")
        expect(not home_of(folder, session.name).exists(), "its folder stays")
        session.start("--attach", session.name)
        expect_equal((session.refusal(), session.wait()), (What.NO_SESSION, 7), "what the relay says of a session that is over")
    expect_equal(text_of(folder / "a.txt.sam-saved"), "one\ntwo\n", "the copy")


def is_served(folder, session):
    """Whether a samhost has the session."""
    try:
        return is_running(pid_of(folder, session.name))
    except (FileNotFoundError, ValueError):
        return False


def has_got(folder, session):
    """Whether the journal has bytes that came over the link."""
    return UP in kinds_of((home_of(folder, session.name) / "journal").read_bytes())


def check_stays_unmet_a_minute(folder):
    """A session whose relay was killed before it brought a word of the host ends by itself after a minute, whether the host got the
    terminal's first words or no hello, and where another samhost has begun it again. It stays once a terminal has answered, or where that
    has taken the session over."""
    made(folder, a="one\n")
    with contextlib.ExitStack() as stack:
        greeted, silent, again, met, taken = (stack.enter_context(Staying(folder, "a.txt", begin=False)) for _ in range(5))
        for session in (greeted, silent, again, met, taken):
            wait_until(lambda: is_served(folder, session), "it doesn't begin")
        greeted.terminal.offer_version(2)
        greeted.terminal.open_cmd()
        greeted.send()
        met.begin()
        wait_until(lambda: has_got(folder, greeted), "it gets nothing")
        os.kill(pid_of(folder, again.name), signal.SIGKILL)
        wait_until(lambda: not is_served(folder, again), "it still runs")
        again.drop()
        again.attach()
        wait_until(lambda: is_served(folder, again), "no other one begins")
        heir = stack.enter_context(Staying(folder, takes=taken.name, begin=False))
        heir.give()
        wait_until(lambda: home_of(folder, heir.name).exists(), "it isn't taken over")
        start = time.monotonic()
        for session in (greeted, silent, again, met, heir):
            session.drop()
        for session in (greeted, silent, again):
            wait_until(lambda: not home_of(folder, session.name).exists(), "it stays", MINUTE + SECONDS)
        took = time.monotonic() - start
        expect(took > MINUTE - 1, f"it is gone after {took:.1f} s alone")
        time.sleep(LATE)
        for session in (met, heir):
            expect(home_of(folder, session.name).exists(), "a session is gone to which a terminal came")


def check_stays_after_a_signal(folder):
    """At SIGTERM, as when its machine is to begin anew, samhost saves the texts aside and goes, with a terminal and without. The session
    stays: the same terminal goes on with all, says nothing of it, and ends it once it leaves."""
    for is_alone in (False, True):
        place = folder / str(is_alone)
        place.mkdir()
        made(place, a="one\n")
        with Staying(place, "a.txt", options=("--left",)) as session:
            session.type("two\n")
            pid = pid_of(place, session.name)
            if is_alone:
                session.drop()
            os.kill(pid, signal.SIGTERM)
            wait_until(lambda: not is_running(pid), "it doesn't go")
            expect_equal(text_of(place / "a.txt.sam-saved"), "one\ntwo\n", "the copy")
            expect((home_of(place, session.name) / "journal").exists(), "the session is gone")
            session.type("three\n")
            expect(pid_of(place, session.name) != pid, "no other samhost has begun")
            expect_equal(session.text(), "one\ntwo\nthree\n", "the text")
            expect_equal([sulgrevad.NoteKind(message.kind).name for message in session.messages], ["SESSION"], "what it says")
            session.write()
            session.leave()
        expect_equal([name for name in names_in(place) if "sam" in name], [], "the copies that are left")
        expect_equal(text_of(place / "a.txt"), "one\ntwo\nthree\n", "the file")


def check_stays_after_a_signal_until_it_is_ended(folder):
    """--end ends a session whose samhost a signal has ended, as any other; one that no terminal has come to goes at the signal."""
    with typed(folder) as session:
        pid = pid_of(folder, session.name)
        os.kill(pid, signal.SIGTERM)
        wait_until(lambda: not is_running(pid), "it doesn't go")
        expect("another can begin from its journal" in session.run("--list").stdout, "the list doesn't have it")
        ended = session.run("--end", session.name)
        wanted = (0, "samhost: a.txt was not written; its text is in a.txt.sam-saved\n")
        expect_equal((ended.returncode, ended.stderr), wanted, "what comes of --end")
        expect_gone(folder, session)
    with Staying(folder, "a.txt", begin=False) as silent:
        wait_until(lambda: is_served(folder, silent), "it doesn't begin")
        os.kill(pid_of(folder, silent.name), signal.SIGTERM)
        expect_gone(folder, silent)


def check_stays_until_nobody_comes_back(folder):
    """A session whose samhost is gone ends, as any other, after as long alone as it may be: a new session sees to that. One that was alone
    for less stays."""
    made(folder, a="one\n", b="other\n", c="third\n")
    with Staying(folder, "a.txt") as left, Staying(folder, "b.txt") as late:
        for session, name, hours in ((left, "a.txt", 73), (late, "b.txt", 71)):
            session.type("two\n")
            session.drop()
            kill(folder, session)
            when = time.time() - hours * 3600
            os.utime(home_of(folder, session.name) / "journal", (when, when))
        with Staying(folder, "c.txt") as new:
            expect_gone(folder, left)
            expect_equal(text_of(folder / "a.txt.sam-saved"), "one\ntwo\n", "the copy")
            new.type("two\n")
            new.leave()
        late.type("three\n")
        expect_equal(late.text(), "other\ntwo\nthree\n", "the text of the other")
        late.leave()


def check_stays_after_idle_days_with_its_terminal(folder):
    """A session whose terminal was there, but idle for longer than it may be alone, goes on after a reboot: a new session doesn't end it."""
    made(folder, c="third\n")
    with typed(folder) as session:
        journal, when = home_of(folder, session.name) / "journal", time.time() - 73 * 3600

        def is_renewed_alone():
            size = journal.stat().st_size
            os.utime(journal, (when, when))
            wait_until(lambda: journal.stat().st_mtime > when + 3600, "the journal says that nobody was there")
            return journal.stat().st_size == size

        wait_until(is_renewed_alone, "each time something is added to the journal, too")
        kill(folder, session)
        session.drop()
        with Staying(folder, "c.txt") as new:
            new.type("four\n")
            new.leave()
        session.type("three\n")
        expect_equal(session.text(), "one\ntwo\nthree\n", "the text")
        session.leave()


def check_stays_until_it_is_ended(folder):
    """--end ends a session that has a terminal, which hears of it."""
    with typed(folder) as session:
        pipe = subprocess.PIPE
        words = [SAMHOST, "--end", session.name]
        with subprocess.Popen(words, cwd=folder, env=session.environment, stdout=pipe, stderr=pipe) as ending:
            session.wait_for_end(0)
            expect_equal((ending.wait(GIVEN_UP), *ending.communicate()), (0, b"", b""), "what comes of --end")
        expect_gone(folder, session)
        expect("a.txt was not written; its text is in a.txt.sam-saved" in session.said(), f"it doesn't say where: {session.said()}")


def copies_of(folder, session):
    """Waits until a text and what was cut are saved aside, and the journal says so. Answers the two copies."""
    copies = folder / "a.txt.sam-saved", folder / "cut.sam-saved"
    wait_until(lambda: all(copy.exists() for copy in copies), "there are no copies", IDLE + LATE)
    journal = home_of(folder, session.name) / "journal"
    wait_until(lambda: CUT in kinds_of(journal.read_bytes()), "the journal doesn't have the copies")
    return copies


def check_stays_ended_after_its_copies_were_removed(folder):
    """--end saves what is not written, also where somebody has removed its copies, as by a clean-up of a folder."""
    made(folder, a="one two\n")
    with Staying(folder, "a.txt", options=("--left",)) as session:
        session.terminal.select(1, 0, 4)
        session.terminal.cut(1)
        session.type("three\n")
        copies = copies_of(folder, session)
        session.drop()
        for copy in copies:
            copy.unlink()
        expect_equal(session.run("--end", session.name).returncode, 0, "the status of --end")
        expect_gone(folder, session)
    expect_equal([text_of(copy) for copy in copies], ["two\nthree\n", "one "], "the copies")


def check_stays_ended_while_it_begins(folder):
    """--end ends a session that doesn't listen yet, as soon as it does."""
    if shutil.which("strace") is None:
        raise Skipped("no strace")
    made(folder, a="one\n")
    words = ("strace", "-f", "-qq", "-o", "/dev/null", "-e", "inject=listen:delay_enter=1500000")
    with Staying(folder, "a.txt", begin=False, prefix=words) as session:
        wait_until(lambda: (home_of(folder, session.name) / "socket").exists(), "it doesn't begin")
        start = time.monotonic()
        ended = session.run("--end", session.name)
        took = time.monotonic() - start
        expect_equal((ended.returncode, ended.stderr), (0, ""), "what comes of --end")
        expect(took < 10 * times_longer(), f"it takes {took:.1f} s")
        expect_gone(folder, session)


def check_stays_where_a_text_can_t_be_saved(folder):
    """A session whose text can't be saved anywhere at its end keeps its journal, and says so; --end saves it later."""
    made(folder, a="one\n")
    with Staying(folder, "a.txt") as session:
        pid = pid_of(folder, session.name)
        with with_calls(pid, "inject=pwrite64:error=ENOSPC"):
            session.type("two\n")
            session.terminal.exit()
            session.wait_for_end(5)
            wait_until(lambda: not is_running(pid), "it doesn't go")
        lost = session.of("LOST", tag=1, code=sulgrevad.NoteCode.NO_SPACE, path=b"a.txt")
        expect("the text of a.txt is lost: No space left on device" in [message.text for message in lost], f"it tells {session.messages}")
        expect(any("--end" in said for said in session.said()), f"it doesn't say how it is saved: {session.said()}")
        session.drop()
        session.start("--attach", session.name)
        session.carry(lambda: session.process is None, "the session goes on")
        expect((home_of(folder, session.name) / "journal").exists(), "the journal is gone")
        ended = session.run("--end", session.name)
        wanted = (0, "samhost: a.txt was not written; its text is in a.txt.sam-saved\n")
        expect_equal((ended.returncode, ended.stderr), wanted, "what comes of --end")
        expect_gone(folder, session)
    expect_equal(text_of(folder / "a.txt.sam-saved"), "one\ntwo\n", "the copy")


def check_stays_where_a_closed_text_can_t_be_saved(folder):
    """So it does with a text whose file was closed before that."""
    made(folder, a="one\n")
    with Staying(folder, "a.txt") as session:
        pid = pid_of(folder, session.name)
        with with_calls(pid, "inject=pwrite64:error=ENOSPC"):
            session.type("two\n")
            session.terminal.close(1)
            session.settle()
            session.terminal.exit()
            session.wait_for_end(5)
            wait_until(lambda: not is_running(pid), "it doesn't go")
        ended = session.run("--end", session.name)
        wanted = (0, "samhost: a.txt was not written; its text is in a.txt.sam-saved\n")
        expect_equal((ended.returncode, ended.stderr), wanted, "what comes of --end")
        expect_gone(folder, session)
    expect_equal(text_of(folder / "a.txt.sam-saved"), "one\ntwo\n", "the copy")


def check_stays_told_that_its_stream_is_wrong(folder):
    """A terminal whose stream is wrong hears that, and that its session has ended; what it had typed before is saved. Then there is no
    session any more."""
    with typed(folder) as session:
        pid = pid_of(folder, session.name)
        session.link.put(on_file(WRITE) + b"\xff")
        session.give()
        session.wait_for_end(3)
        expect(any(said.startswith("the terminal's stream is wrong (status ") for said in session.said()), f"it says {session.said()}")
        session.drop()
        wait_until(lambda: not is_running(pid), "it doesn't go")
        expect_gone(folder, session)
        session.start("--attach", session.name)
        expect_equal((session.refusal(), session.wait()), (What.NO_SESSION, 7), "what it finds then")
    expect_equal(text_of(folder / "a.txt"), "one\ntwo\n", "the file")


def check_stays_ended_without_its_folder(folder):
    """--end of a session whose first folder is gone saves its texts, and what was cut, to the user's own folder, and leaves other files
    alone."""
    place = folder / "place"
    place.mkdir()
    made(place, a="one two\n")
    (folder / "a.txt").write_text("another\n")
    with Staying(place, "a.txt", options=("--left",)) as session:
        environment = session.environment
        session.terminal.select(1, 0, 4)
        session.terminal.cut(1)
        session.type("three\n")
        session.terminal.new_file()
        session.settle()
        session.type("unnamed\n", session.terminal.current)
        kill(place, session)
        session.abandon()
        state = state_of(place)
        kept = folder / "state"
        state.parent.rename(kept)
        place.rename(folder / "elsewhere")
        environment = {**environment, "XDG_STATE_HOME": str(kept), "TMPDIR": str(kept)}
        words = [SAMHOST, "--end", session.name]
        ended = subprocess.run(words, cwd=folder, env=environment, capture_output=True, text=True, timeout=GIVEN_UP)
        expect_equal(ended.returncode, 0, f"after {ended.stderr!r} the status")
        expect(not (kept / "sulgrevad" / session.name).exists(), "its folder stays")
        copies = {name: kept / "sulgrevad" / f"{front_of(place / name)}.sam-saved" for name in ("a.txt", "cut", "unnamed-2")}
        texts = {name: text_of(copy) for name, copy in copies.items()}
        expect_equal(texts, {"a.txt": "two\nthree\n", "cut": "one ", "unnamed-2": "unnamed\n"}, f"after {ended.stderr!r} the copies")
        expect(f"{place}/a.txt was not written; its text is in {copies['a.txt']}" in ended.stderr, f"it says {ended.stderr!r}")
        expect_equal(names_in(folder), ["a.txt", "elsewhere", "state"], "what is in the folder")
        expect_equal(text_of(folder / "a.txt"), "another\n", "the other file")


def check_stays_ended_though_its_copies_are_gone(folder):
    """A session that another samhost only ends saves a text whose copy is gone: a power cut may have emptied the folder, so nobody need have
    taken it away. So it does where the whole folder is gone, and where a new session ends it."""
    for at, (is_folder_gone, is_new) in enumerate(((False, False), (True, False), (False, True))):
        place = folder / str(at)
        place.mkdir()
        made(place, a="one\n", b="other\n")
        state = folder / f"state{at}"
        state.mkdir()
        with Staying(place, "a.txt", options=("--left",)) as session:
            session.terminal.select(1, 0, 3)
            session.terminal.cut(1)
            session.type("two\n")
            copies = copies_of(place, session)
            kill(place, session)
            session.drop()
            for copy in copies:
                copy.unlink()
            state_of(place).rename(state / "sulgrevad")
            session.environment["XDG_STATE_HOME"] = str(state)
            home = state / "sulgrevad" / session.name
            if is_folder_gone:
                shutil.rmtree(place)
            words = ("--end", session.name)
            if is_new:
                when = time.time() - 73 * 3600
                os.utime(home / "journal", (when, when))
                words = ("--serve", OWN, "b.txt")
            ended = subprocess.run([SAMHOST, *words], cwd=folder if is_folder_gone else place, env=session.environment, capture_output=True,
                                   timeout=GIVEN_UP, stdin=subprocess.DEVNULL)  # fmt: skip
            wait_until(lambda: not home.exists(), f"its folder stays, and it says {ended.stderr!r}")
            names = {name: place / f"{name}.sam-saved" for name in ("a.txt", "cut")}
            if is_folder_gone:
                names = {name: state / "sulgrevad" / f"{front_of(place / name)}.sam-saved" for name in names}
            texts = {name: text_of(copy) for name, copy in names.items()}
            expect_equal(texts, {"a.txt": "\ntwo\n", "cut": "one"}, f"{at}: after {ended.stderr!r} the copies")


def check_stays_ended_with_a_closed_text_without_its_folder(folder):
    """The text of a closed file that could not be saved isn't saved beside other files either, where the session's folder is gone."""
    place = folder / "place"
    place.mkdir()
    made(place, a="one\n")
    with Staying(place, "a.txt") as session:
        with with_calls(pid_of(place, session.name), "inject=pwrite64:error=ENOSPC"):
            session.type("two\n")
            session.terminal.close(1)
            session.settle()
            kill(place, session)
        session.abandon()
        kept = folder / "state"
        state_of(place).parent.rename(kept)
        shutil.rmtree(place)
        environment = {**session.environment, "XDG_STATE_HOME": str(kept), "TMPDIR": str(kept)}
        words = [SAMHOST, "--end", session.name]
        ended = subprocess.run(words, cwd=folder, env=environment, capture_output=True, text=True, timeout=GIVEN_UP)
        copy = kept / "sulgrevad" / f"{front_of(place / 'a.txt')}.sam-saved"
        expect_equal((ended.returncode, names_in(folder)), (0, ["state"]), f"after {ended.stderr!r} the status, and what is in the folder")
        expect_equal(text_of(copy), "one\ntwo\n", f"after {ended.stderr!r} the copy")


def check_stays_ended_while_somebody_types(folder):
    """What is typed once the texts are saved for the end, before the terminal has heard of it, is saved, too: it is acknowledged. Where it is
    written the write is done; and the terminal may leave."""
    for does in ("type", "write", "exit"):
        place = folder / does
        place.mkdir()
        made(place, a="one\n")
        with typed(place) as session:
            with subprocess.Popen([SAMHOST, "--end", session.name], cwd=place, env=session.environment) as ending:
                session.carry(lambda: session.of("ENDED"), "it doesn't say that it ends")
                session.terminal.select(1, 0, 0)
                session.terminal.type(1, "late\n")
                if does == "write":
                    session.terminal.write(1)
                if does == "exit":
                    session.terminal.exit()
                session.send()
                session.carry(lambda: session.link.acknowledged == session.link.put_count, "it isn't acknowledged")
                session.link.acknowledge()
                session.give()
                expect_equal(ending.wait(GIVEN_UP), 0, "the status of --end")
            expect_gone(place, session)
        texts = [text_of(place / name) for name in ("a.txt", "a.txt.sam-saved")]
        wanted = ["late\none\ntwo\n", None] if does == "write" else ["one\n", "late\none\ntwo\n"]
        expect_equal(texts, wanted, f"{does}: the file and its copy")


def check_stays_for_the_last_note(folder):
    """The last note waits for a terminal whose line breaks just then."""
    with typed(folder) as session:
        session.write()
        session.terminal.exit()
        session.send()
        session.process.kill()
        session.wait_for_end(0)
        session.abandon()
        session.attach()  # the note may have come before the line broke: the next one acknowledges it
        session.send()
        expect_gone(folder, session)
