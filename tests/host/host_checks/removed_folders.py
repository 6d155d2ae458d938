"""The folder of a session that somebody removes, or a file in it, while its samhost lives."""
import contextlib
import os
import re
import shutil
import signal
import subprocess
from pathlib import Path

from checks import GIVEN_UP, Skipped, expect, expect_sleep, wait_until

from .journal_faults import AGAIN, expect_goes_on, is_begun_anew, losses
from .journals import kill, typed
from .line import Staying, home_of, is_running, pid_of, state_of
from .support import expect_equal, names_in, text_of

WHOLE = ["journal", "lock", "name", "socket"]  # what the folder of a session has
WHY = "the journal can't be written: somebody has removed its folder, or a file in it"


@contextlib.contextmanager
def stopped(pid):
    """Holds a process up."""
    os.kill(pid, signal.SIGSTOP)
    status = Path(f"/proc/{pid}/status")
    wait_until(lambda: re.search(r"^State:\s*[Tt]", status.read_text(), re.MULTILINE), "it doesn't stop")
    try:
        yield
    finally:
        os.kill(pid, signal.SIGCONT)


def remove(*paths):
    """Removes files or folders. The samhost that has them is stopped meanwhile: on a busy machine it could be done with half of that."""
    subprocess.run(["rm", "-r", *paths], check=True, timeout=GIVEN_UP)


@contextlib.contextmanager
def noted(pid, call, log):
    """Notes the calls of a kind of a process in a file."""
    if shutil.which("strace") is None:
        raise Skipped("no strace")
    words = ("strace", "-qq", "-s", "4096", "-o", log, "-p", str(pid), "-e", f"trace={call}")
    with subprocess.Popen(words, stderr=subprocess.DEVNULL) as tracer:
        try:
            yield
        finally:
            tracer.terminate()


def has_open(pid, name):
    """Whether a process has a file of this name open, there or removed."""
    for entry in os.scandir(f"/proc/{pid}/fd"):
        with contextlib.suppress(FileNotFoundError):
            if os.readlink(entry).removesuffix(" (deleted)").endswith(f"/{name}"):
                return True
    return False


def check_removed_folder_is_made_again(folder):
    """Whatever goes of the folder, also the one of all sessions, is there again soon, with all that was typed before, meanwhile and since.
    Both are told, and another samhost can go on."""
    cases = {"state": None, "folder": [""], "journal": ["journal"], "lock": ["lock"], "socket": ["socket"], "both": ["lock", "socket"]}
    for case, names in cases.items():
        place = folder / case
        place.mkdir()
        with typed(place) as session:
            home, pid = home_of(place, session.name), pid_of(place, session.name)
            with stopped(pid):
                remove(*([state_of(place)] if names is None else [home / name for name in names]))
            session.type("three\n")
            session.carry(lambda: losses(session), f"{case}: it isn't told")
            session.type("four\n")
            is_begun_anew(session)
            expect_equal(names_in(home), WHOLE, f"{case}: what it has")
            session.drop()
            session.type("five\n")
            expect_equal(pid_of(place, session.name), pid, f"{case}: the process")
            told = [said for said in session.said() if said == AGAIN or said.startswith(WHY)]
            expect_equal([said[: len(WHY)] for said in told], [WHY, AGAIN], f"{case}: what is told")
            expect_goes_on(place, session, "one\ntwo\nthree\nfour\nfive\n")


def check_removed_folder_of_a_session_alone(folder):
    """So it is while no terminal is there. The session sleeps before and after."""
    with typed(folder) as session:
        home, pid = home_of(folder, session.name), pid_of(folder, session.name)
        session.drop()
        wait_until((folder / "a.txt.sam-saved").exists, "the text is not saved")
        expect_sleep([pid])
        with stopped(pid):
            remove(home)
        wait_until(lambda: home.exists() and names_in(home) == WHOLE, "it isn't made again")
        expect_sleep([pid])
        session.type("three\n")
        expect_equal(pid_of(folder, session.name), pid, "the process")
        expect_equal(session.said()[-1], AGAIN, "what it says")
        expect_goes_on(folder, session, "one\ntwo\nthree\n")


def check_removed_folder_that_can_not_be_made_again(folder):
    """Where the folder can't be made again that is told once, and tried until it can be."""
    with typed(folder) as session:
        home, state, log = home_of(folder, session.name), state_of(folder), folder / "log"
        pid = pid_of(folder, session.name)
        with noted(pid, "mkdir", log):
            wait_until(log.exists, "it is not traced")
            with stopped(pid):
                remove(state)
                state.write_text("a file")
            session.carry(lambda: losses(session), "it isn't told")
            session.type("three\n")
            tries = f'"{state}"'
            wait_until(lambda: log.read_text().count(tries) > 1, lambda: f"it isn't tried again: {log.read_text()}")
        expect_equal(text_of(state), "a file", "what stands there")
        state.unlink()
        is_begun_anew(session)
        expect_equal((len(losses(session)), names_in(home)), (1, WHOLE), "how often it is told, and what the folder has")
        expect_goes_on(folder, session, "one\ntwo\nthree\n")


def check_removed_folder_at_a_signal(folder):
    """A signal that comes right behind leaves the session in its folder all the same."""
    with typed(folder) as session:
        home, pid = home_of(folder, session.name), pid_of(folder, session.name)
        with stopped(pid):
            remove(home)
            os.kill(pid, signal.SIGTERM)
        wait_until(lambda: not is_running(pid), "it doesn't go")
        expect(home.exists() and "journal" in names_in(home), "the journal is gone")
        session.type("three\n")
        expect(pid_of(folder, session.name) != pid, "no other samhost has begun")
        expect_equal(session.text(), "one\ntwo\nthree\n", "the text")
        session.leave()


def check_removed_folder_leaves_nothing(folder):
    """A session that ends after its folder was made again leaves none."""
    with typed(folder) as session:
        with stopped(pid_of(folder, session.name)):
            remove(home_of(folder, session.name))
        is_begun_anew(session)
        session.leave()
    expect_equal(text_of(folder / "a.txt.sam-saved"), "one\ntwo\n", "the copy")


def check_removed_lock_that_another_took(folder):
    """Where another samhost has gone on from the journal before the first one could look, the first one leaves the folder alone, also where
    the other one is gone, and at its end."""
    for is_gone in (False, True):
        place = folder / str(is_gone)
        place.mkdir()
        with typed(place) as session:
            home, first = home_of(place, session.name), pid_of(place, session.name)
            with stopped(first):
                session.drop()
                remove(home / "lock", home / "socket")
                session.type("three\n")
                expect(pid_of(place, session.name) != first, "no other samhost has begun")
                if is_gone:
                    kill(place, session)
                    session.drop()
            wait_until(lambda: not has_open(first, "journal"), "it has the journal still")
            os.kill(first, signal.SIGTERM)
            wait_until(lambda: not is_running(first), "it doesn't go")
            expect_equal(names_in(home), WHOLE, "what the folder has")
            session.type("four\n")
            expect_equal(session.text(), "one\ntwo\nthree\nfour\n", "the text")
            session.write()
            session.leave()


def check_removed_folder_where_another_session_began(folder):
    """A session of that name which has begun there meanwhile is left alone, also where its samhost is gone. That is told, and the first one
    goes on without a journal."""
    with typed(folder) as session:
        home, pid = home_of(folder, session.name), pid_of(folder, session.name)
        with contextlib.ExitStack() as stack:
            with stopped(pid):
                remove(home)
                other = stack.enter_context(Staying(folder, "b.txt", id=session.id))
            session.carry(lambda: losses(session), "it isn't told")
            other.type("other\n")
            expect(pid_of(folder, session.name) != pid, "no other samhost has begun")
        session.carry(lambda: len(losses(session)) == 2, "it isn't told of the other one")
        expect("another samhost has gone on with it" in losses(session)[1], f"it says {losses(session)}")
        ended = session.run("--end", session.name)
        wanted = (0, "samhost: b.txt was not written; its text is in b.txt.sam-saved\n")
        expect_equal((ended.returncode, ended.stderr), wanted, "what comes of --end")
        session.type("three\n")
        session.terminal.exit()
        session.wait_for_end(0)
    copies = [text_of(folder / f"{name}.txt.sam-saved") for name in "ab"]
    expect_equal(copies, ["one\ntwo\nthree\n", "other\n"], "the copies")
