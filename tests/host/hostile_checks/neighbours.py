"""Other users of the machine, and other programs of the user: what they leave, hold, put in the way, and claim."""
import contextlib
import os
import shutil
import socket
import subprocess
import sys
import threading
import time

from checks import GIVEN_UP, Skipped, expect, times_longer, wait_until
from host_checks.journals import kill, typed
from host_checks.line import home_of
from host_checks.support import IS_ROOT, NOBODY, SAMHOST, Session, as_nobody, expect_equal, expect_line, made, names_of, run_host, text_of

SILENT = 40  # connections that say nothing: more than are taken and wait


def another():
    """Skips a check where there is no other user, whose number is NOBODY."""
    if not IS_ROOT:
        raise Skipped("not root, so there is no other user")


def check_neighbours_copies_are_not_offered(folder):
    """Copies of another user beside a file are not read, offered or taken for what a write has left; one line names the first."""
    another()
    made(folder, a="one\n")
    for name in ["a.txt.sam-saved", *(f"a.txt.sam-saved.{number}" for number in range(2, 30)), "a.txt.sam-old"]:
        (folder / name).write_text("planted\n")
        os.chown(folder / name, NOBODY, NOBODY)
    with Session(folder, "a.txt", options=("--left",)) as session:
        told = [line for line in session.told() if "a.txt" in line]
        expect_equal(len(told), 1, f"of the lines {told} the number")
        expect_line(told, r"copies of other users are not offered: a\.txt\.sam-(saved|old)(\.\d+)? and more")
        expect_equal(names_of(session), ["a.txt"], "the names")
        expect_equal(session.end(), 0, "the status")


def check_neighbours_links_are_not_followed(folder):
    """Nor is a link followed that stands in the place of a copy."""
    made(folder, a="one\n")
    (folder / "secret").write_text("secret\n")
    (folder / "a.txt.sam-saved").symlink_to("secret")
    with Session(folder, "a.txt", options=("--left",)) as session:
        expect_equal(session.told(), [], "what it says")
        expect_equal(names_of(session), ["a.txt"], "the names")


def check_neighbours_root_keeps_its_own(folder):
    """What root has typed into another user's file and not written is offered to root, though the copy has that user as its owner."""
    another()
    (path,) = made(folder, a="one\n")
    os.chown(path, NOBODY, NOBODY)
    (folder / "a.txt.sam-saved").write_text("typed by root\n")
    os.chown(folder / "a.txt.sam-saved", NOBODY, NOBODY)
    with Session(folder, "a.txt", options=("--left",)) as session:
        told = [line for line in session.told() if "a.txt" in line]
        expect_line(told, r"a.txt has a text that was not written: it is in a.txt.sam-saved.*")
        expect_equal(len(names_of(session)), 2, f"of the names {names_of(session)} the number")


def check_neighbours_lock_holds_nothing_up(folder):
    """A lock that another user holds on the folder of a file holds a write up for a fifth of a second at most: so many attempts it is
    tried. (That another host of the user's is waited for longer, two_hosts tries.)"""
    another()
    if shutil.which("strace") is None:
        raise Skipped("no strace")
    (path,) = made(folder, a="one\n")
    log = folder / "temporary" / "calls"
    code = (
        f"import fcntl, os, sys\nheld = os.open(sys.argv[1], os.O_RDONLY); os.setgid({NOBODY}); os.setuid({NOBODY})\n"
        "fcntl.flock(held, fcntl.LOCK_EX); print('held', flush=True); sys.stdin.read()"
    )
    with subprocess.Popen([sys.executable, "-c", code, folder], stdin=subprocess.PIPE, stdout=subprocess.PIPE) as other:
        expect_equal(other.stdout.readline(), b"held\n", "what the other user's program says")
        with Session(folder, "a.txt", prefix=("strace", "-f", "-qq", "-o", log, "-e", "trace=flock")) as session:
            session.type("two\n")
            session.write()
            expect_equal(text_of(path), "one\ntwo\n", "the file")
            session.end()
    tries = log.read_text().count("flock(")
    expect(1 < tries <= 21, f"it tries {tries} times")


def check_neighbours_link_at_the_last_moment(folder):
    """A link that comes in the place of a file between the look at it and the writing in place is not followed, whatever it leads to."""
    if shutil.which("strace") is None:
        raise Skipped("no strace")
    (path,) = made(folder, a="one\n")
    os.link(path, folder / "b.txt")
    target = folder / "temporary" / "target"
    target.write_text("one\n")
    log = folder / "temporary" / "calls"
    looks = "access,faccessat,faccessat2"
    words = ("strace", "-f", "-qq", "-o", log, "-e", f"trace={looks}", "-e", f"inject={looks}:delay_exit=700000")
    with Session(folder, "a.txt", prefix=words, begin=False) as session:
        session.has_begun = True
        session.terminal.open_cmd()
        session.terminal.offer_version(2)
        session.settle()
        session.terminal.open(1)
        session.settle()
        session.type("two\n")
        seen = log.read_text().count("a.txt")
        session.terminal.write(1)
        session.send()
        wait_until(lambda: log.read_text().count("a.txt") > seen or not log.read_text().endswith("\n"), "the file isn't looked at")
        time.sleep(0.1)
        path.unlink()
        path.symlink_to(target)
        session.settle()
        expect_equal(text_of(target), "one\n", "what the link leads to")
        expect_equal(text_of(folder / "b.txt"), "one\n", "the file by its other name")
        expect(any("a.txt" in line and line.startswith("samhost: not written: ") for line in session.told()), "it says nothing")
    expect_equal(text_of(folder / "a.txt.sam-saved"), "one\ntwo\n", "the copy")


@contextlib.contextmanager
def silent_ones(folder, name):
    """Connections that say nothing, as many as are taken and wait."""
    sockets = []

    def connect():
        it = socket.socket(socket.AF_UNIX)
        it.settimeout(GIVEN_UP)
        sockets.append(it)
        with contextlib.suppress(OSError):
            it.connect(str(home_of(folder, name) / "socket"))

    threads = [threading.Thread(target=connect, daemon=True) for _ in range(SILENT)]
    for thread in threads:
        thread.start()
    try:
        yield
    finally:
        for it in sockets:
            it.close()
        for thread in threads:
            thread.join()


def check_neighbours_that_say_nothing(folder):
    """Beside 40 connections that say nothing --list ends soon, and says what is true of the session."""
    with typed(folder) as session:
        with silent_ones(folder, session.name):
            time.sleep(0.5)
            start = time.monotonic()
            listed = session.run("--list")
            took = time.monotonic() - start
        expect(took < 3 * times_longer(), f"it takes {took:.1f} s")
        expect_equal(listed.returncode, 0, "the status")
        expect(f"{session.name}  its samhost has not answered in time  a.txt, in " in listed.stdout, f"the list has {listed.stdout!r}")
        session.type("three\n")
        session.leave()


def in_another_container(*words):
    """Words that run a command where processes have other numbers."""
    front = ["unshare", "--pid", "--fork", *words]
    if not IS_ROOT or shutil.which("unshare") is None:
        raise Skipped("no unshare, or not root, so processes have the same numbers everywhere")
    if subprocess.run(["unshare", "--pid", "--fork", "true"], capture_output=True).returncode != 0:
        raise Skipped("processes have the same numbers everywhere here")
    return front


def check_neighbours_in_a_container(folder):
    """--end from another container, in which the session's process has no number, ends the session, and signals nothing else."""
    with typed(folder) as session:
        session.drop()
        script = f"trap '' HUP; {SAMHOST} --end {session.name}; echo status $?"
        words = in_another_container("sh", "-c", script)
        ended = subprocess.run(words, cwd=folder, env=session.environment, capture_output=True, text=True, timeout=GIVEN_UP)
        expect_equal((ended.returncode, ended.stdout), (0, "status 0\n"), f"after {ended.stderr!r} what comes of it")
        wait_until(lambda: not home_of(folder, session.name).exists(), "its folder stays")
    expect_equal(text_of(folder / "a.txt.sam-saved"), "one\ntwo\n", "the copy")


def check_neighbours_state_folder(folder):
    """A state folder of another user, or one that is open to him, is refused: no session begins there, and none is listed."""
    another()
    made(folder, a="one\n")
    state = folder / "temporary" / "sulgrevad"
    environment = {**os.environ, "XDG_STATE_HOME": str(folder / "temporary")}
    state.mkdir(mode=0o700)
    os.chown(state, NOBODY, NOBODY)
    for words in (["--serve", "0123456789abcdef", "a.txt"], ["--attach", "0123456789abcdef"], ["--list"], ["--take"], ["--open", "a.txt"]):
        ended = subprocess.run([SAMHOST, *words], cwd=folder, env=environment, input=b"", capture_output=True, timeout=GIVEN_UP)
        expect_equal((ended.returncode, ended.stdout), (1, b""), f"{words}: after {ended.stderr!r} the status, and the output")
    expect_equal(os.listdir(state), [], "what is in it")


def check_neighbours_journal(folder):
    """A journal of another user's in a session's folder makes no session, and stays."""
    another()
    with typed(folder) as session:
        session.abandon()
        kill(folder, session)
        journal = home_of(folder, session.name) / "journal"
        data = journal.read_bytes()
        os.chown(journal, NOBODY, NOBODY)
        for words in (["--end", session.name], ["--attach", session.name]):
            ended = subprocess.run([SAMHOST, *words], cwd=folder, env=session.environment, input=b"", capture_output=True, timeout=GIVEN_UP)
            expect_equal((ended.returncode, ended.stdout), (1, b""), f"{words}: after {ended.stderr!r} the status, and the output")
        expect_equal(journal.read_bytes(), data, "the journal")


def check_neighbours_in_a_shared_folder(folder):
    """A user who may not write a folder's files edits his own beside another's copies: he is told of his own alone."""
    another()
    made(folder, a="one\n")
    prefix = as_nobody(folder)
    os.chown(folder / "a.txt", NOBODY, NOBODY)
    (folder / "a.txt.sam-saved").write_text("of root\n")
    (folder / "a.txt.sam-saved.2").write_text("own\n")
    os.chown(folder / "a.txt.sam-saved.2", NOBODY, NOBODY)
    command = [*prefix, SAMHOST, "--left", "a.txt"]
    told = [line for line in run_host(folder, command)[1] if "a.txt" in line]
    expect_line(told, r"copies of other users are not offered: a\.txt\.sam-saved")
    expect_line(told, r"a\.txt has a text that was not written: it is in a\.txt\.sam-saved\.2.*")
    expect_equal(len(told), 2, f"of the lines {told} the number")
