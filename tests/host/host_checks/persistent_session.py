"""A session that stays when its line breaks: what its terminal meets. Its ends and its journal have checks of their own."""
import contextlib
import fcntl
import os
import random
import shutil
import signal
import socket
import subprocess
import sys
import time
from pathlib import Path

import sulgrevad
from checks import GIVEN_UP, Skipped, expect, expect_sleep, times_longer, wait_until
from link_model import HELLO_BYTES, Read, What, read_whole, spelled

from .journals import kill, typed
from .line import Staying, expect_gone, home_of, is_running, pid_of, state_of, with_calls
from .support import IDLE, IS_ROOT, LATE, NOBODY, SAMHOST, expect_equal, made, names_in, text_of

OWN = "0123456789abcdef"
NAPS = "35", "230"  # numbers of the calls nanosleep and clock_nanosleep


def check_stays_and_ends(folder):
    """A session that stays edits and writes, says by messages what comes of that, ends with its status, and leaves no folder."""
    (path,) = made(folder, a="one\n")
    with Staying(folder, "a.txt") as session:
        session.type("two\n")
        session.write()
        expect_equal(text_of(path), "one\ntwo\n", "the file")
        path.write_text("other\n")
        session.type("three\n")
        session.write()
        told = [said for said in session.said() if said.startswith("not written: a.txt: another program changed it")]
        expect_equal(len(told), 1, f"how often it says so, in {session.said()}: it")
        first = session.messages[0]
        expect_equal((first.kind, first.number, first.path), (sulgrevad.NoteKind.SESSION, 1, session.name.encode()), "the first message")
        session.leave()
        expect_equal(session.said()[-1], "a.txt was not written; its text is in a.txt.sam-saved", "what it says last")
        aside = session.of("ASIDE", tag=1, code=sulgrevad.NoteCode.NO_CODE, path=b"a.txt", copy=b"a.txt.sam-saved")
        expect_equal(len(aside), 1, f"how often it tells where, in {session.messages}: it")
        expect_gone(folder, session)
        expect_equal(session.wait(), 0, "the status of the relay")
    expect_equal(text_of(folder / "a.txt.sam-saved"), "one\ntwo\nthree\n", "the copy")


def check_stays_says_what_was_left(folder):
    """What is known at its start comes before all other messages but the first."""
    made(folder, a="one\n")
    (folder / "a.txt.sam-saved").write_text("newer\n")
    with Staying(folder, "a.txt", options=("--times", "--left")) as session:
        dated, earlier = session.messages[1:3]
        time_of = int((folder / "a.txt").stat().st_mtime)
        expect_equal(dated, sulgrevad.Note(sulgrevad.NoteKind.DATED, tag=1, number=time_of, path=b"a.txt"), "the time")
        wanted = (sulgrevad.NoteKind.EARLIER, 1, sulgrevad.NoteCode.NEWER, b"a.txt", b"a.txt.sam-saved")
        expect_equal((earlier.kind, earlier.tag, earlier.code, earlier.path, earlier.copy), wanted, f"of {earlier} the fields")
        expect_equal(earlier.number, int((folder / "a.txt.sam-saved").stat().st_mtime), "its time")
        expect(earlier.text.startswith("a.txt has a text that was not written: it is in a.txt.sam-saved"), f"it says {earlier}")
        session.leave()


def ran(folder, *words, environment=None):
    """What comes of a samhost whose standard input is empty."""
    env = {**os.environ, **(environment or {})}
    ended = subprocess.run([SAMHOST, *words], cwd=folder, capture_output=True, timeout=GIVEN_UP, stdin=subprocess.DEVNULL, env=env)
    return ended.returncode, ended.stdout, ended.stderr.decode()


def check_stays_not_at_errors(folder):
    """What is wrong with the files is said where samhost was called, with the same words and status, and nothing is begun."""
    made(folder, a="one\n")
    (folder / "b.txt").write_bytes(b"\xff")
    for words in (["b.txt"], ["b.txt", "./b.txt"]):
        wanted = ran(folder, *words)
        expect_equal(wanted[0], 1, f"the status of the plain one with {words}")
        expect_equal(ran(folder, "--serve", OWN, *words), wanted, f"what comes of {words}")
    home = Path(os.environ["HOME"]) / ".local" / "state" / "sulgrevad"
    expect_equal(names_in(home) if home.exists() else [], [], "what is left in the folder of sessions")


def check_stays_words(folder):
    """Wrong words are answered by the usage, before any byte."""
    for words in (["--serve"], ["--serve", "xyz"], ["--serve", OWN.upper()], ["--attach", OWN, "a"], ["--list", "a"], ["--stay", "x"],
                  ["--stay", "-1"], ["--end"], ["--attach", OWN, "--serve", OWN], ["--session", OWN],
                  ["--open", "--session", "xyz", "a.txt"]):  # fmt: skip
        status, output, errors = ran(folder, *words)
        expect_equal((status, output), (2, b""), f"what comes of {words}")
        expect(errors.startswith("usage: samhost"), f"no usage of {words}: {errors}")


def check_stays_through_breaks(folder):
    """Lines that break at random bytes, both ways, lose and double nothing; the host never begins anew."""
    (path,) = made(folder, a="one\n")
    chance = random.Random(4)
    with Staying(folder, "a.txt") as session:
        first = pid_of(folder, session.name)
        for number in range(60):
            session.left = chance.randrange(1, 200)
            session.terminal.select(1, *2 * [chance.randrange(session.terminal.len(1) + 1)])
            session.terminal.type(1, f"<{number}>" + "x" * chance.randrange(200))
            if chance.random() < 0.3:
                session.terminal.write(1)
            session.settle()
        session.left = None
        session.write()
        wanted = session.text()
        expect_equal(pid_of(folder, session.name), first, "the process")
        expect(session.breaks > 20, f"only {session.breaks} lines broke")
        expect_equal(text_of(path), wanted, "the file")
        expect_equal(session.said(), [], "what it says")
        session.leave()
    expect_equal(wanted.count("<"), 60, "how many pieces it has")


def check_stays_half_open(folder):
    """A relay that hangs is given up: the newest connection alone counts, and what an older one still brings is dropped."""
    (path,) = made(folder, a="one\n")
    with Staying(folder, "a.txt") as session:
        for number in range(3):
            old = session.process
            old.send_signal(signal.SIGSTOP)
            session.terminal.select(1, 0, 0)
            session.terminal.type(1, f"{number}")
            session.send()  # it goes into the pipe of the relay that hangs
            session.abandon()
            session.attach()
            session.settle()
            old.send_signal(signal.SIGCONT)
            old.wait(GIVEN_UP)
            session.settle()
        session.write()
        expect_equal(text_of(path), "210one\n", "the file")
        session.leave()


def check_stays_without_relay(folder):
    """A relay that is killed takes nothing with it, not even with bytes on their way."""
    (path,) = made(folder, a="one\n")
    with Staying(folder, "a.txt") as session:
        for number in range(5):
            session.terminal.select(1, 0, 0)
            session.terminal.type(1, f"{number}" * 100)
            session.send()
            session.process.kill()
            session.settle()
        session.write()
        wanted = "".join(f"{number}" * 100 for number in reversed(range(5))) + "one\n"
        expect_equal(text_of(path), wanted, "the file")
        session.leave()


def check_stays_without_a_state_folder(folder):
    """Where the folder of all sessions isn't there yet, as before a home is mounted, the terminal's connection is refused, and standard
    error says why; else that there is no such session."""
    with typed(folder) as session:
        state = state_of(folder)
        away = folder / "temporary" / "away"
        for says, hides in ((f"there is no state folder {state}, so no session is found", True), (f"there is no session {OWN}", False)):
            session.drop()
            if hides:
                state.rename(away)
            session.start("--attach", session.name if hides else OWN)
            expect_equal((session.refusal(), session.wait()), (What.NO_SESSION, 7), f"{says}: the answer, and the status")
            expect_equal(session.process.stderr.read().decode(), f"samhost: {says}\n", "what it says")
            if hides:
                away.rename(state)
        session.drop()
        session.type("three\n")
        expect_equal(session.text(), "one\ntwo\nthree\n", "the text")
        session.leave()


def check_stays_not_without_room_for_its_folder(folder):
    """Where no folder can be made for a session, what is said is why, and not that none is named."""
    if shutil.which("strace") is None:
        raise Skipped("no strace")
    made(folder, a="one\n")
    for error, said in (("ENOSPC", "No space left on device"), ("EROFS", "Read-only file system")):
        words = ("strace", "-f", "-qq", "-o", "/dev/null", "-e", f"inject=mkdir:error={error}", SAMHOST, "--serve", OWN, "a.txt")
        ended = subprocess.run(words, cwd=folder, capture_output=True, text=True, timeout=GIVEN_UP, stdin=subprocess.DEVNULL)
        expect_equal((ended.returncode, ended.stderr), (1, f"samhost: session {OWN}: {said}\n"), "the status, and what it says")


def check_stays_killed_as_it_begins(folder):
    """Where samhost is killed before its journal has its begin, that is no damage: the next attempt begins the session."""
    if shutil.which("strace") is None:
        raise Skipped("no strace")
    for call, when in (*(("writev", number) for number in range(1, 6)), ("fdatasync", 1), ("fdatasync", 2), ("renameat,renameat2", 1)):
        place = folder / f"{call}{when}"
        place.mkdir()
        made(place, a="one\n")
        words = ("strace", "-f", "-qq", "-o", "/dev/null", "-e", f"inject={call}:signal=KILL:when={when}")
        with Staying(place, "a.txt", begin=False, prefix=words) as session:
            session.process.wait(GIVEN_UP)
            session.drop()
            session.start("--serve", session.name, "--", "a.txt")
            session.begin()
            expect_equal((session.text(), session.errors), ("one\n", b""), f"{call} {when}: the text, and what it says")
            session.leave()


def check_stays_though_somebody_looks(folder):
    """A session begins though another samhost, which lists them, has its folder locked for a moment."""
    made(folder, a="one\n")
    state = state_of(folder)
    state.mkdir(parents=True, mode=0o700)
    with Staying(folder, "a.txt", begin=False, prefix=("sh", "-c", 'read go && exec "$@"', "sh")) as session:
        home = home_of(folder, session.name)
        home.mkdir(mode=0o700)
        with open(home / "lock", "w") as lock:
            (home / "lock").chmod(0o600)
            fcntl.flock(lock, fcntl.LOCK_EX)
            os.write(session.process.stdin.fileno(), b"go\n")
            process = Path(f"/proc/{session.process.pid}")
            wait_until(lambda: (process / "comm").read_text() == "samhost\n", "it doesn't begin")
            wait_until(lambda: (process / "syscall").read_text().split()[0] in NAPS, "it doesn't wait")
        session.begin()
        expect_equal((session.text(), session.errors), ("one\n", b""), "the text, and what it says")
        session.leave()


def check_stays_without_standard_error(folder):
    """A session that was begun without a standard error is found, taken over and ended as any other."""
    made(folder, a="one\n")
    with Staying(folder, "a.txt", prefix=("sh", "-c", 'exec 3>&2 2>&-; exec "$@"', "sh")) as old:
        old.type("two\n")
        with Staying(folder, takes=old.name) as new:
            expect_equal([said for said in new.said() if "can't be named anew" in said], [], "what it says of its folder")
            expect_equal(new.text(), "one\ntwo\n", "the text")
            new.leave()


def check_stays_quiet_after_its_end(folder):
    """A session whose terminal left and never heard of the end sleeps until that is over."""
    with typed(folder) as session:
        session.write()
        pid = pid_of(folder, session.name)
        session.terminal.exit()
        session.send()
        ended = sulgrevad.write_note(sulgrevad.Note(sulgrevad.NoteKind.ENDED))
        wait_until(lambda: ended in (home_of(folder, session.name) / "journal").read_bytes(), "it doesn't end")
        session.drop()
        time.sleep(IDLE + 1)
        expect_sleep([pid])


def check_stays_told_to_a_new_one(folder):
    """A new session on a file that another has changed and not written is told of that one, by each name of the file; of a file that isn't
    there yet, too, and not of one that is written. Others that don't answer hold it up for a second at most."""
    made(folder, a="one\n", b="other\n", c="third\n")
    (folder / "link.txt").symlink_to("a.txt")
    with Staying(folder, "a.txt", "b.txt", "c.txt", "new.txt") as old:
        old.type("two\n")
        old.type("three\n", 2)
        old.write(2)
        old.type("new\n", 4)
        old.drop()
        with Staying(folder, "link.txt", "b.txt", "c.txt", "new.txt") as new:
            told = [said for said in new.said() if " has changes in session " in said]
            way = f"samterm --take .. {old.name}, or samhost --take {old.name}, goes on with them"
            wanted = [f"{name} has changes in session {old.name} that are not written; {way}" for name in ("link.txt", "new.txt")]
            expect_equal(told, wanted, "what it is told")
            new.leave()
        other = pid_of(folder, old.name)
        os.kill(other, signal.SIGSTOP)
        try:
            start = time.monotonic()
            with Staying(folder, "c.txt") as late:
                took = time.monotonic() - start
                expect(took < 3 * times_longer(), f"it begins after {took:.1f} s")
                late.leave()
        finally:
            os.kill(other, signal.SIGCONT)
        old.leave()


def check_stays_quiet_without_room_for_connections(folder):
    """Where the system has no room for one more connection samhost sleeps, and takes it once there is room."""
    with typed(folder) as session:
        pid = pid_of(folder, session.name)
        with with_calls(pid, "inject=accept4:error=EMFILE"):
            listing = subprocess.Popen([SAMHOST, "--list"], cwd=folder, env=session.environment, stdout=subprocess.DEVNULL)
            expect_sleep([pid], 0.15)
            listing.wait(GIVEN_UP)
        session.type("three\n")
        wait_until(lambda: " in use, " in session.run("--list").stdout, "it takes no connection once there is room")
        session.write()
        session.leave()


def check_stays_where_its_folder_comes_later(folder):
    """Where the folder in which a session began isn't there yet, as before it is mounted, the relay says so and ends without an answer, so
    that the terminal tries again; once it is there the session goes on."""
    place = folder / "place"
    place.mkdir()
    made(place, a="one\n")
    with Staying(place, "a.txt") as session:
        session.type("two\n")
        kill(place, session)
        session.drop()
        state = folder / "state"
        state_of(place).parent.rename(state)
        session.environment = {**session.environment, "TMPDIR": str(state), "XDG_STATE_HOME": str(state)}
        session.folder = folder
        place.rename(folder / "away")
        for _ in range(2):
            session.start("--attach", session.name)
            expect_equal((session.process.stdout.read(), session.wait()), (b"", 1), "the answer, and the status")
            said = session.process.stderr.read().decode()
            told = f"samhost: {place}: No such file or directory\nsamhost: session {session.name} can't go on: the folder in which it "
            expect(said.startswith(told), f"it says {said!r}")
            session.abandon()
        (folder / "away").rename(place)
        session.type("three\n")
        expect_equal(session.text(), "one\ntwo\nthree\n", "the text")
        ended = session.run("--end", session.name)
        expect_equal(ended.returncode, 0, f"after {ended.stderr!r} the status of --end")


def check_stays_in_a_folder_that_comes_back(folder):
    """Where the folder in which a session began is removed and made anew, the session goes on there: it writes its files, saves their texts
    aside, and keeps its journal, also where another terminal takes it over meanwhile."""
    made(folder)
    place = folder / "place"
    place.mkdir()
    (place / "a.txt").write_text("one\n")
    path, copy = place / "a.txt", place / "a.txt.sam-saved"
    with Staying(folder, "a.txt", prefix=("sh", "-c", 'cd place && exec "$@"', "sh")) as session:
        session.type("two\n")
        wait_until(copy.exists, "the text is not saved", IDLE + LATE)
        shutil.rmtree(place)
        session.write()
        expect(session.said()[-1].startswith("not written: a.txt: No such file or directory; its text is in "), f"it says {session.said()}")
        place.mkdir()
        session.write()
        expect_equal(text_of(path), "one\ntwo\n", "the file")
        session.type("three\n")
        wait_until(lambda: text_of(copy) == "one\ntwo\nthree\n", "the text is not saved beside the file", IDLE + LATE)
        shutil.rmtree(place)
        with Staying(folder, takes=session.name) as new:
            expect_equal(new.of("NO_JOURNAL"), [], "what it tells of the journal")
            place.mkdir()
            kill(folder, new)
            new.type("four\n")
            new.write()
            expect_equal(text_of(path), "one\ntwo\nthree\nfour\n", "the file after a kill")
            new.leave()


def check_stays_for_the_user_alone(folder):
    """Its folder, socket and files are the user's alone, whatever the umask."""
    for mask in (0, 0o077, 0o777):
        place = folder / oct(mask)
        place.mkdir()
        made(place, a="one\n")
        before = os.umask(mask)
        try:
            with Staying(place, "a.txt") as session:
                home = home_of(place, session.name)
                modes = {entry.name: entry.stat().st_mode & 0o777 for entry in [home, *home.iterdir()]}
                modes[session.name] = home.stat().st_mode & 0o777
                wanted = {name: 0o700 if name == session.name else 0o600 for name in modes}
                expect_equal(modes, wanted, f"umask {mask:o}: the modes")
                expect("socket" in modes and "lock" in modes, f"no socket, or no lock: {modes}")
                session.leave()
        finally:
            os.umask(before)


def check_stays_in_a_true_folder(folder):
    """A symbolic link, a folder that is open to others or another user's is refused in the place of its folder."""
    made(folder, a="one\n")
    state = state_of(folder)
    state.mkdir(parents=True, mode=0o700)
    elsewhere = folder / "temporary" / "elsewhere"
    elsewhere.mkdir(mode=0o700)
    home = home_of(folder, OWN)
    environment = {"XDG_STATE_HOME": str(folder / "temporary")}
    wanted = (1, b"", f"samhost: the folder of session {OWN} is not yours alone\n")

    def expect_refused(what):
        for words in (["--serve", OWN, "a.txt"], ["--attach", OWN]):
            expect_equal(ran(folder, *words, environment=environment), wanted, f"{what}: what comes of {words}")

    home.symlink_to(elsewhere)
    expect_refused("a symbolic link")
    home.unlink()
    home.mkdir()
    home.chmod(0o750)
    expect_refused("a folder that is open")
    if IS_ROOT:
        home.chmod(0o700)
        os.chown(home, NOBODY, NOBODY)
        expect_refused("another user's folder")
        os.chown(home, 0, 0)
    home.rmdir()
    home.write_text("")
    expect_refused("a file")
    home.unlink()
    state.rmdir()
    state.symlink_to(elsewhere)
    expect_refused("a symbolic link in the place of all")
    expect_equal(names_in(elsewhere), [], "what is elsewhere")


def check_stays_for_nobody_else(folder):
    """A connection of another user is closed before it says a byte, also where the folder is open to him by now."""
    if not IS_ROOT:
        raise Skipped("not root, so there is no other user")
    made(folder, a="one\n")
    with Staying(folder, "a.txt") as session:
        home = home_of(folder, session.name)
        for place in (folder / "temporary", state_of(folder), home):
            place.chmod(0o777)
        (home / "socket").chmod(0o666)
        code = (
            f"import os, socket; os.setgid({NOBODY}); os.setuid({NOBODY}); it = socket.socket(socket.AF_UNIX); it.settimeout(8);"
            f"it.connect({str(home / 'socket')!r}); print(it.recv(1))"
        )
        ended = subprocess.run([sys.executable, "-c", code], capture_output=True, text=True, timeout=GIVEN_UP)
        expect(ended.stdout == "b''\n" or "ConnectionResetError" in ended.stderr, f"another user is heard: {ended}")
        home.chmod(0o700)
        session.type("two\n")
        session.leave()


def connected(folder, name):
    it = socket.socket(socket.AF_UNIX)
    it.settimeout(GIVEN_UP)
    wait_until(lambda: it.connect_ex(str(home_of(folder, name) / "socket")) == 0, "nobody listens")
    return it


def hello(session, what=What.BEGIN, id=None, attempt=1, received=0):
    return spelled(Read(what, id or session.id, attempt, received))


def check_stays_refuses_hellos(folder):
    """What is no hello, or one that can't be taken, is refused by its name, and changes nothing for the terminal that is there."""
    with typed(folder) as session:
        attempt, put = session.attempt, session.link.received
        right = hello(session, What.RESUME, attempt=attempt + 1, received=put)
        cases = {
            What.NOT_A_LINK: b"GET / HTTP/1.0\r\n\r\n" + bytes(40),
            What.OTHER_VERSION: right[:8] + b"\2" + right[9:],
            What.BAD_HELLO: hello(session, What.WELCOME, attempt=attempt + 1),
            What.OTHER_SESSION: hello(session, What.RESUME, id=session.id[:8] + bytes(8), attempt=attempt + 1),
            What.OLD_ATTEMPT: hello(session, What.RESUME, attempt=attempt, received=put),
            What.WRONG_COUNT: hello(session, What.RESUME, attempt=attempt + 1, received=put + 1000000),
        }
        for what, data in cases.items():
            with contextlib.closing(connected(folder, session.name)) as it:
                it.sendall(data)
                answer = b""
                while len(answer) < HELLO_BYTES and (more := it.recv(64)):
                    answer += more
                expect_equal(read_whole(answer).what, what, "the answer")
            session.type("x")
        expect_equal(session.attempt, attempt, "the attempt of the terminal that was there")
        session.leave()


def check_stays_begins_by_begin(folder):
    """A session that no terminal has come to refuses one that resumes, and one of another id; then it takes the right one."""
    made(folder, a="one\n")
    with Staying(folder, "a.txt", begin=False) as session:
        cases = {
            What.NO_SESSION: hello(session, What.RESUME),
            What.OTHER_SESSION: hello(session, What.BEGIN, id=bytes(16)),
        }
        for what, data in cases.items():
            with contextlib.closing(connected(folder, session.name)) as it:
                it.sendall(data)
                expect_equal(read_whole(it.recv(64)).what, what, "the answer")
        session.begin()
        expect_equal(session.messages, session.of("SESSION"), "the messages")
        session.type("two\n")
        session.leave()


def check_stays_beside_silent_ones(folder):
    """Eight connections that say nothing go after ten seconds; a ninth waits so long, and is taken."""
    made(folder, a="one\n")
    with Staying(folder, "a.txt") as session:
        start = time.monotonic()
        silent = [connected(folder, session.name) for _ in range(8)]
        silent[0].sendall(b"\x89sam")
        time.sleep(0.5)
        session.drop()
        session.attach()
        session.type("two\n")
        took = time.monotonic() - start
        expect(9 < took < 10 + LATE * times_longer(), f"it is taken after {took:.1f} s")
        for it in silent:
            expect_equal(it.recv(1), b"", "what a silent one reads")
            it.close()
        session.leave()


def check_stays_in_the_list(folder):
    """--list has a session's name, whether it is alone, how many files are not written, and what it is about; --end ends it."""
    made(folder, a="one\n", b="two\n")
    with Staying(folder, "a.txt", "b.txt") as session:
        session.type("two\n")
        listed = session.run("--list")
        expect_equal(listed.returncode, 0, "the status")
        for part in (session.name, " in use", " 1 not written", "a.txt and 1 more, in ", str(folder)):
            expect(part in listed.stdout, f"no {part!r} in {listed.stdout!r}")
        session.drop()
        wait_until(lambda: " alone for " in session.run("--list").stdout, "it is not alone")
        pid = pid_of(folder, session.name)
        ended = session.run("--end", session.name)
        expect_equal((ended.returncode, ended.stdout, ended.stderr), (0, "", ""), "what comes of --end")
        wait_until(lambda: not is_running(pid), "it still runs")
        expect_equal(session.run("--list").stdout, "", "the list")
        ended = session.run("--end", session.name)
        expect_equal((ended.returncode, ended.stderr), (7, f"samhost: there is no session {session.name}\n"), "what comes of another --end")
    expect_equal(text_of(folder / "a.txt.sam-saved"), "one\ntwo\n", "the copy")


def check_stays_is_found_by_serve(folder):
    """--serve of a session that is there goes to it: a terminal that never heard of its begin calls again so."""
    with typed(folder) as session:
        pid = pid_of(folder, session.name)
        session.drop()
        session.start("--serve", session.name, "--", "a.txt")
        session.settle()
        session.type("three\n")
        expect_equal(pid_of(folder, session.name), pid, "the process")
        session.leave()
