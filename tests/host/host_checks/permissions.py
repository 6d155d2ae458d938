"""Who may reach what a session that stays has: folders and files from the moment on that they are made, what stands in their place, and
other users at either end of its socket."""
import os
import re
import select
import shutil
import subprocess
import sys
from pathlib import Path

from checks import GIVEN_UP, Skipped, expect, wait_until

from .journals import is_session
from .line import Staying, home_of, pid_of, state_of, traced
from .support import IS_ROOT, NOBODY, SAMHOST, expect_equal, made, text_of

OWN = "fedcba9876543210"  # the name of a session, which no other check gives
CALL = re.compile(r"^(\d+) +(\w+)\((.*)\) += (-?\d+)")
MAKING = "mkdir,mkdirat,open,openat,creat,bind,mknod,mknodat,chmod,fchmod,fchmodat,umask"
# What a call makes there: the mode that it asks for
MADE = {"mkdir": r", 0([0-7]+)$", "mkdirat": r", 0([0-7]+)$", "openat": r"O_CREAT.*, 0([0-7]+)$", "open": r"O_CREAT.*, 0([0-7]+)$"}
FOLDER_OF_FILES = r"openat\(\d+</[^>]*/sulgrevad/[0-9a-f]{16}>"


def calls_of(log):
    """The calls that have gone well: process, name, arguments, answer."""
    found = (CALL.match(line) for line in log.read_text().splitlines())
    return [(call[1], call[2], call[3], int(call[4])) for call in found if call is not None and int(call[4]) >= 0]


def made_for_all(calls, room):
    """Of what is made in a folder, what others than the user could reach at that moment, and the names of all that is made there."""
    masks, wrong, names = {}, [], set()
    for process, call, arguments, answer in calls:
        mask = masks.get(process, 0)
        if call == "umask":
            masks[process] = int(arguments, 8)
        if str(room) not in arguments and "/proc/self/fd/" not in arguments:
            continue
        mode = re.search(MADE[call], arguments) if call in MADE else None
        asked = 0o777 if call == "bind" else int(mode[1], 8) if mode else None
        if asked is not None:
            names.add(re.findall(r'"([^"]*)"', arguments)[-1].rpartition("/")[2])
        if (asked or 0) & ~mask & 0o077 or "chmod" in call:
            wrong.append(f"{call}({arguments}) under umask {mask:o}")
    return wrong, names


def check_guarded_from_the_first_moment(folder):
    """With a umask that keeps nothing from others, each folder, socket and file of a session is the user's alone as it is made, with no
    moment in which it is open, and no symbolic link is followed to a file."""
    made(folder, a="one\n")
    log, room = folder / "calls", state_of(folder)
    before = os.umask(0)
    try:
        with Staying(folder, "a.txt", prefix=traced(log, MAKING)) as session:
            session.type("two\n")
            session.abandon()  # what traces the calls goes on
            with Staying(folder, takes=session.name) as heir:
                heir.type("three\n")
                heir.leave()
    finally:
        os.umask(before)
    wrong, names = made_for_all(calls_of(log), room)
    expect_equal(wrong, [], "what others could have reached")
    wanted = {"sulgrevad", session.name, "lock", "journal.new", "name", "before", "socket"}
    expect(wanted <= names, f"this test is wrong: it sees no making of {wanted - names}, but of {names}")
    files = [line for line in log.read_text().splitlines() if re.search(FOLDER_OF_FILES, line)]
    followed = [line for line in files if "O_NOFOLLOW" not in line or "O_CLOEXEC" not in line]
    expect(files and not followed, f"it would follow a link: {followed}")


def processes_of(name):
    """Those that serve the session of a name."""
    return [pid for pid in map(int, filter(str.isdigit, os.listdir("/proc"))) if is_session(pid, name)]


def check_guarded_from_links_in_the_folder(folder):
    """A symbolic link in the place of a file of the session leads nowhere: what it names isn't read, changed or made."""
    made(folder, a="one\n")
    environment = {**os.environ, "XDG_STATE_HOME": str(folder / "temporary")}
    for name in ("journal", "lock", "name", "before", "socket", "journal.new"):
        for is_there in (True, False):
            state_of(folder).mkdir(parents=True, exist_ok=True, mode=0o700)
            home, target = home_of(folder, OWN), folder / "temporary" / "target"
            home.mkdir(mode=0o700)
            if is_there:
                target.write_text("theirs\n")
            (home / name).symlink_to(target)
            words = [SAMHOST, "--serve", OWN, "--stay", "0.0001", "a.txt"]
            ended = subprocess.run(words, cwd=folder, env=environment, input=b"", capture_output=True, timeout=GIVEN_UP)
            wait_until(lambda: not processes_of(OWN), f"{name}: it doesn't end")
            expect_equal(text_of(target), "theirs\n" if is_there else None, f"{name}: after {ended} what the link leads to")
            shutil.rmtree(home, ignore_errors=True)
            target.unlink(missing_ok=True)


def as_another(code, *words):
    """Words that run Python as another user."""
    if not IS_ROOT:
        raise Skipped("not root, so there is no other user")
    return [sys.executable, "-c", f"import os, socket, sys, time; {code}", *map(str, words)]


BECOME = f"os.setgid({NOBODY}); os.setuid({NOBODY})"


def check_guarded_from_another_listener(folder):
    """A socket in the session's folder at which another user listens is refused before a byte goes there."""
    made(folder, a="one\n")
    home = home_of(folder, OWN)
    home.mkdir(parents=True)
    for place in (home.parent, home):
        place.chmod(0o700)
    (home / "name").write_text("a.txt")
    code = (
        f"it = socket.socket(socket.AF_UNIX); it.bind(sys.argv[1]); {BECOME}; it.listen(); print('listens', flush=True)\n"
        "while True: print(it.accept()[0].recv(100), flush=True)"
    )
    environment = {**os.environ, "XDG_STATE_HOME": str(folder / "temporary")}
    with subprocess.Popen(as_another(code, home / "socket"), stdout=subprocess.PIPE) as other:
        try:
            expect_equal(other.stdout.readline(), b"listens\n", "what the other user's program says")
            for words in (["--attach", OWN], ["--take", OWN], ["--open", "a.txt"], ["--list"], ["--end", OWN]):
                ended = subprocess.run([SAMHOST, *words], env=environment, input=b"x" * 42, capture_output=True, timeout=GIVEN_UP)
                heard = other.stdout.readline() if select.select([other.stdout], [], [], GIVEN_UP)[0] else b"nobody calls\n"
                wanted = f"{OWN}  its samhost is gone, and there is no journal  a.txt\n".encode() if words == ["--list"] else b""
                expect_equal((ended.stdout, heard), (wanted, b"b''\n"), f"{words}: what comes, and what the other user gets")
                expect(words[0] not in ("--attach", "--take") or ended.returncode == 1, f"{words}: it ends with {ended.returncode}")
        finally:
            other.kill()


def check_guarded_from_another_user(folder):
    """Another user who runs samhost on the session's folder, even one that is open to him by now, is refused, and the session goes on."""
    if not IS_ROOT or shutil.which("setpriv") is None:
        raise Skipped("not root, or no setpriv, so there is no other user")
    made(folder, a="one\n")
    with Staying(folder, "a.txt") as session:
        home = home_of(folder, session.name)
        pid = pid_of(folder, session.name)
        for mode in (0o700, 0o777):
            for place in (folder / "temporary", state_of(folder), home):
                place.chmod(mode)
            front = ("setpriv", f"--reuid={NOBODY}", f"--regid={NOBODY}", "--clear-groups")
            for words in (["--attach", session.name], ["--take", session.name], ["--end", session.name], ["--open", "a.txt"], ["--list"]):
                command = [*front, SAMHOST, *words]
                ended = subprocess.run(command, env=session.environment, cwd="/", input=b"", capture_output=True, timeout=GIVEN_UP)
                expect(ended.returncode != 0 and ended.stdout == b"", f"{words} with folders of mode {mode:o}: {ended}")
        home.chmod(0o700)
        state_of(folder).chmod(0o700)
        expect(Path(f"/proc/{pid}").exists(), "the session has ended")
        session.type("two\n")
        session.leave()
