"""The steps of docs/tutorials/FIRST_SESSION.md. What the page has a shell do, a shell does, but for `samterm`, which gets a screen, and for
`pkill`, in whose place the processes of this session alone are killed."""
import os
import re
import shutil
import signal
import subprocess
import sys

from checks import ROOT, SAMHOST, Skipped, expect_equal, wait_until

sys.path.append(str(ROOT / "tests/terminal"))

from terminal_checks.support import STATE, Session  # noqa: E402

PAGE = ROOT / "docs/tutorials/FIRST_SESSION.md"
TEXT = "Shopping\ntea\npaper\n"


def commands():
    """The commands of the page, by their blocks, and what it has typed as a command line."""
    page = PAGE.read_text()
    return re.findall(r"^```sh\n(.*?)^```$", page, re.MULTILINE | re.DOTALL), re.findall(r"^```\n(.*?)\n```$", page, re.MULTILINE)


def host_of(folder):
    """The process of the session's host, which the lock of the session names."""
    return int(next((folder / STATE / "sulgrevad").glob("*/lock")).read_text())


def saves(folder, session, wanted):
    """`^W` writes the file, and the star goes."""
    session.keys("C-w")
    wait_until(lambda: (folder / "notes.txt").read_text() == wanted, lambda: f"notes.txt is {(folder / 'notes.txt').read_text()!r}")
    wait_until(lambda: not session.shows("* notes.txt"), "the star stays")


def edits(session, line):
    """Steps 2 and 3: typing, saving, undo, finding, and a command line."""
    folder = session.folder
    session.type("for Monday")
    session.keys("Enter")
    session.wait_for("* notes.txt")
    saves(folder, session, f"for Monday\n{TEXT}")
    session.keys("C-z")
    session.wait_for("for MondayShopping")
    session.keys("C-z")
    wait_until(lambda: not session.shows("for Monday"), "^Z doesn't take the words back")
    session.keys("C-r", "C-r")
    wait_until(lambda: session.shows("for Monday") and not session.shows("MondayShopping"), "^R doesn't make them again")
    session.keys("C-s")
    session.type("pa")
    session.keys("Escape")
    session.wait_to_go_to("notes.txt")
    session.command(line)
    session.wait_for("tEa")
    session.keys("C-z")
    session.wait_for("tea")
    session.keys("C-Home")


def check_first_session(folder):
    """Each step of the page does what the page says."""
    if not shutil.which("tmux") or not SAMHOST.exists():
        raise Skipped("tmux is not installed, or samhost is not built")
    (begin, kill_host, kill_terminal, take), (line,) = commands()
    begin, name = begin.rsplit("\nsamterm ", 1)
    expect_equal((kill_host, kill_terminal), ("pkill -KILL samhost\n", f"pkill -KILL -f 'samterm {name.strip()}'\n"))
    expect_equal(take, "samterm --take samhost\n")
    subprocess.run(["sh", "-e", "-c", begin], cwd=folder, check=True)
    place = folder / "first"
    with Session(place, name.strip(), stays=True) as session:
        session.wait_for("paper")
        edits(session, line)
        os.kill(host_of(place), signal.SIGKILL)
        session.type("now: ")
        session.wait_for("now: for Monday")
        wait_until(lambda: not session.shows("LINE LOST"), "the line stays lost")
        saves(place, session, f"now: for Monday\n{TEXT}")
        session.type("unsaved ")
        session.wait_for("unsaved for Monday")
        session.wait_for_quiet()
        os.kill(session.terminal(), signal.SIGKILL)
        session.wait_for_end(128 + signal.SIGKILL)
        session.status_file.unlink()
        session.ends_staying = False
    with Session(place, stays=True, take="") as session:
        session.wait_for("* notes.txt")
        session.wait_for("now: unsaved for Monday")
        saves(place, session, f"now: unsaved for Monday\n{TEXT}")
        session.leave()
