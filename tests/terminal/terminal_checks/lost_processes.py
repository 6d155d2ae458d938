"""A host, a terminal or a screen that is gone, in tmux."""
import os
import re
import signal
import sys
import time

from checks import expect_sleep, times_longer

from .support import SAMHOST, SAMTERM, SAMTERM_WORD, Session, expect, made, wait_for_text, wait_until


def check_kill_host(folder):
    """The host is killed: the text stays readable until the user leaves. What is typed before he knows is written to a file of its own."""
    made(folder, a="".join(f"line {number}\n" for number in range(12)))
    with Session(folder, "a.txt") as session:
        session.wait_for("line 11")
        session.wait_for_quiet()
        os.kill(session.processes()[SAMHOST.name], signal.SIGKILL)
        session.wait_for("the host is gone")
        session.type("lost")
        session.keys("F1")
        session.wait_for("shows these keys")
        session.keys("Escape")
        session.wait_for("line 11")
        expect(not session.shows("lostline"), "it still takes text")
        expect_sleep(session.processes().values())
        session.keys("C-q")
        session.wait_for_end(3)
    typed = folder / "typed.sam-here"
    expect(typed.exists() and typed.read_text() == "lost", "what was typed is lost")
    expect(typed.name in (folder / "stderr").read_text(), "that file is not named")


def check_saved_here(folder):
    """At its end samterm writes what a host that was killed has not said that it saved: to this folder, or to the user's own where nothing
    can be written here. The status says that something is left."""
    gone = "sh -c 'mkdir gone; cd gone; rmdir ../gone; exec \"$0\" \"$@\"'"  # a folder that is gone takes no file, of nobody
    own = r"\.state/sulgrevad/[0-9a-f]{16}-a\.txt\.sam-here"
    for at, (program, kept) in enumerate(((SAMTERM, r"a\.txt\.sam-here"), (f"{gone} {sys.executable} {SAMTERM_WORD}", own))):
        place = folder / str(at)
        place.mkdir()
        (path,) = made(place, a="one\n")
        with Session(place, str(path), program=program) as session:
            session.wait_for("one")
            session.type("typed ")
            session.wait_for("typed one")
            os.kill(session.processes()[SAMHOST.name], signal.SIGKILL)
            session.wait_for("the host is gone")
            session.keys("C-q")
            session.wait_for_end(3)
        left = {str(entry.relative_to(place)): entry.read_text() for entry in place.rglob("*.sam-here*") if not entry.is_symlink()}
        expect(list(left.values()) == ["typed one\n"] and re.fullmatch(kept, *left), f"{program}: there are {left}")
        expect(f"/{next(iter(left))}" in (place / "stderr").read_text(), f"{program}: the file is not named")


def check_host_dies_at_the_end(folder):
    """A host that ends too early may not have got all: then samterm writes the text, though the host has saved one of before."""
    made(folder, a="one\n")
    with Session(folder, "a.txt") as session:
        session.wait_for("one")
        session.type("typed ")
        wait_for_text(folder / "a.txt.sam-saved", "typed one\n")
        session.wait_for_quiet()
        with session.stopped_host() as host:
            session.type("more ")
            session.wait_for("typed more one")
            terminal = next(process for name, process in session.processes().items() if name.startswith("python"))
            os.kill(terminal, signal.SIGTERM)
            wait_until(lambda: not session.shows("| up "), "it doesn't leave the screen")
            os.kill(host, signal.SIGKILL)
        session.wait_for_end(128 + signal.SIGTERM)
    here = folder / "a.txt.sam-here"
    expect(here.exists() and here.read_text() == "typed more one\n", "what was typed is lost")


def type_while_it_leaves(folder, types, shown):
    """A session in which something is typed while the host answers that the user left. It is told on standard error."""
    made(folder, a="one\n")
    with Session(folder, "a.txt") as session:
        session.wait_for("one")
        session.wait_for_quiet()
        with session.stopped_host():
            session.keys("C-q")
            session.wait_for("leaving")
            types(session)
            session.wait_for(shown)
        session.wait_for_end(0)
    told = (folder / "stderr").read_text()
    expect("'late\\nword'" in told, f"it tells {told!r}")


def check_typed_while_it_leaves(folder):
    """What is typed while the host answers that the user left is told, and is written nowhere."""
    type_while_it_leaves(folder, lambda session: session.type("late\nword"), "| held")
    left = {entry.name for entry in folder.iterdir()} - {"a.txt", "status", "stderr", ".tmux"}
    expect(not left, f"there are {left}")


def check_paste_while_it_leaves(folder):
    """So is what came of a paste whose end has not come yet."""
    begun = [f"{byte:x}" for byte in b"\x1b[200~late\nword"]
    type_while_it_leaves(folder, lambda session: session.tmux("send-keys", "-H", *begun), "Esc twice")


def check_leave_without_the_host(folder):
    """Who leaves without waiting is told how long the host has, and `^C` ends that."""
    made(folder, a="one\n")
    with Session(folder, "a.txt") as session:
        session.wait_for("one")
        session.keys("S-Right", "C-c")
        session.wait_for_quiet()
        terminal = next(process for name, process in session.processes().items() if name.startswith("python"))
        with session.stopped_host():
            session.keys("C-v")
            session.type("waits")
            session.keys("C-q")
            session.answer("^Q again leaves", "C-q")
            wait_until(lambda: "^C" in (folder / "stderr").read_text(), "it isn't told")
            start = time.monotonic()
            os.kill(terminal, signal.SIGINT)  # `^C` would end the shell, too, that notes the status
            session.wait_for_end(3)
            expect(time.monotonic() - start < 5 * times_longer(), "it waits all the same")
        wait_for_text(folder / "a.txt.sam-here", "owaitsne\n")


def check_kill_terminal(folder):
    """The terminal is killed: what was typed stands beside the file."""
    (path,) = made(folder, a="one\n")
    with Session(folder, "a.txt") as session:
        session.wait_for("one")
        session.type("typed ")
        session.wait_for("typed one")
        session.wait_for_quiet()
        terminal = next(process for name, process in session.processes().items() if name.startswith("python"))
        os.kill(terminal, signal.SIGKILL)
        wait_for_text(folder / "a.txt.sam-saved", "typed one\n")
    expect(path.read_text() == "one\n", "the file itself was written")


def check_hangup(folder):
    """The user's screen is gone: the same."""
    made(folder, a="one\n")
    with Session(folder, "a.txt") as session:
        session.wait_for("one")
        session.type("typed ")
        session.wait_for("typed one")
        session.tmux("kill-session")
        wait_for_text(folder / "a.txt.sam-saved", "typed one\n")


def check_no_host(folder):
    """A host that can't begin: why is told, and no screen is drawn."""
    (folder / "wrong.bin").write_bytes(b"\xff\xfe")
    with Session(folder, "wrong.bin") as session:
        session.wait_for_end(1)
    expect("wrong.bin: it is not UTF-8" in (folder / "stderr").read_text(), "the reason is not told")


def check_wrong_words(folder):
    """No screen, one that curses doesn't know, and wrong words: why is told, and no host is run."""
    for at, (settings, words, wanted) in enumerate((
        ("TERM=nonsense", "", "samterm: .*TERM.*\n"), ("env -u TERM", "", "samterm: .*TERM.*\n"),
        ("true |", "", "samterm: .*screen.*\n"), ("", "> out", "samterm: .*screen.*\n"),
        ("", "--host \"'x\"", "samterm: --host: .*\n"), ("", "--nonsense", "usage: .*--nonsense.*\n"),
    )):  # fmt: skip
        place = folder / str(at)
        place.mkdir()
        (place / "wrong.bin").write_bytes(b"\xff\xfe")  # a host would tell of it
        with Session(place, "wrong.bin", words, settings=settings) as session:
            session.wait_for_end(2)
        told = (place / "stderr").read_text()
        is_told = re.fullmatch(wanted, told, re.DOTALL) is not None and "wrong.bin:" not in told and "Traceback" not in told
        expect(is_told, f"{settings} {words}: it tells {told!r}")
