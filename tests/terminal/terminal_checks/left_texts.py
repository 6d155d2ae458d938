"""That what earlier sessions left is offered, taken and dropped."""
import hashlib
import os
import random
import signal
import time

from checks import times_longer

from .lost_lines import LINES, parent_of
from .messages import hidden
from .pairs import Pair, opened
from .support import LINK, LONG_LOAD, SAMHOST, SAMHOST_WORD, SLOW_WORD, STATE, Session, expect, host_that, made, stat_of, wait_for_text
from .support import wait_until

SECONDS_TO_SAVE = 2.5  # after a message, as long as no other comes


def open_left(session, line):
    """Opens the menu of what is left, and goes to a line of it."""
    session.keys("F9")
    session.wait_for("Left of earlier sessions")
    session.wait_for(line)


def check_left_is_taken(folder):
    """A text that the host saved, and one that was written here, takes the place of the file's by two keys, though little of either is
    loaded. `^Z` takes that back; `^W` writes it, and the old one goes."""
    old, new = "".join(LINES), "".join(["new\n", *LINES[:1000], "middle\n", *LINES[1000:]])
    for name in ("a.txt.sam-saved", "a.txt.sam-here"):
        place = folder / name
        place.mkdir()
        (path,) = made(place, a=old)
        kept = place / name
        kept.write_text(new)
        with Session(place, "a.txt", slow=20, width=140) as session:
            session.wait_for("line 10 ")
            session.wait_for("newer than the file; F9 takes it")
            session.read()
            open_left(session, "newer than the file")
            session.keys("Enter")
            session.wait_for("a.txt has that text now")
            session.wait_for_quiet()
            session.wait_for(f"of {len(new)}")
            wait_until(lambda: session.rows("a.txt")[:1] == ["new"], "the text is not shown")
            session.keys("C-z")
            session.wait_for_quiet()
            session.wait_for(f"of {len(old)}")
            session.keys("C-w")
            session.wait_for_quiet()
            expect(kept.exists(), "it is dropped though it was taken out again")
            open_left(session, "newer than the file" if name.endswith("saved") else "written here")
            session.keys("Enter")
            session.wait_for(f"of {len(new)}")
            session.wait_for_quiet()
            session.keys("C-w")
            wait_for_text(path, new)
            wait_until(lambda: not kept.exists(), "the old text stays though the file has it")
            session.leave()
        left = sorted(entry.name for entry in place.iterdir())
        expect(not any(".sam-" in name for name in left), f"there are {left}")


def check_left_is_taken_at_once(folder):
    """Over a slow line too, where the keys come as soon as there is a screen; and what is typed after them goes into the text."""
    old, new = "".join(LINES), "".join(["new\n", *LINES[:1000], "middle\n", *LINES[1000:]])
    for name in ("a.txt.sam-saved", "a.txt.sam-here"):
        place = folder / name
        place.mkdir()
        (path,) = made(place, a=old)
        (place / name).write_text(new)
        with Session(place, "a.txt", slow=LINK, width=140) as session:
            session.wait_for("| up ")
            session.keys("F9", "Enter")
            session.type("typed ")
            session.keys("C-w")
            wait_for_text(path, "typed " + new)
            wait_until(lambda: not (place / name).exists(), "the old text stays though the file has it")
            session.leave()


def check_left_is_dropped(folder):
    """One key drops what is left, once it was asked. Where it is kept, it is told again at the next start."""
    for name in ("a.txt.sam-saved", "a.txt.sam-here"):
        place = folder / name
        place.mkdir()
        made(place, a="one\n")
        kept = place / name
        kept.write_text("two\n")
        for drops in (False, True):
            with Session(place, "a.txt", width=140) as session:
                session.wait_for("one")
                session.wait_for("newer than the file; F9 takes it")
                session.read()
                open_left(session, "a.txt: ")
                session.keys("d", "d")
                session.wait_for("d again drops it")
                time.sleep(0.2)
                expect(kept.exists(), "two quick keys drop it")
                if drops:
                    session.answer("d again drops it", "d")
                    wait_until(lambda: not kept.exists(), "it stays")
                else:
                    session.keys("Escape")
                    wait_until(lambda: not session.shows("Left of earlier"), "Esc doesn't end the menu")
                session.leave()
            (place / "status").unlink()
            expect(kept.exists() != drops, f"{name}, drops: {drops}: it is there: {kept.exists()}")


def check_left_is_compared(folder):
    """A key shows the lines in which a text that is left differs from its file."""
    for name in ("a.txt.sam-saved", "a.txt.sam-here"):
        place = folder / name
        place.mkdir()
        made(place, a="".join(LINES))
        (place / name).write_text("".join([*LINES[:1200], "other\n", *LINES[1201:1600], *LINES[1601:]]))
        with Session(place, "a.txt", slow=20, width=140) as session:
            session.wait_for("newer than the file; F9 takes it")
            session.read()
            open_left(session, "a.txt: ")
            session.keys("c")
            for line in ("from line 1201 on:", "- line 1201 xx", "+ other", "from line 1601 on:", "- line 1601 xx"):
                session.wait_for(line)
            session.keys("Escape")
            wait_until(lambda: not session.shows("+ other"), "Esc doesn't end the list")
            session.leave()


def check_left_of_another_host(folder):
    """What was written here of one host's file is not offered for another's that has the same name; and for its own also from elsewhere.
    So is what an earlier release has written."""
    from terminal.files import local_backup

    (folder / "one").mkdir()
    (folder / "two").mkdir()
    os.environ["XDG_STATE_HOME"] = str(folder / STATE)
    os.chdir(folder / "one")
    local_backup.host = ("ssh", "first", "samhost")

    def left(*names):
        return list(local_backup.left(names).values())

    relative, whole = local_backup.keep("a.txt", "text"), local_backup.keep("/there/b.txt", "other")
    expect(left("a.txt", "/there/b.txt") == [[relative], [whole]], "it is not found again")
    expect(left("./c/a.txt", "/else/b.txt") == [[], []], "it is taken for another file's")
    (folder / "one" / "c.txt.sam-here").write_text("of nobody knows whom")
    expect(left("c.txt") == [["c.txt.sam-here"]], "what was not noted is not found")
    os.chdir(folder / "two")
    expect(left("a.txt", "/there/b.txt") == [[], [whole]], "it is not found from elsewhere, or another a.txt's is")
    os.chdir(folder / "one")
    local_backup.host = ("ssh", "second", "samhost")
    expect(left("a.txt", "/there/b.txt") == [[], []], "it is taken for another host's")
    local_backup.host = ("ssh", "first", "samhost")
    for path in (relative, whole):
        os.unlink(path)
    expect(left("a.txt", "/there/b.txt") == [[], []], "it is found though it is gone")
    links = list((folder / STATE / "sulgrevad").iterdir())
    expect(not links, f"there are {links}")
    words = ("ssh", "first", "samhost", "--undo", "", "/there/d.txt")  # the release 0.1 ran that command
    earlier = folder / STATE / "sulgrevad" / f"{hashlib.sha256(chr(0).join(words).encode()).hexdigest()[:16]}-d.txt.sam-here"
    earlier.write_text("earlier")
    expect(left("/there/d.txt") == [[str(earlier)]], "what an earlier release has written is not found")


def check_notes_of_a_line_that_is_lost_often(folder):
    """However often a text is written here and goes again, one note of it is left, and the text that is there last is found once."""
    from terminal.files import local_backup

    os.environ["XDG_STATE_HOME"] = str(folder / STATE)
    os.chdir(folder)
    local_backup.keep("a.txt", "of another session")
    for at in range(5):
        path = local_backup.keep("a.txt", f"text {at}")
        if at < 4:
            os.unlink(path)
    links = list((folder / STATE / "sulgrevad").iterdir())
    expect(len(links) == 2, f"there are {links}")
    found = local_backup.left(["a.txt"])["a.txt"]
    expect(sorted(found) == [str(folder.resolve() / "a.txt.sam-here"), path], f"it finds {found}")


def check_left_in_a_folder_that_is_away(folder):
    """What was written here is offered again once its folder is back, though that was away at a start in between, or was an empty one into
    which a disk is mounted. The note of a text goes only where that was removed from the folder."""
    from terminal.files import local_backup

    os.environ["XDG_STATE_HOME"], name = str(folder / STATE), "/there/a.txt"
    disk, away = folder / "disk", folder / "away"
    disk.mkdir()
    os.chdir(disk)
    path = local_backup.keep(name, "text")
    os.chdir(folder)
    for is_mounted in (False, True):
        disk.rename(away)
        if is_mounted:
            disk.mkdir()
            os.utime(disk, (0, 0))
        found = local_backup.left([name])[name]
        expect(found == [], f"its folder is away: it finds {found}")
        if is_mounted:
            disk.rmdir()
        away.rename(disk)
        found = local_backup.left([name])[name]
        expect(found == [path], f"its folder is back, mounted: {is_mounted}: it finds {found}")
    os.unlink(path)
    links = lambda: list((folder / STATE / "sulgrevad").iterdir())  # noqa: E731
    expect(links() and local_backup.left([name])[name] == [] == links(), f"it was removed: there are {links()}")


def check_text_over_what_is_left(folder):
    """Several characters that come at once over the menu of what is left go to the window, each once, also where F9 waits for the host."""
    for waits in (False, True):
        pair = Pair(random.Random(1), ("one\n", "old\n"), names=["a.txt", "~~left~~ 1 + 2026-11-30 02:00:00"])
        editor, key, text = pair.editor, pair.keys.Key, pair.keys.Text
        editor.hear(hidden(2))
        pair.finish(3)
        for each in [key("^W")] * 2 * waits + [key("F9"), text("hello")]:
            editor.take(each)
        expect((editor.typed_ahead == "hello") == waits, f"F9 waits: {waits}: {editor.deferred} wait")
        pair.finish()
        expect(pair.host.text(1) == "helloone\n" and editor.menu is None, f"F9 waits: {waits}: the text is {pair.host.text(1)!r}")


def check_leaving_is_asked_once(folder):
    """A `^Q` that was asked before the line was silent for three seconds, and answered then, leaves at once; one that was answered before
    leaves by itself after ten."""
    for answers_at in (1.0, 4.0):
        pair, editor, key, text = opened("one\n")
        editor.take(text("x"))
        pair.pause()
        editor.take(key("^Q"))
        expect("^Q again leaves" in editor.message, f"it doesn't ask: {editor.message!r}")
        pair.wait(answers_at)
        editor.take(key("^Q"))
        pair.wait(0.3)
        expect(editor.is_over == (answers_at > 3), f"answered after {answers_at} s: it is over: {editor.is_over}")
        pair.wait(10)
        expect(editor.is_over, f"answered after {answers_at} s: it doesn't leave")


def check_left_with_gaps(folder):
    """A text that was written here with gaps is taken only once that was asked."""
    (path,) = made(folder, a="one\n")
    (folder / "a.txt.sam-here").write_text("two\n[98712 characters that were not loaded]\n")
    with Session(folder, "a.txt", width=140) as session:
        session.wait_for("newer than the file; F9 takes it")
        session.read()
        open_left(session, "a.txt: ")
        session.keys("Enter")
        session.answer("it lacks 98712 characters", "Enter")
        session.wait_for("a.txt has that text now")
        session.wait_for("two")
        session.leave_unwritten()


def check_gaps_are_filled(folder):
    """What a text that was written here lacks comes from the text that the host saved, where one place fits; the user is told of it."""
    from terminal.files import local_backup

    old = "".join(LINES)
    new = "typed " + old[:1200] + "more" + old[1200:3000] + old[60_000:63_000]
    gaps = f"{new[:3010]}[57000 characters that were not loaded]{old[60_000:63_000]}"
    wanted = new[:3010] + old[3000:63_000]
    tail = f"[{len(old) - 63_000} characters that were not loaded]"
    for text, whole, filled in (
        (gaps, old[:63_000], wanted), (gaps + tail, old, wanted + old[63_000:]), (gaps + tail, old + "longer", wanted + tail),
        ("[2 characters that were not loaded]cd", "abcd", "abcd"), ("x[1 characters that were not loaded]y", "x1y x2y", None),
        ("x[1 characters that were not loaded]y", "x1y x1y", "x1y"), ("x[3 characters that were not loaded]y", "xy", None),
    ):  # fmt: skip
        got = local_backup.filled(text, whole)
        expect(got == (text if filled is None else filled), f"{text[:40]}..: it is filled as {got[:100]!r}..")
    (path,) = made(folder, a=old)
    for earlier, source in (("earlier ", "what the host saved"), ("", "the file")):
        path.write_text(old)
        if earlier:
            (folder / "a.txt.sam-saved").write_text(earlier + old)
        (folder / "a.txt.sam-here").write_text(f"late {earlier}{old[:900]}[{len(old) - 900} characters that were not loaded]")
        with Session(folder, "a.txt", slow=20, width=140) as session:
            session.wait_for("newer than the file; F9 takes it")
            session.read()
            session.read()
            open_left(session, "a.txt: ")
            session.keys(*["Down"] * bool(earlier), "Enter")
            session.answer(f"it lacks 0 characters that were not loaded; {len(old) - 900} that it lacked came from {source}", "Enter")
            session.wait_for("a.txt has that text now")
            session.wait_for_quiet()
            session.keys("C-w")
            wait_for_text(path, f"late {earlier}{old}")
            wait_until(lambda: not list(folder.glob("a.txt.sam-*")), "the old texts stay, though all of both is written")
            session.leave()
        (folder / "status").unlink()


def check_what_waited_is_taken_by_itself(folder):
    """What was typed behind a lock when the host was lost is in a file of its own, and in no text: F9 brings the text with all that it
    lacked at its end, and has `^V` paste what waited."""
    text, slow = "".join(LINES), folder / "slow"
    (path,) = made(folder, a=text)
    slow.touch()
    program = host_that(folder, f'[ ! -e {slow} ] || exec {SLOW_WORD} {LONG_LOAD} {SAMHOST_WORD} "$@"', f'exec {SAMHOST_WORD} "$@"')
    with Session(folder, "a.txt", host=program) as session:
        session.wait_for("line 10 ")
        slow.unlink()
        with session.stopped_host_at_rest() as host:
            session.type("typed ")
            session.wait_for("typed line 1 ")
            session.keys("C-d")
            session.type("waits ")
            session.wait_for("| held")
            os.kill(host, signal.SIGKILL)
        session.wait_for("the host is gone")
        session.keys("C-q")
        session.wait_for_end(3)
    told = (folder / "stderr").read_text()
    expect("what was typed for a.txt and not put in is here in" in told, f"it tells {told!r}")
    here, typed = folder / "a.txt.sam-here", folder / "typed.sam-here"
    kept = here.read_text()
    expect(kept.startswith("typed line 1 ") and kept.endswith("characters that were not loaded]"), f"it keeps {kept[-90:]!r}")
    expect(typed.read_text() == "waits ", f"what waited is {typed.read_text()!r}")
    (folder / "status").unlink()
    with Session(folder, "a.txt", host=program, width=200) as session:
        session.wait_for("what was typed and not put in is in")
        session.read()
        open_left(session, "what was typed and not put in: written here")
        session.keys("Down", "Enter")
        session.answer("it lacks 0 characters", "Enter")
        session.wait_for("a.txt has that text now")
        session.wait_for_quiet()
        session.keys("C-w")
        wait_for_text(path, f"typed {text}")
        wait_until(lambda: not here.exists(), "the old text stays, though all of it is written")
        open_left(session, "what was typed and not put in: written here")
        session.keys("Enter")
        session.wait_for("^V pastes at the caret what was typed and not put in")
        session.keys("C-v")
        session.wait_for("waits typed line 1 ")
        session.wait_for_quiet()
        session.keys("C-w")
        wait_for_text(path, f"waits typed {text}")
        open_left(session, "what was typed and not put in: written here")
        session.type("d")
        session.answer("d again drops it for good", "d")
        wait_until(lambda: not typed.exists(), "it isn't dropped")
        session.leave()


def check_file_called_typed_is_no_text_that_waited(folder):
    """A file that is called typed has copies of its own: what waited is none of them, and they are not offered as that."""
    from terminal.files import local_backup

    os.chdir(folder)
    waited, text = local_backup.keep(local_backup.TYPED, "waited"), local_backup.keep("typed", "text")
    found = local_backup.left(["typed", local_backup.TYPED])
    expect(found == {"typed": [text], local_backup.TYPED: [waited]}, f"it finds {found}")


def check_cut_is_taken(folder):
    """What was cut last in an earlier session is pasted by `^V` once it was taken."""
    (path,) = made(folder, a="one\n")
    (folder / "cut.sam-saved").write_text("earlier ")
    with Session(folder, "a.txt", width=140) as session:
        session.wait_for("what was cut last in an earlier session is in cut.sam-saved")
        session.read()
        open_left(session, "what was cut last: ")
        session.keys("Enter")
        session.wait_for("^V pastes it")
        session.wait_for_quiet()
        session.keys("C-v")
        session.wait_for("earlier one")
        session.keys("C-w")
        wait_for_text(path, "earlier one\n")
        session.leave()


def check_taken_from_a_stale_host(folder):
    """A text is taken back while the host of a dead line is still there. When that ends it saves its text once more, beside what the user
    has written and not over it."""
    (path,) = made(folder, a="one\n")
    saved = folder / "a.txt.sam-saved"
    with Session(folder, "a.txt", slow=0) as session:
        session.wait_for("one")
        session.type("typed ")
        wait_for_text(saved, "typed one\n")
        host = session.processes()[SAMHOST.name]
        line, terminal = parent_of(host), parent_of(parent_of(host))
        os.kill(line, signal.SIGSTOP)  # so that the host's input stays open
        os.kill(terminal, signal.SIGKILL)
        session.wait_for_end(128 + signal.SIGKILL)
        time.sleep(SECONDS_TO_SAVE * times_longer())  # a message that came just after the copy has the host look once more
        (folder / "next").mkdir()
        with Session(folder / "next", "../a.txt", width=140) as another:
            another.wait_for("newer than the file; F9 takes it")
            another.read()
            open_left(another, "a.txt: ")
            another.keys("Enter")
            another.wait_for("has that text now")
            another.wait_for_quiet()
            another.type("more ")
            another.keys("C-w")
            wait_for_text(path, "more typed one\n")
            wait_until(lambda: not saved.exists(), "the old text stays")
            another.leave()
        expect(stat_of(host) is not None, "this test is wrong: the host is gone")
        os.kill(line, signal.SIGKILL)
        wait_until(lambda: (stat_of(host) or "Z")[0] == "Z", "the old host doesn't end")
    texts = [copy.read_text() for copy in folder.glob("*.sam-saved*")]
    expect(texts == ["typed one\n"] and path.read_text() == "more typed one\n", f"there are {list(folder.iterdir())}")
