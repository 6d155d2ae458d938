"""That no text is dropped: what is written here when the host is gone or can't have saved all, and what else may lose one."""
import contextlib
import errno
import functools
import os
import random
import shutil
import signal
import threading
from pathlib import Path
from unittest import mock

from .messages import aside, hidden, lost, not_saved
from .pairs import Kept, Pair, opened, with_line
from .support import LINK, SAMHOST, STATE, Session, change_two, expect, made, stat_of, wait_for_text, wait_until


# ---- A host that is lost


def check_typed_while_it_saves(folder):
    """A host that is ended by a signal saves what it has. What it has not taken by then is written here, whether it was sent or not; where
    it has taken all, nothing is."""
    for is_sent, late in ((True, ""), (False, "y"), (True, "y")):
        pair, editor, _, text = opened("a\n")
        pair.press(text("x"))
        if late:
            editor.take(text(late))
        if is_sent:
            pair.pause()
        with Kept() as kept:
            editor.hear(aside(1))
            editor.lose("the host is gone")
        kept.expect([("file0", "xya\n")] if late else [], f"typed late: {late!r}, sent: {is_sent}")


def check_begun_command_line(folder):
    """A command line that is begun is written here, and so is one that the host has not answered, and what was typed after it. One that
    it has is not."""
    rows = (
        ("$a/a long draft/", [("command", "$a/a long draft/")]),
        ("$a/b/\n", [("command", "$a/b/\n")]),
        ("$a/b/\n,d", [("typed", ",d"), ("command", "$a/b/\n")]),
        ("", []),
    )
    for typed, wanted in rows:
        pair, editor, key, text = opened("a\n")
        pair.press(key("Esc"), text("1\n"))
        for character in typed:
            editor.take(text(character))
        with Kept() as kept:
            editor.lose("the host is gone")
        kept.expect(wanted, f"after {typed!r}")


def check_begun_line_while_it_searches(folder):
    """So is one that was begun before a search, while the host's answer to that is out."""
    for begun, is_answered in (("$a/draft/", False), ("$a/" + "long " * 300, False), ("$a/draft/", True)):
        pair, editor, key, text = opened("a b\n")
        pair.press(key("Esc"), text(begun), key("Esc"), key("^S"), text("b"))
        editor.take(text("\n"))
        if is_answered:
            pair.finish()
        with Kept() as kept:
            editor.lose("the host is gone")
        kept.expect([("command", begun if is_answered else f"/b/\n{begun}")], f"{begun[:9]!r}, answered: {is_answered}")


def check_what_waits_while_the_host_is_lost(folder):
    """What was typed while the file was locked is written here, too, if the host is lost then; it stands where it was shown."""
    pair, editor, key, text = opened("one\ntwo\n")
    pair.press(text("typed "))
    for each in (key("^W"), text("more "), key("Down"), text("x")):
        editor.take(each)
    pair.settle()
    expect(pair.terminal.unsent > 0 and not editor.deferred, "this test is wrong: nothing waits")
    with Kept() as kept:
        editor.lose("the host is gone")
    expect(dict(kept.texts)["file0"] == editor.active.read(0, 100) == "typed more one\ntwox\n", f"it keeps {kept.texts}")


def check_signal_before_a_key_arrives(folder):
    """The same with a real host, which saves and ends while the last key is on the way."""
    made(folder, a="one\n")
    saved = folder / "a.txt.sam-saved"
    with Session(folder, "a.txt", slow=LINK) as session:
        session.wait_for("one")
        session.type("typed ")
        wait_for_text(saved, "typed one\n")
        host = session.processes()[SAMHOST.name]
        line = int(stat_of(host)[1])
        os.kill(line, signal.SIGSTOP)
        session.type("late ")
        session.wait_for("typed late one")
        os.kill(host, signal.SIGTERM)
        wait_until(lambda: (stat_of(host) or "Z")[0] == "Z", "the host doesn't end")
        os.kill(line, signal.SIGCONT)
        session.wait_for("the host is gone")
        session.keys("C-q")
        session.wait_for_end(3)
    expect(saved.read_text() == "typed one\n", "this test is wrong: the host got the last key")
    wait_for_text(folder / "a.txt.sam-here", "typed late one\n")


def check_lost_after_a_failed_write(folder):
    """A text that the host saved when a write failed, and then could not save again, is written here."""
    pair, editor, key, text = opened("a\n")
    pair.failing = [not_saved(1, copy="/tmp/file0.sam-saved")]
    pair.press(text("x"), key("^W"))
    for told, wanted in (((), []), ((lost(1),), [("file0", "xa\n")])):
        with Kept() as kept:
            for message in told:
                editor.hear(message)
            editor.is_lost = False
            editor.lose("the host is gone")
        kept.expect(wanted, f"after {told}")


# ---- Names


def check_texts_of_one_name(folder):
    """Files whose long paths end alike have one name in the session. Each text is written here, in a file of its own."""
    paths = [Path(tree) / ("d" * 70) / "same.txt" for tree in ("one", "two")]
    for path in paths:
        (folder / path).parent.mkdir(parents=True)
        (folder / path).write_text(f"{path.parts[0]}\n")
    with Session(folder, *map(str, paths)) as session:
        change_two(session)
        os.kill(session.processes()[SAMHOST.name], signal.SIGKILL)
        session.wait_for("the host is gone")
        session.keys("C-q")
        session.wait_for_end(3)
    texts = sorted(path.read_text() for path in folder.glob("same.txt.sam-here*"))
    expect(texts == ["xone\n", "ytwo\n"], f"the texts here are {texts}")


def named_alike(*texts):
    """A pair with files of one name, each changed."""
    pair, editor, key, text = opened(*texts)
    for window in editor.files:
        editor.go_to(window)
        pair.press(key("Esc"), text("f same\n"), key("Esc"), text("x"))
    return pair, editor, key, text


def check_line_of_one_of_two(folder):
    """What the host tells of one of two files of a name says nothing of the other, which is written here, of closed ones, too."""
    for closes in (False, True):
        pair, editor, key, text = named_alike("a\n", "b\n")
        if closes:
            for _ in range(2):
                pair.press(key("^K"), key("^K"))
            expect(not editor.tags, "this test is wrong: a file is open")
        with Kept() as kept:
            editor.hear(aside(1))
            editor.lose("the host is gone")
        kept.expect([("same", "xb\n")], f"closed: {closes}")


def check_file_called_typed(folder):
    """What waits where no file is shown is written beside a text that has the same name."""
    pair, editor, key, text = opened("a\n")
    pair.press(key("Esc"), text("f typed\n"), key("Esc"), text("x"), key("^K"), key("^K"))
    for typed in (key("^N"), text("after")):
        editor.take(typed)
    with Kept() as kept:
        editor.lose("the host is gone")
    kept.expect([("typed", "xa\n"), ("typed", "after"), ("command", "f typed\n")], "a file called typed")


def check_long_names_here(folder):
    """Of a name that is too long for a file the front is taken, in whole characters. A thousand names are tried."""
    from terminal.files import local_backup

    os.chdir(folder)
    wide = "\U0001f600" * 62
    for name in (wide, f"place/x{wide}", "x" * 64):
        path = local_backup.keep(name, f"text of {name}")
        expect(path is not None and Path(path).parent == folder.resolve(), f"{name}: it is written as {path}")
        front = Path(path).name.removesuffix(".sam-here")
        expect(len(front) > 40 and Path(name).name.startswith(front), f"{name}: it is written as {path}")
        expect(Path(path).read_text() == f"text of {name}", f"{name}: it has another text")
    for at in range(1, 1000):
        (folder / ("many.sam-here" + (f".{at}" if at > 1 else ""))).write_text("")
    path = local_backup.keep("many", "text")
    expect(path == str(folder.resolve() / "many.sam-here.1000"), f"the thousandth is written as {path}")


def check_no_own_folder(folder):
    """Without a folder of the user's own a text is written in this one; where that can't be, that is told."""
    from terminal.files import local_backup

    before, local_backup._named_folders = local_backup._named_folders, lambda: iter((str(folder / "full" / "own"),))
    (folder / "full").write_text("no folder")
    try:
        os.chdir(folder)
        path = local_backup.keep("a", "text")
        expect(path == str(folder.resolve() / "a.sam-here"), f"it is written as {path}")
        place = folder / "gone"
        place.mkdir()
        os.chdir(place)
        place.rmdir()
        expect(local_backup.keep("a", "text") is None, "it is written nowhere, and that isn't told")
    finally:
        local_backup._named_folders = before
        os.chdir(folder)


# ---- Copies of a lost line


@contextlib.contextmanager
def full(*places):
    """The disks of some folders are full meanwhile."""

    def refused(file):
        path = Path(os.readlink(f"/proc/self/fd/{file}"))
        if any(place in path.parents for place in places):
            raise OSError(errno.ENOSPC, "No space left on device")
        before(file)

    before, os.fsync = os.fsync, refused
    try:
        yield
    finally:
        os.fsync = before


def with_a_copy(folder, name):
    """An editor whose line is lost, in a folder of this name in which a copy of its text is. Answers that path, too."""
    from terminal.files import local_backup

    os.environ["XDG_STATE_HOME"] = str(folder / STATE)
    place = folder / name
    place.mkdir()
    os.chdir(place)
    local_backup.began_in = os.getcwd()
    pair, editor, key, text, line = with_line("a\n")
    editor.take(text("x"))
    pair.settle()
    line.is_broken, line.has_all = True, False
    copy_here(editor)
    copy = place.resolve() / "file0.sam-here"
    wait_for_text(copy, "xa\n")
    editor.take(text("y"))
    pair.settle()
    return pair, editor, copy


def wait_for_copies(editor):
    """Waits until the copies are written, or gone."""
    wait_until(lambda: not editor.keeping._copies.is_writing, "the copies are never written")


def copy_here(editor):
    """Has the copies be written, as is done every ten seconds."""
    editor.keeping.write_here()
    wait_for_copies(editor)


@contextlib.contextmanager
def hanging(place, pipe):
    """The disk of a folder answers nothing meanwhile: what writes or removes a copy there waits. Answers what held up this process."""
    from terminal.files import local_backup

    os.mkfifo(pipe)
    process, held_up, before = os.getpid(), [], {name: getattr(local_backup, name) for name in ("write_again", "remove")}

    def hung(name, path, *words):
        if Path(path).parent == place and os.getpid() == process and threading.current_thread() is threading.main_thread():
            held_up.append(name)
        elif Path(path).parent == place:
            os.close(os.open(pipe, os.O_RDONLY))  # which waits for a writer
        return before[name](path, *words)

    for name in before:
        setattr(local_backup, name, functools.partial(hung, name))
    try:
        yield held_up
    finally:
        vars(local_backup).update(before)
        os.open(pipe, os.O_RDWR)  # all that waits goes on


def elsewhere(folder):
    """The texts in the user's own folder."""
    return [path.read_text() for path in (folder / STATE / "sulgrevad").iterdir() if path.is_file() and not path.is_symlink()]


def check_copy_whose_folder_takes_nothing(folder):
    """A copy that was made while the line was lost is renewed elsewhere where its disk is full by then, or its folder is away: while the
    line is lost, and at the end. The old one goes, and the new one is offered where its session began."""
    from terminal.files import local_backup

    for at_end, is_away in ((False, False), (True, False), (False, True), (True, True)):
        place = folder / f"{at_end}{is_away}"
        place.mkdir()
        told = f"at the end: {at_end}, away: {is_away}"
        pair, editor, copy = with_a_copy(place, "here")
        if is_away:
            shutil.rmtree(copy.parent)
        with full(copy.parent):
            if not at_end:
                copy_here(editor)
                expect(elsewhere(place) == ["xya\n"], f"{told}: elsewhere are {elsewhere(place)}")
            lines = editor.keeping.keep_here(False)
        expect(elsewhere(place) == ["xya\n"] and not copy.exists(), f"{told}: {elsewhere(place)}, the old one: {copy.exists()}")
        (kept,) = [path for path in (place / STATE / "sulgrevad").iterdir() if path.is_file()]
        expect(lines == [f"what is loaded of file0 is here in {kept}"], f"{told}: it tells {lines}")
        copy.parent.mkdir(exist_ok=True)
        os.chdir(copy.parent)
        found = local_backup.left(["file0"])
        expect(found == {"file0": [str(kept)]}, f"{told}: once its folder is back it is offered {found}")
        expect(not editor.keeping.is_hopeless, f"{told}: the status says that a text is lost")


def expect_no_key_waits(pair, held_up, told):
    """Keys show at once, and what is written or removed meanwhile hangs."""
    before = pair.editor.focus.length
    for rune in "zz":
        pair.editor.take(pair.keys.Text(rune))
        pair.settle()
    expect(pair.editor.focus.length == before + 2 and not held_up, f"{told}: keys wait for {held_up}")


def check_folder_that_hangs(folder):
    """Where the disk of a copy doesn't answer, no key waits for it, neither as the copy is renewed, nor as it goes, since the line is back;
    and after some seconds the text is written elsewhere. All of it goes once the disk answers."""
    from terminal.files import backup_process

    pair, editor, copy = with_a_copy(folder, "here")
    line, copies = editor.way.line, editor.keeping._copies
    with mock.patch.object(backup_process, "LONGEST", 3.0):
        with hanging(copy.parent, folder / "renewed") as held_up:
            for text in ("xya\n", "xyzza\n"):
                editor.keeping.write_here()
                if not elsewhere(folder):
                    expect_no_key_waits(pair, held_up, "it is renewed")
                wait_for_copies(editor)
                expect(elsewhere(folder) == [text] and copy.read_text() == "xa\n", f"elsewhere are {elsewhere(folder)}, wanted {text!r}")
        line.is_broken, line.has_all = False, True
        with hanging(copy.parent, folder / "gone") as held_up:
            pair.finish()
            expect_no_key_waits(pair, held_up, "the line is back")
            wait_for_copies(editor)
            expect(elsewhere(folder) == [] and copy.exists(), f"elsewhere are {elsewhere(folder)}, here is one: {copy.exists()}")
    copies.drop()
    wait_for_copies(editor)
    expect(not copy.exists(), "it stays though its disk answers")


def check_folder_that_hangs_at_the_end(folder):
    """Where the disk of a copy doesn't answer as the host is lost, the text is written elsewhere after some seconds, also where it was just
    to be renewed."""
    from terminal.files import backup_process

    for is_renewed in (False, True):
        place = folder / str(is_renewed)
        place.mkdir()
        pair, editor, copy = with_a_copy(place, "here")
        with mock.patch.object(backup_process, "LONGEST", 5.0), hanging(copy.parent, place / "pipe") as held_up:
            if is_renewed:
                editor.keeping.write_here()
            editor.lose("the host is gone")
            expect(not held_up, f"renewed: {is_renewed}: it waits for {held_up}")
            (kept,) = [path for path in (place / STATE / "sulgrevad").iterdir() if not path.is_symlink()]
            told = editor.kept_here
        wait_until(lambda: threading.active_count() == 1, "it hangs still")
        expect(kept.read_text() == "xya\n", f"renewed: {is_renewed}: it keeps {kept.read_text()!r}")
        expect(told == [f"what is loaded of file0 is here in {kept}"], f"renewed: {is_renewed}: it tells {told}")


def check_copy_of_a_renamed_file(folder):
    """A command line names the file anew while the host lacks some of its text: the copy goes on under that name. The one before stays
    until that is written, and no longer."""
    for has_room in (True, False):
        pair, editor, copy = with_a_copy(folder, f"room{has_room}")
        line = editor.way.line
        line.is_broken = False
        for each in (pair.keys.Key("Esc"), pair.keys.Text("f other\n"), pair.keys.Key("Esc")):
            pair.press(each)
        expect(editor.name(1) == "other", "this test is wrong: the file has its old name")
        line.is_broken = True
        with contextlib.nullcontext() if has_room else full(Path("/")):
            copy_here(editor)
            editor.lose("the host is gone")
        there = {path.name: path.read_text() for path in copy.parent.iterdir()}
        wanted = {"other.sam-here": "xya\n", "command.sam-here": "f other\n"} if has_room else {copy.name: "xa\n"}
        expect({**there, "command.sam-here": ""} == {**wanted, "command.sam-here": ""}, f"room: {has_room}: there are {there}")


def check_copy_that_nothing_replaces(folder):
    """Where no disk has room at the end the copy of some seconds before stays, and is told; once one has, the last text takes its place."""
    pair, editor, copy = with_a_copy(folder, "here")
    with full(Path("/")):
        copy_here(editor)
        expect(copy.read_text() == "xa\n", "the old copy is gone")
        editor.lose("the host is gone")
    lines = [line for _, line in editor.notes.unread]
    expect(any("is lost" in line and f"; {copy} has it as it was before" in line for line in lines), f"it tells {lines}")
    expect(copy.read_text() == "xa\n", "the old copy is gone")
    expect(editor.keeping.keep_again(editor.kept_here) == [f"what is loaded of file0 is here in {copy}"], f"it tells {editor.kept_here}")
    expect([path.name for path in copy.parent.iterdir()] == [copy.name] and copy.read_text() == "xya\n", f"it has {copy.read_text()!r}")


def check_copy_of_an_unreadable_text(folder):
    """The same where the text can't be read at the end."""

    def broken(*_):
        raise MemoryError("no room")

    pair, editor, copy = with_a_copy(folder, "here")
    pair.terminal.runes = broken
    editor.lose("the host is gone")
    del pair.terminal.runes
    wanted = f"what is loaded of file0 is lost: no room; {copy} has it as it was before"
    expect(editor.kept_here == [wanted] and copy.read_text() == "xa\n", f"it tells {editor.kept_here}; the copy is there: {copy.exists()}")
    expect(editor.keeping.keep_again(editor.kept_here) == [f"what is loaded of file0 is here in {copy}"], "it isn't tried again")
    expect([path.name for path in copy.parent.iterdir()] == [copy.name] and copy.read_text() == "xya\n", f"it has {copy.read_text()!r}")


def check_copies_of_what_is_in_no_open_text(folder):
    """While the line is lost a text that was closed unwritten is kept until the host has it, and what was typed into each file and waits
    until it is put in: then it is in that file's copy, and in no other."""
    at_home(folder)
    pair, editor, key, text, line = with_line("a\n", "b\n", "c\n")

    def kept(is_broken):
        line.is_broken, line.has_all = is_broken, not is_broken
        if is_broken:
            copy_here(editor)
        else:
            pair.finish()
            wait_for_copies(editor)
        return {path.name: path.read_text() for path in folder.glob("*.sam-here*")}

    pair.press(text("z"), key("^K"), key("^K"))
    expect(editor.tags == [1, 2], f"this test is wrong: the files are {editor.tags}")
    for window, typed in zip(editor.files, ("first", "second")):
        editor.go_to(window)
        pair.terminal.look(window.tag)
        editor.take(text(typed))
    there = kept(True)
    typed = [there.pop(name, None) for name in ("typed.sam-here", "typed.sam-here.2")]
    expect(there == {"file2.sam-here": "zc\n"} and sorted(map(str, typed)) == ["first", "second"], f"there are {there}, {typed}")
    editor.hear(aside(3))
    expect(kept(False) == {}, "what the host has stays")
    expect(not editor.deferred, "this test is wrong: what was typed waits")
    expect(kept(True) == {f"file{at}.sam-here": pair.host.text(at + 1) for at in range(2)}, f"there are {kept(True)}")
    pair.terminal.look(1)
    editor.go_to(editor.files[0])
    editor.take(text("third"))
    expect(kept(True).get("typed.sam-here") == "third", f"there are {kept(True)}")
    line.is_broken = False
    pair.finish()
    there = kept(True)
    expect("typed.sam-here" not in there and "third" in there["file0.sam-here"], f"there are {there}")


def killed_amid(write):
    """Writes a copy in a process that is killed before its text is on the disk."""
    process = os.fork()
    if process == 0:
        os.fsync = lambda file: os._exit(1)
        write()
        os._exit(0)
    _, status = os.waitpid(process, 0)
    expect(os.waitstatus_to_exitcode(status) == 1, "this test is wrong: it brings nothing to the disk")


def check_kill_amid_a_copy(folder):
    """Of a copy that is not on the disk yet, as where samterm is killed or the power fails amid it, nothing is offered; after a day nothing
    is left."""
    from terminal.files import local_backup

    at_home(folder)
    killed_amid(lambda: local_backup.keep("file0", "text"))
    for is_old in (False, True):
        _, editor, *_ = opened("a\n")
        expect(not editor.left.all, f"it offers {[Path(old.path).read_text() for old in editor.left.all]}")
        left = sorted(path.name for path in folder.glob("*.sam-here*"))
        expect(left == ([] if is_old else ["file0.sam-here", "file0.sam-here.new"]), f"old: {is_old}, there are {left}")
        for name in left:
            os.utime(folder / name, (0, 0))
    with mock.patch.object(os, "fsync", side_effect=lambda file: brought.append(os.readlink(f"/proc/self/fd/{file}"))):
        brought = []
        local_backup.keep("file0", "text")
    expect(brought[-1:] == [str(folder.resolve())], f"its name is not brought to the disk: {brought}")


def check_kill_amid_a_renewal(folder):
    """Of a copy that is renewed as samterm is killed the old text stays, and nothing else once it is renewed again, or removed."""
    from terminal.files import local_backup

    at_home(folder)
    path = local_backup.keep("file0", "old")
    for ends, wanted in ((lambda: local_backup.renew("file0", path, "new"), ["new"]), (lambda: local_backup.remove(path), [])):
        before = local_backup.read(path)
        killed_amid(lambda: local_backup.renew("file0", path, "broken off"))
        expect(local_backup.read(path) == before, f"it has {local_backup.read(path)!r}, wanted {before!r}")
        ends()
        texts = [path.read_text() for path in folder.glob("*.sam-here*")]
        expect(texts == wanted, f"there are {texts}, wanted {wanted}")


def check_copy_of_an_emptied_text(folder):
    """A text that was emptied while the line was lost is offered as any other."""
    pair, editor, copy = with_a_copy(folder, "here")
    for name in ("^A", "Backspace"):
        editor.take(pair.keys.Key(name))
    copy_here(editor)
    expect(copy.read_text() == "", f"the copy has {copy.read_text()!r}")
    pair, editor, key, text = opened("a\n")
    pair.press(key("F9"), text("\n"))
    expect(pair.host.text(1) == "", f"F9 takes {pair.host.text(1)!r}: {editor.message}")


# ---- One text of several, and text that comes back


def check_fault_in_one_text(folder):
    """Where one text can't be read, the others are written here, with what was typed; also what was dropped with open eyes."""
    pair, editor, key, text = opened("a\n", "b\n", "c\n", "d\n")
    for window in editor.files:
        editor.go_to(window)
        pair.press(text("x"))
    pair.press(key("^K"), key("^K"))
    editor.go_to(editor.files[1])
    pair.terminal.look(2)
    editor.take(text("waits"))
    read = pair.terminal.runes

    def broken(tag, *words):
        if tag == 2:
            raise MemoryError("no room")
        return read(tag, *words)

    pair.terminal.runes = broken
    with Kept() as kept:
        editor.lose("the host is gone")
    kept.expect([("file0", "xa\n"), ("file2", "xc\n"), ("file3", "xd\n"), ("typed", "waits")], "a fault in file1")
    lines = [line for _, line in editor.notes.unread]
    expect(any("what is loaded of file1 is lost: no room" in line for line in lines), f"it tells {lines}")
    expect(editor.keeping.is_hopeless, "the status doesn't say that a text is lost")


def check_given_back_without_memory(folder):
    """What was typed comes back, since the host left no room for it. Where it can't be pasted, as memory is out, a file here has it."""
    from sulgrevad import Dropped, NoMemory, Status

    def short(*words):
        raise NoMemory(Status.NO_MEMORY)

    pair, editor, key, text = opened("one\n")
    pair.terminal.set_snarf = short
    with Kept() as kept:
        pair.terminal.give_back(Dropped(1, 0, 5, "typed"))
    kept.expect([("typed", "typed")], f"it tells {editor.message!r}")


def check_given_back(folder):
    """What was typed and comes back is what `^V` pastes. Until it is pasted nothing else that comes back takes its place, and it is written
    here where the host is lost. So it is with a text that is longer than the host takes for that."""
    from sulgrevad import Dropped

    for given in ("typed", "long " * 8_000):
        for pastes in (False, True):
            pair, editor, key, text = opened("one\n")
            with Kept() as kept:
                pair.terminal.give_back(Dropped(1, 0, len(given), given))
                pair.finish()
                expect("^V has what you typed" in editor.message, f"{len(given)} characters: it tells {editor.message!r}")
                if pastes:
                    pair.press(key("Left"), key("^V"))
                pair.terminal.give_back(Dropped(1, 0, 5, "later"))
                pair.finish()
                editor.lose("the host is gone")
            in_text = [("file0", f"{given}one\n")] if pastes else []
            others = [("cut", "later")] if pastes else [("typed", "later"), ("cut", given)]
            kept.expect([*in_text, *others], f"{len(given)} characters, pasted: {pastes}")


def check_an_old_text_without_room(folder):
    """A text that an earlier session left, and that has no room in its file while the host works on that, is not taken; a write drops it
    then as little as before."""
    pair = Pair(random.Random(1), ("a" * 600_000, "b" * 600_000), names=["a.txt", "~~left~~ 1 + 2026-11-30 02:00:00"])
    editor, key, text = pair.editor, pair.keys.Key, pair.keys.Text
    editor.hear(hidden(2))
    pair.finish(3)
    pair.terminal.open(2)
    pair.finish(3)
    for tag in (1, 2):
        pair.terminal.load(tag, 0, 600_000)
        pair.finish(3)
    pair.press(text("x"))
    pair.terminal.write(1)
    (old,) = editor.left.tags.values()
    editor.left.take(old)
    expect("more than 1,000,000" in editor.message, f"it tells {editor.message!r}")
    pair.press(key("^W"), key("^W"))
    expect(pair.host.text(1) == "x" + "a" * 600_000, "the file has another text")
    expect(pair.host.text(2) == "b" * 600_000 and editor.left.all == [old], f"what is left is {editor.left.all}")


# ---- What the next session offers


def at_home(folder):
    """Has what is written here stand in a folder."""
    os.environ["XDG_STATE_HOME"] = str(folder / STATE)
    os.chdir(folder)


def choose(pair, words):
    """Goes to an entry of the menu of F9."""
    for _ in pair.editor.left.all:
        if not any(is_chosen and line.startswith(words) for line, is_chosen in pair.editor.menu.lines(9)):
            pair.press(pair.keys.Key("Down"))


def check_what_is_no_files_is_offered(folder):
    """What is no file's is named by the next session, also where nobody told its user: the text of a file without a name, what was typed,
    cut or begun while the line was lost. F9 has `^V` paste it. What is empty by then is none."""
    from terminal.files import local_backup

    at_home(folder)
    pair, editor, key, text, line = with_line("a\n")
    pair.press(key("^N"), text("draft cut"), key("Shift-^Left"), key("^X"), key("Esc"), text("1,2d"))
    line.is_broken, line.has_all = True, False
    copy_here(editor)
    local_backup.keep(local_backup.TYPED, "")
    pair, editor, key, text = opened("b\n")
    told = {line.partition(" is in ")[0] for _, line in editor.notes.unread}
    wanted = {"the text of a file without a name", "what was cut and not pasted", "a command line that was begun"}
    expect(told == wanted, f"it tells {told}")
    for words in told:
        pair.press(key("F9"))
        choose(pair, words)
        pair.press(text("\n"), key("^V"))
    pasted = pair.host.text(1)
    expect(all(each in pasted for each in ("draft ", "cut", "1,2d")) and len(pasted) == 15, f"it pastes {pasted!r}")


def check_left_of_a_file_that_joins(folder):
    """Of a file that is opened later it is told, too, that a text of it was written here; and of several texts F9 has the newest first."""
    from terminal.files import local_backup

    at_home(folder)
    for at, kept in enumerate(("older", "newest", "old")):
        os.utime(local_backup.keep("other", kept), (0, (1, 3, 2)[at] * 1_000_000))
    pair, editor, key, text = opened("one\n")
    expect(not editor.left.all, f"this test is wrong: there are {editor.left.all}")
    pair.host.add_file("other", "two\n")
    pair.terminal.offer_version(2)
    pair.finish()
    pair.press(key("^O"), text("other"), text("\n"))
    lines = [line for _, line in editor.notes.unread]
    expect(any(line.startswith("of other a text was written here") for line in lines), f"it tells {lines}")
    pair.press(key("F9"), text("\n"))
    expect(pair.host.text(2) == "newest", f"F9 takes {pair.host.text(2)!r}")


def check_newer_text_of_the_host_stays(folder):
    """A text that was written here, whose gap is filled from what the host saved, is dropped with that once it is written; but one of the
    host stays that is newer, as another terminal may have gone on with it."""
    from terminal.files import local_backup

    at_home(folder)
    first, last = "x" * 100, "y" * 100
    for when, stays in (("2020-01-01 00:00:00", False), ("2999-01-01 00:00:00", True)):
        path = Path(local_backup.keep("a.txt", f"late {first}[3 characters that were not loaded]{last}"))
        whole = f"{first}abc{last}"
        pair = Pair(random.Random(1), (whole, whole), names=["a.txt", f"~~left~~ 1 + {when}"])
        editor, key, text = pair.editor, pair.keys.Key, pair.keys.Text
        editor.arrange(60, 200)
        editor.hear(hidden(2))
        pair.finish(3)
        pair.press(key("F9"))
        choose(pair, "a.txt: written here")
        pair.press(text("\n"), text("\n"), key("^W"))
        expect(pair.host.text(1) == f"late {whole}" and not path.exists(), f"{when}: {editor.message!r}, {pair.host.text(1)[:9]!r}")
        expect((2 in editor.left.tags) == stays, f"{when}: F9 has {editor.left.all}")
        if stays:
            expect(pair.host.text(2) == whole, f"{when}: the host has {pair.host.text(2)[:9]!r}")


def check_left_of_a_file_that_is_opened_again(folder):
    """A text that was written here is taken into its file, too, once that was closed and is opened again."""
    from terminal.files import local_backup

    at_home(folder)
    local_backup.keep("file1", "older")
    pair, editor, key, text = opened("one\n", "two\n")
    pair.press(key("^K"))
    expect(editor.tags == [1] and len(editor.left.all) == 1, f"this test is wrong: {editor.tags}, {editor.left.all}")
    pair.host.add_file("file1", "two\n")
    pair.terminal.offer_version(2)
    pair.finish()
    pair.press(key("^O"), text("file1"), text("\n"), key("F9"), text("\n"))
    expect(pair.host.text(3) == "older", f"F9 takes {pair.host.text(3)!r}: {editor.message}")
