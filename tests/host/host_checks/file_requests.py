"""Files that join a session that stays, and the names of those that might."""
import os
import re
import signal
import subprocess

import sulgrevad
from checks import GIVEN_UP, expect, wait_until

from .journals import kill, typed
from .line import Staying, pid_of, with_calls
from .support import IDLE, LATE, SAMHOST, expect_equal, made, names_of, text_of


def asked(session, kind, request, **fields):
    """What is answered to a message of the terminal, which stands in the stream before all that comes later."""
    before = len(session.messages)
    session.put_note(kind, request=request, **fields)

    def answer():
        return next((it for it in session.messages[before:] if it.request == request), None)

    session.carry(lambda: answer() is not None, f"nothing answers {kind} {fields}")
    return answer()


def asked_to_open(session, path, request):
    """What is answered where a file is to join: its tag, or why it doesn't."""
    answer = asked(session, "OPEN", request, path=os.fsencode(path))
    is_opened = answer.kind == sulgrevad.NoteKind.OPENED
    expect(is_opened or answer.kind == sulgrevad.NoteKind.REFUSED, f"it answers {answer}")
    return answer.tag if is_opened else (sulgrevad.NoteCode(answer.code).name, answer.text)


def asked_for_names(session, path, request):
    """Names that complete a path, and whether there are more."""
    answer = asked(session, "COMPLETE", request, path=os.fsencode(path))
    expect(answer.kind == sulgrevad.NoteKind.NAMES and (not answer.path or answer.path.endswith(b"\n")), f"it answers {answer}")
    return answer.path.decode().split("\n")[:-1], answer.code == sulgrevad.NoteCode.HAS_MORE


def joined(session, path, request):
    """The tag of a file that joins."""
    tag = asked_to_open(session, path, request)
    expect(isinstance(tag, int), f"it answers {tag}")
    return tag


def opened(session, tag):
    """Opens a file that has joined."""
    session.terminal.offer_version(2)
    session.settle()
    session.terminal.open(tag)
    session.settle()


def check_join_of_a_known_file(folder):
    """A file that the session has, by whatever name, gives its tag; by the name that it has now, and while it isn't there, too."""
    (path,) = made(folder, a="one\n")
    os.link(path, folder / "hard.txt")
    (folder / "soft.txt").symlink_to("a.txt")
    with Staying(folder, "a.txt", "new.txt", options=("--left",)) as session:
        tags = {"a.txt": 1, "./a.txt": 1, str(path): 1, "hard.txt": 1, "soft.txt": 1, "new.txt": 2}
        for number, (name, tag) in enumerate(tags.items(), 1):
            expect_equal(asked_to_open(session, name, number), tag, f"the answer to {name}")
        session.rename("other.txt", 2)
        expect_equal(asked_to_open(session, "other.txt", 10), 2, "the answer to its new name")
        session.leave()


def check_read_anew_and_not_put_in(folder):
    """A file has what was read anew only once its text is that: until then a write asks first, and replaces nothing."""
    (path,) = made(folder, a="one\n")
    with Staying(folder, "a.txt", options=("--left",)) as session:
        path.write_text("other\n")
        answer = asked(session, "RELOAD", 7, tag=1)
        expect_equal(answer.kind, sulgrevad.NoteKind.ANEW, f"of {answer} the kind")
        session.put_note("RELOADED", tag=1, number=answer.number)
        session.type("two\n")
        session.write()
        asks = session.of("NOT_SAVED", tag=1, code=sulgrevad.NoteCode.CHANGED_SINCE)
        expect_equal(len(asks), 1, f"how often it asks, in {session.messages}: it")
        refused = asked(session, "RELOAD", 8, tag=77)
        wanted = (sulgrevad.NoteCode.NO_SUCH_FILE, "there is no such file")
        expect_equal((refused.code, refused.text), wanted, "what it says of another tag")
        expect_equal(text_of(path), "other\n", "the file")
        session.leave()


def check_read_anew_and_not_on_the_disk(folder):
    """A text that was read anew, and that another program wrote, counts as written only once the disk has it."""
    (path,) = made(folder, a="one\n")
    with Staying(folder, "a.txt", options=("--left",)) as session:
        for fails in (True, False):
            path.write_text(f"other {fails}\n")
            answer = asked(session, "RELOAD", 7 + fails, tag=1)
            session.terminal.edit(1, 0, session.terminal.len(1), f"other {fails}\n")
            session.settle()
            session.put_note("RELOADED", tag=1, number=answer.number)
            session.settle()
            before = len(session.of("SAVED", tag=1))
            with with_calls(pid_of(folder, session.name), *(["inject=fsync:error=EIO"] if fails else ["trace=fsync"])):
                session.write()
            told = len(session.of("SAVED", tag=1)) - before, len(session.of("NOT_SAVED", tag=1, code=sulgrevad.NoteCode.FAILED))
            expect_equal(told, (0, 1) if fails else (1, 1), f"{fails}: how often it is written, and how often not, in {session.messages}: it")
        session.leave()


def check_join_refused(folder):
    """What can't be opened is refused by a code and in words, and nothing is added."""
    made(folder, a="one\n")
    (folder / "bad.txt").write_bytes(b"\xff")
    (folder / "long.txt").write_bytes(b"x" * 1000001)
    (folder / "place").mkdir()
    os.mkfifo(folder / "pipe")
    cases = {
        "bad.txt": ("NOT_TEXT", "it is not UTF-8"),
        "long.txt": ("TOO_LONG", "it is longer than 1,000,000 characters"),
        "nowhere/a.txt": ("NOT_FOUND", "there is no such folder"),
        "pipe": ("OTHER", "it is not a regular file"),
        "": ("NOT_FOUND", "there is no such folder"),
        "place": ("IS_FOLDER", "Is a directory"),
        ".": ("IS_FOLDER", "Is a directory"),
    }
    with Staying(folder, "a.txt") as session:
        for path, wanted in cases.items():
            expect_equal(asked_to_open(session, path, 1), wanted, f"the answer to {path!r}")
        session.terminal.offer_version(2)
        session.settle()
        expect_equal([session.terminal.name(tag) for tag in session.terminal.files() if tag], ["a.txt"], "the files")
        session.leave()


def check_join_asks_for_names(folder):
    """Names that complete a path come in order, folders with a slash behind them, hidden ones only where a dot asks for them."""
    made(folder, a="one\n")
    many, place = folder / "many", folder / "place"
    many.mkdir()
    place.mkdir()
    for path in (folder / "ab", folder / "b c", folder / ".hidden", place / "inner"):
        path.write_text("")
    for number in range(250):
        (many / f"{number:03}").write_text("")
    with Staying(folder, "a.txt") as session:
        for path, names in (
            ("", ["a.txt", "ab", "b c", "many/", "place/", "temporary/"]),
            ("a", ["a.txt", "ab"]),
            ("place/", ["inner"]),
            ("p", ["place/"]),
            (".", [".hidden"]),
            ("b ", ["b c"]),
            ("x", []),
            ("nowhere/", []),
            ("many/", [f"{number:03}" for number in range(200)]),
            (str(folder) + "/place/i", ["inner"]),
        ):
            expect_equal(asked_for_names(session, path, 7), (names, len(names) == 200), f"the answer to {path!r}")
        session.leave()


def check_join_of_files(folder):
    """A file that joins is opened, edited and written as any other; one that isn't there is made when it is written."""
    made(folder, a="one\n")
    (folder / "b.txt").write_text("other\n")
    with Staying(folder, "a.txt", options=("--left",)) as session:
        session.type("two\n")
        for number, (name, text) in enumerate((("b.txt", "other\n"), ("new.txt", "")), 1):
            tag = joined(session, name, number)
            opened(session, tag)
            expect_equal(session.terminal.name(tag), name, "its name")
            session.type("more\n", tag)
            session.write(tag)
            expect_equal(text_of(folder / name), text + "more\n", "the file")
            expect_equal(joined(session, name, 10), tag, "the tag at another time")
        session.leave()


def check_join_of_a_file_that_was_left(folder):
    """Of a file that joins it is told which text of it was not written: in an earlier session, or before it was closed in this one. A copy
    that is another file's in this session is none."""
    made(folder, a="one\n", b="other\n")
    (folder / "b.txt.sam-saved").write_text("newer\n")
    age = r", of \d{4}-\d\d-\d\d \d\d:\d\d:\d\d, newer than the file"
    with Staying(folder, "a.txt", options=("--left",)) as session:
        tag = joined(session, "b.txt", 1)
        wanted = "b.txt has a text that was not written: it is in b.txt.sam-saved" + age
        expect(len(session.said()) == 1 and re.fullmatch(wanted, session.said()[0]), f"it says {session.said()}")
        opened(session, tag)
        expect_equal(names_of(session), ["a.txt", "b.txt"], "the files")
        expect_equal(text_of(folder / "b.txt.sam-saved"), "newer\n", "the copy")
        session.type("two\n")
        wait_until((folder / "a.txt.sam-saved").exists, "the text is not saved", IDLE + LATE)
        session.rename("d.txt")
        joined(session, "a.txt", 2)
        expect_equal(len(session.said()), 1, f"how much it says, in {session.said()}: it")
        session.type("more\n", tag)
        session.terminal.close(tag)
        session.settle()
        joined(session, "b.txt", 3)
        told = {said.partition(" it is in ")[2].partition(",")[0] for said in session.said() if said.startswith("b.txt has a text")}
        expect_equal(told, {"b.txt.sam-saved", "b.txt.sam-saved.2"}, "the copies of which it tells")
        session.leave()


def check_join_asked_before_a_kill(folder):
    """What the terminal has asked for and was answered isn't answered again where samhost is killed."""
    with typed(folder) as session:
        expect_equal(asked_to_open(session, "a.txt", 1), 1, "the answer")
        expect_equal(asked_for_names(session, "a.t", 2), (["a.txt"], False), "the answer")
        kill(folder, session)
        session.type("three\n")
        expect_equal(asked_to_open(session, "a.txt", 3), 1, "the answer of another samhost")
        expect_equal([message.request for message in session.messages[1:]], [1, 2, 3], "what was answered")
        expect_equal(session.text(), "one\ntwo\nthree\n", "the text")
        session.leave()


def check_join_in_the_journal(folder):
    """Files that have joined are there again where samhost is killed."""
    made(folder, a="one\n")
    (folder / "b.txt").write_text("other\n")
    with Staying(folder, "a.txt") as session:
        session.type("two\n")
        tag = joined(session, "b.txt", 1)
        opened(session, tag)
        session.type("more\n", tag)
        (folder / "b.txt").write_text("another program's\n")
        kill(folder, session)
        session.type("last\n", tag)
        expect_equal((session.text(1), session.text(tag)), ("one\ntwo\n", "other\nmore\nlast\n"), "the texts")
        session.leave()


def waiting(session, *words):
    """A process that has the newest session show a file, and waits until that is closed."""
    return subprocess.Popen([SAMHOST, "--open", "--wait", *words], cwd=session.folder, env=session.environment, stderr=subprocess.DEVNULL)


def check_join_wished(folder):
    """--open has the newest session show a file; with --wait it ends once that is closed, and its status says whether it was written."""
    made(folder, a="one\n")
    with Staying(folder, "a.txt") as session:
        ended = session.run("--open", "a.txt", "+12")
        expect_equal((ended.returncode, ended.stderr), (0, ""), "what comes of --open")
        session.carry(lambda: session.of("SHOWN", tag=1, number=12), "it isn't to be shown")
        ended = session.run("--open", "nowhere/a.txt")
        wanted = (1, "samhost: nowhere/a.txt: there is no such folder\n")
        expect_equal((ended.returncode, ended.stderr), wanted, "what comes of a wrong one")
        process = waiting(session, "a.txt")
        session.carry(lambda: session.of("SHOWN", tag=1, number=0), "it isn't to be shown")
        session.type("two\n")
        session.write()
        expect(process.poll() is None, "it doesn't wait")
        session.terminal.close(1)
        session.settle()
        expect_equal(process.wait(GIVEN_UP), 0, "the status where it was written")
        session.leave()
    with Staying(folder, "a.txt") as session:
        process = waiting(session, "a.txt")
        session.carry(lambda: session.of("SHOWN", tag=1, number=0), "it isn't to be shown")
        session.type("three\n")
        session.leave()
        expect_equal(process.wait(GIVEN_UP), 5, "the status where it was not written")
    with Staying(folder, "a.txt") as session:
        process = waiting(session, "a.txt")
        session.carry(lambda: session.of("SHOWN", tag=1, number=0), "it isn't to be shown")
        session.type("four\n")
        session.terminal.close(1)
        session.settle()
        expect_equal(process.wait(GIVEN_UP), 5, "the status where it was closed and not written")
        session.leave()
        ended = session.run("--open", "a.txt")
        wanted = (7, "samhost: there is no session in which a.txt can be shown\n")
        expect_equal((ended.returncode, ended.stderr), wanted, "what comes where there is none")


def check_join_wished_of_one_that_has_ended(folder):
    """A session whose terminal has left, and may not have heard of the end, is told to have ended: nobody would see the file."""
    made(folder, a="one\n", b="other\n")
    with Staying(folder, "a.txt") as session:
        session.terminal.exit()
        session.carry(lambda: session.of("ENDED"), "it doesn't say that it ends")
        ended = session.run("--open", "--wait", "--session", session.name, "b.txt")
        expect_equal((ended.returncode, ended.stderr), (1, "samhost: b.txt: the session has ended\n"), "what comes of --open")
        session.wait_for_end(0)


def check_join_wished_of_one_that_is_stopped(folder):
    """A file that --open has told as not shown, since samhost was stopped, is not shown once that goes on."""
    made(folder, a="one\n", b="other\n")
    with Staying(folder, "a.txt") as session:
        pid, words = pid_of(folder, session.name), ("--open", "--session", session.name)
        os.kill(pid, signal.SIGSTOP)
        try:
            ended = session.run(*words, "b.txt")
        finally:
            os.kill(pid, signal.SIGCONT)
        expect_equal((ended.returncode, ended.stderr), (1, "samhost: b.txt: Connection timed out\n"), "what comes of --open")
        expect_equal(session.run(*words, "a.txt").returncode, 0, "the status of the next one")
        session.carry(lambda: session.of("SHOWN"), "it isn't to be shown")
        expect_equal([message.tag for message in session.of("SHOWN")], [1], "the files that are to be shown")
        session.leave()


def check_join_wished_in_one_of_several(folder):
    """Of several sessions --open has the newest show a file that has a terminal, else the newest; or the one that is named."""
    made(folder, a="one\n", b="two\n")
    with Staying(folder, "a.txt") as older, Staying(folder, "b.txt") as newer:

        def shown_by(*words):
            before = {each: len(each.of("SHOWN")) for each in (older, newer)}
            ended = older.run("--open", *words, "a.txt", "+7")
            expect_equal((ended.returncode, ended.stderr), (0, ""), f"what comes of {words}")

            def shown():
                for each in (older, newer):
                    if each.process is not None:
                        each.settle()
                return [each.name for each, count in before.items() if len(each.of("SHOWN")) > count]

            wait_until(shown, "no session shows it")
            return shown()

        expect_equal(shown_by(), [newer.name], "where it is shown")
        expect_equal(shown_by("--session", older.name), [older.name], "where it is shown by name")
        newer.drop()
        wait_until(lambda: " alone for " in older.run("--list").stdout, "it is not alone")
        expect_equal(shown_by(), [older.name], "where it is shown while the newest is alone")
        ended = older.run("--open", "--session", "0123456789abcdef", "a.txt")
        wanted = (7, "samhost: there is no session 0123456789abcdef in which a.txt can be shown\n")
        expect_equal((ended.returncode, ended.stderr), wanted, "what comes of a name that no session has")
        newer.type("three\n")
        expect_equal(shown_by(), [newer.name], "where it is shown once it is back")
        older.leave()
        newer.leave()
