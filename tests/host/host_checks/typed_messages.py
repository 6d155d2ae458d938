"""The typed messages of a session: what each write is answered, what is told of files, and what is no message that a host takes."""
import os
import resource
import signal

import sulgrevad
from checks import expect, wait_until
from sulgrevad import NoteCode, NoteKind

from .journals import DONE, kill, kinds_of, records_of
from .journals import SAID as NOTE
from .line import Staying, home_of, is_running, pid_of
from .support import OPEN, SAMHOST, WRITE, Session, expect_equal, made, message, on_file, run_host, text_of, typed



def asked_to_write(session, request, tag=1):
    """Writes a file, and asks for the answer by a number."""
    session.terminal.flush_now()
    session.link.put(session.terminal.take_out())
    session.put_note("WRITE", request=request, tag=tag)
    session.terminal.write(tag)
    session.settle()


def answers(session):
    """What was answered to writes, in its order: kind, tag and request."""
    kinds = NoteKind.SAVED, NoteKind.NOT_SAVED
    return [(NoteKind(it.kind).name, it.tag, it.request) for it in session.messages if it.kind in kinds]


def check_typed_answer_of_each_write(folder):
    """Each write has one answer: that of a Write which came before it, the later one of two, and else 0."""
    first, second = made(folder, a="one\n", b="other\n")
    with Staying(folder, "a.txt", "b.txt") as session:
        session.type("two\n")
        session.write()
        asked_to_write(session, 7)
        second.write_text("another program's\n")
        session.type("three\n", 2)
        asked_to_write(session, 8, 2)
        session.put_note("WRITE", request=9, tag=1)
        for request, tag in ((10, 1), (11, 2), (12, 1)):
            asked_to_write(session, request, tag)
        session.write()
        wanted = [("SAVED", 1, 0), ("SAVED", 1, 7), ("NOT_SAVED", 2, 8)]
        wanted += [("SAVED", 1, 10), ("SAVED", 2, 11), ("SAVED", 1, 12), ("SAVED", 1, 0)]
        expect_equal(answers(session), wanted, "the answers")
        (refused,) = session.of("NOT_SAVED")
        expect_equal((refused.code, refused.path, refused.copy), (NoteCode.CHANGED_SINCE, b"b.txt", b"b.txt.sam-saved"), "why, and where")
        replaced = session.of("SAVED", tag=2)[0]
        expect_equal((replaced.code, replaced.path, replaced.copy), (NoteCode.REPLACED, b"b.txt", b"b.txt.sam-theirs"), "what is replaced")
        expect_equal(text_of(folder / "b.txt.sam-theirs"), "another program's\n", "what another program had there")
        expect_equal(replaced.text, "b.txt is replaced; what another program had written there is in b.txt.sam-theirs", "its sentence")
        expect_equal([it.text for it in session.of("SAVED", tag=1)], [""] * 5, "the sentences of the others")
        session.leave()
    expect_equal((text_of(first), text_of(second)), ("one\ntwo\n", "other\nthree\n"), "the files")


def check_typed_codes_of_writes(folder):
    """Why a write failed is told by a code: there is no such folder, no name, no room, a folder, a file that came there."""
    made(folder, a="one\n", came="came\n")
    (folder / "place").mkdir()
    with Staying(folder, "a.txt") as session:
        session.type("two\n")
        cases = {"no/a": NoteCode.NOT_FOUND, "place": NoteCode.IS_FOLDER, "came.txt": NoteCode.EXISTS_ALREADY, "x\0y": NoteCode.NO_NAME}
        for number, (name, code) in enumerate(cases.items(), 1):
            session.rename(name)
            asked_to_write(session, number)
            answer = session.of("NOT_SAVED", request=number)[-1]
            path = b"" if code == NoteCode.NO_NAME else name.encode()
            expect_equal((NoteCode(answer.code).name, answer.path), (code.name, path), f"the code and the path of {name!r}")
            expect_equal(text_of(folder / os.fsdecode(answer.copy)), "one\ntwo\n", f"of {name!r} the copy")
        limits = (100, resource.RLIM_INFINITY)
        session.rename("a.txt")
        session.type("x" * 200)
        resource.prlimit(pid_of(folder, session.name), resource.RLIMIT_FSIZE, limits)
        session.terminal.write(1)
        session.carry(lambda: session.of("NOT_SAVED", code=NoteCode.NO_SPACE), "it isn't told that there is no room")
        expect_equal(session.of("NOT_SAVED", code=NoteCode.NO_SPACE)[0].copy, b"", "where its text is")
        resource.prlimit(pid_of(folder, session.name), resource.RLIMIT_FSIZE, (resource.RLIM_INFINITY, resource.RLIM_INFINITY))
        session.write()
        session.leave()


def check_typed_answers_through_kills(folder):
    """A samhost that is killed before the record of a write, behind it, or once its answer is put: the next one answers once."""
    for records_left in (0, 1, 2):
        place = folder / str(records_left)
        place.mkdir()
        (path,) = made(place, a="one\n")
        with Staying(place, "a.txt") as session:
            session.type("two\n")
            journal = home_of(place, session.name) / "journal"
            session.put_note("WRITE", request=5, tag=1)
            session.terminal.write(1)
            session.send()
            pid = pid_of(place, session.name)
            wait_until(lambda: DONE in kinds_of(journal.read_bytes()), "it isn't written")
            os.kill(pid, signal.SIGKILL)
            wait_until(lambda: not is_running(pid), "it still runs")
            data = journal.read_bytes()
            records = records_of(data)[0]
            at = next(number for number, (_, kind) in enumerate(records) if DONE in kind)
            note = next((number for number, (_, kind) in enumerate(records) if NOTE in kind and number > at), None)
            ends = [start for start, _ in records] + [records_of(data)[1]]
            if records_left == 2 and note is None:
                records_left = 1  # it was killed in between
            journal.write_bytes(data[: ends[(at, at + 1, (note or at) + 1)[records_left]]])
            session.drop()
            session.settle()
            expect_equal(answers(session), [("SAVED", 1, 5)], f"{records_left} records of it are left: the answers")
            asked_to_write(session, 6)
            expect_equal(answers(session), [("SAVED", 1, 5), ("SAVED", 1, 6)], f"{records_left} records of it are left: the answers")
            session.leave()
        expect_equal(text_of(path), "one\ntwo\n", "the file")


def check_typed_request_before_a_kill(folder):
    """A request for a write that has not come is kept where samhost is killed."""
    made(folder, a="one\n")
    with Staying(folder, "a.txt") as session:
        session.put_note("WRITE", request=5, tag=1)
        session.type("two\n")
        kill(folder, session)
        session.type("three\n")
        session.write()
        expect_equal(answers(session), [("SAVED", 1, 5)], "the answers")
        session.leave()


def check_typed_changes_of_files(folder):
    """A file that another program changes, removes, and puts back is told of by its tag: of each change once."""
    first, second = made(folder, a="one\n", b="other\n")
    with Staying(folder, "a.txt", "b.txt") as session:
        first.write_text("changed\n")
        session.carry(lambda: session.of("CHANGED", tag=1, code=NoteCode.NO_CODE, path=b"a.txt"), "it isn't told that a.txt is changed")
        second.unlink()
        session.carry(lambda: session.of("CHANGED", tag=2, code=NoteCode.NOT_FOUND, path=b"b.txt"), "it isn't told that b.txt is gone")
        session.let_pass(5)
        expect_equal(len(session.of("CHANGED")), 2, f"in {session.messages} how many changes are told")
        expect_equal(session.said(), ["a.txt: another program changed it", "b.txt: another program removed it"], "the sentences")
        second.write_text("put back\n")
        session.carry(lambda: session.of("CHANGED", tag=2, code=NoteCode.NO_CODE), "it isn't told that b.txt is there again")
        session.leave()


def check_typed_messages_that_are_none(folder):
    """Bytes that are no message, messages of the host's own, and tags that no file has, are passed over, and the session goes on."""
    made(folder, a="one\n")
    with Staying(folder, "a.txt") as session:
        whole = sulgrevad.write_note(sulgrevad.Note(NoteKind.OPEN, request=1, path=b"a.txt"))
        own = sulgrevad.write_note(sulgrevad.Note(NoteKind.SAVED, request=1, tag=1, path=b"a.txt"))
        for note in (b"", b"\0", b"\x06\0\0\0\1\0\0", b"open 1 a.txt", whole[:-1], whole + b"\0", own, b"\xff" * 4096):
            session.link.put_note(note)
        for tag in (0, 2, 65535):
            session.put_note("WRITE", request=2, tag=tag)
            session.put_note("RELOADED", tag=1, number=tag)
        session.put_note("RELOADED", tag=1, number=65536 + 1)
        session.type("two\n")
        session.write()
        expect_equal(session.messages, session.of("SESSION") + session.of("SAVED", tag=1, request=0), "what it answers")
        session.leave()


def check_typed_longest_paths(folder):
    """Names of a path that is nearly as long as a message, and a sentence of long paths, come whole or cut, and never break a message."""
    made(folder, a="one\n")
    deep = folder
    for _ in range(14):
        deep = deep / ("d" * 250)
    os.makedirs(deep)
    path = f"{str(deep.relative_to(folder))}/a.txt"
    with Staying(folder, path) as session:
        session.type("two\n")
        session.write()
        (saved,) = session.of("SAVED")
        expect_equal(saved.path, path.encode(), "the path")
        (folder / path).write_text("another program's\n")
        session.type("three\n")
        session.write()
        (refused,) = session.of("NOT_SAVED")
        wanted = (NoteCode.CHANGED_SINCE, b"", f"{path}.sam-saved".encode())
        expect_equal((refused.code, refused.path, refused.copy), wanted, "the answer, in which there is no room for the path")
        expect(refused.text.startswith("not written: ddd"), f"it says {refused.text!r}")
        session.leave()


def check_typed_over_the_standard_streams(folder):
    """A session that ends with its line tells the same by messages: what its writes came to, and that it ends, by its status."""
    (path,) = made(folder, a="one\n")
    with Session(folder, "a.txt") as session:
        session.type("two\n")
        session.write()
        session.type("three\n")
        expect_equal(session.end("exit"), 0, "the status")
        kinds = [NoteKind(it.kind).name for it in session.line.messages]
        expect_equal(kinds, ["SESSION", "SAVED", "ASIDE", "ENDED"], "the messages")
        aside = session.line.messages[2]
        expect_equal((aside.tag, aside.path, aside.copy), (1, b"a.txt", b"a.txt.sam-saved"), "where the text is")
        expect_equal(session.line.messages[3].number, 0, "the status that it tells")
        expect_equal(session.line.messages[0].path, session.line.id[:8].hex().encode(), "the name of the session")
    expect_equal(text_of(path), "one\ntwo\n", "the file")
    (folder / "a.txt.sam-saved").unlink()
    stream = message(2) + on_file(OPEN) + typed(1, 0, b"x") + on_file(WRITE)
    expect_equal(run_host(folder, [SAMHOST, "a.txt"], stream), (0, []), "status and lines where the input ends")
    expect_equal(text_of(path), "xone\ntwo\n", "the file")
