"""Files of a session that are none of the user's: who is told of them, and who gets them."""
from checks import expect, wait_until
from sulgrevad import NoteKind

from .journals import BEGUN, HELLO, kill, kinds_of, records_of
from .line import Staying, home_of
from .support import expect_equal, made, names_in


def hidden(session):
    """The names of the files that the terminal is told to be hidden."""
    return [session.terminal.name(note.number) for note in session.of("ANEW")]


def check_hidden_files_are_told(folder):
    """The terminal is told which files are hidden, also where samhost was killed before it had a terminal. They are in no list, are saved
    nowhere, and nobody gets them who takes the session over."""
    made(folder, a="one\n")
    (folder / "a.txt.sam-saved").write_text("left\n")
    with Staying(folder, "a.txt", options=("--left",), begin=False) as session:
        lock = home_of(folder, session.name) / "lock"
        wait_until(lambda: lock.exists() and lock.read_text(), "it doesn't begin")
        kill(folder, session)
        session.drop()
        session.begin()
        names = [session.terminal.name(tag) for tag in session.terminal.files()]
        expect_equal(names[:2], ["~~sam~~", "a.txt"], "the first names")
        expect_equal((hidden(session), len(names)), (names[2:], 3), "the hidden files, and the number of all")
        listed = session.run("--list").stdout
        expect(" 0 not written  a.txt, in " in listed, f"the list has {listed!r}")
        (left,) = (note.number for note in session.of("ANEW"))
        session.terminal.open(left)
        session.settle()
        session.type("typed\n", left)
        listed = session.run("--list").stdout
        expect(" 0 not written  a.txt, in " in listed, f"once one is changed the list has {listed!r}")
        session.drop()
        with Staying(folder, takes=session.name) as new:
            names = [new.terminal.name(tag) for tag in new.terminal.files()]
            expect_equal((names, hidden(new)), (["~~sam~~", "a.txt"], []), "names for the new one, and hidden ones")
            new.leave()
    expect_equal([name for name in names_in(folder) if "sam" in name], ["a.txt.sam-saved"], "the copies")


def check_first_messages_through_a_kill(folder):
    """A samhost that is killed once its journal has the first connection, and before it has said a word: the next one says all that a
    terminal has to know."""
    made(folder, a="one\n")
    (folder / "a.txt.sam-saved").write_text("left\n")
    with Staying(folder, "a.txt", options=("--left",), begin=False) as session:
        journal = home_of(folder, session.name) / "journal"
        session.give()
        wait_until(lambda: journal.exists() and HELLO in kinds_of(journal.read_bytes()), "it hears no hello")
        kill(folder, session)
        data = journal.read_bytes()
        records, end = records_of(data)
        at = next(number for number, (_, kind) in enumerate(records) if BEGUN in kind)
        journal.write_bytes(data[: ([start for start, _ in records] + [end])[at + 1]])
        session.drop()
        session.begin()
        said = session.messages[0].kind, len(session.of("SESSION")), [note.number for note in session.of("ANEW")]
        expect_equal(said, (NoteKind.SESSION, 1, [2]), "the kind of the first message, how many are of it, and the hidden files")
        session.leave()


def check_hidden_file_that_is_read_anew(folder):
    """What is read anew is told of by its answer, and is written nowhere."""
    made(folder, a="one\n")
    with Staying(folder, "a.txt") as session:
        session.put_note("RELOAD", request=3, tag=1)
        session.carry(lambda: session.of("ANEW", request=3), "it isn't read anew")
        session.terminal.offer_version(2)
        session.settle()
        (anew,) = (note.number for note in session.of("ANEW"))
        session.terminal.open(anew)
        session.settle()
        session.type("typed\n", anew)
        session.write(anew)
        session.leave()
    expect_equal([name for name in names_in(folder) if name != "temporary"], ["a.txt"], "the files")
