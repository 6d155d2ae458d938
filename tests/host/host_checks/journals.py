"""The journal of a session that stays: where its samhost is killed, another goes on from it."""
import contextlib
import hashlib
import os
import random
import re
import resource
import shutil
import signal
import struct
import subprocess
import time
from pathlib import Path

import sulgrevad
from checks import GIVEN_UP, ROOT, Skipped, expect, wait_until
from link_model import What

from .line import Staying, home_of, is_running, pid_of, with_calls
from .support import IDLE, LATE, SAMHOST, expect_equal, made, names_in, text_of

HEAD = 24  # bytes of a journal before its first record
FRONT, BACK = 24, 4  # bytes of a record before its body, and behind it
FORM_AND_SUM = (8, "dbf271726ef1da65")  # of the records, and of the code that makes and reads them
FORM_END = 1 + 8  # where form and version end in the body of the first record
START, SERVER, BEGUN, KNOWN, ENDED = 1, *range(32, 36)  # kinds of entries of a record
CUT = "cut"  # what is known of the command file: the copy of what was cut last
FILE, HELLO, UP, SAID, DONE, MARKED = ("file", "hello", "up", "said", "done", "marked")  # kinds of records of the server
SERVERS = {1: FILE, 2: HELLO, 3: UP, 4: SAID, 7: DONE, 8: MARKED}
SYNCED = "synced"  # a record that says how much is on the disk


def kill(folder, session):
    """Kills the samhost of a session; answers its number."""
    pid = pid_of(folder, session.name)
    os.kill(pid, signal.SIGKILL)
    wait_until(lambda: not is_running(pid), "it still runs")
    return pid


@contextlib.contextmanager
def typed(folder, prefix=()):
    """A session on a.txt, which has "one", into which "two" was typed. The words of `prefix` begin it."""
    made(folder, a="one\n")
    with Staying(folder, "a.txt", prefix=prefix) as session:
        session.type("two\n")
        yield session


@contextlib.contextmanager
def killed(folder):
    """The same, whose line was broken and whose samhost was killed then."""
    with typed(folder) as session:
        session.drop()
        kill(folder, session)
        yield session


def kinds_in(body):
    """The kinds of entries that a record has."""
    kinds, at = set() if body else {SYNCED}, 0
    while at < len(body):
        kind = body[at]
        kinds.add(kind)
        if kind == START:
            at += 1 + 8 + 8
            at += 8 + struct.unpack(">Q", body[at : at + 8])[0] + 16 + 16
            continue
        length = struct.unpack(">Q", body[at + 1 : at + 9])[0]
        if kind == SERVER:
            kinds.add(SERVERS.get(body[at + 9]))
        if kind == KNOWN and body[at + 9 : at + 17] == bytes(8):
            kinds.add(CUT)
        at += 9 + length
    return kinds


def records_of(journal):
    """Where the records of a journal begin, with the kinds of what they have; and where they end."""
    found, at = [], HEAD
    while at + FRONT + BACK <= len(journal):
        length = struct.unpack(">I", journal[at + 8 : at + 12])[0]
        if at + FRONT + length + BACK > len(journal):
            break
        found.append((at, kinds_in(journal[at + FRONT : at + FRONT + length])))
        at += FRONT + length + BACK
    return found, at


def with_earlier_start(journal):
    """A journal whose first record begins as those of the form 4 did: folder, mode of new files, tag of a hidden file, milliseconds that it
    stays alone, and then form and version. There are so many milliseconds that they would count as the form of today."""
    number, length, durable = struct.unpack(">QIQ", journal[HEAD : HEAD + 20])
    body = bytes(journal[HEAD + FRONT : HEAD + FRONT + length])
    (words,) = struct.unpack(">Q", body[FORM_END + 8 : FORM_END + 16])
    folder, rest = body[FORM_END : FORM_END + 16 + words], body[FORM_END + 16 + words :]
    numbers = struct.pack(">QQI", 2, FORM_AND_SUM[0] << 32, 4)
    earlier = body[:1] + folder + rest[:8] + numbers + body[5:FORM_END] + rest[16:]
    return journal[:HEAD] + spelled(journal, number, durable, earlier) + journal[HEAD + FRONT + length + BACK :]


def kinds_of(journal):
    """The kinds of all that a journal has."""
    return set().union(*(kinds for _, kinds in records_of(journal)[0]))


def durable_of(journal, at):
    """How many bytes of a journal were on the disk when the record of a place was made."""
    return struct.unpack(">Q", journal[at + 12 : at + 20])[0]


def spelled(journal, number, durable, body):
    """A record for a journal."""
    random_number = bytes(journal[12:20])
    front = struct.pack(">QIQ", number, len(body), durable)
    front += struct.pack(">I", crc(random_number + front))
    return front + body + struct.pack(">I", crc(random_number + front + body))


def with_turned(journal, at, place):
    """A journal with a bit turned in this byte of the body of the record of a place, and with the sum that is right then."""
    number, length, durable = struct.unpack(">QIQ", journal[at : at + 20])
    body = bytearray(journal[at + FRONT : at + FRONT + length])
    body[place] ^= 1
    record = spelled(journal, number, durable, bytes(body))
    return journal[:at] + record + journal[at + len(record) :]


def check_journal_goes_on(folder):
    """After kill -9 the next attempt finds all texts, names, dots and marks as they were, and goes on from the counts. The file is written
    once."""
    made(folder, a="one\n", b="other\n")
    with Staying(folder, "a.txt", "b.txt", options=("--left",)) as session:
        session.type("two\n")
        session.write()
        session.type("three\n", 2)
        session.rename("c.txt", 2)
        status = (folder / "a.txt").stat()
        pid = kill(folder, session)
        session.type("four\n")
        expect(pid_of(folder, session.name) != pid, "no other samhost has begun")
        expect_equal((folder / "a.txt").stat().st_mtime_ns, status.st_mtime_ns, "when the file was written")
        expect_equal((session.text(1), session.text(2)), ("one\ntwo\nfour\n", "other\nthree\n"), "the texts")
        expect_equal(session.terminal.name(2), "c.txt", "the name")
        session.write(1)
        session.write(2)
        expect_equal(text_of(folder / "a.txt"), "one\ntwo\nfour\n", "the file")
        expect_equal(text_of(folder / "c.txt"), "other\nthree\n", "the other file")
        expect_equal(session.said(), [], "what it says of writes")
        expect_equal([message.tag for message in session.of("SAVED")], [1, 1, 2], "the files of which it tells that they are written")
        session.leave()
        wait_until(lambda: not home_of(folder, session.name).exists(), "its folder stays")
    expect_equal([name for name in names_in(folder) if "sam" in name], [], "the copies that are left")


def name_of(pid):
    """What a process is called, with a newline behind it; None if it has ended."""
    try:
        return Path(f"/proc/{pid}/comm").read_text()
    except (FileNotFoundError, ProcessLookupError):
        return None


def children_of(pid):
    """The processes that a samhost has begun, and that have not ended."""
    children = map(int, Path(f"/proc/{pid}/task/{pid}/children").read_text().split())
    return [child for child in children if is_running(child) and name_of(child) == "samhost\n"]


def check_journal_is_read_on_without_its_relay(folder):
    """A session is made again also where who waits for that is killed meanwhile, as by a terminal that waits no longer: the next one finds
    it."""
    if shutil.which("strace") is None:
        raise Skipped("no strace")
    with killed(folder) as session:
        session.prefix = ("strace", "-D", "-f", "-qq", "-o", "/dev/null", "-e", "inject=bind:delay_enter=2000000")
        session.attach()
        (child,) = wait_until(lambda: children_of(session.process.pid), "it begins no process")
        session.drop()
        expect_equal((session.text(), pid_of(folder, session.name)), ("one\ntwo\n", child), "the text, and the process that has it")
        session.leave()


def check_journal_knows_copies(folder):
    """A copy that a killed samhost has saved is the next one's own: it is replaced, and goes once the file is written. So is what was
    cut."""
    made(folder, a="one two\n")
    with Staying(folder, "a.txt", options=("--left",)) as session:
        session.terminal.select(1, 0, 4)
        session.terminal.cut(1)
        session.settle()
        copies = ["a.txt.sam-saved", "cut.sam-saved"]
        wait_until(lambda: [name for name in names_in(folder) if "sam-" in name] == copies, "no copies are there")
        journal = home_of(folder, session.name) / "journal"
        wait_until(lambda: {KNOWN, CUT} <= kinds_of(journal.read_bytes()), "they are not in the journal")
        kill(folder, session)
        session.type("three\n")
        wait_until(lambda: text_of(folder / "a.txt.sam-saved") == "two\nthree\n", "the copy isn't replaced")
        expect_equal([name for name in names_in(folder) if "sam-" in name], copies, "the copies")
        session.terminal.paste(1)
        session.write()
        session.leave()
    expect_equal([name for name in names_in(folder) if "sam-" in name], [], "the copies at the end")


def check_journal_through_kills(folder):
    """samhost and relay are killed at random moments, many times, while the user types, cuts, writes and runs commands."""
    (path,) = made(folder, a="one\n" * 20)
    chance = random.Random(11)
    with Staying(folder, "a.txt", options=("--left",)) as session:
        for number in range(40):
            length = session.terminal.len(1)
            start, end = sorted(chance.randrange(length + 1) for _ in range(2))
            session.terminal.select(1, start, min(end, start + 20))
            what = chance.random()
            if what < 0.6:
                session.terminal.type(1, f"<{number}>" + "x" * chance.randrange(100))
            elif what < 0.7:
                session.terminal.cut(1)
            elif what < 0.8:
                session.terminal.paste(1)
            else:
                session.terminal.write(1)
            if chance.random() < 0.5:
                session.left = chance.randrange(1, 300)
            session.send()
            if chance.random() < 0.5:
                time.sleep(chance.random() * 0.01)
                kill(folder, session)
            session.settle()
        session.left = None
        session.write()
        expect_equal(text_of(path), session.text(), "the file")
        expect_equal(session.said(), [], "what it says")
        session.leave()
    copies = [name for name in names_in(folder) if "sam" in name and not name.startswith(".sam-")]  # a write that was killed leaves those
    expect_equal(copies, [], "the copies that are left")


def check_journal_of_a_close_killed_at_each_step(folder):
    """A changed text whose file is closed is saved wherever samhost is killed then, and the terminal is told where."""
    twice = [(call, number) for call in ("fdatasync", "openat", "fsync") for number in (1, 2)]
    for call, when in [*(("writev", number) for number in range(1, 5)), *twice, ("pwrite64", 1), ("link", 1), ("unlink", 1)]:
        place = folder / f"{call}{when}"
        place.mkdir()
        made(place, a="one\n", b="other\n")
        with Staying(place, "a.txt", "b.txt") as session:
            pid = pid_of(place, session.name)
            with with_calls(pid, f"inject={call}:signal=KILL:when={when}"):
                session.terminal.type(1, "two\n")
                session.terminal.close(1)
                session.settle()
            copies = [text_of(path) for path in place.glob("a.txt.sam-saved*")]
            expect(copies and set(copies) == {"two\none\n"}, f"{call} {when}: the copies have {copies}")
            expect(session.of("ASIDE", tag=1, path=b"a.txt"), f"{call} {when}: it tells {session.messages}")
            expect_equal(text_of(place / "a.txt"), "one\n", f"{call} {when}: the file")
            session.leave()


def check_journal_of_a_write_in_place_killed_in_it(folder):
    """A samhost that is killed amid a write in place: the next one says that the write may have broken off, and where what the file was is.
    The next write replaces what it has. So it is with a file whose copies don't have its name."""
    for name, kept in (("a.txt", "a.txt.sam-old"), ("cut", "cut-*.sam-old")):
        place = folder / name
        place.mkdir()
        made(place)
        path = place / name
        path.write_text("one\ntwo\n")
        os.link(path, place / "b.txt")
        with Staying(place, name) as session:
            with with_calls(pid_of(place, session.name), "inject=ftruncate:signal=KILL:when=2"):  # the first is of what the file was
                session.terminal.edit(1, 0, 8, "1\n")
                session.terminal.write(1)
                session.settle()
            expect_equal(text_of(path), "1\ne\ntwo\n", f"{name}: the file that was broken off")
            said = [said for said in session.said() if "or a write that broke off, and .sam-old beside it has what it was" in said]
            expect(len(said) == 1 and said[0].startswith(f"not written: {name}: "), f"it says {session.said()}")
            expect_equal([text_of(old) for old in place.glob(kept)], ["one\ntwo\n"], f"{name}: what the file was")
            session.write()
            expect_equal(text_of(path), "1\n", f"{name}: the file")
            session.leave()


def check_journal_torn(folder):
    """A journal that is torn at any of its last bytes goes on from its last whole record; a terminal that has more is refused by name."""
    for cut in range(1, 40):
        place = folder / str(cut)
        place.mkdir()
        made(place, a="one\n")
        with Staying(place, "a.txt") as session:
            session.type("two\n")
            session.type("three\n")
            kill(place, session)
            journal = home_of(place, session.name) / "journal"
            data = journal.read_bytes()
            records, end = records_of(data)
            expect_equal(end, len(data), "where its records end")
            journal.write_bytes(data[:-cut])
            left = [at for at, _ in records if at <= len(data) - cut][-1]  # the record that is torn begins here, or the whole one ends
            session.drop()
            session.attach()
            answer = session.refusal()
            if answer == What.WELCOME:
                session.hear(b"")
                session.abandon()
                session.type("four\n")
                expect_equal(session.text(), "one\ntwo\nthree\nfour\n", f"cut by {cut}: the text")
            else:
                expect_equal(answer, What.WRONG_COUNT, f"cut by {cut}: the answer")
            expect(left > HEAD, "this test is wrong: it cuts the head")


def check_journal_with_a_wrong_byte(folder):
    """A byte that is wrong in the last record, wherever, ends the journal before that."""
    for place in ("kind", "body", "sum"):
        room = folder / place
        room.mkdir()
        made(room, a="one\n")
        with Staying(room, "a.txt") as session:
            session.type("two\n")
            kill(room, session)
            journal = home_of(room, session.name) / "journal"
            data = bytearray(journal.read_bytes())
            last = records_of(data)[0][-1][0]
            data[{"kind": last + FRONT, "body": last + FRONT + 1, "sum": len(data) - 1}[place]] ^= 1
            journal.write_bytes(data)
            session.drop()
            session.attach()
            expect(session.refusal() in (What.WELCOME, What.WRONG_COUNT), "the answer is another")
            expect_equal(journal.read_bytes()[:last], bytes(data[:last]), f"{place}: the records before")
            expect(journal.read_bytes()[last : len(data)] != data[last:], f"{place}: the wrong record is there")


def check_journal_behind_garbage(folder):
    """Garbage behind the last record goes."""
    with typed(folder) as session:
        kill(folder, session)
        journal = home_of(folder, session.name) / "journal"
        data = journal.read_bytes()
        journal.write_bytes(data + os.urandom(100))
        session.type("three\n")
        kill(folder, session)
        expect(os.path.commonprefix([data, journal.read_bytes()]) == data, "the records that were whole are not there")
        session.type("four\n")
        expect_equal(session.text(), "one\ntwo\nthree\nfour\n", "the text")
        session.leave()


def check_journal_of_another_version(folder):
    """A journal of another version is told of, and not used; where only the library differs the texts are saved aside, else it stays."""
    for what in ("format", "first format", "records", "earlier records", "library"):
        place = folder / what
        place.mkdir()
        made(place, a="one\n")
        with Staying(place, "a.txt") as session:
            session.type("two\n")
            kill(place, session)
            journal = home_of(place, session.name) / "journal"
            data = journal.read_bytes()
            if what == "format":
                data = data[:8] + struct.pack(">I", 3) + data[12:]
            elif what == "first format":  # it had the library's version there, and records with other heads
                data = data[:8] + struct.pack(">II", 1, 256) + struct.pack(">IB", 0, 3) + bytes(4) + data[HEAD:]
            elif what == "earlier records":
                data = with_earlier_start(data)
            else:
                data = with_turned(data, HEAD, FORM_END - (1 if what == "library" else 5))
            journal.write_bytes(data)
            session.drop()
            session.attach()
            expect_equal(session.refusal(), What.NO_SESSION, "the answer")
            expect_equal(session.wait(), 7, "the status")
            said = session.process.stderr.read().decode()
            expect(f"samhost: session {session.name} can't go on: its journal is of another version" in said, f"it says {said!r}")
            if what == "library":
                expect_equal(text_of(place / "a.txt.sam-saved"), "one\ntwo\n", "the copy")
                expect("its text is in a.txt.sam-saved" in said, f"it says {said!r}")
                expect(not home_of(place, session.name).exists(), "its folder stays")
            else:
                expect_equal(journal.read_bytes(), data, "the journal")


def check_journal_that_can_t_be_looked_at(folder):
    """A journal that can't be looked at is none that isn't there: that is said, it stays, and once it can be read the session goes on."""
    if shutil.which("strace") is None:
        raise Skipped("no strace")
    with killed(folder) as session:
        journal = home_of(folder, session.name) / "journal"
        data = journal.read_bytes()
        failing = ("strace", "-f", "-qq", "-o", "/dev/null", "-e", "inject=faccessat,faccessat2,openat:error=EIO", "-P", "journal")
        for words in (("--end", session.name), ("--attach", session.name), ("--serve", session.name, "a.txt")):
            ended = subprocess.run([*failing, SAMHOST, *words], cwd=folder, env=session.environment, capture_output=True, text=True,
                                   timeout=GIVEN_UP, stdin=subprocess.DEVNULL)  # fmt: skip
            expect_equal(journal.exists() and journal.read_bytes() == data, True, f"after {ended.stderr!r} that the journal is as it was")
            expect("its journal can't be read" in ended.stderr, f"{words}: it says {ended.stderr!r}")
        session.type("three\n")
        expect_equal(session.text(), "one\ntwo\nthree\n", "the text")
        session.leave()


def check_journal_on_a_disk_with_another_number(folder):
    """A machine that begins anew may give the disk another number. The copy of a text is known again all the same: there is no second one."""
    with typed(folder) as session:
        copy = folder / "a.txt.sam-saved"
        wait_until(copy.exists, "the text is not saved", IDLE + LATE)
        journal = home_of(folder, session.name) / "journal"
        named = b"a.txt.sam-saved" + struct.pack(">Q", copy.stat().st_dev)
        wait_until(lambda: named in journal.read_bytes(), "the journal doesn't have the copy")
        session.drop()
        kill(folder, session)
        data = journal.read_bytes()
        for at, _ in records_of(data)[0]:
            place = data[at + FRONT :].find(named)
            if 0 <= place < struct.unpack(">I", data[at + 8 : at + 12])[0]:
                data = with_turned(data, at, place + len(named) - 1)
        expect(named not in data, "this test is wrong: the disk has its number still")
        journal.write_bytes(data)
        session.type("three\n")
        wait_until(lambda: text_of(copy) == "one\ntwo\nthree\n", "the copy is another's", IDLE + LATE)
        session.write()
        session.leave()
    expect_equal([name for name in names_in(folder) if "sam" in name], [], "the copies that are left")


def check_form_of_records(folder):
    """The code that decides what records say is that of the form whose number they have. Where it changes so that another samhost would read
    them otherwise, RECORDS_FORM grows; and FORM_AND_SUM in each case."""
    code = (ROOT / "editor/host/journal/journal_records.c").read_text()
    functions = re.findall(r"^(?:static )?[^\n;{}]*\b(?:add|take|record|set|pass)_\w+\([^;{}]*\)\n\{.*?^\}", code, re.MULTILINE | re.DOTALL)
    expect(len(functions) > 10, f"there are {len(functions)} functions")
    form = int(re.search(r"#define RECORDS_FORM (\d+)", (ROOT / "editor/host/journal/journal_records.h").read_text())[1])
    expect_equal((form, hashlib.sha256("\n".join(functions).encode()).hexdigest()[:16]), FORM_AND_SUM, "form and sum")


def check_journal_that_differs(folder):
    """Where the journal has another answer than samhost gives now, nothing is sent; that is told, and the texts are saved aside."""
    with typed(folder) as session:
        session.type("three\n")
        kill(folder, session)
        journal = home_of(folder, session.name) / "journal"
        data = journal.read_bytes()
        at = [at for at, _ in records_of(data)[0] if at < data.index(b"three\n")][-1]
        journal.write_bytes(with_turned(data, at, 9 + 8))  # it came over another connection
        session.drop()
        session.attach()
        expect_equal((session.refusal(), session.wait()), (What.NO_SESSION, 7), "the answer, and the status")
        said = session.process.stderr.read().decode()
        expect("its journal has records that lead nowhere" in said, f"it says {said!r}")
    expect_equal(text_of(folder / "a.txt.sam-saved"), "one\ntwo\n", "the copy")


def crc(data):
    """CRC-32C, bit by bit."""
    total = 0xFFFFFFFF
    for byte in data:
        total ^= byte
        for _ in range(8):
            total = total >> 1 ^ (0x82F63B78 if total & 1 else 0)
    return total ^ 0xFFFFFFFF


def check_journal_has_crc_32c(folder):
    """The sums are CRC-32C, whose value of "123456789" is known."""
    expect_equal(crc(b"123456789"), 0xE3069283, "the sum of the known text")
    made(folder, a="one\n")
    with Staying(folder, "a.txt") as session:
        data = (home_of(folder, session.name) / "journal").read_bytes()
        records, end = records_of(data)
        expect_equal(struct.unpack(">I", data[HEAD - 4 : HEAD])[0], crc(data[: HEAD - 4]), "the sum of the head")
        ends = [at for at, _ in records[1:]] + [end]
        for number, ((at, _), after) in enumerate(zip(records, ends)):
            record = spelled(data, number, durable_of(data, at), data[at + FRONT : after - BACK])
            expect_equal(data[at:after], record, f"the record at {at}")
            expect(durable_of(data, at) <= at, f"the record at {at} says that more was on the disk than stood before it")
        session.leave()


def check_journal_that_is_ended(folder):
    """--end and --list find a session whose samhost was killed: its texts are saved aside, and its folder goes."""
    with killed(folder) as session:
        expect("its samhost is gone" in session.run("--list").stdout, "the list doesn't have it")
        ended = session.run("--end", session.name)
        expect_equal((ended.returncode, ended.stdout), (0, ""), "what comes of --end")
        expect_equal(ended.stderr, "samhost: a.txt was not written; its text is in a.txt.sam-saved\n", "what it says")
        expect_equal(session.run("--list").stdout, "", "the list")
    expect_equal(text_of(folder / "a.txt.sam-saved"), "one\ntwo\n", "the copy")


def check_journal_where_a_write_was_not_noted(folder):
    """Killed between a write and its note in the journal, the next samhost writes again where the file is still what it was; and finds it
    written where it is."""
    if shutil.which("strace") is None:
        raise Skipped("no strace")
    for call, when in (("rename", 1), ("fsync", 1), ("unlink", 1)):
        place = folder / call
        place.mkdir()
        (path,) = made(place, a="one\n")
        with Staying(place, "a.txt") as session:
            session.type("two\n")
            pid = pid_of(place, session.name)
            words = ("strace", "-qq", "-o", "/dev/null", "-f", "-p", str(pid), "-e", f"inject={call}:signal=KILL:when={when}")
            with subprocess.Popen(words, stderr=subprocess.PIPE) as tracer:
                wait_until(lambda: "TracerPid:\t0\n" not in open(f"/proc/{pid}/status").read(), "it is not traced")
                session.terminal.write(1)
                session.type("three\n")
                session.settle()
                if is_running(pid):
                    tracer.kill()
            expect_equal(text_of(path), "one\ntwo\n", f"{call}: the file")
            session.write()
            expect_equal(text_of(path), "one\ntwo\nthree\n", f"{call}: the file at the end")
            expect_equal(session.of("NOT_SAVED"), [], f"{call}: what it says of writes")
            expect_equal(len(session.of("SAVED", tag=1)), 2, f"{call}: how often it answers two writes, in {session.messages}: it")
            session.leave()


def check_journal_answers_a_note_once(folder):
    """A journal that ends with the answer to a message, or just before it, begins a session that answers it once, and has one file of
    it."""
    opened = sulgrevad.write_note(sulgrevad.Note(sulgrevad.NoteKind.OPENED, request=1, tag=2))
    for what, has_answer in (("answered", True), ("joined", False)):
        place = folder / what
        place.mkdir()
        made(place, a="one\n", b="two\n")
        with Staying(place, "a.txt") as session:
            journal = home_of(place, session.name) / "journal"
            session.put_note("OPEN", request=1, path=b"b.txt")
            session.give()
            wait_until(lambda: opened in journal.read_bytes(), "it isn't answered")
            kill(place, session)
            data = journal.read_bytes()
            at, starts = data.index(opened), [at for at, _ in records_of(data)[0]] + [len(data)]
            before, after = max(start for start in starts if start < at), min(start for start in starts if start > at)
            journal.write_bytes(data[: after if has_answer else before])
            session.drop()
            session.terminal.offer_version(2)
            session.settle()
            expect_equal(len(session.of("OPENED", request=1, tag=2)), 1, f"{what}: how often it is told, in {session.messages}, it")
            expect_equal([session.terminal.name(tag) for tag in (1, 2)], ["a.txt", "b.txt"], f"{what}: the names")
            expect_equal(len(session.terminal.files()), 3, f"{what}: how many files there are")
            session.leave()


def check_journal_before_acknowledgements(folder):
    """What is acknowledged is in the journal, and that is on the disk, before the acknowledgement goes out."""
    if shutil.which("strace") is None:
        raise Skipped("no strace")
    with typed(folder) as session:
        pid, log = pid_of(folder, session.name), folder / "temporary" / "calls"
        words = ("strace", "-qq", "-xx", "-s", "64", "-o", log, "-p", str(pid), "-e", "trace=writev,fdatasync,sendto")
        with subprocess.Popen(words, stderr=subprocess.DEVNULL) as tracer:
            wait_until(lambda: "TracerPid:\t0\n" not in open(f"/proc/{pid}/status").read(), "it is not traced")
            session.type("three\n")
            tracer.terminate()
        forms = {
            r"writev\(\d+, \[\{iov_base=\"(\\x..){24}\\x20(\\x..){8}\\x03": "up",
            r"fdatasync\(": "on disk",
            r"sendto\(.*\\x03\\x00\\x08": "acknowledged",
        }
        calls = [name for line in log.read_text().splitlines() for form, name in forms.items() if re.match(form, line)]
        expect("up" in calls and "acknowledged" in calls, f"it takes nothing, or acknowledges nothing: {calls}")
        for at, call in enumerate(calls):
            is_there = call != "acknowledged" or calls[:at] == [] or calls[at - 1] != "up"
            expect(is_there, f"it acknowledges what is not on the disk: {calls[: at + 1]}")
        session.leave()


def check_journal_without_room_for_it(folder):
    """Where the journal can't be written the terminal is told once, and the session goes on without it."""
    with typed(folder) as session:
        journal = home_of(folder, session.name) / "journal"
        limit = journal.stat().st_size + 20
        resource.prlimit(pid_of(folder, session.name), resource.RLIMIT_FSIZE, (limit, resource.RLIM_INFINITY))
        session.type("three\n")
        session.type("four\n")
        told = [it for it in session.of("NO_JOURNAL") if it.text.startswith("the journal can't be written: File too large")]
        expect_equal(len(told), 1, f"how often it says so, in {session.messages}: it")
        expect(not journal.exists(), "a journal that lacks steps is there")
        session.drop()
        session.type("five\n")
        session.write()
        expect_equal(text_of(folder / "a.txt"), "one\ntwo\nthree\nfour\nfive\n", "the file")
        session.leave()


def check_journal_does_not_grow_with_loads(folder):
    """A text that is loaded again and again costs the journal next to nothing, and another samhost says it again just so, also the rest of a
    load that was under way."""
    text = "a line of the text\n" * 40_000
    made(folder, a=text)
    with Staying(folder, "a.txt", options=("--left",), kind=sulgrevad.Link) as session:
        journal, terminal = home_of(folder, session.name) / "journal", session.terminal
        before = journal.stat().st_size
        expect(session.text() == text, "the text is another")
        first, before = journal.stat().st_size - before, journal.stat().st_size
        expect(0 < first < len(text) // 20, f"it grows by {first:,} bytes")
        for number in range(4):
            terminal.select(1, 0, terminal.len(1))
            terminal.cut(1)
            session.settle()
            received = session.link.received
            terminal.paste(1)
            if number == 3:
                terminal.load(1, 0, len(text))
                session.carry(lambda: session.link.received - received > len(text) // 2, "it isn't loaded")
                kill(folder, session)
            session.settle()
            expect(session.text() == text, f"the text that is loaded for the {number + 2}. time is another")
        grown = journal.stat().st_size - before
        expect(grown < 4 * len(text) // 3, f"it grows by {grown:,} bytes with four pastes, of which each is loaded in 1,500 pieces")
        session.type("after\n")
        expect(session.text() == text + "after\n", "the text at the end is another")
        session.leave()


def check_journal_for_one_alone(folder):
    """Of several that find the same journal one goes on from it, and the others find that one."""
    with killed(folder) as session:
        pipe = subprocess.PIPE
        words = [SAMHOST, "--attach", session.name]
        relays = [subprocess.Popen(words, cwd=folder, env=session.environment, stdin=pipe, stdout=pipe, stderr=pipe) for _ in range(6)]
        try:
            session.type("three\n")
            pid = pid_of(folder, session.name)
            named = [it for it in map(int, filter(str.isdigit, os.listdir("/proc"))) if is_session(it, session.name)]
            expect_equal(named, [pid], "the processes that have a session")
        finally:
            for relay in relays:
                relay.kill()
                relay.communicate()
        session.leave()


def is_session(pid, name):
    """Whether a process serves this session: it has no terminal's pipes, but those words."""
    try:
        words = open(f"/proc/{pid}/cmdline", "rb").read().split(b"\0")
        return name.encode() in words and os.readlink(f"/proc/{pid}/fd/0") == "/dev/null"
    except OSError:
        return False
