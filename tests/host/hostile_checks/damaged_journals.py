"""Journals that a disk has damaged: nothing goes unsaid, and nothing is removed or cut without a copy."""
import os
import shutil
import struct
import subprocess

from checks import GIVEN_UP, Skipped, expect, times_slower, wait_until
from host_checks.journals import BACK, BEGUN, DONE, FRONT, HEAD, SYNCED, crc, durable_of, kill, records_of, spelled, typed
from host_checks.line import Staying, home_of
from host_checks.power import seconds_of_children
from host_checks.support import SAMHOST, expect_equal, made, names_in, text_of
from link_model import What

MOST_SECONDS = 3.0  # of the processor, for a journal that claims much


class Killed:
    """A session whose samhost was killed, some texts of which stand nowhere but in its journal."""

    def __init__(self, folder):
        self.folder = folder
        made(folder, a="one\n")
        with Staying(folder, "a.txt") as session:
            self.name, self.environment = session.name, session.environment
            for number in range(6):
                session.type(f"{number}\n")
            kill(folder, session)
            self.home = home_of(folder, session.name)
            self.files = {path.name: path.read_bytes() for path in self.home.iterdir() if path.is_file()}
        self.journal = self.files["journal"]
        records, end = records_of(self.journal)
        self.records = [(at, kind, after) for (at, kind), (after, _) in zip(records, [*records[1:], (end, 0)])]
        self.synced = max(at for at, kind, _ in self.records if SYNCED in kind)  # before this all was on the disk

    def restore(self, journal):
        shutil.rmtree(self.home, ignore_errors=True)
        self.home.mkdir(mode=0o700)
        for name, data in {**self.files, "journal": journal}.items():
            (self.home / name).write_bytes(data)
        for path in self.folder.glob("*.sam-*"):
            path.unlink()

    def flipped(self, at):
        return self.journal[:at] + bytes([self.journal[at] ^ 0x10]) + self.journal[at + 1 :]

    def run(self, *words, prefix=()):
        return subprocess.run(
            [*prefix, SAMHOST, *words], cwd=self.folder, env=self.environment, input=b"", capture_output=True, timeout=GIVEN_UP
        )


def check_damaged_in_the_front_or_the_middle(folder):
    """One wrong bit, wherever it is in what was on the disk: --end says so, its status is not 0, the journal stays beside as journal.wrong,
    and what is known is saved aside."""
    killed = Killed(folder)
    begun = next(after for _, kind, after in killed.records if BEGUN in kind)
    saved = set()
    for at, _, after in killed.records:
        if at >= killed.synced:
            break
        for place in (at + 2, at + 4, (at + after) // 2, after - 1):
            journal = killed.flipped(place)
            killed.restore(journal)
            ended = killed.run("--end", killed.name)
            said, copy = ended.stderr.decode(), text_of(folder / "a.txt.sam-saved")
            expect_equal(ended.returncode, 1, f"byte {place}: after {said!r} the status")
            expect("its journal is damaged" in said and str(killed.home / "journal.wrong") in said, f"byte {place}: it says {said!r}")
            expect_equal((killed.home / "journal.wrong").read_bytes(), journal, f"byte {place}: the journal that is kept")
            expect(not (killed.home / "journal").exists(), f"byte {place}: the session goes on")
            expect(at >= begun or copy is None, f"byte {place}: what is saved of a session that has no begin is {copy!r}")
            expect(copy is None or f"its text is in {copy and 'a.txt.sam-saved'}" in said, f"byte {place}: it says {said!r}")
            saved.add(copy)
    wanted = {"one\n" + "".join(f"{number}\n" for number in range(count)) for count in range(1, 7)}
    expect(wanted - saved <= {max(wanted, key=len)} and saved - wanted <= {None, "one\n"}, f"the texts that were saved are {saved}")


def check_damaged_says_it_to_terminals(folder):
    """--attach and --take of such a session refuse the terminal, say why, and keep the journal; --list and --end have it still. A second
    one stays where it is."""
    killed = Killed(folder)
    journal = killed.flipped(killed.records[len(killed.records) // 2][0] + 6)
    for number, words in enumerate((["--attach", killed.name], ["--take"])):
        name = "journal.wrong" if number == 0 else "journal"
        if number == 0:
            killed.restore(journal)
        else:
            (killed.home / "journal").write_bytes(journal)
        ended = killed.run(*words)
        expect_equal((ended.returncode, ended.stdout[8:10]), (7, bytes([1, What.NO_SESSION])), f"{words}: the status, and the answer")
        expect(b"its journal is damaged" in ended.stderr, f"{words}: it says {ended.stderr!r}")
        expect_equal((killed.home / name).read_bytes(), journal, f"{words}: the journal that is kept")
        where = f"is kept as {killed.home / name}" if number == 0 else "stays where it is: File exists"
        expect(where.encode() in ended.stderr, f"{words}: it says {ended.stderr!r}")
    (killed.home / "journal").unlink()
    again = killed.run("--attach", killed.name)
    expect_equal((again.returncode, again.stdout[8:10]), (7, bytes([1, What.NO_SESSION])), "what comes of another --attach")
    expect("its journal is wrong, and kept in " in killed.run("--list").stdout.decode(), "the list doesn't have it")
    ended = killed.run("--end", killed.name)
    expect_equal(ended.returncode, 1, "the status of --end")
    expect(b"all that is left of session" in ended.stderr and b"journal.wrong" in ended.stderr, f"--end says {ended.stderr!r}")
    expect((killed.home / "journal.wrong").exists(), "the journal is gone")


def check_damaged_writes_no_file(folder):
    """Where the note of a write is in what is damaged, the file is not written once more: it may have been changed since."""
    (path,) = made(folder, a="one\n")
    with Staying(folder, "a.txt") as session:
        session.type("two\n")
        session.write()
        session.type("three\n")
        kill(folder, session)
        path.write_text("one\n")  # as it was before the session: nothing shows that somebody put that there
        journal = home_of(folder, session.name) / "journal"
        data = bytearray(journal.read_bytes())
        at = next(at for at, kind in records_of(bytes(data))[0] if DONE in kind)
        data[at + 8] ^= 1
        journal.write_bytes(data)
        session.abandon()
        ended = session.run("--end", session.name)
        expect_equal(ended.returncode, 1, f"after {ended.stderr!r} the status")
    expect_equal(text_of(path), "one\n", "the file")
    expect_equal(text_of(folder / "a.txt.sam-saved"), "one\ntwo\n", "the copy")


def check_damaged_behind_the_last_sync(folder):
    """What is wrong behind all that was on the disk is what a power cut has left, also where later records came to the disk before earlier
    ones: the session goes on from what nobody heard more than."""
    with typed(folder) as session:
        kill(folder, session)
        journal = home_of(folder, session.name) / "journal"
        data = journal.read_bytes()
        synced = max(at for at, kind in records_of(data)[0] if SYNCED in kind)
        count = len(records_of(data[:synced])[0]) + 1
        lost = spelled(data, count, synced, b"\5never acknowledged")
        whole = spelled(data, count + 1, synced, b"\5nor this")
        journal.write_bytes(data[: synced + FRONT + 1 + BACK] + bytes(len(lost)) + whole)
        session.abandon()
        session.type("three\n")
        expect_equal(session.text(), "one\ntwo\nthree\n", "the text")
        session.leave()


def check_damaged_at_many_places(folder):
    """A bit that turns at any of 64 places of a journal is told as damage, with the place where the whole records end, if it is in what was on
    the disk; so is one in the head, but for the version. Behind that it is a torn end, and the session has what stands before."""
    killed = Killed(folder)
    durable = max(durable_of(killed.journal, at) for at, _, _ in killed.records)
    places = {len(killed.journal) * number // 64 for number in range(64)} | {durable - 1, durable, len(killed.journal) - 1}
    for place in sorted(places):
        killed.restore(killed.flipped(place))
        ended = killed.run("--end", killed.name)
        said = ended.stderr.decode()
        if place >= durable:
            expect_equal(ended.returncode, 0, f"byte {place}: after {said!r} the status")
            continue
        wrong = max([at for at, _, _ in killed.records if at <= place], default=0)
        is_version = 8 <= place < 12
        wanted = "its journal is of another version" if is_version else f"its journal is damaged at byte {wrong}\n"
        expect_equal(ended.returncode, 1, f"byte {place}: after {said!r} the status")
        expect(wanted in said, f"byte {place}: it says {said!r}")
        kept = "journal" if is_version else "journal.wrong"
        expect_equal((killed.home / kept).read_bytes(), killed.flipped(place), f"byte {place}: the journal that is kept")


def check_damaged_tail_without_room(folder):
    """A torn end is cut off, which is on the disk before anything else, also where there is no room for more."""
    if shutil.which("strace") is None:
        raise Skipped("no strace")
    killed = Killed(folder)
    killed.restore(killed.journal[:-2])
    log = folder / "calls"
    words = ("strace", "-qq", "-y", "-f", "-o", log, "-e", "trace=ftruncate,fdatasync,fsync,writev", "-e", "inject=writev:error=ENOSPC")
    with subprocess.Popen(
        [*words, SAMHOST, "--attach", killed.name], cwd=folder, env=killed.environment, stdin=subprocess.PIPE, stdout=subprocess.PIPE,
        stderr=subprocess.PIPE,
    ) as relay:  # fmt: skip
        relay.stdin.close()
        wait_until(lambda: (killed.home / "socket").exists(), "the session doesn't go on")
        ended = killed.run("--end", killed.name)
        expect_equal(ended.returncode, 0, f"after {ended.stderr!r} the status of --end")
        relay.wait(GIVEN_UP)
    calls = [line.split(None, 1)[1].partition("(")[0] for line in log.read_text().splitlines() if "/journal" in line]
    expect_equal(calls[:2], ["ftruncate", "fdatasync"], "what is done to the journal")
    expect((folder / "a.txt.sam-saved").exists(), "its text is lost")


def check_damaged_to_nothing(folder):
    """A journal that lacks its head, or has no more than that, is told as damaged, and kept: a new one gets its name once it has its begin."""
    killed = Killed(folder)
    for size in (0, 10, HEAD):
        killed.restore(killed.journal[:size])
        ended = killed.run("--end", killed.name)
        expect_equal(ended.returncode, 1, f"{size} bytes: after {ended.stderr!r} the status")
        expect(b"its journal is damaged" in ended.stderr, f"{size} bytes: it says {ended.stderr!r}")
        expect((killed.home / "journal.wrong").exists(), f"{size} bytes: the journal is gone")


def check_damaged_lengths_cost_little(folder):
    """A record that claims gigabytes, in a file that has as many, is damage, and found quickly; so are many zeros."""
    killed = Killed(folder)
    number, durable = len(killed.records) - 1, killed.records[-1][0]
    long_one = spelled(killed.journal, number, durable, b"")[:8] + struct.pack(">I", 0xFFFFFFF0) + struct.pack(">Q", durable)
    long_one += struct.pack(">I", crc(killed.journal[12:20] + long_one))
    for name, head in (("a long record", long_one), ("zeros", b"")):
        killed.restore(killed.journal[: killed.records[-1][0]] + head)
        os.truncate(killed.home / "journal", 5 << 30)
        before = seconds_of_children()
        ended = killed.run("--end", killed.name)
        took = seconds_of_children() - before
        expect(took < MOST_SECONDS * times_slower(), f"{name}: it takes {took:.1f} s of the processor")
        expect_equal(ended.returncode, 1, f"{name}: after {ended.stderr!r} the status")
        expect((killed.home / "journal.wrong").stat().st_size == 5 << 30, f"{name}: the journal is not kept")
        (killed.home / "journal.wrong").unlink()


def check_damaged_random_bits(folder):
    """Of all single bits of what was on the disk none has a session ended without a word and with the status 0, unless its text is saved
    whole."""
    killed = Killed(folder)
    last = killed.synced
    whole = "one\n" + "".join(f"{number}\n" for number in range(6))
    for at in range(0, last, 7):
        killed.restore(killed.flipped(at))
        ended = killed.run("--end", killed.name)
        is_saved = text_of(folder / "a.txt.sam-saved") == whole
        expect(is_saved or (ended.returncode != 0 and ended.stderr), f"byte {at}: it ends with {ended.returncode}, {ended.stderr!r}")
        kept = [name for name in names_in(killed.home) if name.startswith("journal")] if killed.home.exists() else []
        expect(is_saved or kept, f"byte {at}: no journal is left")
