"""What a power cut leaves of a journal, and how quickly a long one is read."""
import concurrent.futures
import os
import random
import re
import resource
import subprocess

import sulgrevad
from checks import GIVEN_UP, expect, times_slower, wait_until

from .journals import DONE, HEAD, HELLO, UP, kill, records_of
from .line import Staying, home_of, traced
from .support import SAMHOST, expect_equal, made, text_of

TAIL = 4096  # bytes of a journal that a power cut may take
CUTS = int(os.environ.get("CUTS") or 256)  # at how many places of them it is cut
TAKEN = 32  # of those, at how many a terminal takes the session over
AT_ONCE = 4
LONG = 16_000_000  # bytes
SECONDS_TO_READ = 1.0  # of the processor, for so many bytes
NAMES = ("a.txt", "b.txt")
OF_THE_JOURNAL = "writev,fdatasync"  # calls that write it, and bring it to the disk


def lived(place):
    """A session with some life in it, whose samhost is killed: its name, its journal, and after each step, where all was acknowledged, how
    many bytes that had, the texts of both files, and what they have on the disk."""
    made(place, a="one\n" * 20, b="other\n")
    numbers, states = random.Random(5), []
    with Staying(place, *NAMES, options=("--left",)) as session:
        texts, cut = ["one\n" * 20, "other\n"], ""
        journal = home_of(place, session.name) / "journal"
        for number in range(120):
            tag = 1 + (numbers.random() < 0.4)
            what, text = numbers.random(), texts[tag - 1]
            start = numbers.randrange(len(text) + 1)
            end = min(len(text), start + numbers.randrange(30))
            if what < 0.6:
                word = f"<{number}>" + "y" * numbers.randrange(60)
                session.terminal.select(tag, start, start)
                session.terminal.type(tag, word)
                texts[tag - 1] = text[:start] + word + text[start:]
            elif what < 0.75:
                session.terminal.select(tag, start, end)
                session.terminal.cut(tag)
                texts[tag - 1], cut = text[:start] + text[end:], text[start:end]
            elif what < 0.85:
                session.terminal.select(tag, start, start)
                session.terminal.paste(tag)
                texts[tag - 1] = text[:start] + cut + text[start:]
            else:
                session.terminal.write(tag)
            session.settle()
            states.append((journal.stat().st_size, tuple(texts), tuple(text_of(place / name) for name in NAMES)))
            if number == 60:
                session.let_pass(3)  # the texts are saved aside meanwhile
        kill(place, session)
        return session.name, journal.read_bytes(), states


class Left:
    """What a power cut leaves: the folder of the files, as it was, and a journal that is cut. Copies stay the very files that they were."""

    def __init__(self, place):
        self.place = place
        self.name, self.journal, self.states = lived(place)
        records, end = records_of(self.journal)
        ends = [at for at, _ in records[1:]] + [end]
        self.ends_of_writes = [after for (_, kind), after in zip(records, ends) if DONE in kind]
        self.home = home_of(place, self.name)
        self.kept = place / "temporary" / "kept"
        self.kept.mkdir()
        self.copies = [path.name for path in place.glob("*.sam-*")]
        for name in self.copies:
            os.link(place / name, self.kept / name)
        self.files_of_home = {path.name: path.read_bytes() for path in self.home.iterdir() if path.is_file()}

    def at(self, size):
        """The last step that was acknowledged in so many bytes of the journal."""
        return max((at for at, state in enumerate(self.states) if state[0] <= size), default=0)

    def files_at(self, size):
        """What the files had on the disk: a write is noted once it is there."""
        at = self.at(size)
        is_noted = any(self.states[at][0] <= end <= size for end in self.ends_of_writes)
        return self.states[min(at + is_noted, len(self.states) - 1)][2]

    def restore(self, size):
        """All is as it was when the journal had so many bytes."""
        for path in self.place.glob("*.sam-*"):
            path.unlink()
        for name, text in zip(NAMES, self.files_at(size)):
            (self.place / name).write_bytes(text.encode())
        for name in self.copies:
            os.link(self.kept / name, self.place / name)
        self.home.mkdir(mode=0o700, exist_ok=True)
        for name, data in self.files_of_home.items():
            (self.home / name).write_bytes(self.journal[:size] if name == "journal" else data)

    def expect_texts(self, size, texts):
        """The texts are those of the last step that was acknowledged before, or of the one that was under way."""
        allowed = [state[1] for state in self.states[self.at(size) :][:2]]
        steps = [[at for at, state in enumerate(self.states) if state[1][file] == texts[file]] for file in (0, 1)]
        expect(texts in allowed, f"cut after {size} bytes: the texts are those after steps {steps}, wanted those after {self.at(size)}")

    def texts_at_the_end(self, size):
        """What --end saves of the session, which another samhost begins for that."""
        environment = {**os.environ, "XDG_STATE_HOME": str(self.place / "temporary")}
        words = [SAMHOST, "--end", self.name]
        ended = subprocess.run(words, cwd=self.place, env=environment, capture_output=True, text=True, timeout=GIVEN_UP)
        expect(ended.returncode == 0 and "can't go on" not in ended.stderr, f"cut after {size} bytes: it says {ended.stderr!r}")
        expect(not self.home.exists(), f"cut after {size} bytes: its folder stays")
        copies = dict(re.findall(r"samhost: (\S+) was not written; its text is in (\S+)", ended.stderr))
        return tuple(text_of(self.place / copies.get(name, name)) for name in NAMES)

    def texts_for_another(self):
        """What a terminal has that takes the session over."""
        with Staying(self.place, takes=self.name) as session:
            texts = session.text(1), session.text(2)
            session.leave()
        return texts


def check_power_cut(folder):
    """A journal that is cut at any of its last 4,096 bytes begins a session again, with the texts as they were acknowledged; so it does
    where a terminal takes the session over."""

    def cut(worker):
        place = folder / str(worker)
        place.mkdir()
        left = Left(place)
        size = len(left.journal)
        kinds = set().union(*(kind for at, kind in records_of(left.journal)[0] if at > size - TAIL))
        expect({UP, DONE} <= kinds, f"this test is wrong: the last records are of the kinds {kinds}")
        sizes = [size - TAIL + at for at in range(worker * TAIL // CUTS, TAIL + 1, AT_ONCE * TAIL // CUTS)]
        for at, cut_at in enumerate(sizes):
            left.restore(cut_at)
            left.expect_texts(cut_at, left.texts_at_the_end(cut_at))
            if at % max(1, CUTS // TAKEN) == 0:
                left.restore(cut_at)
                left.expect_texts(cut_at, left.texts_for_another())
        return len(sizes)

    with concurrent.futures.ThreadPoolExecutor(AT_ONCE) as pool:
        count = sum(pool.map(cut, range(AT_ONCE)))
    expect(count >= CUTS, f"this test is wrong: it cuts {count} times")


def check_power_cut_that_leaves_zeros(folder):
    """A journal whose last bytes never reached the disk, so that there are zeros, begins a session again, too."""
    left = Left(folder)
    for count in (1, 100, TAIL):
        left.restore(len(left.journal) - count)
        with open(left.home / "journal", "ab") as journal:
            journal.write(bytes(count))
        left.expect_texts(len(left.journal) - count, left.texts_at_the_end(-count))


def synced(log, size):
    """How many bytes of a journal are on the disk that had so many at first, and how often it was synced, as the calls say."""
    on_disk, syncs = 0, 0
    calls = r"^\d+ +(writev|fdatasync)\(\d+<[^>]*/journal(\.new)?>.* = (\d+)$"
    for call, fresh, count in re.findall(calls, log.read_text(), re.MULTILINE):
        if fresh and call == "writev" and int(count) == HEAD:  # another one begins, which will have its name
            size = 0
        if call == "writev":
            size += int(count)
        else:
            on_disk, syncs = size, syncs + 1
    return on_disk, syncs


class PowerCuts:
    """A session whose samhost is killed, and whose journal is then what was on the disk, and each second time some of what came after that.
    The same terminal goes on with it."""

    def __init__(self, folder, session, log):
        self.folder, self.session, self.log, self.size = folder, session, log, 0
        self.numbers, self.cuts = random.Random(3), 0

    def cut(self):
        """Cuts the power; answers how often the journal was synced since the last time."""
        kill(self.folder, self.session)
        self.session.process.stdout.read()  # what was on its way is lost
        self.session.process.wait(GIVEN_UP)
        self.session.abandon()
        journal = home_of(self.folder, self.session.name) / "journal"
        on_disk, syncs = synced(self.log, self.size)
        data = journal.read_bytes()
        expect(0 < on_disk <= len(data), f"this test is wrong: {on_disk} bytes of {len(data)} are on the disk")
        self.cuts += 1
        left = data[: on_disk if self.cuts % 2 else self.numbers.randint(on_disk, len(data))]
        journal.write_bytes(left)
        self.size = records_of(left)[1]
        self.log.unlink()
        self.session.prefix = traced(self.log, OF_THE_JOURNAL)
        return syncs


def check_power_cut_at_the_last_sync(folder):
    """The same terminal goes on after a power cut that leaves of the journal what was on the disk, with all that it has typed and seen:
    also where the rest would come out otherwise now, as a long file that is being loaded, a write that was refused, and names of files."""
    (path, _) = made(folder, a="one\n", b="a line of the long file\n" * 30_000)
    log = folder / "temporary" / "calls"
    with Staying(folder, "a.txt", "b.txt", options=("--left",), prefix=traced(log, OF_THE_JOURNAL)) as session:
        terminal, link, power = session.terminal, session.link, PowerCuts(folder, session, log)
        for count in range(3):
            session.type(f"key {count}\n")
            power.cut()
        for number, count in enumerate((5_000, 15_000, 20_000)):
            before = link.received
            terminal.load(2, number * 200_000, (number + 1) * 200_000)
            session.carry(lambda: link.received - before > count, "the file isn't loaded")
            power.cut()
            session.settle()
            power.cut()
        for number in range(2):
            path.write_text(f"of another program {number}\n")
            session.type(f"refused {number}\n")
            session.write()
            told = [said for said in session.said() if said.startswith("not written: a.txt: another program changed it")]
            expect_equal(len(told), number + 1, f"how often it says so, in {session.said()}: it")
            power.cut()
            session.type(f"after {number}\n")
            power.cut()
        for number in range(3):
            session.put_note("COMPLETE", request=number + 1)
            session.carry(lambda: session.of("NAMES", request=number + 1), "no names come")
            power.cut()
            (folder / f"new{number}.txt").touch()
            session.settle()
        expect_equal(session.text(2), "a line of the long file\n" * 30_000, "the long file")
        wanted = "one\nkey 0\nkey 1\nkey 2\nrefused 0\nafter 0\nrefused 1\nafter 1\n"
        expect_equal(session.text(1), wanted, "the text")
        session.write()
        session.write()
        expect_equal(text_of(path), wanted, "the file")
        session.leave()


def check_power_cut_leaves_no_newer_file(folder):
    """Before a file is written the disk has what asked for that, and it is acknowledged: the disk may take long."""
    made(folder, a="one\n")
    log = folder / "temporary" / "calls"
    with Staying(folder, "a.txt", prefix=traced(log, f"{OF_THE_JOURNAL},sendto,rename")) as session:
        session.type("two\n")
        session.terminal.write(1)
        session.settle()
        expect_equal(text_of(folder / "a.txt"), "one\ntwo\n", "the file")
        kill(folder, session)
        session.process.stdout.read()
        session.process.wait(GIVEN_UP)
        session.abandon()
    forms = {r"writev\(\d+<[^>]*/journal>": "record", r"fdatasync\(\d+<[^>]*/journal>": "on disk", r"sendto\(": "sent", r"rename\(": "file"}
    calls = [name for line in log.read_text().splitlines() for form, name in forms.items() if re.match(rf"\d+ +{form}", line)]
    at = calls.index("file")
    expect_equal(calls[at - 4 : at], ["record", "on disk", "record", "sent"], f"in {calls} what comes before the file")


def check_power_needs_one_sync_for_an_answer(folder):
    """An acknowledgement and the answer that goes with it wait for the disk once: it is synced as often as bytes come, and not twice. (After
    a pause it is, too, when texts are saved aside.)"""
    made(folder, a="one\n")
    log = folder / "temporary" / "calls"
    with Staying(folder, "a.txt", prefix=traced(log, OF_THE_JOURNAL)) as session:
        power = PowerCuts(folder, session, log)
        for _ in range(30):
            session.terminal.select(1, 0, 0)
            session.terminal.type(1, "k")
            session.terminal.check(1)
            session.settle()
        journal = (home_of(folder, session.name) / "journal").read_bytes()
        came = sum(bool({HELLO, UP} & kind) for _, kind in records_of(journal)[0])
        syncs = power.cut()
        expect(30 <= syncs <= 1.3 * came, f"it is synced {syncs} times for {came} pieces")
        session.settle()
        session.leave()


def check_power_cut_keeps_the_folder(folder):
    """The names of what a session has are on the disk before anything is acknowledged, also once another terminal has taken it over."""
    made(folder, a="one\n")
    log = folder / "calls"
    with Staying(folder, "a.txt", prefix=traced(log, "fsync,fdatasync,sendto,renameat,renameat2,listen")) as session:
        session.type("two\n")
        session.abandon()  # what traces the calls goes on
        with Staying(folder, takes=session.name) as heir:
            heir.leave()
    forms = {r"listen\(": "begins", r"fdatasync\(\d+<.*/journal": "journal", r"fsync\(\d+<.*/sulgrevad/[0-9a-f]{16}>": "folder",
             r"fsync\(\d+<.*/sulgrevad>": "all", r"rename.*\) = 0": "named", r"sendto\(": "sent"}  # fmt: skip
    calls = [name for line in log.read_text().splitlines() for form, name in forms.items() if re.match(rf"\d+ +{form}", line)]
    for first in ("begins", "named"):
        at = calls.index("begins") if first == "begins" else len(calls) - 1 - calls[::-1].index("named")
        before = calls[:at] if first == "begins" else calls[at : at + calls[at:].index("sent")]
        expect({"folder", "all"} <= set(before), f"{first}: the folder is not on the disk: {calls}")
    expect("journal" in calls[: calls.index("begins")], f"the journal is not on the disk: {calls}")


def check_power_cut_keeps_new_folders(folder):
    """The folders that are made for the first session are on the disk before it is acknowledged, each by its name in the one above."""
    made(folder, a="one\n")
    log = folder / "calls"
    words = ("env", f"XDG_STATE_HOME={folder}/new/state", *traced(log, "mkdir,fsync,listen"))
    with Staying(folder, "a.txt", prefix=words, begin=False) as session:
        wait_until(lambda: log.exists() and "listen(" in log.read_text(), "it doesn't begin")
        session.abandon()
    calls = re.findall(r'^\d+ +(?:(mkdir)\("([^"]*)".*|(fsync)\(\d+<([^>]*)>\)) = 0$', log.read_text().split("listen(")[0], re.MULTILINE)
    calls = [(made or synced, path or place) for made, path, synced, place in calls]
    new = [f"{folder}/new", f"{folder}/new/state", f"{folder}/new/state/sulgrevad"]
    wanted = [call for path in new for call in (("mkdir", path), ("fsync", os.path.dirname(path)))]
    expect_equal(calls[: len(wanted)], wanted, f"of {calls} the first")


def seconds_of_children():
    used = resource.getrusage(resource.RUSAGE_CHILDREN)
    return used.ru_utime + used.ru_stime


def seconds_to_read(folder, session):
    """Seconds of the processor that another samhost takes to begin the session again, which it then ends. The text is that of the
    terminal."""
    wanted = session.terminal.len(1)
    kill(folder, session)
    before = seconds_of_children()
    ended = session.run("--end", session.name)
    took = seconds_of_children() - before
    expect_equal((ended.returncode, ended.stdout), (0, ""), f"after {ended.stderr!r} what comes of it")
    expect_equal(len(text_of(folder / "a.txt.sam-saved")), wanted, "the length of the text")
    return took


def check_journal_is_read_quickly(folder):
    """Another samhost reads a journal of 16 MB, of edits all over a text of some 50,000 characters, in less than a second of a quiet
    processor."""
    made(folder, a="one\n")
    with Staying(folder, "a.txt", options=("--left",), kind=sulgrevad.Link) as session:
        terminal, journal = session.terminal, home_of(folder, session.name) / "journal"
        line, count = "x" * 79 + "\n", 0
        while journal.stat().st_size < LONG:
            for _ in range(40):
                place = count * 7919 % (terminal.len(1) + 1)
                terminal.select(1, place, place)
                terminal.type(1, line * 6)
                count += 1
            if terminal.len(1) > 60_000:
                terminal.select(1, 0, 20_000)
                terminal.cut(1)
            session.settle()
        took = seconds_to_read(folder, session)
    expect(took < SECONDS_TO_READ * times_slower(), f"{LONG:,} bytes with {count:,} edits took {took:.2f} s of the processor")


def seconds_of_keys(place, what_follows):
    """Seconds that it takes to read a journal of keys in a long text, of which each came by itself and this followed."""
    place.mkdir()
    made(place, a="one two\n" * 62_500)
    with Staying(place, "a.txt", kind=sulgrevad.Link) as session:
        terminal, link = session.terminal, session.link
        for number in range(1000):
            terminal.select(1, number * 200, number * 200)
            terminal.type(1, "k")
            what_follows(terminal)
            session.send()
            session.carry(lambda: link.acknowledged == link.put_count, "it isn't taken")
        session.settle()
        return seconds_to_read(place, session)


def check_journal_of_single_keys_is_read_quickly(folder):
    """Keys of which each came by itself, all over a long text, take less than half a millisecond each, whatever stands between them."""
    follows = {"nothing": lambda _: None, "a question": lambda terminal: terminal.check(1), "others": lambda terminal: terminal.work(1)}
    for name, what_follows in follows.items():
        took = seconds_of_keys(folder / name, what_follows)
        expect(took < SECONDS_TO_READ / 2 * times_slower(), f"{name} between them: 1,000 keys took {took:.2f} s of the processor")
