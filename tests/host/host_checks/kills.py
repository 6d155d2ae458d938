"""Hosts that are killed: at each call of the system, and at random moments."""
import concurrent.futures
import os
import random
import re
import shutil
import signal
import subprocess
import time
from pathlib import Path

from checks import Failed, Skipped, expect, times_longer

from .support import (
    IDLE, LATE, LONGEST_UNSAVED, OPEN, SAMHOST, WRITE, Session, expect_equal, made, message, names_in, on_file, run_host, text_of, typed,
)  # fmt: skip

KILLS = int(os.environ.get("KILLS") or min(100, 25 * len(os.sched_getaffinity(0))))
CALLS = ("openat", "write", "pwrite64", "ftruncate", "fsync", "link", "rename", "unlink", "close", "fchmod")


def killed_at(place, call, number, stream):
    """Runs the host on a file in an empty folder, and kills it at a call of the system. Returns its status."""
    words = ("strace", "-qq", "-o", "/dev/null", "-e", f"inject={call}:signal=KILL:when={number}", SAMHOST, "a.txt")
    return run_host(place, words, stream)[0]


def each_kill(folder, stream, text, is_linked=False):
    """Folders in which the host was killed, at each call of the system that it makes, or ended in peace: folder, and whether it ended."""
    if shutil.which("strace") is None:
        raise Skipped("no strace")
    kills = 0
    for call in CALLS:
        if subprocess.run(["strace", "-qq", "-e", call, "true"], capture_output=True).returncode != 0:
            continue  # this system has no such call
        is_ended, number = False, 1
        while not is_ended:
            place = folder / f"{call}-{number}"
            place.mkdir()
            (place / "a.txt").write_text(text)
            if is_linked:
                os.link(place / "a.txt", place / "b.txt")
            status = killed_at(place, call, number, stream)
            expect(status in (0, -signal.SIGKILL), f"{place.name}: status {status}")
            is_ended = status == 0
            kills += not is_ended
            yield place, is_ended
            shutil.rmtree(place)
            number += 1
    expect(kills > 20, f"this test is wrong: only {kills} kills")


OLD_TEXT, NEW_TEXT = "old\n" * 3, "new " + "old\n" * 3


def copies_in(place, kind):
    return [text_of(place / name) for name in names_in(place) if name.startswith(f"a.txt.sam-{kind}")]


def check_kill_at_each_call(folder):
    """A kill at any call of the system leaves the file whole; what is left of the write is reported at the next start."""
    for place, is_ended in each_kill(folder, on_file(OPEN) + typed(1, 0, b"new ") + on_file(WRITE), OLD_TEXT):
        got, left = text_of(place / "a.txt"), [name for name in names_in(place) if name != "a.txt"]
        expect(got == NEW_TEXT or (got == OLD_TEXT and not is_ended), f"{place.name}: the file has {got!r}")
        expect(not is_ended or not left, f"{place.name}: it leaves {left}")
        if left:
            said = "\n".join(run_host(place, [SAMHOST, "a.txt"])[1])
            expect(all(f"{name} is left of a write" in said for name in left), f"{place.name}: of {left} it says {said!r}")


def order_of_calls(folder, stream):
    """What the host does to its files: a call and the names of what it is done to, those of files that are not whole yet as 'new'."""
    calls = folder / "calls"
    words = ("strace", "-qq", "-y", "-o", calls, "-e", "fsync,rename,link,unlink,ftruncate", SAMHOST, "a.txt")
    expect_equal(run_host(folder, words, stream)[0], 0, "the status")
    order = []
    for call, arguments in re.findall(r"^(\w+)\((.*)\) += 0$", calls.read_text(), re.MULTILINE):
        paths = re.findall(r'"([^"]*)"|<([^>]*)>', arguments)
        names = [Path(quoted or of_file).name.replace(folder.name, "folder") for quoted, of_file in paths]
        order.append(" ".join([call, *(re.sub(r"^\.sam-.*", "new", name) for name in names)]))
    return [step for step in order if step.split()[0] != "ftruncate" or "a.txt" in step]


def check_order_on_disk(folder):
    """The disk has a new file before it takes the place of the old one. In place it has what the file was before that is touched, and the
    new text before what it was is removed."""
    if shutil.which("strace") is None:
        raise Skipped("no strace")
    (path,) = made(folder, a="one\n")
    stream = on_file(OPEN) + typed(1, 0, b"new ") + on_file(WRITE)
    expect_equal(order_of_calls(folder, stream), ["fsync new", "rename new a.txt", "fsync folder"], "the order of a new file")
    os.link(path, folder / "b.txt")
    kept = ["fsync new", "link new a.txt.sam-old", "unlink new", "fsync folder"]
    wanted = [*kept, "ftruncate a.txt", "fsync a.txt", "unlink a.txt.sam-old"]
    expect_equal(order_of_calls(folder, stream), wanted, "the order in place")


def check_kill_in_place(folder):
    """The same where the file is written in place: it may be torn, but then what it was is whole beside it, and that is reported."""
    torn = 0
    for place, is_ended in each_kill(folder, on_file(OPEN) + typed(1, 0, b"new ") + on_file(WRITE), OLD_TEXT, is_linked=True):
        got, kept = text_of(place / "a.txt"), copies_in(place, "old")
        expect(got == NEW_TEXT or OLD_TEXT in (got, *kept), f"{place.name}: the file has {got!r}, and {kept} is kept")
        expect(not is_ended or (got == NEW_TEXT and names_in(place) == ["a.txt", "b.txt"]), f"{place.name}: it leaves {names_in(place)}")
        expect(set(kept) <= {OLD_TEXT}, f"{place.name}: what is kept has {kept}")
        if kept:
            torn += 1
            said = "\n".join(run_host(place, [SAMHOST, "a.txt"])[1])
            expect("a.txt may be broken: what it was before a write is in a.txt.sam-old" in said, f"{place.name}: it says {said!r}")
    expect(torn > 3, f"this test is wrong: what the file was is kept in {torn} kills alone")


def check_kill_while_saving(folder):
    """A kill while a text is saved aside, the first time or again, leaves no part of it under the name of a copy."""
    again = on_file(WRITE) + typed(1, 0, b"more ") + on_file(WRITE)
    stream = on_file(OPEN) + message(2) + typed(0, 0, b"f nul\0\n") + typed(1, 0, b"new ") + again
    for place, is_ended in each_kill(folder, stream, OLD_TEXT):
        copies = [text_of(place / name) for name in names_in(place) if name.startswith("unnamed-1.sam-saved")]
        expect(text_of(place / "a.txt") == OLD_TEXT, f"{place.name}: the file is written")
        expect(set(copies) <= {NEW_TEXT, "more " + NEW_TEXT}, f"{place.name}: the copies have {copies}")
        expect(not is_ended or copies == ["more " + NEW_TEXT], f"{place.name}: the copies have {copies} at the end")


class Typist:
    """Types numbered words, writes now and then, and knows which text the host was given when. Then the host is killed: while the user
    types, in a write, or after he has rested."""

    def __init__(self, folder, numbers):
        self.folder, self.random, self.texts, self.written, self.sent = folder, numbers, [""], {""}, []
        (self.path,) = made(folder, a="")
        if numbers.random() < 0.3:
            os.link(self.path, folder / "b.txt")

    def run(self, when):
        draw = self.random.uniform
        seconds = draw(0.1, LONGEST_UNSAVED + LATE + 2) if when == "typing" else draw(0.1, 4)
        with Session(self.folder, "a.txt") as session:
            until = time.monotonic() + seconds
            while time.monotonic() < until:
                self.step(session, self.random.random() < 0.05)
                session.receive(draw(0.02, 0.15))
            if when == "resting":
                session.settle()
                self.note_sent()
                session.let_pass(IDLE + LATE + draw(0, 1))
            elif when == "writing":
                self.step(session, True)
                time.sleep(draw(0, 0.01))
            session.kill()
            self.killed = time.monotonic()

    def step(self, session, writes):
        terminal, text = session.terminal, self.texts[-1]
        if writes:
            terminal.write(1)
            self.written.add(text)
        else:
            word = f"{len(self.texts)} "
            terminal.select(1, len(text), len(text))
            terminal.type(1, word)
            self.texts.append(text + word)
        session.send()
        if not terminal.held:  # else it waits for the answer to a write, and goes with what comes next
            self.note_sent()

    def note_sent(self):
        self.sent.append((time.monotonic(), self.texts[-1]))

    def check(self, bound):
        """Nothing is torn, and nothing is lost that was given to the host longer ago: on a busy machine, as many times longer as work takes."""
        names, typed_texts = names_in(self.folder), set(self.texts)
        copies = [text_of(self.folder / name) for name in names if name.startswith("a.txt.sam-saved")]
        olds = [text_of(self.folder / name) for name in names if name.startswith("a.txt.sam-old")]
        text = text_of(self.path)
        expect(text in self.written or any(old in self.written for old in olds), f"the file is torn: it ends in {text[-40:]!r}")
        for copy in (*copies, *olds):
            expect(copy in typed_texts, f"a copy is torn: it ends in {copy[-40:]!r}")
        newest = max(len(found) for found in [text, *copies, *olds] if found in typed_texts)
        if newest < self.given(bound):
            bound *= times_longer()
            expect(newest >= self.given(bound), f"{self.given(bound) - newest} characters are lost that are older than {bound:.1f} s")

    def given(self, bound):
        """How many characters the host was given longer ago than that, before it was killed."""
        return max((len(sent) for at, sent in self.sent if at < self.killed - bound - LATE), default=0)


def check_kill_at_random(folder):
    """The host is killed at random moments while the user types and writes."""

    def kill(seed):
        place = folder / str(seed)
        place.mkdir()
        when = ("typing", "resting", "writing", "writing")[seed % 4]
        typist = Typist(place, random.Random(seed))
        typist.run(when)
        try:
            typist.check(IDLE if when == "resting" else LONGEST_UNSAVED)
        except Failed as why:
            raise Failed(f"seed {seed}: {why}") from why

    with concurrent.futures.ThreadPoolExecutor(KILLS) as pool:
        list(pool.map(kill, range(KILLS)))
