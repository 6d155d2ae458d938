"""Power cuts while a terminal types, of which any blocks are lost that were not on the disk: the same terminal goes on, each time."""
import concurrent.futures
import contextlib
import os
import random
import re
import signal

import sulgrevad
from checks import GIVEN_UP, expect, wait_until

from .journals import HEAD
from .line import Staying, home_of, is_running, traced
from .support import expect_equal, made, text_of

POWER_CUTS = int(os.environ.get("POWER_CUTS") or 48)  # in all sessions together
AT_ONCE = 4
BLOCK = 512  # bytes of which all reach the disk, or none
CALLS = "writev,fdatasync,ftruncate"


def processes_of(name, tracer):
    """The processes that have the name of a session among their words, but for the one that traces them."""
    found = []
    for number in map(int, filter(str.isdigit, os.listdir("/proc"))):
        with contextlib.suppress(OSError), open(f"/proc/{number}/cmdline", "rb") as words:
            if number != tracer and name.encode() in words.read().split(b"\0") and is_running(number):
                found.append(number)
    return found


def kill_all(session):
    """Kills the relay that runs now and the samhost of its session, and then what traces them, which may not have begun them yet. One that
    is about to end has no words any more, and its socket still: a relay that meets it ends at once, and the next one is not traced."""
    found = set()

    def is_gone():
        numbers = processes_of(session.name, session.process.pid)
        found.update(numbers)
        for number in numbers:
            with contextlib.suppress(ProcessLookupError):
                os.kill(number, signal.SIGKILL)
        return not numbers and not any(map(is_running, found))

    wait_until(is_gone, "they still run")
    session.process.kill()
    session.process.wait(GIVEN_UP)
    wait_until(is_gone, "they still run")


class PowerCuts:
    """A terminal that types numbered words at random places and writes now and then, and what the disk has of its session's journal."""

    def __init__(self, folder, seed):
        self.folder, self.numbers, self.log = folder, random.Random(seed), folder / "temporary" / "calls"
        self.text, self.words, self.cuts, self.disk = "", 0, 0, b""

    def type(self, session):
        for _ in range(self.numbers.randrange(1, 6)):
            self.words += 1
            place, word = self.numbers.randrange(len(self.text) + 1), f"<{self.words}>"
            session.terminal.select(1, place, place)
            session.terminal.type(1, word)
            self.text = self.text[:place] + word + self.text[place:]
            if self.numbers.random() < 0.15:
                session.terminal.write(1)
            session.send()
            session.receive(self.numbers.choice((0, 0, 0.002, 0.02)))

    def left(self, data):
        """What the disk has of a journal: all up to the last sync, and of what came since some blocks, and some length."""
        size, synced = len(self.disk), None
        calls = self.log.read_text() if self.log.exists() else ""
        for call, fresh, rest, result in re.findall(r"^\d+ +(\w+)\(\d+<[^>]*/journal(\.new)?>(.*) = (\d+)$", calls, re.MULTILINE):
            if fresh and call == "writev" and int(result) == HEAD:  # another one begins, which will have its name
                size = 0
            if call == "writev":
                size += int(result)
            elif call == "ftruncate":
                size = int(rest.strip(", )"))
            else:
                synced = size
        if synced is None:  # all since the cut before may be lost, with the journal's end that was cut off since
            return self.disk if self.disk and self.numbers.random() < 0.5 else data
        expect(HEAD < synced <= len(data), f"this test is wrong: {synced} bytes of {len(data)} are on the disk")
        left = bytearray(data[: self.numbers.randint(synced, len(data))])
        for at in range(synced, len(left), BLOCK):
            if self.numbers.random() < 0.5:
                end = min(at + BLOCK, len(left))
                left[at:end] = bytes(end - at)
        return bytes(left)

    def cut(self, session):
        """Cuts the power."""
        expect(session.process is not None, f"after {self.cuts} cuts the line has ended, which says {session.errors!r}")
        kill_all(session)
        session.process.stdout.read()  # what was on its way is lost
        session.abandon()
        journal = home_of(self.folder, session.name) / "journal"
        self.disk = self.left(journal.read_bytes())
        journal.write_bytes(self.disk)
        self.log.unlink(missing_ok=True)
        session.prefix = traced(self.log, CALLS)
        self.cuts += 1

    def go(self, cuts):
        made(self.folder, a="")
        with Staying(self.folder, "a.txt", prefix=traced(self.log, CALLS), kind=sulgrevad.Link) as session:
            while self.cuts < cuts:
                session.carry(lambda: session.process is not None, "no line is there")  # all may have been acknowledged before the cut
                self.type(session)
                self.cut(session)
                while self.numbers.random() < 0.3:  # and again, while the next samhost begins
                    session.attach()
                    session.send()
                    session.receive(self.numbers.choice((0, 0.01, 0.05, 0.1)))
                    self.cut(session)
                session.settle()
                expect_equal(session.text(), self.text, f"after {self.cuts} cuts the text")
            session.write()
            expect_equal(text_of(self.folder / "a.txt"), self.text, "the file")
            session.leave()


def check_power_cuts_that_lose_blocks(folder):
    """The same terminal goes on after each of many power cuts, also after two in a row: no word is lost or comes twice."""

    def tried(seed):
        place = folder / str(seed)
        place.mkdir()
        run = PowerCuts(place, seed)
        run.go(-(-POWER_CUTS // AT_ONCE))
        return run.words

    with concurrent.futures.ThreadPoolExecutor(AT_ONCE) as pool:
        words = sum(pool.map(tried, range(AT_ONCE)))
    expect(words > POWER_CUTS, f"this test is wrong: {words} words are typed")
