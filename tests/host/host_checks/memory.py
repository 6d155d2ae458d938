"""Requests for memory that are refused."""
import concurrent.futures
import os
import re
import resource
import select
import shutil
import signal
import socket
import subprocess
import threading
import time
from pathlib import Path

from checks import GIVEN_UP, ROOT, Failed, Skipped, expect, wait_until

from .support import (
    CLOSE, OPEN, SAMHOST, WRITE, Line, Session, expect_equal, expect_line, made, message, on_file, stop, text_of, typed,
)  # fmt: skip

PIPE_ROOM = 60_000  # bytes that a pipe takes before any are read
FOR_GOOD = 1_000_000  # more requests for memory than a host makes
UP_TO_A_CLOSE = 43  # as many as it makes to name a file that is closed and to save its text, several times
RUNS = 32  # hosts at once, which sleep for the most part
MOST_REQUESTS = 2000
NEW_FILE = 12


class Scene:
    """A session of which each request for memory is refused in turn: the words of the command, what it hears, and the texts that must not
    be lost. Of each file the texts that it may have, at the start the first; and where the link leads to that may be there."""

    def __init__(self, words, stream, files, typed_texts, link=None):
        self.words, self.stream, self.files, self.typed_texts, self.link = words, stream, files, typed_texts, link
        self.before = {name: texts[0] for name, texts in files.items()}
        self.whole = typed_texts.union(*files.values())

    def make(self, place):
        for name, text in self.before.items():
            (place / name).parent.mkdir(parents=True, exist_ok=True)
            (place / name).write_text(text)
        if self.link:
            (place / "link").symlink_to(self.link)
        (place / "temporary").mkdir()


def scene_of_a_file():
    """A file is written by its link, and changed again. A text is left of an earlier session."""
    stream = on_file(OPEN) + typed(1, 0, b"1") + on_file(WRITE) + typed(1, 0, b"2")
    files = {"a.txt": ("one\n", "1one\n"), "a.txt.sam-saved": ("left\n",)}
    return Scene(("link",), stream, files, {"21one\n"}, "a.txt")


def scene_of_many():
    """A file of a folder is written, named to be where nothing can be written, and closed. A new file has no name. A file is written last,
    before the end."""
    stream = b"".join(
        (
            message(2), on_file(OPEN, 2), on_file(OPEN), typed(1, 0, b"1"), on_file(WRITE), typed(0, 0, b"f nowhere/c.txt\n"),
            typed(1, 0, b"2"), on_file(CLOSE), message(NEW_FILE), typed(3, 0, b"new\n"), typed(2, 0, b"3"), on_file(WRITE, 2),
        )
    )  # fmt: skip
    files = {"d/a.txt": ("one\n", "1one\n"), "d/e/b.txt": ("b\n", "3b\n")}
    return Scene(("--left", "--", "d"), stream, files, {"21one\n", "new\n", "3b\n"})


def build_preloaded(folder, source):
    """A library that is loaded before a program, of this source below tests."""
    compiler = (os.environ.get("CC") or "cc").split()
    if shutil.which(compiler[0]) is None:
        raise Skipped(f"no {compiler[0]}")
    library = folder / f"{Path(source).stem}.so"
    subprocess.run([*compiler, "-O2", "-shared", "-fPIC", "-o", library, ROOT / "tests" / source, "-ldl"], check=True)
    return library


def build_refusing(folder):
    """The library that refuses requests for memory."""
    return build_preloaded(folder, "core/refuse.c")


def build_full_disk(folder):
    """The library that is a disk without room."""
    return build_preloaded(folder, "host/full_disk.c")


def run_refused(place, library, scene, number, count):
    """Runs a host that gets no memory at its request of that number, and those after it: so many in all. If it waits for memory longer, a
    signal ends it. Returns its status, its lines, and whether it made that request."""
    met = place.parent / f"{place.name}.met"
    state = f"XDG_STATE_HOME={place / 'temporary'}"
    settings = (f"LD_PRELOAD={library}", f"REFUSE={number}", f"REFUSE_COUNT={count}", f"TMPDIR={place / 'temporary'}", state)
    words = ("sh", "-c", 'exec "$@" 9>"$0"', met, "env", *settings, SAMHOST, *scene.words)
    source, end = os.pipe()
    line, output, errors = Line(), b"", b""
    os.write(end, line.carried(scene.stream))
    os.close(end)
    with subprocess.Popen(words, cwd=place, stdin=source, stdout=subprocess.PIPE, stderr=subprocess.PIPE) as process:
        os.close(source)
        late = threading.Timer(GIVEN_UP, process.kill)
        late.start()
        ends = [process.stdout, process.stderr]
        while ends:
            for end in select.select(ends, [], [])[0]:
                data = os.read(end.fileno(), 65536)
                output, errors = (output + data, errors) if end is process.stdout else (output, errors + data)
                if not data:
                    ends.remove(end)
                if count > 1 and b"out of memory; it is tried again" in data:
                    process.send_signal(signal.SIGTERM)
        status = process.wait()
        late.cancel()
    return status, line.lines(output, errors), met.stat().st_size > 0


def texts_found(place, lines):
    """What the files have that are below a folder, and the copies elsewhere of which a line says where they are. Those are removed."""
    files = [path for path in place.rglob("*") if path.is_file() and not path.is_symlink()]
    found = {str(path.relative_to(place)): path.read_text() for path in files}
    for line in lines:
        copy = re.search(r"; its text is in (/tmp/sulgrevad-\d+/[^/]*)$", line)
        if copy:  # there was no memory for the name of the other folder
            found[copy[1]] = text_of(Path(copy[1]))
            Path(copy[1]).unlink(missing_ok=True)
    return found


def judge_refused(place, scene, status, lines):
    """What a status promises, where memory was refused."""
    found = texts_found(place, lines)
    expect(not any(Path(name).name.startswith(".sam-") for name in found), f"it leaves {sorted(found)}")
    expect(set(found.values()) <= scene.whole, f"a file is torn: there is {found}")
    for name, texts in scene.files.items():
        expect(found.get(name) in texts, f"{name} has {found.get(name)!r}")
    if status == 4:
        expect_equal(found, scene.before, "what is there after a start without memory")
        expect(any(re.search("out of memory|Cannot allocate memory", line) for line in lines), f"it doesn't say why it ends: {lines}")
    elif status == 5:
        expect(any(re.search("^samhost: .* lost", line) for line in lines), f"it doesn't say what is lost: {lines}")
    else:
        expect_equal(status, 0, f"the status, after {lines}")
        expect(scene.typed_texts <= set(found.values()), f"a text is lost: there is {found}, and it says {lines}")
        unwritten = sum(len(texts) > 1 and found[name] == texts[0] for name, texts in scene.files.items())
        told = [line for line in lines if re.match(r"samhost: not written: .*: Cannot allocate memory; its text (is|could)", line)]
        expect_equal(len(told), unwritten, f"in {lines} the number of those that a file is not written")
        is_told = any(re.search("left of earlier sessions was looked for|a text that was not written", line) for line in lines)
        expect(is_told or "a.txt.sam-saved" not in scene.files, f"it doesn't tell of the copy that was there: {lines}")


def sweep_refused(folder, scene, count):
    """Refuses each request for memory in turn, and those after it: so many in all. Returns the statuses that came."""
    library, statuses = build_refusing(folder), set()

    def refuse(number):
        place = folder / f"{count}-{number}"
        place.mkdir()
        scene.make(place)
        status, lines, is_met = run_refused(place, library, scene, number, count)
        try:
            judge_refused(place, scene, status, lines)
        except Failed as why:
            raise Failed(f"request {number}: {why}") from why
        statuses.add(status)
        return is_met

    with concurrent.futures.ThreadPoolExecutor(RUNS) as pool:
        for first in range(1, MOST_REQUESTS, RUNS):
            if not all(pool.map(refuse, range(first, first + RUNS))):
                expect(first > 1, "this test is wrong: it makes so few requests for memory")
                return statuses
    raise Failed(f"it makes more than {MOST_REQUESTS} requests for memory")


def check_memory_refused_once(folder):
    """Where one request for memory is refused the session doesn't begin, or nothing is lost."""
    for name, scene in (("a", scene_of_a_file()), ("d", scene_of_many())):
        (folder / name).mkdir()
        expect_equal(sweep_refused(folder / name, scene, 1), {0, 4}, "the statuses")


def check_memory_short_for_a_while(folder):
    """The same where several requests in a row are refused, and a signal comes meanwhile."""
    for name, scene in (("a", scene_of_a_file()), ("d", scene_of_many())):
        (folder / name).mkdir()
        expect_equal(sweep_refused(folder / name, scene, 4), {0, 4}, "the statuses")


def check_memory_out(folder):
    """Where memory is out for good what is lost is said, by the status, too."""
    expect_equal(sweep_refused(folder, scene_of_a_file(), FOR_GOOD), {0, 4, 5}, "the statuses")


def check_memory_out_at_a_close(folder):
    """The same where memory comes back a while after a file was closed: until then the server keeps its text."""
    stream = on_file(OPEN) + typed(1, 0, b"1") + on_file(CLOSE)
    scene = Scene(("a.txt",), stream, {"a.txt": ("one\n",)}, {"1one\n"})
    expect_equal(sweep_refused(folder, scene, UP_TO_A_CLOSE), {0, 4, 5}, "the statuses")


def check_two_names_without_memory(folder):
    """One file under two names is read once where memory is short for a moment, too, or the session doesn't begin."""
    library = build_refusing(folder)
    for names in (("a.txt", "./a.txt"), ("new", "./new")):
        scene, is_met, number = Scene(names, b"", {"a.txt": ("one\n",)}, set()), True, 0
        while is_met:
            number += 1
            place = folder / f"{names[0]}-{number}"
            place.mkdir()
            scene.make(place)
            status, lines, is_met = run_refused(place, library, scene, number, 1)
            is_told = sum("stands twice" in line for line in lines) == 1
            expect((status == 0 and is_told) or (status == 4 and is_met), f"{names}, request {number}: status {status}, and it says {lines}")
        expect(number > 5, "this test is wrong: it makes so few requests for memory")


def refuse_memory(process):
    """Has a process get no more memory than it has."""
    pages = int(Path(f"/proc/{process}/statm").read_text().split()[0])
    resource.prlimit(process, resource.RLIMIT_AS, (pages * resource.getpagesize(), resource.RLIM_INFINITY))


def type_without_memory(session, count):
    """Types so many words while the host gets no more memory, and waits until it has none. Returns the words."""
    refuse_memory(session.process.pid)
    words = "".join(f"{number:06} " for number in range(count))
    for at in range(0, len(words), 500):
        session.terminal.type(1, words[at : at + 500])
    session.terminal.flush_now()
    data = session.line.carried(session.terminal.take_out())
    stop(session.process)  # many edits at once take memory, where each alone may find room
    session.give_bare(data[:PIPE_ROOM])
    session.process.send_signal(signal.SIGCONT)
    session.give_bare(data[PIPE_ROOM:])
    wait_until(lambda: session.receive(0.1) and "samhost: out of memory; it is tried again" in session.lines, "memory is not out")
    return words


def end_without_memory(folder, count, end, is_lifted):
    """A session of which memory is out as it ends, and comes back half a second later, or doesn't. What has come before counts then, or the
    last status and a line say that it is lost."""
    made(folder, a="x" * 300_000)
    what = f"{count} words, lifted: {is_lifted}: "
    with Session(folder, "a.txt") as session:
        words = type_without_memory(session, count)
        end(session.process)
        time.sleep(0.5)
        if is_lifted:
            resource.prlimit(session.process.pid, resource.RLIMIT_AS, (resource.RLIM_INFINITY, resource.RLIM_INFINITY))
        while session.sources:
            expect(session.receive(GIVEN_UP), f"{what}it doesn't end")
        expect_equal(session.process.wait(GIVEN_UP), 0 if is_lifted else 5, f"{what}the status")
    copy = folder / "a.txt.sam-saved"
    if is_lifted:
        got = text_of(copy)
        expect(got == words + "x" * 300_000, f"{what}of the copy {len(got or '')} characters are there")
    else:
        expect_line(session.lines, "what came last from the terminal is lost: Cannot allocate memory", what)
    copy.unlink(missing_ok=True)


def check_signal_without_memory(folder):
    """What has come before a signal counts also where memory is out for it: that is tried again for a while."""
    for is_lifted in (True, False):
        end_without_memory(folder, 8000, lambda process: process.send_signal(signal.SIGTERM), is_lifted)


def check_end_without_memory(folder):
    """What has come before the end of the input waits for memory, whether the host has read up to there, or has no room for what comes
    before."""
    for count in (8000, 16000):
        end_without_memory(folder, count, lambda process: process.stdin.close(), True)


def check_half_closed_without_memory(folder):
    """So it is where a socket ends on one side, which shows only when it is read."""
    made(folder, a="x" * 300_000)
    ours, its = socket.socketpair()
    pipe = subprocess.PIPE
    with ours, subprocess.Popen([SAMHOST, "a.txt"], cwd=folder, stdin=its, stdout=pipe, stderr=pipe) as process:
        try:
            its.close()
            line, said = Line(), b""
            for end in (process.stdout, process.stderr):
                os.set_blocking(end.fileno(), False)

            def is_short():
                nonlocal said
                said += (process.stdout.read() or b"") + (process.stderr.read() or b"")
                return b"out of memory; it is tried again" in said

            ours.sendall(line.carried(on_file(OPEN)))
            wait_until(lambda: process.stdout.read(1), "it doesn't begin")
            refuse_memory(process.pid)
            stop(process)
            ours.sendall(line.carried(typed(1, 0, b"x" * 500) * 100))
            process.send_signal(signal.SIGCONT)
            wait_until(is_short, "memory is not out")
            ours.shutdown(socket.SHUT_WR)
            time.sleep(0.5)
            resource.prlimit(process.pid, resource.RLIMIT_AS, (resource.RLIM_INFINITY, resource.RLIM_INFINITY))
            expect_equal(process.wait(GIVEN_UP), 0, "the status")
            expect_equal(text_of(folder / "a.txt.sam-saved"), "x" * 350_000, "the copy")
        finally:
            process.kill()
