"""Messages, the lines that bring them, and how these end."""
import os
import re
import select
import shutil
import socket
import struct
import subprocess
import time
import tty
from pathlib import Path

from checks import GIVEN_UP, Skipped, expect, wait_until
from link_model import What

from .support import (
    AGE, CLOSE, CUT, EXIT, IDLE, LATE, NO_HELLO, OPEN, REQUEST, SAMHOST, WRITE, Line, Session, as_nobody, carried, expect_equal,
    expect_line, expect_only, front_of, made, message, names_in, on_file, own_lines, run_host, text_of, typed,
)  # fmt: skip

DATA, LAST = 73, 88  # frames: Hdata, Hexit


def check_moment_of_a_write(folder):
    """Messages that come at once: each write has the text and the name of its moment, and a close comes after the write before it."""
    made(folder, a="one\n", b="b\n")
    stream = b"".join(
        (
            on_file(OPEN, 2), on_file(OPEN), message(2), typed(1, 0, b"1"), on_file(WRITE), typed(1, 0, b"2"),
            typed(0, 0, b"f other.txt\n"), on_file(WRITE), typed(1, 0, b"3"), typed(2, 0, b"b"), on_file(WRITE, 2), on_file(CLOSE, 2),
            typed(1, 0, b"4"), on_file(CLOSE), message(EXIT),
        )
    )  # fmt: skip
    for size in (len(stream), 1, 2, 7):
        for name in ("other.txt", "other.txt.sam-saved"):
            (folder / name).unlink(missing_ok=True)
        made(folder, a="one\n", b="b\n")
        with Session(folder, "a.txt", "b.txt", begin=False) as session:
            whole = session.line.carried(stream)
            size = len(whole) if size == len(stream) else size
            for at in range(0, len(whole), size):
                session.give_bare(whole[at : at + size])
                if size > 2:
                    time.sleep(0.01)
            while session.sources:
                expect(session.receive(GIVEN_UP), "it doesn't end")
            expect_equal(session.process.wait(GIVEN_UP), 0, "the status")
        got = {name: text_of(folder / name) for name in names_in(folder) if name != "temporary"}
        wanted = {"a.txt": "1one\n", "b.txt": "bb\n", "other.txt": "21one\n", "other.txt.sam-saved": "4321one\n"}
        expect_equal(got, wanted, f"in pieces of {size}: what is there")


def check_many_edits(folder):
    """Edits that come together move a long text once, and not each: 50,000 places take the processor a third of a second, and else some
    seven."""
    line, count = "one, two, three\n", 50_000
    places = range(len(line) * (count - 1), -1, -len(line))
    (path,) = made(folder, a=line * count)
    edits = b"".join(message(CUT, struct.pack(">HII", 1, at + 5, at + 8)) + typed(1, at + 5, b"four") for at in places)
    with Session(folder, "a.txt", begin=False) as session:
        session.give(on_file(OPEN) + edits + on_file(WRITE) + message(EXIT))
        while session.sources:
            expect(session.receive(GIVEN_UP), "it doesn't end")
        status, took = session.wait_for_times()
        expect_equal(status, 0, "the status")
    expect(took < 2, f"it took the processor {took:.1f} seconds")
    expect(text_of(path) == "one, four, three\n" * count, "the file has another text")


def texts_of(frames):
    """The kinds of the host's frames, and what its Hdata bring."""
    kinds, texts = [], []
    while frames:
        end = 3 + int.from_bytes(frames[1:3], "big")
        kinds.append(frames[0])
        texts += [frames[3 + 14 : end]] if frames[0] == DATA else []
        frames = frames[end:]
    return kinds, b"".join(texts).decode()


def reset_line(stream):
    """A socket that has some bytes, and then an error: the other side has gone while something for it was not read."""
    ours, its = socket.socketpair()
    ours.sendall(stream)
    its.send(b"unread")
    ours.close()
    return its.detach()


def hung_up_line(stream):
    """A terminal that has some bytes, and then an error: nobody holds its other side any more."""
    its, ours = os.openpty()
    tty.setraw(ours)
    os.write(ours, stream)
    os.close(ours)
    return its


def check_broken_input(folder):
    """An input that breaks is no end: that is said by its name, and by the status. What has come counts, and the text is saved."""
    made(folder, a="one\n")
    copy = folder / "a.txt.sam-saved"
    for line, why in ((reset_line, "Connection reset by peer"), (hung_up_line, "Input/output error")):
        source = line(carried(on_file(OPEN) + typed(1, 0, b"two ")))
        ended = subprocess.run([SAMHOST, "a.txt"], cwd=folder, stdin=source, capture_output=True, timeout=GIVEN_UP)
        os.close(source)
        wanted = [f"standard input can't be read: {why}", "a.txt was not written; its text is in a.txt.sam-saved"]
        expect_equal(own_lines(ended.stderr), [f"samhost: {words}" for words in wanted], "what it says")
        expect_equal(ended.returncode, 6, f"{why}: the status")
        expect_equal(text_of(copy), "two one\n", f"{why}: the copy")
        copy.unlink()


def check_broken_output(folder):
    """So is an output that can't be written, once the input ends."""
    made(folder, a="one\n")
    stream = carried(on_file(OPEN) + typed(1, 0, b"two "))
    with open("/dev/full", "wb") as full:
        ended = subprocess.run([SAMHOST, "a.txt"], cwd=folder, input=stream, stdout=full, stderr=subprocess.PIPE, timeout=GIVEN_UP)
    wanted = ["standard output can't be written: No space left on device", "a.txt was not written; its text is in a.txt.sam-saved"]
    expect_equal(own_lines(ended.stderr), [f"samhost: {words}" for words in wanted], "what it says")
    expect_equal(ended.returncode, 6, "the status")
    expect_equal(text_of(folder / "a.txt.sam-saved"), "two one\n", "the copy")


def check_input_that_does_not_block(folder):
    """An input that has nothing yet, and says so, is waited for."""
    made(folder, a="one\n")
    source, sink = os.pipe()
    os.set_blocking(source, False)
    words = [SAMHOST, "a.txt"]
    with subprocess.Popen(words, cwd=folder, stdin=source, stdout=subprocess.DEVNULL, stderr=subprocess.DEVNULL) as process:
        os.close(source)
        time.sleep(1)
        line = Line()
        for piece in (on_file(OPEN), typed(1, 0, b"two ")):
            os.write(sink, line.carried(piece))
            time.sleep(0.1)
        os.close(sink)
        _, status, used = os.wait4(process.pid, 0)
        process.returncode = os.waitstatus_to_exitcode(status)
    expect_equal(process.returncode, 0, "the status")
    expect(used.ru_utime + used.ru_stime < 0.5, f"it took the processor {used.ru_utime + used.ru_stime:.1f} seconds")
    expect_equal(text_of(folder / "a.txt.sam-saved"), "two one\n", "the copy")


def check_input_that_fails_for_once(folder):
    """A read that says that nothing is there yet, or that a signal came, is made again."""
    if shutil.which("strace") is None:
        raise Skipped("no strace")
    made(folder, a="one\n")
    os.mkfifo(folder / "input")
    for error in ("EAGAIN", "EINTR"):
        words = ("strace", "-qq", "-o", "/dev/null", "-P", folder / "input", "-e", f"inject=read:error={error}:when=1+2", SAMHOST, "a.txt")
        both = os.open(folder / "input", os.O_RDWR)  # so neither side waits for the other
        os.write(both, carried(on_file(OPEN) + typed(1, 0, b"two ")))
        source = os.open(folder / "input", os.O_RDONLY)
        os.close(both)
        ended = subprocess.run(words, cwd=folder, stdin=source, capture_output=True, timeout=GIVEN_UP)
        os.close(source)
        wanted = ["samhost: a.txt was not written; its text is in a.txt.sam-saved"]
        expect_equal(own_lines(ended.stderr), wanted, f"{error}: what it says")
        expect_equal(ended.returncode, 0, f"{error}: the status")
        expect_equal(text_of(folder / "a.txt.sam-saved"), "two one\n", f"{error}: the copy")
        (folder / "a.txt.sam-saved").unlink()


def check_slow_reader(folder):
    """While nobody reads what the host answers it keeps what the pipe has no room for, and sleeps. All is sent, also after an exit."""
    text = "".join(f"{at:07} " for at in range(20_000))
    made(folder, a=text)
    requests = b"".join(message(REQUEST, struct.pack(">HIH", 1, at, 512)) for at in range(0, len(text), 512))
    with Session(folder, "a.txt", begin=False) as session:
        session.give(on_file(OPEN) + requests + message(EXIT))
        time.sleep(1)
        frames, data = b"", b"begun"
        while data:
            expect(select.select([session.process.stdout], [], [], GIVEN_UP)[0], "it sends no more, and doesn't end")
            data = os.read(session.process.stdout.fileno(), 65536)
            frames += session.line.heard(data)[0] if data else b""
        status, took = session.wait_for_times()
        expect_equal(status, 0, "the status")
    expect(took < 0.5, f"it took the processor {took:.1f} seconds")
    kinds, got = texts_of(frames)
    expect(got == text and kinds[-1] == LAST, f"it sends {len(got)} characters of {len(text)}, and ends in kind {kinds[-1]}")


def check_faults(folder):
    """A wrong message is found also where it comes in pieces, or is cut off by the end. One that is cut off and not wrong is the end of the
    input."""
    made(folder, a="one\n")
    half_a_close, wrong_length = on_file(CLOSE)[:4], b"\x0e\x00\x05"
    wrong = (b"\xff", wrong_length, on_file(CLOSE, 9), on_file(CLOSE, 0))
    cut_off = (half_a_close, on_file(CLOSE)[:1], typed(1, 0, b"ab")[:-1])
    for stream, status in (*((stream, 3) for stream in wrong), *((stream, 0) for stream in cut_off), (b"", 0)):
        got, lines = run_host(folder, [SAMHOST, "a.txt"], stream)
        expect_equal(got, status, f"the status after {stream}")
        said = ["samhost: the terminal's stream is wrong"] if status == 3 else []
        expect_equal([line.partition(" (")[0] for line in lines], said, f"what it says after {stream}")
    expect_only(folder, "a.txt")


def check_without_a_hello(folder):
    """A host that no terminal greets says what to use, and by its status what came; where another session is meant, or one is resumed or
    taken over, the terminal's hello is refused. A packet that is wrong is a wrong stream."""
    made(folder, a="one\n")
    hello = carried(b"")

    def ran(given, *words):
        ended = subprocess.run([SAMHOST, *words, "a.txt"], cwd=folder, input=given, capture_output=True, timeout=GIVEN_UP)
        return ended.returncode, own_lines(ended.stderr), ended.stdout[9:10]

    expect_equal(ran(b""), (6, [NO_HELLO], b""), "without a byte status, lines and refusal")
    expect_equal(ran(hello[:20]), (6, [NO_HELLO], b""), "inside a hello")
    expect_equal(ran(b"\x16\0\0" + bytes(60)), (3, [NO_HELLO], bytes([What.NOT_A_LINK])), "with what is no hello")
    for what in (What.RESUME, What.TAKE_OVER):
        expect_equal(ran(hello[:9] + bytes([what]) + hello[10:]), (7, [], bytes([What.NO_SESSION])), f"with {what.name}")
    expect_equal(ran(hello, "--serve", "0123456789abcdef", "--stay", "0"), (7, [], bytes([What.OTHER_SESSION])), "with another id")
    wanted = (3, ["samhost: the terminal's stream is wrong (status 203)"], bytes([What.WELCOME]))
    expect_equal(ran(hello + b"\x09\0\0"), wanted, "with a wrong packet")
    expect_only(folder, "a.txt")


def check_bytes_kept(folder):
    """Lines that end in CR LF, NUL and all kinds of runes come out as they came in."""
    text = "one\r\ntwo\r\n\0\u2028\ufeffé豆\U0001f600\r\rend"
    (path,) = made(folder, a=text)
    with Session(folder, "a.txt") as session:
        session.type("\r\n")
        session.write()
        expect_equal(path.read_bytes(), (text + "\r\n").encode(), "the file")
        session.end()


def check_refused(folder):
    """Files that are no texts, too long ones, and those that can't be read."""
    made(folder)
    prefix = as_nobody(folder)
    (folder / "secret.txt").write_text("secret")
    (folder / "secret.txt").chmod(0)
    (folder / "latin.txt").write_bytes(b"caf\xe9\n")
    (folder / "long.txt").write_bytes(b"x" * 1_000_001)
    (folder / "longer.txt").write_bytes(b"x" * 4_000_001)
    (folder / "loop").symlink_to("loop")
    for name, why in (
        ("latin.txt", "it is not UTF-8"), ("long.txt", "it is longer than 1,000,000 characters"),
        ("longer.txt", "it is longer than 1,000,000 characters"), ("/dev/null", "it is not a regular file"),
        ("loop", "Too many levels of symbolic links"),
        ("secret.txt", "Permission denied"),
    ):  # fmt: skip
        ended = subprocess.run([*prefix, SAMHOST, name], cwd=folder, input=b"", capture_output=True, timeout=GIVEN_UP)
        expect_equal((ended.returncode, ended.stderr.decode()), (1, f"samhost: {name}: {why}\n"), f"of {name} status and line")
    (folder / "good.txt").write_text("good\n")
    with Session(folder, "latin.txt", "good.txt", "long.txt") as session:
        expect_equal(session.told(), ["samhost: latin.txt: it is not UTF-8", "samhost: long.txt: it is longer than 1,000,000 characters"], "what it says")
        expect_equal([session.terminal.name(tag) for tag in session.terminal.files()][1:2], ["good.txt"], "the file that it has")
        session.end()


def check_read_only(folder):
    """Of a file that can't be written that is said at once, and its text can be read."""
    made(folder, a="one\n")
    prefix = as_nobody(folder)
    (folder / "a.txt").chmod(0o444)
    wanted = (0, ["samhost: a.txt can only be read: Permission denied"])
    expect_equal(run_host(folder, [*prefix, SAMHOST, "a.txt"]), wanted, "status and line")


def check_longest(folder):
    """The longest text of the longest runes."""
    (path,) = made(folder, a="\U0001f600" * 999_999)
    with Session(folder, "a.txt") as session:
        session.type("\U0001f601")
        session.write()
        expect_equal(session.told(), [], "what it says")
        session.end()
    expect_equal(path.stat().st_size, 4_000_000, "the length of the file")
    expect(path.read_bytes().endswith("\U0001f600\U0001f601".encode()), "the end of the file is wrong")


def check_long_names(folder):
    """A name so long that nothing fits after it: its copy has the front of it, in whole characters, and a number of all of it. It is found
    again, as none of a file whose name has the same front."""
    for front in ("", "x"):
        place = folder / f"of {len(front)}"
        place.mkdir()
        made(place)
        name, other = front + "é" * 114 + ".txt", front + "é" * 114 + ".text"
        copy = front + "é" * 91 + "-" + front_of(name)[:16] + ".sam-saved"
        (place / name).write_text("one\n")
        (place / other).write_text("other\n")
        with Session(place, name) as session:
            session.type("two\n")
            session.end()
        expect_only(place, name, other, copy)
        with Session(place, name, other) as session:
            expect_equal(len(session.lines), 1, f"how much it says, in {session.lines}: it")
            expect_line(session.lines, f"{name} has a text that was not written: it is in {copy}{AGE}")
            session.type("two\n")
            session.write()
            session.end()
        expect_equal(text_of(place / name), "one\ntwo\n", "the file")


def check_sleeps(folder):
    """A quiet host costs nothing, also after it has saved a text."""
    made(folder, a="one\n")
    with Session(folder, "a.txt") as session:
        session.type("two\n")
        wait_until((folder / "a.txt.sam-saved").exists, "the text is not saved", IDLE + LATE)
        status = Path(f"/proc/{session.process.pid}/status")

        def switches():
            return int(re.search(r"^voluntary_ctxt_switches:\s*(\d+)", status.read_text(), re.MULTILINE).group(1))

        time.sleep(0.3)
        before = switches()
        time.sleep(3)
        expect(switches() - before <= 1, f"it wakes {switches() - before} times in three quiet seconds")
