"""A terminal's end of a session, written from docs/reference/SESSION.md, LINK.md and PROTOCOL.md alone: it shares no line with the library.

It opens a path, types, sees a write succeed and one fail, is taken over by another of its kind, which ends the session.
"""
import contextlib
import os
import struct
import subprocess

from checks import expect

from .support import SAMHOST, expect_equal

MARK = bytes.fromhex("8973616d6c696e6b")
BEGIN, TAKE_OVER, WELCOME = 1, 3, 4
DATA, NOTE, ACKNOWLEDGEMENT, ASK = 1, 2, 3, 4
MOST_BODY = 4096
# Messages of the core, by their numbers: those that this end makes, and the last ones of their answers.
VERSION, START_FILE, TYPE, WRITE, EXIT = 1, 6, 8, 13, 22
UNLOCKED, DIRTY, EXITED = 72, 80, 88
# Messages of the session, and their fields.
OPEN, WRITES, SESSION, TAKEN_OVER, ENDED, OPENED, SAVED, NOT_SAVED = 1, 5, 65, 68, 69, 70, 74, 75
FIELDS = {
    OPEN: "rp", 2: "rp", 3: "rt", 4: "tn", WRITES: "rt", SESSION: "npw", 66: "w", 67: "tn", TAKEN_OVER: "w", ENDED: "cn", OPENED: "rt",
    71: "rcw", 72: "rcp", 73: "rn", SAVED: "rtcpkw", NOT_SAVED: "rtcpkw", 76: "tcpw", 77: "tnp", 78: "tcnpkw", 79: "tcpkw", 80: "tcpw",
    81: "cw",
}  # fmt: skip
WIDTHS = {"r": ">I", "t": ">H", "c": ">B", "n": ">Q"}  # request, tag, code, number; then path, copy (k) and words


def written(kind, **fields):
    """The bytes of a message of the session."""
    values = ((name, fields.get(name, 0 if name in WIDTHS else b"")) for name in FIELDS[kind])
    parts = (struct.pack(WIDTHS[name], value) if name in WIDTHS else struct.pack(">H", len(value)) + value for name, value in values)
    return bytes([kind]) + b"".join(parts)


def read(data):
    """The kind and the fields of a message; None for a kind of a later version."""
    if data[0] not in FIELDS:
        return None
    message, at = {"kind": data[0]}, 1
    for name in FIELDS[data[0]]:
        form = WIDTHS.get(name, ">H")
        (value,) = struct.unpack_from(form, data, at)
        at += struct.calcsize(form)
        if name not in WIDTHS:
            value, at = data[at : at + value], at + value
        message[name] = value
    expect_equal(at, len(data), "what is read of a message")
    return message


class End:
    """One connection of a terminal to a session."""

    def __init__(self, folder, what, *words):
        pipe, self.environment = subprocess.PIPE, {**os.environ, "XDG_STATE_HOME": str(folder / "state"), "TMPDIR": str(folder)}
        self.id, self.came, self.core, self.messages = os.urandom(16), 0, b"", []
        words = [word.replace("NAME", self.id[:8].hex()) for word in words]
        self.process = subprocess.Popen([SAMHOST, *words], cwd=folder, stdin=pipe, stdout=pipe, bufsize=0, env=self.environment)
        self.send(MARK + bytes([1, what]) + self.id + struct.pack(">QQ", 1, 0))
        hello = self.take(42)
        expect(hello[:10] == MARK + bytes([1, WELCOME]) and hello[10:26] == self.id, f"the host says {hello.hex()}")

    def __enter__(self):
        return self

    def __exit__(self, *_):
        self.process.stdin.close()
        self.process.stdout.close()
        self.process.wait()

    def send(self, data):
        while data:
            data = data[os.write(self.process.stdin.fileno(), data) :]

    def take(self, count):
        data = b""
        while len(data) < count:
            more = os.read(self.process.stdout.fileno(), count - len(data))
            expect(more != b"", "the stream ends")
            data += more
        return data

    # ---- The link

    def put(self, kind, body=b""):
        self.send(struct.pack(">BH", kind, len(body)) + body)

    def hear(self):
        """The next packet. Each is acknowledged at once, but for acknowledgements, and for the last one of a connection that is over."""
        kind, length = struct.unpack(">BH", self.take(3))
        body = self.take(length)
        self.came += 3 + length
        if kind == DATA:
            self.core += body
        elif kind == NOTE:
            self.messages.append(read(body))
        with contextlib.suppress(BrokenPipeError):
            if kind != ACKNOWLEDGEMENT:
                self.put(ACKNOWLEDGEMENT, struct.pack(">Q", self.came))

    def message(self, *kinds):
        """The next message of one of these kinds; those before it are dropped."""
        while True:
            while self.messages:
                message = self.messages.pop(0)
                if message is not None and message["kind"] in kinds:
                    return message
            self.hear()

    # ---- The core

    def ask(self, kind, fields, answer):
        """Sends a message of the core, and hears until a frame of a kind has come. Returns the bodies of such frames."""
        self.put(DATA, struct.pack(">BH", kind, len(fields)) + fields)
        return self.frame(answer)

    def frame(self, wanted):
        while True:
            while len(self.core) >= 3:
                kind, length = struct.unpack_from(">BH", self.core)
                if len(self.core) < 3 + length:
                    break
                body, self.core = self.core[11 : 3 + length], self.core[3 + length :]
                if kind == wanted:
                    return body
            self.hear()

    def open(self, tag):
        """Has the host open a file, whose name the answer to a Tversion tells."""
        self.ask(VERSION, struct.pack(">H", 2), UNLOCKED)
        self.ask(START_FILE, struct.pack(">H", tag), UNLOCKED)

    def write(self, tag, request):
        """Has the host write a file. Returns what became of that."""
        self.put(NOTE, written(WRITES, r=request, t=tag))
        self.put(DATA, struct.pack(">BHH", WRITE, 2, tag))
        return self.message(SAVED, NOT_SAVED)


def joined(end, path, request):
    """The tag of the file at a path."""
    end.put(NOTE, written(OPEN, r=request, p=str(path).encode()))
    answer = end.message(OPENED)
    expect_equal(answer["r"], request, "the request that is answered")
    return answer["t"]


def check_second_end(folder):
    """An end that was written from the pages alone opens a path, sees a write succeed and one fail, is taken over, and the one that takes
    it over ends the session."""
    path, gone = folder / "a file.txt", folder / "gone"
    path.write_text("world\n")
    gone.mkdir()
    with End(folder, BEGIN, "--serve", "NAME") as first:
        begun = first.message(SESSION)
        name = begun["p"].decode()
        expect_equal((begun["n"], name), (1, first.id[:8].hex()), "version and name")
        tag = joined(first, path, 7)
        first.open(tag)
        first.put(DATA, struct.pack(">BHHI", TYPE, 6 + 6, tag, 0) + b"hello ")
        saved = first.write(tag, 8)
        wanted = {"kind": SAVED, "r": 8, "t": tag, "c": 0, "p": str(path).encode(), "k": b""}
        expect_equal({key: saved[key] for key in wanted}, wanted, "what a write is answered")
        expect_equal(path.read_text(), "hello world\n", "the file")
        lost = joined(first, gone / "b.txt", 9)
        first.open(lost)
        gone.rmdir()
        first.put(DATA, struct.pack(">BHHI", TYPE, 6 + 1, lost, 0) + b"x")
        failed = first.write(lost, 10)
        expect_equal((failed["kind"], failed["r"], failed["t"], failed["c"]), (NOT_SAVED, 10, lost, 4), "a write that fails")
        expect_equal(first.frame(DIRTY), struct.pack(">H", lost), "the file that is dirty then")
        copy = failed["k"].decode()
        expect(copy != "" and (folder / copy).read_text() == "x", f"its text is in {copy!r}")
        with End(folder, TAKE_OVER, "--take", name) as second:
            expect(first.message(TAKEN_OVER)["w"] != b"", "the machine that took it over isn't told")
            second.message(SESSION)
            second.ask(EXIT, b"", EXITED)
            expect_equal(second.message(ENDED)["n"], 0, "the status at the end")
            ending = subprocess.run([SAMHOST, "--end", second.id[:8].hex()], cwd=folder, env=second.environment, stderr=subprocess.DEVNULL)
            expect(ending.returncode in (0, 7), f"the status of --end is {ending.returncode}")  # it may be gone: all was acknowledged
