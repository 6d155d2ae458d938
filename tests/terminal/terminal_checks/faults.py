"""Signals, faults of the editor, descriptors that are out, and the host's stream in pieces and with faults."""
import contextlib
import os
import random
import resource
import shlex
import signal
import struct
import subprocess
import sys
from pathlib import Path

from .left_texts import open_left
from .pairs import Ends, Line
from .support import ROOT, SAMHOST_WORD, SAMTERM, SAMTERM_WORD, Failed, Session, expect, host_that, made, stat_of, wait_for_text, wait_until


def check_signals(folder):
    """Signals end the session with statuses of their own, and the host saves the text."""
    for number in (signal.SIGTERM, signal.SIGHUP, signal.SIGINT, signal.SIGQUIT):
        place = folder / str(int(number))
        place.mkdir()
        made(place, a="one\n")
        with Session(place, "a.txt") as session:
            session.wait_for("one")
            session.type("typed ")
            session.wait_for("typed one")
            terminal = next(process for name, process in session.processes().items() if name.startswith("python"))
            os.kill(terminal, number)
            session.wait_for_end(128 + number)
            wait_for_text(place / "a.txt.sam-saved", "typed one\n")
        told = (place / "stderr").read_text()
        expect("a.txt.sam-saved" in told and "sam-here" not in told, f"it tells {told!r}")


def check_goes_on(folder):
    """A program that was stopped sets its screen up again."""
    made(folder, a="one\n")
    with Session(folder, "a.txt") as session:
        session.wait_for("one")
        terminal = next(process for name, process in session.processes().items() if name.startswith("python"))
        tty = session.tmux("display-message", "-p", "#{pane_tty}").strip()
        os.kill(terminal, signal.SIGSTOP)
        subprocess.run(["stty", "-F", tty, "sane"], check=True)
        Path(tty).write_text("\x1b[2J\x1b[Hnoise of a shell")
        session.wait_for("noise of a shell")
        os.kill(terminal, signal.SIGCONT)
        session.wait_for("one")
        wait_until(lambda: not session.shows("noise"), "the noise stays")
        Path(tty).write_text("\x1b[Hnoise of another")
        session.wait_for("noise of another")
        session.keys("F5")
        wait_until(lambda: not session.shows("noise"), "F5 draws nothing anew")
        session.type("x")
        session.wait_for("xone")
        session.leave_unwritten()


def check_suspend(folder):
    """Two keys and a signal give the terminal back to the shell, whose `fg` goes on."""
    for at, key in enumerate(("F12", "C-\\", None)):
        place = folder / str(at)
        place.mkdir()
        made(place, a="one\n")
        line = f"{SAMTERM_WORD} --details --host {shlex.quote(SAMHOST_WORD)} a.txt; echo back in the shell; read x; fg"
        with Session(place, "a.txt", program=f"bash --norc -ic {shlex.quote('set -m; ' + line)} --") as session:
            session.wait_for("one")
            if key:
                session.keys(key)
            else:
                terminal = next(process for name, process in session.processes().items() if name.startswith("python"))
                os.kill(terminal, signal.SIGTSTP)
            session.wait_for("back in the shell")
            session.keys("Enter")
            session.wait_for("| up ")
            session.wait_for("one")
            session.type("x")
            session.wait_for("xone")
            session.leave_unwritten()


def texts_beside(path):
    """What copies of a file hold. One may go, or get its name, while this looks."""
    texts = []
    for copy in path.parent.glob(f"{path.name}.sam-*"):
        with contextlib.suppress(OSError):
            texts.append(copy.read_text())
    return texts


def check_hangup_while_suspended(folder):
    """The user's screen is gone while the program is stopped: it ends as by a hangup, and what came of a paste is saved, by the host if
    that is still there."""
    made(folder, a="one\n")
    line = f"{SAMTERM_WORD} --details --host {shlex.quote(SAMHOST_WORD)} a.txt; echo back in the shell; read x; fg"
    with Session(folder, "a.txt", program=f"bash --norc -ic {shlex.quote('set -m; ' + line)} --") as session:
        session.wait_for("one")
        session.tmux("send-keys", "-H", *(f"{byte:x}" for byte in b"\x1b[200~pasted "))
        session.wait_for("Esc twice")
        terminal = next(process for name, process in session.processes().items() if name.startswith("python"))
        os.kill(terminal, signal.SIGTSTP)
        session.wait_for("back in the shell")
        session.tmux("kill-session")
        wait_until(lambda: (stat_of(terminal) or "Z")[0] == "Z", "it doesn't end")
        wait_until(lambda: "pasted one\n" in texts_beside(folder / "a.txt"), "what came is saved nowhere")
    told = (folder / "stderr").read_text()
    has_it = "a.txt.sam-" in told or "the session stays at the host. " in told  # else it says what that may lack
    expect(has_it and "Traceback" not in told, f"it tells {told!r}")


def check_exception(folder):
    """A fault of the editor ends the host's link, sets the screen back, and shows what the host told. What was typed at once with the key
    that meets it is written here."""
    made(folder, a="one\n")
    broken = folder / "broken.py"
    broken.write_text(
        f"import runpy, sys\nsys.path[:0] = [{str(SAMTERM.parents[1])!r}, {str(ROOT / 'bindings' / 'python')!r}]\n"
        "sys.dont_write_bytecode = True\n"
        "from terminal.keys.actions import Actions\n\ndef broken(self):\n    raise RuntimeError('broken on purpose')\n\nActions.do_help = broken\n"
        f"sys.argv[0] = {str(SAMTERM)!r}\nrunpy.run_path({str(SAMTERM)!r}, run_name='__main__')\n"
    )
    with Session(folder, "a.txt", program=f"{sys.executable} {broken}") as session:
        session.wait_for("one")
        session.type("typed ")
        session.wait_for("typed one")
        session.tmux("send-keys", "-H", *(f"{byte:x}" for byte in b"\x1bOPafter"))  # F1 and a text
        session.wait_for_end(1)
        wait_for_text(folder / "a.txt.sam-saved", "typed one\n")
        wait_for_text(folder / "typed.sam-here", "after")
    told = (folder / "stderr").read_text()
    expect("broken on purpose" in told and "a.txt.sam-saved" in told, f"it tells {told!r}")


@contextlib.contextmanager
def no_descriptors(process):
    """A process can open nothing more meanwhile."""
    before, used = resource.prlimit(process, resource.RLIMIT_NOFILE), {int(entry.name) for entry in Path(f"/proc/{process}/fd").iterdir()}
    resource.prlimit(process, resource.RLIMIT_NOFILE, (min({*range(len(used) + 1)} - used), before[1]))
    try:
        yield
    finally:
        resource.prlimit(process, resource.RLIMIT_NOFILE, before)


def check_descriptors_are_out_on_a_lost_line(folder):
    """Where samterm can open nothing more while the line is lost, it goes on: texts are written here all the same, and no longer once the
    line is back."""
    (path,) = made(folder, a="one\n")
    block, here = folder / "block", folder / "a.txt.sam-here"
    host = host_that(folder, f"[ ! -e {block} ] || exit 1", f'exec {SAMHOST_WORD} "$@"')
    with Session(folder, "a.txt", host=host, stays=True, width=120) as session:
        session.wait_for("one")
        session.wait_for_quiet()
        block.touch()
        session.break_line()
        session.wait_for_seconds(r"LINE LOST \d+ s, again in", 3)  # so none is in the way of a connection
        with no_descriptors(session.terminal()):
            for typed in ("x", "xy"):
                session.type(typed[-1])
                session.wait_for(f"{typed}one")
                wait_for_text(here, f"{typed}one\n")
            block.unlink()
            session.wait_for_seconds("LINE LOST", 5)
            session.keys("F5")  # no connection can be made
            session.type("z")
            session.wait_for("xyzone")
        session.keys("F5")
        wait_until(lambda: not session.shows("LINE LOST"), "the line doesn't come back")
        wait_until(lambda: not here.exists(), "the copy stays")
        session.keys("C-w")
        wait_for_text(path, "xyzone\n")
        session.leave()


def check_descriptors_are_out_at_a_key(folder):
    """A key for which samterm has to open a file says why it can't act, and acts once it can."""
    made(folder, a="one\n")
    (folder / "a.txt.sam-saved").write_text("two\n")
    with Session(folder, "a.txt", width=140) as session:
        session.wait_for("newer than the file; F9 takes it")
        session.read()
        open_left(session, "a.txt: ")
        with no_descriptors(session.terminal()):
            session.type("c")
            session.wait_for("that can't be done now: ")
        session.type("c")
        session.wait_for("+ two")
        session.keys("Escape")
        wait_until(lambda: not session.shows("+ two"), "Esc doesn't end the list")
        session.leave()


BINDNAME, NEWNAME, GROW, DATA, SETDOT, GROWDATA, DIRTY, CUT = 66, 68, 70, 73, 76, 77, 80, 81


def frame(kind, tag, *numbers, text=""):
    """The bytes of a frame of the host."""
    body = struct.pack(">QH", 0, tag) + b"".join(struct.pack(">I", number) for number in numbers) + text.encode()
    return struct.pack(">BH", kind, len(body)) + body


def opening(tag, text, parts=()):
    """The frames that open a file, of which some parts are loaded."""
    loads = [frame(DATA, tag, start, text=text[start:end]) for start, end in parts]
    return [frame(NEWNAME, tag), frame(BINDNAME, tag), frame(GROW, tag, 0, len(text)), *loads]


def some_edits(numbers, lengths):
    """Frames that change files of these lengths, by the tag: mostly edits from the last place to the first, as a command line makes them,
    and some that change again what others have changed."""
    frames, tag, place, has_gaps = [], 1, 0, numbers.random() < 0.7
    for _ in range(60):
        draw = numbers.random()
        if draw < 0.1:
            tag = numbers.choice(sorted(lengths))
        length = lengths[tag]
        place = max(0, place - numbers.randrange(6)) if draw < 0.8 and place <= length else numbers.randrange(length + 1)
        count, text = min(length - place, numbers.randrange(4)), numbers.choice(("b", "", "日\n", "long " * 9))
        came = ((CUT, -count, (count,), ""), (GROWDATA, len(text), (), text), (GROW, count, (count,), ""), (DIRTY, 0, None, ""))
        for kind, more, words, runes in numbers.choice((came[:2], came[:2], came[:1], came[1:2], came[2:] if has_gaps else came[3:])):
            lengths[tag] += more
            frames.append(frame(kind, tag) if words is None else frame(kind, tag, place, *words, text=runes))
    return frames


class Fed:
    """An editor that is fed a host's frames, and what it tells of them."""

    def __init__(self, numbers):
        from terminal.editor import Editor
        from terminal.text.client_terminal import ClientTerminal
        from terminal.text.texts import GAP

        self.ends = Ends()
        self.terminal = ClientTerminal(self.ends.client)
        self.editor = Editor(self.terminal, Line())
        self.told, self.tags, self.loaded = [], (1, 2), {}  # what is told of edits; the files, and their texts as far as they are loaded
        self.editor.texts.listeners.append(self.told.extend)
        for tag in self.tags:
            text = "".join(numbers.choice("ab\n日") for _ in range(400))
            parts = numbers.choice(([], [(0, 400)], [(at, at + 9) for at in range(0, 390, numbers.randrange(10, 200))]))
            self.loaded[tag] = "".join(rune if any(start <= at < end for start, end in parts) else GAP for at, rune in enumerate(text))
            self.feed(b"".join(opening(tag, text, parts)))
            self.editor.window_of(tag)._top = numbers.randrange(len(text))
            self.editor.numbers.set(tag, numbers.randrange(len(text)), 7)
        self.editor.log.goes = "a"

    def feed(self, data=b""):
        self.ends.bring(data)
        self.editor.go_on()

    def lengths(self):
        return {tag: self.terminal.len(tag) for tag in self.tags}

    def state(self):
        """All that the edits have changed."""
        editor, tags = self.editor, self.tags
        steps = {tag: [step.changes for step in steps] for tag, steps in editor.log.past.items()}
        files = [(editor.texts.read(tag, 0, 10_000), editor.window_of(tag).top, editor.keeping._changes[tag]) for tag in tags]
        return self.told, files, steps, editor.numbers._known


class ShortOfMemory:
    """The library, which now and then has no memory as a client goes on: before the first step, or behind some edits."""

    def __init__(self, library, numbers):
        self.library, self.numbers, self.refusals = library, numbers, 0

    def __getattr__(self, name):
        call = getattr(self.library, name)
        if name != "sam_client_step_edits":
            return call
        short = lambda *words: self._step_edits(call, *words)  # noqa: E731
        short.argtypes = call.argtypes
        return short

    def _step_edits(self, call, *words):
        from sulgrevad import ClientEventKind, Status

        steps, changes, kind = self.numbers.choice((None,) * 7 + (0, 1, 2)), words[2]._obj, words[3]._obj
        if steps is None:
            return call(*words)
        if steps > 0:
            most, changes.most = changes.most, steps
            code = call(*words)
            changes.most = most
            if code != Status.OK or kind.value != ClientEventKind.BUSY:
                return code
        self.refusals += 1
        return int(Status.UNFINISHED)


def pieces_of(numbers, data, most):
    """A stream in pieces of random lengths."""
    while data:
        count = numbers.randint(1, most)
        yield data[:count]
        data = data[count:]


def check_stream_in_pieces(folder):
    """However the host's stream is cut, the same is told of each edit, and the same is known for undo: what went and what came."""
    from terminal.text.texts import GAP, Change

    for seed in range(40):
        one_by_one = Fed(random.Random(seed))
        frames = some_edits(random.Random(seed), one_by_one.lengths())
        texts, wanted = one_by_one.loaded, []
        got = [one_by_one.editor.texts.read(tag, 0, 400) for tag in texts]
        expect(got == list(texts.values()), f"seed {seed}: it reads {got}, wanted {texts}")
        for each in frames:
            one_by_one.feed(each)
            kind, tag, place = each[0], *struct.unpack_from(">HI", each + bytes(4), 11)
            text, came = texts[tag], ""
            if kind == GROWDATA:
                came = each[17:].decode()
            count = int.from_bytes(each[17:21], "big") if kind in (CUT, GROW) else 0
            if kind == GROW:
                came, count = GAP * count, 0
            if kind != DIRTY and (count or came):
                wanted.append(Change(tag, place, text[place : place + count], came))
                texts[tag] = text[:place] + came + text[place + count :]
        state = one_by_one.state()
        expect(state[0] == wanted, f"seed {seed}: one by one it tells {state[0]}, wanted {wanted}")
        expect([file[0] for file in state[1]] == list(texts.values()), f"seed {seed}: the texts are {state[1]}")
        for most in (1, 7, 60, 500, 1_000_000):
            fed = Fed(random.Random(seed))
            for piece in pieces_of(random.Random(seed + most), b"".join(frames), most):
                fed.feed(piece)
            expect(fed.state() == state, f"seed {seed}, {most} bytes: {fed.state()}, wanted {state}")


def check_stream_without_memory(folder):
    """Where memory is wanting now and then no edit is lost, and none is told twice, though some of them wait in the client."""
    from sulgrevad import sides

    for seed in range(40):
        quick, slow = Fed(random.Random(seed)), Fed(random.Random(seed))
        frames = some_edits(random.Random(seed), quick.lengths())
        quick.feed(b"".join(frames))
        numbers, library = random.Random(seed), sides.LIBRARY
        short = sides.LIBRARY = ShortOfMemory(library, numbers)
        try:
            for piece in [*pieces_of(numbers, b"".join(frames), 300), *[b""] * 1000]:
                with contextlib.suppress(MemoryError):
                    slow.feed(piece)
        finally:
            sides.LIBRARY = library
        expect(short.refusals > 20, f"seed {seed}: this test is wrong: memory was out {short.refusals} times")
        expect(slow.state() == quick.state(), f"seed {seed}: {slow.state()}, wanted {quick.state()}")


def check_texts_that_are_read_anew(folder):
    """After memory was out in the middle of a change each later one of the host's is made once, though nobody has looked at the text
    meanwhile; and what went by it counts as not known."""
    from terminal.text.texts import GAP

    for seed in range(40):
        quick, slow = Fed(random.Random(seed)), Fed(random.Random(seed))
        frames, numbers = some_edits(random.Random(seed), quick.lengths()), random.Random(seed)
        quick.feed(b"".join(frames))
        for piece in pieces_of(numbers, b"".join(frames), 100):
            slow.feed(piece)
            if numbers.random() < 0.3:
                slow.terminal.read_anew()
        texts, wanted = ([text for text, *_ in fed.state()[1]] for fed in (slow, quick))
        expect(texts == wanted, f"seed {seed}: the texts are {texts}, wanted {wanted}")
    fed = Fed(random.Random(1))
    fed.terminal.read_anew()
    fed.feed(frame(CUT, 1, 3, 2))
    (change,) = fed.told
    expect((change.place, change.gone) == (3, 2 * GAP), f"it tells {change}")


def check_events_without_memory(folder):
    """Where Python has no memory for what the client told, that is met all the same as it goes on."""
    fed, tags = Fed(random.Random(1)), []

    def short(tag):
        tags.append(tag)
        if len(tags) == 1:
            raise MemoryError

    fed.terminal.told[DIRTY] = short
    with contextlib.suppress(MemoryError):
        fed.feed(frame(DIRTY, 2))
        raise Failed("this test is wrong: memory is not out")
    fed.feed()
    expect(tags == [2, 2], f"the editor hears of {tags}")


def check_stream_with_faults(folder):
    """A wrong frame shows once its head has come, or where it is whole, also after many edits. What it changes is not told, and what those
    before it have changed is drawn and counted."""
    from sulgrevad import SamError

    for wrong, at in (
        (b"\x00", 3), (frame(CUT, 1, 1, 1, text="x"), 3), (frame(CUT, 1, 1), 3), (frame(GROWDATA, 1) + bytes(9), 3),
        (frame(GROWDATA, 1, 1, text="x" * 2049), 3), (frame(CUT, 1, 1 << 31, 1 << 31), 21),
        (frame(CUT, 1, 0xFFFFFFFF, 0xFFFFFFFF), 21), (frame(GROWDATA, 1, 1 << 31, text="x"), 18), (frame(GROWDATA, 9, 0, text="x"), 18),
        (bytes([GROWDATA]) + b"\x00\x0f" + frame(GROWDATA, 1, 0)[3:] + b"\xff", 18),
    ):  # fmt: skip
        for most in (1, 40, 1_000_000):
            fed, numbers = Fed(random.Random(1)), random.Random(1)
            frames = [frame(kind, 1, place, 1) if kind == CUT else frame(kind, 1, place, text="b") for place in (300, 200, 100, 3, 2)
                      for kind in (CUT, GROWDATA)]  # fmt: skip
            good, length, before = b"".join(frames), fed.terminal.len(1), dict(fed.editor.texts.versions)
            taken = 0
            try:
                for piece in pieces_of(numbers, good + (wrong + bytes(40))[: max(at, len(wrong))], most):
                    fed.feed(piece)
                    taken += len(piece)
                raise Failed(f"{wrong}: it is taken")
            except SamError:
                pass
            expect(taken <= len(good) + at - 1 and fed.terminal.len(1) == length, f"{wrong}, {most} bytes: it shows after {taken} bytes")
            places = [change.place for change in fed.told if change.gone or change.came]
            wanted = [300, 300, 200, 200, 100, 100, 3, 3, 2, 2]
            expect(places == wanted[: len(places) if at > 3 else 10], f"{wrong}, {most} bytes: it tells of {places}")
            expect(fed.editor.texts.versions[1] > before[1] and fed.editor.keeping._changes[1] > 0, f"{wrong}: nothing is drawn")
