"""An editor and a host in this process, with the bytes between them under way."""
import random
from types import SimpleNamespace

from .messages import saved
from .support import Failed, expect
from sulgrevad import Note, NoteKind, read_note, write_note


class Ends:
    """A client, and the host's end of its link: between the two all goes at once. What the terminal says comes out of `sent`, and what its
    host says goes in by `bring`."""

    def __init__(self):
        import sulgrevad

        self.client, self.link = sulgrevad.Client(bytes(16), False, 0), sulgrevad.Link(sulgrevad.Link.HOST, bytes(16))
        self.attempt = self.client.connected(0)
        self.link.answer(self.client.take_out(self.attempt, sulgrevad.HELLO_BYTES))
        self.notes, self.writes = [], []  # what came for the host's program, and the requests among that for writes
        self._carry()

    def _carry(self):
        while data := self.link.take_out(self.attempt):
            self.client.receive(self.attempt, data, 0)

    def bring(self, data):
        self.link.put(data)
        self._carry()

    def sent(self):
        while data := self.client.take_out(self.attempt):
            self.link.feed(self.attempt, data)
        self._carry()
        pieces = []
        while (piece := self.link.take_in()) or self._takes_note():
            pieces.append(piece)
        return b"".join(pieces)

    def _takes_note(self):
        """Whether a message of the terminal is next, which this takes."""
        data = self.link.next_note()
        if data is not None:
            self.notes.append(note := read_note(data))
            if note.kind == NoteKind.WRITE:
                self.writes.append(note)
            elif note.kind == NoteKind.COMPLETE:  # there are no paths
                self.link.put_note(write_note(Note(NoteKind.NAMES, request=note.request)))
                self._carry()
        return data is not None

    def answer_write(self, note):
        """Tells the terminal what became of a write."""
        asked = next(asked for asked in self.writes if asked.tag == note.tag)
        self.writes.remove(asked)
        self.link.put_note(write_note(note._replace(request=asked.request)))
        self._carry()


class Line:
    """What the editor knows of a line to a session that stays, as a check says."""

    late_after, has_all, told, stays = 1.0, True, "LINE LOST", True

    def __init__(self):
        self.is_broken, self.silence, self.notes, self.expects = False, 0.0, [], False

    def put_note(self, note):
        self.notes.append(note)

    def expect(self, expects):
        self.expects = expects


class Wire(Line):
    """The line of a pair, whose session ends with it: it has carried all once nothing is under way to the host, and is late where that
    takes three seconds."""

    late_after, stays = 3.0, False

    def __init__(self, pair):
        self.pair, self.is_broken, self.notes, self.due_since, self.expects = pair, False, [], None, False

    @property
    def has_all(self):
        return not self.pair.up and self.pair.ends.client.has_all

    @property
    def silence(self):
        if self.has_all:
            self.due_since = None
        elif self.due_since is None:
            self.due_since = self.pair.now
        return 0.0 if self.due_since is None else self.pair.now - max(self.due_since, self.pair.heard_at)


class Pair:
    """An editor and a host in this process; bytes between them stay under way as long as the random numbers say."""

    LINES = (",x/a/c/bb/", ",d", "2", "/b/", "#3,$", "f name", "nonsense")
    SIZES = ((22, 80), (8, 20), (5, 7), (60, 200))

    def __init__(self, random_numbers, texts, names=None, key_set="sam", ends=None):
        import sulgrevad
        from terminal.editor import Editor
        from terminal.keys import bindings
        from terminal.text.client_terminal import ClientTerminal
        from terminal.text.texts import GAP
        from terminal.view import screen

        self.random, self.keys, self.screen, self.gap = random_numbers, bindings, screen, GAP
        self.failing, self.written = [], []  # what the host tells of the next writes that fail; and the files that it was told to write
        self.host, self.ends, self.now = sulgrevad.Host(), ends or Ends(), 0.0
        self.terminal = ClientTerminal(self.ends.client, clock=lambda: self.now)
        self.up, self.down, self.heard_at = bytearray(), bytearray(), 0.0
        names = names or [f"file{at}" for at in range(len(texts))]
        for name, text in zip(names, texts):
            self.host.add_file(name, text)
        self.editor = Editor(self.terminal, Wire(self), clock=lambda: self.now, asked_for=names, keys=bindings.KEY_SETS[key_set])
        self.terminal.hear = lambda data: self.editor.hear(read_note(data))
        nothing_loads = SimpleNamespace(left=None, is_loading=False, go_on=lambda: None)
        self.prefetch, self.editor.slices = self.editor.slices, nothing_loads
        self.editor.begin()
        self.editor.arrange(*self.random.choice(self.SIZES))
        self.send()
        self.names = [key for binding in self.editor.keys.bindings for key in binding.keys if key != "^Q"]
        self.names += [f"Shift-{name}" for name in ("Left", "Right", "Up", "Down", "Home", "End")]

    def take_line(self, line):
        """From now on the editor has this line, and loads at rest."""
        self.editor.way.line, self.editor.slices = line, self.prefetch
        return line

    def key(self):
        """One key, mouse button or command line."""
        keys, choose, draw = self.keys, self.random.choice, self.random.random()
        if draw < 0.4:
            self.editor.take(keys.Text(choose(("x", "yy\n", "日", "e\u0301"))))
        elif draw < 0.88:
            self.editor.take(keys.Key(choose(self.names)))
        elif draw < 0.97:
            what = choose(("press", "release", "move", "wheel up", "wheel down"))
            self.editor.take(keys.Mouse(what, self.random.randrange(24), self.random.randrange(80), self.random.random()))
        else:
            self.editor.go_to(self.editor.command)
            for key in (keys.Key("^End"), keys.Text(f"\n{choose(self.LINES)}\n")):
                self.editor.take(key)

    def carry(self):
        """Some bytes arrive, on one side or the other."""
        way = self.random.choice((self.up, self.down))
        count = self.random.randint(0, len(way))
        data = bytes(way[:count])
        del way[:count]
        if way is self.up:
            self.serve(data)
        else:
            self.heard_at = self.now
            self.feed(data)

    def files(self):
        """The files that the terminal knows."""
        return [tag for tag in range(self.terminal.state().tags) if self.terminal.is_known(tag)]

    def feed(self, data):
        """The terminal takes bytes of the host."""
        self.ends.bring(data)
        self.editor.go_on()

    def send(self):
        """What the user did goes on its way."""
        self.editor.go_on()
        self.up += self.ends.sent()

    def serve(self, data):
        """The host takes bytes, and tells what became of the writes among them, as samhost does: before its answers, and by marks of files
        that it could not write."""
        self.host.feed(data)
        for tag in self.host.written():
            self.written.append(tag)
            told = next((note for note in self.failing if note.tag == tag), None)
            self.ends.answer_write(told or saved(tag))
            if told is not None:
                self.failing.remove(told)
                self.host.mark_dirty(tag)
        self.down += self.host.take_out()

    def settle(self):
        self.editor.update()
        self.send()
        for window in self.editor.windows:
            self.screen.drawn_of(self.editor, window)
        self.screen.cursor_of(self.editor)

    def pause(self):
        self.editor.notes.settle(self.now)
        self.settle()
        self.editor.pause()
        self.send()
        self.editor.notes.drawn()

    def wakes_in(self):
        """Seconds until the editor has something to do though nothing comes, or the client, for what it loads; None where that has no end."""
        left = self.ends.client.due_in(int(self.now * 1000))
        waits = [self.editor.wakes_in(), left / 1000 if left else None]
        return min((wait for wait in waits if wait is not None), default=None)

    def finish(self, seconds=1.0):
        """Lets everything arrive, and so many seconds go by in which the user reads the line at the bottom."""
        until = self.now + seconds
        for _ in range(100_000):
            self.pause()
            waits = [wait for wait in (self.wakes_in(), self.editor.notes.left) if wait]
            if self.up or self.down:
                self.carry()
            elif waits and self.now + min(waits) <= until:
                self.now += min(waits)
            elif self.now < until:
                self.now = until
            else:
                return
        raise Failed("it never gets quiet")

    def wait(self, seconds):
        """So many seconds go by, and nothing arrives."""
        until = self.now + seconds
        while self.now < until:
            self.pause()
            self.now = min(until, self.now + 0.1)
        self.pause()

    def press(self, *keys, seconds=1.0):
        """Keys one after another, each once all has arrived and the line at the bottom was read."""
        for key in keys:
            self.editor.take(key)
            self.finish(seconds)

    def trip(self):
        """All that waits goes up, and the answers come down."""
        self.pause()
        data = bytes(self.up)
        self.up.clear()
        self.serve(data)
        self.heard_at = self.now
        self.feed(bytes(self.down))
        self.down.clear()
        self.pause()

    def check(self):
        expect(self.terminal.held == 0 and not self.editor.deferred, "an event is held for ever")
        expect(not self.editor.is_lost, self.editor.message)
        way = self.editor.way
        expect(way.line.has_all and way.seconds is None and way.told == 0, "a message stays on the way")
        for window in self.editor.windows:
            if window.is_open:
                shown = window.read(0, window.length)
                text = self.host.text(window.tag)
                expect(len(shown) == len(text), "the lengths differ")
                expect(all(rune in (self.gap, wanted) for rune, wanted in zip(shown, text)), "the texts differ")
                expect(not any(row.has_gap for row in window.layout().rows), "a gap stays on the screen")
                expect(self.editor.is_changed(window.tag) == self.host.is_dirty(window.tag), "the mark of a file is wrong")


class Kept:
    """Names and texts that are written here, in place of files."""

    def __enter__(self):
        from terminal.files import local_backup

        self.local_backup, self.before, self.texts = local_backup, local_backup.keep, []
        local_backup.keep = lambda name, text: self.texts.append((name.lstrip("\0"), text)) or "/somewhere"
        return self

    def __exit__(self, *_):
        self.local_backup.keep = self.before

    def expect(self, wanted, told):
        expect(sorted(self.texts) == sorted(wanted), f"{told}: it keeps {self.texts}, wanted {wanted}")


def some_keys(numbers, keys):
    """A key, or some that belong together; none that asks, and none that goes by how much is loaded."""
    key, text, choose = keys.Key, keys.Text, numbers.choice
    aside = ("page_up", "page_down", "close", "leave", "send")
    names = [name for binding in keys.BINDINGS for name in binding.keys if binding.action not in aside]
    mouse = [keys.Mouse(what, numbers.randrange(60), numbers.randrange(9), numbers.random() * 1e6) for what in ("press", "release")]
    return choose(
        (
            [text(choose(("z", "uv", "w\n", "日")))],
            [key("Esc"), text(choose((",x/a/c/bb/\n", "1d\n", "2\n", "f name\n"))), key("Esc")],
            [key("^W"), key("^K")],
            [key("F2"), key("Down"), text("\n")],
            mouse,
            *[[key(name)] for name in (choose(names), choose(names), choose(names))],
        )
    )


def opened(*texts, size=(60, 200), key_set="sam"):
    """A pair with a window for each text, and a screen of so many rows and columns."""
    pair = Pair(random.Random(1), texts, key_set=key_set)
    pair.editor.arrange(*size)
    pair.finish(3)  # seconds of rest, in which the command file is opened
    for _ in texts[1:]:
        pair.editor.take(pair.keys.Key("^T"))
        pair.finish()
    return pair, pair.editor, pair.keys.Key, pair.keys.Text


def with_line(*texts, **more):
    """An editor with windows for texts, and its line."""
    pair, editor, key, text = opened(*texts, **more)
    line = pair.take_line(Line())
    return pair, editor, key, text, line


LONG = "".join(f"line {at} foo\n" for at in range(3000))
KNOWN_LATE = 4  # seconds of a lost line after which its user has to know


def in_a_small_window():
    """A pair with a long text, of which little is loaded."""
    return opened(LONG, size=(20, 80))


def loads_of(pair):
    """The Loads that the editor makes from now on: file, place, and count."""
    made_loads, load = [], pair.terminal.load

    def noted(*words):
        made_loads.append(words)
        load(*words)

    pair.terminal.load = noted
    return made_loads


def is_loaded_beside(pair, tag, layout):
    """Whether what a window shows is loaded, and a page on either side."""
    page = layout.end - layout.top
    gap = pair.terminal.first_gap(tag, max(0, layout.top - page))
    return gap is None or gap >= layout.end + page
