"""The terminal: rasps, locks, the user's events, and what each frame does."""

from dataclasses import dataclass, field
from functools import partial

from . import texts

GAP = None  # a member of a rasp that is not loaded
WAITS = object()

OF_NO_FILE = ("version", "opencmd", "new", "getsnarf", "setsnarf", "flush", "exit")
NOT_OF_THE_COMMAND_FILE = ("open", "close", "write", "work", "edit")
WITH_THE_COMMAND_LOCK = ("version", "opencmd", "open", "new", "close", "send", "exit")
# Messages that take the command lock, as does a Ttype that ends a line of the command file; those that take a lock of their file.
COMMAND_LOCK = ("Tversion", "Tstartcmdfile", "Tstartfile", "Tstartnewfile", "Tclose", "Tsend", "Texit")
FILE_LOCK = ("Trequest", "Torigin", "Tpaste", "Twrite", "Tlook", "Tsearch", "Tdclick")
# Events that change nothing at once, and compose this, with a tag, with tag and dot, or with what the event says.
WITH_TAG = {"open": "Tstartfile", "close": "Tclose", "write": "Twrite", "check": "Tcheck"}
WITH_DOT = {"look": "Tlook", "search": "Tsearch", "send": "Tsend", "work": "Tworkfile"}
AS_SAID = {"opencmd": "Tstartcmdfile", "new": "Tstartnewfile", "exit": "Texit", "getsnarf": "Tstartsnarf", "setsnarf": "Tsetsnarf",
           "version": "Tversion", "dclick": "Tdclick"}  # fmt: skip


class RefusedFrame(Exception):
    """A frame that the terminal refuses. Its host sends none."""


@dataclass
class Window:
    """A file that is open at the terminal. The view has a start and a wished length."""

    rasp: list = field(default_factory=list)
    dot: tuple = (0, 0)
    view: int = 0
    length: int = 0
    locks: int = 0
    awaited: int = 0  # Trequests whose Hdata has not come

    def gap_from(self, place):
        """The first stretch of gaps in the view from a place on, as a place and a length, or None."""
        end = min(self.view + self.length, len(self.rasp))
        start = next((at for at in range(max(place, self.view), end) if self.rasp[at] is GAP), None)
        if start is None:
            return None
        return start, next((at for at in range(start, end) if self.rasp[at] is not GAP), end) - start


class Terminal:
    """A terminal. An event is its word of a script and its values; messages and frames are their kinds and fields. What it composes goes
    to `composed`, from which the world takes it."""

    def __init__(self):
        self.known = {}  # by tag the window, or None where the file is not open
        self.has_command_lock = False
        self.is_over = False
        self.unsent = None  # tag, place and text of typed runes that wait
        self.held = []
        self.composed, self.sent = [], 0
        self.version = 1

    # ---- Composing

    def compose(self, kind, *fields):
        """Composes a message, before which the unsent runes go. It takes its lock."""
        self.flush()
        self.sent += 1
        self.composed.append((kind, *fields))
        if kind in COMMAND_LOCK or (kind == "Ttype" and fields[0] == 0 and fields[2].endswith("\n")):
            self.has_command_lock = True
        if kind in FILE_LOCK:
            self.known[fields[0]].locks += 1

    def flush(self):
        if self.unsent:
            runes, self.unsent = self.unsent, None
            self.compose("Ttype", *runes)

    def request(self, tag, start, length):
        self.known[tag].awaited += 1
        self.compose("Trequest", tag, start, min(length, texts.MOST_IN_MESSAGE))

    def ask(self, tag):
        """The request rule: where none is awaited, the first gap of the view is asked for."""
        window = self.known[tag]
        gap = window.gap_from(0) if window and not self.is_over and not window.awaited else None
        if gap:
            self.request(tag, *gap)

    # ---- Changes of rasps

    def move(self, tag, moved):
        """Moves the dot, the start of the view and the place of the unsent runes."""
        window = self.known[tag]
        window.dot = moved(window.dot[0]), moved(window.dot[1])
        window.view = moved(window.view)
        if self.unsent and self.unsent[0] == tag:
            self.unsent = tag, moved(self.unsent[1]), self.unsent[2]

    def insert(self, tag, place, members):
        self.known[tag].rasp[place:place] = members
        self.move(tag, partial(texts.after_insertion, at=place, count=len(members)))

    def remove(self, tag, start, end):
        del self.known[tag].rasp[start:end]
        self.move(tag, partial(texts.after_removal, start=start, end=end))

    def cut_dot(self, tag):
        """Cuts the dot, if it is not empty, and tells the host."""
        start, end = self.known[tag].dot
        if start < end:
            self.compose("Tcut", tag, start, end)
            self.remove(tag, start, end)

    # ---- The user

    def act(self):
        """Tries the oldest event. Returns whether it acted or was refused, and so is held no longer."""
        verdict = self.verdict(self.held[0]) if self.held else WAITS
        if verdict is WAITS:
            return False
        event = self.held.pop(0)
        if verdict is None:
            self.do(*event)
        return True

    def verdict(self, event):
        """Why the event is refused, or WAITS, or None where it acts: the first test that holds decides."""
        word, *values = event
        if self.is_over:
            return "Exited"
        if self.has_command_lock:
            return WAITS
        if word == "version" and values[0] == 0:
            return "BadVersion"
        window = None
        if word not in OF_NO_FILE:
            tag = values[0]
            if tag not in self.known:
                return "NoFile"
            if tag == 0 and word in NOT_OF_THE_COMMAND_FILE:
                return "CommandFile"
            window = self.known[tag]
            if window is None and word != "open":
                return "NotOpen"
        if self.waits_for_a_file(window, word, values):
            return WAITS
        return self.wrong_place(window, word, values) or self.too_long(window, word, values)

    def waits_for_a_file(self, window, word, values):
        """Whether a lock of its file holds the event back, or any lock, where it takes the command lock."""
        takes_command_lock = word in WITH_THE_COMMAND_LOCK or (word == "type" and values[0] == 0 and values[1].endswith("\n"))
        windows = self.known.values() if takes_command_lock else [window]
        return any(it and it.locks for it in windows)

    def wrong_place(self, window, word, values):
        """BadPosition where a place is past the end of the rasp, or two are in the wrong order."""
        if word in ("select", "edit"):
            is_right = values[1] <= values[2] <= len(window.rasp)
        elif word in ("dclick", "view", "load"):
            is_right = values[1] <= len(window.rasp)
        else:
            is_right = True
        return None if is_right else "BadPosition"

    def too_long(self, window, word, values):
        """TextTooLong for a text that no message takes, or TooLong where it and what is left pass the limit of a rasp."""
        if word == "type" and len(values[1]) > texts.MOST_IN_MESSAGE:
            return "TextTooLong"
        if word == "setsnarf" and len(values[0].encode()) > texts.SNARF_LIMITS[self.version]:
            return "TextTooLong"
        if word in ("type", "edit"):
            start, end = window.dot if word == "type" else values[1:3]
            if len(window.rasp) - (end - start) + len(values[-1]) > texts.MOST_RUNES:
                return "TooLong"
        return None

    def do(self, word, *values):
        """What an event does that acts."""
        if word in WITH_TAG:
            self.compose(WITH_TAG[word], *values)
        elif word in WITH_DOT:
            self.compose(WITH_DOT[word], *values, *self.known[values[0]].dot)
        elif word in AS_SAID:
            self.compose(AS_SAID[word], *values)
        else:
            getattr(self, f"do_{word}")(*values)

    def do_flush(self):
        self.flush()

    def do_type(self, tag, text):
        self.cut_dot(tag)
        if not text:
            return
        place = self.known[tag].dot[0]
        runes = self.joined(tag, place, text)
        self.unsent = None
        self.insert(tag, place, list(text))
        self.unsent = runes
        self.known[tag].dot = place + len(text), place + len(text)
        if tag == 0 and text.endswith("\n"):
            self.flush()

    def joined(self, tag, place, text):
        """The unsent runes with this text: it joins those that end right there, if there is room; else they go first."""
        if self.unsent:
            old, start, runes = self.unsent
            if old == tag and start + len(runes) == place and len(runes) + len(text) <= texts.MOST_IN_MESSAGE:
                return tag, start, runes + text
        self.flush()
        return tag, place, text

    def do_edit(self, tag, start, end, text):
        if start < end:
            self.compose("Tcut", tag, start, end)
            self.remove(tag, start, end)
        for at in range(0, len(text), texts.MOST_IN_MESSAGE):
            self.compose("Ttype", tag, start + at, text[at : at + texts.MOST_IN_MESSAGE])
        self.insert(tag, start, list(text))

    def do_select(self, tag, start, end):
        self.known[tag].dot = start, end

    def do_snarf(self, tag):
        start, end = self.known[tag].dot
        if start < end:
            self.compose("Tsnarf", tag, start, end)

    def do_cut(self, tag):
        self.do_snarf(tag)
        self.cut_dot(tag)

    def do_paste(self, tag):
        self.cut_dot(tag)
        self.compose("Tpaste", tag, self.known[tag].dot[0])

    def do_scroll(self, tag, count):
        self.compose("Torigin", tag, self.known[tag].view, count)

    def do_view(self, tag, place, length):
        window = self.known[tag]
        window.view, window.length = place, length
        self.ask(tag)

    def do_load(self, tag, place, length):
        """Asks for all gaps of the view, also where some are awaited."""
        window = self.known[tag]
        window.view, window.length = place, length
        for _ in range(texts.MOST_REQUESTS):
            gap = window.gap_from(place)
            if gap is None:
                return
            self.request(tag, *gap)
            place = gap[0] + min(gap[1], texts.MOST_IN_MESSAGE)

    # ---- Frames of the host

    def receive(self, seen, frame):
        """What a frame does, with its stamp: how many messages the host had taken."""
        if seen > self.sent:
            raise RefusedFrame(seen)
        kind, *fields = frame
        getattr(self, f"take_{kind}")(*fields)

    def window(self, tag, last=0):
        """The window of an open file, in whose rasp this place lies."""
        window = self.known.get(tag)
        if window is None or last > len(window.rasp):
            raise RefusedFrame(tag, last)
        return window

    def has(self, tag, is_open=None):
        """That a file is known, and where it is asked, open or not."""
        if tag not in self.known or is_open not in (None, self.known[tag] is not None):
            raise RefusedFrame(tag)

    def kept(self, *_fields):
        """What is kept of names, marks, pattern and snarf buffer is never shown."""

    take_Hsetpat = take_Hsetsnarf = take_Hsnarflen = kept

    def take_named(self, tag, *_fields):
        self.has(tag)

    take_Hmovname = take_Hcurrent = take_Hclean = take_Hdirty = take_named

    def take_Hnewname(self, tag):
        if tag in self.known:
            raise RefusedFrame(tag)
        self.known[tag] = None

    def take_Hbindname(self, tag):
        self.has(tag, False)
        self.known[tag] = Window()

    def take_Hclose(self, tag):
        self.has(tag, True)
        self.known[tag] = None
        if self.unsent and self.unsent[0] == tag:
            self.unsent = None

    def take_Hdelname(self, tag):
        self.has(tag, False)
        del self.known[tag]

    def take_Hgrow(self, tag, place, count):
        if len(self.window(tag, place).rasp) + count > texts.MOST_RUNES:
            raise RefusedFrame(tag, count)
        self.insert(tag, place, [GAP] * count)

    def take_Hgrowdata(self, tag, place, text):
        if len(self.window(tag, place).rasp) + len(text) > texts.MOST_RUNES:
            raise RefusedFrame(tag, len(text))
        self.insert(tag, place, list(text))

    def take_Hdata(self, tag, place, text):
        window = self.window(tag, place + len(text))
        window.rasp[place : place + len(text)] = text
        window.awaited = max(0, window.awaited - 1)

    def take_Hcut(self, tag, place, count):
        self.window(tag, place + count)
        self.remove(tag, place, place + count)

    def take_Hcheck(self, tag):
        self.window(tag)
        self.ask(tag)

    def take_Hunlock(self):
        if not self.has_command_lock:
            raise RefusedFrame()
        self.has_command_lock = False

    def take_Hunlockfile(self, tag):
        window = self.window(tag)
        if not window.locks:
            raise RefusedFrame(tag)
        window.locks -= 1
        self.ask(tag)

    def take_Horigin(self, tag, place):
        self.window(tag, place).view = place

    take_Hmoveto = take_Horigin

    def take_Hsetdot(self, tag, start, end):
        if start > end:
            raise RefusedFrame(tag, start, end)
        self.window(tag, end).dot = start, end

    def take_Hversion(self, version):
        self.version = min(version, texts.COMMON_VERSION) or self.version

    def take_Hack(self):
        if not self.is_over:
            self.compose("Tack")

    def take_Hexit(self):
        self.is_over, self.has_command_lock = True, False
        for window in self.known.values():
            if window:
                window.locks = window.awaited = 0
