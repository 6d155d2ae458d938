"""The host: whole texts, and its answer to each message."""

from dataclasses import dataclass

from . import command_lines, texts

COMMAND_FILE = "~~sam~~"


class RefusedMessage(Exception):
    """A message that the host refuses. Its terminal sends none."""


class RefusedMark(Exception):
    """A mark of a file that isn't there, that is the command file, or whose name was not sent."""


@dataclass
class File:
    """A file of the host."""

    name: str
    text: str = ""
    dot: tuple = (0, 0)
    is_dirty: bool = False
    is_open: bool = False
    is_announced: bool = False

    def insert(self, place, text):
        self.text = self.text[:place] + text + self.text[place:]

    def remove(self, start, end):
        self.text = self.text[:start] + self.text[end:]

    def has_room(self, text):
        return len(self.text) + len(text) <= texts.MOST_RUNES


class Host:
    """A host. A message is its kind and its fields; each answer is a list of frames of the same form, without the stamp."""

    def __init__(self):
        self.files = {0: File(COMMAND_FILE, is_announced=True)}
        self.next_tag = 1
        self.snarf, self.pattern, self.work = "", None, None
        self.version = 1
        self.taken = 0
        self.is_done = False

    def add(self, name, text):
        """A file joins, clean, closed and not announced. Returns its tag."""
        tag = self.next_tag
        self.files[tag] = File(name, text)
        self.next_tag += 1
        return tag

    def mark(self, tag):
        """Marks a file as dirty. Returns the frames that tell it: one, if it was clean."""
        file = self.files.get(tag)
        if file is None or tag == 0 or not file.is_announced:
            raise RefusedMark(tag)
        return self.dirtied(tag)

    def answer(self, message):
        """The frames of the answer. A host that is done only counts."""
        self.taken += 1
        kind, *fields = message
        return [] if self.is_done else getattr(self, f"answer_{kind}")(*fields)

    def open_file(self, tag, first=0, last=None):
        """The open file of a tag, in whose text these places lie in order."""
        file = self.files.get(tag)
        if file is None or not file.is_open or not first <= (first if last is None else last) <= len(file.text):
            raise RefusedMessage(tag, first, last)
        return file

    def written_file(self, tag, *places):
        """The same of a file that is not the command file."""
        if tag == 0:
            raise RefusedMessage(tag)
        return self.open_file(tag, *places)

    # ---- Parts of answers

    def grown(self, tag, place, text):
        """The frame that tells the terminal of runes that came in, if it has the file open."""
        if not text or not self.files[tag].is_open:
            return []
        if len(text) > texts.MOST_IN_MESSAGE:
            return [("Hgrow", tag, place, len(text))]
        return [("Hgrowdata", tag, place, text)]

    def dirtied(self, tag):
        """The frame for a file that was clean, but for the command file, which is never dirty."""
        file = self.files[tag]
        if tag == 0 or file.is_dirty:
            return []
        file.is_dirty = True
        return [("Hdirty", tag)]

    def printed(self, text):
        """Prints at the end of the command file, if it has room."""
        file = self.files[0]
        if not text or not file.has_room(text):
            return []
        place = len(file.text)
        file.insert(place, text)
        end = len(file.text)
        file.dot = end, end
        return [*self.grown(0, place, text), ("Hsetdot", 0, end, end), ("Hcheck", 0)] if file.is_open else []

    def run_line(self, line):
        """Runs a command line over the work file. Its edits are made from the last to the first, so that the places of each hold."""
        work = self.files.get(self.work)
        try:
            outcome = command_lines.run(*((work.text, work.dot, work.name) if work else (None, None, None)), line)
        except command_lines.WrongLine as why:
            return [*self.printed(f"? {why}\n"), ("Hunlock",)]
        frames = []
        for start, end, text in reversed(outcome.edits):
            work.text = work.text[:start] + text + work.text[end:]
            frames += [("Hcut", self.work, start, end - start)] if start < end else []
            frames += self.grown(self.work, start, text)
        frames += self.dirtied(self.work) if outcome.edits else []
        if outcome.name is not None:
            work.name = outcome.name
            frames.append(("Hmovname", self.work, work.name))
        if outcome.pattern is not None:
            self.pattern = outcome.pattern
            frames.append(("Hsetpat", self.pattern))
        if outcome.dot is not None:
            work.dot = outcome.dot
            frames.append(("Hsetdot", self.work, *work.dot))
        frames += [("Hcheck", self.work)] if outcome.edits else []
        frames += self.printed(outcome.printed)
        self.is_done = outcome.is_over
        return [*frames, ("Hexit",) if outcome.is_over else ("Hunlock",)]

    def searched(self, tag, place):
        """Selects where the pattern occurs next. The file's lock goes in any case."""
        file, unlocked = self.files[tag], ("Hunlockfile", tag)
        found = texts.next_occurrence(file.text, place, self.pattern)
        if found is None:
            return [unlocked]
        file.dot = found
        return [("Hsetdot", tag, *found), ("Hmoveto", tag, found[0]), ("Hcheck", tag), unlocked]

    # ---- Answers

    def answer_Tversion(self, version):
        if version == 0:
            raise RefusedMessage(version)
        self.version = min(version, texts.COMMON_VERSION)
        frames = [("Hversion", self.version)]
        for tag, file in sorted(self.files.items()):
            if not file.is_announced:
                file.is_announced = True
                frames += [("Hnewname", tag), ("Hmovname", tag, file.name)]
        return [*frames, ("Hack",), ("Hunlock",)]

    def answer_Tstartcmdfile(self):
        file = self.files[0]
        if file.is_open:
            return [("Hunlock",)]
        return [("Hnewname", 0), ("Hmovname", 0, file.name), *self.opened(0), ("Hunlock",)]

    def opened(self, tag):
        """Opens a file: its text is a gap at first."""
        file = self.files[tag]
        file.is_open = True
        return [("Hbindname", tag), *([("Hgrow", tag, 0, len(file.text))] if file.text else [])]

    def answer_Tstartfile(self, tag):
        if tag == 0 or tag not in self.files:
            raise RefusedMessage(tag)
        self.work = tag
        return [("Hunlock",)] if self.files[tag].is_open else [*self.opened(tag), ("Hunlock",)]

    def answer_Tstartnewfile(self):
        if self.next_tag == texts.MOST_TAGS:
            return [*self.printed("? no tag\n"), ("Hunlock",)]
        self.work = tag = self.add("", "")
        self.files[tag].is_announced = self.files[tag].is_open = True
        return [("Hnewname", tag), ("Hbindname", tag), ("Hcurrent", tag), ("Hunlock",)]

    def answer_Tcheck(self, tag):
        self.open_file(tag)
        return [("Hcheck", tag)]

    def answer_Trequest(self, tag, place, length):
        if tag not in self.files and 0 < tag < self.next_tag:
            return []  # Hclose has freed its locks
        text = self.open_file(tag).text
        start = min(place, len(text))
        end = min(place + min(length, texts.MOST_IN_MESSAGE), len(text)) if place <= len(text) else start
        return [("Hdata", tag, start, text[start:end]), ("Hunlockfile", tag)]

    def answer_Torigin(self, tag, place, count):
        text = self.open_file(tag, place).text
        start = texts.line_start(text, place)
        while count > 0 and start > 0:
            start, count = texts.line_start(text, start - 1), count - 1
        return [("Horigin", tag, start), ("Hunlockfile", tag)]

    def answer_Tworkfile(self, tag, start, end):
        self.written_file(tag, start, end).dot = start, end
        self.work = tag
        return [("Hcurrent", tag)]

    def answer_Ttype(self, tag, place, text):
        file = self.open_file(tag, place)
        if not file.has_room(text):
            raise RefusedMessage(tag, place)
        file.insert(place, text)
        end = place + len(text)
        file.dot = end, end
        self.dirtied(tag)
        if tag > 0 or not text.endswith("\n"):
            return []
        return self.run_line(file.text[texts.line_start(file.text, end - 1) : end - 1])

    def answer_Tcut(self, tag, start, end):
        file = self.open_file(tag, start, end)
        file.remove(start, end)
        file.dot = start, start
        self.dirtied(tag)
        return []

    def answer_Tpaste(self, tag, place):
        file = self.open_file(tag, place)
        if not self.snarf or not file.has_room(self.snarf):
            return [("Hunlockfile", tag)]
        file.insert(place, self.snarf)
        file.dot = place, place + len(self.snarf)
        frames = [*self.grown(tag, place, self.snarf), *self.dirtied(tag)]
        return [*frames, ("Hsetdot", tag, *file.dot), ("Hcheck", tag), ("Hunlockfile", tag)]

    def answer_Tsnarf(self, tag, start, end):
        self.snarf = self.open_file(tag, start, end).text[start:end]
        return [("Hsnarflen", end - start)]

    def answer_Twrite(self, tag):
        self.written_file(tag).is_dirty = False
        return [("Hclean", tag), ("Hunlockfile", tag)]

    def answer_Tclose(self, tag):
        self.written_file(tag)
        del self.files[tag]
        self.work = None if self.work == tag else self.work
        return [("Hclose", tag), ("Hdelname", tag), ("Hunlock",)]

    def answer_Tlook(self, tag, start, end):
        text = self.open_file(tag, start, end).text[start:end]
        if not 1 <= len(text) <= texts.MOST_IN_PATTERN:
            return [("Hunlockfile", tag)]
        self.pattern = text
        return [("Hsetpat", text), *self.searched(tag, end)]

    def answer_Tsearch(self, tag, start, end):
        self.open_file(tag, start, end)
        return [("Hunlockfile", tag)] if self.pattern is None else self.searched(tag, end)

    def answer_Tsend(self, tag, start, end):
        text = self.open_file(tag, start, end).text[start:end]
        text += "" if text.endswith("\n") else "\n"
        if start == end or not self.files[0].has_room(text):
            return [("Hunlock",)]
        return [*self.printed(text), *self.run_line(text[texts.line_start(text, len(text) - 1) : -1])]

    def answer_Tdclick(self, tag, place):
        file = self.open_file(tag, place)
        file.dot = texts.word_at(file.text, place)
        return [("Hsetdot", tag, *file.dot), ("Hunlockfile", tag)]

    def answer_Tstartsnarf(self):
        return [("Hsetsnarf", texts.cut_to_bytes(self.snarf, texts.SNARF_LIMITS[self.version]))]

    def answer_Tsetsnarf(self, text):
        if len(text.encode()) > texts.SNARF_LIMITS[self.version]:
            raise RefusedMessage(len(text))
        self.snarf = text
        return [("Hsnarflen", len(text))]

    def answer_Tack(self):
        return []

    def answer_Texit(self):
        self.is_done = True
        return [("Hexit",)]
