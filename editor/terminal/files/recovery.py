"""What earlier sessions left: texts that the host saved beside the files, and those that were written here. A key takes one back, compares
it with its file, or drops it."""
import os
import re
import time
from collections import deque
from typing import Deque, Dict, Iterable, List, NamedTuple, Optional, Set, Tuple, Union

from . import local_backup
from ..keys.bindings import Input, Key, Paste, Text
from ..view.menus import Lines
from ..view.status_line import printable
from ..text.texts import COMMAND, MOST_RUNES
from ..text.undo import Step
from ..time_limit import TimeLimit, TooSlow

# The name in the session of a text that the host saved: the tag of its file, 0 for what was cut last; whether it is newer; and when it
# was saved.
NAMED = re.compile(r"~~left~~ ([0-9]{1,5}) ([+-]) (.*)")
MOST_LOOKED_AT = 500  # files of which it is looked at once whether texts of them are here: that takes some 5 milliseconds
MOST_COMPARED = 1_000  # lines that differ, from the first to the last, of which it is shown how
LONGEST_COMPARING = 0.5  # seconds of the processor for that
RELOADS = "Enter puts in what the file has now"
AGE_WORDS = {None: "", True: ", newer than the file", False: ", older than the file"}  # of a text
# What is no file's, as it is told.
OF_NO_FILE = {
    local_backup.TYPED: "what was typed and not put in", local_backup.UNNAMED: "the text of a file without a name",
    local_backup.CUT: "what was cut and not pasted", local_backup.COMMAND_LINE: "a command line that was begun",
}  # fmt: skip


class Old(NamedTuple):
    """A text that an earlier session left of a file."""

    of: int  # the file; COMMAND for what was cut last, where the host has it, and for what is no file's, where it is here
    when: str
    is_newer: Optional[bool]  # than the file; None where nobody knows
    tag: int = COMMAND  # of the text, where the host has it
    path: str = ""  # else where it is here
    what: str = ""  # what it is, where it is no file's


class Changed(NamedTuple):
    """A file that another program has changed."""

    of: int
    when: str = ""


class Recovery:
    """The texts that are left, and what the user does with them."""

    def __init__(self, editor):
        self.editor, self.terminal = editor, editor.terminal
        self.tags: Dict[int, Old] = {}  # those that the host has
        self._seen: Set[int] = set()  # the same, also those that were dropped
        self._here: Dict[str, Old] = {}  # those that are here, by their paths
        self._taken: Dict[int, Tuple[List[Old], Step]] = {}  # of a file, what was taken into it and not written yet; and that step of undo
        self._written: List[int] = []  # files that were written since
        self._times: Dict[int, int] = {}  # when files were written last
        self._unlooked: Deque[int] = deque()  # files of which texts may be here, as nobody has looked; COMMAND for what is no file's
        self._warned: Optional[Old] = None  # the text of which the user knows that it lacks something
        self._whole: Optional[Old] = None  # the one from which all came that it lacks

    # ---- What there is

    def hear_written(self, tag: int, when: int) -> None:
        self._times[tag] = when

    def find(self, hidden: List[int]) -> None:
        """The names of the host's files are known: some of the hidden ones are texts that it saved. Others of the files may be here."""
        self.note_hidden(hidden)
        self._left_here = local_backup.Left()
        if not self._left_here.is_empty:
            self._unlooked = deque([*self.editor.tags, COMMAND])
            self._look_here()

    def note_hidden(self, hidden: Iterable[int]) -> None:
        """Hidden files are known, of which the host may tell later than of their names."""
        for tag in hidden:
            found = NAMED.fullmatch(self.terminal.name(tag)) if tag not in self._seen and self.terminal.is_known(tag) else None
            if found:
                self._seen.add(tag)
                self.tags[tag] = Old(int(found[1]), found[3], found[2] == "+", tag=tag)

    def look_at(self, tag: int) -> None:
        """A file is opened, which may have joined since: texts of it may be here."""
        self._unlooked.append(tag)

    def _look_here(self) -> None:
        """Looks whether texts of files are here, of a few files at once, so that no key waits for that. What is no file's is looked for
        last, and told first."""
        found: Deque[Tuple[int, str, str]] = deque()
        for _ in range(min(MOST_LOOKED_AT, len(self._unlooked))):
            tag = self._unlooked.popleft()
            if tag == COMMAND:
                others = [(tag, name, path) for name in OF_NO_FILE for path in self._left_here.of(name)]
                found.extendleft(reversed(others))
            elif self.terminal.is_known(tag):
                name = self.terminal.name(tag)
                found.extend((tag, name, path) for path in self._left_here.of(name))
        for tag, name, path in found:
            self._note_here(tag, name, path)

    @property
    def seconds(self) -> Optional[float]:
        """0 as long as there are files to look at; None once there are none."""
        return 0.0 if self._unlooked and not self.editor.is_lost else None

    def _note_here(self, tag: int, name: str, path: str) -> None:
        try:
            status = os.stat(path)
        except OSError:
            return
        known = self._here.get(path)
        if known is not None and self.terminal.is_known(known.of):
            return
        if status.st_size == 0 and tag == COMMAND:  # it would paste nothing
            return
        written, saved = self._times.get(tag), status.st_mtime
        when = time.strftime("%Y-%m-%d %H:%M:%S", time.localtime(saved))
        old = Old(tag, when, None if written is None else int(saved) >= written, path=path, what=OF_NO_FILE.get(name, ""))
        self._here[path] = old
        if tag == COMMAND:
            take, paste = self.editor.keys.of("old"), self.editor.keys.of("paste")
            self.editor.notes.keep(1, f"{old.what} is in {path}, of {when}; {take} has {paste} paste it, or drops it")
            return
        self.editor.notes.keep(1, f"of {name} a text was written here: it is in {path}, of {when}{AGE_WORDS[old.is_newer]}{self.offer}")

    @property
    def offer(self) -> str:
        """What ends a line that tells of such a text."""
        return f"; {self.editor.keys.of('old')} takes it, compares or drops it"

    @property
    def all(self) -> List[Union[Old, Changed]]:
        """Of each file the newest first."""
        olds = [*map(Changed, self.editor.reloading.all), *self.tags.values(), *self._here.values()]
        return sorted(sorted(olds, key=lambda old: old.when, reverse=True), key=lambda old: old.of)

    def line(self, old: Union[Old, Changed]) -> str:
        if isinstance(old, Changed):
            return f"{self.editor.name(old.of)}: another program changed it"
        what = old.what or ("what was cut last" if old.of == COMMAND else self.editor.name(old.of))
        age = "" if old.of == COMMAND else AGE_WORDS[old.is_newer]
        return f"{what}: {'written here' if old.path else 'saved by the host'} {old.when}{age}"

    def begin(self) -> None:
        if self.all:
            self.editor.menu = Choice(self)
        else:
            self.editor.message = "no earlier session left a text of these files, and no other program has changed one"

    def drop(self, tag: int) -> None:
        """The file is closed."""
        self.tags.pop(tag, None)
        self.take_out(tag)

    def take_out(self, tag: int) -> None:
        """What was taken into a file is not there any more: a write of the file drops it no more."""
        self._taken.pop(tag, None)

    # ---- Taking one back

    def take(self, old: Old) -> bool:
        """Puts a text in the place of its file's. Returns whether that is done; else the key acts again, or can't act."""
        editor, tag = self.editor, old.of
        if isinstance(old, Changed):
            editor.show(tag)
            return editor.reloading.begin(tag, "Enter")
        if tag == COMMAND:
            return self._snarf(old)
        if not self.terminal.is_known(tag):
            editor.message = "its file is closed"
            return True
        editor.show(tag)
        if not editor.window_of(tag).is_settled:
            editor.act_again("waits for the file")
            return False
        text, self._whole = self._read(old), None
        filled = self._filled(old, text) if old.path and text is not None else text
        if filled is None or self._is_too_long(old, filled) or not editor.may_go_whole(tag, "Enter"):
            return False
        if self._put(old, filled):
            undo, write = editor.keys.of("undo"), editor.keys.of("write")
            then = f"{undo} takes it back; once {write} has written it, the old one is dropped"
            editor.message = f"{editor.name(tag)} has that text now. {then}"
        return True

    def _read(self, old: Old) -> Optional[str]:
        """A text; None where the key acts again once that is opened and loaded, or where it can't be read, which is told."""
        if not old.path:
            return self._text_of(old.tag) if self._is_opened(old) and self._is_loaded(old.tag) else None
        text = local_backup.read(old.path)
        if text is None:
            self.editor.message = f"{old.path} can't be read"
        return text

    def _is_too_long(self, old: Old, text: str) -> bool:
        """Whether no file has room for a text, which is told."""
        if len(text) > MOST_RUNES:
            self.editor.message = f"{old.path} is too long"
        return len(text) > MOST_RUNES

    def _filled(self, old: Old, text: str) -> Optional[str]:
        """A text with what it lacks, from what the host saved of its file, else from the file itself, once the user was told. None where
        the key acts again, or asks."""
        lacks = local_backup.lacking(text)
        if not lacks:
            return text
        whole = self._newest_of(old.of)
        tag = old.of if whole is None else whole.tag
        if (whole is not None and not self._is_opened(whole)) or not self._is_loaded(tag):
            return None
        text = local_backup.filled(text, self._text_of(tag))
        is_all_of_it = whole is not None and whole.when <= old.when and not local_backup.lacking(text)  # a newer one may have more
        self._whole = whole if is_all_of_it else None
        source = "the file" if whole is None else "what the host saved"
        if self._warned != old and not self._is_warned(lacks, local_backup.lacking(text), source):
            return None
        self._warned = old
        return text

    def _newest_of(self, tag: int) -> Optional[Old]:
        """What the host saved last of a file."""
        return max((old for old in self.tags.values() if old.of == tag), key=lambda old: old.when, default=None)

    def _is_warned(self, before: int, lacks: int, source: str) -> bool:
        """Whether the user takes a text all the same that lacked so many characters, and still lacks some."""
        came = f"; {before - lacks} that it lacked came from {source}" if lacks < before else ""
        return self.editor.is_sure(f"it lacks {lacks} characters that were not loaded{came}. Enter again takes it")

    def _put(self, old: Old, text: str) -> bool:
        """Puts a text of this machine, or one that the host has, in the place of its file's. Returns whether that was not refused."""
        editor, tag = self.editor, old.of
        editor.log.begin(tag)
        step = editor.log.past[tag][-1]
        if not editor.texts.edit(tag, 0, self.terminal.len(tag), text):
            return False
        self._taken[tag] = ([old] if self._whole is None else [old, self._whole], step)  # the text has all of both
        editor.window_of(tag).select(0)
        return True

    def _text_of(self, tag: int) -> str:
        return self.editor.texts.read(tag, 0, self.terminal.len(tag))

    def _snarf(self, old: Old) -> bool:
        """Has `^V` paste what is no file's: where it was to go, only the user can know."""
        editor, text, paste = self.editor, self._read(old), self.editor.keys.of("paste")
        if text is None or self._is_too_long(old, text):
            return False
        if old.path:
            editor.set_snarfed(text)
            editor.message = f"{paste} pastes at the caret {old.what}; {old.path} stays until {editor.keys.of('old')} and d drop it"
        else:
            self.terminal.select(old.tag, 0, len(text))
            self.terminal.snarf(old.tag)
            editor.note_snarfed(text)
            editor.message = f"{paste} pastes it"
        return True

    def _is_opened(self, old: Old) -> bool:
        """Whether a text of the host is open. If not, it is opened, and the key acts again."""
        if self.terminal.is_open(old.tag):
            return True
        self.terminal.open(old.tag)
        if self.editor.active is not self.editor.command and self.editor.active.is_open:
            self.terminal.work(self.editor.active.tag)
        self.editor.act_again("opens it")
        return False

    # ---- Dropping

    def remove(self, old: Old) -> bool:
        """Drops a text for good, once the user is sure. The host does so where it is written empty. Returns whether that is done."""
        if isinstance(old, Changed):
            self.editor.message = RELOADS
            return False
        if not old.path and not self._is_opened(old):
            return False
        if not self.editor.is_sure(f"{self.line(old)}. d again drops it for good"):
            return False
        self._remove(old)
        return True

    def _remove(self, old: Old) -> None:
        if old.path:
            self._here.pop(old.path, None)
            try:
                local_backup.remove(old.path)
            except OSError as error:
                self.editor.message = f"{old.path} is not dropped: {error.strerror}"
        else:
            self.terminal.edit(old.tag, 0, self.terminal.len(old.tag), "")
            self.terminal.write(old.tag)
            self.terminal.close(old.tag)

    def meet_written(self, tag: int) -> None:
        """The host has written a file, and its answer to the write comes next."""
        if tag in self._taken:
            self._written.append(tag)

    def go_on(self) -> None:
        """Drops what was taken back and is in its file by now, unless it was taken out again, or the write failed."""
        editor = self.editor
        self._look_here()
        while self._written and not self.terminal.locked(self._written[0]):
            tag = self._written.pop(0)
            olds, step = self._taken.get(tag, ([], None))
            if editor.is_changed(tag) or step not in editor.log.past.get(tag, []):
                continue
            self._taken.pop(tag, None)
            for old in olds:
                if old.path or self.terminal.is_open(old.tag):
                    self._remove(old)

    # ---- Comparing

    def compare(self, old: Old) -> bool:
        """Shows in which lines a text and its file differ, once both are loaded. Returns whether that is done."""
        editor = self.editor
        if isinstance(old, Changed):
            editor.message = RELOADS
            return False
        if not self.terminal.is_known(old.of) or old.of == COMMAND:
            editor.message = "there is no file to compare it with"
            return True
        if old.of not in editor.all_windows or not self.terminal.is_open(old.of):
            editor.show(old.of)
            editor.act_again("opens the file")
            return False
        text = self._read(old) if self._is_loaded(old.of) else None
        if text is None:
            return False
        lines = differences(self._text_of(old.of), text)
        editor.menu = Lines(f"- {editor.name(old.of)}   + {self.line(old)}", [printable(line.expandtabs()) for line in lines])
        return True

    def _is_loaded(self, tag: int) -> bool:
        """Whether a file is loaded whole. If not, that is asked for, and the key acts again."""
        if self.terminal.first_gap(tag) is None:
            return True
        self.editor.load_all(tag, 0, self.terminal.len(tag), "loads it")
        return False


def differences(file: str, other: str) -> List[str]:
    """The lines in which two texts differ, those of the first with a `-`, those of the second with a `+`."""
    import difflib  # which few sessions need

    ours, theirs = file.split("\n"), other.split("\n")
    first = next((at for at, (one, two) in enumerate(zip(ours, theirs)) if one != two), min(len(ours), len(theirs)))
    most = min(len(ours), len(theirs)) - first
    last = next((at for at in range(most) if ours[-1 - at] != theirs[-1 - at]), most)
    ours, theirs = ours[first : len(ours) - last], theirs[first : len(theirs) - last]
    if not ours and not theirs:
        return ["no line differs"]
    counts = f"from line {first + 1} on {len(ours)} lines are in the file, and {len(theirs)} others in the old text"
    if len(ours) > MOST_COMPARED or len(theirs) > MOST_COMPARED:
        return [counts]
    lines = []
    try:
        with TimeLimit(LONGEST_COMPARING):
            found = difflib.SequenceMatcher(None, ours, theirs, autojunk=False).get_opcodes()
    except TooSlow:  # many of them are alike
        return [counts]
    for mark, start, end, low, high in found:
        if mark != "equal":
            lines.append(f"from line {first + start + 1} on:")
            lines += [f"- {line}" for line in ours[start:end]] + [f"+ {line}" for line in theirs[low:high]]
    return lines


class Choice:
    """The menu of what is left, and of files that another program has changed."""

    title, is_box = "Left of earlier sessions: Enter takes the text, c compares it, d drops it", True

    def __init__(self, left: Recovery):
        self.left, self.is_over, self._chosen = left, False, left.all[0]

    def _at(self, olds: List[Union[Old, Changed]]) -> int:
        """Where what was chosen stands, as others may come before it; 0 where it is gone."""
        return olds.index(self._chosen) if self._chosen in olds else 0

    def lines(self, height: int) -> List[Tuple[str, bool]]:
        olds = self.left.all
        first = max(0, self._at(olds) - height + 1)
        return [(printable(self.left.line(old)), old == self._chosen) for old in olds][first : first + height]

    def take(self, key: Input) -> bool:
        """Returns whether the key is for the windows, as this is over."""
        olds, steps = self.left.all, {"Up": -1, "Down": 1}
        acts = {"\n": self.left.take, "c": self.left.compare, "d": self.left.remove}
        is_act, is_there = isinstance(key, Text) and key.runes in acts, self._chosen in olds
        if isinstance(key, Key) and key.name in steps and olds:
            self._chosen = olds[max(0, min(self._at(olds) + steps[key.name], len(olds) - 1))]
        elif is_act and is_there and self.left.editor.is_alone:
            self.left.editor.wait_for_line("that can be done only where the host answers")
        elif is_act and is_there:
            self.is_over = acts[key.runes](self._chosen)
        elif isinstance(key, (Key, Paste, Text)):
            self.is_over = True
        return isinstance(key, (Paste, Text)) and not is_act
