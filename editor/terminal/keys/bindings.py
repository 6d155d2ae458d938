"""The keys: what each does, in each set of keys. All that is known of an action by its name stands here."""
from itertools import groupby
from typing import Dict, List, NamedTuple, Optional, Tuple, Union

# What an action waits for. After `^N` and `^K` all but the first wait for the windows, too.
NOTHING = "nothing"  # it acts at once, before keys that wait
WINDOWS = "windows"  # until it is known which windows there are
PLACE = "place"  # until the places in its window are settled: no answer of the host moves them any more
ANSWERS = "answers"  # until no answer of the host is due: what is on the way may still change a file

ROWS = "rows"  # what an action needs that goes by all that is shown

# Among which keys that wait an action keeps its order.
FREE = "free"  # none: it changes no file and no place, and says alone where the keys after it go
FILE = "file"  # those of the same file
LINE = "line"  # those of the command window, of its own window, and of the file that a command line works on
SCREEN = "screen"  # those that go by how the screen is shared, which it changes
WINDOW = "window"  # these, and those of the window that it takes off the screen
ALL = "all"  # all

CLIPBOARD, PATTERN = "clipboard", "pattern"  # what keys of several files share
PROMPT = "find: "  # before what is sought


class Binding(NamedTuple):
    """Keys with one action (a method of `Actions` or of a menu), what the help window says of them, and all that is known of the action.
    Who says nothing gets one that waits for its place, and that changes a text."""

    keys: Tuple[str, ...]
    action: str
    help: str
    waits: str = PLACE
    needs: str = ""  # the text that has to be loaded for it: ROWS, or what a method of `Targets` reads
    reads: bool = False  # it changes no file, so it acts without a host, too
    extends: bool = False  # with Shift it selects
    leads: bool = False  # keys go elsewhere after it
    asks: bool = False  # the host has to answer before other keys act, so it doesn't act while the line is lost
    order: str = FILE
    shares: str = ""  # CLIPBOARD or PATTERN: it keeps its order among the keys of all files that share this


BINDINGS = (  # with the keys of the set `sam`
    Binding(("F1", "^G"), "help", "shows these keys; arrows scroll, any other key goes back", NOTHING, reads=True),
    Binding(("Esc",), "switch", "goes to the command window, and back to the file", WINDOWS, reads=True, leads=True, order=FREE),
    Binding(("^P", "F6"), "next_window", "goes to the next window", WINDOWS, reads=True, leads=True, order=FREE),
    Binding(("^O", "F2"), "menu", "menu of files: type or use arrows, Enter opens, Esc ends", WINDOWS, reads=True, leads=True, order=FREE),
    Binding(("^T", "F3"), "split", "another window, for the next file without one", WINDOWS, reads=True, leads=True, order=SCREEN),
    Binding(("^Y", "F4"), "unsplit", "takes the window off the screen; its file stays open", WINDOWS, reads=True, leads=True, order=WINDOW),
    Binding(("F8",), "small", "makes the command window small, and large again", WINDOWS, reads=True, order=SCREEN),
    Binding(("F10",), "numbers", "shows the numbers of lines, or hides them", WINDOWS, reads=True, order=SCREEN),
    Binding(("F11", "^]"), "details", "shows details in the status line, or hides them", WINDOWS, reads=True, order=FREE),
    Binding(("F5",), "redraw", "draws the screen anew; tries a lost line at once", WINDOWS, reads=True, order=FREE),
    Binding(("^\\", "F12"), "suspend", "goes back to the shell, until its `fg`", WINDOWS, reads=True, order=FREE),
    Binding(("F9",), "old", "takes, compares or drops what an earlier session left", WINDOWS, leads=True, order=ALL),
    Binding(("^N",), "new", "makes a new file; the command line `f NAME` names it", WINDOWS, leads=True, asks=True, order=WINDOW),
    Binding(("^W",), "write", "writes the file"),
    Binding(("^U",), "reload", "puts in what another program has written to the file", ANSWERS, asks=True),
    Binding(("^K",), "close", "closes the file for good; asks if it was not written", leads=True, asks=True, order=WINDOW),
    Binding(("^Q",), "leave", "leaves; asks if a file was not written", ANSWERS, reads=True, leads=True, asks=True, order=ALL),
    Binding(("^Z",), "undo", "takes back the last change of this window"),
    Binding(("^R",), "redo", "makes again what was taken back"),
    Binding(("^X",), "cut", "cuts the selection", needs="selection", shares=CLIPBOARD),
    Binding(("^C",), "snarf", "copies the selection", reads=True, shares=CLIPBOARD),
    Binding(("^V",), "paste", "pastes what was cut or copied last", needs="selection", shares=CLIPBOARD),
    Binding(("^A",), "select_all", "selects the whole file", reads=True),
    Binding(("^D",), "word", "selects the word; so does a double click", asks=True),
    Binding(("^S", "F7"), "find", "finds as you type; Enter has the host look", reads=True, leads=True, shares=PATTERN),
    Binding(("^L",), "look", "looks for the next place of the selected text", reads=True, shares=PATTERN),
    Binding(("^F",), "search", "searches the last pattern again", reads=True, shares=PATTERN),
    Binding(("^B",), "search_back", "searches it above", reads=True, shares=PATTERN),
    Binding(("^E",), "send", "runs the selection as a command line", ANSWERS, ROWS, asks=True, order=LINE, shares=PATTERN),
    Binding(("Backspace",), "erase_left", "erase the selection, or a character", needs="erased_left"),
    Binding(("Delete",), "erase_right", "erase the selection, or a character", needs="erased_right"),
    Binding(("Shift-Tab",), "unindent", "takes a tab from the selected lines; Tab puts one in", needs="untabbed"),
    Binding(("Left",), "left", "move; with Shift they select", needs="left", reads=True, extends=True),
    Binding(("Right",), "right", "move; with Shift they select", needs="right", reads=True, extends=True),
    Binding(("Up",), "up", "move; with Shift they select", needs="up", reads=True, extends=True),
    Binding(("Down",), "down", "move; with Shift they select", needs="down", reads=True, extends=True),
    Binding(("^Left", "Alt-b"), "word_left", "by words, the same", needs="word_left", reads=True, extends=True),
    Binding(("^Right", "Alt-f"), "word_right", "by words, the same", needs="word_right", reads=True, extends=True),
    Binding(("Home",), "home", "to the ends of the line, the same", needs="home", reads=True, extends=True),
    Binding(("End",), "end", "to the ends of the line, the same", needs="end", reads=True, extends=True),
    Binding(("^Home",), "first", "to the ends of the file", reads=True),
    Binding(("^End",), "last", "to the ends of the file", reads=True),
    Binding(("Page Up",), "page_up", "show what stands above or below; the selection stays", needs=ROWS, reads=True),
    Binding(("Page Down",), "page_down", "show what stands above or below; the selection stays", needs=ROWS, reads=True),
)

# The keys of the set `usual`, for each action of which they are others: those that many editors have, and the page of editor/web.
USUAL: Dict[str, Tuple[str, ...]] = {
    "help": ("F1", "^_"),
    "split": ("^T",),
    "unsplit": ("F4",),
    "write": ("^S",),
    "close": ("^W",),
    "redo": ("^Y",),
    "find": ("^F", "F7"),
    "search": ("^G", "F3"),
    "search_back": ("^B", "Shift-F3"),
}


class KeySet:
    """Which key does what: the bindings, where some actions have other keys than in the set `sam`."""

    def __init__(self, name: str, others: Dict[str, Tuple[str, ...]]):
        self.name = name
        self.bindings = tuple(binding._replace(keys=others.get(binding.action, binding.keys)) for binding in BINDINGS)
        self._by_key = {key: binding for binding in self.bindings for key in binding.keys}
        self._keys = {binding.action: binding.keys for binding in self.bindings}

    def get(self, key: str) -> Optional[Binding]:
        """What a key does; with Shift what it does without, where nothing else is said of that. None where it does nothing."""
        return self._by_key.get(key) or self._by_key.get(key.replace("Shift-", ""))

    def all_of(self, action: str) -> str:
        """The keys of an action, as they are told."""
        return " or ".join(self._keys[action])

    def of(self, action: str) -> str:
        """The first of them, which stands for all where a line on the screen names it."""
        return self._keys[action][0]

    def table(self) -> List[str]:
        """The lines of the help window; keys of which the same is said stand in one."""
        lines = []
        for words, bindings in groupby(self.bindings, key=lambda binding: binding.help):
            keys = ", ".join(self.all_of(binding.action) for binding in bindings)
            lines.append(f"{keys:21} {words}")
        return lines


SAM = KeySet("sam", {})
KEY_SETS: Dict[str, KeySet] = {key_set.name: key_set for key_set in (SAM, KeySet("usual", USUAL))}


class Text(NamedTuple):
    """Typed runes."""

    runes: str


class Paste(NamedTuple):
    """Runes that the user's terminal pasted, as one text."""

    runes: str


class Key(NamedTuple):
    """A key that isn't text, by its name; without one it is what a terminal tells by itself, and does nothing."""

    name: str


class Mouse(NamedTuple):
    """`what` is press, release, move, wheel up or wheel down; `when` is the second at which it was read."""

    what: str
    row: int
    column: int
    when: float


Input = Union[Text, Paste, Key, Mouse]
