"""The texts that are shown, with word of each change: by the user here, or by the host."""
from collections import deque
from operator import itemgetter
from typing import Callable, Dict, Iterator, List, NamedTuple

COMMAND = 0  # the tag of the command file
COMMAND_NAME = "~~sam~~"  # which the host tells, too
GAP = "\ud800"  # stands for a rune that is not loaded: no rune is a surrogate
MOST_RUNES = 1_000_000  # of a text
MOST_TYPED = 512  # runes of the command file that are typed by one request


def moved(place: int, start: int, gone: int, came: int) -> int:
    """Where a place stands after a change."""
    if place <= start:
        return place
    place = max(start, place - gone)
    return place if place == start else place + came


class Change(NamedTuple):
    """`came` stands where `gone` stood; GAP in them for what is not known."""

    tag: int
    place: int
    gone: str
    came: str

    def moved(self, place: int) -> int:
        """Where a place stands afterwards."""
        return moved(place, self.place, len(self.gone), len(self.came))


PLACE_OF, GONE_OF, CAME_OF = (itemgetter(Change._fields.index(name)) for name in ("place", "gone", "came"))


class Changes:
    """Changes of one file, in order: their places, and how many runes went and came at each."""

    def __init__(self, changes: List[Change]):
        self.tag, self.places = changes[0].tag, [*map(PLACE_OF, changes)]
        self.gone, self.came = ([*map(len, map(text_of, changes))] for text_of in (GONE_OF, CAME_OF))
        self._each = changes

    def __len__(self) -> int:
        return len(self.places)

    def __iter__(self) -> Iterator[Change]:
        return iter(self._each)

    def moved(self, place: int) -> int:
        """Where a place stands after them."""
        for start, gone, came in zip(self.places, self.gone, self.came):
            place = moved(place, start, gone, came)
        return place


class Run:
    """Changes that touch, one after the other, as one: how many they are, how many runes go, and what comes, in pieces."""

    def __init__(self, change: Change):
        self.place, self.end = change.place, change.place + len(change.came)  # where it begins, and where what comes ends
        self.count, self.gone, self.came = 1, len(change.gone), deque((change.came,))
        self.is_known = GAP not in change.gone

    def takes(self, change: Change) -> bool:
        """Makes a change the last one, if it touches those before it. One of which not all is known that goes stays alone."""
        _, place, gone, came = change
        if not self.is_known or GAP in gone:
            return False
        if place == self.end:
            self.came.append(came)
            self.end += len(came)
        elif place + len(gone) == self.place:
            self.came.appendleft(came)
            self.place, self.end = place, self.end + len(came) - len(gone)
        else:
            return False
        self.count += 1
        self.gone += len(gone)
        return True


def runs(changes: List[Change]) -> Iterator[Run]:
    """Changes as runs that come to the same, one after the other."""
    run = None
    for change in changes:
        if run is None:
            run = Run(change)
        elif not run.takes(change):
            yield run
            run = Run(change)
    if run is not None:
        yield run


class Texts:
    """Reads texts, and changes them whatever is locked. `listeners` hear of changes once they are made: of one file, in order;
    `host_listeners` of those that the host made."""

    def __init__(self, terminal):
        self.terminal = terminal
        self.versions: Dict[int, int] = {}  # of each text; another one once it changed, or was loaded further
        self.is_final = False  # the host is gone, so no more of any text is loaded
        self.holds_back = False  # its answers are late, so nothing is asked for
        self.left = ""  # what is to be typed, and was not taken
        self.listeners: List[Callable[[Changes], None]] = []
        self.host_listeners: List[Callable[[Changes], None]] = []
        terminal.tell, terminal.touch = self.hear, self.touch

    def read(self, tag: int, place: int, count: int) -> str:
        """The runes of an open file from a place on, GAP for one that is not loaded."""
        return self.terminal.runes(tag, place, count) if count > 0 else ""

    def select(self, tag: int, start: int, end: int) -> None:
        """Sets the dot."""
        if self.is_final:
            self.terminal.put_dot(tag, start, end)
        else:
            self.terminal.select(tag, start, end)

    def hear(self, changes: Changes) -> None:
        """The host has made changes of one file."""
        self.tell(changes)
        for listener in self.host_listeners:
            listener(changes)

    def tell(self, changes: Changes) -> None:
        """Tells of changes of one file."""
        self.touch(changes.tag)
        for listener in self.listeners:
            listener(changes)

    def touch(self, tag: int) -> None:
        """The text looks otherwise: it changed, or more of it is loaded."""
        self.versions[tag] = self.versions.get(tag, 0) + 1

    def replace(self, tag: int, runes: str) -> None:
        """Types runes in the place of the dot."""
        self.left = runes
        if tag == COMMAND:
            for at in range(0, max(1, len(runes)), MOST_TYPED):
                self.terminal.type_command(runes[at : at + MOST_TYPED])
                self.left = runes[at + MOST_TYPED :]
            self.terminal.act()
        else:
            start, end = self.terminal.dot(tag)
            if not self.edit(tag, start, end, runes):
                return
            self.select(tag, start + len(runes), start + len(runes))
        self.left = ""

    def edit_each(self, tag: int, changes: List[Change]) -> None:
        """Makes changes, each at places of what those before have left, until one is refused."""
        made, breaks = 0, self.terminal.breaks
        try:
            for more in self.terminal.edit_each(tag, [(place, place + len(gone), came) for _, place, gone, came in changes]):
                made += more
        finally:
            if made and breaks == self.terminal.breaks:  # else nobody knows what was made
                self.tell(Changes(changes[:made]))

    def edit(self, tag: int, start: int, end: int, came: str) -> bool:
        """Puts runes in the place of others, wherever the dot is. Returns whether that was not refused."""
        gone = self.terminal.edit(tag, start, end, came)
        if gone is not None and gone != came:
            self.tell(Changes([Change(tag, start, gone, came)]))
        return gone is not None
