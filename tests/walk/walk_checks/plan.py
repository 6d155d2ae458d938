"""What a walk does: random actions, each with the text that there is after it. The texts are Python's strings, and nothing of the product
takes part, so every front end is to come to the same."""
import random
import re
from typing import Dict, List, NamedTuple, Optional, Tuple

FIRST = ("tea, green", "rice 2.5 kg", "über alles", "paper (A4)", "日本 ink", "call the bank", "x1_2 => y", "tea again", "last line")
WORDS = ("a", "tea", "rice", " and ", "über", "日本", "3.5", "x1_2", "{", "=>", "call the bank", "q" * 20)
PATTERNS = ("a", "tea", "rice", "日本", "q", "all")
NEW = ("", "N", "日", "new tea")
MOST_LINES, LEAST_LINES, MOST_COLUMNS = 30, 5, 60  # so that a screen shows all of the text
MOST_ERASED = 5
MOST_TURNED = 3  # steps that are taken back, or made again, one after the other
BESIDE = 1  # runes between two changes, at which a front end may take them for one step
LONGEST_WAIT = 0.9  # seconds after which a cut or a kill comes, at most, from the first key of its action on
REST = (0.0, 0.0, 0.05, 0.2, 0.6)  # seconds after an action
AWAITED = 0.4  # the share of edits that show before the next one
EDITS_UNCHECKED = 40
EDITS_OF_TROUBLE = 6  # after a cut or a kill, and then all is looked at

CUT, KILL = "cut", "kill"


class Change(NamedTuple):
    """From a line and a column on, so many runes give way to a text."""

    row: int
    column: int
    count: int
    new: str


class Action(NamedTuple):
    """What a front end does, by the name of its call; what that is told; and the text after it."""

    kind: str
    words: tuple
    text: str
    rest: float = 0.0  # seconds until the next one
    troubles: Tuple[Tuple[float, str, int], ...] = ()  # each comes so many seconds after the first key: which, and a number for how
    is_checked: bool = False  # afterwards all is looked at
    is_awaited: bool = False  # it shows before the next one


class Step(NamedTuple):
    """A change that is taken back by one key: the texts before and after it, and where it stands in the later one."""

    before: str
    after: str
    start: int
    end: int


def spot(text: str, place: int) -> Tuple[int, int]:
    """The line and the column of a place, both from 0."""
    return text.count("\n", 0, place), place - (text.rfind("\n", 0, place) + 1)


def fits(text: str) -> bool:
    """Whether a screen shows all of a text, and no line begins with a blank, which editors repeat in the next line."""
    lines = text.split("\n")
    has_room = LEAST_LINES < len(lines) <= MOST_LINES and text.endswith("\n")
    return has_room and all(len(line) <= MOST_COLUMNS and not line.startswith(" ") for line in lines)


class Plan:
    """The actions of a seed."""

    def __init__(self, seed: int, edits: int, cuts: int, kills: int):
        self.numbers = random.Random(seed)
        self.first = self.text = "".join(f"{line}\n" for line in FIRST)
        self.past: List[Step] = []
        self.future: List[Step] = []
        self.clip = ""
        troubles = self._troubles(edits, [CUT] * cuts + [KILL] * kills)
        self.actions = []
        for at in range(edits):
            if self.numbers.randrange(15) == 0:
                self.actions.append(Action("write", (), self.text))
            self.actions.append(self._finished(self._edit(), troubles.get(at, ()), at + 1, edits, troubles))

    def _troubles(self, edits: int, kinds: List[str]) -> Dict[int, tuple]:
        """With which edits the line is cut, and the host killed; the first ones are left alone."""
        found: Dict[int, tuple] = {}
        for kind in kinds:
            at = self.numbers.randrange(min(edits - 1, 3), edits)
            found[at] = (*found.get(at, ()), (self.numbers.uniform(0, LONGEST_WAIT), kind, self.numbers.randrange(1000)))
        return found

    def _finished(self, action: Action, troubles: tuple, count: int, edits: int, every: Dict[int, tuple]) -> Action:
        is_checked = count % EDITS_UNCHECKED == 0 or count == edits or count - EDITS_OF_TROUBLE in every
        is_awaited = self.numbers.random() < AWAITED
        return action._replace(rest=self.numbers.choice(REST), troubles=troubles, is_checked=is_checked, is_awaited=is_awaited)

    # ---- Edits

    def _edit(self) -> Action:
        kinds = (self._typed,) * 8 + (self._erased,) * 3 + (self._undone,) * 3 + (self._commanded,) * 2 + (self._pasted,) * 2
        kinds += (self._entered, self._cut, self._taken_back)
        if self.future:  # else they would be gone with the next edit
            kinds += (self._redone,) * len(kinds)
        while (action := self.numbers.choice(kinds)()) is None:
            pass
        return action

    def _changed(self, kind: str, words: tuple, start: int, gone: int, came: str) -> Optional[Action]:
        """The action by which a text takes the place of so many runes, as a step of its own. None where it would not fit, or stands so near
        to the last step that both may be one."""
        text = self.text[:start] + came + self.text[start + gone :]
        last = self.past[-1] if self.past else None
        is_beside = last is not None and start <= last.end + BESIDE and last.start - BESIDE <= start + gone
        if is_beside or not fits(text):
            return None
        self.past.append(Step(self.text, text, start, start + len(came)))
        self.future = []
        self.text = text
        return Action(kind, words, text)

    def _place(self) -> int:
        """Any place before the last newline."""
        return self.numbers.randrange(len(self.text))

    def _typed(self) -> Optional[Action]:
        place, word = self._place(), self.numbers.choice(WORDS)
        return self._changed("type", (*spot(self.text, place), word), place, 0, word)

    def _entered(self) -> Optional[Action]:
        place = self._place()
        return self._changed("enter", spot(self.text, place), place, 0, "\n")

    def _erased(self) -> Optional[Action]:
        place, count = self._place(), self.numbers.randrange(1, MOST_ERASED + 1)
        if place < count:
            return None
        return self._changed("erase", (*spot(self.text, place), count), place - count, count, "")

    def _line(self) -> Tuple[int, int, int]:
        """A line by its number from 0, with the places where it begins and where the next one does."""
        starts = [0, *(found.end() for found in re.finditer("\n", self.text))]
        row = self.numbers.randrange(len(starts) - 1)
        return row, starts[row], starts[row + 1]

    def _cut(self) -> Optional[Action]:
        row, start, end = self._line()
        clip = self.text[start:end]
        action = self._changed("cut_line", (row,), start, end - start, "")
        self.clip = clip if action else self.clip
        return action

    def _pasted(self) -> Optional[Action]:
        row, start, _ = self._line()
        return self._changed("paste", (row,), start, 0, self.clip) if self.clip else None

    def _undone(self) -> Optional[Action]:
        count = min(len(self.past), self.numbers.randrange(1, MOST_TURNED + 1))
        for _ in range(count):
            self.future.append(self.past.pop())
            self.text = self.future[-1].before
        return Action("undo", (count,), self.text) if count else None

    def _redone(self) -> Optional[Action]:
        count = min(len(self.future), self.numbers.randrange(1, MOST_TURNED + 1))
        for _ in range(count):
            self.past.append(self.future.pop())
            self.text = self.past[-1].after
        return Action("redo", (count,), self.text) if count else None

    # ---- Command lines

    def _command(self) -> Tuple[str, List[Tuple[int, int, str]]]:
        """A command line, and what it does: stretches that give way to a text, the first one first."""
        row, start, end = self._line()
        word = self.numbers.choice(("rice", "new line", "日本"))
        kind = self.numbers.randrange(4)
        if kind == 0:
            return f"{row + 1}d", [(start, end, "")]
        if kind == 1:
            return f"{row + 1}a/{word}\\n/", [(end, end, f"{word}\n")]
        if kind == 2:
            return f"{row + 1}c/{word}\\n/", [(start, end, f"{word}\n")]
        pattern, new = self.numbers.choice(PATTERNS), self.numbers.choice(NEW)
        places = [found.start() for found in re.finditer(pattern, self.text)]
        return f",x/{pattern}/c/{new}/", [(place, place + len(pattern), new) for place in places]

    def _run(self) -> Optional[Tuple[str, tuple, str]]:
        """A command line, the same as changes, the last one first, and the text after it. None where it changes nothing, or the text would
        not fit."""
        line, stretches = self._command()
        text, changes = self.text, []
        for start, end, new in reversed(stretches):
            changes.append(Change(*spot(text, start), end - start, new))
            text = text[:start] + new + text[end:]
        return (line, tuple(changes), text) if text != self.text and fits(text) else None

    def _commanded(self) -> Optional[Action]:
        """A command line. What was done before is taken back no more: in a front end without command lines this is many steps."""
        run = self._run()
        if run is None:
            return None
        line, changes, self.text = run
        self.past, self.future = [], []
        return Action("command", (line, changes), self.text)

    def _taken_back(self) -> Optional[Action]:
        """A command line that is taken back at once, by one key."""
        run = self._run()
        if run is None:
            return None
        self.past, self.future = [], []
        return Action("command_taken_back", run, self.text)
