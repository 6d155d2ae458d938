"""Undo: the changes of each file, oldest first. Of a text nothing is kept but what came and what went."""
from itertools import chain
from typing import Dict, Iterable, Iterator, List, Optional

from .client_terminal import ClientTerminal
from .texts import GAP, Change, Changes, Run, Texts, runs

MOST_STEPS = 10_000  # steps that are kept of a file
MOST_TYPED = 80  # runes that are taken back at once, of those typed one after the other


class Step:
    """Changes that are taken back together."""

    def __init__(self, kind: str = ""):
        self.kind = kind  # "type" or "erase" where the next change of this kind may join
        self._changes: List[Change] = []
        self._later: List[Iterable[Change]] = []  # after these: each is made where it is asked for, as there may be thousands
        self.turned = 0  # how many of them are taken back, from the last one on

    @property
    def changes(self) -> List[Change]:
        if self._later:
            self._changes = [*self._changes, *chain.from_iterable(self._later)]
            self._later = []
        return self._changes

    @property
    def is_empty(self) -> bool:
        return not self._changes and not self._later

    @property
    def stand(self) -> List[Change]:
        """Those that are not taken back."""
        return self.changes[: len(self.changes) - self.turned]

    @property
    def went(self) -> List[Change]:
        """Those that are taken back."""
        return self.changes[len(self.changes) - self.turned :]

    @property
    def lacks(self) -> int:
        """How many runes are known nowhere that have to come to take it back."""
        return sum(change.gone.count(GAP) for change in self.stand)

    @property
    def lacks_again(self) -> int:
        """The same of a step that was taken back, to make it again."""
        return sum(change.came.count(GAP) for change in self.went)

    def add(self, changes: Iterable[Change]) -> None:
        if not self.kind:
            self._later.append(changes)
            return
        for change in changes:
            if self.changes and _touches(self.changes[-1], change):
                change = _joined(self.changes.pop(), change)
            elif self.changes:  # the host has made it
                self.kind = ""
            self.changes.append(change)

    def takes(self, kind: str, start: int, end: int) -> bool:
        """Whether a change of this kind from one place to another goes on where the last one stopped."""
        if self.kind != kind or not self.changes:
            return False
        last = self.changes[-1]
        if len(last.came) >= MOST_TYPED:
            return False
        return start == end == last.place + len(last.came) if kind == "type" else last.place in (start, end)


Steps = Dict[int, List[Step]]  # of each file, the last one last


def _touches(first: Change, second: Change) -> bool:
    """Whether two changes can be joined, one made after the other."""
    goes_on = second.place == first.place + len(first.came)
    return goes_on or (second.came == "" and second.place + len(second.gone) == first.place)


def _joined(first: Change, second: Change) -> Change:
    """Two changes beside each other as one."""
    if second.place < first.place:
        return first._replace(place=second.place, gone=second.gone + first.gone)
    return first._replace(gone=first.gone + second.gone, came=first.came + second.came)


def _filled(text: str, known: str) -> str:
    """A text whose gaps are filled from the same text, as far as it is known there."""
    if GAP not in text or len(text) != len(known):
        return text
    if text == GAP * len(text):
        return known
    return "".join(other if rune == GAP else rune for rune, other in zip(text, known))


def _together(each: Iterator[Run]) -> Iterator[List[Run]]:
    """Runs in lists that may be made together. One of which not all is known that goes is alone."""
    together: List[Run] = []
    for run in each:
        if together and (not run.is_known or not together[0].is_known):
            yield together
            together = []
        together.append(run)
    if together:
        yield together


class Known:
    """Changes whose gaps are filled, as far as what the host takes out is known."""

    def __init__(self, changes: Changes, goes: str):
        self._changes, self._goes = changes, goes

    def __iter__(self) -> Iterator[Change]:
        for change in self._changes:
            yield change._replace(gone=_filled(change.gone, self._goes)) if GAP in change.gone else change


class Undo:
    """What was done to each file, and what was taken back."""

    def __init__(self, terminal: ClientTerminal, texts: Texts):
        self.terminal, self.texts = terminal, texts
        self.past: Steps = {}
        self.future: Steps = {}
        self.goes = ""  # what the host takes out where it changes a text of this length that is not loaded
        self._halves: Dict[int, Step] = {}  # of a file, the step that is taken back in part, since memory was out
        self._turned: Optional[int] = None  # the file of which a step is turned

    def begin(self, tag: int, kind: str = "", start: int = 0, end: int = 0) -> None:
        """A key changes a file next: a step begins, or goes on where a key of the same kind stopped."""
        self.goes = ""
        if tag in self._halves:
            self._stay(tag)
        steps = self.past.setdefault(tag, [])
        if steps and kind and steps[-1].takes(kind, start, end):
            return
        if steps and steps[-1].is_empty:
            steps.pop()
        steps.append(Step(kind))
        del steps[:-MOST_STEPS]

    def room(self, tag: int, start: int, end: int) -> int:
        """How many runes that are typed next belong to one step."""
        steps = self.past.get(tag)
        goes_on = steps and tag not in self._halves and steps[-1].takes("type", start, end)
        return MOST_TYPED - len(steps[-1].changes[-1].came) if steps and goes_on else MOST_TYPED

    def hear(self, changes: Changes) -> None:
        """Notes changes of a file; what was taken back can't be made again then."""
        tag = changes.tag
        if tag in (0, self._turned):
            return
        self._stay(tag)
        steps = self.past.setdefault(tag, [])
        if not steps:
            steps.append(Step())
        steps[-1].add(Known(changes, self.goes) if self.goes else changes)

    def _stay(self, tag: int) -> None:
        """What was taken back stays so."""
        self.future.pop(tag, None)
        half = self._halves.pop(tag, None)
        if half is not None:
            del half.changes[-half.turned :]
            half.turned = 0
            self.past.setdefault(tag, []).append(half)

    def drop(self, tag: int) -> None:
        """The file is gone, or what it had before is not known."""
        for steps in (self.past, self.future, self._halves):
            steps.pop(tag, None)

    def last(self, steps: Dict[int, List[Step]], tag: int) -> Optional[Step]:
        """The step of a file that comes next, of those done or of those taken back. One that is taken back in part is both."""
        if tag in self._halves:
            return self._halves[tag]
        kept = steps.get(tag, [])
        while kept and kept[-1].is_empty:
            kept.pop()
        return kept[-1] if kept else None

    def unknown(self, step: Step) -> int:
        """How many runes would go with a step that are not known, so that they could not be brought again."""
        return 0 if step.turned else sum(came.count(GAP) for came in self._came_now(step))

    def _came_now(self, step: Step) -> List[str]:
        """What came with each change of a step, its gaps filled as far as it is loaded by now."""
        texts = []
        for at, change in enumerate(step.changes):
            came = change.came
            if GAP in came:
                place = change.place
                for later in step.changes[at + 1 :]:
                    place = later.moved(place)
                came = _filled(self.texts.read(change.tag, place, len(came)), came)
            texts.append(came)
        return texts

    def back(self, tag: int) -> None:
        step = self.last(self.past, tag)
        self._turn(tag, step, [Change(tag, place, came, gone) for _, place, gone, came in reversed(step.stand)], 1)

    def again(self, tag: int) -> None:
        step = self.last(self.future, tag)
        self._turn(tag, step, step.went, -1)

    def _turn(self, tag: int, step: Step, changes: List[Change], sign: int) -> None:
        """Makes changes of a file, which take back what is left of a step; or make it again, where the sign is -1. Out of memory some of
        them are made."""
        made, breaks, self._turned = 0, self.terminal.breaks, tag
        try:
            for together in _together(runs(changes)):
                if not together[0].is_known:
                    self._fill(step, changes, made, sign)
                counts = [run.count for run in together]
                for count in self.terminal.edit_each(tag, [(run.place, run.place + run.gone, "".join(run.came)) for run in together]):
                    made += sum(counts[:count])
                    del counts[:count]
                if counts:
                    return
            caret = changes[-1].place + len(changes[-1].came)
            self.terminal.select(tag, caret, caret)
        finally:
            if breaks == self.terminal.breaks:  # else nobody knows what was made
                if made:
                    self.texts.tell(Changes(changes[:made]))
                self._end(tag, step, step.turned + sign * made)
            self._turned = None

    def _fill(self, step: Step, changes: List[Change], made: int, sign: int) -> None:
        """Fills what goes with the next change, as far as it is loaded by now. What makes that again has to know it."""
        change = changes[made]
        gone = _filled(self.texts.read(change.tag, change.place, len(change.gone)), change.gone)
        changes[made] = change._replace(gone=gone)
        if sign > 0:
            at = len(step.changes) - step.turned - made - 1
            step.changes[at] = step.changes[at]._replace(came=gone)

    def _end(self, tag: int, step: Step, turned: int) -> None:
        """A step is turned, or as much of it as memory was there for."""
        step.turned, step.kind = turned, ""
        for steps in (self.past, self.future):
            if steps.get(tag) and steps[tag][-1] is step:
                steps[tag].pop()
        self._halves.pop(tag, None)
        if 0 < turned < len(step.changes):
            self._halves[tag] = step
        else:
            (self.future if turned else self.past).setdefault(tag, []).append(step)
