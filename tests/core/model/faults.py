"""Wrong rules: each takes the place of one rule of the model, and a comparison that doesn't notice it tells nothing."""

from typing import Any, Callable, NamedTuple
from unittest import mock

from . import command_lines, host, terminal, texts


class Fault(NamedTuple):
    """A wrong rule, in the place of the one that this owner has under this name."""

    told: str
    owner: Any
    name: str
    wrong: Callable

    def planted(self):
        """A context in which the model has the fault."""
        return mock.patch.object(self.owner, self.name, self.wrong)


def asks_always(self, tag):
    window = self.known[tag]
    gap = window.gap_from(0) if window and not self.is_over else None
    if gap:
        self.request(tag, *gap)


def waits_for_no_other(self, window, word, values):
    return bool(window and window.locks)


def joins_anywhere(self, tag, place, text):
    if self.unsent and self.unsent[0] == tag and len(self.unsent[2]) + len(text) <= texts.MOST_IN_MESSAGE:
        return tag, self.unsent[1], self.unsent[2] + text
    self.flush()
    return tag, place, text


def drops_empty_stretches(text, start, end, pattern):
    return [(first, last) for first, last in right_between(text, start, end, pattern) if first < last]


def shows_the_range(line, chosen, ranges, grown):
    return ranges[0] if ranges else chosen


def takes_from_the_start(text, place, pattern):
    return right_next_occurrence(text, 0, pattern)


def makes_dirty_again(self, tag):
    self.files[tag].is_dirty = tag > 0
    return []


def runs_the_first_line(self, tag, start, end):
    text = self.open_file(tag, start, end).text[start:end]
    return [*self.printed(text + "\n"), *self.run_line(text.partition("\n")[0])] if text else [("Hunlock",)]


def reads_blanks_as_commands(self):
    return None


right_between, right_next_occurrence = command_lines.between, texts.next_occurrence
FAULTS = (
    Fault("a place where runes come in moves with them", texts, "after_insertion", lambda place, at, count: place + count * (place >= at)),
    Fault("a place goes back by all of a range that goes", texts, "after_removal", lambda place, start, end: max(0, place - end + start)),
    Fault("the request rule asks while a Trequest is awaited", terminal.Terminal, "ask", asks_always),
    Fault("the command lock is taken while a file has a lock", terminal.Terminal, "waits_for_a_file", waits_for_no_other),
    Fault("typed runes join any unsent ones of their file", terminal.Terminal, "joined", joins_anywhere),
    Fault("y leaves empty stretches out", command_lines, "between", drops_empty_stretches),
    Fault("the dot after x is the first range", command_lines, "dot_after", shows_the_range),
    Fault("the pattern is looked for from the start", texts, "next_occurrence", takes_from_the_start),
    Fault("Tsend runs the first line of its text", host.Host, "answer_Tsend", runs_the_first_line),
    Fault("blanks may not stand in a command line", command_lines.Reader, "skip_blanks", reads_blanks_as_commands),
)
