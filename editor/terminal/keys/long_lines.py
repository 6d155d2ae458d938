"""A command line that is too long for the host though the text would fit: it runs in parts. The host counts what a line puts in, and not
what goes."""
import re
from typing import Callable, List, NamedTuple, Optional, Tuple

from .command_errors import OF_WORDS
from ..text.lines import PATTERN, unescaped
from ..text.texts import GAP, MOST_RUNES

MOST_PARTS = 100
BLANKS = r"[ \t]*"
# What is certain: each place of a pattern in the whole text or in the selection is changed.
CHANGES = re.compile(rf"{BLANKS}([,.]?){BLANKS}x{BLANKS}{PATTERN}{BLANKS}c{BLANKS}{PATTERN}{BLANKS}")


class Parts(NamedTuple):
    """The lines that come to the same, in their order; or why there are none."""

    lines: List[str]
    why_not: str = ""


def parts_of(line: str, length: int, dot: Tuple[int, int], read: Callable[[int, int], str]) -> Optional[Parts]:
    """What runs in the place of a line on a text, of which so many runes are read from a place on; None for a line of another form. The
    last part comes first, so the places of the others stay. Each begins with a place of the pattern as the whole line finds it from the
    left, and ends where the next begins: so it finds those and no others."""
    form = CHANGES.fullmatch(line)
    if form is None:
        return None
    start, end = (0, length) if form[1] == "," else dot
    pattern, came = unescaped(form[2]), unescaped(form[3])
    text = read(start, end - start)
    if GAP in text:
        return Parts([], f"{OF_WORDS['long']}, or wait until all is loaded")
    places = places_of(pattern, text)
    grows = len(came) - len(pattern)
    if length + len(places) * grows > MOST_RUNES:
        return Parts([], f"the text would have more than {MOST_RUNES:,} characters")
    lines: List[str] = []
    while places:
        count = min(len(places), (MOST_RUNES - length) // max(1, len(came)))
        if count == 0 or len(lines) == MOST_PARTS:
            return Parts([], f"the text is too near to {MOST_RUNES:,} characters; select a part, and run it on that")
        first = start + places[-count]
        lines.append(f"#{first},#{end}x/{form[2]}/c/{form[3]}/")
        end, length = first, length + count * grows
        del places[-count:]
    return Parts(lines)


def places_of(pattern: str, text: str) -> List[int]:
    """Where a pattern stands in a text, from left to right, none overlapping another."""
    return [found.start() for found in re.finditer(re.escape(pattern), text)]
