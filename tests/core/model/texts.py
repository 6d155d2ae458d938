"""What host, terminal and command lines share: limits, occurrences, lines, words. A text is a str, and a range two places."""

MOST_RUNES = 1_000_000  # of a file, a rasp, the snarf buffer
MOST_IN_MESSAGE = 512  # runes
MOST_IN_NAME = 64
MOST_IN_PATTERN = 128
MOST_REQUESTS = 1_954  # messages for which one event asks
MOST_TAGS = 65_536
COMMON_VERSION = 2
SNARF_LIMITS = {1: 4_096, 2: 32_000}  # bytes of a message, by version


def occurrences(text, start, end, pattern):
    """The ranges from start to end that hold the pattern, from left to right, none overlapping another."""
    found = []
    while (at := text.find(pattern, start, end)) >= 0:
        start = at + len(pattern)
        found.append((at, start))
    return found


def next_occurrence(text, place, pattern):
    """The first range that holds the pattern from the place on, else the first of the text, else None."""
    at = text.find(pattern, place)
    if at < 0:
        at = text.find(pattern)
    return None if at < 0 else (at, at + len(pattern))


def line_start(text, place):
    """The place after the last newline before this place, or 0."""
    return text.rfind("\n", 0, place) + 1


def line_range(text, number):
    """Line `number`, counted from 1, with its newline, or None where the text has fewer. What follows the last newline is a line."""
    lines = text.split("\n")
    if number > len(lines):
        return None
    start = sum(len(line) + 1 for line in lines[: number - 1])
    return start, min(len(text), start + len(lines[number - 1]) + 1)


def is_of_a_word(rune):
    """ASCII letters and digits, the underscore, and all that is not ASCII."""
    return not rune.isascii() or rune.isalnum() or rune == "_"


def word_at(text, place):
    """The longest stretch of runes of a word that has the place inside or at an edge; else the empty range there."""
    start = end = place
    while start > 0 and is_of_a_word(text[start - 1]):
        start -= 1
    while end < len(text) and is_of_a_word(text[end]):
        end += 1
    return start, end


def cut_to_bytes(text, most):
    """The longest first part of whole runes that has at most so many bytes."""
    return text.encode()[:most].decode(errors="ignore")


def after_insertion(place, at, count):
    """Where a place is once so many runes came in: those above move."""
    return place + count if place > at else place


def after_removal(place, start, end):
    """Where a place is once a range went: those from its end on move, those in it are its start."""
    return place - (end - start) if place >= end else min(place, start)
