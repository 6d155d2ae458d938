"""What helps where the host didn't run a command line: it prints `? ` and a word."""
import re
from typing import Optional

from .bindings import KeySet

SIGNS = ". * + ? [ ] ( ) { } | ^ $ @"
SUBSTITUTE = re.compile(r"(?:%|[\d.$,]*)s/((?:\\.|[^/\\])+)/((?:\\.|[^/\\])*)(?:/[a-z]*)?")
LEAVING, WRITING = ("q!", "wq", "x", "exit", "quit"), re.compile(r"(w|wq|x|write|save|e|r)!?( .*)?")
TAKES_BACK, SHOWS = "{undo} takes back", "{help} shows the keys"  # in braces stand actions, whose keys take their place
OTHERS = {"u": TAKES_BACK, "undo": TAKES_BACK, "help": SHOWS, "h": SHOWS, "": "the line is empty"}
NAMED = re.compile(r"\{([a-z]+)\}")
EXAMPLES = "3 goes to line 3, /text/ finds, ,x/old/c/new/ changes all, q leaves"

OF_WORDS = {
    "escape": "after \\ comes n, or a sign as / or .",
    "name": "a name has at most 64 characters",
    "no file": "no file is open: {menu} shows them",
    "search": "the pattern occurs nowhere",
    "address": "the text has no such line or place, or the end comes before the start",
    "long": "the text and all that the line puts in are over 1,000,000 characters together; select a part, and run it on that",
}


def word_of(printed: str) -> Optional[str]:
    """Why the host didn't run a line, by what came at the end of the command file; None where it did. The line itself may stand before."""
    found = re.fullmatch(r"(?:[^\n]*\n)?\? ([a-z ]+)\n", printed)
    return found[1] if found else None


def help_of(line: str, word: str, keys: KeySet) -> str:
    """What the bottom line says of such a line, with these keys."""
    if word == "pattern":
        helps = _of_pattern(line)
    elif word == "command":
        helps = _of_command(line.strip(" \t").lstrip(":"), keys)
    else:
        helps = _with_keys(OF_WORDS.get(word, ""), keys)
    return f"? {word}: {helps}"


def _with_keys(words: str, keys: KeySet) -> str:
    return NAMED.sub(lambda action: keys.of(action[1]), words)


def _of_pattern(line: str) -> str:
    if re.search(r"(^|[xygv,])[ \t]*//", line):
        return "a pattern is not empty"
    return f"patterns are plain text; put \\ before {SIGNS}"


def _plain(pattern: str) -> str:
    """A pattern whose signs stand for themselves."""
    return re.sub(r"\\.|[.*+?\[\](){}|^$@]", lambda sign: sign[0] if len(sign[0]) > 1 else "\\" + sign[0], pattern)


def _of_command(line: str, keys: KeySet) -> str:
    if found := SUBSTITUTE.fullmatch(line):
        return f",x/{_plain(found[1])}/c/{found[2]}/ changes each"
    if line in LEAVING:
        helps = "q leaves, {write} writes"
    elif (found := WRITING.fullmatch(line)) is not None:
        helps = "{menu} opens another file" if found[1] in ("e", "r") else "{write} writes; f NAME gives the file another name"
    else:
        helps = OTHERS.get(line, EXAMPLES)
    return _with_keys(helps, keys)
