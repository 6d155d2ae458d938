"""Shells that read a command's words on their way: ssh joins its words by blanks, and the far shell takes that line apart again."""
import os
import shlex
from typing import List, Sequence

JOINING = ("ssh", "autossh", "rsh", "dbclient", "plink")  # commands that do so
HOME = "~/"  # what begins a word of which the last shell is to put the home in


def shells_of(command: Sequence[str]) -> int:
    """How many shells read what comes after a command: one for each word of it that names ssh, or a program like it. Another command gets
    its words as they are."""
    return sum(os.path.basename(word) in JOINING for word in command)


def for_shells(words: Sequence[str], count: int) -> List[str]:
    """Words so quoted that they are themselves again once so many shells have read them."""
    for at in range(count):
        words = [_quoted(word) if at == 0 else shlex.quote(word) for word in words]
    return list(words)


def _quoted(word: str) -> str:
    """A word for the last shell, which alone knows the home there."""
    if word.startswith(HOME):
        return HOME + (shlex.quote(word[len(HOME) :]) if word != HOME else "")
    return shlex.quote(word)
