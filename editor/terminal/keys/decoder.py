"""What the user's terminal sends for keys, mouse and pastes: bytes come in, keys go out. Each sequence is taken as one, also one that
nobody here knows."""
import codecs
import locale
import re
from typing import Dict, List, Optional

from .bindings import Input, Key, Mouse, Paste, Text

ESCAPE_DELAY = 0.025  # seconds after which an Esc was a key, and no sequence's begin
REST_DELAY = 0.5  # the same for a sequence whose rest is missing
PASTE_DELAY = 1.0  # seconds in which nothing comes, after which a paste counts as broken off: the user may end it then
PASTE_END = b"\x1b[201~"
PASTE_BREAK = b"\x1b\x1b"  # the keys by which the user ends it: no mark has two Esc, and few terminals paste one
MOST_DIGITS = 8  # of a number in a sequence, which is greater than any that means something where it has more

# How a string begins that a terminal answers with. What else comes after Alt with such a key was typed, and doesn't wait for an end.
ANSWER = rb"(?:\]\d+;|P[\d;]*[!$+>]|_G)[^\x00-\x1f\x7f]*"
# The forms of a sequence: CSI with numbers (also of the Linux console, of rxvt with its `$`, and of a mouse with three bytes), SS3,
# a string that ends in BEL or ST.
SEQUENCE = re.compile(
    rb"\x1b\[\[(?P<linux>[A-E])|\x1b\[M(?P<mouse>[\x00-\xff]{3})|\x1b\[(?P<shifted>\d+)\$|"
    rb"\x1b\[(?![M\[])(?P<numbers>[0-?]*)(?P<between>[ -/]*)(?P<final>[@-~])|\x1bO(?P<ss3>[0-9;]*)(?P<key>[@-~])|"
    rb"\x1b" + ANSWER + rb"(?:\x07|\x1b\\)",
    re.DOTALL,
)
BEGUN = re.compile(rb"\x1b(?:\[M.{0,2}|\[\[|\[[0-?]*[ -/]*|O[0-9;]*|\]\d*|P[\d;]*|_|" + ANSWER + rb"\x1b?)?", re.DOTALL)

ALT = {b"\x1bb": "Alt-b", b"\x1bf": "Alt-f"}  # the keys with Alt that do something; what else comes after an Esc is a key of its own

LETTERS = {
    "A": "Up", "B": "Down", "C": "Right", "D": "Left", "H": "Home", "F": "End", "P": "F1", "Q": "F2", "R": "F3", "S": "F4",
    "Z": "Shift-Tab", "I": "", "O": "",
}  # fmt: skip
NUMBERS = {
    1: "Home", 2: "Insert", 3: "Delete", 4: "End", 5: "Page Up", 6: "Page Down", 7: "Home", 8: "End", 11: "F1", 12: "F2", 13: "F3",
    14: "F4", 15: "F5", 17: "F6", 18: "F7", 19: "F8", 20: "F9", 21: "F10", 23: "F11", 24: "F12",
}  # fmt: skip
RXVT = {"a": "Up", "b": "Down", "c": "Right", "d": "Left"}  # with Shift after CSI, with Control after SS3
KEYPAD = {chr(ord("p") + digit): str(digit) for digit in range(10)}
KEYPAD.update({"M": "\n", "X": "=", "j": "*", "k": "+", "l": ",", "m": "-", "n": ".", "o": "/", "I": "\t", " ": " "})
LINUX = {"A": "F1", "B": "F2", "C": "F3", "D": "F4", "E": "F5"}
MOTION, WHEEL, MODIFIERS = 32, 64, 4 | 8 | 16  # bits of a mouse's number


def codec() -> str:
    """The codec of the characters of the locale; UTF-8 where Python has none for them."""
    try:
        return codecs.lookup(locale.nl_langinfo(locale.CODESET)).name
    except LookupError:
        return "utf-8"


def named(base: str, modifiers: int = 1) -> str:
    """The name of a key with the modifiers of a number, as xterm counts them."""
    bits = max(0, modifiers - 1)
    control, alt, shift = "^" if bits & 4 else "", "Alt-" if bits & 10 else "", "Shift-" if bits & 1 else ""
    return control + alt + shift + base if base else ""


def control(rune: str) -> Input:
    if rune in "\r\n":
        return Text("\n")
    if rune == "\t":
        return Text(rune)
    names = {"\x1b": "Esc", "\x7f": "Backspace", "\x08": "Backspace"}
    return Key(names.get(rune) or "^" + chr(ord(rune) + 64))


def rune_with(code: int, modifiers: int) -> Input:
    """A character with modifiers, as some terminals send it by numbers."""
    rune, bits = chr(code) if 0 < code < 0x110000 and not 0xD800 <= code < 0xE000 else "", max(0, modifiers - 1)
    if code < 32 or code == 127:
        return control(rune) if rune else Key("")
    if bits & 4 and rune.isascii() and "@" <= rune.upper() <= "_":
        return Key("^" + rune.upper())
    return Text(rune) if bits <= 1 else Key(named(rune, modifiers))


def mouse(button: int, column: int, row: int, is_up: bool, when: float) -> Input:
    kind = button & ~MODIFIERS
    if kind in (WHEEL, WHEEL + 1):
        what = "wheel up" if kind == WHEEL else "wheel down"
    elif kind == MOTION:
        what = "move"
    elif kind == 3 or (is_up and kind == 0):
        what = "release"
    else:
        what = "press" if kind == 0 else ""
    return Mouse(what, row, column, when) if what else Key("")


class Decoder:
    """Keeps the bytes of a sequence until it is whole, or until nothing more comes."""

    def __init__(self, known: Optional[Dict[bytes, str]] = None):
        self.known = known or {}  # sequences of this terminal, and their keys
        self._bytes = bytearray()
        self._pasted: Optional[bytearray] = None  # what was pasted so far
        self._broken_at: Optional[int] = None  # how many bytes of it there were when nothing more came for a while
        self._runes = codecs.getincrementaldecoder(codec())("replace")  # keeps the first bytes of a rune until the others come
        self._since = 0.0

    @property
    def is_broken(self) -> bool:
        """Whether a paste was broken off. What comes is part of it all the same, until its end comes or the user ends it."""
        return self._broken_at is not None

    def delay(self, now: float) -> Optional[float]:
        """Seconds until what is here is taken though it is not whole, or a paste counts as broken off; None where nothing waits."""
        if self.is_broken:
            return None
        if self._pasted is not None:
            longest = PASTE_DELAY
        elif not self._bytes:
            return None
        else:
            longest = ESCAPE_DELAY if len(self._bytes) <= 2 else REST_DELAY
        return max(0.0, self._since + longest - now)

    def feed(self, data: bytes, now: float) -> List[Input]:
        """The keys that bytes bring, typed runes that follow each other in one."""
        self._bytes += data
        self._since = now
        return self._taken(now, False)

    def flush(self, now: float) -> List[Input]:
        """The keys of what stays alone. A paste waits for its end."""
        if self.delay(now) != 0.0:
            return []
        if self._pasted is None:
            return self._taken(now, True)
        self._broken_at = len(self._pasted)
        return []

    def finish(self, now: float) -> List[Input]:
        """The same where nothing comes any more."""
        return self._taken(now, True)

    def _taken(self, now: float, is_over: bool) -> List[Input]:
        inputs: List[Input] = []
        while self._bytes or (is_over and self._pasted is not None):
            found = self._in_paste(is_over) if self._pasted is not None else self._next(now, is_over)
            if found is None:
                break
            for key in found:
                if isinstance(key, Text) and inputs and isinstance(inputs[-1], Text):
                    inputs[-1] = Text(inputs[-1].runes + key.runes)
                elif key not in (Text(""), Key("")):
                    inputs.append(key)
        return inputs

    def _in_paste(self, is_over: bool) -> Optional[List[Input]]:
        self._pasted += self._bytes
        self._bytes.clear()
        end, mark = self._pasted.find(PASTE_END), PASTE_END
        if end < 0 and self.is_broken and self._pasted[self._broken_at :].endswith(PASTE_BREAK):
            end, mark = len(self._pasted) - len(PASTE_BREAK), PASTE_BREAK
        if end < 0 and not is_over:
            return None
        if end >= 0:
            self._bytes += self._pasted[end + len(mark) :]
            del self._pasted[end:]
        text = self._pasted.decode(codec(), "replace").replace("\r\n", "\n").replace("\r", "\n")
        self._pasted = self._broken_at = None
        return [Paste(text)] if text else []

    def _cut(self, count: int) -> bytes:
        data = bytes(self._bytes[:count])
        del self._bytes[:count]
        return data

    def _next(self, now: float, is_over: bool) -> Optional[List[Input]]:
        """The keys of the first bytes; None where more have to come."""
        first = self._bytes[0]
        if first == 0x1B:
            return self._escape(now, is_over)
        if first < 32 or first == 127:
            return [control(chr(self._cut(1)[0]))]
        end = next((at for at, byte in enumerate(self._bytes) if byte < 32 or byte == 127), len(self._bytes))
        return [Text(self._runes.decode(self._cut(end)))]

    def _escape(self, now: float, is_over: bool) -> Optional[List[Input]]:
        known = next((sequence for sequence in self.known if self._bytes.startswith(sequence)), None)
        if known is not None:
            self._cut(len(known))
            return [Key(self.known[known])]
        found = SEQUENCE.match(self._bytes)
        if found:
            key = self._key_of(found, now)
            self._cut(found.end())
            return [key]
        if not is_over and BEGUN.fullmatch(self._bytes):
            return None
        if is_over and len(self._bytes) > 2 and BEGUN.fullmatch(self._bytes):
            self._cut(len(self._bytes))
            return [Key("a sequence of which the rest is missing")]
        return [Key(ALT[self._cut(2)])] if bytes(self._bytes[:2]) in ALT else [self._alone()]

    def _alone(self) -> Input:
        """An Esc that begins nothing is a key, and what comes after it is another, however soon it comes."""
        self._cut(1)
        return Key("Esc")

    def _key_of(self, found, now: float) -> Input:
        """The key of a whole sequence."""
        if found["linux"] is not None:
            return Key(LINUX[found["linux"].decode()])
        if found["mouse"] is not None:
            button, column, row = (byte - 32 for byte in found["mouse"])
            return mouse(button, column - 1, row - 1, False, now)
        if found["shifted"] is not None:
            return Key(named(NUMBERS.get(_number(found["shifted"]), ""), 2))
        if found["key"] is not None:
            return _ss3(found["key"].decode(), _numbers(found["ss3"]))
        if found["final"] is None or found["between"]:
            return Key("")
        return self._csi(found["numbers"], found["final"].decode(), now)

    def _csi(self, raw: bytes, final: str, now: float) -> Input:
        numbers = _numbers(raw)
        first, modifiers = (numbers + [1, 1])[0], numbers[1] if len(numbers) > 1 else 1
        if raw[:1] == b"<" and final in "Mm" and len(numbers) == 3:
            return mouse(numbers[0], numbers[1] - 1, numbers[2] - 1, final == "m", now)
        if final == "M" and len(numbers) == 3:
            return mouse(numbers[0] - 32, numbers[1] - 1, numbers[2] - 1, False, now)
        if raw[:1] in (b"<", b"=", b">", b"?"):
            return Key("")
        if final == "~" and first in (200, 201):
            self._pasted = bytearray() if first == 200 else None  # an end that comes late is of a paste that the user has ended
            return Key("")
        if final == "~" and first == 27 and len(numbers) == 3:
            return rune_with(numbers[2], modifiers)
        if final == "u":
            return rune_with(first, modifiers)
        if final in "~^@":
            base = NUMBERS.get(first, "")
            return Key(named(base, {"^": 5, "@": 6}.get(final, modifiers)) or _unknown(raw, final))
        if final in RXVT:
            return Key(named(RXVT[final], 2))
        return Key(named(LETTERS[final], modifiers) if final in LETTERS else _unknown(raw, final))


def _number(digits: bytes) -> int:
    """The number of some digits; of a long one the first alone, since Python reads no number of any length."""
    return int(digits.lstrip(b"0")[:MOST_DIGITS] or b"0")


def _numbers(raw: bytes) -> List[int]:
    """The numbers of a sequence; 1 for one that is left out."""
    parts = [part.split(b":")[0] if part else b"1" for part in raw.lstrip(b"<=>?").split(b";")]
    return [_number(part) for part in parts if part.isdigit()]


def _unknown(raw: bytes, final: str) -> str:
    """The name of a sequence that nobody here knows; what a terminal answers by itself has none."""
    return "" if final in "cnRyt" else f"the key that sends Esc [ {raw.decode('ascii', 'replace')}{final}"


def _ss3(key: str, numbers: List[int]) -> Input:
    if key in RXVT:
        return Key(named(RXVT[key], 5))
    if key in LETTERS and key not in "IO":
        return Key(named(LETTERS[key], numbers[-1] if numbers and numbers[-1] else 1))
    return Text(KEYPAD[key]) if key in KEYPAD else Key(f"the key that sends Esc O {key}")
