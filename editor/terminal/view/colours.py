"""Colours of languages, by Pygments where it is installed: of the lines that a window shows, and never more at once than a key leaves time
for. They are drawn, and nothing else goes by them."""
import importlib
import sys
import threading
import time
from bisect import bisect_left, bisect_right
from itertools import accumulate
from operator import itemgetter
from typing import Any, Callable, Dict, Iterator, List, NamedTuple, Optional, Sequence, Set, Tuple

from .layout import Reader, Strip
from ..text.texts import GAP, Changes
from ..time_limit import TimeLimit, TooSlow

# What is told apart: 0 is for text without a colour.
KEYWORD, STRING, COMMENT, NUMBER, NAME, SPECIAL, GONE, CAME = range(1, 9)
KINDS = {
    "Keyword": KEYWORD, "Operator.Word": KEYWORD, "Name.Tag": KEYWORD, "Literal": STRING, "Literal.Number": NUMBER,
    "Comment.Preproc": SPECIAL, "Comment.PreprocFile": STRING, "Comment": COMMENT, "Name.Function": NAME, "Name.Class": NAME,
    "Name.Decorator": SPECIAL, "Name.Builtin.Pseudo": SPECIAL, "Name.Attribute": NAME, "Generic.Heading": KEYWORD,
    "Generic.Subheading": KEYWORD, "Generic.Deleted": GONE, "Generic.Inserted": CAME, "Generic.Strong": KEYWORD,
}  # fmt: skip

# The module of Pygments and the class, with the ends of the names of their files.
LANGUAGES = {
    "python.PythonLexer": (".py", ".pyi"), "c_cpp.CLexer": (".c", ".h"), "c_cpp.CppLexer": (".cc", ".cpp", ".cxx", ".hh", ".hpp"),
    "rust.RustLexer": (".rs",), "go.GoLexer": (".go",), "jvm.JavaLexer": (".java",), "jvm.KotlinLexer": (".kt",),
    "javascript.JavascriptLexer": (".js", ".mjs", ".cjs", ".json"), "javascript.TypeScriptLexer": (".ts", ".tsx"),
    "shell.BashLexer": (".sh", ".bash"), "html.HtmlLexer": (".html", ".htm"), "html.XmlLexer": (".xml", ".svg"), "css.CssLexer": (".css",),
    "markup.MarkdownLexer": (".md",), "data.YamlLexer": (".yaml", ".yml"), "configs.TOMLLexer": (".toml",),
    "configs.IniLexer": (".ini", ".cfg"), "sql.SqlLexer": (".sql",), "ruby.RubyLexer": (".rb",), "perl.PerlLexer": (".pl", ".pm"),
    "php.PhpLexer": (".php",), "scripting.LuaLexer": (".lua",), "lisp.EmacsLispLexer": (".el",), "diff.DiffLexer": (".diff", ".patch"),
    "make.BaseMakefileLexer": ("Makefile", ".mk"), "markup.TexLexer": (".tex",),
}  # fmt: skip

BUDGET = 0.0015  # seconds of processor time that may be worked on colours before the screen is drawn
LONGEST_LOOK = 0.004  # seconds of processor time after which a lexer is stopped: a line that takes longer is plain
MOST_SLOW = 8  # such lines of a file, after which all of it is plain
CONTEXT = 1_500  # runes above a window from which on its lines are looked at, where nothing nearer is known
FAR = 8_000  # the same, of lines that are known and looked at anew
LOOK_AHEAD = 2_048  # runes below it that a match may reach to
LONGEST_LINE = 2_000  # runes of a line that has colours
MOST_UNITS = 1_000  # that are kept of a file
MOST_CHANGES = 64  # that are followed; after more the file is looked at anew
LOOK_AGAIN = 0.05  # seconds until it is looked whether a language is there
SWITCH = 0.0005  # seconds after which a thread that reads a language lets a key go first

Span = Tuple[int, int, int]  # from where to where in a line, and which colour
Spans = Sequence[Span]


class Line(NamedTuple):
    length: int  # with its newline
    spans: Spans


class Unit(NamedTuple):
    """One line or some that no token ends between, and the lexer's states before and after them. It has to be looked at again where `after`
    is None: it has changed, or not all of it was there."""

    length: int
    before: Tuple[str, ...]
    after: Optional[Tuple[str, ...]]
    lines: Sequence[Line]


LIMIT = TimeLimit(LONGEST_LOOK)
LENGTH_OF, AFTER_OF = itemgetter(Unit._fields.index("length")), itemgetter(Unit._fields.index("after"))
ROOT = ("root",)


class Language:
    """A lexer of Pygments, which goes on in the middle of a text. One that keeps more than its states has each line for itself."""

    def __init__(self, name: str):
        module, _, kind = name.partition(".")
        self._lexer = getattr(importlib.import_module(f"pygments.lexers.{module}"), kind)()
        base = importlib.import_module("pygments.lexer")
        self._type = importlib.import_module("pygments.token").Token.__class__
        self.by_line = not isinstance(self._lexer, base.RegexLexer) or isinstance(self._lexer, base.ExtendedRegexLexer)
        self._states = {} if self.by_line else self._lexer._tokens
        self._kinds: Dict[Any, int] = {}

    def colour(self, kind: Any) -> int:
        """The colour of a type of token: that of the nearest type above which has one."""
        found = self._kinds.get(kind)
        if found is None:
            names = [".".join(kind[:count]) for count in range(len(kind), 0, -1)]
            found = self._kinds[kind] = next((KINDS[name] for name in names if name in KINDS), 0)
        return found

    def tokens(self, text: str, at: int, stack: List[str]) -> Iterator[Tuple[int, Any, str]]:
        """The tokens of the next match from a place on: from where, of what type, and the runes. None at the end of the text. The stack is
        that of Pygments' RegexLexer, and so are the rules."""
        for match, action, then in self._states[stack[-1]]:
            found = match(text, at)
            if not found:
                continue
            if action is not None:
                yield from ((at, action, found[0]),) if type(action) is self._type else action(self._lexer, found)
            self.end = found.end()
            if then is not None:
                _go(stack, then)
            return
        self.end = at + 1
        if text[at] == "\n":
            stack[:] = ROOT

    def unit(self, text: str, at: int, before: Tuple[str, ...]) -> Unit:
        """The unit that begins at a place of a text, which is the start of a line. Blanks at the start of another begin that one's."""
        start, stack, spans = at, list(before), []  # type: int, List[str], List[Span]
        if self.by_line:
            end = text.find("\n", at) + 1 or len(text)
            found = [(start + place, kind, runes) for place, kind, runes in self._lexer.get_tokens_unprocessed(text[at:end])]
            spans, at = [(place, place + len(runes), self.colour(kind)) for place, kind, runes in found], end
        while at == start or (at < len(text) and text[at - 1] != "\n"):
            states = tuple(stack)
            for place, kind, runes in self.tokens(text, at, stack):
                colour = self.colour(kind)
                if colour:
                    spans.append((place, place + len(runes), colour))
            if self.end == at and tuple(stack) == states:
                self.end += 1  # a rule that matches nothing, and leads nowhere
            newline = text.rfind("\n", at, self.end)
            if newline >= 0 and newline + 1 < self.end and text[at : self.end].isspace():
                at, stack = newline + 1, list(states)
                break
            at = self.end
        return Unit(at - start, before, tuple(stack), _lines(text, start, at, spans))


def _go(stack: List[str], then: Any) -> None:
    """Goes to other states, as Pygments does."""
    if isinstance(then, int):
        del stack[max(1, len(stack) + then) if then < 0 else 1 :]
        return
    for state in then if isinstance(then, tuple) else (then,):
        if state == "#pop":
            del stack[max(1, len(stack) - 1) :]
        else:
            stack.append(stack[-1] if state == "#push" else state)


def _lines(text: str, start: int, end: int, spans: List[Span]) -> List[Line]:
    """Lines of a part of a text, each with its spans."""
    lines: List[Line] = []
    spans = [span for span in spans if span[2]]
    while start < end:
        stop = text.find("\n", start, end) + 1 or end
        here = [(max(low, start) - start, min(high, stop) - start, colour) for low, high, colour in spans if low < stop and high > start]
        lines.append(Line(stop - start, here))
        start = stop
    return lines


NO_LINES: Dict[int, Spans] = {}


class Coloured:
    """The units of a file, one after the other from the place `first` on."""

    def __init__(self, language: Language):
        self.language, self.first = language, 0
        self.slow = 0  # how often the lexer was stopped
        self.units: List[Unit] = []
        self._starts: Optional[List[int]] = None  # of the units, and the end of the last one; None where that is to be counted
        self._unlooked = 0  # units that have to be looked at again
        self._found: Optional[Dict[int, Spans]] = None  # what `lines` found last
        self._found_for = (0, 0)  # from which place to which

    @property
    def starts(self) -> List[int]:
        """Where each unit begins, and the last one ends."""
        if self._starts is None:
            self._starts = [*accumulate(map(LENGTH_OF, self.units), initial=self.first)]
        return self._starts

    def _replace(self, low: int, high: int, units: List[Unit]) -> None:
        """Puts units in the place of others."""
        self._unlooked += [*map(AFTER_OF, units)].count(None) - [*map(AFTER_OF, self.units[low:high])].count(None)
        self.units[low:high] = units
        self._starts = self._found = None

    def _begin(self, first: int) -> None:
        """Nothing is known from a place on."""
        self._replace(0, len(self.units), [])
        self.first = first

    def anew(self, top: int) -> "Coloured":
        """The same lines, to be looked at all over: a change may have ended what was begun far above it."""
        fresh = Coloured(self.language)
        if 0 <= top - self.first <= FAR and self.units:
            fresh.first, length = self.first, self.starts[-1] - self.first
            fresh._replace(0, 0, [Unit(length, self.units[0].before, None, ())])
        return fresh

    def hear(self, changes: Changes) -> None:
        if len(changes) > MOST_CHANGES:
            self._begin(self.first)
            return
        for _, place, gone, came in changes:
            self._change(place, len(gone), len(came))

    def _change(self, place: int, gone: int, came: int) -> None:
        """What a change touches has to be looked at again."""
        if place < self.first:
            is_touched = place + gone > self.first
            self.first, self._starts, self._found = self.first + came - gone, None, None
            if is_touched:
                self._begin(self.first)
            return
        if not self.units:
            return
        starts = self.starts
        at = min(bisect_right(starts, place), len(self.units)) - 1
        last = min(max(at + 1, bisect_right(starts, place + gone)), len(self.units))
        length = starts[last] - starts[at] - gone + came
        if starts[last] >= place + gone and length > 0:
            self._replace(at, last, [Unit(length, self.units[at].before, None, ())])
        else:
            self._replace(at, len(self.units), [])

    def is_known(self, top: int, end: int, length: int) -> bool:
        """Whether all lines from one place to another are."""
        return not self._unlooked and bool(self.units) and self.first <= top and self.starts[-1] >= min(end, length)

    def look(self, read: Reader, top: int, end: int, length: int, until: Callable[[], bool]) -> bool:
        """Looks at the lines from one place to another, at one unit at least, until that holds. Returns whether all of them are known."""
        if not self.units or not self.first <= top <= self.starts[-1] + CONTEXT:
            self._begin(_start_above(read, top))
        at = [*map(AFTER_OF, self.units), None].index(None)
        start, text, base, is_first = self.starts[at], "", 0, True
        while start < min(end, length):
            unit = self.units[at] if at < len(self.units) else None
            if unit is None or unit.after is None:
                if not is_first and until():
                    return False
                is_first = False
                if start >= base + len(text):
                    text, base = read(start, end - start + LOOK_AHEAD), start
                    text = text if base + len(text) >= length else text[: text.rfind("\n") + 1] or text
                before = unit.before if unit is not None else self.units[-1].after if self.units else ROOT
                self._put(at, self._unit(text, start - base, before or ROOT, base + len(text) >= length))
                if self.is_known(top, end, length):
                    break
            start, at = start + self.units[at].length, at + 1
            if self.units[at - 1].after is None:  # what is not there yet
                self._replace(at, len(self.units), [])
                break
        self._forget(top)
        return True

    def _unit(self, text: str, at: int, before: Tuple[str, ...], is_whole: bool) -> Unit:
        """The unit at a place; one without colours where not all of it is loaded, it is too long, or the lexer takes too long."""
        line_end = text.find("\n", at) + 1 or len(text)
        if line_end - at > LONGEST_LINE or GAP in text[at:line_end]:
            return Unit(max(1, line_end - at), before, ROOT if GAP not in text[at:line_end] else None, ())
        gap = text.find(GAP, at)
        known = text if gap < 0 else text[: text.rfind("\n", at, gap) + 1]
        try:
            with LIMIT:
                unit = self.language.unit(known, at, before)
        except TooSlow:
            self.slow += 1
            return Unit(line_end - at, before, ROOT, ())
        is_cut = at + unit.length == len(known) and not (is_whole and gap < 0)
        return unit._replace(after=None) if is_cut else unit

    def _put(self, at: int, unit: Unit) -> None:
        """Puts a unit in the place of those that it covers. Where the states after it are those that were there, what follows stays."""
        left, last, units = unit.length, at, [unit]
        while last < len(self.units) and left > 0:
            left, last = left - self.units[last].length, last + 1
        if left < 0:  # it ends inside of another
            units.append(Unit(-left, unit.after or ROOT, None, ()))
        elif last < len(self.units) and unit.after is not None and self.units[last].before != unit.after:
            units.append(Unit(self.units[last].length, unit.after, None, ()))
            last += 1
        self._replace(at, last, units)

    def _forget(self, top: int) -> None:
        """Keeps no more than some units, from above a window on."""
        count = min(len(self.units) - MOST_UNITS, bisect_right(self.starts, top) - 1)
        if count > 0:
            first = self.starts[count]
            self._replace(0, count, [])
            self.first = first

    def lines(self, top: int, end: int) -> Dict[int, Spans]:
        """The spans of each line from one place to another, by where it begins, or the first from where it is shown. They are the same
        object as long as nothing changes, and so are those of a line."""
        if self._found is None or self._found_for != (top, end):
            self._found, self._found_for = self._spans(top, end), (top, end)
        return self._found

    def _spans(self, top: int, end: int) -> Dict[int, Spans]:
        found: Dict[int, Spans] = {}
        first = max(0, bisect_right(self.starts, top) - 1)
        for unit, start in zip(self.units[first:], self.starts[first:]):
            if start >= end:
                break
            for length, spans in unit.lines:
                if start < top < start + length:
                    found[top] = [(low - top + start, high - top + start, colour) for low, high, colour in spans]
                elif spans:
                    found[start] = spans
                start += length
        return found


def _start_above(read: Reader, top: int) -> int:
    """A line above a place from which on it is looked at: the farthest near it that isn't indented."""
    low = max(0, top - CONTEXT)
    text = read(low, top - low)
    if low == 0 and GAP not in text:
        return 0
    gap = text.rfind(GAP)
    starts = [at + 1 for at in range(gap + 1, len(text)) if text[at] == "\n"]
    chosen = next((at for at in starts if text[at : at + 1].strip()), starts[0] if starts else len(text))
    return low + chosen


class Colours:
    """The colours of all files. `attributes` says how the screen draws each; without them there are none. A file whose colours take too
    long gets none any more, and `tell` is told so."""

    def __init__(
        self, name_of: Callable[[int], str], clock: Callable[[], float] = time.thread_time, tell: Callable[[str], None] = lambda line: None
    ):
        self.name_of, self.clock, self.tell = name_of, clock, tell
        self.attributes: Sequence[int] = ()
        self.is_behind = False  # what is shown has lines that were not looked at
        self._until: Optional[float] = None  # None where nothing was looked at since `begin`
        self._names: Dict[str, str] = {}  # of files, the names that LANGUAGES has
        self._languages: Dict[str, Optional[Language]] = {}  # by the names that LANGUAGES has; None for one that can't be had
        self._reader: Optional[threading.Thread] = None
        self._files: Dict[int, Coloured] = {}
        self._changed: Set[int] = set()  # files that have changed since they were looked at all over
        self._anew: Dict[int, Coloured] = {}  # what is looked at all over, and shown once that is done
        self._plain: Set[int] = set()  # files whose colours take too long
        self._was_slow = False  # the lexer was stopped since `begin`: that is all that a key leaves time for

    def hear(self, changes: Changes) -> None:
        tag = changes.tag
        self._anew.pop(tag, None)
        if tag in self._files:
            self._files[tag].hear(changes)
            self._changed.add(tag)

    def drop(self, tag: int) -> None:
        """The file is closed."""
        self._files.pop(tag, None)
        self._anew.pop(tag, None)
        self._plain.discard(tag)

    def rest(self, windows) -> None:
        """The user rests: what has changed is looked at all over."""
        for window in windows:
            if window.tag in self._changed and window.tag in self._files:
                self._anew[window.tag] = self._files[window.tag].anew(window.top)
                self.is_behind = True
        self._changed.clear()

    @property
    def seconds(self) -> Optional[float]:
        """How long until there is more to draw; None where there is not."""
        if self._reader is not None:
            return LOOK_AGAIN
        return 0.0 if self.is_behind else None

    @property
    def goes_on(self) -> bool:
        """Whether what is shown may get other colours though its text stays."""
        return self.is_behind or self._reader is not None

    def begin(self) -> None:
        """The screen is drawn: so much may be worked on it."""
        self.is_behind, self._until, self._was_slow = False, None, False
        if self._reader is not None and not self._reader.is_alive():
            self._reader = None

    def of(self, window) -> Dict[int, Spans]:
        """The spans of the lines that a window shows, as far as they are known, by their places."""
        language = self._language(self.name_of(window.tag)) if self.attributes and window.tag not in self._plain else None
        if language is None:
            self._files.pop(window.tag, None)
            return NO_LINES
        file = self._files.get(window.tag)
        if file is None or file.language is not language:
            file = self._files[window.tag] = Coloured(language)
        layout, anew = window.layout(), self._anew.get(window.tag)
        try:
            is_known = self._looks(file, window)
            if anew is not None and is_known and self._looks(anew, window):
                file = self._files[window.tag] = self._anew.pop(window.tag, anew)
        except Exception:  # whatever it is, no text depends on it
            self._languages = {name: None if known is language else known for name, known in self._languages.items()}
            return NO_LINES
        return file.lines(layout.top, layout.end)

    def _looks(self, file: Coloured, window) -> bool:
        """Looks at what a window shows, as far as there is time. Returns whether that is known."""
        layout, length = window.layout(), window.length
        if file.is_known(layout.top, layout.end, length):
            return True
        if self._was_slow:
            self.is_behind = True
            return False
        until = self._until = self.clock() + BUDGET if self._until is None else self._until
        before = file.slow
        is_known = file.look(window.read, layout.top, layout.end, length, lambda: file.slow > before or self.clock() > until)
        self._was_slow = file.slow > before
        self.is_behind = self.is_behind or not is_known
        if file.slow >= MOST_SLOW:
            self._make_plain(window.tag)
        return is_known

    def _make_plain(self, tag: int) -> None:
        """A file gets no colours any more."""
        for known in (self._files, self._anew):
            known.pop(tag, None)
        self._plain.add(tag)
        self.is_behind = True  # so that it is drawn without them
        self.tell(f"{self.name_of(tag)} is shown without colours: to find them takes too long")

    def _language(self, file: str) -> Optional[Language]:
        """The language of a file by its name; None where there is none, or it is not read yet."""
        name = self._names.get(file)
        if name is None:
            name = self._names[file] = next((name for name, ends in LANGUAGES.items() if file.endswith(ends)), "")
        if name and name not in self._languages and self._reader is None:
            self._reader = threading.Thread(target=self._read, args=(name,), daemon=True)
            self._reader.start()
        return self._languages.get(name)

    def _read(self, name: str) -> None:
        """Has Pygments read a language, which takes tenths of a second, while keys come."""
        before = sys.getswitchinterval()
        sys.setswitchinterval(SWITCH)
        try:
            self._languages[name] = Language(name)
        except Exception:  # it isn't installed, or another version
            self._languages[name] = None
        finally:
            sys.setswitchinterval(before)


def painted(strip: Strip, spans: Spans) -> List[Tuple[int, int, int]]:
    """The cells of a row as runs of one colour each: from which to which."""
    runs: List[Tuple[int, int, int]] = []
    at = 0
    for start, end, colour in spans:
        low, high = max(at, bisect_left(strip.offsets, start)), bisect_left(strip.offsets, end)
        if high > low:
            if low > at:
                runs.append((at, low, 0))
            runs.append((low, high, colour))
            at = high
    if at < len(strip.texts):
        runs.append((at, len(strip.texts), 0))
    return runs
