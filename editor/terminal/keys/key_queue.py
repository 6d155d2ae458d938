"""The keys that wait. Each acts once what it acts on is settled. Keys of one file act in the order in which they came, and so do keys that
go by several files; so the same keys do the same over any line, and a file that waits for the host holds back no key of another.
"""
from collections import deque
from itertools import islice
from typing import Callable, Deque, Dict, Iterable, NamedTuple, Optional, Set

from .bindings import ALL, ANSWERS, CLIPBOARD, FILE, LINE, NOTHING, PATTERN, PLACE, ROWS, SCREEN, WINDOW, WINDOWS
from .bindings import PROMPT, Binding, Input, Key, KeySet, Mouse, Paste, Text
from ..files.open_requests import Files
from ..view.layout import line_end, line_start
from ..view.status_line import READ_AFTER, REPEAT
from sulgrevad import SamError
from .motions import Missing
from ..text.texts import COMMAND
from ..view.windows import Window, end_of_load

BUSY = 0.25  # seconds after an edit or a move in which nothing more is asked for, so that the keys after it need not wait
REST = 0.25  # seconds after the last key from which on it is asked for what the user may turn to next
MOST_TURNS = 32  # keys that wait, of which the page keys are counted
# Questions of leaving, with the key that leaves.
LEAVING = "leaving; {} again doesn't wait for the host"
WAITING = "keys wait for the host; {} again leaves without them"
SILENT = "the host doesn't answer. {} again leaves, and writes here what is loaded of"
STAYS = "the line is lost. {} again leaves; the session stays there, and what it may lack is written here. Not written: "

CANT_ACT = "can't act until the line is back"
LINE_STAYS = f"Enter {CANT_ACT}; the command line stays"

# Runes that are loaded in one round trip for a key that goes by text which is not shown, twice as many each time.
FIRST_REACH, LONGEST_REACH = 4_096, 32_768


class Pressed(NamedTuple):
    """A key, the second at which it was pressed, the question that it answers, and the line that its user had read."""

    key: Input
    when: float
    answers: str = ""
    read: str = ""
    is_again: bool = False  # it acted already, and goes on
    # The window that it goes to, wherever later keys go: known once no key before it can change that. None for one that keeps its order
    # among all keys, or goes to a menu.
    window: Optional[Window] = None
    work: Optional[Window] = None  # the window of the file that its command line works on
    told_at: Optional[float] = None  # when its user was told that it can't act until the line is back


TAB = Text("\t")
MOUSE = "mouse"  # what clicks share: whether two of them are a double click, and where the button is down
# What text, pastes and the mouse do, and keys that do nothing. A mouse goes by what is shown; Enter by the line above.
TYPING, ENTER, TABBING = (Binding((), "", "", needs=needs) for needs in ("selection", "new_line", "tabbed"))
POINTING, SCROLLING = Binding((), "", "", needs=ROWS, shares=MOUSE), Binding((), "", "", WINDOWS)
NO_ACTION = Binding((), "", "", WINDOWS, order=ALL)
RUNNING = Binding((), "", "", ANSWERS, ROWS, asks=True, order=LINE, shares=PATTERN)  # Enter in the command window
FINDING = ("look", "search")  # actions that go on in what is loaded where the line is lost
TURNING = ("page_up", "page_down")  # those that turn pages: the caret stays
AT_CARET = ("cut", "snarf", "paste", "erase_left", "erase_right", "unindent")  # those that change or copy text at the caret
CHOOSING = ("menu", "new")  # those behind which keys are for another file, whichever comes before
OF_THE_FILE = ("write", "reload")  # those that are for the file that was used last, wherever keys go
BY_ROWS = (ROWS, "up", "down")  # what keys need that go by the rows of the screen


def typed_of(keys: Iterable[Pressed]) -> str:
    """What of some keys was typed."""
    return "".join(pressed.key.runes for pressed in keys if isinstance(pressed.key, (Text, Paste)))


def last_of(key: Input) -> Input:
    """The key that a text ends in, where it was typed."""
    return Text(key.runes[-1:]) if isinstance(key, Text) else key


def name_of(key: Input) -> str:
    """What the user is told that a key is."""
    if isinstance(key, (Text, Paste)):
        return "Enter" if key.runes == "\n" else key.runes
    return key.name if isinstance(key, Key) else "the mouse"


def goes_by_screen(binding: Binding) -> bool:
    """Whether a key goes by how the screen is shared."""
    return binding is SCROLLING or (binding.order == FILE and binding.needs in BY_ROWS)


class Held:
    """What the keys that wait hold back."""

    def __init__(self) -> None:
        self.is_all = False  # every key: one that waits says where those after it go
        self.windows: Set[Window] = set()  # keys of these
        self.shared: Set[str] = set()  # keys that share this
        self.goes_by_screen = False  # keys that change how the screen is shared

    def add(self, pressed: Pressed, binding: Binding, windows: Set[Window]) -> None:
        """A key waits that goes by these windows."""
        self.is_all = binding.leads or pressed.window is None
        self.windows |= windows
        self.shared.add(binding.shares)
        self.goes_by_screen = self.goes_by_screen or goes_by_screen(binding)

    def holds(self, binding: Binding, windows: Set[Window]) -> bool:
        """Whether a key that goes by these windows waits for one before it."""
        if not self.windows.isdisjoint(windows) or (binding.shares != "" and binding.shares in self.shared):
            return True
        return self.goes_by_screen and binding.order in (SCREEN, WINDOW)


class KeyQueue:
    """The part of the editor that takes keys."""

    keys: KeySet

    def bound(self, key: Input) -> Binding:
        """What is known of what a key does."""
        kind = type(key)
        if kind is Text or kind is Paste:
            return TABBING if key == TAB else ENTER if "\n" in key.runes else TYPING
        if kind is Mouse:
            return SCROLLING if key.what.startswith("wheel") else POINTING
        return self.keys.get(key.name) or NO_ACTION

    def action_of(self, key: Input) -> str:
        """The name of what a key does; empty for text, for the mouse, and for a key that does nothing."""
        return self.bound(key).action

    def of_leaving(self, question: str) -> str:
        """A question of leaving, with the key that leaves."""
        return question.format(self.keys.of("leave"))

    def _begin_waiting(self) -> None:
        self.deferred: Deque[Pressed] = deque()
        self._at = 0  # where the key that acts stood in these
        self._wants_text = False  # a key that waits needs text which is not loaded
        self._reach: Dict[Window, int] = {}  # how much of that is loaded next in a window, where it is not shown
        self._edited_at = 0.0  # when the last key came that edits or moves
        self._pressed_at = 0.0  # when the last key of any kind came
        self.has_pressed = False  # whether one did
        self._last = Pressed(Key(""), 0.0)
        self._leaves_at: Optional[float] = None  # when the user leaves without waiting for the host
        self._foreseen: Optional[bool] = None  # after an Esc that waits: whether keys go to the command window once it has acted

    @property
    def is_lock_held(self) -> bool:
        """Whether the host will answer, or a request waits."""
        if self.terminal.is_asking or self.pasting is not None:
            return True
        return any(map(self.terminal.locked, {*self.all_windows, *self.session_files.hidden}))

    @property
    def _are_windows_due(self) -> bool:
        """Whether the host's answer will change the windows, and so where keys go: at the start, and after `^N` and `^K`."""
        return not self.has_begun or self.reloading.is_busy or (self._awaits_file and self.is_lock_held)

    def take(self, key: Input, when: Optional[float] = None) -> None:
        """Does what a key says, now or when what it acts on is settled. A tab that comes with a text is a key of its own: it may indent."""
        when = self.clock() if when is None else when
        if isinstance(key, Text) and key.runes[:1] == "\t" and len(key.runes) > 1:
            self.take(TAB, when)
            key = Text(key.runes[1:])
        pressed, binding = Pressed(key, when, self._answer_of(key, when), self.notes.read_line), self.bound(key)
        is_leave = binding.action == "leave"
        is_sure = pressed.answers != "" and (self.way.is_late or pressed.answers in map(self.of_leaving, (LEAVING, WAITING)))
        self._leaves_at = when + REPEAT if is_leave and is_sure else None
        if self._leaves_at is not None or self._stops(key) or (is_leave and self._leaves_silence(key)):
            return
        self._pressed_at, self.has_pressed = when, True
        if self.help is not None and not is_leave:
            rest = self._act_in_help(pressed)
            if rest is not None:
                self.take(rest, when)
            return
        if self._acts_ahead(pressed):
            return
        if binding.waits == PLACE and binding.needs != ROWS:
            self._edited_at = when
        self.deferred.append(pressed)
        self._act_in_order()
        if binding.leads or binding is POINTING:
            self._foresee()
        last = self.deferred[-1] if self.deferred else None
        is_last = last is not None and last.key is key and not last.answers and last.told_at is None
        if is_last and (binding.waits == ANSWERS or binding.action == "close"):
            if is_leave:
                self._ask(self.of_leaving(LEAVING if self.is_leaving else WAITING), key)
            else:
                self.message = "keys wait for the host"
        elif self.deferred:
            self._show_prompt()

    def _show_prompt(self) -> None:
        """Where a `^S` waits, shows its prompt all the same, and what is typed behind it."""
        at = max((at for at, pressed in enumerate(self.deferred) if self.action_of(pressed.key) == "find"), default=None)
        keys = [pressed.key for pressed in islice(self.deferred, at + 1, None)] if at is not None else [Key("")]
        if all(isinstance(key, Text) and "\n" not in key.runes for key in keys):
            self.message = PROMPT + "".join(key.runes for key in keys)

    def _acts_ahead(self, pressed: Pressed) -> bool:
        """Whether a key acts before those that wait: the help does, and the one that tries a lost line."""
        is_retry = self.action_of(pressed.key) == "redraw" and self.way.is_known_late
        if self.bound(pressed.key).waits != NOTHING and not is_retry:
            return False
        self.notes.take(pressed.read)
        if is_retry:
            self.wishes.append("connect")
        else:
            self.do_help()
        return True

    def _foresee(self) -> None:
        """Has the screen show at once where an Esc that waits leads. The keys act in their order all the same, so none goes elsewhere by
        that; and where one before the Esc leads otherwise than is thought here, the screen shows so then."""
        windows, is_in_menu, has_switched = len(self.windows), self.menu is not None, False
        at, last = self.windows.index(self.focus), self.windows.index(self.active)
        for pressed in self.deferred:
            key, action = pressed.key, self.action_of(pressed.key)
            if pressed.window is not None and not self.bound(key).leads:
                continue
            is_switch = action == "switch"
            has_switched = has_switched or is_switch
            if is_in_menu:
                is_in_menu = not is_switch and not (isinstance(key, Text) and "\n" in key.runes)
            elif is_switch:
                at = last if at == 0 else 0
            elif action == "next_window":
                at = (at + 1) % windows
            elif action == "new":
                windows, at = max(2, windows), last or 1
            elif isinstance(key, Mouse) and key.what == "press":
                window = self.window_at(key.row)
                at = at if window is None else self.windows.index(window)
            is_in_menu = is_in_menu or action in ("menu", "find", "old")
            last = at or last
        self._foreseen = at == 0 if has_switched else None
        if has_switched and self.menu is not None and not self.menu.is_box:
            self.message = ""

    @property
    def _is_foreseen(self) -> bool:
        return self._foreseen is not None and bool(self.deferred)

    @property
    def shown_focus(self) -> Window:
        """The window that the screen shows as that to which keys go."""
        if not self._is_foreseen:
            return self.focus
        return self.command if self._foreseen else self.active

    @property
    def shown_menu(self):
        """The menu that the screen shows; the help lies over it."""
        return self.help or (None if self._is_foreseen else self.menu)

    def _leaves_silence(self, key: Input) -> bool:
        """Whether the user leaves a host that doesn't answer. Where something may be lost by that, one question is asked, and no more."""
        if self.is_lost or not self.way.is_late:
            return False
        unwritten = self.changed_names
        if self.way.line.stays and (unwritten or self.deferred or not self.way.line.has_all):
            self._ask(f"{self.of_leaving(STAYS)}{unwritten or 'nothing is unwritten'}", key)
        elif unwritten or self.deferred:
            self._ask(f"{self.of_leaving(SILENT)}: {unwritten or 'keys that wait'}", key)
        else:
            self._leaves_at = self.clock()
        return True

    def _stops(self, key: Input) -> bool:
        """Whether a key stops a search that goes on."""
        if self.action_of(key) != "switch":
            return False
        for at, pressed in enumerate(self.deferred):
            if pressed.is_again and pressed.window is self.focus and self.action_of(pressed.key) == "search_back":
                del self.deferred[at]
                self.message = "stopped"
                return True
        return False

    def _answer_of(self, key: Input, when: float) -> str:
        """The question that a key answers, which has to be the one that was asked. A key that is held down answers none: it comes again
        at once, so an answer waits for that."""
        key = last_of(key)
        last, self._last = self._last, Pressed(key, when)
        if last.key == key and when - last.when < REPEAT:
            if self.deferred and self.deferred[-1].when == last.when:
                self.deferred[-1] = self.deferred[-1]._replace(answers="")
            return ""
        return self.notes.answered if key == self._asked_by and self._asked_in in (self.focus, self.active) else ""

    # ---- In which order keys act

    def _act_in_order(self) -> None:
        """Does what the keys say, of each window up to the first that has to wait."""
        self._wants_text, self._at, held = False, 0, Held()
        self._look_at_the_line()
        while self._at < len(self.deferred) and not held.is_all:
            pressed = self.deferred[self._at] = self._with_window(self.deferred[self._at])
            is_held = self._at > 0 and self._is_held(pressed, held)
            if not is_held and not self._in(pressed.window, self._must_wait, pressed):
                del self.deferred[self._at]
                self._act_in_window(pressed)
            elif is_held or not self._is_refused(pressed):
                held.add(pressed, self._binding(pressed), self._windows_of(pressed))
                self._at += 1
        if not self.deferred:
            self._foreseen = None

    def _with_window(self, pressed: Pressed) -> Pressed:
        """A key with the window that it goes to, where it has one. No key before it waits that might change that; so a click leads there
        now, though its place may have to wait."""
        if pressed.window is not None or pressed.answers:
            return pressed
        key, binding = pressed.key, self._binding(pressed)
        if binding.order not in (FILE, LINE) or self._is_for_menu(key) or self._are_windows_due:
            return pressed
        window = self.focus
        if binding.order == LINE:
            return pressed._replace(window=window, work=self.active)
        if binding.action in OF_THE_FILE:
            window = self.active
        elif binding is SCROLLING or (isinstance(key, Mouse) and key.what == "press"):
            at = self.window_at(key.row)
            window = at or window
            if at is not None and binding is POINTING:
                self.go_to(at)
        return pressed._replace(window=window)

    def _binding(self, pressed: Pressed) -> Binding:
        """What is known of what a key does, in the window that it goes to. A line that leaves goes by all files."""
        binding, window = self.bound(pressed.key), pressed.window or self.focus
        if binding is ENTER and window is self.command:
            binding = RUNNING
        if binding.order == LINE and window.is_open and self.may_leave_by(window, pressed.key):
            return binding._replace(order=ALL)
        return binding

    def _windows_of(self, pressed: Pressed) -> Set[Window]:
        """The windows that a key goes by."""
        order = self._binding(pressed).order
        windows = {self.focus, self.active} if order == WINDOW else {self.command, pressed.work} if order == LINE else set()
        return {window for window in (*windows, pressed.window) if window is not None}

    def _is_held(self, pressed: Pressed, held: Held) -> bool:
        """Whether a key waits for one before it. What is typed in the command window may stand behind a line that a search puts there."""
        binding = self._binding(pressed)
        if pressed.window is None and self._is_for_menu(pressed.key):
            if not self.menu.is_box:
                return PATTERN in held.shared or self.command in held.windows
            return any(window not in self.windows for window in held.windows)  # else it might come up at another place of the screen
        if pressed.answers != "" or binding.order == ALL or (pressed.window is None and binding.order in (FILE, LINE)):
            return bool(held.windows)
        if pressed.window is self.command and PATTERN in held.shared:
            return True
        return held.holds(binding, self._windows_of(pressed)) or (self.command in held.windows and binding.shares == PATTERN)

    def _in(self, window: Optional[Window], does: Callable[[Pressed], Optional[bool]], pressed: Pressed) -> Optional[bool]:
        """Does something of a key while a window is that to which keys go, and another that of which the file is worked on; None changes
        nothing."""
        if window is None:
            return does(pressed)
        focus, active = self.focus, self.active
        self.go_to(window)
        self.active = pressed.work or self.active
        try:
            return does(pressed)
        finally:
            self.focus, self.active = focus, active

    def _act_in_window(self, pressed: Pressed) -> None:
        """Does what a key says in its window, wherever later keys go."""
        window = pressed.window
        self._reach.pop(window or self.focus, None)
        if window is not None and self.bound(pressed.key).leads:
            self.go_to(window)
            window = None
        self._in(window, self._act, pressed)

    def _put_back(self, pressed: Pressed) -> None:
        """A key, or the rest of a text, comes where the key stood that acts now."""
        self.deferred.insert(self._at, pressed)

    def let_go_of(self, window: Optional[Window], why: str) -> None:
        """The file of a window is gone; or where that is None, one doesn't come for which keys wait. These keys go, up to one that chooses
        another file. What was typed is put in nowhere: it is given back."""
        keys = [*self.deferred]
        chooses = (at for at, pressed in enumerate(keys) if pressed.window is window is None and self.action_of(pressed.key) in CHOOSING)
        end = next(chooses, len(keys))
        gone = [pressed for pressed in keys[:end] if pressed.window is window]
        self.deferred = deque(pressed for at, pressed in enumerate(keys) if at >= end or pressed.window is not window)
        others = "" if all(isinstance(pressed.key, (Text, Paste)) for pressed in gone) else "; other keys for it are not done"
        self.give_back(typed_of(gone), why + others)

    # ---- What a key waits for

    def _must_wait(self, pressed: Pressed) -> bool:
        """Whether what a key acts on is not settled: the windows, what was changed, or the places in a window."""
        key, binding = pressed.key, self._binding(pressed)
        if pressed.answers and self.clock() < pressed.when + REPEAT:
            return True
        if self.is_lost:
            return False
        if pressed.told_at is not None and self.way.is_late:
            return True
        if pressed.is_again and (self.is_lock_held or self.way.is_late):
            return True
        if pressed.window is None and self._is_for_menu(key):
            if self.menu.is_box:
                return isinstance(self.menu, Files) and self.menu.lacks_names(key) and not self.way.is_late
            return not self.focus.is_settled or self._lacks_command_file(self.menu.runs_line(key))
        if self._are_windows_due or self._lacks_command_file(self._runs_line(pressed, binding)):
            return True
        if self.way.is_late and (binding.action == "write" or self._needs_line(key, binding)):
            return binding.action != "write"  # that is put off
        if binding.waits == WINDOWS:
            return False
        if self.is_leaving:
            return True
        if binding.waits == ANSWERS:
            if binding.needs != "" and self.active not in self.windows and not self._has_shown(self.active, binding):
                return True
            return self.is_lock_held or (binding.needs != "" and self._lacks_text(self.active, binding))
        window = pressed.window or self.focus
        if not self._has_shown(window, binding) or not window.is_settled or self._lacks_text(window, binding, key):
            return True
        if binding.action == "close" and not window.may_ask:  # whether it is written is not known
            return True
        if binding.action == "write" and self.keeping.is_being_written(window.tag):  # a second write would replace what stops the first
            return True
        is_asked_for = self.pasting is not None and (self.pasting.tag == window.tag or binding.shares == CLIPBOARD)
        return is_asked_for and binding is not TYPING

    def _runs_line(self, pressed: Pressed, binding: Binding) -> bool:
        """Whether a key acts by the command file: what is typed there, and what has the host run a line."""
        is_there = binding.waits != WINDOWS and (pressed.window or self.focus) is self.command
        return is_there or binding.order == LINE or (binding.action == "search" and self.sought_here != "")

    def _lacks_command_file(self, runs_line: bool) -> bool:
        """Whether a key that acts by the command file has to wait for it, which the host is asked for then; or for the answer to another
        line, as what that prints comes first."""
        return runs_line and not self.is_alone and (not self.has_command_file() or self.terminal.runs_line)

    # ---- Where the line is lost, or answers are late

    def _look_at_the_line(self) -> None:
        """What would lock a file until the line is back is held back while answers are late. A write that was put off comes before the
        keys behind it."""
        is_late = self.texts.holds_back = self.way.note_late()
        if not (is_late or self.is_lost):
            self._tried(self.keeping.write_put_off)
        if not is_late and any(pressed.told_at is not None for pressed in self.deferred):
            self.deferred = deque(pressed._replace(told_at=None) for pressed in self.deferred)

    def _needs_line(self, key: Input, binding: Binding) -> bool:
        """Whether a key can't act while answers are late. It waits until the user can know of that; then it says so."""
        if binding.action in FINDING:
            return not self.way.is_known_late
        return binding.asks or (binding.action == "paste" and not self.knows_snarfed)

    def _is_refused(self, first: Pressed) -> bool:
        """Whether a key that waits, and for no other key, goes, since the line is lost: once its user has had the time to read that it
        can't act. What is typed right behind it waits with it, and then it stays."""
        if not self.way.is_known_late or first.answers or self._is_needed(first):
            return False
        window = first.window or self.focus
        if self.action_of(first.key) == "write":
            del self.deferred[self._at]
            self.notes.take(first.read)
            self.write_later((first.window or self.active).tag, is_sure=False)
            return True
        words = self._refusal_of(first, window)
        if words == "":
            return False
        if first.told_at is None:
            first = self.deferred[self._at] = self.as_told(first, words, self.notes.message)
            self.notes.take(first.read)
            self.message = words
        left = self._left(first.told_at, READ_AFTER)
        if left > 0:
            self._asks_at.append(self.clock() + left)
            return False
        del self.deferred[self._at]
        if words == LINE_STAYS:
            self._keep_line(first.key, window)
        return True

    def as_told(self, pressed: Pressed, words: str, stood: str) -> Pressed:
        """A key of which words tell that it can't act. Where these stood there already, its user knew as it was pressed: so each press of
        a key that is held down goes as soon as the first."""
        return pressed._replace(told_at=pressed.when if stood == words else self.clock())

    def _is_needed(self, first: Pressed) -> bool:
        """Whether what waits behind a key would go elsewhere without it: text, and keys that change or copy text at the caret."""
        moves = self.action_of(first.key) not in AT_CARET
        for kept in islice(self.deferred, self._at + 1, None):
            is_there = isinstance(kept.key, (Text, Paste)) or (moves and self.action_of(kept.key) in AT_CARET)
            if is_there and (first.window is None or kept.window in (None, first.window, first.work)):
                return True
        return False

    def _refusal_of(self, first: Pressed, window: Window) -> str:
        """What is told of a key that can't act until the line is back; empty for text, which waits."""
        key = first.key
        indents = key == TAB and first.window is not None and first.window.is_settled and first.window.targets.may_indent()
        is_for_menu = first.window is None and self._is_for_menu(key)
        is_again_of_menu = is_for_menu and first.is_again  # it would hold all keys back, also the one that closes the menu
        if isinstance(key, (Text, Paste)) and not indents and not is_again_of_menu:
            return LINE_STAYS if not is_for_menu and self._ends_line(key, window) else ""
        name = "Tab" if indents else name_of(key)
        return f"{name} {CANT_ACT}" + (f"; {name} again leaves" if self.action_of(key) == "leave" else "")

    def _ends_line(self, key: Input, window: Window) -> bool:
        """Whether a typed text ends a command line in the command window, and nothing comes behind that."""
        is_there = window is self.command and window.is_settled and isinstance(key, Text)
        return is_there and key.runes.partition("\n")[1:] == ("\n", "")

    def _keep_line(self, key: Text, window: Window) -> None:
        """The line that Enter would run stays in the command window, selected, so that the next one that is typed takes its place."""
        if len(key.runes) > 1:
            self.texts.replace(COMMAND, key.runes[:-1])
        start, end = window.dot
        window.select(line_start(window.read, start))
        window.select(line_end(window.read, end), extends=True)

    def _has_shown(self, window: Window, binding: Binding) -> bool:
        """Before a key goes by what a window shows, that shows what the last key did, and asks for what is missing. What is typed at the
        caret needs none of that, and so nothing holds it up. Returns whether there was memory for it."""
        start, end = window.dot if window.is_open else (0, 0)
        if binding in (TYPING, TABBING) and start == end:
            return True
        return self._tried(lambda: window.update(self.is_busy, turns=self._turns))

    def _tried(self, ask: Callable[[], None]) -> bool:
        """Whether there was memory for what asks the host."""
        try:
            ask()
        except MemoryError as error:
            self.message = f"there is not enough memory ({error})"
        except SamError as error:
            self.lose(f"the session can't go on ({error})")
        else:
            return True
        return False

    def _lacks_text(self, window: Window, binding: Binding, key: Input = Key("")) -> bool:
        """Whether a key has to wait for text that is not loaded. That is asked for, also while keys come."""
        if not binding.needs or not window.is_open or self.texts.is_final:
            return False
        if self.texts.holds_back and binding.action in TURNING:
            return False
        find = getattr(window.targets, binding.needs)
        try:
            find(*([isinstance(key, Key) and "Shift-" in key.name] if binding.extends else []))
        except Missing as missing:
            self._wants_text = True
            asks = window in self.windows and window.layout().shows(missing.place)  # the window itself, where it is on the screen
            if window.may_ask and not asks and not self.texts.holds_back:
                self._tried(lambda: self._load_towards(window, missing))
            return True
        return False

    def _load_towards(self, window: Window, missing: Missing) -> None:
        """Loads text that is not shown, from where it is missing on."""
        reach = self._reach.get(window, FIRST_REACH)
        low = missing.place if missing.step > 0 else max(0, missing.place + 1 - reach)
        high = end_of_load(self.terminal, window.tag, low, min(window.length, low + reach))
        self._reach[window] = min(2 * reach, LONGEST_REACH)
        self.terminal.load(window.tag, low, high - low)

    def _is_for_menu(self, key: Input) -> bool:
        """Whether a menu lies over the windows, which takes all keys but `^Q`."""
        return self.menu is not None and self.action_of(key) != "leave"

    def first_of(self, pressed: Pressed, count: int) -> str:
        """The first runes of a text; those after them come next, and may go elsewhere."""
        runes = pressed.key.runes
        if len(runes) > count:
            rest = pressed._replace(key=pressed.key._replace(runes=runes[count:]), answers="")
            self._put_back(rest)
        return runes[:count]

    @property
    def typed_ahead(self) -> str:
        """What was typed and still waits."""
        return typed_of(self.deferred)

    def typed_by_window(self) -> Dict[Optional[Window], str]:
        """The same, by the window in which it was typed; by None for whichever keys will go to."""
        windows = dict.fromkeys(pressed.window for pressed in self.deferred)
        return {window: typed_of(pressed for pressed in self.deferred if pressed.window is window) for window in windows}

    @property
    def _turns(self) -> int:
        """How many page keys wait next in the window to which keys go: those down, less those up."""
        waiting = islice(self.deferred, MOST_TURNS)
        actions = [self.action_of(pressed.key) for pressed in waiting if pressed.window in (None, self.focus)]
        return actions.count("page_down") - actions.count("page_up")

    @property
    def is_busy(self) -> bool:
        """Whether keys come, are held or wait, and not for text: nothing more is asked for then."""
        return not self._wants_text and (bool(self.deferred) or self._left(self._edited_at, BUSY) > 0 or self.terminal.is_asking)

    @property
    def rests(self) -> bool:
        """Whether no key came for a while, and none waits."""
        return not self.deferred and self._left(self._pressed_at, REST) <= 0 and not self.terminal.is_asking

    @property
    def quiet_for(self) -> float:
        """For how many seconds no key has come."""
        return self.clock() - self._pressed_at

    def _left(self, since: float, seconds: float, now: Optional[float] = None) -> float:
        """How much is left of so many seconds since a time, to the microsecond."""
        return round(since + seconds - (self.clock() if now is None else now), 6)
