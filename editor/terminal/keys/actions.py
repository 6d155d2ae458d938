"""What each key does. A method `do_NAME` stands for each action of the table of keys, here or in movement.py."""
from typing import NamedTuple, Sequence

from .command_lines import Commands, line_at
from .search import Find, nothing_sought
from ..files.open_requests import Files
from .bindings import Paste, Text
from ..view.menus import Lines
from .motions import Targets
from .movement import Moves
from ..text.texts import COMMAND, GAP, MOST_RUNES, Change, Changes
from ..view.windows import Window

MOST_IN_MENU = 2_000  # files
HELP_STEP = 5  # lines that an arrow scrolls the help by
LEAST_ROWS = 4  # rows of the least window, with its title
MOST_UNDER_A_LOCK = 20_000  # changes that one key makes while their file is locked
MOST_SENT = 32_000  # bytes of a text that the host takes for what was copied
TOO_LONG = f"the file would have more than {MOST_RUNES:,} characters"


class Pasting(NamedTuple):
    """Where a text is put in that the host is asked for, and what it takes the place of."""

    tag: int
    start: int
    end: int


class Actions(Commands, Moves):
    """The part of the editor that acts."""

    # ---- Typing

    def type(self, pressed) -> None:
        window, runes, is_paste = self.focus, pressed.key.runes, isinstance(pressed.key, Paste)
        window.anchor = None
        if window is self.command:
            self._type_command(pressed)
            return
        if not is_paste:
            runes = self.first_of(pressed, self._typed_at_once(window, runes))
            self._acting = Text(runes)
        self._type_in_file(window, runes, is_paste)

    def _type_command(self, pressed) -> None:
        """Types a command line, and runs it where it ends; those after it come next. They come back where it has no room, as they may go by
        it."""
        line, newline, others = pressed.key.runes.partition("\n")
        if not self._has_room(len(line + newline)):
            if others:
                self.message = ""
                self.give_back(pressed.key.runes, TOO_LONG)
            return
        self.first_of(pressed, len(line + newline))
        if line:
            self.texts.replace(COMMAND, line)
        if newline:
            self._acting = Text("\n")
            self._run_line()

    def _typed_at_once(self, window: Window, runes: str) -> int:
        """How many of typed runes act as one. They do what they do where they come one by one: a newline is a key of its own, and ends a
        step of undo; and so does so much text."""
        if runes.startswith("\n") or (runes.startswith("\t") and window.targets.may_indent()):
            return 1
        return min(len(runes.partition("\n")[0]), self.log.room(window.tag, *window.dot))

    def _type_in_file(self, window: Window, runes: str, is_paste: bool) -> None:
        start, end = window.dot
        if runes == "\t" and not is_paste and window.targets.may_indent():
            self._indent("\t")
            return
        self.texts.left = runes
        if not self._may_go(window, "the same key again"):
            return
        runes = self._runes_of(window.targets, runes, is_paste)
        if not self._has_room(len(runes)) or self._waits_for_lock([runes]):
            return
        self.log.begin(window.tag, "" if is_paste or "\n" in runes else "type", start, end)
        self.texts.replace(window.tag, runes)

    def _runes_of(self, targets: Targets, runes: str, is_paste: bool = False) -> str:
        """What comes into a text for what is typed or pasted: a newline brings the blanks that begin its line, and lines end as there."""
        start, end = targets.window.dot
        if runes == "\n" and not is_paste and self.indents and start == end:
            runes += targets.indentation()
        return runes.replace("\n", "\r\n") if "\n" in runes and targets.newline() == "\r\n" else runes

    def _has_room(self, count: int) -> bool:
        """Whether so many runes can take the place of the selection. Else the terminal would put in those of the last piece alone, and the
        host nothing, without a word."""
        start, end = self.focus.dot
        if self.focus.length - (end - start) + count <= MOST_RUNES:
            return True
        self.message = TOO_LONG
        return False

    def _may_go(self, window: Window, key: str) -> bool:
        """Whether what is selected may go: it can be brought back, or the user is sure."""
        return window.tag == COMMAND or self.is_loaded_or_sure(window.tag, *window.dot, f"{key} goes on")

    def may_go_whole(self, tag: int, key: str) -> bool:
        """The same of the whole text of a file."""
        return self.is_loaded_or_sure(tag, 0, self.terminal.len(tag), f"{key} again goes on")

    def is_loaded_or_sure(self, tag: int, start: int, end: int, goes_on: str) -> bool:
        """Whether a text is loaded that is to go, so that it can be brought back, or the user is sure. Where it isn't, and can be, it is
        loaded, and this key acts again then."""
        gaps, undo = self.terminal.gaps(tag, start, end - start), self.keys.of("undo")
        question = f"{gaps} characters of it are not loaded: {undo} can't bring them back. {goes_on}"
        return gaps == 0 or self._is_sure_or_loads(question, tag, start, end, f"what goes is loaded, so that {undo} can bring it back")

    def _is_sure_or_loads(self, question: str, tag: int, start: int, end: int, why: str) -> bool:
        """Whether the user is sure of what he is asked as a stretch is not loaded. Where that can be, it is, and this key acts again then;
        so it waits for the end of a short break."""
        if self._answered == question or self.is_lost or self.way.is_known_late or self.terminal.first_gap(tag) is None:
            return self.is_sure(question)
        self.load_all(tag, start, end, why)
        return False

    def load_all(self, tag: int, start: int, end: int, why: str) -> None:
        """Loads a stretch in one round trip; the key that acts now acts again then."""
        is_late = self.way.is_late
        if not is_late and not self.terminal.locked(tag):
            gap = self.terminal.first_gap(tag, start)
            self.terminal.load(tag, start if gap is None else gap, end - (start if gap is None else gap))
        self.act_again("waits for the line" if is_late else why)

    # ---- Actions: the screen

    def do_help(self) -> None:
        self.help = Lines("Keys", self.keys.table(), HELP_STEP)

    def do_switch(self) -> None:
        self.go_to(self.active if self.focus is self.command else self.command)
        self._open_command_file()

    def _open_command_file(self) -> None:
        """Where keys go to the command window now, the host opens the command file."""
        if self.focus is self.command and not self.command.is_open:
            self.has_command_file()

    def do_next_window(self) -> None:
        self.go_to(self.windows[(self.windows.index(self.focus) + 1) % len(self.windows)])
        self._open_command_file()

    def do_menu(self) -> None:
        tags = self.tags[:MOST_IN_MENU]
        if len(tags) < len(self.tags):
            self.message = f"the menu has the first {MOST_IN_MENU:,} of {len(self.tags):,} files; a path opens any"
        entries = [("* " if self.is_changed(tag) else "  ", self.name(tag)) for tag in tags]
        chosen = tags.index(self.active.tag) if self.active.tag in tags else 0
        self.menu = Files(self.joining, entries, chosen, lambda at: self._show_chosen(tags[at]))

    def _show_chosen(self, tag: int) -> bool:
        """Shows the file that was chosen in the menu. Returns whether that can be done; else the key waits for the line."""
        is_shown = self.show(tag)
        if not is_shown:
            self.wait_for_line(self.message)
        return is_shown

    def do_split(self) -> None:
        shown = [window.tag for window in self.windows]
        other = next((tag for tag in self.tags if tag not in shown), None)
        if other is None:
            self.message = "every file has a window"
        elif self.rows * 3 // 4 < LEAST_ROWS * (len(self.files) + 1):
            self.message = "the screen is too small for another window"
        elif self.show(other, replaces=False):
            self.update_windows()
        else:
            self.wait_for_line(self.message)

    def do_unsplit(self) -> None:
        if self.focus is not self.command and len(self.files) > 1:
            self.drop(self.focus)
            self.update_windows()

    def do_small(self) -> None:
        self.is_small = not self.is_small
        self._arrange_anew()

    def do_numbers(self) -> None:
        self.has_numbers = not self.has_numbers
        self._arrange_anew()

    def do_details(self) -> None:
        self.has_details = not self.has_details

    def _arrange_anew(self) -> None:
        """Shares the screen anew. The windows follow at once, so a key that comes right after goes by the same rows as a later one."""
        self.arrange(self.rows, self.columns)
        self.update_windows()

    def do_redraw(self) -> None:
        self.wishes.append("redraw")

    def do_suspend(self) -> None:
        self.wishes.append("suspend")

    # ---- Actions: files

    def await_file(self) -> None:
        """The host makes a file, opens one or closes one: keys wait for that."""
        self._awaits_file = True

    def do_new(self) -> None:
        self.await_file()
        self.terminal.new_file()

    def do_write(self) -> None:
        tag = self.active.tag
        if self.active is self.command:
            return
        question = self.keeping.question(tag)
        if self.way.is_late:
            self.write_later(tag, is_sure=question != "" and self._answered == question)
            return
        if question:
            self.notes.forget(self.keeping.refusal(tag))
        if not question or self.is_sure(question):
            self.write(tag)

    def write(self, tag: int) -> None:
        self.keeping.write(tag, self.terminal.write(tag))

    def write_later(self, tag: int, is_sure: bool) -> None:
        """A file is written when the line is back; the user may be sure that it replaces another program's text."""
        self.keeping.write_later(tag, is_sure)
        self.message = f"{self.name(tag)} is written when the line is back"

    def do_close(self) -> None:
        tag = self.focus.tag
        if tag == COMMAND:
            self.message = "the command window stays"
        elif not self.is_changed(tag) or self.is_sure(f"{self.name(tag)} was not written; {self.keys.of('close')} again closes it"):
            if self.is_changed(tag):
                self.keeping.let_go(tag)
            self.await_file()
            self.terminal.close(tag)

    def do_old(self) -> None:
        self.left.begin()

    def do_reload(self) -> None:
        if self.active is self.command:
            self.message = "no file is shown"
        else:
            self.reloading.begin(self.active.tag, self.keys.of("reload"))

    def do_leave(self) -> None:
        if self.is_lost:
            self.is_over = True
        elif self.may_leave(self.keys.of("leave")):
            self.terminal.exit()
            self.is_leaving = True
            self.say_leaving()

    # ---- Actions: the selection

    def _goes(self, action: str) -> bool:
        """Whether the selection of the window may go by an action. A step to be taken back begins then."""
        if not self._may_go(self.focus, f"{self.keys.of(action)} again"):
            return False
        self.log.begin(self.focus.tag)
        self.focus.anchor = self.focus.goal = None
        return True

    def _clip(self, is_cut: bool = False) -> None:
        """The user's clipboard is to have what is selected, where all of it is loaded."""
        start, end = self.focus.dot
        text = self.focus.read(start, end - start)
        if text:
            self._snarfed, self.cut_text = text, text if is_cut else ""
            if GAP not in text:
                self.clip = text
            else:
                self.message = "not for the clipboard of this screen: it is not all loaded"

    def note_snarfed(self, text: str) -> None:
        """The snarf buffer has another text than the user has cut or copied last."""
        self._snarfed, self.cut_text = text, ""

    def set_snarfed(self, text: str) -> None:
        """Has `^V` paste a text. The host has it, too, where it is not too long for that."""
        if len(text.encode()) <= MOST_SENT:
            self.terminal.set_snarf(text)
        self.note_snarfed(text)

    def do_cut(self) -> None:
        """Copies the selection, and takes it out. The host has the copy, too, for a later session."""
        window = self.focus
        if window.dot[0] == window.dot[1] or not self._goes("cut"):
            return
        self._clip(is_cut=True)
        if window is self.command:
            self.terminal.cut_command()
        else:
            self.terminal.snarf(window.tag)
            self.texts.replace(window.tag, "")

    def do_snarf(self) -> None:
        window = self.focus
        start, end = window.dot
        if not self.is_alone and window is not self.command and self.terminal.gaps(window.tag, start, end - start):
            self.load_all(window.tag, start, end, "what is copied is loaded")
            return
        self._clip()
        if not self.is_lost:
            self.terminal.snarf(window.tag)

    def do_paste(self) -> None:
        if self.knows_snarfed:
            self._paste(self._snarfed)
        elif self.focus is self.command:
            self.terminal.paste_command()
        elif self._may_go(self.focus, f"{self.keys.of('paste')} again"):
            self.pasting = Pasting(self.focus.tag, *self.focus.dot)
            self.terminal.get_snarf()

    @property
    def knows_snarfed(self) -> bool:
        """Whether all of what was cut or copied last is known here."""
        is_line = self.focus is self.command and "\n" in self._snarfed  # the host would run it
        return GAP not in self._snarfed and (self._snarfed != "" or self.terminal.snarf_len == 0) and not is_line

    def _paste(self, text: str) -> None:
        """Puts a text in the place of the selection."""
        if self._has_room(len(text)) and not self._waits_for_lock([text]) and self._goes("paste"):
            self.texts.replace(self.focus.tag, text)
            self.cut_text = ""

    def meet_snarf(self, _tag: int) -> None:
        """The host has sent what was cut or copied last: it is pasted where it was asked for, behind what was done there since."""
        pasting, self.pasting = self.pasting, None
        text = self.terminal.snarfed()
        if pasting is None or not self.terminal.is_open(pasting.tag):
            return
        if len(text) != self.terminal.snarf_len:
            self.message = f"what was copied there has {self.terminal.snarf_len:,} characters, too many to be brought here: copy it again"
            return
        self.note_snarfed(text)
        tag, start, end = pasting
        self.log.begin(tag)
        is_there = self.terminal.dot(tag) == (start, end)
        if self.texts.edit(tag, start, end, text) and is_there:
            self.window_of(tag).select(start + len(text))

    def hear_pasting(self, changes: Changes) -> None:
        """Moves the place for what is pasted once it has come."""
        pasting = self.pasting
        if pasting is not None and pasting.tag == changes.tag:
            self.pasting = Pasting(pasting.tag, changes.moved(pasting.start), changes.moved(pasting.end))

    def do_look(self) -> None:
        if self.is_alone:
            start, end = self.focus.dot
            self.sought_here = self.focus.read(start, end - start)
            Find(self).go_on(self.sought_here)
        elif self.focus.dot[0] == self.focus.dot[1]:
            self.message = f"nothing is selected: {self.keys.of('look')} looks for the selected text"
        else:
            self.terminal.look(self.focus.tag)
        self.focus.anchor = self.focus.goal = None

    def do_search(self) -> None:
        if self.is_alone:
            Find(self).go_on(self.sought_here or self.terminal.pattern)
        elif self.sought_here and self.focus is not self.command:  # which the host has not searched
            Find(self).ask_host(self.sought_here)
        elif not self.terminal.pattern and not self._may_get_a_pattern:
            self.message = nothing_sought(self.keys)
        else:
            self.terminal.search(self.focus.tag)
        self.focus.anchor = self.focus.goal = None

    @property
    def _may_get_a_pattern(self) -> bool:
        """Whether an answer is due that may bring the pattern that was searched last; those to loads don't."""
        return any(window.is_open and not window.is_settled for window in self.all_windows.values())

    def do_search_back(self) -> None:
        pattern = self.sought_here or self.terminal.pattern
        self._sought_above = Find(self).go_back(pattern, self._sought_above if self._is_again else None)

    def do_find(self) -> None:
        self.focus.anchor = self.focus.goal = None
        self.menu = Find(self)
        self.message = self.menu.line

    def do_send(self) -> None:
        if not self.focus.is_open:
            return
        start, end = self.focus.dot
        if start < end and self.focus.read(end - 1, 1) == "\n":
            end -= 1
        if start == end or self._may_run(line_at(self.focus, end, start), self.keys.of("send")):
            self._work()
            self.terminal.send(self.focus.tag)

    def do_word(self) -> None:
        self.terminal.dclick(self.focus.tag, self.focus.caret)
        self.focus.anchor = self.focus.goal = None

    def do_select_all(self) -> None:
        self.focus.anchor = self.focus.goal = None
        self.texts.select(self.focus.tag, 0, self.focus.length)

    def _erase(self, start: int, end: int) -> None:
        window = self.focus
        if start == end:
            return
        if window.dot != (start, end):
            self.terminal.select(window.tag, start, end)
        if not self._may_go(window, "the same key again"):
            return
        self.log.begin(window.tag, "erase", start, end)
        self.texts.replace(window.tag, "")
        window.anchor = None

    def _indent(self, came: str) -> None:
        """Puts a tab before each selected line; or takes out one, or as many blanks."""
        window = self.focus
        lines, lacking = window.targets.selected_lines(), window.targets.lacking()
        if lacking or not lines:
            self.message = f"nothing is indented: {lacking:,} characters of the selection are not loaded. Select less"
            return
        blanks = [0 if came else window.targets.indent_of(line) for line in lines]
        has_room = self._has_room(window.dot[1] - window.dot[0] + len(came) * len(lines))
        if not has_room or self._waits_for_lock([came] * len(lines)):
            return
        self.log.begin(window.tag)
        each = (Change(window.tag, line, window.read(line, gone), came) for line, gone in zip(reversed(lines), reversed(blanks)))
        self.texts.edit_each(window.tag, [change for change in each if change.gone or came])

    def _waits_for_lock(self, came: Sequence[str]) -> bool:
        """Whether changes that bring these texts wait until nothing locks their file: there each costs the more the more wait, and what
        went takes up room still."""
        tag = self.focus.tag
        if self.is_lost or not self.terminal.locked(tag):
            return False
        waits = len(came) > MOST_UNDER_A_LOCK or not self.terminal.has_room(tag, sum(map(len, came)))
        if waits:
            self.act_again("waits for the host")
        return waits

    def do_unindent(self) -> None:
        if self.focus is not self.command:
            self._indent("")

    def do_erase_left(self) -> None:
        self._erase(*self.focus.targets.erased_left())

    def do_erase_right(self) -> None:
        self._erase(*self.focus.targets.erased_right())

    # ---- Actions: taking back

    def do_undo(self) -> None:
        step, tag = self.log.last(self.log.past, self.focus.tag), self.focus.tag
        if not self._can_turn(step, step and step.lacks, "nothing more to take back"):
            return
        count = self.log.unknown(step)
        undo, redo = self.keys.of("undo"), self.keys.of("redo")
        question = f"{count} characters of what goes are not loaded: {redo} can't bring them again. {undo} again goes on"
        why = f"what goes is loaded, so that {redo} can bring it again"
        is_sure = count == 0 or self._is_sure_or_loads(question, tag, 0, self.focus.length, why)
        if is_sure and not self._waits_for_lock([change.gone for change in step.stand]):
            self.log.back(tag)

    def do_redo(self) -> None:
        step = self.log.last(self.log.future, self.focus.tag)
        can_turn = self._can_turn(step, step and step.lacks_again, "nothing was taken back")
        if can_turn and not self._waits_for_lock([change.came for change in step.went]):
            self.log.again(self.focus.tag)

    def _can_turn(self, step, lacks, nothing: str) -> bool:
        """Whether there is a step, and all of its text is known."""
        self.focus.anchor = self.focus.goal = None
        if step is None:
            to_text = f" in the command window: {self.keys.of('switch')} goes to the text"
            self.message = nothing + to_text if self.focus is self.command else nothing
        elif lacks:
            self.message = f"that can't be taken back: {lacks} characters of what went were not loaded"
        return step is not None and not lacks
