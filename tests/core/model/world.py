"""A world: host, terminal, and what is under way between them; and what `show` prints of it."""

from .host import Host
from .terminal import GAP, Terminal

DRAIN_LIMIT = 100_000  # steps of one drain


class NothingThere(Exception):
    """A take from an empty list."""


class World:
    """A world, from files that are pairs of a name and a text."""

    def __init__(self, files):
        self.host, self.terminal = Host(), Terminal()
        self.up, self.down = [], []
        for name, text in files:
            self.host.add(name, text)

    def user(self, event):
        self.terminal.held.append(event)

    def carry(self):
        """What the terminal composed goes on its way. Returns whether there was something."""
        composed, self.terminal.composed = self.terminal.composed, []
        self.up += composed
        return bool(composed)

    def act(self):
        has_acted = self.terminal.act()
        self.carry()
        return has_acted

    def flush(self):
        self.terminal.flush()
        return self.carry()

    def host_takes(self):
        if not self.up:
            raise NothingThere
        frames = self.host.answer(self.up.pop(0))
        self.down += [(self.host.taken, frame) for frame in frames]

    def mark(self, tag):
        """The host marks a file as dirty, beside the messages that it answers."""
        self.down += [(self.host.taken, frame) for frame in self.host.mark(tag)]

    def terminal_takes(self):
        if not self.down:
            raise NothingThere
        self.terminal.receive(*self.down.pop(0))
        self.carry()

    def drain(self):
        """Does what can happen without the user, the first of these steps that does something, up to a limit."""
        for _ in range(DRAIN_LIMIT):
            if self.up:
                self.host_takes()
            elif self.down:
                self.terminal_takes()
            elif not self.act() and not self.flush():
                return

    def is_at_rest(self):
        """Whether nothing is under way, unsent or held."""
        return not (self.up or self.down or self.terminal.unsent or self.terminal.held)

    def show(self):
        """The lines of `show`: the host's files, the terminal's open ones, and one of both sides."""
        lines = [shown_file(tag, file) for tag, file in sorted(self.host.files.items())]
        lines += [shown_window(tag, window) for tag, window in sorted(self.terminal.known.items()) if window]
        unsent = len(self.terminal.unsent[2]) if self.terminal.unsent else 0
        counts = self.terminal.sent, self.host.taken, unsent, len(self.up), len(self.down)
        return [*lines, f"= s {int(self.terminal.has_command_lock)} {' '.join(map(str, counts))}"]


def escaped(text):
    return text.replace("\\", "\\\\").replace("\n", "\\n")


def shown_file(tag, file):
    name = escaped(file.name).replace(" ", "\\s") or "\\e"
    return f"= h {tag} {'o' if file.is_open else '-'} {'d' if file.is_dirty else 'c'} {name} |{escaped(file.text)}|"


def shown_window(tag, window):
    rasp = "".join("\\_" if member is GAP else escaped(member) for member in window.rasp)
    return f"= t {tag} {window.locks} {window.dot[0]} {window.dot[1]} |{rasp}|"
