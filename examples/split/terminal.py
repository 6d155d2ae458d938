"""terminal.py SOCKET: shows the text that a host serves there, and edits it. ^W saves, ^C leaves."""
import asyncio
import contextlib
import curses
import signal
import sys

from sulgrevad.aio import Session

LINES_ABOVE = 12  # how many lines are shown above that of the caret
UNSENT = "the host hasn't all yet; ^C again leaves"


class Window:
    def __init__(self, screen, path):
        self.screen, self.caret, self.told, self.document = screen, 0, "", None
        self.session = Session(lambda: asyncio.open_unix_connection(path), take_over=True, on_line=self.draw)

    def draw(self):
        text = self.document.text if self.document else ""
        above = text[: self.caret].split("\n")[-1 - LINES_ABOVE :]
        self.screen.erase()
        with contextlib.suppress(curses.error):  # the text is longer than the screen
            self.screen.addstr("\n".join(["no connection " * self.session.line.is_broken + self.told, *above]) + "|" + text[self.caret :])
        self.screen.refresh()

    def tell(self, words):
        self.told = str(words)
        self.draw()

    def change(self, start, gone, text):
        """Moves the caret with the text around it."""
        self.caret = max(start, self.caret - gone) + len(text) if start <= self.caret else self.caret
        self.draw()

    def press(self, key):
        """Does what a key does, at once: also while the text is saved, and without a connection."""
        if key == "\x17":
            self.document.write().add_done_callback(lambda written: self.tell(written.exception() or ""))
        elif key in (curses.KEY_LEFT, curses.KEY_RIGHT):
            self.caret = max(0, min(self.caret + (1 if key == curses.KEY_RIGHT else -1), len(self.document)))
        elif key == curses.KEY_BACKSPACE:
            self.document.replace(max(0, self.caret - 1), self.caret, "")
        elif isinstance(key, str) and (key.isprintable() or key in "\n\t"):
            self.document.insert(self.caret, key)
        self.draw()

    def read_keys(self):
        with contextlib.suppress(curses.error):  # no key is left
            while True:
                self.press(self.screen.get_wch())

    def leave(self):
        """Leaves if the host has all, or the user was told that it hasn't."""
        if self.session.has_all or self.told == UNSENT:
            sys.exit()
        self.tell(UNSENT)


async def main(screen, path):
    screen.nodelay(True)
    window, loop = Window(screen, path), asyncio.get_running_loop()
    loop.add_signal_handler(signal.SIGINT, window.leave)
    loop.set_exception_handler(lambda _, context: window.tell(context.get("exception", context["message"])))  # why a key did nothing
    window.document = await window.session.open("text")
    window.document.on_change = window.change
    loop.add_reader(0, window.read_keys)
    window.draw()
    await window.session.wait()
    return window.document.text


print("its host has ended the session:", curses.wrapper(lambda screen: asyncio.run(main(screen, sys.argv[1]))), sep="\n")
