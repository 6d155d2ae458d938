"""The front ends that a walk goes through, each by its keys: samterm, Emacs and Neovim on a screen of tmux. `page` has the web page.
Another is a class with the same calls."""
import contextlib
import os
import re
import shlex
import shutil
import subprocess
from pathlib import Path

from checks import LIBRARY, ROOT, SAMHOST, SECONDS, Failed, wait_until

from .processes import is_alive, kill

DELAY = 300  # milliseconds each way
DELAY_PROGRAM = ROOT / "tools/delay"
WIDTH, HEIGHT = 130, 70  # of a screen, which shows all of a text beside samterm's command window
LOST = "LINE LOST"  # what the status line of each front end says while it has no line
MOST_SENT = 500  # bytes that tmux is given at once


class Front:
    """A front end with a folder of its own: in it the files, the sessions' folder, and the command that runs the host over a slow line."""

    name = ""
    has_commands = True  # whether it runs command lines
    keys_wait = True  # whether keys after a command line wait for it, and so act on what it leaves

    def __init__(self, folder):
        self.folder, self.files, self.state = folder, folder / "files", folder / "state"
        self.files.mkdir()
        self.relay_file, self.line = folder / "relay", folder / "samhost"
        words = shlex.join([str(DELAY_PROGRAM), str(DELAY), str(SAMHOST)])
        self.line.write_text(f'#!/bin/sh\necho $$ >{shlex.quote(str(self.relay_file))}\nexec {words} "$@"\n')
        self.line.chmod(0o755)
        self.cuts = [self.cut_line_to_host]
        self.environment = {**os.environ, "XDG_STATE_HOME": str(self.state), "SAM_LIBRARY": str(LIBRARY), "LC_ALL": "C.UTF-8"}

    def is_line_lost(self):
        return LOST in self.screen()

    # ---- What breaks

    def number_in(self, path):
        """The number that a file has; None where there is none."""
        with contextlib.suppress(OSError, ValueError):
            return int(path.read_text())
        return None

    def hosts(self):
        """The processes of samhost that have a session."""
        return [host for lock in (self.state / "sulgrevad").glob("*/lock") if is_alive(host := self.number_in(lock))]

    def cut_line_to_host(self):
        """Kills what carries the bytes. Returns whether it was there."""
        return kill(self.number_in(self.relay_file))

    def kill_host(self):
        """Kills samhost itself. Returns whether it was there."""
        return any([kill(host) for host in self.hosts()])

    def end_sessions(self):
        """Ends the sessions that stay where a walk broke off, and waits until their hosts are gone."""
        for lock in (self.state / "sulgrevad").glob("*/lock"):
            subprocess.run([SAMHOST, "--end", lock.parent.name], env=self.environment, cwd=self.files, capture_output=True, timeout=SECONDS)
        wait_until(lambda: not self.hosts(), "a host doesn't end")


class Keys:
    """What a program takes for keys, as bytes."""

    def __init__(self, **keys):
        self.enter, self.erase = "\r", "\x7f"
        vars(self).update(keys)


class ScreenFront(Front):
    """A program on a screen of tmux."""

    keys = Keys()

    def __init__(self, folder):
        super().__init__(folder)
        self.errors = folder / "errors"
        self.tmux_words = ["tmux", "-S", str(folder / "tmux"), "-f", "/dev/null", "-u"]

    @staticmethod
    def missing():
        """What this front end lacks here; "" where all is there."""
        return "" if shutil.which("tmux") else "tmux is not installed"

    def tmux(self, *words):
        ended = subprocess.run([*self.tmux_words, *words], capture_output=True, text=True, timeout=SECONDS)
        if ended.returncode != 0:
            raise Failed(f"the program is not there any more; it told: {self.errors.read_text()}")
        return ended.stdout

    def begin(self, *words):
        """Runs a command of these words on a screen of its own."""
        command = f"{shlex.join(map(str, words))} 2>{shlex.quote(str(self.errors))}"
        words = [*self.tmux_words, "new-session", "-d", "-x", str(WIDTH), "-y", str(HEIGHT), "-c", str(self.files), command]
        subprocess.run(words, env=self.environment, check=True, capture_output=True, timeout=SECONDS)

    def press(self, keys):
        codes = [f"{code:x}" for code in keys.encode()]
        for at in range(0, len(codes), MOST_SENT):
            self.tmux("send-keys", "-H", *codes[at : at + MOST_SENT])

    def screen(self):
        return self.tmux("capture-pane", "-p")

    def rows_between(self, first, last):
        """The rows of the screen between one that a pattern fits and the next one that another fits, without empty ones at their end. None
        where these are not there."""
        rows = self.screen().split("\n")
        start = 0 if first is None else next((at + 1 for at, row in enumerate(rows) if re.match(first, row)), None)
        end = None if start is None else next((at for at, row in enumerate(rows) if at >= start and re.search(last, row)), None)
        if end is None:
            return None
        while end > start and not rows[end - 1].strip():
            end -= 1
        return [row.rstrip() for row in rows[start:end]]

    def close(self):
        """Ends what is still there of the program and its sessions."""
        subprocess.run([*self.tmux_words, "kill-server"], capture_output=True, timeout=SECONDS)
        self.end_sessions()

    # ---- What a walk does

    def go(self, row, column):
        return self.keys.first + self.keys.down * row + self.keys.right * column

    def type(self, row, column, word):
        self.press(self.go(row, column) + word)

    def enter(self, row, column):
        self.press(self.go(row, column) + self.keys.enter)

    def erase(self, row, column, count):
        self.press(self.go(row, column) + self.keys.erase * count)

    def cut_line(self, row):
        self.press(self.go(row, 0) + self.keys.cut_line)

    def paste(self, row):
        self.press(self.go(row, 0) + self.keys.paste)

    def undo(self, count):
        self.press(self.keys.undo * count)

    def redo(self, count):
        self.press(self.keys.redo * count)

    def write(self):
        self.press(self.keys.write)

    def leave(self):
        self.press(self.keys.leave)


class Samterm(ScreenFront):
    """editor/terminal."""

    name = "samterm"
    keys = Keys(
        first="\x1b[1;5H", down="\x1b[1;1B", right="\x1b[1;1C", cut_line="\x1b[1;1H\x1b[1;2B\x18", paste="\x16", undo="\x1a",
        redo="\x12", write="\x17", leave="\x11",
    )  # fmt: skip
    at_once = "acdegxyz0,#"  # with what a text begins that comes at once with an Esc: others make a key with Alt or a sequence

    def start(self, file):
        self.begin(ROOT / "editor/terminal/samterm", "--details", "--host", shlex.quote(str(self.line)), file)
        wait_until(lambda: self.shown(), lambda: f"samterm doesn't show the file:\n{self.screen()}")

    def shown(self):
        return self.rows_between(r"[> ][* ] a\.txt\s*$", r"\| up ")

    def is_clean(self):
        return re.search(r"^>  a\.txt\s*$", self.screen(), re.MULTILINE) is not None

    def command(self, line, _changes):
        self.press(f"\x1b{'' if line[0] in self.at_once else ' '}{line}\r\x1b")


class Emacs(ScreenFront):
    """editor/emacs, on a terminal."""

    name = "Emacs"
    keys = Keys(
        first="\x1b<", down="\x0e", right="\x06", cut_line="\x00\x0e\x17", paste="\x19", undo="\x0f", redo="\x14", write="\x18\x13",
        leave="\x1bxsulgrevad-quit\r",
    )  # fmt: skip
    settings = """
(setq sulgrevad-patience 60 inhibit-startup-screen t native-comp-deferred-compilation nil)
(menu-bar-mode -1)
(electric-indent-mode -1)
(global-set-key (kbd "C-o") #'undo-only)
(global-set-key (kbd "C-t") #'undo-redo)
"""

    @staticmethod
    def missing():
        if not shutil.which("emacs"):
            return "emacs is not installed"
        if not Path("/usr/include/emacs-module.h").exists():
            return "there is no emacs-module.h"
        return ScreenFront.missing()

    def start(self, file):
        built = self.folder / "module"
        built.mkdir()
        subprocess.run([ROOT / "editor/emacs/build", built], check=True, capture_output=True)
        init = self.folder / "init.el"
        init.write_text(self.settings)
        self.begin("emacs", "-nw", "-Q", "-L", built, "-L", ROOT / "editor/emacs", "-l", init, "-l", "sulgrevad")
        wait_until(lambda: "*scratch*" in self.screen(), lambda: f"Emacs doesn't begin:\n{self.screen()}")
        self.press("\x1bxsulgrevad-start\r")
        wait_until(lambda: "Command that runs samhost" in self.screen(), lambda: f"it doesn't ask:\n{self.screen()}")
        self.press(f"{shlex.quote(str(self.line))}\r")
        wait_until(lambda: "Find file at the host" in self.screen(), lambda: f"it doesn't ask for a path:\n{self.screen()}")
        self.press(f"{file}\r")
        wait_until(lambda: self.shown(), lambda: f"Emacs doesn't show the file:\n{self.screen()}")

    def shown(self):
        return self.rows_between(None, r"^-.{0,20}\ba\.txt\b")

    def is_line_lost(self):
        return f"Sam[{LOST}" in self.screen()  # what it has told stays in the echo area

    def is_clean(self):
        return re.search(r"^-\S*:--.*\ba\.txt\b", self.screen(), re.MULTILINE) is not None

    def command(self, line, _changes):
        self.press(f"\x03,{line}\r")


class Neovim(ScreenFront):
    """editor/neovim, on a terminal. What is typed behind a command line acts on the text as it shows."""

    name, keys_wait = "Neovim", False
    normal = "\x1c\x0e"  # goes to the normal mode; an Esc and a key soon after it would be another key
    keys = Keys(right="\x1b[C", cut_line="dd", paste="P", undo=f"{normal}u", redo=f"{normal}\x12", write=f"{normal}:w\r", leave=":qa\r")
    settings = (
        "set noswapfile noautoindent laststatus=2",
        "set statusline=%f%m%=%{v:lua.require'sulgrevad'.status()}",
    )

    @staticmethod
    def missing():
        plugin = ROOT / "editor/neovim"
        if not shutil.which("nvim") or not plugin.exists():
            return "nvim is not installed" if plugin.exists() else f"there is no {plugin}"
        asks = "lua io.stdout:write(tostring(vim.fn.has('nvim-0.7') == 1 and pcall(require, 'ffi')))"
        words = ["nvim", "--headless", "-u", "NONE", "-i", "NONE", "-n", "-c", asks, "-c", "qa!"]
        shown = subprocess.run(words, capture_output=True, text=True, timeout=SECONDS).stdout
        return ScreenFront.missing() if "true" in shown else "nvim is older than 0.7, or has no LuaJIT"

    def start(self, file):
        settings = [word for setting in self.settings for word in ("--cmd", setting)]
        path = str(ROOT / "editor/neovim").replace(" ", "\\ ")
        self.begin("nvim", "-u", "NORC", "-i", "NONE", "--cmd", f"set rtp^={path}", *settings)
        wait_until(lambda: "[No Name]" in self.screen(), lambda: f"Neovim doesn't begin:\n{self.screen()}")
        self.press(f":Sulgrevad {shlex.quote(str(self.line))} {file}\r")
        wait_until(lambda: self.shown(), lambda: f"Neovim doesn't show the file:\n{self.screen()}")

    def shown(self):
        rows = self.rows_between(None, r"^sulgrevad://.*a\.txt")
        while rows and rows[-1] in ("~", ""):  # below the text, and its last lines where they are empty
            rows.pop()
        return rows

    def is_clean(self):
        return re.search(r"^sulgrevad://\S*a\.txt\s", self.screen(), re.MULTILINE) is not None

    def go(self, row, column):
        return f"{self.normal}{row + 1}G0i{self.keys.right * column}"

    def type(self, row, column, word):
        self.press(self.go(row, column) + word + self.normal)

    def enter(self, row, column):
        self.press(self.go(row, column) + self.keys.enter + self.normal)

    def erase(self, row, column, count):
        self.press(self.go(row, column) + self.keys.erase * count + self.normal)

    def cut_line(self, row):
        self.press(f"{self.normal}{row + 1}G0{self.keys.cut_line}")

    def paste(self, row):
        self.press(f"{self.normal}{row + 1}G0{self.keys.paste}")

    def command(self, line, _changes):
        self.press(f"{self.normal}:SulgrevadRun {line}\r")
