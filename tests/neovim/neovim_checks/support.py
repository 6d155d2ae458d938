"""A Neovim without a screen, which the checks have press keys by RPC, and sessions of its own with real hosts."""
import contextlib
import os
import re
import shlex
import signal
import subprocess
import threading
from pathlib import Path

from checks import GIVEN_UP, ROOT, SAMHOST, Failed, expect, expect_equal, wait_until

from .msgpack import Reader, packed

PLUGIN = ROOT / "editor/neovim"
DELAY = ROOT / "tools/delay"
REQUEST, ANSWER = 0, 1


class Neovim:
    """A Neovim, with the plugin or plain."""

    def __init__(self, folder, *words, has_plugin=True):
        folder.mkdir(exist_ok=True)
        plugin = ["--cmd", f"set rtp^={str(PLUGIN).replace(' ', chr(92) + ' ')}"] if has_plugin else []
        setting = {**os.environ, "XDG_DATA_HOME": str(folder / "data"), "XDG_CONFIG_HOME": str(folder / "config")}
        command = ["nvim", "--embed", "--headless", "-u", "NORC", "-i", "NONE", *plugin, "--cmd", "set noswapfile", *words]
        self.process = subprocess.Popen(
            command, stdin=subprocess.PIPE, stdout=subprocess.PIPE, stderr=open(folder / "errors", "wb"), cwd=folder, env=setting
        )
        self.reader, self.requests, self.folder = Reader(self._read), 0, folder
        self.limit = threading.Timer(4 * GIVEN_UP, self.process.kill)  # one that hangs is ended, and its check fails
        self.limit.daemon = True
        self.limit.start()

    def _read(self, length):
        data = self.process.stdout.read(length)
        if len(data) < length:
            raise Failed("Neovim has ended, or hangs: " + (self.folder / "errors").read_text(errors="replace")[-2000:])
        return data

    def ask(self, method, *words):
        """Makes a call of Neovim's API, and gives its result."""
        self.requests += 1
        self.process.stdin.write(packed([REQUEST, self.requests, method, list(words)]))
        self.process.stdin.flush()
        while True:
            kind, *rest = self.reader.value()
            if kind == ANSWER and rest[0] == self.requests:
                expect(rest[1] is None, f"{method} {words!r}: {rest[1]}")
                return rest[2]

    def lua(self, code, *words):
        return self.ask("nvim_exec_lua", code, list(words))

    def keys(self, keys):
        """Presses keys as a user does, and waits until they are done."""
        self.ask("nvim_input", keys.replace("\n", "<CR>"))
        self.ask("nvim_eval", "1")

    def command(self, command):
        """Gives a command line, and what it printed."""
        return self.ask("nvim_exec", command, True)

    @property
    def text(self):
        """The current buffer's text, as :w of a plain file would write it."""
        return self.lua(TEXT)

    @property
    def told(self):
        return self.command("messages")

    def wait_told(self, words):
        wait_until(lambda: words in self.told, lambda: f"{words!r} is not told, but {self.told!r}")

    def wait(self, expression, wanted=True):
        """Waits until a Lua expression is what is wanted."""
        code = "return " + expression
        wait_until(lambda: self.lua(code) == wanted, lambda: f"{expression}: {self.lua(code)!r}; {self.told}")

    def wait_settled(self):
        """Waits until the hosts have all that was done here."""
        self.wait(SETTLED)

    def close(self):
        self.limit.cancel()
        self.process.kill()
        self.process.wait()
        with contextlib.suppress(BrokenPipeError):
            self.process.stdin.close()
        self.process.stdout.close()


TEXT = """
if vim.fn.wordcount().bytes == 0 then return "" end
local lines = vim.api.nvim_buf_get_lines(0, 0, -1, true)
return table.concat(lines, "\\n") .. (vim.bo.endofline and "\\n" or "")
"""
SETTLED = """
(function()
  for _, session in pairs(require("sulgrevad").sessions) do
    if not session.over and (session.line:is_broken() or not session:has_all()) then return false end
  end
  return true
end)()
"""
# What the terminal of the current buffer's session has as its text.
TERMINAL = "(function() local file = require('sulgrevad').files[vim.api.nvim_get_current_buf()] return file.session:shown(file.tag) end)()"

COMPLETE = "return vim.fn.getcompletion(..., 'cmdline')"


class Host:
    """A folder with files, and a command that runs samhost beside them, over a line that can be slow, or dead for a time."""

    def __init__(self, folder, delay=0):
        self.folder = folder / "host"
        self.bin = folder / "bin"
        self.state = folder / "state"
        for place in (self.folder, self.bin, self.state):
            place.mkdir(exist_ok=True)
        os.environ["XDG_STATE_HOME"] = str(self.state)
        self.dead = folder / "dead"
        line = f"'{DELAY}' {delay} " if delay else ""
        script = f"""#!/bin/sh
[ -e '{self.dead}' ] && exit 1
cd '{self.folder}' && exec {line}'{SAMHOST}' "$@"
"""
        program = self.bin / "samhost"
        program.write_text(script)
        program.chmod(0o755)
        self.command = shlex.quote(str(program))

    def write(self, name, text):
        """Writes a file, as a program beside the host does."""
        (self.folder / name).write_bytes(text.encode())

    def read(self, name):
        return (self.folder / name).read_bytes().decode()

    def wait_written(self, name, text):
        wait_until(lambda: self.read(name) == text, lambda: f"{name} has {self.read(name)!r}, wanted {text!r}")

    def sessions(self):
        shown = subprocess.run([SAMHOST, "--list"], capture_output=True, text=True, check=False, env=os.environ).stdout
        return re.findall(r"^([0-9a-f]{16})\b", shown, re.MULTILINE)

    def kill(self):
        """Kills the processes of all sessions."""
        for process in self.processes():
            with contextlib.suppress(ProcessLookupError):
                os.kill(process, signal.SIGKILL)

    def processes(self):
        """The processes in which this host's sessions stay: all samhosts that have its state, but those that carry bytes."""
        found, wanted = [], f"XDG_STATE_HOME={self.state}".encode()
        for entry in Path("/proc").iterdir():
            try:
                is_samhost = entry.name.isdigit() and (entry / "comm").read_text() == "samhost\n"
                if is_samhost and wanted in (entry / "environ").read_bytes().split(b"\0"):
                    found.append(int(entry.name))
            except OSError:
                continue
        return found

    def opening(self, *words):
        """Has the session's terminal show a file, by samhost --open --wait, which is returned."""
        return subprocess.Popen([SAMHOST, "--open", "--wait", *words], cwd=self.folder, env=os.environ)

    def end(self):
        for name in self.sessions():
            subprocess.run([SAMHOST, "--end", name], capture_output=True, check=False, env=os.environ)


class Place:
    """What a check has: a host and any number of Neovims. All end with it."""

    def __init__(self, folder, delay=0):
        self.folder, self.host, self.neovims = folder, Host(folder, delay), []

    def __enter__(self):
        return self

    def __exit__(self, *_):
        for neovim in self.neovims:
            neovim.close()
        self.host.end()

    def neovim(self, *words, **more):
        self.neovims.append(Neovim(self.folder / f"neovim{len(self.neovims)}", *words, **more))
        return self.neovims[-1]

    def opened(self, name, text=None):
        """A Neovim that shows a file of the host."""
        if text is not None:
            self.host.write(name, text)
        neovim = self.neovim()
        self.open(neovim, name)
        return neovim

    def changed(self, name="notes.txt"):
        """A Neovim that shows a file of the host, the line "one", behind which its user has typed an x."""
        neovim = self.opened(name, "one\n")
        neovim.keys("Ax<Esc>")
        return neovim

    def open(self, neovim, name):
        neovim.command(f"Sulgrevad {self.host.command} {name}")
        neovim.wait("vim.bo.modifiable and vim.bo.buftype == 'acwrite'")

    def line(self, neovim):
        """The process that carries the bytes of the first session, or None: it may have ended just now."""
        return neovim.lua(
            "for _, s in pairs(require('sulgrevad').sessions) do"
            " local is_there, process = pcall(vim.fn.jobpid, s.line.job or 0) return is_there and process or nil end"
        )

    def cut(self, neovim):
        """Cuts the line: what carries its bytes is killed."""
        process = self.line(neovim)
        with contextlib.suppress(ProcessLookupError):  # it may have ended by itself
            if process:
                os.kill(process, signal.SIGKILL)

    def expect_same(self, neovim, name):
        """Buffer, terminal, host and disk have one text, once the file is written."""
        neovim.command("write")
        neovim.wait_settled()
        expect(not neovim.lua("return vim.bo.modified"), f"{name} counts as modified: {neovim.told}")
        text = neovim.text
        expect_equal(neovim.lua("return " + TERMINAL), text)
        expect_equal(self.host.read(name), text)
        return text
