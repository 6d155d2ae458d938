"""A page in a browser, and the server behind it."""
import contextlib
import json
import os
import shlex
import signal
import subprocess
import sys
from pathlib import Path

from selenium import webdriver
from selenium.webdriver.chrome.service import Service
from selenium.webdriver.common.action_chains import ActionChains
from selenium.webdriver.common.actions.action_builder import ActionBuilder
from selenium.webdriver.common.by import By

from checks import ROOT, SAMHOST, SECONDS, Failed, expect, wait_until
from web_checks.proxy import Proxy

# Notes in the page when the first text shows, how often an answer of the host was waited for until then, and of each key whether the next
# frame shows it.
RECORDER = """
window.areInFrame = [];
window.firstText = null;
window.roundTrips = 0;
let isAsked = false;
window.WebSocket = class extends WebSocket {
  constructor(...words) {
    super(...words);
    this.addEventListener("message", ({ data }) => {
      if (typeof data === "string") return; // of samweb itself, which is near
      if (isAsked && window.firstText === null) window.roundTrips += 1;
      isAsked = false;
    });
  }
  send(data) {
    isAsked ||= typeof data !== "string";
    super.send(data);
  }
};
const shown = () => document.querySelector(".CodeMirror-code")?.textContent ?? "";
addEventListener("keypress", () => {
  const before = shown();
  requestAnimationFrame(() => window.areInFrame.push(shown() !== before));
}, true);
const look = () => {
  const line = document.querySelector(".CodeMirror-code .CodeMirror-line");
  if (line && line.textContent.includes("line 1 ")) window.firstText = performance.now();
  else requestAnimationFrame(look);
};
requestAnimationFrame(look);
"""


# Whether a file is shown, and some of its text.
SHOWN = "!!globalThis.sulgrevad?.active && (sulgrevad.cm.getValue() === '' || sulgrevad.active.shown.pieces.some(({ isGap }) => !isGap))"


class Site:
    """samweb behind a proxy, with files in a folder of its own, over a line of so many milliseconds each way; None has none. `host` is
    another command for the host, with a line of its own."""

    def __init__(self, room, files, delay, host=None):
        self.room, self.files = room, files
        self.host = host or ([str(SAMHOST)] if delay is None else [str(ROOT / "tools/delay"), str(delay), str(SAMHOST)])
        self.folder = room / "files"
        self.folder.mkdir(parents=True, exist_ok=True)
        for name, text in files.items():
            (self.folder / name).write_text(text)
        self.environment = {**os.environ, "HOME": str(room), "XDG_STATE_HOME": str(room / "state")}
        self.server = self.proxy = None
        self.start()

    def start(self):
        """Begins the server, at the address that it had before."""
        kept = self.room / "address"
        port = json.loads(kept.read_text())["port"] if kept.exists() else 0
        if self.proxy is None:
            self.proxy = Proxy(port)
        origin = f"http://127.0.0.1:{self.proxy.port}"
        words = ["--host", shlex.join(self.host), "--address", str(kept), "--origin", origin]
        with open(self.room / "server.log", "a") as log:
            self.server = subprocess.Popen(
                [sys.executable, str(ROOT / "editor/web/server/samweb"), *words, *self.files],
                cwd=self.folder, env=self.environment, stdout=subprocess.PIPE, stderr=log, text=True,
            )  # fmt: skip
        self.address = self.server.stdout.readline().strip()
        expect(self.address.startswith(origin), f"samweb prints {self.address!r}")
        self.proxy.target = json.loads(kept.read_text())["port"]

    def kill(self):
        self.server.send_signal(signal.SIGKILL)
        self.server.wait()
        self.server.stdout.close()

    def read(self, name):
        return (self.folder / name).read_text()

    def sessions(self):
        """The names of the sessions that stay."""
        said = subprocess.run([str(SAMHOST), "--list"], env=self.environment, capture_output=True, text=True, check=False, timeout=SECONDS)
        return [line.split()[0] for line in said.stdout.splitlines() if line.strip()]

    def close(self):
        """Ends the server and its sessions. The server has told nothing."""
        with contextlib.suppress(ProcessLookupError):
            self.server.terminate()
        try:
            self.server.wait(SECONDS)
        except subprocess.TimeoutExpired:
            self.server.kill()
            raise Failed("samweb doesn't end") from None
        finally:
            self.proxy.close()
            self._end_sessions()
        told = (self.room / "server.log").read_text()
        expect(told == "", f"samweb tells: {told}")

    def _end_sessions(self):
        for name in self.sessions():
            subprocess.run([str(SAMHOST), "--end", name], env=self.environment, capture_output=True, check=False, timeout=SECONDS)


def browser(room):
    """A browser without a screen, with a profile of its own."""
    options = webdriver.ChromeOptions()
    options.binary_location = "/usr/bin/chromium"
    for word in ("--headless=new", "--no-sandbox", "--disable-gpu", "--disable-dev-shm-usage", "--window-size=1000,640"):
        options.add_argument(word)
    options.add_argument(f"--user-data-dir={room / 'profile'}")
    options.ignore_local_proxy_environment_variables()
    options.set_capability("goog:loggingPrefs", {"browser": "ALL"})
    driver = webdriver.Chrome(service=Service("/usr/bin/chromedriver"), options=options)
    driver.set_script_timeout(4 * SECONDS)
    driver.execute_cdp_cmd("Page.addScriptToEvaluateOnNewDocument", {"source": RECORDER})
    return driver


class Page:
    """The editor in a browser."""

    def __init__(self, driver, site):
        self.driver, self.site = driver, site

    def open(self):
        self.driver.get(self.site.address)
        self.wait_for_text()

    def kill_browser(self):
        """Kills the browser, and begins it again over what it had on the disk."""
        driver = self.driver.service.process.pid
        for children in Path(f"/proc/{driver}/task").glob("*/children"):  # of each thread
            for process in children.read_text().split():
                os.kill(int(process), signal.SIGKILL)
        self.driver.quit()
        self.driver = browser(self.site.room)

    def reload(self):
        self.driver.refresh()
        with contextlib.suppress(Exception):  # some drivers show the question whether to leave, which others answer by themselves
            self.driver.switch_to.alert.accept()

    def js(self, expression):
        return self.driver.execute_script(f"return {expression}")

    @contextlib.contextmanager
    def stopped_clock(self):
        """Has no time go by for the page meanwhile: no answer is late, no message counts as read, and the user doesn't rest."""
        self.js("(performance.now = ((now) => () => now)(performance.now()), true)")
        yield
        self.js("delete performance.now")

    @property
    def thread_time(self):
        """How many milliseconds of the processor the page's thread has taken."""
        self.driver.execute_cdp_cmd("Performance.enable", {})
        metrics = self.driver.execute_cdp_cmd("Performance.getMetrics", {})["metrics"]
        return next(1000 * metric["value"] for metric in metrics if metric["name"] == "ThreadTime")

    def press(self, keys):
        """Presses keys: texts, and chords of a modifier and a key."""
        actions = ActionChains(self.driver, duration=0)
        for key in keys:
            if isinstance(key, tuple):
                actions.key_down(key[0]).send_keys(key[1]).key_up(key[0])
            else:
                actions.send_keys(key)
        actions.perform()

    def click(self, line, column, button):
        """Clicks a place of the text by a button: 0 is the left one, 1 that in the middle."""
        place = f"sulgrevad.cm.charCoords({{ line: {line}, ch: {column} }}, 'window')"
        left, height = self.js(f"(({{ left, top, bottom }}) => [Math.round(left), Math.round((top + bottom) / 2)])({place})")
        actions = ActionBuilder(self.driver, duration=0)
        actions.pointer_action.move_to_location(left, height)
        actions.pointer_action.pointer_down(button=button)
        actions.pointer_action.pointer_up(button=button)
        actions.perform()

    def part(self, name):
        return self.driver.find_element(By.ID, name)

    @property
    def status(self):
        return self.part("status").text

    @property
    def told(self):
        return self.part("told").text

    @property
    def text(self):
        return self.js("sulgrevad.active.doc.getValue()")

    @property
    def held(self):
        """What the session holds of the file that is shown."""
        return self.js("sulgrevad.client.text(sulgrevad.active.tag)")

    def wait_for_text(self):
        wait_until(lambda: self.js(SHOWN), "no file is shown")

    def wait_until_settled(self):
        """Until the host has all, and has answered."""
        rest = "sulgrevad.active && sulgrevad.client.file(sulgrevad.active.tag).isFree && !sulgrevad.lacks"
        wait_until(lambda: self.js(rest), f"the page doesn't come to rest: {self.status}")

    def wait_until_loaded(self):
        tag = "sulgrevad.active.tag"
        loaded = f"sulgrevad.active && sulgrevad.client.firstGap({tag}) === null"
        wait_until(lambda: self.js(loaded), "the file is not loaded whole", 4 * SECONDS)

    def log(self):
        """What the browser has to say: faults of the page."""
        return [entry["message"] for entry in self.driver.get_log("browser") if "SEVERE" in entry["level"]]
