"""The page of editor/web in Chromium, as a front end of a walk."""
import sys

from checks import ROOT, wait_until

from .fronts import DELAY, Front

sys.path.append(str(ROOT / "tests/web"))

from web_checks.needed import missing  # noqa: E402

SIZE = (1200, 1000)  # of a window that shows all of a text
LINES = """[...document.querySelectorAll(".CodeMirror-code .CodeMirror-line")]
  .map((line) => line.textContent.replaceAll("\\u200b", "").trimEnd())"""  # which stands in a line that is empty


class Page(Front):
    """editor/web. It has no command lines: what one does is done by keys."""

    name, has_commands = "page", False

    def __init__(self, folder):
        super().__init__(folder)
        self.driver = self.site = None
        self.cuts = [self.cut_line_to_host, self.cut_socket]

    @staticmethod
    def missing():
        return missing()

    def cut_socket(self):
        """Cuts what stands between the page and samweb. Returns whether it was there."""
        return self.site.proxy.cut() > 0

    def start(self, file):
        from selenium.webdriver.common.keys import Keys
        from web_checks import browser

        self.keys = Keys
        self.site = browser.Site(self.folder, {file: (self.files / file).read_text()}, DELAY, [str(self.line)])
        self.driver = browser.browser(self.folder)
        self.driver.set_window_size(*SIZE)
        self.page = browser.Page(self.driver, self.site)
        self.page.open()
        wait_until(lambda: self.shown(), lambda: f"the page doesn't show the file: {self.screen()}")

    def shown(self):
        lines = self.page.js(LINES)
        while lines and not lines[-1]:
            lines.pop()
        return lines

    def is_clean(self):
        return "a.txt *" not in self.page.status

    def screen(self):
        return "\n".join([self.page.status, self.page.told, *self.shown()])

    def leave(self):
        """Ends the session by its button, and says yes."""
        self.driver.find_element("css selector", "[data-action=leave]").click()
        self.driver.switch_to.alert.accept()

    def close(self):
        """Closes the browser, ends samweb and the session."""
        try:
            if self.driver:
                self.driver.quit()
        finally:
            if self.site:
                self.site.close()

    # ---- What a walk does

    def press(self, row, column, *keys):
        """Goes to a place, and presses keys there."""
        moves = [self.keys.ARROW_DOWN] * row + [self.keys.ARROW_RIGHT] * column
        self.page.press([(self.keys.CONTROL, self.keys.HOME), *moves, *keys])

    def press_times(self, count, letter):
        self.page.press([(self.keys.CONTROL, letter)] * count)

    def type(self, row, column, word):
        self.press(row, column, word)

    def enter(self, row, column):
        self.press(row, column, self.keys.ENTER)

    def erase(self, row, column, count):
        self.press(row, column, *[self.keys.BACKSPACE] * count)

    def cut_line(self, row):
        self.press(row, 0, (self.keys.SHIFT, self.keys.ARROW_DOWN), (self.keys.CONTROL, "x"))

    def paste(self, row):
        self.press(row, 0, (self.keys.CONTROL, "v"))

    def undo(self, count):
        self.press_times(count, "z")

    def redo(self, count):
        self.press_times(count, "y")

    def write(self):
        self.press_times(1, "s")

    def command(self, _line, changes):
        for change in changes:
            new = [self.keys.ENTER if rune == "\n" else rune for rune in change.new]
            erased = [] if new else [self.keys.DELETE]
            self.press(change.row, change.column, *[(self.keys.SHIFT, self.keys.ARROW_RIGHT)] * change.count, *new, *erased)
