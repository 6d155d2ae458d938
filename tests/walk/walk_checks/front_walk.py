"""A walk of one front end: the actions of a plan by its keys, cuts of the line and kills of the host, and looks at what has come of it."""
import contextlib
import random
import threading
import time

from checks import Failed, expect, wait_until

from .plan import CUT

NAME = "a.txt"
MOST_WAITED = 60  # seconds for something that can be killed
TOLD_ACTIONS = 8  # of a walk that fails, the last ones


def drawn(text):
    """The rows of a screen that shows a text."""
    lines = [line.rstrip() for line in text.split("\n")]
    while lines and not lines[-1]:
        lines.pop()
    return lines


class Walk:
    """A front end that goes through a plan."""

    def __init__(self, front, plan):
        self.front, self.plan = front, plan
        self.file = front.files / NAME
        self.cuts = self.kills = self.missed = self.done = 0
        self.timers, self.last_actions = [], []

    # ---- What is there

    def expect_shown(self, text):
        def told():
            return f"it shows {self.front.shown()}, wanted {drawn(text)}; the screen is\n{self.front.screen()}"

        wait_until(lambda: self.front.shown() == drawn(text), told)

    def copies(self):
        """The texts that the host has saved beside the file, since they are not written."""
        found = []
        for path in self.front.files.glob(f"{NAME}.sam-saved*"):
            with contextlib.suppress(OSError):  # it may go just now
                found.append(path.read_bytes())
        return found

    def check(self, text):
        """The screen shows the text; the host has it, which saves it aside soon after a change; and it stands in the file once that is
        written, as the front end knows then."""
        data = text.encode()
        self.expect_shown(text)
        wait_until(
            lambda: data in (self.file.read_bytes(), *self.copies()),
            lambda: f"the host has {self.copies()}, the file {self.file.read_bytes()!r}, wanted {data!r}",
        )
        self.front.write()
        wait_until(lambda: self.file.read_bytes() == data, lambda: f"the file has {self.file.read_bytes()!r}, wanted {data!r}")
        wait_until(lambda: not self.copies(), lambda: f"the file is written, and the host keeps {self.copies()}")
        wait_until(self.front.is_clean, lambda: f"it is marked as changed:\n{self.front.screen()}")
        self.expect_shown(text)

    # ---- Cuts and kills

    def trouble(self, kind, number):
        """Cuts the line, or kills the host, as soon as it is there."""
        how = random.Random(number).choice(self.front.cuts) if kind == CUT else self.front.kill_host
        end = time.monotonic() + MOST_WAITED
        while not (is_hit := how()) and time.monotonic() < end:
            time.sleep(0.02)
        self.cuts += is_hit and kind == CUT
        self.kills += is_hit and kind != CUT
        self.missed += not is_hit

    def begin_troubles(self, troubles):
        """From now on, or a little later, these come."""
        for seconds, kind, number in troubles:
            self.timers.append(threading.Timer(seconds, self.trouble, (kind, number)))
            self.timers[-1].daemon = True
            self.timers[-1].start()

    def await_troubles(self):
        for timer in self.timers:
            timer.join()
        expect(self.missed == 0, "there was nothing to cut or to kill")

    # ---- All of it

    def act(self, action, before):
        front = self.front
        if action.kind == "command" or action.kind == "command_taken_back":
            wait_until(lambda: not front.is_line_lost(), lambda: f"the line doesn't come back:\n{front.screen()}")
        if action.kind == "command_taken_back":
            self.take_back(*action.words, before)
        else:
            getattr(front, action.kind)(*action.words)
        if action.is_awaited or (action.kind == "command" and not front.keys_wait):
            self.expect_shown(action.text)

    def take_back(self, line, changes, text, before):
        """A command line, and the key that takes it back once it shows."""
        if not self.front.has_commands:
            return
        self.front.command(line, changes)
        self.expect_shown(text)
        self.front.undo(1)
        self.expect_shown(before)

    def step(self, action, before):
        """An action, and what comes meanwhile; then a look at all, where that is due."""
        self.last_actions = [*self.last_actions[1 - TOLD_ACTIONS :], action]
        self.begin_troubles(action.troubles)
        self.act(action, before)
        time.sleep(action.rest)
        if action.is_checked:
            self.await_troubles()
            self.check(action.text)
        self.done += 1

    def go(self):
        text = self.plan.first
        self.file.write_text(text)
        try:
            self.front.start(NAME)
            self.expect_shown(text)
            for action in self.plan.actions:
                self.step(action, text)
                text = action.text
            self.front.leave()
            wait_until(lambda: not self.front.hosts(), lambda: f"the session doesn't end:\n{self.front.screen()}")
        except Failed as why:
            told = "\n".join(f"  {action.kind} {action.words}" for action in self.last_actions)
            raise Failed(f"after {self.done} actions, {self.cuts} cuts and {self.kills} kills: {why}\nthe last actions:\n{told}") from why
        finally:
            self.front.close()
        left = sorted(path.name for path in self.front.files.iterdir())
        expect(left == [NAME], f"at the end there is {left}")
        expect(self.file.read_bytes() == text.encode(), f"at the end the file has {self.file.read_bytes()!r}")
