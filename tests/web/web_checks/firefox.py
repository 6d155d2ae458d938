"""A page in Debian's Firefox, driven over its own protocol (WebDriver BiDi), since Debian has no other driver for it."""
import asyncio
import contextlib
import itertools
import re
import subprocess
import threading

import aiohttp

from checks import GIVEN_UP, Failed

COMMAND = ["firefox-esr", "--headless", "--no-remote", "--remote-debugging-port", "0", "--profile"]
LISTENS = re.compile(r"WebDriver BiDi listening on (ws://\S+)")


class Firefox:
    """A browser without a screen, with one page."""

    def __init__(self, socket):
        self.socket, self.numbers = socket, itertools.count(1)

    async def ask(self, method, **words):
        """What a command answers. Events that come meanwhile are passed over."""
        number = next(self.numbers)
        await self.socket.send_json({"id": number, "method": method, "params": words})
        while True:
            answer = await self.socket.receive_json(timeout=GIVEN_UP)
            if answer.get("id") == number:
                break
        if answer["type"] != "success":
            raise Failed(f"Firefox: {method}: {answer}")
        return answer["result"]

    async def open(self, address):
        await self.ask("session.new", capabilities={})
        self.page = (await self.ask("browsingContext.create", type="window"))["context"]  # the first one doesn't get the keyboard
        await self.ask("browsingContext.activate", context=self.page)
        await self.ask("browsingContext.navigate", context=self.page, url=address, wait="complete")

    async def js(self, expression):
        """The value of an expression: a number, a string or a truth."""
        target = {"context": self.page}
        result = await self.ask("script.evaluate", expression=expression, target=target, awaitPromise=False)
        if result["type"] != "success":
            raise Failed(f"Firefox: {expression}: {result['exceptionDetails']['text']}")
        return result["result"].get("value")

    async def press(self, *keys):
        """Presses keys: texts, and chords of a modifier and a key."""
        actions = []
        for key in keys:
            held, typed = (key[0], key[1]) if isinstance(key, tuple) else ("", key)
            actions += [{"type": "keyDown", "value": held}] if held else []
            actions += [{"type": way, "value": sign} for sign in typed for way in ("keyDown", "keyUp")]
            actions += [{"type": "keyUp", "value": held}] if held else []
        source = {"type": "key", "id": "keyboard", "actions": actions}
        await self.ask("input.performActions", context=self.page, actions=[source])

    async def wait_until(self, expression):
        """Waits until an expression holds."""
        until = asyncio.get_running_loop().time() + GIVEN_UP
        while not await self.js(expression):
            if asyncio.get_running_loop().time() > until:
                raise Failed(f"Firefox: not within {GIVEN_UP} s: {expression}")
            await asyncio.sleep(0.02)


@contextlib.asynccontextmanager
async def firefox(folder, address):
    """A page of that address in a Firefox with a profile of its own."""
    folder.mkdir()
    browser = subprocess.Popen([*COMMAND, folder], stdout=subprocess.DEVNULL, stderr=subprocess.PIPE, text=True)
    limit = threading.Timer(GIVEN_UP, browser.kill)
    limit.start()
    try:
        where = next((found[1] for line in browser.stderr if (found := LISTENS.search(line))), None)
        limit.cancel()
        if where is None:
            raise Failed("Firefox doesn't begin")
        async with aiohttp.ClientSession() as session, session.ws_connect(f"{where}/session", max_msg_size=0) as socket:
            page = Firefox(socket)
            await page.open(address)
            yield page
    finally:
        limit.cancel()
        browser.terminate()
        browser.communicate()
