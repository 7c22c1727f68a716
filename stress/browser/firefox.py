"""A headless Firefox, driven by WebDriver BiDi over a WebSocket. Needs Debian's firefox-esr (or firefox)."""

import json
import os
import pathlib
import re
import shutil
import signal
import subprocess
import sys
import tempfile
import time

sys.path.insert(0, str(pathlib.Path(__file__).resolve().parent.parent.parent / "tests/harness"))

from chromium import ALT, CONTROL, MIDDLE, SHIFT
from websocket import KEY, TEXT, WebSocket, frame, get

PROGRAM = next(filter(None, map(shutil.which, ["firefox-esr", "firefox"])), None)

# Keys by name, as WebDriver writes them.
KEYS = {"Enter": "\ue007", "Escape": "\ue00c", "Tab": "\ue004", "ArrowUp": "\ue013", "ArrowDown": "\ue015", "PageUp": "\ue00e", "PageDown": "\ue00f",
        "F1": "\ue031"}

HELD = {ALT: "\ue00a", CONTROL: "\ue009", SHIFT: "\ue008"}


class Firefox:
    """A browser of its own, without a window, whose pages are gone after the block. It does what `chromium.Browser` does."""

    def __enter__(self):
        self.profile = tempfile.mkdtemp()
        command = [PROGRAM, "--headless", "--no-remote", "--profile", self.profile, "--remote-debugging-port", "0"]
        said = pathlib.Path(self.profile, "said")
        with open(said, "w", encoding="utf-8") as file:
            self.process = subprocess.Popen(command, stdout=subprocess.DEVNULL, stderr=file, start_new_session=True)
        end = time.monotonic() + 120
        while not (found := re.search(r"WebDriver BiDi listening on ws://127\.0\.0\.1:(\d+)", said.read_text())):
            if time.monotonic() > end:
                raise AssertionError("Firefox doesn't listen")
            time.sleep(0.1)
        port = int(found[1])
        request = get("/session", f"127.0.0.1:{port}", "Connection: Upgrade", "Upgrade: websocket", f"Sec-WebSocket-Key: {KEY}", "Sec-WebSocket-Version: 13")
        self.socket, self.next, self.pages = WebSocket(port, request), 0, {}
        self.do("session.new", capabilities={"alwaysMatch": {"unhandledPromptBehavior": {"default": "accept"}}})
        self.do("session.subscribe", events=["log.entryAdded"])
        return self

    def __exit__(self, *_):
        # Firefox has children in its own group, and nothing else is in it.
        os.killpg(self.process.pid, signal.SIGKILL)
        self.process.wait()
        shutil.rmtree(self.profile, ignore_errors=True)

    def do(self, method, **params):
        """Returns the result of a command."""
        self.next += 1
        self.socket.send(frame(TEXT, json.dumps({"id": self.next, "method": method, "params": params}).encode()))
        while True:
            message = json.loads(self.socket.read_frame()[1])
            if message.get("id") == self.next:
                break
            if message.get("method") == "log.entryAdded" and message["params"]["level"] == "error":
                page = self.pages.get(message["params"]["source"].get("context"))
                if page:
                    page.faults.append(message["params"]["text"][:300])
        if message["type"] == "error":
            raise AssertionError(f"{method}: {message['message']}")
        return message["result"]

    def page(self, url=None, width=1200, height=800):
        """Returns a new page, of this size and at this address. Nothing is kept for it from other pages."""
        context = self.do("browser.createUserContext")["userContext"]
        page = Page(self, self.do("browsingContext.create", type="window", userContext=context)["context"])
        page.size(width, height)
        if url:
            page.go(url)
        return page


class Page:
    """A page of the browser, and the faults that it reports."""

    def __init__(self, browser, context):
        self.browser, self.context, self.faults = browser, context, []
        browser.pages[context] = self

    def go(self, url):
        """Goes to an address and waits for the whole page."""
        self.browser.do("browsingContext.navigate", context=self.context, url=url, wait="complete")

    def js(self, code):
        """Returns the value of JavaScript. What can't be written as JSON is nothing."""
        code = f"JSON.stringify((0, eval)({json.dumps(code)}) ?? null)"
        result = self.browser.do("script.evaluate", expression=code, target={"context": self.context}, awaitPromise=True, userActivation=True)
        if result["type"] == "exception":
            raise AssertionError(json.dumps(result["exceptionDetails"])[:500])
        return json.loads(result["result"].get("value", "null"))

    def until(self, code, seconds=20.0):
        """Waits until this JavaScript is true, and fails if it never is."""
        end = time.monotonic() + seconds
        while not self.js(code):
            if time.monotonic() > end:
                raise AssertionError("never: " + code)
            time.sleep(0.05)

    def rest(self, seconds):
        """Lets this time pass."""
        time.sleep(seconds)

    def act(self, **source):
        """Moves the mouse or presses keys."""
        self.browser.do("input.performActions", context=self.context, actions=[source])

    def type(self, text):
        """Types a text where the focus is."""
        self.js(f"document.execCommand('insertText', false, {json.dumps(text)})")

    def key(self, key, modifiers=0):
        """Presses and releases a key."""
        held = [value for bit, value in HELD.items() if modifiers & bit] + [KEYS.get(key, key)]
        actions = [{"type": "keyDown", "value": value} for value in held] + [{"type": "keyUp", "value": value} for value in reversed(held)]
        self.act(type="key", id="keys", actions=actions)

    def line(self, text, seconds=0.15):
        """Types a line and lets this time pass."""
        self.type(text)
        self.key("Enter")
        self.rest(seconds)

    def click(self, selector):
        """Clicks on the middle of what the selector names."""
        x, y = map(int, self.js(MIDDLE % json.dumps(selector)))
        presses = [{"type": kind, "button": 0} for kind in ("pointerDown", "pointerUp")]
        self.act(type="pointer", id="mouse", actions=[{"type": "pointerMove", "x": x, "y": y}, *presses])

    def size(self, width, height, mobile=False):
        """Gives the page the size of a screen. A phone's is only small: there is no touch."""
        self.browser.do("browsingContext.setViewport", context=self.context, viewport={"width": width, "height": height})

    def prefer(self, **_):
        """Does nothing: the page is as the system prefers it."""

    def text(self):
        """Returns the text of the log, with what has come and isn't shown yet."""
        return self.js("flush(); document.getElementById('lines').innerText")
