"""A page in headless Chromium, driven through Chromium's debugging pipe: clicks, keys, what is shown, and pictures."""

import base64
import fcntl
import json
import os
import pathlib
import select
import signal
import tempfile
import time

OPTIONS = ["--headless=new", "--no-sandbox", "--disable-gpu", "--hide-scrollbars", "--remote-debugging-pipe"]
# Chromium reads what it is told from file 3, and writes what it says to file 4.
READS, WRITES = 3, 4
# Seconds that a call may take.
PATIENCE = 120
KEY_CODES = {"ArrowLeft": 37, "ArrowUp": 38, "ArrowRight": 39, "ArrowDown": 40, "Enter": 13, " ": 32, "Escape": 27}


class Failed(Exception):
    """Chromium refused a call, did not answer, or the page's script threw. The text says which."""


def pipe() -> tuple[int, int]:
    """The reading and the writing end of a pipe, both above the files that Chromium uses."""
    ends = os.pipe()
    high = tuple(fcntl.fcntl(end, fcntl.F_DUPFD_CLOEXEC, 10) for end in ends)
    for end in ends:
        os.close(end)
    return high


class Browser:
    """A running Chromium with one page. It is ended by `end`, or at the end of a `with`."""

    def __init__(self, chromium: str):
        self.room = tempfile.TemporaryDirectory()
        theirs_in, self.to = pipe()
        self.back, theirs_out = pipe()
        actions = [(os.POSIX_SPAWN_DUP2, theirs_in, READS), (os.POSIX_SPAWN_DUP2, theirs_out, WRITES)]
        actions += [(os.POSIX_SPAWN_OPEN, output, os.devnull, os.O_WRONLY, 0) for output in (1, 2)]
        words = [chromium, *OPTIONS, f"--user-data-dir={self.room.name}"]
        self.process = os.posix_spawnp(chromium, words, os.environ, file_actions=actions, setpgroup=0)
        os.close(theirs_in)
        os.close(theirs_out)
        self.asked, self.left = 0, b""
        target = self.call("Target.createTarget", url="about:blank")["targetId"]
        self.session = self.call("Target.attachToTarget", targetId=target, flatten=True)["sessionId"]
        self.of_page("Page.enable")

    def __enter__(self) -> "Browser":
        return self

    def __exit__(self, *_):
        self.end()

    def end(self):
        """Ends Chromium and what it started."""
        try:
            self.send("Browser.close", {}, None)
        except OSError:
            pass
        for _ in range(50):
            if os.waitpid(self.process, os.WNOHANG)[0]:
                break
            time.sleep(0.1)
        else:
            os.killpg(self.process, signal.SIGKILL)
            os.waitpid(self.process, 0)
        os.close(self.to)
        os.close(self.back)
        self.room.cleanup()

    def send(self, method: str, words: dict, session: str | None):
        self.asked += 1
        message = {"id": self.asked, "method": method, "params": words}
        message |= {"sessionId": session} if session else {}
        os.write(self.to, json.dumps(message).encode() + b"\0")

    def message(self, until: float) -> dict:
        """The next message of Chromium."""
        while b"\0" not in self.left:
            ready, _, _ = select.select([self.back], [], [], max(until - time.monotonic(), 0))
            part = os.read(self.back, 1 << 20) if ready else b""
            if not part:
                raise Failed("Chromium does not answer")
            self.left += part
        text, _, self.left = self.left.partition(b"\0")
        return json.loads(text)

    def call(self, method: str, session: str | None = None, **words) -> dict:
        """The result of a call of Chromium's protocol."""
        self.send(method, words, session)
        until = time.monotonic() + PATIENCE
        while True:
            message = self.message(until)
            if message.get("id") == self.asked:
                if "error" in message:
                    raise Failed(f"{method}: {message['error']['message']}")
                return message["result"]

    def of_page(self, method: str, **words) -> dict:
        return self.call(method, self.session, **words)

    # What a person does.

    def open(self, page: pathlib.Path, before: str = ""):
        """Opens a page. A script that is given runs before those of the page."""
        script = self.of_page("Page.addScriptToEvaluateOnNewDocument", source=before)["identifier"]
        self.of_page("Page.navigate", url="about:blank")
        self.of_page("Page.navigate", url=page.resolve().as_uri())
        self.wait("document.readyState === 'complete' && location.protocol === 'file:'")
        self.of_page("Page.removeScriptToEvaluateOnNewDocument", identifier=script)

    def screen(self, width: int, height: int, scheme: str = "light", scale: float = 1):
        """Sets the width and the height of the window in points, and whether its screen is light or dark."""
        words = {"width": width, "height": height, "deviceScaleFactor": scale, "mobile": False}
        self.of_page("Emulation.setDeviceMetricsOverride", **words)
        features = [{"name": "prefers-color-scheme", "value": scheme}]
        self.of_page("Emulation.setEmulatedMedia", features=features)

    def click(self, x: float, y: float):
        """Clicks at a place of the window."""
        for kind in ("mousePressed", "mouseReleased"):
            words = {"type": kind, "x": x, "y": y, "button": "left", "clickCount": 1}
            self.of_page("Input.dispatchMouseEvent", **words)

    def press(self, key: str):
        """Presses a key, named as JavaScript names it."""
        code = KEY_CODES.get(key) or ord(key.upper())
        for kind in ("rawKeyDown", "keyUp"):
            self.of_page("Input.dispatchKeyEvent", type=kind, key=key, windowsVirtualKeyCode=code)

    # What is shown.

    def value(self, expression: str):
        """The value of an expression of the page's script; of a promise, what it gives."""
        words = {"expression": expression, "awaitPromise": True, "returnByValue": True}
        found = self.of_page("Runtime.evaluate", **words)
        if "exceptionDetails" in found:
            told = found["exceptionDetails"]
            raise Failed(f"{expression[:80]}: {told.get('exception', {}).get('description', told['text'])}")
        return found["result"].get("value")

    def wait(self, expression: str, seconds: float = PATIENCE):
        """Waits until an expression is true."""
        until = time.monotonic() + seconds
        while not self.value(f"!!({expression})"):
            if time.monotonic() > until:
                raise Failed(f"never so: {expression}")
            time.sleep(0.02)

    def picture(self, whole: bool = True) -> bytes:
        """The page as PNG, all of it or what the window shows."""
        return base64.b64decode(self.of_page("Page.captureScreenshot", captureBeyondViewport=whole)["data"])
