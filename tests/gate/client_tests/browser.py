"""A headless Chromium, where one is installed, driven over a pair of pipes: pages are opened, asked, touched, and pictures taken."""

import base64
import json
import os
import select
import shutil
import subprocess
import tempfile
import time
from contextlib import suppress

from harness import Wrong

NAMES = ("chromium", "chromium-browser", "google-chrome", "chrome", "headless_shell")
PATIENCE = 300  # seconds for an answer, on a machine that is busy
WORDS = ("--headless", "--no-sandbox", "--disable-gpu", "--hide-scrollbars", "--no-first-run", "--disable-extensions")
WORDS += ("--disable-background-networking", "--disable-dev-shm-usage", "--remote-debugging-pipe")
KEYS = {"Tab": 9, "Enter": 13, "ArrowUp": 38, "ArrowDown": 40}  # what these do goes by their codes


def path_of_browser():
    """The path of a Chromium, or None."""
    return next((path for path in map(shutil.which, NAMES) if path), None)


class Browser:
    """A run of the browser with one page."""

    def __init__(self, path, width=1280, height=900):
        self._folder = tempfile.TemporaryDirectory(prefix="roadseg-browser-", ignore_cleanup_errors=True)
        take, self._to = os.pipe()
        self._from, give = os.pipe()
        words = [path, *WORDS, "--user-data-dir=" + self._folder.name, "--window-size=%d,%d" % (width, height), "about:blank"]
        # the browser reads from its file 3 and writes to its file 4
        script = 'exec 8<&%d 9>&%d 3<&8 4>&9 8<&- 9>&-; exec "$@"' % (take, give)
        quiet = {"stdin": subprocess.DEVNULL, "stdout": subprocess.DEVNULL, "stderr": subprocess.DEVNULL}
        self._process = subprocess.Popen(["bash", "-c", script, "browser", *words], pass_fds=(take, give), **quiet)
        os.close(take)
        os.close(give)
        self._number, self._rest, self._session = 0, b"", None
        self._size = width, height

    def __enter__(self):
        try:
            self._attach()
        except BaseException:
            self.__exit__()
            raise
        return self

    def _attach(self):
        [target] = [one for one in self.ask("Target.getTargets")["targetInfos"] if one["type"] == "page"][:1]
        self._session = self.ask("Target.attachToTarget", targetId=target["targetId"], flatten=True)["sessionId"]
        self.ask("Page.enable")
        self.size(*self._size)

    def __exit__(self, *_fault):
        self._process.kill()
        self._process.wait()
        os.close(self._to)
        os.close(self._from)
        with suppress(OSError):
            self._folder.cleanup()

    def ask(self, method, **parameters):
        """What a command of its protocol gives."""
        self._number += 1
        asked = {"id": self._number, "method": method, "params": parameters}
        if self._session is not None:
            asked["sessionId"] = self._session
        os.write(self._to, json.dumps(asked).encode() + b"\0")
        until = time.monotonic() + PATIENCE
        while True:
            told = self._message(until)
            if told.get("id") == self._number:
                if "error" in told:
                    raise Wrong("%s: %s" % (method, told["error"]))
                return told["result"]

    def _message(self, until):
        while b"\0" not in self._rest:
            ready, _, _ = select.select([self._from], [], [], max(until - time.monotonic(), 0))
            piece = os.read(self._from, 1_048_576) if ready else b""
            if not piece:
                raise Wrong("the browser does not answer")
            self._rest += piece
        message, _, self._rest = self._rest.partition(b"\0")
        return json.loads(message)

    def size(self, width, height, scale=1):
        self.ask("Emulation.setDeviceMetricsOverride", width=width, height=height, deviceScaleFactor=scale, mobile=False)

    def media(self, media="", **features):
        told = [{"name": name.replace("_", "-"), "value": value} for name, value in features.items()]
        self.ask("Emulation.setEmulatedMedia", media=media, features=told)

    def open(self, path, link=""):
        """Opens a file, and gives the seconds until its picture is there."""
        self.ask("Page.navigate", url="about:blank")
        began = time.monotonic()
        self.ask("Page.navigate", url="file://" + os.path.abspath(path) + link)
        self.wait("location.protocol === 'file:' && document.querySelector('#picture svg') !== null")
        self.settle()
        return time.monotonic() - began

    def value(self, script):
        """The value of an expression."""
        told = self.ask("Runtime.evaluate", expression=script, returnByValue=True, awaitPromise=True)
        if "exceptionDetails" in told:
            raise Wrong("%.100s: %s" % (script, told["exceptionDetails"].get("exception", {}).get("description", told)))
        return told["result"].get("value")

    def wait(self, script):
        until = time.monotonic() + PATIENCE
        while True:
            with suppress(Wrong):  # the page before this one may just go
                if self.value(script):
                    return
            if time.monotonic() > until:
                raise Wrong("never so: %s" % script)
            time.sleep(0.02)

    def settle(self):
        """Waits until what is due is drawn."""
        self.value("new Promise((done) => requestAnimationFrame(() => requestAnimationFrame(() => done(1))))")

    def mouse(self, kind, x, y, **more):
        self.ask("Input.dispatchMouseEvent", type="mouse" + kind, x=x, y=y, **more)

    def click(self, x, y):
        for kind in ("Moved", "Pressed", "Released"):
            self.mouse(kind, x, y, **({} if kind == "Moved" else {"button": "left", "clickCount": 1}))

    def touch(self, kind, *points):
        """Fingers that come down (Start), go on (Move) or leave (End), all of them at these points."""
        told = [{"x": x, "y": y, "id": number} for number, (x, y) in enumerate(points)]
        self.ask("Input.dispatchTouchEvent", type="touch" + kind, touchPoints=told)

    def key(self, key, modifiers=0):
        more = {"text": key} if len(key) == 1 else {"text": "\r"} if key == "Enter" else {}
        code = {"windowsVirtualKeyCode": KEYS[key]} if key in KEYS else {}
        self.ask("Input.dispatchKeyEvent", type="keyDown", key=key, modifiers=modifiers, **code, **more)
        self.ask("Input.dispatchKeyEvent", type="keyUp", key=key, modifiers=modifiers, **code)

    def picture(self, *part):
        """A picture of what is seen, or of a part of it (x, y, width, height), as PNG."""
        clip = {"clip": dict(zip(("x", "y", "width", "height", "scale"), (*part, 1)))} if part else {}
        return base64.b64decode(self.ask("Page.captureScreenshot", format="png", **clip)["data"])

    def paper(self):
        """The page on paper, as PDF."""
        return base64.b64decode(self.ask("Page.printToPDF", preferCSSPageSize=True, printBackground=True)["data"])
