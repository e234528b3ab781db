#!/usr/bin/env python3
"""Drives a Chromium without a window, by its own protocol over a pipe: opens pages, presses keys, takes pictures. It is
for tools/explore_check.py."""
import base64
import contextlib
import fcntl
import itertools
import json
import os
import pathlib
import select
import shutil
import subprocess
import tempfile
import time

from scripting import parser

NAMES = ("chromium", "chromium-browser", "google-chrome", "chromium-headless-shell")
FLAGS = (
    "--headless", "--no-sandbox", "--disable-gpu", "--no-first-run", "--hide-scrollbars",
    "--disable-background-networking",
)
MIDDLE = """(it => {
  it.scrollIntoView({block: "center", behavior: "instant"});
  const at = it.getBoundingClientRect();
  return [at.x + at.width / 2, at.y + at.height / 2];
})"""
SECONDS = 60  # for an answer
CODES = {"ArrowLeft": 37, "ArrowRight": 39, "Home": 36, "End": 35, "Escape": 27, "Tab": 9, "Enter": 13}


def found():
    """The path of a Chromium, if there is one."""
    return next(filter(None, map(shutil.which, NAMES)), None)


class Pipe:
    """A browser that runs, and what it tells: messages as JSON, each ended by a zero byte."""

    def __init__(self, path, folder):
        (reads, self.out), (self.into, writes) = os.pipe(), os.pipe()
        far = [fcntl.fcntl(end, fcntl.F_DUPFD, 20) for end in (reads, writes)]
        words = [path, *FLAGS, "--remote-debugging-pipe", f"--user-data-dir={folder}"]
        quiet = {"stdin": subprocess.DEVNULL, "stdout": subprocess.DEVNULL, "stderr": subprocess.DEVNULL}
        as_it_wants = lambda: [os.dup2(end, place) for place, end in enumerate(far, 3)]
        self.process = subprocess.Popen(words, pass_fds=(3, 4), preexec_fn=as_it_wants, **quiet)
        for end in (reads, writes, *far):
            os.close(end)
        self.numbers, self.rest, self.events = itertools.count(1), b"", []

    def message(self, until):
        while b"\0" not in self.rest:
            if not select.select([self.into], [], [], max(0, until - time.monotonic()))[0]:
                raise TimeoutError("the browser does not answer")
            more = os.read(self.into, 1 << 20)
            if not more:
                raise EOFError("the browser has ended")
            self.rest += more
        text, self.rest = self.rest.split(b"\0", 1)
        return json.loads(text)

    def call(self, method, session=None, **given):
        """Calls a method and gives its result. What happens meanwhile is added to the events."""
        number, until = next(self.numbers), time.monotonic() + SECONDS
        told = {"id": number, "method": method, "params": given} | ({"sessionId": session} if session else {})
        os.write(self.out, json.dumps(told).encode() + b"\0")
        while (it := self.message(until)).get("id") != number:
            self.events.append(it)
        if "error" in it:
            raise RuntimeError(f"{method}: {it['error']['message']}")
        return it["result"]

    def close(self):
        with contextlib.suppress(Exception):
            self.call("Browser.close")
        self.process.terminate()
        self.process.wait(SECONDS)
        os.close(self.out)
        os.close(self.into)


class Page:
    """The one page of a browser."""

    def __init__(self, pipe):
        self.pipe = pipe
        target = pipe.call("Target.createTarget", url="about:blank")["targetId"]
        self.session = pipe.call("Target.attachToTarget", targetId=target, flatten=True)["sessionId"]
        for domain in ("Page", "Runtime", "Network"):
            self.call(f"{domain}.enable")

    def call(self, method, **given):
        return self.pipe.call(method, self.session, **given)

    def open(self, path, mark=""):
        """Opens a file, at a mark of it, and waits until it is there."""
        self.call("Page.navigate", url="about:blank")
        self.call("Page.navigate", url=path.resolve().as_uri() + mark)
        until = time.monotonic() + SECONDS
        while not self.value("location.protocol == 'file:' && document.readyState == 'complete'"):
            if time.monotonic() > until:
                raise TimeoutError(f"{path} does not load")
            time.sleep(0.02)

    def value(self, expression):
        """The value of an expression of JavaScript."""
        told = self.call("Runtime.evaluate", expression=expression, returnByValue=True)
        if "exceptionDetails" in told:
            raise RuntimeError(told["exceptionDetails"]["exception"].get("description", expression))
        return told["result"].get("value")

    def press(self, key):
        """Presses a key on what has the focus."""
        both = {"key": key, "code": key, "windowsVirtualKeyCode": CODES[key]}
        text = {"text": "\r"} if key == "Enter" else {}
        self.call("Input.dispatchKeyEvent", type="keyDown", **both, **text)
        self.call("Input.dispatchKeyEvent", type="keyUp", **both)

    def click(self, selector):
        """Clicks in the middle of the first element that the selector finds."""
        x, y = self.value(f"{MIDDLE}(document.querySelector({json.dumps(selector)}))")
        for kind in ("mousePressed", "mouseReleased"):
            self.call("Input.dispatchMouseEvent", type=kind, x=x, y=y, button="left", clickCount=1)

    def appear(self, width, height, scheme, scale=1):
        """Makes the window so wide and so high, and the colours dark or light."""
        size = {"width": width, "height": height, "deviceScaleFactor": scale, "mobile": width < 600}
        self.call("Emulation.setDeviceMetricsOverride", **size)
        self.call("Emulation.setEmulatedMedia", features=[{"name": "prefers-color-scheme", "value": scheme}])

    def shoot(self, path, whole=False):
        """Writes a picture of the window, or of the whole page from its top on."""
        if whole:
            self.value("scrollTo({top: 0, behavior: 'instant'})")
        shot = self.call("Page.captureScreenshot", format="png", captureBeyondViewport=whole)
        pathlib.Path(path).write_bytes(base64.b64decode(shot["data"]))

    def faults(self):
        """What went wrong in the page so far, and what it asked of a network."""
        for it in self.pipe.events:
            told = it.get("params", {})
            if it.get("method") == "Runtime.exceptionThrown":
                yield told["exceptionDetails"].get("exception", {}).get("description", "an exception")
            url = told.get("request", {}).get("url", "file:")
            if it.get("method") == "Network.requestWillBeSent" and not url.startswith(("file:", "about:")):
                yield f"it asks for {url}"


@contextlib.contextmanager
def a_page(path):
    """A page of a browser, which is ended afterwards."""
    with tempfile.TemporaryDirectory(ignore_cleanup_errors=True) as folder:
        pipe = Pipe(path, folder)
        try:
            yield Page(pipe)
        finally:
            pipe.close()


if __name__ == "__main__":
    parser(__doc__).parse_args()
