"""Drives a browser without a window: Debian's `chromium`, over a pipe, in the words of the Chrome DevTools Protocol.

It knows no network but this machine, keeps nothing, and ends with its session. Where it is not installed, `path` gives nothing.
"""
import base64
import json
import os
import select
import shutil
import signal
import subprocess
import sys
import tempfile
import time

# The seconds after which the browser is held to hang.
PATIENCE = 120
SWITCHES = (
    "--headless=new", "--remote-debugging-pipe", "--no-first-run", "--no-sandbox", "--disable-gpu", "--disable-dev-shm-usage",
    "--disable-background-networking", "--disable-component-update", "--disable-sync", "--no-default-browser-check", "--hide-scrollbars",
    "--force-color-profile=srgb", "--lang=en",
)
# (the browser reads from the file 3 and writes to the file 4)
BEGIN = (
    "import fcntl, os, sys; files = [fcntl.fcntl(int(it), fcntl.F_DUPFD, 10) for it in sys.argv[1:3]]; "
    "os.dup2(files[0], 3), os.dup2(files[1], 4); os.execv(sys.argv[3], sys.argv[3:])"
)
KEYS = {"Tab": 9, "Enter": 13, "Escape": 27, "ArrowLeft": 37, "ArrowRight": 39}


def path():
    """Where the browser is, if it is."""
    return shutil.which("chromium")


class Lost(ValueError):
    """A browser that does not answer, or answers with a fault."""


class Browser:
    """A browser with one page. It is closed behind a `with`."""

    def __init__(self):
        self.folder = tempfile.TemporaryDirectory(ignore_cleanup_errors=True)
        theirs, self.writing = os.pipe()
        self.reading, their_own = os.pipe()
        words = [sys.executable, "-c", BEGIN, str(theirs), str(their_own), path(), *SWITCHES, f"--user-data-dir={self.folder.name}"]
        settings = dict(os.environ, HOME=self.folder.name)
        nothing = subprocess.DEVNULL
        self.process = subprocess.Popen(
            [*words, "about:blank"], stdin=nothing, stdout=nothing, stderr=nothing, pass_fds=(theirs, their_own), env=settings,
            start_new_session=True,
        )
        os.close(theirs), os.close(their_own)
        self.number, self.rest, self.session, self.events = 0, b"", None, []
        targets = self.call("Target.getTargets")["targetInfos"]
        page = next(it["targetId"] for it in targets if it["type"] == "page")
        self.session = self.call("Target.attachToTarget", targetId=page, flatten=True)["sessionId"]
        for domain in ("Page", "Runtime", "Log"):
            self.call(f"{domain}.enable")

    def __enter__(self):
        return self

    def __exit__(self, *_):
        # (the session of this browser is its own, so that all its processes end)
        try:
            os.killpg(self.process.pid, signal.SIGKILL)
        except ProcessLookupError:
            pass
        self.process.wait()
        os.close(self.writing), os.close(self.reading)
        self.folder.cleanup()

    def message(self, until):
        """The next message of the browser."""
        while b"\0" not in self.rest:
            ready, _, _ = select.select([self.reading], [], [], max(0, until - time.monotonic()))
            part = os.read(self.reading, 1 << 16) if ready else b""
            if not part:
                raise Lost("the browser does not answer")
            self.rest += part
        text, _, self.rest = self.rest.partition(b"\0")
        return json.loads(text)

    def call(self, method, **words):
        """What the browser answers to a method."""
        self.number += 1
        call = {"id": self.number, "method": method, "params": words}
        if self.session:
            call["sessionId"] = self.session
        os.write(self.writing, json.dumps(call).encode() + b"\0")
        until = time.monotonic() + PATIENCE
        while True:
            came = self.message(until)
            if came.get("id") == self.number:
                if "error" in came:
                    raise Lost(f"{method}: {came['error']['message']}")
                return came["result"]
            self.events.append(came)

    def loaded(self, act):
        """Does what leads to another page, and waits until that is loaded."""
        self.events.clear()
        act()
        until = time.monotonic() + PATIENCE
        while not any(it.get("method") == "Page.loadEventFired" for it in self.events):
            self.events.append(self.message(until))

    def load(self, address):
        """Loads a page, anew also where another place of it was shown."""
        if "#" in address:
            self.load("about:blank")
        self.loaded(lambda: self.call("Page.navigate", url=address))

    def faults(self):
        """What the page's script or the browser complained of."""
        found = [it["params"] for it in self.events if it.get("method") in ("Runtime.exceptionThrown", "Log.entryAdded")]
        return [it.get("exceptionDetails", {}).get("exception", {}).get("description") or it.get("entry", {}).get("text") for it in found]

    def value(self, script):
        """What a script comes to on the page."""
        came = self.call("Runtime.evaluate", expression=script, returnByValue=True, awaitPromise=True)
        if "exceptionDetails" in came:
            raise Lost(f"{script}: {came['exceptionDetails'].get('exception', {}).get('description')}")
        return came["result"].get("value")

    def text(self, selector):
        return self.value(f"document.querySelector({json.dumps(selector)})?.textContent")

    def click(self, selector):
        """Clicks in the middle of what a selector finds, as a mouse does."""
        script = f"(()=>{{const it=document.querySelector({json.dumps(selector)});it.scrollIntoView({{block:'center',behavior:'instant'}});"
        script += "const at=it.getBoundingClientRect();return [at.x+at.width/2,at.y+at.height/2]})()"
        x, y = self.value(script)
        for kind in ("mouseMoved", "mousePressed", "mouseReleased"):
            self.call("Input.dispatchMouseEvent", type=kind, x=x, y=y, button="none" if kind == "mouseMoved" else "left", clickCount=1)

    def press(self, key):
        """Presses a key."""
        text = {"Enter": "\r"}.get(key, "")
        for kind in ("keyDown" if text else "rawKeyDown", "keyUp"):
            words = {"text": text} if text and kind == "keyDown" else {}
            self.call("Input.dispatchKeyEvent", type=kind, key=key, code=key, windowsVirtualKeyCode=KEYS[key], **words)

    def type(self, selector, text):
        """Puts a text into a field, as one that is typed."""
        self.value(f"document.querySelector({json.dumps(selector)}).focus();document.querySelector({json.dumps(selector)}).select?.()")
        self.call("Input.insertText", text=text)

    def screen(self, width, height, dark=False, paper=False, script=True, still=False):
        """The size of the screen, whether it is dark or paper, whether scripts run, and whether motion is not wanted."""
        self.call("Emulation.setDeviceMetricsOverride", width=width, height=height, deviceScaleFactor=1, mobile=width < 700)
        features = [
            {"name": "prefers-color-scheme", "value": "dark" if dark else "light"},
            {"name": "prefers-reduced-motion", "value": "reduce" if still else "no-preference"},
        ]
        self.call("Emulation.setEmulatedMedia", media="print" if paper else "", features=features)
        self.call("Emulation.setScriptExecutionDisabled", value=not script)

    def picture(self, path_of_file, whole=False):
        """Writes what is on the screen, or the whole page, as a PNG."""
        came = self.call("Page.captureScreenshot", format="png", captureBeyondViewport=whole)
        with open(path_of_file, "wb") as file:
            file.write(base64.b64decode(came["data"]))
