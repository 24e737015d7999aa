"""A page in headless Chromium, spoken to by the protocol of its developer tools over two pipes."""

import base64
import json
import os
import select
import shutil
import subprocess
import tempfile
import time

NAMES = ("chromium", "chromium-browser", "google-chrome", "google-chrome-stable")
# What the console may have that is no fault of a page.
FAULTS = ("Runtime.exceptionThrown", "Log.entryAdded", "Runtime.consoleAPICalled")
# How many seconds an answer may take.
PATIENCE = 120
KEYS = {"Enter": 13, "Escape": 27, "Tab": 9, "ArrowLeft": 37, "ArrowUp": 38, "ArrowRight": 39, "ArrowDown": 40, "Home": 36, "End": 35, " ": 32}


def found():
    """The path of a browser, or None."""
    return next(filter(None, map(shutil.which, NAMES)), None)


class Gone(Exception):
    """The browser, or an answer of it, didn't come."""


class Page:
    """One tab of a browser of its own, which is ended with the block."""

    def __init__(self, program):
        self.folder = tempfile.mkdtemp()
        their_in, our_out = os.pipe()
        our_in, their_out = os.pipe()

        def pipes():
            # (the browser reads from 3 and writes to 4; both are moved away first, since one may have the other's number)
            parts = os.dup(their_in), os.dup(their_out)
            for number, part in enumerate(parts, 3):
                os.dup2(part, number)

        # (in a container, where this is run as root, Chromium's own sandbox can't be had)
        words = [program, "--headless=new", "--remote-debugging-pipe", "--disable-gpu", "--no-first-run", f"--user-data-dir={self.folder}", *["--no-sandbox"] * (os.geteuid() == 0)]
        quiet = {"stdout": subprocess.DEVNULL, "stderr": subprocess.DEVNULL, "close_fds": False}
        self.process = subprocess.Popen([*words, "about:blank"], preexec_fn=pipes, **quiet)
        os.close(their_in)
        os.close(their_out)
        self.out, self.into, self.read, self.count, self.session, self.events, self.size = our_out, our_in, b"", 0, None, [], (800, 600)

    def attach(self):
        """Waits for the tab, and takes it."""
        targets = [it["targetId"] for it in self.call("Target.getTargets")["targetInfos"] if it["type"] == "page"]
        if not targets:
            raise Gone("the browser has no tab")
        self.session = self.call("Target.attachToTarget", targetId=targets[0], flatten=True)["sessionId"]
        for it in ("Page", "Runtime", "Log"):
            self.call(f"{it}.enable")

    def __enter__(self):
        return self

    def __exit__(self, *_):
        self.process.terminate()
        self.process.wait()
        os.close(self.out)
        os.close(self.into)
        shutil.rmtree(self.folder, ignore_errors=True)

    def message(self):
        while b"\0" not in self.read:
            if not select.select([self.into], [], [], PATIENCE)[0]:
                raise Gone(f"the browser says nothing in {PATIENCE} seconds")
            more = os.read(self.into, 1 << 20)
            if not more:
                raise Gone("the browser ended")
            self.read += more
        one, self.read = self.read.split(b"\0", 1)
        return json.loads(one)

    def call(self, method, **params):
        self.count += 1
        message = {"id": self.count, "method": method, "params": params, **({"sessionId": self.session} if self.session else {})}
        rest = json.dumps(message).encode() + b"\0"
        while rest:
            rest = rest[os.write(self.out, rest):]
        while True:
            answer = self.message()
            if answer.get("id") == self.count:
                if "error" in answer:
                    raise Gone(f"{method}: {answer['error']['message']}")
                return answer["result"]
            self.events.append(answer)

    def value(self, code):
        """The value of an expression in the page, once it is settled."""
        told = self.call("Runtime.evaluate", expression=code, awaitPromise=True, returnByValue=True)
        if "exceptionDetails" in told:
            raise Gone(told["exceptionDetails"].get("exception", {}).get("description", "an exception"))
        return told["result"].get("value")

    def until(self, code, seconds=30):
        """Whether an expression becomes true in time."""
        end = time.monotonic() + seconds
        while time.monotonic() < end:
            if self.value(f"Boolean({code})"):
                return True
            time.sleep(0.02)
        return False

    def open(self, address):
        self.call("Page.navigate", url="about:blank")
        self.call("Page.navigate", url=address)

    def resize(self, width, height):
        self.call("Emulation.setDeviceMetricsOverride", width=width, height=height, deviceScaleFactor=1, mobile=False)

    def look(self, width, height, dark=False):
        self.size = width, height
        self.resize(width, height)
        self.call("Emulation.setEmulatedMedia", features=[{"name": "prefers-color-scheme", "value": "dark" if dark else "light"}])

    def key(self, name, ctrl=False):
        """Presses a key and lets it go."""
        what = {"key": name, "code": name, "windowsVirtualKeyCode": KEYS.get(name, 0), "modifiers": 2 if ctrl else 0}
        self.call("Input.dispatchKeyEvent", type="rawKeyDown", **what)
        self.call("Input.dispatchKeyEvent", type="keyUp", **what)

    def type(self, text):
        self.call("Input.insertText", text=text)

    def picture(self, path, whole=False):
        """A picture of what is seen, or of the whole page, in a window that is high enough for it."""
        width, height = self.size
        for _ in range(2 * whole):
            # (a part may be higher in a higher window)
            self.resize(width, self.value("scrollTo(0, 0), document.documentElement.scrollHeight"))
        data = self.call("Page.captureScreenshot", format="png")["data"]
        if whole:
            self.resize(width, height)
        with open(path, "wb") as file:
            file.write(base64.b64decode(data))

    def faults(self):
        """What came to the console since the last call."""
        found = [json.dumps(it["params"])[:300] for it in self.events if it.get("method") in FAULTS]
        self.events.clear()
        return found
