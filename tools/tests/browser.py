"""Drives a headless Chromium over its debugging pipe: file descriptors 3 and 4, messages in JSON, each ended by a zero byte."""
import fcntl
import json
import os
import select
import shutil
import subprocess
import tempfile
import time

NAMES = ("chromium", "chromium-browser", "google-chrome", "google-chrome-stable", "chrome")
FIRST_FREE = 10


def chromium():
    """The path of a Chromium, None where there is none."""
    return next((path for path in map(shutil.which, NAMES) if path), None)


class Browser:
    """A headless Chromium with one page."""

    def __init__(self, wide=1280, high=900):
        self.folder = tempfile.TemporaryDirectory(prefix="xensched-page-", ignore_cleanup_errors=True)
        self.number, self.buffer, self.events, self.session = 0, b"", [], None
        # the ends that Chromium has get numbers that neither 3 nor 4 can be
        (hear, self.out), (self.inn, say) = os.pipe(), os.pipe()
        hear, say = (fcntl.fcntl(end, fcntl.F_DUPFD, FIRST_FREE) for end in (hear, say))
        words = [chromium(), "--headless", "--remote-debugging-pipe", "--no-sandbox", "--disable-gpu", "--disable-dev-shm-usage", "--no-first-run", "--disable-background-networking",
                 f"--user-data-dir={self.folder.name}", f"--window-size={wide},{high}", "about:blank"]
        self.process = subprocess.Popen(words, pass_fds=(3, 4), preexec_fn=lambda: (os.dup2(hear, 3), os.dup2(say, 4)), stdout=subprocess.DEVNULL, stderr=subprocess.DEVNULL)
        os.close(hear)
        os.close(say)
        try:
            self._open_page()
        except Exception:
            self.close()
            raise

    def _open_page(self):
        target = self.call("Target.createTarget", url="about:blank")["targetId"]
        self.session = self.call("Target.attachToTarget", targetId=target, flatten=True)["sessionId"]
        for domain in ("Page", "Runtime", "Log"):
            self.call(f"{domain}.enable")

    def close(self):
        self.process.kill()
        self.process.wait()
        os.close(self.out)
        os.close(self.inn)
        self.folder.cleanup()

    def _message(self, until):
        """The next message; events are kept."""
        while b"\0" not in self.buffer:
            if not select.select([self.inn], [], [], max(0, until - time.monotonic()))[0]:
                raise TimeoutError("Chromium does not answer")
            block = os.read(self.inn, 1 << 20)
            if not block:
                raise ConnectionError("Chromium has ended")
            self.buffer += block
        text, _, self.buffer = self.buffer.partition(b"\0")
        found = json.loads(text)
        if "method" in found:
            self.events.append(found)
        return found

    def call(self, method, timeout=60, **params):
        """A call of the protocol, and its answer."""
        self.number += 1
        message = {"id": self.number, "method": method, "params": params, **({"sessionId": self.session} if self.session else {})}
        left = json.dumps(message).encode() + b"\0"
        while left:
            left = left[os.write(self.out, left) :]
        until = time.monotonic() + timeout
        while True:
            found = self._message(until)
            if found.get("id") == self.number:
                if "error" in found:
                    raise RuntimeError(f"{method}: {found['error']}")
                return found["result"]

    def load(self, path, timeout=120):
        """Opens a file, and waits until it has loaded."""
        self.events.clear()
        self.call("Page.navigate", url=f"file://{path}")
        until = time.monotonic() + timeout
        while not any(event["method"] == "Page.loadEventFired" for event in self.events):
            self._message(until)

    def errors(self):
        """What went wrong since the page was opened."""
        found = [event["params"]["exceptionDetails"]["exception"].get("description", "") for event in self.events if event["method"] == "Runtime.exceptionThrown"]
        return found + [event["params"]["entry"]["text"] for event in self.events if event["method"] == "Log.entryAdded" and event["params"]["entry"]["level"] == "error"]

    def value(self, expression):
        """The value of an expression in the page, after what is to be drawn is drawn."""
        waited = f"new Promise((done) => requestAnimationFrame(() => requestAnimationFrame(() => done({expression}))))"
        return self.call("Runtime.evaluate", expression=waited, awaitPromise=True, returnByValue=True)["result"].get("value")

    def mouse(self, kind, x, y, **more):
        self.call("Input.dispatchMouseEvent", type=kind, x=x, y=y, **more)

    def key(self, key):
        for kind in ("keyDown", "keyUp"):
            self.call("Input.dispatchKeyEvent", type=kind, key=key)
