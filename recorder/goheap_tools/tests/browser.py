"""Drives a browser without a window over two pipes, by its own protocol: messages of JSON, each ended by a zero byte."""

import base64
import fcntl
import json
import os
import select
import shutil
import subprocess
import tempfile
import time

NAMES = ("chromium", "chromium-browser", "google-chrome", "chrome")
# Seconds that an answer may take.
PATIENCE = 300


def browser_command():
    """The browser's command, or nothing."""
    return next((path for path in map(shutil.which, NAMES) if path), None)


def raised(handle):
    """The same handle under a number above those that a program begins with, of which one may be free where standard input is closed."""
    found = fcntl.fcntl(handle, fcntl.F_DUPFD_CLOEXEC, 10)
    os.close(handle)
    return found


class Browser:
    """A browser with one page. What the page writes to its console as an error, and each fault that it raises, is in `errors`."""

    def __init__(self, width=1400, height=900, dark=False):
        self.folder = tempfile.TemporaryDirectory()
        to_browser, self.writing = map(raised, os.pipe())
        self.reading, from_browser = map(raised, os.pipe())
        words = [browser_command(), "--headless=new", "--no-sandbox", "--disable-gpu", "--disable-dev-shm-usage", "--no-first-run", "--disable-extensions", "--disable-background-networking", "--disable-component-update",
                 "--disable-sync", "--no-proxy-server", "--host-resolver-rules=MAP * ~NOTFOUND", "--allow-file-access-from-files", f"--user-data-dir={self.folder.name}", "--remote-debugging-pipe", "about:blank"]  # fmt: skip

        def place():
            # The protocol's pipes are the handles 3 and 4. Copies above both keep one from taking the other's place.
            given, taken = os.dup(to_browser), os.dup(from_browser)
            high = [os.dup2(given, 20), os.dup2(taken, 21)]
            os.dup2(high[0], 3)
            os.dup2(high[1], 4)

        self.process = subprocess.Popen(words, stdin=subprocess.DEVNULL, stdout=subprocess.DEVNULL, stderr=subprocess.DEVNULL, preexec_fn=place, close_fds=False)
        os.close(to_browser)
        os.close(from_browser)
        self.rest, self.number, self.errors, self.requests, self.session = b"", 0, [], [], None
        target = next(one for one in self.call("Target.getTargets")["targetInfos"] if one["type"] == "page")["targetId"]
        self.session = self.call("Target.attachToTarget", targetId=target, flatten=True)["sessionId"]
        for domain in ("Page", "Runtime", "Log", "Network"):
            self.call(f"{domain}.enable")
        self.size = width, height
        self.forget(dark)

    def forget(self, dark=False):
        """As it was at its beginning, but for what it keeps open."""
        self.resize(*self.size)
        self.shade(dark)
        self.errors.clear()
        self.requests.clear()

    def shade(self, dark):
        """What the reader's system is set to."""
        self.call("Emulation.setEmulatedMedia", features=[{"name": "prefers-color-scheme", "value": "dark" if dark else "light"}])

    def resize(self, width, height):
        self.call("Emulation.setDeviceMetricsOverride", width=width, height=height, deviceScaleFactor=1, mobile=False)

    def call(self, method, **params):
        """Sends a message, and returns its answer."""
        self.number += 1
        message = {"id": self.number, "method": method, "params": params}
        if self.session:
            message["sessionId"] = self.session
        data = json.dumps(message).encode() + b"\0"
        while data:
            data = data[os.write(self.writing, data) :]
        answer = self.until(lambda one: one.get("id") == self.number)
        if "error" in answer:
            raise RuntimeError(f"{method}: {answer['error']['message']}")
        return answer["result"]

    def until(self, is_meant):
        """Reads messages up to one that is meant."""
        end = time.monotonic() + PATIENCE
        while True:
            while b"\0" not in self.rest:
                if not select.select([self.reading], [], [], max(0, end - time.monotonic()))[0]:
                    raise TimeoutError("the browser does not answer")
                piece = os.read(self.reading, 1 << 20)
                if not piece:
                    raise EOFError("the browser has ended")
                self.rest += piece
            text, _, self.rest = self.rest.partition(b"\0")
            message = json.loads(text)
            self.note(message)
            if is_meant(message):
                return message

    def note(self, message):
        method, params = message.get("method"), message.get("params", {})
        if method == "Runtime.exceptionThrown":
            details = params["exceptionDetails"]
            self.errors.append(details.get("exception", {}).get("description", details["text"]))
        elif method == "Runtime.consoleAPICalled" and params["type"] in ("error", "warning", "assert"):
            self.errors.append(str([one.get("value") or one.get("description") for one in params["args"]]))
        elif method == "Log.entryAdded" and params["entry"]["level"] in ("error", "warning"):
            self.errors.append(params["entry"]["text"])
        elif method == "Network.requestWillBeSent":
            self.requests.append(params["request"]["url"])

    def open(self, path, fragment=""):
        """Opens a file, and waits until it has drawn a view. Returns the seconds that it took."""
        self.call("Page.navigate", url="about:blank")
        began = time.monotonic()
        self.call("Page.navigate", url=f"file://{os.path.realpath(path)}{fragment}")
        self.wait("document.body && document.body.dataset.drawn")
        return time.monotonic() - began

    def ask(self, script):
        """What a script in the page comes to."""
        found = self.call("Runtime.evaluate", expression=script, returnByValue=True, awaitPromise=True)
        if "exceptionDetails" in found:
            details = found["exceptionDetails"]
            raise RuntimeError(details.get("exception", {}).get("description", details["text"]))
        return found["result"].get("value")

    def wait(self, script, seconds=PATIENCE):
        """Waits until a script comes to something."""
        end = time.monotonic() + seconds
        while time.monotonic() < end:
            if found := self.ask(script):
                return found
            time.sleep(0.02)
        raise TimeoutError(f"{script}: {self.errors}")

    def place(self, selector, x=0.5, y=0.5):
        """Where a part of an element stands in the window, after the element was brought into sight."""
        box = self.ask(f"""(() => {{ const one = document.querySelector({json.dumps(selector)}); if (!one) return null; one.scrollIntoView({{block: "center"}});
            const box = one.getBoundingClientRect(); return [box.left, box.top, box.width, box.height]; }})()""")
        if not box:
            raise LookupError(f"there is no {selector}")
        return box[0] + box[2] * x, box[1] + box[3] * y

    def click(self, selector, x=0.5, y=0.5):
        """Clicks into an element as a person does, and waits until the page is drawn."""
        left, top = self.place(selector, x, y)
        self.click_at(left, top)

    def click_at(self, left, top):
        self.call("Input.dispatchMouseEvent", type="mouseMoved", x=left, y=top)
        for kind in ("mousePressed", "mouseReleased"):
            self.call("Input.dispatchMouseEvent", type=kind, x=left, y=top, button="left", clickCount=1)
        self.settle()

    def press(self, key, code=None):
        text = key if len(key) == 1 else "\r" if key == "Enter" else None
        self.call("Input.dispatchKeyEvent", type="keyDown", key=key, code=code or key, **({"text": text} if text else {}))
        self.call("Input.dispatchKeyEvent", type="keyUp", key=key, code=code or key)
        self.settle()

    def type(self, selector, text):
        self.ask(f"document.querySelector({json.dumps(selector)}).focus()")
        self.call("Input.insertText", text=text)
        self.settle()

    def settle(self):
        """Waits until the page has done what it was asked for."""
        self.ask("new Promise(done => requestAnimationFrame(() => setTimeout(done, 0)))")

    def shot(self, path):
        """Writes a picture of the window."""
        data = self.call("Page.captureScreenshot", format="png")["data"]
        with open(path, "wb") as file:
            file.write(base64.b64decode(data))

    def close(self):
        try:
            self.session = None
            self.call("Browser.close")
        except (EOFError, TimeoutError, OSError):
            pass
        try:
            self.process.wait(10)
        except subprocess.TimeoutExpired:
            self.process.kill()
            self.process.wait()
        os.close(self.reading)
        os.close(self.writing)
        self.folder.cleanup()
