"""Chromium without a window, driven over two pipes by the standard library: messages of JSON, each ended by NUL."""
import fcntl
import json
import os
import selectors
import shutil
import subprocess
import tempfile
import time

WORDS = ["--headless", "--no-sandbox", "--disable-gpu", "--hide-scrollbars", "--no-first-run", "--disable-sync",
         "--disable-background-networking", "--disable-component-update", "--disable-default-apps", "--mute-audio",
         "--host-resolver-rules=MAP * ~NOTFOUND, EXCLUDE 127.0.0.1", "--remote-debugging-pipe",
         # (a page that counts as hidden draws nothing, observes nothing and takes no drop; /dev/shm may be small)
         "--disable-backgrounding-occluded-windows", "--disable-renderer-backgrounding",
         "--disable-background-timer-throttling", "--disable-ipc-flooding-protection", "--disable-hang-monitor",
         "--disable-dev-shm-usage"]
PATIENCE = 300
# What is said of a page that gives way to another while it is asked.
GIVES_WAY = ("navigated or closed", "context was destroyed", "Cannot find context", "Cannot find default execution")
# What is said of a page in which something never was so.
STATE = """JSON.stringify({visible: document.visibilityState, focus: document.hasFocus(),
  size: [innerWidth, innerHeight], data: {...document.body.dataset}, text: document.body.innerText.slice(0, 2000),
  images: [...document.images].map((each) => [each.alt, each.complete, each.naturalWidth, each.src.slice(0, 40)])})"""
KEYS = {"Enter": (13, "\r"), "Tab": (9, ""), "Escape": (27, ""), " ": (32, " "), "End": (35, ""), "Home": (36, ""),
        "ArrowLeft": (37, ""), "ArrowRight": (39, ""), "ArrowDown": (40, "")}


def _as_3_and_4(*pipes):
    above = [fcntl.fcntl(each, fcntl.F_DUPFD, 10) for each in pipes]
    for number, each in enumerate(above, 3):
        os.dup2(each, number)
        os.close(each)


def wait_for_end(process):
    """Waits until a browser has ended, and kills it after a while."""
    try:
        process.wait(20)
    except subprocess.TimeoutExpired:
        process.kill()
        process.wait()


class Browser:
    """One browser with one page. It keeps what the page asked for, with which Referer, and the errors of the page."""

    def __init__(self, width=1240, height=900):
        self.folder = tempfile.mkdtemp(prefix="naplps-browser-")
        to_it, self.to = os.pipe()
        self.of, of_it = os.pipe()
        self.process = subprocess.Popen(
            ["nice", "-n", "5", "chromium", *WORDS, "--user-data-dir=" + self.folder], pass_fds=[3, 4],
            preexec_fn=lambda: _as_3_and_4(to_it, of_it), stdin=subprocess.DEVNULL, stdout=subprocess.DEVNULL,
            stderr=subprocess.DEVNULL)
        os.close(to_it)
        os.close(of_it)
        self.waiting = selectors.DefaultSelector()
        self.waiting.register(self.of, selectors.EVENT_READ)
        self.held, self.last, self.session = b"", 0, None
        self.requests, self.referers, self.errors = [], [], []
        target = self.call("Target.createTarget", url="about:blank")["targetId"]
        self.session = self.call("Target.attachToTarget", targetId=target, flatten=True)["sessionId"]
        for name in ("Page", "Runtime", "Network", "Log"):
            self.call(name + ".enable")
        self.size(width, height)

    def _message(self):
        while b"\0" not in self.held:
            if not self.waiting.select(PATIENCE):
                raise TimeoutError("Chromium says nothing")
            piece = os.read(self.of, 1 << 20)
            if not piece:
                raise EOFError("Chromium has ended")
            self.held += piece
        message, self.held = self.held.split(b"\0", 1)
        return json.loads(message)

    def call(self, method, **words):
        """Calls a method; its result."""
        self.last += 1
        asked = {"id": self.last, "method": method, "params": words}
        if self.session:
            asked["sessionId"] = self.session
        os.write(self.to, json.dumps(asked).encode() + b"\0")
        while True:
            message = self._message()
            if message.get("id") == self.last:
                if "error" in message:
                    raise RuntimeError("%s: %s" % (method, message["error"]))
                return message["result"]
            self._keep(message)

    def _keep(self, message):
        name, words = message.get("method"), message.get("params", {})
        if name == "Network.requestWillBeSent":
            self.requests.append(words["request"]["url"])
        elif name == "Network.requestWillBeSentExtraInfo":
            self.referers += [value for key, value in words["headers"].items() if key.lower() == "referer"]
        elif name == "Runtime.exceptionThrown":
            self.errors.append(words["exceptionDetails"].get("exception", {}).get("description") or str(words))
        elif name == "Log.entryAdded" and words["entry"]["level"] == "error":
            self.errors.append(words["entry"]["text"])
        elif name == "Page.javascriptDialogOpening":
            self.errors.append("dialog: " + words["message"])

    def run(self, lines):
        """The value of an expression in the page, awaited."""
        found = self.call("Runtime.evaluate", expression=lines, awaitPromise=True, returnByValue=True)
        if "exceptionDetails" in found:
            raise RuntimeError(found["exceptionDetails"].get("exception", {}).get("description") or str(found))
        return found["result"].get("value")

    def open(self, address, ready="document.body && document.body.dataset.ready"):
        """Opens a page, and waits until it says that it is ready."""
        self.call("Page.navigate", url="about:blank")  # (or another part of the same page would be no new one)
        self.requests, self.referers, self.errors = [], [], []
        self.call("Page.navigate", url=address)
        self.call("Page.bringToFront")
        self.until(ready)

    def until(self, lines):
        """Waits until an expression is true."""
        self.wait(lambda: self.run("Boolean(document.readyState === 'complete' && (%s))" % lines), lines)

    def wait(self, is_so, what):
        """Waits until something is so in the page, or of what it told."""
        end = time.monotonic() + PATIENCE
        while not self._now(is_so):
            fault = self._now(lambda: self.run("document.body && document.body.dataset.fault"))
            assert not fault, fault
            assert time.monotonic() < end, "it never was so: %s\n%s\n%s" % (what, self.errors, self.run(STATE))
            time.sleep(0.02)

    def _now(self, is_so):
        """Whether something is so now, which it isn't where another page is on its way."""
        try:
            return is_so()
        except RuntimeError as error:
            if any(each in str(error) for each in GIVES_WAY):
                return False
            raise

    def tells_error(self, part, number):
        """Waits until a number of errors with this part are reported."""
        self.wait(lambda: self.run("true") and sum(part in each for each in self.errors) >= number,
                  "%d errors: %s" % (number, part))

    def reload(self, ready="document.body && document.body.dataset.ready"):
        """Opens the page again, and waits until the new one says that it is ready."""
        self.run("window.isBefore = true")
        self.call("Page.reload")
        self.until("!window.isBefore && (%s)" % ready)

    def size(self, width, height):
        """Gives the window a size, and waits until the page has it."""
        self.call("Emulation.setDeviceMetricsOverride", width=width, height=height, deviceScaleFactor=1, mobile=False)
        self.until("innerWidth === %d && innerHeight === %d" % (width, height))

    def look(self, media="", dark=False):
        """Shows the page as for this medium, in the dark or not."""
        features = [{"name": "prefers-color-scheme", "value": "dark" if dark else "light"}]
        self.call("Emulation.setEmulatedMedia", media=media, features=features)

    def press(self, key, shift=False):
        """Presses a key: one of those with a name, or of a letter or a digit."""
        code, text = KEYS.get(key) or (ord(key.upper()), key)
        words = {"key": key, "code": "Space" if key == " " else key, "windowsVirtualKeyCode": code,
                 "modifiers": 8 if shift else 0}
        self.call("Input.dispatchKeyEvent", type="keyDown", text=text, **words)
        self.call("Input.dispatchKeyEvent", type="keyUp", **words)

    def click(self, x, y):
        """Clicks at a place of the window."""
        for kind in ("mousePressed", "mouseReleased"):
            self.call("Input.dispatchMouseEvent", type=kind, x=x, y=y, button="left", clickCount=1)

    def restart(self):
        """Ends it, and starts another one."""
        self.close()
        Browser.__init__(self)

    def close(self):
        """Ends it."""
        try:
            self.session = None
            self.call("Browser.close")
        except (OSError, EOFError, RuntimeError, TimeoutError):
            self.process.terminate()
        wait_for_end(self.process)
        self.waiting.close()
        os.close(self.to)
        os.close(self.of)
        shutil.rmtree(self.folder, ignore_errors=True)
