"""Firefox without a window, driven by WebDriver BiDi over the WebSocket of tornado."""
import asyncio
import json
import os
import re
import shutil
import subprocess
import tempfile
import time

from tornado.websocket import websocket_connect

from browser import wait_for_end

PATIENCE = 300
# Nothing is asked of the network.
SETTINGS = {
    "app.update.enabled": False, "browser.shell.checkDefaultBrowser": False, "browser.startup.page": 0,
    "datareporting.policy.dataSubmissionEnabled": False, "network.captive-portal-service.enabled": False,
    "network.connectivity-service.enabled": False, "network.dns.disabled": True, "toolkit.telemetry.enabled": False,
    "browser.safebrowsing.downloads.remote.enabled": False, "services.settings.server": "data:,#remote",
}
LISTENS = re.compile(rb"WebDriver BiDi listening on (ws://\S+)")


class Firefox:
    """One browser with one page. It keeps the errors that the page tells."""

    def __init__(self):
        self.folder = tempfile.mkdtemp(prefix="naplps-firefox-")
        with open(os.path.join(self.folder, "user.js"), "w", encoding="ascii") as file:
            file.writelines("user_pref(%s, %s);\n" % (json.dumps(name), json.dumps(value))
                            for name, value in SETTINGS.items())
        said = os.path.join(self.folder, "said")
        with open(said, "wb") as out:
            self.process = subprocess.Popen(
                ["nice", "-n", "5", "firefox-esr", "--headless", "--no-remote", "--profile", self.folder,
                 "--remote-debugging-port", "0", "about:blank"],
                env={**os.environ, "HOME": self.folder}, stdin=subprocess.DEVNULL, stdout=out, stderr=out)
        self.errors, self.last, self.loop = [], 0, asyncio.new_event_loop()
        try:
            self._begin(self._address(said) + "/session")
        except BaseException:
            self.close()
            raise

    def _begin(self, address):
        self.socket = self._wait(lambda: websocket_connect(address, max_message_size=1 << 28))
        self.call("session.new", capabilities={})
        self.call("session.subscribe", events=["log.entryAdded"])
        self.page = self.call("browsingContext.getTree")["contexts"][0]["context"]

    def _wait(self, ask):
        async def awaited():
            return await asyncio.wait_for(ask(), PATIENCE)
        return self.loop.run_until_complete(awaited())

    def _address(self, said):
        end = time.monotonic() + PATIENCE
        while time.monotonic() < end and self.process.poll() is None:
            with open(said, "rb") as file:
                found = LISTENS.search(file.read())
            if found:
                return found[1].decode("ascii")
            time.sleep(0.1)
        raise TimeoutError("Firefox says nothing")

    def call(self, method, **words):
        """Calls a method; its result."""
        self.last += 1
        self.socket.write_message(json.dumps({"id": self.last, "method": method, "params": words}))
        while True:
            message = json.loads(self._wait(self.socket.read_message))
            if message.get("method") == "log.entryAdded" and message["params"]["level"] == "error":
                self.errors.append(message["params"]["text"])
            if message.get("id") == self.last:
                if message["type"] == "error":
                    raise RuntimeError("%s: %s" % (method, message["message"]))
                return message["result"]

    def _run(self, lines):
        found = self.call("script.evaluate", expression=lines, target={"context": self.page}, awaitPromise=True)
        if found["type"] == "exception":
            raise RuntimeError(found["exceptionDetails"]["text"])
        return found["result"]

    def run(self, lines):
        """The value of an expression in the page, awaited."""
        return json.loads(self._run("(async () => JSON.stringify([await (%s)]))()" % lines)["value"])[0]

    def open(self, address):
        """Opens a page, and waits until it says that it is ready."""
        self.call("browsingContext.navigate", context=self.page, url=address, wait="complete")
        self.until("document.body.dataset.ready")

    def until(self, lines):
        """Waits until an expression is true."""
        end = time.monotonic() + PATIENCE
        while not self.run("Boolean(%s)" % lines):
            assert time.monotonic() < end, "it never was so: %s\n%s" % (lines, self.errors)
            time.sleep(0.05)

    def choose(self, name, paths):
        """Chooses files for an element with this id."""
        node = self._run("document.getElementById(%s)" % json.dumps(name))
        self.call("input.setFiles", context=self.page, element={"sharedId": node["sharedId"]},
                  files=list(map(str, paths)))

    def close(self):
        """Ends it."""
        self.process.terminate()
        wait_for_end(self.process)
        self.loop.close()
        shutil.rmtree(self.folder, ignore_errors=True)
