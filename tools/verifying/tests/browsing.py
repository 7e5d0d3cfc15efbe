"""Chromium without a screen, for tests of pages: it opens one, presses keys, and tells what it shows and what it complains of."""
import base64
import json
import os
import select
import shutil
import subprocess
import tempfile
import time

CHROMIUM = next((it for it in map(shutil.which, ("chromium", "chromium-browser", "google-chrome")) if it), None)
PATIENCE = 90.0     # seconds for which something is waited for


class Browser:
    """A browser with one page. `complaints` are the messages on its console, errors, and what it refuses."""

    def __init__(self):
        self.folder = tempfile.mkdtemp()
        theirs_in, self.into = os.pipe()
        self.out, theirs_out = os.pipe()
        self.process = subprocess.Popen(
            ["sh", "-c", f'exec 3<&{theirs_in} 4>&{theirs_out}; exec "$0" "$@"', CHROMIUM, "--headless", "--no-sandbox", "--disable-gpu",
             "--no-first-run", "--disable-dev-shm-usage", f"--user-data-dir={self.folder}", "--remote-debugging-pipe", "about:blank"],
            pass_fds=(theirs_in, theirs_out), stdin=subprocess.DEVNULL, stdout=subprocess.DEVNULL, stderr=subprocess.DEVNULL)
        os.close(theirs_in)
        os.close(theirs_out)
        self.data, self.count, self.session, self.complaints, self.events = b"", 0, None, [], []
        page = next(it for it in self.ask("Target.getTargets")["targetInfos"] if it["type"] == "page")
        self.session = self.ask("Target.attachToTarget", targetId=page["targetId"], flatten=True)["sessionId"]
        for it in ("Page", "Runtime", "Log", "Network"):
            self.ask(f"{it}.enable")
        self.ask("Page.setLifecycleEventsEnabled", enabled=True)

    def ask(self, method, **params):
        """The result of a call of the browser's protocol."""
        self.count += 1
        message = {"id": self.count, "method": method, "params": params, **({"sessionId": self.session} if self.session else {})}
        os.write(self.into, json.dumps(message).encode() + b"\0")
        end = time.monotonic() + PATIENCE
        while time.monotonic() < end:
            for it in self.messages(end):
                if it.get("id") == self.count:
                    if "error" in it:
                        raise AssertionError(f"{method}: {it['error']}")
                    return it["result"]
        raise AssertionError(f"the browser does not answer {method}")

    def messages(self, end):
        if select.select([self.out], [], [], max(0.0, end - time.monotonic()))[0]:
            more = os.read(self.out, 1 << 16)
            if not more:
                raise AssertionError("the browser ended by itself")
            self.data += more
        *whole, self.data = self.data.split(b"\0")
        found = [json.loads(it) for it in whole]
        for it in found:
            if it.get("method") in ("Runtime.consoleAPICalled", "Runtime.exceptionThrown", "Log.entryAdded"):
                self.complaints.append(json.dumps(it["params"])[:500])
            self.events.append((it.get("method"), it.get("params")))
        return found

    def open(self, url):
        """Opens a page, and waits until it is there."""
        self.go("about:blank")
        self.events = []
        self.go(url)

    def go(self, url):
        loader = self.ask("Page.navigate", url=url).get("loaderId")
        end = time.monotonic() + PATIENCE
        while loader and not self.has_loaded(loader) and time.monotonic() < end:
            self.messages(end)

    def has_loaded(self, loader):
        return any(name == "Page.lifecycleEvent" and params["name"] == "load" and params["loaderId"] == loader for name, params in self.events)

    def loaded(self):
        """The addresses that were asked for since a page was opened."""
        return [params["request"]["url"] for name, params in self.events if name == "Network.requestWillBeSent"]

    def value(self, expression):
        found = self.ask("Runtime.evaluate", expression=expression, returnByValue=True)
        if "exceptionDetails" in found:
            raise AssertionError(found["exceptionDetails"])
        return found["result"].get("value")

    def press(self, key):
        for kind in ("keyDown", "keyUp"):
            self.ask("Input.dispatchKeyEvent", type=kind, key=key, code=key, windowsVirtualKeyCode={"Tab": 9, "Enter": 13, "End": 35, "Home": 36,
                     "ArrowLeft": 37, "ArrowRight": 39}[key], **({"text": "\r"} if key == "Enter" and kind == "keyDown" else {}))

    def size(self, width, height):
        self.ask("Emulation.setDeviceMetricsOverride", width=width, height=height, deviceScaleFactor=1, mobile=False)

    def scheme(self, name):
        self.ask("Emulation.setEmulatedMedia", features=[{"name": "prefers-color-scheme", "value": name}])

    def picture(self, path):
        with open(path, "wb") as it:
            it.write(base64.b64decode(self.ask("Page.captureScreenshot", format="png")["data"]))

    def end(self):
        self.process.kill()
        self.process.wait(PATIENCE)
        os.close(self.into)
        os.close(self.out)
        for _ in range(50):     # its children may still write there
            shutil.rmtree(self.folder, ignore_errors=True)
            if not os.path.exists(self.folder):
                break
            time.sleep(0.1)
