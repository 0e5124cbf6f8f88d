"""Drives a headless Chromium over its pipe, without further packages."""

import base64
import contextlib
import fcntl
import json
import os
import shutil
import subprocess
import tempfile
import time

FLAGS = ["--headless=new", "--no-sandbox", "--disable-gpu", "--disable-dev-shm-usage", "--no-first-run", "--hide-scrollbars"]
TOLD = ("Runtime.consoleAPICalled", "Runtime.exceptionThrown", "Log.entryAdded")


def found():
    """Returns the path of Chromium, or nothing where there is none."""
    # Debian's /usr/bin/chromium is a script, which does not hand the pipes on.
    return next((path for path in ("/usr/lib/chromium/chromium", shutil.which("chromium")) if path and os.access(path, os.X_OK)), None)


class Page:
    """A page in a Chromium of its own: what it says in the console is kept in `told`, and the addresses that it asks for in `asked`."""

    def __init__(self, url, size=(1280, 900), dark=False):
        self.folder = tempfile.TemporaryDirectory(prefix="comfusy-chromium-", ignore_cleanup_errors=True)
        self.kept, self.number, self.session, self.told, self.asked = b"", 0, None, [], []
        self._start(size)
        self._attach(next(it for it in self.call("Target.getTargets")["targetInfos"] if it["type"] == "page")["targetId"])
        self.call("Emulation.setDeviceMetricsOverride", width=size[0], height=size[1], deviceScaleFactor=1, mobile=False)
        if dark:
            self.call("Emulation.setEmulatedMedia", features=[{"name": "prefers-color-scheme", "value": "dark"}])
        self.open(url)

    def _attach(self, target):
        """Turns to a page of the browser."""
        self.session = self.call("Target.attachToTarget", targetId=target, flatten=True)["sessionId"]
        for domain in ("Page", "Runtime", "Log", "Network"):
            self.call(f"{domain}.enable")

    @contextlib.contextmanager
    def profile(self):
        """Turns to a page of a new profile, which ends with its context."""
        before, profile = self.session, self.call("Target.createBrowserContext")["browserContextId"]
        self._attach(self.call("Target.createTarget", url="about:blank", browserContextId=profile)["targetId"])
        yield
        self.call("Target.disposeBrowserContext", browserContextId=profile)
        self.session = before

    def _start(self, size):
        """Starts Chromium, which reads its descriptor 3 and writes its descriptor 4."""
        ends = [fcntl.fcntl(end, fcntl.F_DUPFD, 10) for end in (*os.pipe(), *os.pipe())]
        read_end, self.write_end, self.read_end, write_end = ends

        def wire():
            os.dup2(read_end, 3)
            os.dup2(write_end, 4)

        words = [found(), *FLAGS, f"--window-size={size[0]},{size[1]}", f"--user-data-dir={self.folder.name}", "--remote-debugging-pipe", "about:blank"]
        null = subprocess.DEVNULL
        self.process = subprocess.Popen(words, preexec_fn=wire, pass_fds=(3, 4), stdin=null, stdout=null, stderr=null)
        os.close(read_end)
        os.close(write_end)

    def __enter__(self):
        return self

    def __exit__(self, *_):
        self.process.terminate()
        self.process.wait()
        self.folder.cleanup()

    def _message(self):
        while b"\0" not in self.kept:
            more = os.read(self.read_end, 1 << 20)
            if not more:
                raise RuntimeError("chromium ended")
            self.kept += more
        one, self.kept = self.kept.split(b"\0", 1)
        return json.loads(one)

    def _keep(self, message):
        """Keeps what the page tells by itself."""
        if message.get("method") in TOLD:
            self.told.append(json.dumps(message["params"])[:600])
        elif message.get("method") == "Network.requestWillBeSent":
            self.asked.append(message["params"]["request"]["url"])

    def call(self, method, **params):
        """Returns the answer to a call of the browser's protocol."""
        self.number += 1
        said = {"id": self.number, "method": method, "params": params}
        if self.session and not method.startswith(("Target.", "Browser.")):
            said["sessionId"] = self.session
        data = json.dumps(said).encode() + b"\0"
        while data:
            data = data[os.write(self.write_end, data) :]
        while (message := self._message()).get("id") != self.number:
            self._keep(message)
        if "error" in message:
            raise RuntimeError(f"{method}: {message['error']}")
        return message["result"]

    def open(self, url):
        self.call("Page.navigate", url=url)

    def eval(self, text):
        """Returns the value of a text of JavaScript in the page, once it is there."""
        got = self.call("Runtime.evaluate", expression=text, awaitPromise=True, returnByValue=True, userGesture=True)
        if "exceptionDetails" in got:
            raise RuntimeError(json.dumps(got["exceptionDetails"])[:800])
        return got["result"].get("value")

    def wait(self, text, seconds=30):
        """Waits until a text of JavaScript is true of the page."""
        end = time.monotonic() + seconds
        while time.monotonic() < end:
            if self.eval(f"(() => {{ try {{ return {text}; }} catch {{ return false; }} }})()"):
                return
            time.sleep(0.02)
        raise RuntimeError(f"not so after {seconds} s: {text}; {self.told[-3:]}")

    def press(self, key, code=None, modifiers=0):
        """Presses a key of the keyboard, as in press('Escape', 27)."""
        said = {"key": key, "code": key, "windowsVirtualKeyCode": code or ord(key), "modifiers": modifiers}
        self.call("Input.dispatchKeyEvent", type="rawKeyDown", **said)
        self.call("Input.dispatchKeyEvent", type="keyUp", **said)

    def keep_downloads(self, folder):
        """Has what the page saves put into a folder."""
        self.call("Browser.setDownloadBehavior", behavior="allow", downloadPath=str(folder))

    def shot(self, path):
        """Keeps a picture of the page."""
        path.write_bytes(base64.b64decode(self.call("Page.captureScreenshot", format="png")["data"]))
