"""A page in chromium without a screen, by the DevTools protocol over two pipes: for tools/explore_test."""

import base64
import json
import os
import select
import shutil
import subprocess
import time

NAMES = ("chromium", "chromium-browser", "google-chrome")
SECONDS = 180  # until an answer has to be there: a busy machine starts a browser slowly
KEYS = {"ArrowLeft": 37, "ArrowUp": 38, "ArrowRight": 39, "ArrowDown": 40, "Home": 36, "End": 35}


def program():
    """The browser, or None where there is none."""
    return next(filter(None, map(shutil.which, NAMES)), None)


class Browser:
    """One page. What its console says is in `said`, and what it asks to load in `loaded`."""

    def __init__(self, folder, width=1060, height=900):
        heard, told = os.pipe(), os.pipe()
        words = [program(), "--headless", "--no-sandbox", "--disable-gpu", "--disable-dev-shm-usage",
                 "--hide-scrollbars", "--remote-debugging-pipe", f"--user-data-dir={folder}",
                 f"--window-size={width},{height}", "about:blank"]
        # the browser reads from 3 and writes to 4
        pipes = f'exec "$@" 3<&{heard[0]} 4>&{told[1]}'
        none = {name: subprocess.DEVNULL for name in ("stdin", "stdout", "stderr")}
        self.process = subprocess.Popen(["bash", "-c", pipes, "", *words], pass_fds=(heard[0], told[1]), **none)
        os.close(heard[0])
        os.close(told[1])
        self.to, self.back = heard[1], told[0]
        self.rest, self.number, self.page = b"", 0, None
        self.said, self.loaded = [], []
        target = self.ask("Target.createTarget", url="about:blank")["targetId"]
        self.page = self.ask("Target.attachToTarget", targetId=target, flatten=True)["sessionId"]
        for name in ("Page", "Runtime", "Log", "Network"):
            self.ask(f"{name}.enable")

    def __enter__(self):
        return self

    def __exit__(self, *_):
        os.close(self.to)
        self.process.terminate()
        self.process.wait()
        os.close(self.back)

    def ask(self, method, **words):
        """What the browser answers to a command."""
        self.number += 1
        message = {"id": self.number, "method": method, "params": words}
        if self.page:
            message["sessionId"] = self.page
        os.write(self.to, json.dumps(message).encode() + b"\0")
        while (told := self.hear()).get("id") != self.number:
            self.note(told)
        if "error" in told:
            raise OSError(f"{method}: {told['error']['message']}")
        return told["result"]

    def hear(self):
        end = time.monotonic() + SECONDS
        while b"\0" not in self.rest:
            if not select.select([self.back], [], [], max(0, end - time.monotonic()))[0]:
                raise OSError("the browser does not answer")
            part = os.read(self.back, 1 << 16)
            if not part:
                raise OSError("the browser ended")
            self.rest += part
        message, self.rest = self.rest.split(b"\0", 1)
        return json.loads(message)

    def note(self, told):
        words = told.get("params", {})
        if told.get("method") == "Runtime.consoleAPICalled":
            self.said.append(" ".join(str(it.get("value")) for it in words["args"]))
        elif told.get("method") == "Runtime.exceptionThrown":
            details = words["exceptionDetails"]
            self.said.append(details.get("exception", {}).get("description", details["text"]))
        elif told.get("method") == "Log.entryAdded":
            self.said.append(words["entry"]["text"])
        elif told.get("method") == "Network.requestWillBeSent":
            self.loaded.append(words["request"]["url"])

    def open(self, address):
        self.ask("Page.navigate", url=address)
        end = time.monotonic() + SECONDS
        while self.value("document.readyState") != "complete":
            if time.monotonic() > end:
                raise OSError("the page does not open")
            time.sleep(0.05)

    def value(self, words):
        """What an expression has in the page."""
        told = self.ask("Runtime.evaluate", expression=words, returnByValue=True)
        if "exceptionDetails" in told:
            raise OSError(f"{words}: {told['exceptionDetails']['text']}")
        return told["result"].get("value")

    def text(self, name):
        """The text of an element of the page."""
        return self.value(f"document.getElementById({json.dumps(name)}).textContent")

    def press(self, key):
        for kind in ("keyDown", "keyUp"):
            self.ask("Input.dispatchKeyEvent", type=kind, key=key, code=key, windowsVirtualKeyCode=KEYS[key])

    def colours(self, scheme):
        """Light or dark."""
        self.ask("Emulation.setEmulatedMedia", features=[{"name": "prefers-color-scheme", "value": scheme}])

    def picture(self, path, height):
        """The upper part of the page, so many pixels of it."""
        clip = {"x": 0, "y": 0, "width": self.value("innerWidth"), "height": height, "scale": 1}
        told = self.ask("Page.captureScreenshot", format="png", clip=clip, captureBeyondViewport=True)
        with open(path, "wb") as file:
            file.write(base64.b64decode(told["data"]))
