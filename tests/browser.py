"""Chromium without a window, controlled through pipes (--remote-debugging-pipe)."""

import base64
import json
import os
import subprocess
import time
from itertools import count

MESSAGES = ("Log.entryAdded", "Runtime.consoleAPICalled", "Runtime.exceptionThrown", "Audits.issueAdded")
ELEMENTS = """[...document.querySelectorAll('*')].map(element => [element.localName,
    Object.fromEntries([...element.attributes].map(it => [it.name, it.value])), element.textContent])"""


class Browser:
    """A browser with one tab. `events` are those since the page was opened."""

    def __init__(self, path, folder):
        from_us, self.to_it = os.pipe()
        self.from_it, to_us = os.pipe()
        words = [path, "--headless", "--disable-gpu", "--hide-scrollbars", "--remote-debugging-pipe", f"--user-data-dir={folder}", "about:blank"]
        if os.getuid() == 0:
            words.insert(1, "--no-sandbox")

        def moved():
            """The browser reads descriptor 3 and writes to descriptor 4."""
            copies = os.dup(from_us), os.dup(to_us)
            for copy, descriptor in zip(copies, (3, 4), strict=True):
                os.dup2(copy, descriptor)
                os.set_inheritable(descriptor, True)

        null = subprocess.DEVNULL
        self.process = subprocess.Popen(words, preexec_fn=moved, close_fds=False, stdout=null, stderr=null)
        os.close(from_us)
        os.close(to_us)
        self.numbers, self.read, self.events, self.session = count(1), b"", [], {}
        tab = self.call("Target.createTarget", url="about:blank")["targetId"]
        self.session = {"sessionId": self.call("Target.attachToTarget", targetId=tab, flatten=True)["sessionId"]}
        for domain in ("Page", "Runtime", "Log", "Network", "Audits"):
            self.call(f"{domain}.enable")

    def received(self):
        while b"\0" not in self.read:
            read = os.read(self.from_it, 1 << 20)
            assert read, "the browser ended"
            self.read += read
        message, self.read = self.read.split(b"\0", 1)
        return json.loads(message)

    def call(self, method, **params):
        """What a method of the browser's protocol returns."""
        number = next(self.numbers)
        os.write(self.to_it, json.dumps({"id": number, "method": method, "params": params, **self.session}).encode() + b"\0")
        while (message := self.received()).get("id") != number:
            self.events.append(message)
        assert "error" not in message, message
        return message["result"]

    def value(self, expression):
        """The value of a JavaScript expression, or of what it promises."""
        return self.call("Runtime.evaluate", expression=expression, returnByValue=True, awaitPromise=True)["result"].get("value")

    def open(self, path, width=1000, height=1000, media="", scheme="light"):
        """Opens the page in this file, in a window of this size."""
        self.call("Emulation.setDeviceMetricsOverride", width=width, height=height, deviceScaleFactor=1, mobile=width < 500)
        self.call("Emulation.setEmulatedMedia", media=media, features=[{"name": "prefers-color-scheme", "value": scheme}])
        self.call("Page.navigate", url="about:blank")
        self.events.clear()
        self.call("Page.navigate", url=path.as_uri())
        while self.value("location.protocol == 'file:' && document.readyState") != "complete":
            time.sleep(0.02)

    def elements(self):
        """The elements of the page in order: name, attributes, text."""
        return [tuple(element) for element in self.value(ELEMENTS)]

    def messages(self):
        """What the browser reports about the page."""
        return [event for event in self.events if event["method"] in MESSAGES]

    def requests(self):
        """What the page requested, itself included."""
        urls = [event["params"]["request"]["url"] for event in self.events if event["method"] == "Network.requestWillBeSent"]
        return [url for url in urls if url != "about:blank"]

    def screenshot(self):
        """The window as a PNG."""
        return base64.b64decode(self.call("Page.captureScreenshot", format="png")["data"])

    def close(self):
        self.process.terminate()
        self.process.wait()
