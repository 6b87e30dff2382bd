"""A browser without a window: Chromium, which takes commands and returns results through a pair of pipes, as objects of JSON.

It has a folder of its own, which goes with it, and each address that isn't a file's is refused, since its proxy isn't there.
"""
import base64
import json
import os
import re
import select
import shutil
import subprocess
import tempfile
import time

NAMES, SECONDS = ("chromium", "chromium-browser", "google-chrome"), 180
OPTIONS = ("--headless=new", "--no-sandbox", "--disable-gpu", "--disable-dev-shm-usage", "--no-first-run", "--disable-background-networking",
           "--disable-component-update", "--disable-extensions", "--disable-sync", "--hide-scrollbars", "--proxy-server=127.0.0.1:9",
           "--proxy-bypass-list=<-loopback>", "--remote-debugging-pipe", "about:blank")


def chromium():
    """The path of Chromium, or None if it isn't installed."""
    return next(filter(None, map(shutil.which, NAMES)), None)


class Silence(Exception):
    """The browser ended, or says nothing more."""


class Browser:
    """A page in a browser, and what the browser reported since the page was opened: the events, each with its name and its members."""

    def __init__(self):
        self.folder = tempfile.TemporaryDirectory(ignore_cleanup_errors=True)
        (its_input, self.output), (self.input, its_output) = os.pipe(), os.pipe()
        command = [chromium(), f"--user-data-dir={self.folder.name}", *OPTIONS]
        # it reads from its third stream and writes to its fourth
        self.process = subprocess.Popen(["sh", "-c", f'exec "$@" 3<&{its_input} 4>&{its_output}', "sh", *command], pass_fds=(its_input, its_output),
                                        stdin=subprocess.DEVNULL, stdout=subprocess.DEVNULL, stderr=subprocess.DEVNULL)
        os.close(its_input)
        os.close(its_output)
        self.count, self.rest, self.events, self.page = 0, b"", [], None
        target = next(target for target in self.ask("Target.getTargets")["targetInfos"] if target["type"] == "page")
        self.page = self.ask("Target.attachToTarget", targetId=target["targetId"], flatten=True)["sessionId"]
        for domain in ("Page", "Runtime", "Log", "Network"):
            self.ask(f"{domain}.enable")

    def __enter__(self):
        return self

    def __exit__(self, *_):
        self.process.kill()
        self.process.wait()
        os.close(self.output)
        os.close(self.input)
        self.folder.cleanup()

    def ask(self, what, **members):
        """Has the browser do something, and returns the result."""
        self.count += 1
        request = {"id": self.count, "method": what, "params": members, **({"sessionId": self.page} if self.page else {})}
        os.write(self.output, json.dumps(request).encode() + b"\x00")
        end = time.monotonic() + SECONDS
        while True:
            message = self.next_message(end)
            if message.get("id") != self.count:
                self.events.append((message.get("method"), message.get("params", {})))
            elif "error" in message:
                raise Silence(f"{what}: {message['error']}")
            else:
                return message["result"]

    def next_message(self, end):
        while b"\x00" not in self.rest:
            if not select.select([self.input], [], [], max(end - time.monotonic(), 0))[0]:
                raise Silence("the browser doesn't reply")
            piece = os.read(self.input, 1 << 20)
            if not piece:
                raise Silence("the browser has ended")
            self.rest += piece
        message, _, self.rest = self.rest.partition(b"\x00")
        return json.loads(message)

    def open(self, address):
        """Opens a page anew, and waits until all of it is there."""
        self.ask("Page.navigate", url="about:blank")
        self.events.clear()
        self.ask("Page.navigate", url=address)
        end = time.monotonic() + SECONDS
        while self.value("location.href === 'about:blank' || document.readyState !== 'complete'"):
            if time.monotonic() > end:
                raise Silence(f"{address} doesn't load")

    def value(self, script):
        """What a script gives in the page."""
        reply = self.ask("Runtime.evaluate", expression=script, returnByValue=True, awaitPromise=True)
        if "exceptionDetails" in reply:
            raise Silence(f"{script}: {reply['exceptionDetails']}")
        return reply["result"].get("value")

    def type(self, text):
        """Types a text, letter by letter."""
        for letter in text:
            self.ask("Input.dispatchKeyEvent", type="char", text=letter)

    def sheets(self):
        """On how many sheets the page is printed."""
        return len(re.findall(rb"/Type */Page\b", base64.b64decode(self.ask("Page.printToPDF", paperWidth=8.27, paperHeight=11.69)["data"])))

    def picture(self, path, width, height, dark=False, media=""):
        """Writes what is seen of the page in a window of this size to a file, as PNG."""
        self.ask("Emulation.setDeviceMetricsOverride", width=width, height=height, deviceScaleFactor=1, mobile=False)
        self.ask("Emulation.setEmulatedMedia", media=media, features=[{"name": "prefers-color-scheme", "value": "dark" if dark else "light"}])
        with open(path, "wb") as file:
            file.write(base64.b64decode(self.ask("Page.captureScreenshot", format="png")["data"]))
