"""Headless Chromium, driven through a pipe by its remote debugging protocol: no port is opened, and nothing is loaded but
what is asked for."""
import base64
import json
import os
import select
import shutil
import subprocess
import tempfile
import time

NAMES = ("chromium", "chromium-browser", "google-chrome", "google-chrome-stable")
# What is reported of a page, where nothing should be.
COMPLAINTS = ("Runtime.consoleAPICalled", "Runtime.exceptionThrown", "Log.entryAdded", "Page.javascriptDialogOpening")


class Stopped(Exception):
    """The browser ended, did not answer in time, or refused a command."""


def found(path=None):
    """The path of a browser: this one, or the first of its names that is on the path; None where there is none."""
    return shutil.which(path) if path else next(filter(None, map(shutil.which, NAMES)), None)


class Browser:
    def __init__(self, program, seconds=60):
        self.seconds, self.session, self.number, self.rest = seconds, None, 0, b""
        self.answers, self.events = {}, []
        self.profile = tempfile.TemporaryDirectory(ignore_cleanup_errors=True)
        read_here, write_there = os.pipe()
        read_there, write_here = os.pipe()

        def takes_pipes():
            """The browser reads commands from descriptor 3 and writes answers to 4."""
            high = os.dup(read_there), os.dup(write_there)
            os.dup2(high[0], 3)
            os.dup2(high[1], 4)

        words = [program, "--headless", "--remote-debugging-pipe", "--disable-gpu", "--no-first-run", "--lang=en",
                 "--hide-scrollbars", "--user-data-dir=" + self.profile.name]
        words += ["--no-sandbox"] if os.geteuid() == 0 else []
        self.process = subprocess.Popen(words + ["about:blank"], preexec_fn=takes_pipes, close_fds=False,
                                        stdin=subprocess.DEVNULL, stdout=subprocess.DEVNULL, stderr=subprocess.DEVNULL)
        os.close(read_there)
        os.close(write_there)
        self.reader, self.writer = read_here, write_here
        target = self.call("Target.createTarget", url="about:blank")["targetId"]
        self.session = self.call("Target.attachToTarget", targetId=target, flatten=True)["sessionId"]
        for domain in ("Page", "Runtime", "Log", "Network"):
            self.call(domain + ".enable")

    def __enter__(self):
        return self

    def __exit__(self, *_):
        self.session = None
        try:
            self.call("Browser.close")
            self.process.wait(20)
        except (Stopped, OSError, subprocess.TimeoutExpired):
            self.process.kill()
            self.process.wait()
        os.close(self.reader)
        os.close(self.writer)
        self.profile.cleanup()

    def message(self, until):
        """The next message: an answer or an event."""
        while b"\0" not in self.rest:
            if not select.select([self.reader], [], [], max(0, until - time.monotonic()))[0]:
                raise Stopped(f"no answer within {self.seconds} seconds")
            got = os.read(self.reader, 1 << 20)
            if not got:
                raise Stopped("the browser ended")
            self.rest += got
        message, self.rest = self.rest.split(b"\0", 1)
        return json.loads(message)

    def send(self, method, parameters):
        """Sends a command, and gives its number."""
        self.number += 1
        message = {"id": self.number, "method": method, "params": parameters}
        if self.session:
            message["sessionId"] = self.session
        os.write(self.writer, json.dumps(message).encode() + b"\0")
        return self.number

    def take(self, message):
        """Keeps an answer or an event. A dialog of the page is closed, as the page stands still until then."""
        if "id" in message:
            self.answers[message["id"]] = message
            return
        self.events.append(message)
        if message["method"] == "Page.javascriptDialogOpening":
            self.send("Page.handleJavaScriptDialog", {"accept": False})

    def call(self, method, **parameters):
        """Calls a method and gives its result. What comes meanwhile is kept."""
        number, until = self.send(method, parameters), time.monotonic() + self.seconds
        while number not in self.answers:
            self.take(self.message(until))
        answer = self.answers.pop(number)
        if "error" in answer:
            raise Stopped(f"{method}: {answer['error']['message']}")
        return answer["result"]

    def open(self, path):
        """Opens a file from the disk, and gives the seconds until it is loaded."""
        self.events, began = [], time.monotonic()
        self.call("Page.navigate", url="file://" + path)
        while not any(event["method"] == "Page.loadEventFired" for event in self.events):
            self.take(self.message(began + self.seconds))
        return time.monotonic() - began

    def complaints(self):
        """What the page said on the console or in a dialog since it was opened."""
        self.evaluate("0")
        return [json.dumps(event["params"])[:300] for event in self.events if event["method"] in COMPLAINTS]

    def requests(self):
        """What the page asked for since it was opened, itself included."""
        return [event["params"]["request"]["url"] for event in self.events if event["method"] == "Network.requestWillBeSent"]

    def evaluate(self, expression):
        result = self.call("Runtime.evaluate", expression=expression, returnByValue=True, awaitPromise=True)
        if "exceptionDetails" in result:
            raise Stopped(str(result["exceptionDetails"])[:500])
        return result["result"].get("value")

    def width(self, pixels, media=""):
        """Shows the page so wide, on a screen or on paper (`print`)."""
        self.call("Emulation.setDeviceMetricsOverride", width=pixels, height=900, deviceScaleFactor=1, mobile=False)
        light = {"name": "prefers-color-scheme", "value": "light"}
        self.call("Emulation.setEmulatedMedia", media=media, features=[light])

    def read_aloud(self):
        """What the page gives to a screen reader: role and name of each node."""
        nodes = self.call("Accessibility.getFullAXTree")["nodes"]
        return [(node["role"]["value"], node.get("name", {}).get("value", "")) for node in nodes if not node["ignored"]]

    def picture(self, height):
        """The top of the page, so high, as PNG."""
        clip = {"x": 0, "y": 0, "width": self.evaluate("innerWidth"), "height": height, "scale": 1}
        return base64.b64decode(self.call("Page.captureScreenshot", captureBeyondViewport=True, clip=clip)["data"])
