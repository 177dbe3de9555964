"""A headless Chromium that is driven over the pipe of its DevTools protocol."""
import base64
import contextlib
import os
import pathlib
import select
import subprocess
import time

from driver import SECONDS, Browser, Ended, TooLate

# What a key is to the protocol, where its name is not its character.
NAMED_KEYS = {"Enter": "\r", "Escape": "", "ArrowDown": "", "ArrowUp": "", "Home": "", "End": "", "Tab": ""}
KEY_CODES = {"Enter": 13, "Escape": 27, "Tab": 9}


class Chromium(Browser):
    """Each text ends with a zero byte."""

    program = "chromium"

    def start(self):
        to_browser, self.output = os.pipe()
        self.input, from_browser = os.pipe()
        words = [
            self.program, "--headless", "--no-sandbox", "--disable-gpu", "--disable-dev-shm-usage", "--no-first-run",
            "--hide-scrollbars", "--remote-debugging-pipe", f"--user-data-dir={self.folder.name}",
        ]
        # the browser reads commands from descriptor 3, and writes to descriptor 4; others may have these numbers here
        shell = 'exec 8<&"$1" 9>&"$2"; shift 2; exec 3<&8 4>&9 8<&- 9>&-; exec "$@"'
        self.process = subprocess.Popen(
            ["sh", "-c", shell, "sh", str(to_browser), str(from_browser), *words],
            pass_fds=(to_browser, from_browser),
            stdin=subprocess.DEVNULL,
            stdout=subprocess.DEVNULL,
            stderr=subprocess.DEVNULL,
        )
        os.close(to_browser)
        os.close(from_browser)
        self.pending = b""
        self.session = self.loader = None
        target = self.call("Target.createTarget", url="about:blank")["targetId"]
        self.session = self.call("Target.attachToTarget", targetId=target, flatten=True)["sessionId"]
        for domain in ("Page", "Runtime", "Log", "Network"):
            self.call(f"{domain}.enable")

    def close(self):
        with contextlib.suppress(OSError, RuntimeError):
            self.call("Browser.close")
        os.close(self.output)
        os.close(self.input)

    def send(self, data):
        data += b"\0"
        while data:
            data = data[os.write(self.output, data):]

    def receive(self):
        until = time.monotonic() + SECONDS
        while b"\0" not in self.pending:
            if not select.select([self.input], [], [], max(0, until - time.monotonic()))[0]:
                raise TooLate("the browser says nothing")
            data = os.read(self.input, 1 << 20)
            if not data:
                raise Ended("the browser has ended")
            self.pending += data
        text, self.pending = self.pending.split(b"\0", 1)
        return text

    def message(self, method, parameters):
        session = {"sessionId": self.session} if self.session else {}
        return {**super().message(method, parameters), **session}

    def call_browser(self, method, **parameters):
        """The result of a command to the browser, and not to its page."""
        session, self.session = self.session, None
        try:
            return self.call(method, **parameters)
        finally:
            self.session = session

    def report(self, method, event):
        if method == "Runtime.exceptionThrown":
            details = event["exceptionDetails"]
            self.messages.append(details.get("exception", {}).get("description", details["text"]))
        elif method == "Runtime.consoleAPICalled" and event["type"] in ("error", "warning", "assert"):
            self.messages.append(str([argument.get("value") for argument in event["args"]]))
        elif method == "Log.entryAdded" and event["entry"]["level"] in ("error", "warning"):
            self.messages.append(event["entry"]["text"])
        elif method == "Network.requestWillBeSent":
            self.requests.append(event["request"]["url"])
        elif method == "Page.frameNavigated" and "parentId" not in event["frame"]:
            self.loader = event["frame"]["loaderId"]
        elif method == "Page.javascriptDialogOpening":
            self.messages.append(f"a dialog: {event['message']}")

    def navigate(self, address):
        """Navigates, and returns once the new page is there: a command that goes to the old one until then may fail."""
        loader = self.call("Page.navigate", url=address)["loaderId"]
        while self.loader != loader:
            self.received()

    def evaluate(self, expression):
        """The value of an expression in the page, or of what it promises."""
        result = self.call("Runtime.evaluate", expression=expression, returnByValue=True, awaitPromise=True)
        if "exceptionDetails" in result:
            raise RuntimeError(f"{expression}: {result['exceptionDetails']['exception'].get('description')}")
        return result["result"].get("value")

    def choose(self, selector, *paths):
        """Chooses files in an input of the page."""
        root = self.call("DOM.getDocument")["root"]["nodeId"]
        node = self.call("DOM.querySelector", nodeId=root, selector=selector)["nodeId"]
        self.call("DOM.setFileInputFiles", nodeId=node, files=[str(path) for path in paths])

    def press_key(self, key):
        text = NAMED_KEYS.get(key, key)
        event = {"key": key, **({"text": text} if text else {})}
        if key in KEY_CODES:
            event.update(code=key, windowsVirtualKeyCode=KEY_CODES[key])
        self.call("Input.dispatchKeyEvent", type="keyDown" if text else "rawKeyDown", **event)
        self.call("Input.dispatchKeyEvent", type="keyUp", key=key)

    def mouse(self, kind, x, y, **more):
        self.call("Input.dispatchMouseEvent", type=kind, x=x, y=y, **more)

    def click(self, x, y):
        """Clicks at a place of the window."""
        self.mouse("mouseMoved", x, y)
        for kind in ("mousePressed", "mouseReleased"):
            self.mouse(kind, x, y, button="left", clickCount=1)

    def drag(self, x, y, to):
        """Drags from a place to another one next to it."""
        self.mouse("mousePressed", x, y, button="left", clickCount=1)
        for place in (x + (to - x) / 2, to):
            self.mouse("mouseMoved", place, y, button="left")
        self.mouse("mouseReleased", to, y, button="left", clickCount=1)

    def wheel(self, x, y, by):
        """Turns the wheel at a place: down by so many pixels, up where they are negative."""
        self.mouse("mouseWheel", x, y, deltaX=0, deltaY=by)

    def resize(self, width, height):
        self.call("Emulation.setDeviceMetricsOverride", width=width, height=height, deviceScaleFactor=1, mobile=False)
        # the answer may come before the page has the size
        self.wait(f"innerWidth === {width} && innerHeight === {height}")

    def emulate(self, media="", dark=False):
        """Shows the page as on this medium, `print` or by default a screen, and in dark colors if they are wanted."""
        scheme = {"name": "prefers-color-scheme", "value": "dark" if dark else "light"}
        self.call("Emulation.setEmulatedMedia", media=media, features=[scheme])

    def allow_clipboard(self):
        """Lets pages read and write the clipboard."""
        self.call_browser("Browser.grantPermissions", permissions=["clipboardReadWrite", "clipboardSanitizedWrite"])

    def accessible_nodes(self):
        """What assistive technology is told of the page: each node's role and name."""
        tree = self.call("Accessibility.getFullAXTree")["nodes"]
        return [(node["role"]["value"], node.get("name", {}).get("value", "")) for node in tree if not node["ignored"]]

    def picture(self, path):
        data = self.call("Page.captureScreenshot", format="png")["data"]
        pathlib.Path(path).write_bytes(base64.b64decode(data))

    def print(self):
        """The page on paper, as PDF."""
        return base64.b64decode(self.call("Page.printToPDF", printBackground=True)["data"])
