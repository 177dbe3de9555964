"""A headless Firefox that is driven by WebDriver BiDi, over a WebSocket of its own on the loopback."""
import base64
import contextlib
import os
import pathlib
import re
import socket
import subprocess
import time

from driver import SECONDS, Browser, Ended, TooLate

# What a key is to the protocol, where its name is not its character.
NAMED_KEYS = {
    "Enter": "\ue007", "Escape": "\ue00c", "ArrowDown": "\ue015", "ArrowUp": "\ue013", "Home": "\ue011",
    "End": "\ue010", "Tab": "\ue004",
}  # fmt: skip

# The browser does nothing else than the page, which may read the clipboard.
PREFERENCES = {
    "app.normandy.enabled": False,
    "browser.newtabpage.enabled": False,
    "browser.region.update.enabled": False,
    "browser.startup.page": 0,
    "datareporting.policy.dataSubmissionEnabled": False,
    "dom.events.testing.asyncClipboard": True,
    "dom.ipc.processPrelaunch.enabled": False,
    "network.captive-portal-service.enabled": False,
    "network.connectivity-service.enabled": False,
    "nimbus.rollouts.enabled": False,
    "places.history.enabled": False,
}

HANDSHAKE = (
    "GET /session HTTP/1.1\r\nHost: 127.0.0.1:{port}\r\nUpgrade: websocket\r\nConnection: Upgrade\r\n"
    "Sec-WebSocket-Version: 13\r\nSec-WebSocket-Key: am91cm5hbCB2aWV3IGtleQ==\r\n\r\n"
)
MASK = b"mask"
TEXT, CLOSED, IS_LAST, IS_MASKED = 1, 8, 0x80, 0x80


class Firefox(Browser):
    """Each text is a message of the WebSocket."""

    program = "firefox-esr"
    socket = None

    def start(self):
        folder = pathlib.Path(self.folder.name)
        lines = [f'user_pref("{name}", {str(value).lower()});\n' for name, value in PREFERENCES.items()]
        (folder / "user.js").write_text("".join(lines))
        log = folder / "log"
        with open(log, "wb") as output:
            self.process = subprocess.Popen(
                [self.program, "--headless", "--no-remote", "--profile", folder, "--remote-debugging-port=0"],
                stdin=subprocess.DEVNULL,
                stdout=subprocess.DEVNULL,
                stderr=output,
                env={**os.environ, "HOME": str(folder)},
            )
        self.socket = self.connected(log)
        self.pending = b""
        self.call("session.new", capabilities={})
        events = ["log.entryAdded", "network.beforeRequestSent", "browsingContext.userPromptOpened"]
        self.call("session.subscribe", events=events)
        self.context = self.call("browsingContext.getTree")["contexts"][0]["context"]

    def connected(self, log):
        """A connection to the port that the browser names, once it does."""
        until = time.monotonic() + SECONDS
        while not (found := re.search(rb"listening on ws://127\.0\.0\.1:(\d+)\n", log.read_bytes())):
            said = " ".join(log.read_text(errors="replace").split())[-300:]
            if self.process.poll() is not None:
                raise Ended(said)
            if time.monotonic() > until:
                raise TooLate(f"the browser names no port: {said}")
            time.sleep(0.05)
        port = int(found[1])
        made = socket.create_connection(("127.0.0.1", port), timeout=SECONDS)
        made.sendall(HANDSHAKE.format(port=port).encode())
        answer = b""
        while not answer.endswith(b"\r\n\r\n") and (part := made.recv(1)):
            answer += part
        if b" 101 " not in answer:
            raise RuntimeError(f"the browser takes no WebSocket: {answer}")
        return made

    def close(self):
        if not self.socket:
            return
        with contextlib.suppress(OSError, RuntimeError):
            self.call("browser.close")
        self.socket.close()

    def send(self, data):
        size = len(data)
        length = bytes([IS_MASKED | 127]) + size.to_bytes(8, "big")
        if size < 126:
            length = bytes([IS_MASKED | size])
        elif size < 1 << 16:
            length = bytes([IS_MASKED | 126]) + size.to_bytes(2, "big")
        mask = MASK * (size // 4 + 1)
        masked = int.from_bytes(data, "big") ^ int.from_bytes(mask[:size], "big")
        self.socket.sendall(bytes([IS_LAST | TEXT]) + length + MASK + masked.to_bytes(size, "big"))

    def receive(self):
        text = b""
        while True:
            kind, length = self.taken(2)
            size = {126: 2, 127: 8}.get(length)
            part = self.taken(int.from_bytes(self.taken(size), "big") if size else length)
            if kind & 0xF == CLOSED:
                raise Ended("the browser has ended")
            # others than texts and what continues them say nothing
            if kind & 0xF <= TEXT:
                text += part
                if kind & IS_LAST:
                    return text

    def taken(self, count):
        """This many bytes, once they are received."""
        parts = [self.pending]
        missing = count - len(self.pending)
        while missing > 0:
            try:
                part = self.socket.recv(1 << 20)
            except TimeoutError:
                raise TooLate("the browser says nothing") from None
            if not part:
                raise Ended("the browser has ended")
            parts.append(part)
            missing -= len(part)
        data = b"".join(parts)
        self.pending = data[count:]
        return data[:count]

    def report(self, method, event):
        if method == "log.entryAdded" and event["level"] in ("error", "warn"):
            self.messages.append(event["text"])
        elif method == "network.beforeRequestSent":
            self.requests.append(event["request"]["url"])
        elif method == "browsingContext.userPromptOpened":
            self.messages.append(f"a dialog: {event['message']}")

    def navigate(self, address):
        self.call("browsingContext.navigate", context=self.context, url=address, wait="interactive")

    def evaluate(self, expression):
        """The value of an expression in the page, or of what it promises."""
        return value_of(self.result_of(expression))

    def result_of(self, expression):
        target = {"context": self.context}
        found = self.call("script.evaluate", expression=expression, target=target, awaitPromise=True)
        if found["type"] == "exception":
            raise RuntimeError(f"{expression}: {found['exceptionDetails']['text']}")
        return found["result"]

    def choose(self, selector, *paths):
        """Chooses files in an input of the page."""
        node = self.result_of(f"document.querySelector('{selector}')")
        element = {"sharedId": node["sharedId"]}
        self.call("input.setFiles", context=self.context, element=element, files=[str(path) for path in paths])

    def perform(self, kind, steps, **more):
        actions = [{"type": kind, "id": kind, "actions": steps, **more}]
        self.call("input.performActions", context=self.context, actions=actions)

    def press(self, *keys):
        """Presses keys, as all browsers do, in one command."""
        values = [NAMED_KEYS.get(key, key) for key in keys]
        if values:
            self.perform("key", [{"type": kind, "value": value} for value in values for kind in ("keyDown", "keyUp")])

    def point(self, *steps):
        self.perform("pointer", steps)

    def click(self, x, y):
        """Clicks at a place of the window."""
        self.point(moved(x, y), {"type": "pointerDown", "button": 0}, {"type": "pointerUp", "button": 0})

    def drag(self, x, y, to):
        """Drags from a place to another one next to it."""
        down, up = ({"type": kind, "button": 0} for kind in ("pointerDown", "pointerUp"))
        self.point(moved(x, y), down, moved(x + (to - x) / 2, y), moved(to, y), up)

    def wheel(self, x, y, by):
        """Turns the wheel at a place: down by so many pixels, up where they are negative."""
        self.perform("wheel", [{"type": "scroll", "x": round(x), "y": round(y), "deltaX": 0, "deltaY": by}])

    def resize(self, width, height):
        viewport = {"width": width, "height": height}
        self.call("browsingContext.setViewport", context=self.context, viewport=viewport, devicePixelRatio=1)

    def allow_clipboard(self):
        """Lets pages read and write the clipboard, as a preference does."""

    def print(self):
        """The page on paper, as PDF."""
        return base64.b64decode(self.call("browsingContext.print", context=self.context, background=True)["data"])


def moved(x, y):
    return {"type": "pointerMove", "x": round(x), "y": round(y)}


def value_of(found):
    """The value that the protocol describes, as JSON has it; None of what JSON does not have."""
    value = found.get("value")
    if found["type"] == "array":
        return [value_of(part) for part in value]
    if found["type"] == "object":
        return {name: value_of(part) for name, part in value}
    return value if found["type"] in ("string", "number", "boolean") else None
