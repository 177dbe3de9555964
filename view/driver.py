"""What is the same of all headless browsers that are driven, by Python's standard library: one page, commands and their
answers, and what the page reports. chromium.py and firefox.py have the protocols, browser.py the names."""
import contextlib
import json
import pathlib
import shutil
import subprocess
import tempfile
import time

SECONDS = 300  # what a command or a condition may take: a bound for failures, and no measure of speed


class NotHere(Exception):
    """Why a browser cannot be driven here."""


class Ended(RuntimeError):
    """A browser that has ended by itself."""


class TooLate(RuntimeError):
    """What did not come in time. A browser that is slow is there, so this is never a reason to run nothing."""


class Browser:
    """A browser with one page. `messages` are the errors of the console, `requests` what addresses were requested.

    Both protocols have commands in JSON, each with a number, which its answer has too. What has no number is an event.
    A class below has how texts are sent and received (`send`, `receive`), how the browser begins and ends (`start`,
    `close`), what its events report (`report`), and what commands navigate, evaluate, press and point.
    """

    def __init__(self, width=1440, height=900):
        self.folder = tempfile.TemporaryDirectory()
        self.last = self.loads = 0
        self.messages, self.requests = [], []
        self.process = None
        self.has_answered = False
        if not shutil.which(self.program):
            raise NotHere(f"there is no {self.program}, which the Debian package of this name has")
        try:
            self.start()
        except (Ended, BrokenPipeError) as error:
            self.__exit__()
            # after an answer it is a fault of the browser or of what drives it
            if self.has_answered:
                raise
            raise NotHere(f"{self.program} does not start here: {error}") from error
        except BaseException:
            self.__exit__()
            raise
        self.resize(width, height)

    def __enter__(self):
        return self

    def __exit__(self, *_):
        with contextlib.suppress(OSError, RuntimeError):
            self.close()
        if self.process:
            try:
                self.process.wait(10)
            except subprocess.TimeoutExpired:
                self.process.kill()
                self.process.wait()
        with contextlib.suppress(OSError):
            self.folder.cleanup()

    def message(self, method, parameters):
        """A command as the protocol has it, without its number."""
        return {"method": method, "params": parameters}

    def call(self, method, **parameters):
        """The result of a command. What the browser reports meanwhile is kept."""
        self.last += 1
        self.send(json.dumps({"id": self.last, **self.message(method, parameters)}).encode())
        while True:
            received = self.received()
            if received.get("id") == self.last:
                self.has_answered = True
                if "error" in received:
                    raise RuntimeError(f"{method}: {received.get('message') or received['error']['message']}")
                return received["result"]

    def received(self):
        """What comes next; an event is kept."""
        received = json.loads(self.receive())
        if "id" not in received:
            self.report(received.get("method"), received.get("params", {}))
        return received

    def wait(self, condition, messages=0):
        """Waits until an expression in the page is true, and the console has so many errors."""
        until = time.monotonic() + SECONDS
        while not self.evaluate(condition) or len(self.messages) < messages:
            if time.monotonic() > until:
                raise TooLate(f"it does not become true: {condition}; errors of the console: {self.messages}")
            time.sleep(0.02)

    def load(self, path, place=""):
        """Loads a page of a file: by its query anew, whatever page is there."""
        self.loads += 1
        self.messages, self.requests = [], []
        self.navigate(f"{pathlib.Path(path).resolve().as_uri()}?{self.loads}{place}")
        self.wait(f"location.search === '?{self.loads}' && document.readyState === 'complete'")

    def open(self, path, place=""):
        """Opens a page of journal_view, and returns after how many seconds it can be used."""
        start = time.monotonic()
        self.load(path, place)
        if not self.evaluate("document.body.dataset.ready === 'true'"):
            raise RuntimeError(f"the page does not start: {self.messages}")
        return time.monotonic() - start

    def press(self, *keys):
        """Presses keys, one after the other; a key is a character, or a name such as Enter and ArrowDown."""
        for key in keys:
            self.press_key(key)

    def type(self, text):
        self.press(*text)

    def click_on(self, expression):
        """Scrolls an element into sight, and clicks in its middle."""
        box = (
            f"(() => {{ const node = {expression}; node.scrollIntoView({{ block: 'nearest' }}); "
            "return node.getBoundingClientRect().toJSON(); })()"
        )
        place = self.evaluate(box)
        self.click(place["left"] + place["width"] / 2, place["top"] + place["height"] / 2)
