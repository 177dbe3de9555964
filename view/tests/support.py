"""What the tests of the page share: a folder for journals and pages, and the maker."""
import contextlib
import functools
import io
import json
import pathlib
import sys
import tempfile
import unittest

sys.dont_write_bytecode = True
VIEW = pathlib.Path(__file__).resolve().parent.parent
STREAMS = VIEW.parent / "examples" / "streams"
sys.path[:0] = [str(VIEW), str(VIEW.parent / "scripts" / "checks")]

import make_page  # noqa: E402
from browser import BROWSERS  # noqa: E402

# to look whether a program is up to date takes longer than to run it
make_page.program = functools.cache(make_page.program)

# which browser it is, and the WebAssembly module
BROWSER = "chromium"
MODULE = None

FOLDER = tempfile.TemporaryDirectory()
WORK = pathlib.Path(FOLDER.name)


def written(name, data):
    """The path of a file with these bytes."""
    path = WORK / name
    path.write_bytes(data)
    return path


def run(*words):
    """The status of the maker, and what it printed on the standard output and on the standard error."""
    output, error = io.StringIO(), io.StringIO()
    with contextlib.redirect_stdout(output), contextlib.redirect_stderr(error):
        try:
            status = make_page.main(["--unproved", *map(str, words)])
        except SystemExit as end:
            status = end.code
    return status, output.getvalue(), error.getvalue()


def page_of(*words):
    """The path of the page of these arguments."""
    path = WORK / "page.html"
    status, _, error = run(*words, "-o", path)
    if status != 0:
        raise AssertionError(f"status {status}: {error}")
    return path


@functools.cache
def the_browser():
    """The one browser of all tests."""
    return BROWSERS[BROWSER]()


class PageTest(unittest.TestCase):
    def tearDown(self):
        self.assertEqual(the_browser().messages, [], "the console has errors")
        inside = ("file:", "about:", "data:", "blob:")
        self.assertEqual([url for url in the_browser().requests if not url.startswith(inside)], [])

    def open(self, *words, place=""):
        the_browser().open(page_of(*words), place)

    def value(self, expression):
        return the_browser().evaluate(expression)

    def text(self, selector):
        """The text of an element, with single spaces."""
        text = self.value(f"document.querySelector({json.dumps(selector)})?.textContent ?? null")
        return text if text is None else " ".join(text.split())

    def unfold(self, selector):
        """Unfolds elements, and waits until they have drawn what is in them, which an event of the page does later."""
        self.value(f"""Promise.all(Array.from(document.querySelectorAll({json.dumps(selector)}), (one) =>
            one.open || new Promise((drawn) => {{
                one.addEventListener("toggle", () => drawn(), {{ once: true }});
                one.open = true;
            }})))""")

    def selected(self):
        """The text of the selected row."""
        return self.text(".row[aria-selected=true]")

    def rows(self):
        return self.value("shown.length")

    def search(self, text):
        """Filters by keys. The text comes at once: after each letter that is typed the page filters once more a little
        later, which draws anew and scrolls to the selected row, in the midst of what a test does next."""
        the_browser().press("/")
        self.value(f"document.activeElement.value = {json.dumps(text)}")
        the_browser().press("Enter")
