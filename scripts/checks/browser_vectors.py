"""The test vectors by the package for Node in a headless browser, from a loopback server: browser_vectors.py TREE NAME

TREE has node/ with its module built, conformance/ and examples/; NAME is chromium or firefox. The last line is 'N
passed, M failed'.
"""
from __future__ import annotations

import functools
import http.server
import pathlib
import sys
import threading

import tally

ROOT = pathlib.Path(__file__).resolve().parent.parent.parent
sys.path.insert(0, str(ROOT / "view"))

from browser import BROWSERS  # noqa: E402
from driver import NotHere  # noqa: E402

SCRIPT = "<script type=module src=/node/test/browser.js></script>"
PAGE = f"<!doctype html><meta charset=utf-8><title>vectors</title>{SCRIPT}"


class Served(http.server.SimpleHTTPRequestHandler):
    """The files of a tree, the page, and all test vectors in one file."""

    extensions_map = {**http.server.SimpleHTTPRequestHandler.extensions_map, ".js": "text/javascript"}

    def do_GET(self) -> None:
        made = {"/": PAGE, "/vectors.txt": "".join(vectors(pathlib.Path(self.directory)))}.get(self.path)
        if made is None:
            super().do_GET()
            return
        self.send_response(200)
        self.send_header("Content-Type", "text/html" if self.path == "/" else "text/plain")
        self.end_headers()
        self.wfile.write(made.encode())

    def log_message(self, *_: object) -> None:
        pass


def vectors(tree: pathlib.Path) -> list[str]:
    folder = tree / "conformance"
    return [file.read_text() for file in [*sorted(folder.glob("*.txt")), *sorted((folder / "json").glob("*.txt"))]]


def main(tree: str, name: str) -> int:
    tally.end_by_exception()
    try:
        browser = BROWSERS[name]()
    except NotHere as why:
        print(f"node: the package in {name}: not run, since {why}\n0 passed, 0 failed")
        return 0
    handler = functools.partial(Served, directory=tree)
    server = http.server.ThreadingHTTPServer(("127.0.0.1", 0), handler)
    threading.Thread(target=server.serve_forever, daemon=True).start()
    with browser:
        browser.navigate(f"http://127.0.0.1:{server.server_address[1]}/")
        try:
            browser.wait("window.result !== undefined")
            result = browser.evaluate("window.result")
        except RuntimeError as error:
            result = {"passed": 0, "failed": 1, "said": [str(error)]}
        # the browser asks for an icon by itself
        messages = [message for message in browser.messages if "404" not in message]
    server.shutdown()
    for line in [*result["said"], *messages]:
        print(f"failed: {line}")
    print(f"{result['passed']} passed, {result['failed'] + len(messages)} failed")
    return 1 if result["failed"] or messages else 0


if __name__ == "__main__":
    sys.exit(main(*sys.argv[1:]))
