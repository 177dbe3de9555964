#!/usr/bin/env python3
"""Makes docs/journal_view.png, the picture of a page with two journals, or checks that it is of the page as it is now.

    python3 view/picture.py            makes the picture; needs chromium, and pngquant for a file a third as large
    python3 view/picture.py --check    compares; the last line is 'N passed, M failed'

Pixels differ with fonts and browsers. So the picture carries the words of its page, in a chunk of text, and these are
compared: a page that says something else wants another picture.
"""
import contextlib
import io
import os
import pathlib
import shutil
import struct
import subprocess
import sys
import tempfile
import zlib

sys.dont_write_bytecode = True

import make_page  # noqa: E402
import samples  # noqa: E402
from chromium import Chromium  # noqa: E402
from driver import NotHere  # noqa: E402

PICTURE = pathlib.Path(__file__).resolve().parent.parent / "docs" / "journal_view.png"

# The size of the picture, the keys that are pressed before, and a height in which all rows of the list are shown.
WIDTH, HEIGHT, KEYS, WHOLE = 1280, 860, ("n",), 4000

# The keyword of the chunk with the words, and what is before them in it: not compressed, of no named language.
KEYWORD = b"Description"
BEGINNING = KEYWORD + b"\0" + b"\0\0" + b"\0" + b"\0"


def chunks(png):
    """The chunks of a PNG, each its type and its data."""
    at = 8
    while at < len(png):
        length, kind = struct.unpack_from(">I4s", png, at)
        yield kind, png[at + 8:at + 8 + length]
        at += 12 + length


def with_words(png, words):
    """A PNG with these words in a chunk of text."""
    parts = [png[:8]]
    for kind, data in chunks(png):
        added = [(b"iTXt", BEGINNING + words.encode())] if kind == b"IEND" else []
        for name, content in [*added, (kind, data)]:
            parts.append(struct.pack(">I", len(content)) + name + content)
            parts.append(struct.pack(">I", zlib.crc32(name + content)))
    return b"".join(parts)


def words_in(png):
    """The words that a PNG carries."""
    found = (data.removeprefix(BEGINNING) for kind, data in chunks(png) if kind == b"iTXt")
    return next(found, b"").decode()


def photographed(folder, picture):
    """The words of the page; a picture of it is taken if it has a path."""
    samples.write_orders(folder)
    page = folder / "orders.html"
    before = os.getcwd()
    # the page shows the names of the journals as they are given
    os.chdir(folder)
    with contextlib.redirect_stdout(io.StringIO()):
        status = make_page.main(["--unproved", "-o", "orders.html", "orders_recorded", "orders_replayed"])
    os.chdir(before)
    if status:
        raise SystemExit(f"picture.py: no page is made, status {status}")
    with Chromium(WIDTH, HEIGHT) as browser:
        browser.emulate()
        browser.open(page)
        browser.press(*KEYS)
        if picture:
            browser.picture(picture)
        browser.resize(WIDTH, WHOLE)
        # what the new size draws is drawn at the next frame
        browser.evaluate("new Promise((done) => requestAnimationFrame(() => requestAnimationFrame(done)))")
        lines = browser.evaluate("document.body.innerText").splitlines()
    return "".join(f"{line}\n" for line in (" ".join(line.split()) for line in lines) if line)


def make(folder):
    taken = folder / "orders.png"
    words = photographed(folder, taken)
    if shutil.which("pngquant"):
        subprocess.run(["pngquant", "--strip", "--force", "--output", taken, taken], check=True)
    PICTURE.write_bytes(with_words(taken.read_bytes(), words))
    print(f"picture.py: made {PICTURE.name}")


def check(folder):
    now, then = photographed(folder, None).splitlines(), words_in(PICTURE.read_bytes()).splitlines()
    for line in [f"- {line}" for line in then if line not in now] + [f"+ {line}" for line in now if line not in then]:
        print(f"failed: the page of docs/{PICTURE.name}: {line}")
    is_right = now == then
    if not is_right:
        print(f"failed: docs/{PICTURE.name} is of another page; python3 view/picture.py makes it anew")
    print("1 passed, 0 failed" if is_right else "0 passed, 1 failed")
    return not is_right


def main(words):
    if words not in ([], ["--check"]):
        print(__doc__.strip(), file=sys.stderr)
        return 2
    with tempfile.TemporaryDirectory() as work:
        folder = pathlib.Path(work)
        try:
            return check(folder) if words else make(folder)
        except NotHere as why:
            print(f"picture.py: not run, since {why}\n0 passed, 0 failed")
            return 0 if words else 1


if __name__ == "__main__":
    sys.exit(main(sys.argv[1:]))
