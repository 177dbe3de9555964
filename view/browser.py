"""The headless browsers that are driven, by Python's standard library.

    python3 view/browser.py PAGE PICTURE [--width N] [--height N] [--dark] [KEY..]     a picture of a page, after keys
"""
import argparse
import pathlib
import sys

from chromium import Chromium
from firefox import Firefox

BROWSERS = {"chromium": Chromium, "firefox": Firefox}


def main():
    parser = argparse.ArgumentParser(description="Makes a picture of a page of journal_view, after keys.")
    parser.add_argument("page")
    parser.add_argument("picture", help="a PNG, or a PDF of the page on paper")
    parser.add_argument("keys", nargs="*")
    parser.add_argument("--width", type=int, default=1440)
    parser.add_argument("--height", type=int, default=900)
    parser.add_argument("--dark", action="store_true")
    arguments = parser.parse_intermixed_args()
    with Chromium(arguments.width, arguments.height) as browser:
        browser.emulate(dark=arguments.dark)
        browser.open(arguments.page)
        browser.press(*arguments.keys)
        if arguments.picture.endswith(".pdf"):
            pathlib.Path(arguments.picture).write_bytes(browser.print())
        else:
            browser.picture(arguments.picture)
        for message in browser.messages:
            print(message, file=sys.stderr)


if __name__ == "__main__":
    main()
