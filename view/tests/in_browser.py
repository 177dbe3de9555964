#!/usr/bin/env python3
"""The pages in a headless browser, which is started once: in_browser.py chromium|firefox MODULE.wasm [TEST..]

A test is as test_page.Hostile. With '' in place of the module those of the page that opens journals are left out. Where
the browser is not there, it says so and runs nothing.
"""
import sys

import support
import test_moved  # noqa: F401
import test_opener  # noqa: F401
import test_page  # noqa: F401
from driver import NotHere
from tally import end_by_exception, tell


def main(name, module, *tests):
    end_by_exception()
    support.BROWSER, support.MODULE = name, module
    try:
        browser = support.the_browser()
    except NotHere as why:
        print(f"view: the pages in {name}: not run, since {why}\n0 passed, 0 failed")
        return
    with support.FOLDER, browser:
        tell(tests or ["test_page", "test_moved", *(["test_opener"] if module else [])])


if __name__ == "__main__":
    main(*sys.argv[1:])
