"""What a decoder or a reader of items holds of bytes that wait is at most twice their number and 64 KiB.

The names of the tests of tests/waiting are the lines of the standard input. waiting_memory.py PROGRAM runs a program
with only one of them; it has tests/c/refuse.c, which says the most bytes that were allocated at once. Beyond that of
a test without chunks a decoder may have what is said here.
"""
from __future__ import annotations

import os
import sys

import checks

# The bytes that wait in each test but those of which the name says that they are taken.
WAITING = 300_000

# What is left where a part is taken.
REST = 80_000

# What a decoder may have besides twice its bytes.
ROOM = 64 * 1024


def most(check: checks.Check, test: str) -> int:
    """The most bytes that a test has at once."""
    said = check.work / "most"
    env = {**os.environ, "MOST": "1"}
    run = checks.run(["sh", "-c", 'exec 3> "$0"; exec "$@"', said, sys.argv[1], test], b"", env=env)
    check.case(f"{test}: {run}", run.status == 0)
    return int(said.read_text() or 0)


def bytes_of(test: str) -> int:
    """The bytes that wait in a test when it is measured, at least."""
    name = test.rpartition("::")[2]
    if name.startswith("all_taken"):
        return 0
    return REST if name.startswith("part_taken") else WAITING


def main(check: checks.Check) -> None:
    tests = sys.stdin.read().split()
    least = {
        test.rpartition("::")[2]: most(check, test) for test in tests if test.endswith(("no_chunks", "mark_alone"))
    }
    for test in tests:
        if test.endswith(("no_chunks", "mark_alone")):
            continue
        has_mark = "_taken_" in test
        held = most(check, test) - least["mark_alone" if has_mark else "no_chunks"]
        bound = 2 * bytes_of(test) + ROOM
        print(f"{test}: for {bytes_of(test)} bytes that wait {held} bytes are held")
        check.case(f"{test}: {held} bytes, and {bound} at most", 0 <= held <= bound)


if __name__ == "__main__":
    checks.perform(main)
