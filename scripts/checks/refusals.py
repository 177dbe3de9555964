#!/usr/bin/env python3
"""Each allocation of the programs fails in turn; that of the tests is in tests.sh.

The programs run once for each allocation that they make, with that one failing, and at last with none. journal_list,
journal_show and journal_dump have to write their lines, or whole lines at the beginning of them and that they are out
of memory, journal_diff and journal_make all, or nothing and that they are out of memory; all succeed if no allocation
fails.

It takes the proved programs, and tests/c/refuse.c, which counts their allocations and makes one of them fail. Each
failed allocation counts as one.
"""
from __future__ import annotations

import pathlib
import re

import checks
from failing_allocations import each_fails

STREAMS = pathlib.Path("examples/streams")
JOURNALS = f"{STREAMS}/recorded {STREAMS}/replayed_other_payload"
SIZES = ("3", "4096")

DIFFERS = b"""\
command 1: Found a mismatch between the code paths taken during the previous execution and the paths taken during this \
execution.
This typically happens when some parts of the code are non-deterministic.
- The mismatch happened while executing 'set state' (index '1')
- Difference:
   value: '1' != '2'
"""

# At v9 an unknown message is skipped with its payload.
SKIPPED = b"skipped 0x8 8\nrest 0\n"


def colored(verdict: bytes) -> bytes:
    """The verdict on the example journals, in colors."""
    verdict = re.sub(rb"^command 1", b"\x1b[1mcommand 1\x1b[0m", verdict)
    values = rb"\1" + b"\x1b[31m" + rb"\2" + b"\x1b[0m != \x1b[32m" + rb"\3" + b"\x1b[0m"
    return re.sub(rb"(?m)^(   value: )(.*) != (.*)", values, verdict)


class Refusals:
    """The programs over what makes an allocation fail."""

    def __init__(self, check: checks.Check):
        self.check = check
        self.preload = f"LD_PRELOAD={check.work}/refuse.so"

    def each_fails(self, name: str, words: str, stream: str, expected: checks.Run, failure: int, begins: bool) -> None:
        """A program on a stream, which is to end so, or with the status `failure` if an allocation fails; then it
        begins to write whole lines, or has written nothing."""
        said = f"{name}: out of memory\n".encode()

        def is_right(run: checks.Run, is_failing: bool) -> bool:
            if not is_failing or run.status != failure or run == expected:
                return run == expected
            is_beginning = begins and run.out.endswith(b"\n") and expected.out.startswith(run.out)
            return run.err == said and (run.out == b"" or is_beginning)

        command = ["env", self.preload, self.check.program(name), *words.split()]
        each_fails(self.check, f"{name} {words} < {stream}", command, (STREAMS / stream).read_bytes(), is_right)

    def listing(self, words: str, stream: str, listing: bytes) -> None:
        self.each_fails("journal_list", words, stream, checks.Run(0, listing, b""), 1, begins=True)

    def dump(self, words: str) -> None:
        """journal_dump, which is to write what it writes if no allocation fails."""
        stream = "cut_short"
        expected = checks.run([self.check.program("journal_dump"), *words.split()], (STREAMS / stream).read_bytes())
        said = b"journal_dump: offset 21: 8 bytes after the last whole item\n"
        is_right = expected.status == 0 and expected.out.count(b'"offset"') > 1 and expected.err == said
        self.check.case(f"journal_dump {words}", is_right, expected)
        self.each_fails("journal_dump", words, stream, expected, 1, begins=True)

    def verdict(self, words: str, status: int, verdict: bytes) -> None:
        self.each_fails("journal_diff", words, "recorded", checks.Run(status, verdict, b""), 2, begins=False)


def main(check: checks.Check) -> None:
    check.needs("cc", "gcc")
    words = ["cc", "-O2", "-shared", "-fPIC", "-o", check.work / "refuse.so", "tests/c/refuse.c", "-ldl"]
    check.command("cc tests/c/refuse.c", words)
    check.stop_if_failed()
    refusals = Refusals(check)

    for size in SIZES:
        for stream in ("replay", "unknown_type", "cut_short"):
            refusals.listing(size, stream, (STREAMS / f"{stream}.stdout").read_bytes())
        refusals.listing(f"{size} v9", "unknown_type", SKIPPED)

    refusals.verdict(JOURNALS, 1, DIFFERS)
    refusals.verdict(f"--ignore-payloads --protocol 9 - {STREAMS}/replayed_other_payload", 0, b"same, 4 commands\n")
    refusals.verdict(f"--color always {JOURNALS}", 1, colored(DIFFERS))

    refusals.dump("")
    refusals.dump("--pretty")
    lines = (
        b'#0 InputCommand "input"\n', b'#1 SetStateCommand "counter" "1"\n', b'#2 CallCommand Greeter greet "hello"\n',
        b'#3 CallCompletionNotification "hi" completes #2 CallCommand Greeter greet "hello"\n',
        b'#4 OutputCommand "done"\n', b'open id 1: the invocation id of #2 CallCommand Greeter greet "hello"\n',
    )
    refusals.each_fails("journal_show", "", "recorded", checks.Run(0, b"".join(lines), b""), 1, begins=True)
    made = checks.Run(0, (STREAMS / "replay").read_bytes(), b"")
    refusals.each_fails("journal_make", "", "replay.dump", made, 2, begins=False)


if __name__ == "__main__":
    checks.perform(main)
