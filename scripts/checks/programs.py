"""A program of this repository as checks run it: the words that it is given, and how it has to end."""
from __future__ import annotations

import os
import shutil
import typing

import checks

STREAMS = checks.ROOT / "examples" / "streams"

# The descriptor set of `message Value { bytes content = 1; }`: the least that has a field of the protocol.
SET = bytes.fromhex("0a2b0a07612e70726f746f22180a0556616c7565120f0a07636f6e74656e7418012001280c620670726f746f33")

# The words of a program, in one text where no word is empty or has a space.
Words = typing.Union[str, tuple[typing.Union[str, bytes], ...]]


def text_of(name: str) -> str:
    """A file of examples/streams that is a text."""
    return (STREAMS / name).read_text()


def go_to_streams(check: checks.Check, made: typing.Mapping[str, bytes] = {}) -> None:
    """Makes a copy of examples/streams the current folder, with these files in it."""
    folder = check.work / "streams"
    shutil.copytree(STREAMS, folder)
    for name, data in made.items():
        (folder / name).write_bytes(data)
    os.chdir(folder)


class Program:
    """A proved program, and what it reads where a case does not say it."""

    def __init__(self, check: checks.Check, name: str, given: checks.Given = b""):
        self.check = check
        self.name = name
        self.path = check.program(name)
        self.given = given

    def run(self, words: Words = "", given: checks.Given | None = None, **how: typing.Any) -> checks.Run:
        split = words.split() if isinstance(words, str) else words
        return checks.run([self.path, *split], self.given if given is None else given, **how)

    def ends(
        self, words: Words, out: str | bytes = "", err: str = "", status: int = 0, what: str = "", **how: typing.Any
    ) -> None:
        """Counts a case: a run ends with this status, and writes this and nothing else."""
        expected = checks.Run(status, out.encode() if isinstance(out, str) else out, err.encode())
        found = self.run(words, **how)
        shown = "" if found.out == expected.out else f"\nstandard output: {checks.difference(expected.out, found.out)}"
        self.check.case(f"{self.name} {words} {what}".rstrip(), found == expected, f"{found}{shown}")
