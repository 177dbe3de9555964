"""What the commands of this folder in Python share: what they build first, and what they give to protoc."""
from __future__ import annotations

import collections.abc
import pathlib
import re
import shutil
import subprocess
import sys

BENCH = pathlib.Path(__file__).resolve().parent
ROOT = BENCH.parent
PROGRAMS = BENCH / "target" / "release"

# How what is measured in C and C++ is compiled.
OPTIMIZED = ("-O3", "-march=x86-64-v2")


class NotRun(Exception):
    """Why something is not measured."""


def build(words: collections.abc.Sequence[str]) -> None:
    """Builds the libraries and the programs of this folder by build.sh; where it cannot, which it says, this ends."""
    status = subprocess.run(["sh", BENCH / "build.sh", *words]).returncode
    if status != 0:
        sys.exit(0 if status == 77 else 1)


def needs(tool: str, package: str) -> None:
    """Ends where there is no such tool, which is in this Debian package."""
    if not shutil.which(tool):
        raise NotRun(f"there is no {tool}; the Debian package {package} has it")


def description() -> str:
    """The description of the protocol as others read it: what its options say is only for the generators here."""
    text = (ROOT / "proto" / "journal.proto").read_text()
    lines = [line for line in text.splitlines() if line != 'import "options.proto";' and "option (" not in line]
    return "".join(re.sub(r" \[[(a-z][^]]*\]", "", line, count=1) + "\n" for line in lines)
