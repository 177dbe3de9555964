#!/usr/bin/env python3
"""The commands that pages show with a prompt run, and print what the page shows below them.

A command is a line of code that begins with '$ '. Below it is what it prints, where '..' in a line of its own is any
number of lines. It runs in a copy of the repository's first level, so that what it writes is gone afterwards, with the
proved programs in the PATH.
"""
from __future__ import annotations

import collections.abc
import dataclasses
import os
import pathlib
import re

import checks

PAGES = ("README.md", "SECURITY.md", "docs/*.md", "conformance/README.md", "examples/*.md")
PROMPT = "    $ "

# Commands whose status may be 1: a pipe that head closes, two journals that differ, and an error that is shown.
MAY_FAIL = re.compile(r"\| head\b|\bjournal diff\b|2>&1")


@dataclasses.dataclass
class Shown:
    """A command on a page, and the lines below it."""

    page: str
    command: str
    lines: list[str] = dataclasses.field(default_factory=list)

    def prints(self, out: str) -> bool:
        """Whether this output is the one that is shown, or the page shows none."""
        parts = [re.escape(f"{line}\n") if line != ".." else "(?:.*\n)*" for line in self.lines]
        return not self.lines or bool(re.fullmatch("".join(parts), out))


def shown(page: pathlib.Path) -> collections.abc.Iterator[Shown]:
    """The commands of a page."""
    last = None
    for line in page.read_text(encoding="utf-8").splitlines():
        if line.startswith(PROMPT):
            last = Shown(str(page), line.removeprefix(PROMPT))
            yield last
        elif line.startswith("    ") and last:
            last.lines.append(line.removeprefix("    "))
        else:
            last = None


def main(check: checks.Check) -> None:
    programs = {name: check.program(name).resolve() for name in ("journal", "journal_list")}
    commands = [each for pattern in PAGES for page in sorted(pathlib.Path().glob(pattern)) for each in shown(page)]
    tools = ("jq", "base64", "curl", "gzip", "protoc", "xxd")
    needed = {word for each in commands for word in tools if re.search(rf"\b{word} ", each.command)}
    absent = [word for word in sorted(needed) if not check.has(word, "the commands of pages that need it")]
    folder, bin_folder = check.work / "top", check.work / "bin"
    for place in (folder, bin_folder):
        place.mkdir()
    for name, path in programs.items():
        (bin_folder / name).symlink_to(path)
    for path in pathlib.Path().iterdir():
        link = folder / path.name
        link.symlink_to(path.resolve())
        # what is newer than a program would be built again
        status = path.stat()
        os.utime(link, ns=(status.st_atime_ns, status.st_mtime_ns), follow_symlinks=False)
    env = {**os.environ, "PATH": f"{bin_folder}:{os.environ['PATH']}", "PYTHONDONTWRITEBYTECODE": "1"}
    for each in commands:
        if not any(word in each.command for word in absent):
            ended = checks.run(["bash", "-o", "pipefail", "-c", each.command], cwd=folder, env=env)
            is_right = ended.status == 0 or ended.status == 1 and bool(MAY_FAIL.search(each.command))
            name = f"{each.page}: {each.command}"
            check.case(name, is_right and each.prints(ended.out.decode(errors="replace")), ended)
    check.case("pages show commands", len(commands) > 2, len(commands))


if __name__ == "__main__":
    checks.perform(main)
