"""What the checks in Python share: the tally and its last line, what is not run and why, and programs that are run.

A check is a function of a Check that `perform` calls, with the top of the repository as the current folder. The second
line of its file tells what it shows, and `sh scripts/check.sh` lists that.
"""
from __future__ import annotations

import collections.abc
import contextlib
import dataclasses
import itertools
import os
import pathlib
import re
import resource
import shutil
import signal
import subprocess
import sys
import tempfile
import typing

ROOT = pathlib.Path(__file__).resolve().parents[2]
sys.path[1:1] = [str(ROOT / "scripts"), str(ROOT / "tools")]

import crates  # noqa: E402
import tally  # noqa: E402

# The programs that are installed.
PROGRAMS = ("journal", "journal_list", *crates.LINKS)

# How much of a text is shown where a case failed.
LINES = 20
CHARACTERS = 300


def beginning(text: bytes) -> str:
    """The first lines of what a program wrote, and of each its beginning."""
    lines = text.decode("utf-8", "backslashreplace").splitlines()
    return "".join(f"{line[:CHARACTERS]}\n" for line in lines[:LINES])


# A text, or its lines.
Text = typing.Union[bytes, str, list[str]]


def difference(expected: Text, found: Text) -> str:
    """Where two texts differ first."""
    pair = [text if isinstance(text, list) else text.splitlines() for text in (expected, found)]
    for number, lines in enumerate(itertools.zip_longest(*pair), 1):
        if lines[0] != lines[1]:
            first, second = ("nothing" if line is None else f"{line!r:.{CHARACTERS}}" for line in lines)
            return f"line {number} is {second}, and not {first}"
    return "both are empty" if not found else "the ends of lines"


@dataclasses.dataclass
class Run:
    """How a program ended, and what it wrote."""

    status: int
    out: bytes
    err: bytes

    def __str__(self) -> str:
        return f"status {self.status}, standard output and standard error:\n{beginning(self.out)}{beginning(self.err)}"


def is_narrow(text: bytes) -> bool:
    """Whether each line has at most 80 columns."""
    return all(len(line) <= 80 for line in text.decode().splitlines())


# What a program reads: bytes, through a pipe, or a file or a folder.
Given = typing.Union[bytes, str, pathlib.Path]


def run(
    words: collections.abc.Sequence[str | bytes | pathlib.Path],
    given: Given = b"",
    kibibytes: int | None = None,
    file_size: int | None = None,
    closed: collections.abc.Sequence[int] = (),
    **how: typing.Any,
) -> Run:
    """Runs a program with this standard input, with so many KiB of address space, with files that do not grow past a
    number of bytes, and with these descriptors closed. What it writes is kept, unless `stdout` or `stderr` says where
    it goes."""

    def prepare() -> None:
        if kibibytes is not None:
            resource.setrlimit(resource.RLIMIT_AS, (kibibytes * 1024, resource.getrlimit(resource.RLIMIT_AS)[1]))
        if file_size is not None:
            signal.signal(signal.SIGXFSZ, signal.SIG_IGN)
            resource.setrlimit(resource.RLIMIT_FSIZE, (file_size, file_size))
        for descriptor in closed:
            os.close(descriptor)

    # by name, since a program may also be given a folder, which Python does not open
    source = None if isinstance(given, bytes) else os.open(given, os.O_RDONLY)
    if kibibytes is not None or file_size is not None or closed:
        how["preexec_fn"] = prepare
    try:
        how = {"stdout": subprocess.PIPE, "stderr": subprocess.PIPE, **how}
        where = {"input": given} if source is None else {"stdin": source}
        ended = subprocess.run(words, **where, **how)
    finally:
        if source is not None:
            os.close(source)
    return Run(ended.returncode, ended.stdout or b"", ended.stderr or b"")


class NotRun(Exception):
    """Why nothing more of a check is run."""


class Stopped(Exception):
    """A case failed, and what comes after it would show nothing."""


class Check:
    """A tally of cases, and a temporary folder."""

    def __init__(self, name: str, work: pathlib.Path):
        self.name = name
        self.work = work
        self.passed = 0
        self.failed = 0

    def case(self, name: str, is_right: bool, shown: object = "") -> bool:
        """Counts a case, and tells what is shown of it where it is not right."""
        if is_right:
            self.passed += 1
        else:
            self.failed += 1
            print(f"failed: {name}{': ' if shown else ''}{shown}".rstrip())
        return is_right

    def command(self, name: str, words: collections.abc.Sequence[str | pathlib.Path], **how: typing.Any) -> bool:
        """Counts a case that is a command, which is right where its status is 0."""
        ended = run(words, **how)
        return self.case(name, ended.status == 0, ended)

    def counted(self, name: str, words: collections.abc.Sequence[str | pathlib.Path], **how: typing.Any) -> Run:
        """Adds what a command counts, whose last line is 'N passed, M failed', and shows what it says of failures and
        of what is not run. It has failed too if it counts no failure and its status is not 0, or if it counts nothing
        and does not say what is not run."""
        ended = run(words, **how)
        not_run = re.findall(rb"^.*: not (?:run|made), since .*$", ended.out, re.MULTILINE)
        for line in not_run:
            print(line.decode("utf-8", "backslashreplace"))
        counts = re.search(rb"^(\d+) passed, (\d+) failed\n\Z", ended.out, re.MULTILINE)
        if not counts:
            self.case(name, False, ended)
            return ended
        passed, failed = map(int, counts.groups())
        self.passed += passed
        self.failed += failed
        if failed:
            print(beginning(ended.out), end="")
        elif ended.status != 0 or not (passed or not_run):
            self.case(name, False, ended)
        return ended

    def same(self, name: str, expected: Text, found: Text) -> bool:
        """Counts a case, which is right where both are the same and not empty."""
        return self.case(name, found == expected and bool(found), difference(expected, found))

    def stop_if_failed(self) -> None:
        """Ends the check if a case has failed."""
        if self.failed:
            raise Stopped

    def left_out(self, what: str, why: str) -> None:
        """Says that a part is not run."""
        print(f"{self.name}: {what}: not run, since {why}")

    def without(self, what: str, tool: str) -> None:
        """Says that a part is not run, since a tool is absent."""
        self.left_out(what, f"there is no {tool}")

    def has(self, tool: str, what: str) -> bool:
        """Whether there is a tool; where there is none, says that the part which needs it is not run."""
        if shutil.which(tool):
            return True
        self.without(what, tool)
        return False

    def needs(self, tool: str, package: str) -> None:
        """Ends the check where there is no such tool, which is in this Debian package."""
        if not shutil.which(tool):
            raise NotRun(f"there is no {tool}; the Debian package {package} has it")

    def program(self, name: str) -> pathlib.Path:
        """The proved program of this name; where there is none, or it is older than a source, the check ends."""
        crate = crates.crate_of(name)
        place = program_path(name)
        shown = place.relative_to(ROOT)
        if not os.access(place, os.X_OK):
            why = f"there is no {shown}"
        elif not crates.is_up_to_date(place, crate):
            why = f"{shown} is older than a source"
        else:
            return place
        raise NotRun(f"{why}; sh scripts/run.sh --proved {crate} builds it")

    def static_library(self) -> None:
        """Builds the proved static library for C where it is not there; where it cannot be built the check ends."""
        self.needs("cc", "gcc")
        for tool in ("ld", "objcopy", "ar", "nm"):
            self.needs(tool, "binutils")
        status = subprocess.run([sys.executable, "-B", "scripts/build.py", "journal_ffi"]).returncode
        if status == 2:
            raise NotRun("there is no static library")
        if status != 0:
            self.failed += 1
            raise Stopped


def program_path(name: str) -> pathlib.Path:
    """Where rt ci or scripts/run.sh --proved leaves a program, or a link of this name, which is made next to it."""
    crate = crates.crate_of(name)
    place = ROOT / "crates" / crate / "out" / name
    if name != crate and place.parent.exists() and not place.is_symlink():
        # another check may make it at the same time
        with contextlib.suppress(FileExistsError):
            place.symlink_to(crate)
    return place


def python_with_protobuf() -> str:
    """A Python that has protobuf, or '' where there is none, or no protoc with the file that proto/options.proto
    imports. A protoc that fails otherwise fails where it is used."""
    from generators import proto

    if proto.without_protoc():
        return ""
    pythons = (python for python in ("/usr/bin/python3", "python3") if shutil.which(python))
    return next((python for python in pythons if run([python, "-c", "import google.protobuf"]).status == 0), "")


def library_version() -> str:
    """The version of the library and the programs."""
    return (ROOT / "VERSION").read_text().strip()


def names_below(folder: pathlib.Path) -> list[str]:
    """The paths of the files and links below a folder."""
    found = [path for path in folder.rglob("*") if path.is_symlink() or not path.is_dir()]
    return sorted(str(path.relative_to(folder)) for path in found)


def perform(body: collections.abc.Callable[[Check], None]) -> typing.NoReturn:
    """Performs a check, whose last line is 'N passed, M failed', and ends with status 1 where a case failed."""
    tally.end_by_exception()
    os.chdir(ROOT)
    with tempfile.TemporaryDirectory() as work:
        check = Check(pathlib.Path(sys.argv[0]).stem, pathlib.Path(work))
        try:
            body(check)
        except NotRun as end:
            print(f"{check.name}: not run, since {end}")
        except Stopped:
            pass
    print(f"{check.passed} passed, {check.failed} failed")
    sys.exit(check.failed > 0)


def perform_tests(programs: collections.abc.Sequence[str]) -> typing.NoReturn:
    """Performs a check that is Python's unittest, over these proved programs; words name some of its tests."""

    def body(check: Check) -> None:
        for name in programs:
            check.program(name)
        check.passed, check.failed = tally.count(sys.argv[1:])

    perform(body)
