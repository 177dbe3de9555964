#!/usr/bin/env python3
"""scripts/check.sh [--jobs N] [--minutes N] [NAME..|all|before_release]

Runs the checks that are named, each a file of scripts/checks/; with 'all' those of the gate, as scripts/test.sh does
after the proofs; with 'before_release' those that only a release needs, as scripts/releasing.sh does; with no name it
lists them. Those of the programs and of the library for C take what 'rt ci' or 'rt run' has proved and built, and say
'not run' where there is none.

N checks run side by side, by default as many as there are processors, and at most four. What a check prints is shown
when it has ended, and after it its CPU time. One that has not ended within N minutes, by default 60, or 120 of those
before a release, is ended with all that it runs, and has failed. The last line is 'N passed, M failed', of all.
"""
from __future__ import annotations

import argparse
import concurrent.futures
import contextlib
import dataclasses
import os
import pathlib
import re
import signal
import subprocess
import sys
import tempfile
import threading
import time
import typing

ROOT = pathlib.Path(__file__).resolve().parent.parent
FOLDER = pathlib.Path("scripts/checks")

# Those of the gate, in the order in which they begin: first what takes seconds, then what takes longest.
ALL = (
    "layout planted table calls pages words description generated prost tests install reference run list streams inputs"
    " show describe get explain redact schema renumber diff dump make shown failures journal terminal waiting wireshark"
    " wasm view sweep conformance node rust python c go ruby package files soak json refusals"
).split()
# Those that only a release needs: the second takes what the first builds.
BEFORE_RELEASE = ["arm64", "release"]

# A check takes up to 4 GB of memory while it builds.
MOST_JOBS = 4

# How many minutes of wall time a check has, and one that only a release needs. Some take 7 and 20 minutes of CPU time,
# on other machines twice as much, and share their processors.
MINUTES = 60
MINUTES_BEFORE_RELEASE = 120

# How many seconds a check that is ended has to remove its files, and then what it has run, to end by itself.
SECONDS_TO_END = 60

COUNTS = re.compile(r"^(\d+) passed, (\d+) failed$", re.MULTILINE)
NOT_RUN = re.compile(r": not (run|made), since ")


@dataclasses.dataclass(frozen=True)
class Ended:
    """A check that has ended."""

    name: str
    command: str
    text: str
    status: int
    seconds: float
    # within which it did not end by itself
    minutes: float | None

    def counts(self) -> tuple[int, int]:
        """How many cases passed and failed, by the last line of its kind; a check that says neither has failed."""
        found = COUNTS.findall(self.text)
        passed, failed = map(int, found[-1]) if found else (0, 0)
        return passed, failed + (self.complaint() is not None)

    def complaint(self) -> str | None:
        """Why it has failed, where it does not count that itself."""
        if self.minutes is not None:
            return f"{self.name} did not end within {self.minutes:g} minutes"
        found = COUNTS.findall(self.text)
        if not found or (self.status != 0 and found[-1][1] == "0"):
            return f"{self.command}, status {self.status}"
        if found[-1] == ("0", "0") and not NOT_RUN.search(self.text):
            return f"{self.command} counts nothing, and does not say what is not run"
        return None


def file_of(name: str) -> pathlib.Path:
    """The file of a check, which is Python, or shell that finds what its Python takes."""
    shell = FOLDER / f"{name}.sh"
    return shell if (ROOT / shell).exists() else FOLDER / f"{name}.py"


def shows(name: str) -> str:
    """What a check shows, by the second line of its file."""
    return re.sub(r'^("""|# )', "", (ROOT / file_of(name)).read_text(encoding="utf-8").splitlines()[1])


def send(group: int, number: signal.Signals) -> None:
    """Sends a signal to a process group, if there is still anything in it."""
    with contextlib.suppress(ProcessLookupError):
        os.killpg(group, number)


@dataclasses.dataclass(eq=False)
class Running:
    """A check that runs: its process group, until when it may, and whether it is ended since it ran longer."""

    group: int
    until: float
    is_late: bool = False


class Checks:
    """Checks that run, each in a process group of its own, and for so many minutes, where that is not None."""

    def __init__(self, minutes: float | None) -> None:
        self.minutes = minutes
        self.running: set[Running] = set()
        self.has_ended = False
        # no check begins while they are ended, and none after that
        self.lock = threading.Lock()

    def perform(self, name: str) -> Ended:
        """Runs a check to its end."""
        file = str(file_of(name))
        # what it has printed is there when it is ended, too
        command = ["sh", file] if file.endswith(".sh") else ["python3", "-Bu", file]
        minutes = self.minutes or (MINUTES_BEFORE_RELEASE if name in BEFORE_RELEASE else MINUTES)
        with tempfile.TemporaryFile() as output:
            how = {"stdin": subprocess.DEVNULL, "stdout": output, "stderr": subprocess.STDOUT}
            with self.lock:
                if self.has_ended:
                    raise concurrent.futures.CancelledError
                process = subprocess.Popen(command, cwd=ROOT, start_new_session=True, **how)
                one = Running(process.pid, time.monotonic() + 60 * minutes)
                self.running.add(one)
            _, status, usage = os.wait4(process.pid, 0)
            self.running.discard(one)
            if one.is_late:
                # what it has begun ends too, or goes on
                time.sleep(SECONDS_TO_END)
                send(one.group, signal.SIGKILL)
            process.returncode = os.waitstatus_to_exitcode(status)
            output.seek(0)
            text = output.read().decode("utf-8", "backslashreplace")
            if text and not text.endswith("\n"):
                # it was ended within a line
                text += "\n"
        seconds = usage.ru_utime + usage.ru_stime
        return Ended(name, " ".join(command), text, process.returncode, seconds, minutes if one.is_late else None)

    def end_late(self) -> None:
        """Ends what has run for too long, and kills what goes on after that."""
        now = time.monotonic()
        for one in list(self.running):
            if one.is_late and now >= one.until + SECONDS_TO_END:
                send(one.group, signal.SIGKILL)
            elif now >= one.until and not one.is_late:
                one.is_late = True
                send(one.group, signal.SIGTERM)

    def end(self) -> None:
        """Ends what runs."""
        with self.lock:
            self.has_ended = True
        for one in list(self.running):
            send(one.group, signal.SIGTERM)


def perform_all(names: list[str], jobs: int, minutes: float | None = None) -> int:
    """Runs checks side by side, shows each when it has ended, and returns the status."""
    checks = Checks(minutes)
    passed = failed = 0
    executor = concurrent.futures.ThreadPoolExecutor(jobs)
    try:
        waiting = {executor.submit(checks.perform, name) for name in names}
        while waiting:
            # a second at most, since a signal that comes just before a wait does not end that
            done, waiting = concurrent.futures.wait(waiting, 1, concurrent.futures.FIRST_COMPLETED)
            checks.end_late()
            for future in done:
                ended = future.result()
                print(f"{ended.text}{ended.command}: {ended.seconds:.0f} s of CPU time", flush=True)
                if ended.complaint():
                    print(f"failed: {ended.complaint()}", flush=True)
                counts = ended.counts()
                passed += counts[0]
                failed += counts[1]
    finally:
        executor.shutdown(wait=False, cancel_futures=True)
        checks.end()
    print(f"{passed} passed, {failed} failed")
    return 1 if failed else 0


class Parser(argparse.ArgumentParser):
    def error(self, message: str) -> typing.NoReturn:
        print(f"check.sh: {message}", file=sys.stderr)
        sys.exit(2)


def main(words: list[str]) -> int:
    for number, status in ((signal.SIGINT, 130), (signal.SIGTERM, 143), (signal.SIGHUP, 143)):
        # what is ignored stays so, as nohup has it
        if signal.getsignal(number) != signal.SIG_IGN:
            signal.signal(number, lambda *_, status=status: sys.exit(status))
    parser = Parser(prog="check.sh", add_help=False, allow_abbrev=False)
    parser.add_argument("--help", action="store_true")
    parser.add_argument("--jobs", type=int, default=min(len(os.sched_getaffinity(0)), MOST_JOBS))
    parser.add_argument("--minutes", type=int)
    parser.add_argument("names", nargs="*")
    arguments = parser.parse_args(words)
    if arguments.help:
        print(__doc__, end="")
        return 0
    if arguments.jobs < 1:
        parser.error("--jobs takes a number from 1")
    if arguments.minutes is not None and arguments.minutes < 1:
        parser.error("--minutes takes a number from 1")
    groups = {"all": ALL, "before_release": BEFORE_RELEASE}
    names = [name for word in arguments.names for name in groups.get(word, [word])]
    if not names:
        for name in ALL + BEFORE_RELEASE:
            print(f"{name:<12} {shows(name)}")
        return 0
    for name in names:
        if name not in ALL + BEFORE_RELEASE:
            parser.error(f"there is no check '{name}'; without a name it lists them")
    # what a release needs is in order
    return perform_all(names, 1 if "before_release" in arguments.names else arguments.jobs, arguments.minutes)


if __name__ == "__main__":
    sys.exit(main(sys.argv[1:]))
