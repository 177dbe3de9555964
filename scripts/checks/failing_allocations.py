"""Runs a command once for each of its allocations, with that one failing, and at last with none.

The command has tests/c/refuse.c, by LD_PRELOAD or linked into it. failing_allocations.py PROGRAM runs a program so with
the name of each test that is a line of the standard input; it has to succeed.
"""
from __future__ import annotations

import collections.abc
import concurrent.futures
import dataclasses
import os
import pathlib
import sys

import checks

# After so many wrong runs nothing more is tried.
WRONG = 5

# How many runs go at a time.
JOBS = 2


@dataclasses.dataclass
class Sweep:
    """What the runs of a command showed."""

    right: int = 0
    wrong: list[str] = dataclasses.field(default_factory=list)
    allocations: int = 0


# Whether a run was right; the second argument is whether an allocation failed.
IsRight = collections.abc.Callable[[checks.Run, bool], bool]


def sweep(words: list[str], given: bytes, is_right: IsRight, first: int, counted: pathlib.Path) -> Sweep:
    """Runs the command with each second allocation failing, from this one on, until none fails. The number of its
    allocations goes to the file that is its descriptor 3."""
    found = Sweep()
    number = first
    is_failing = True
    while is_failing and len(found.wrong) < WRONG:
        env = {**os.environ, "REFUSE": str(number)}
        run = checks.run(["sh", "-c", 'exec 3> "$0"; exec "$@"', counted, *words], given, env=env)
        found.allocations = int(counted.read_text() or 0)
        is_failing = found.allocations >= number
        if not is_right(run, is_failing):
            found.wrong.append(f"{f'allocation {number}' if is_failing else 'no allocation'} failing: {run}")
        elif is_failing:
            found.right += 1
        number += JOBS
    return found


def each_fails(check: checks.Check, name: str, words: list[str], given: bytes, is_right: IsRight) -> None:
    """Runs a command with each of its allocations failing. Each failed allocation is a case."""
    with concurrent.futures.ThreadPoolExecutor(JOBS) as pool:
        firsts = range(1, JOBS + 1)
        sweeps = [pool.submit(sweep, words, given, is_right, first, check.work / str(first)) for first in firsts]
    found = [each.result() for each in sweeps]
    right = sum(each.right for each in found)
    allocations = max(each.allocations for each in found)
    check.passed += right
    for each in found:
        for wrong in each.wrong:
            check.case(f"{name}: {wrong}", False)
    print(f"{name}: {right} of {allocations} allocations failed in turn")
    if allocations == 0:
        check.case(f"{name}: no allocation is seen", False)


def main(check: checks.Check) -> None:
    for test in sys.stdin.read().split():
        each_fails(check, test, [sys.argv[1], test], b"", lambda run, is_failing: run.status == 0)


if __name__ == "__main__":
    checks.perform(main)
