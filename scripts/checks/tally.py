"""The tally of tests that are Python's unittest, and how a check ends by a signal."""
from __future__ import annotations

import collections.abc
import signal
import sys
import unittest


def end_by_exception() -> None:
    """Has signals end a check as Ctrl-C does: by an exception, at which temporary folders are removed, and which passes
    through the tests of unittest."""
    for number in (signal.SIGHUP, signal.SIGTERM):
        # what is ignored stays so, as nohup has it
        if signal.getsignal(number) != signal.SIG_IGN:
            signal.signal(number, signal.default_int_handler)


def count(arguments: collections.abc.Sequence[str] = ()) -> tuple[int, int]:
    """Runs the tests of the program, all or those that the arguments name: how many passed and failed."""
    end_by_exception()
    runner = unittest.TextTestRunner(stream=sys.stdout)
    result = unittest.main(module="__main__", argv=[sys.argv[0], *arguments], exit=False, testRunner=runner).result
    wrong = {getattr(test, "test_case", test) for test, _ in result.failures + result.errors}
    return result.testsRun - len(wrong) - len(result.skipped), len(wrong)


def tell(arguments: collections.abc.Sequence[str] = ()) -> None:
    """Runs them, and prints the last line of a check."""
    print("{} passed, {} failed".format(*count(arguments)))
