"""What the tests share: files of the repository, codes of types, and functions of the library that are replaced."""

import contextlib
import ctypes
import gc
import os
import pathlib
import re
from unittest import mock

from pendratsoa import _fast, _library

TOP = pathlib.Path(__file__).resolve().parents[2]
HEADER = (TOP / "include/pendratsoa.h").read_text()
RECORDED = (TOP / "examples/streams/recorded").read_bytes()
REPLAYED = (TOP / "examples/streams/replayed_other_payload").read_bytes()

SUSPENSION = 0x0001
PROPOSE_RUN_COMPLETION = 0x0005
INPUT_COMMAND = 0x0400
SET_STATE_COMMAND = 0x0403
CALL_COMMAND = 0x040D
CALL_COMPLETION = 0x800D
SIGNAL_NOTIFICATION = 0xFBFF
CUSTOM_ENTRY = 0xFC01

# an input with the value "input", eight bytes of code 8, and a message of 20 bytes that is not all there
INPUT = bytes.fromhex("040000000000000972070a05696e707574")
UNKNOWN_WORD = 0x0008_0000_0000_0000
# the length of its payload
INPUT_LENGTH = len(INPUT) - 8
STREAM = INPUT + UNKNOWN_WORD.to_bytes(8, "big") + bytes.fromhex("0400000000000014")


def types():
    """The code and the name of each named type."""
    for row in (TOP / "proto/types.txt").read_text().splitlines():
        if not row.startswith("#"):
            code, name = row.split()
            yield int(code, 16), name


def defined(pattern, base=10):
    """The constants of the header whose values look so, by their names without JOURNAL_."""
    found = re.findall(rf"^#define JOURNAL_(\w+) \(?({pattern})\)?(?: |$)", HEADER, re.M)
    return {name: int(number, base) for name, number in found}


def resident():
    """How many bytes of memory the process holds. The pages of files are none of them: the system drops them and reads
    them again when others need memory."""
    gc.collect()
    _, all_, of_files, *_ = map(int, pathlib.Path("/proc/self/statm").read_text().split())
    return (all_ - of_files) * os.sysconf("SC_PAGE_SIZE")


def least_growth(work, limit):
    """How many bytes more the process holds after this work: the least of several times, up to one below the limit.
    An allocator takes more pages now and then, the system joins a few to a huge one, and what is never freed grows each
    time."""
    grown = []
    before = resident()
    while len(grown) < 6 and min(grown, default=limit) >= limit:
        work()
        after = resident()
        grown.append(after - before)
        before = after
    return min(grown)


@contextlib.contextmanager
def replaced(function, with_what):
    """The library with another function in the place of this one, for the compiled module too. It is given numbers: of
    a slice the address, which is None if it has none, and the length."""
    with_what = ctypes.CFUNCTYPE(ctypes.c_int64, *_library.PARAMETERS[function])(with_what)
    try:
        with mock.patch.object(_library.library, function, with_what):
            _fast.use()
            yield
    finally:
        _fast.use()


def returning(number, *numbers):
    """A function that writes numbers into its slice of as many 64-bit numbers, and returns a number."""

    def function(*parameters):
        if numbers:
            # the slice of numbers is the last one that has this length
            at = max(at for at, length in enumerate(parameters) if length == len(numbers))
            (ctypes.c_uint64 * len(numbers)).from_address(parameters[at - 1])[:] = numbers
        return number

    return function
