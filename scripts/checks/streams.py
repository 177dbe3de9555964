#!/usr/bin/env python3
"""journal_list on adversarial streams, compared with an independent lister, and under bounds of memory.

The streams are some MiB of any bytes, only unknown headers, a header that promises 4 GiB, and frames of all types with
any payload, at v9 unknown ones too. The proved program reads each in chunks of several sizes, under a bound of address
space. The listing has to be that of list_stream.py, which knows the rule of items and nothing of the library. The
streams are the same in each run.
"""
from __future__ import annotations

import collections.abc
import pathlib

import checks
import list_stream
import write_stream

MEBIBYTE = 1 << 20

# The sizes of chunks, the bytes that a read asks for at most.
SIZES = (7, 4096, 65536)

# The random bytes of this seed begin with two unknown headers.
TWO_UNKNOWN = 9463

# The least address space that a program may need where nothing comes, the most, and the steps between them, in KiB.
LEAST, MOST, STEP = 512, 65536, 64


def listing(stream: bytes, version: int) -> bytes:
    return "".join(f"{line}\n" for line in list_stream.listing(stream, version)).encode()


class Lister:
    """journal_list, which reads in chunks of a size, and the address space that it needs where nothing comes."""

    def __init__(self, check: checks.Check):
        self.check = check
        self.program = check.program("journal_list")
        bounds = range(LEAST, MOST + 1, STEP)
        self.need = next((bound for bound in bounds if self.listed(b"", 65536, 8, bound).status == 0), MOST)

    def listed(self, stream: bytes, size: int, version: int, kibibytes: int) -> checks.Run:
        words = [self.program, str(size), *(["v9"] if version == 9 else [])]
        return checks.run(words, stream, kibibytes=kibibytes)

    def in_chunks(
        self,
        name: str,
        stream: bytes,
        sizes: collections.abc.Iterable[int],
        held: int,
        times: int = 1,
        version: int = 8,
    ) -> list[str]:
        """Lists a stream in chunks of these sizes, and returns the lines. Beyond what the program needs for an empty
        stream it has a mebibyte and twice the most bytes that it has to hold, whatever the size of chunks, and as many
        again if they are joined."""
        expected = listing(stream, version)
        for size in sizes:
            bound = self.need + 1024 + held * (times + 1) // 1024
            ended = self.listed(stream, size, version, bound)
            is_right = ended.status == 0 and not ended.err and ended.out == expected
            shown = f"status {ended.status}\n{checks.beginning(ended.err)}{checks.difference(expected, ended.out)}"
            self.check.case(f"{name} in chunks of {size}, with {bound} KiB", is_right, shown)
        return expected.decode().splitlines()


def longest(lines: list[str], kind: str) -> int:
    """The most bytes of a message; the kind of line that has no such number is left out."""
    words = [line.split() for line in lines]
    return max(int(line[2 if line[0] == "skipped" else 1]) for line in words if line[0] != kind)


def main(check: checks.Check) -> None:
    lister = Lister(check)
    for file in sorted(pathlib.Path("examples/streams").glob("*.stdout")):
        stream = file.with_suffix("")
        check.same(f"the lister on {stream}", file.read_bytes(), listing(stream.read_bytes(), 8))

    # no item of it is more than a header
    stream = write_stream.stream("unknown", 2 * MEBIBYTE, 1)
    lister.in_chunks("unknown headers", stream, (1, *SIZES), held=8)

    # these two come to a header that promises more than there is, and no message of them is ever joined
    for length, sizes in ((MEBIBYTE // 8, (1, *SIZES)), (2 * MEBIBYTE, SIZES)):
        stream = write_stream.stream("random", length, TWO_UNKNOWN)
        lister.in_chunks(f"{length} random bytes", stream, sizes, held=length)
        stream = write_stream.stream("promise", length, 1)
        lister.in_chunks(f"{length} bytes after a promise of 4 GiB", stream, sizes, held=length)

    # the longest message is joined; each type has to be in the listing, and each kind of line
    stream = write_stream.stream("mixed", 2 * MEBIBYTE, 1)
    held = longest(list(list_stream.listing(stream, 8)), "unknown")
    lines = lister.in_chunks("mixed frames", stream, (1, *SIZES), held, times=2)
    kinds = {line.split("(")[0].split()[0] for line in lines} | {"ack" for line in lines if line.endswith(" ack")}
    expected = {*list_stream.type_names().values(), "CustomEntry", "ack", "rest", "unknown"}
    check.same("the types in mixed frames", sorted(expected), sorted(kinds))

    # at v9 unknown messages are skipped with their payloads, and a promise of an unknown one is waited for
    stream = write_stream.stream("skipped", 2 * MEBIBYTE, 2)
    held = longest(list(list_stream.listing(stream, 9)), "unknown")
    lines = lister.in_chunks("frames and unknown messages", stream, (1, *SIZES), held, times=2, version=9)
    kinds = {line.split()[0] for line in lines}
    check.case("skipped messages among them", "skipped" in kinds and "unknown" not in kinds)
    stream = write_stream.stream("unknown", MEBIBYTE // 8, 1)
    lister.in_chunks("unknown headers at v9", stream, (1, *SIZES), held=len(stream), version=9)


if __name__ == "__main__":
    checks.perform(main)
