"""The expected listing of a stream, by the rule of items and without the library: list_stream.py VERSION < STREAM

Eight bytes are a header: the code in the first two, bit 7 of the third requests an acknowledgement, the length in the
last four. A code without a name that is below 1024 is unknown, and its eight bytes are an item, but not at version 9.
Every other item has its length of bytes after the eight.
"""
from __future__ import annotations

import collections.abc
import pathlib
import sys

HEADER = 8

# The only type whose header can request an acknowledgement.
CAN_REQUEST = 5

# What is below it and has no name is unknown, and from it on a type of a user's own.
CUSTOM = 1024


def type_names() -> dict[int, str]:
    """The types that the protocol names, by their codes."""
    lines = (pathlib.Path(__file__).resolve().parents[2] / "proto" / "types.txt").read_text().splitlines()
    return {int(line.split()[0], 16): line.split()[1] for line in lines if not line.startswith("#")}


def listing(stream: bytes, version: int) -> collections.abc.Iterator[str]:
    """The lines of a listing."""
    names = type_names()
    at = 0
    while len(stream) - at >= HEADER:
        code = int.from_bytes(stream[at:at + 2], "big")
        size = int.from_bytes(stream[at + 4:at + HEADER], "big")
        is_unknown = code not in names and code < CUSTOM
        if is_unknown and version != 9:
            yield f"unknown {code:#x}"
            at += HEADER
            continue
        if size > len(stream) - at - HEADER:
            break
        name = f"skipped {code:#x}" if is_unknown else names.get(code, f"CustomEntry({code})")
        is_requested = code == CAN_REQUEST and stream[at + 2] >= 128
        yield f"{name} {size}{' ack' if is_requested else ''}"
        at += HEADER + size
    yield f"rest {len(stream) - at}"


if __name__ == "__main__":
    print(*listing(sys.stdin.buffer.read(), int(sys.argv[1])), sep="\n")
