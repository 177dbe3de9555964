"""Writes an adversarial stream, the same for the same kind, size and seed: write_stream.py KIND SIZE SEED

random: any bytes. unknown: only headers, whose codes are unknown. promise: a header that promises 4,294,967,295 bytes,
and any bytes after it. mixed: frames of all types and of custom ones with any payload, unknown headers between them,
and at the end a frame of which the last byte is missing. skipped: the same with unknown headers that have the payload
that they say. Ignored bits of headers are random. names: a call of a service whose name has 200 characters, and of a
handler whose name has SIZE.
"""
from __future__ import annotations

import random
import sys

from list_stream import CUSTOM, type_names

CODES = list(type_names())
ANY_LENGTH = (1 << 32) - 1


class Writer:
    def __init__(self, seed: int):
        self.random = random.Random(seed)

    def below(self, bound: int) -> int:
        return int(self.random.random() * bound)

    def header(self, code: int, length: int) -> bytes:
        """A header whose bits 32 to 47 are any."""
        return code.to_bytes(2, "big") + self.random.randbytes(2) + length.to_bytes(4, "big")

    def unknown_code(self) -> int:
        code = CODES[0]
        while code in CODES:
            code = self.below(CUSTOM)
        return code

    def unknown_header(self) -> bytes:
        return self.header(self.unknown_code(), self.below(ANY_LENGTH + 1))

    def any_length(self) -> int:
        """Most payloads are short, and one of 512 has more bytes than the longest chunk."""
        kind = self.below(512)
        if kind == 0:
            return 65536 + self.below(65536) * 2
        if kind < 16:
            return self.below(8192)
        if kind < 64:
            return 0
        return self.below(32 if kind < 256 else 200)

    def item(self, kind: str) -> bytes:
        """A frame of any type, or what has an unknown code."""
        pick = self.below(16)
        if pick == 0 and kind == "mixed":
            return self.unknown_header()
        if pick == 0:
            code = self.unknown_code()
        elif pick == 1:
            code = CUSTOM + self.below(65536 - CUSTOM)
        else:
            code = CODES[self.below(len(CODES))]
        length = self.any_length()
        return self.header(code, length) + self.random.randbytes(length)


def named(like: bytes, letter: bytes, count: int) -> bytes:
    """A record like one of a text of one letter, of so many characters."""
    length, rest = bytearray(), count
    while rest >= 128:
        length.append(rest % 128 + 128)
        rest //= 128
    length.append(rest)
    return like[:-2] + bytes(length) + letter * count


def names(size: int) -> bytes:
    """A call with long names."""
    payload = named(bytes.fromhex("0a0173"), b"a", 200) + named(bytes.fromhex("120168"), b"b", size)
    return bytes.fromhex("040d0000") + len(payload).to_bytes(4, "big") + payload


def stream(kind: str, size: int, seed: int) -> bytes:
    """A stream of at least this many bytes."""
    if kind == "names":
        return names(size)
    writer = Writer(seed)
    if kind == "random":
        return writer.random.randbytes(size)
    if kind == "promise":
        header = writer.header(CUSTOM, ANY_LENGTH)
        return header + writer.random.randbytes(size - len(header))
    make = {"unknown": writer.unknown_header, "mixed": lambda: writer.item(kind), "skipped": lambda: writer.item(kind)}
    made = bytearray()
    while len(made) < size:
        made += make[kind]()
    if kind != "unknown":
        made += writer.header(CUSTOM, 300) + writer.random.randbytes(299)
    return bytes(made)


if __name__ == "__main__":
    sys.stdout.buffer.write(stream(sys.argv[1], int(sys.argv[2]), int(sys.argv[3])))
