#!/usr/bin/env python3
"""Lowers a WebAssembly module with a 64-bit memory to one with a 32-bit memory: lower.py IN.wasm OUT.wasm

Each address becomes its low 32 bits, only where memory is read or written. All else stays as it is, numbers of 64 bits
too. It stops at an instruction that it does not know, and at a module that imports something.

Every address has to be below 2^32: the heap ends at 2 GiB, and the checks of the stack stop before one is negative.
"""
from __future__ import annotations

import pathlib
import sys

I32, I64, F32, F64, V128 = 0x7F, 0x7E, 0x7D, 0x7C, 0x7B
WRAP, EXTEND_U, EXTEND_S = b"\xa7", b"\xad", b"\xac"
GET, SET = b"\x20", b"\x21"

# What a plain store has above its address on the stack of values.
STORES = {0x36: I32, 0x37: I64, 0x38: F32, 0x39: F64, 0x3A: I32, 0x3B: I32, 0x3C: I64, 0x3D: I64, 0x3E: I64}

LOADS = range(0x28, 0x36)
MEMORY_SIZE, MEMORY_GROW = 0x3F, 0x40
BLOCKS = (0x02, 0x03, 0x04)
BRANCHES, CALL, BRANCH_TABLE, CALL_INDIRECT = (0x0C, 0x0D), 0x10, 0x0E, 0x11
VARIABLES = range(0x20, 0x25)
CONSTANTS = {0x41: None, 0x42: None, 0x43: 4, 0x44: 8}
SELECT_TYPED = 0x1C
MORE, VECTORS = 0xFC, 0xFD
MEMORY_COPY, MEMORY_FILL, LAST_SATURATING = 10, 11, 7
PLAIN = (0x00, 0x01, 0x05, 0x0B, 0x0F, 0x1A, 0x1B, *range(0x45, 0xC5))

CUSTOM, TYPES, IMPORTS, FUNCTIONS, TABLES, MEMORIES, ELEMENTS, CODE, DATA = 0, 1, 2, 3, 4, 5, 9, 10, 11


def refuse(why: str) -> None:
    sys.exit(f"lower.py: {why}")


class Reader:
    """Bytes that are read from their front."""

    def __init__(self, data: bytes, at: int = 0):
        self.data, self.at = data, at

    @property
    def is_done(self) -> bool:
        return self.at >= len(self.data)

    def byte(self) -> int:
        self.at += 1
        return self.data[self.at - 1]

    def unsigned(self) -> int:
        value = shift = 0
        while True:
            byte = self.byte()
            value |= (byte & 0x7F) << shift
            shift += 7
            if byte < 0x80:
                return value

    def signed(self) -> int:
        value = shift = 0
        while True:
            byte = self.byte()
            value |= (byte & 0x7F) << shift
            shift += 7
            if byte < 0x80:
                return value - (1 << shift) if byte & 0x40 else value

    def take(self, size: int) -> bytes:
        self.at += size
        return self.data[self.at - size:self.at]


def unsigned(value: int) -> bytes:
    out = bytearray()
    while True:
        out.append(value & 0x7F | (0x80 if value > 0x7F else 0))
        value >>= 7
        if not value:
            return bytes(out)


def signed(value: int) -> bytes:
    out = bytearray()
    while True:
        byte, value = value & 0x7F, value >> 7
        done = (value == 0 and not byte & 0x40) or (value == -1 and byte & 0x40)
        out.append(byte | (0 if done else 0x80))
        if done:
            return bytes(out)


def sized(data: bytes) -> bytes:
    return unsigned(len(data)) + data


class Code:
    """The body of a function, written anew. Values that are above an address are kept in locals meanwhile."""

    def __init__(self, body: bytes, parameters: int):
        self.reader = Reader(body)
        self.groups = [(self.reader.unsigned(), self.reader.byte()) for _ in range(self.reader.unsigned())]
        self.first = parameters + sum(count for count, _ in self.groups)
        self.kept: list[tuple[int, int]] = []
        self.out = bytearray()

    def local(self, kind: int, place: int = 0) -> bytes:
        """The index of a local that is only used here."""
        if (kind, place) not in self.kept:
            self.kept.append((kind, place))
        return unsigned(self.first + self.kept.index((kind, place)))

    def place(self) -> bytes:
        """The alignment and the offset of an access."""
        align, offset = self.reader.unsigned(), self.reader.unsigned()
        if align >= 64 or offset >= 1 << 32:
            refuse("an offset of more than 32 bits, or a second memory")
        return unsigned(align) + unsigned(offset)

    def under(self, kind: int, instruction: bytes) -> None:
        """An instruction whose address is below one value."""
        kept = self.local(kind)
        self.out += SET + kept + WRAP + GET + kept + instruction

    def of_memory(self, operation: int, head: bytes) -> bool:
        """Writes an instruction that takes an address or a size of memory; whether it is one."""
        if operation in LOADS:
            self.out += WRAP + head + self.place()
        elif operation in STORES:
            self.under(STORES[operation], head + self.place())
        elif operation == MEMORY_SIZE:
            self.out += head + self.reader.take(1) + EXTEND_U
        elif operation == MEMORY_GROW:
            # -1 stays -1; a size in pages is never as large
            self.out += WRAP + head + self.reader.take(1) + EXTEND_S
        elif operation == CALL_INDIRECT:
            self.out += WRAP + head + unsigned(self.reader.unsigned()) + unsigned(self.reader.unsigned())
        else:
            return False
        return True

    def of_bulk(self, operation: int) -> bool:
        """The same of those that move more than a value: the length is above, and two or one addresses below it."""
        last, middle = self.local(I32, 0), self.local(I32, 1)
        wrapped = {MEMORY_COPY: WRAP, MEMORY_FILL: b""}.get(operation)
        if wrapped is None:
            return False
        self.out += WRAP + SET + last + wrapped + SET + middle + WRAP + GET + middle + GET + last
        self.out += bytes([MORE]) + unsigned(operation) + self.reader.take(2 if operation == MEMORY_COPY else 1)
        return True

    def of_vector(self, operation: int) -> bool:
        """The same of those for vectors."""
        head = bytes([VECTORS]) + unsigned(operation)
        if operation <= 10 or operation in (92, 93):
            self.out += WRAP + head + self.place()
        elif operation == 11:
            self.under(V128, head + self.place())
        elif 84 <= operation <= 91:
            self.under(V128, head + self.place() + self.reader.take(1))
        else:
            return False
        return True

    def skip(self, operation: int) -> None:
        """Reads what belongs to an instruction that stays as it is."""
        reader = self.reader
        if operation in BLOCKS:
            reader.signed()
        elif operation in BRANCHES or operation == CALL or operation in VARIABLES:
            reader.unsigned()
        elif operation == BRANCH_TABLE:
            for _ in range(reader.unsigned() + 1):
                reader.unsigned()
        elif operation in CONSTANTS:
            size = CONSTANTS[operation]
            reader.signed() if size is None else reader.take(size)
        elif operation == SELECT_TYPED:
            reader.take(reader.unsigned())
        elif operation not in PLAIN:
            refuse(f"the instruction {operation:#x}")

    def lowered(self) -> bytes:
        reader = self.reader
        while not reader.is_done:
            begin = reader.at
            operation = reader.byte()
            if operation == MORE:
                more = reader.unsigned()
                if more > LAST_SATURATING:
                    if not self.of_bulk(more):
                        refuse(f"the instruction {MORE:#x} {more}")
                    continue
            elif operation == VECTORS:
                more = reader.unsigned()
                if self.of_vector(more):
                    continue
                reader.take(16 if more in (12, 13) else 1 if 21 <= more <= 34 else 0)
            elif self.of_memory(operation, bytes([operation])):
                continue
            else:
                self.skip(operation)
            self.out += reader.data[begin:reader.at]
        groups = [*self.groups, *((1, kind) for kind, _ in self.kept)]
        locals_of = b"".join(unsigned(count) + bytes([kind]) for count, kind in groups)
        return unsigned(len(groups)) + locals_of + bytes(self.out)


def limits(reader: Reader) -> bytes:
    """The least and the most size of a memory or a table, whose addresses had 64 bits."""
    flags = reader.byte()
    if not flags & 4 or flags & 2:
        refuse("a memory or a table of another kind")
    least = unsigned(reader.unsigned())
    return bytes([flags & 1]) + least + (unsigned(reader.unsigned()) if flags & 1 else b"")


def placed(reader: Reader) -> bytes:
    """Where a segment is: a constant."""
    constant, value, end = reader.byte(), reader.signed(), reader.byte()
    if (constant, end) != (0x42, 0x0B):
        refuse("the place of a segment")
    return b"\x41" + signed(value - (1 << 32) if value >= 1 << 31 else value) + b"\x0b"


class Module:
    """A module, section by section."""

    def __init__(self) -> None:
        # how many parameters each type has, and the type of each function
        self.parameters: list[int] = []
        self.functions: list[int] = []

    def lowered(self, data: bytes) -> bytes:
        reader = Reader(data, 8)
        out = bytearray(data[:8])
        while not reader.is_done:
            number = reader.byte()
            body = self.section(number, Reader(reader.take(reader.unsigned())))
            if body is not None:
                out += bytes([number]) + sized(body)
        return bytes(out)

    def section(self, number: int, section: Reader) -> bytes | None:
        """A section anew, or none."""
        if number == CUSTOM:
            return None if section.take(section.unsigned()) == b"target_features" else section.data
        if number == TYPES:
            for _ in range(section.unsigned()):
                section.take(1)
                self.parameters.append(section.unsigned())
                section.take(self.parameters[-1])
                section.take(section.unsigned())
        elif number == IMPORTS and section.unsigned():
            refuse("an import")
        elif number == FUNCTIONS:
            self.functions = [section.unsigned() for _ in range(section.unsigned())]
        elif number == TABLES:
            return counted(section, lambda: section.take(1) + limits(section))
        elif number == MEMORIES:
            return counted(section, lambda: limits(section))
        elif number == ELEMENTS:
            return counted(section, lambda: self.element(section))
        elif number == CODE:
            kinds = iter(self.functions)
            return counted(section, lambda: self.code(section, next(kinds)))
        elif number == DATA:
            return counted(section, lambda: self.data(section))
        return section.data

    def element(self, section: Reader) -> bytes:
        if section.unsigned() != 0:
            refuse("a segment of a table")
        place = placed(section)
        indices = [unsigned(section.unsigned()) for _ in range(section.unsigned())]
        return b"\0" + place + unsigned(len(indices)) + b"".join(indices)

    def code(self, section: Reader, kind: int) -> bytes:
        return sized(Code(section.take(section.unsigned()), self.parameters[kind]).lowered())

    def data(self, section: Reader) -> bytes:
        if section.unsigned() != 0:
            refuse("a segment that is not placed")
        place = placed(section)
        return b"\0" + place + sized(section.take(section.unsigned()))


def counted(section: Reader, entry) -> bytes:
    """A count, and as many entries."""
    count = section.unsigned()
    return unsigned(count) + b"".join(entry() for _ in range(count))


def main() -> None:
    source, target = map(pathlib.Path, sys.argv[1:])
    target.write_bytes(Module().lowered(source.read_bytes()))


if __name__ == "__main__":
    main()
