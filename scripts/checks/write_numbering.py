#!/usr/bin/env python3
"""write_numbering.py FOLDER: writes a descriptor set, set.binpb, and a stream at its field numbers, theirs.

The set is that of a file in which a value and the command that sets a state have other numbers than in the protocol,
and the value a field that only it has. It is written without protoc.
"""
import pathlib
import sys

# The types of fields in descriptors.
STRING, MESSAGE, BYTES = 9, 11, 12

MESSAGES = {
    "Value": (("content_type", 2, STRING), ("content", 14, BYTES)),
    "SetStateCommandMessage": (("key", 3, BYTES), ("name", 12, STRING), ("value", 30, MESSAGE, "Value")),
}

# The state a is set to 1, with the only field that the protocol has not.
THEIRS = bytes.fromhex("040300000000000f" "1a0161" "62016e" "f20106" "120174" "720131")


def block(number, *parts):
    """A record of a length, which is below 128."""
    content = b"".join(parts)
    return bytes([number << 3 | 2, len(content)]) + content


def field(name, number, kind, message=None):
    named = block(6, b".", message.encode()) if message else b""
    first, *others = name.split("_")
    json_name = "".join([first, *map(str.capitalize, others)])
    numbers = bytes([0x18, number, 0x20, 1, 0x28, kind])
    return block(2, block(1, name.encode()), numbers, named, block(10, json_name.encode()))


def descriptor_set():
    messages = (
        block(4, block(1, name.encode()), *(field(*row) for row in fields)) for name, fields in MESSAGES.items()
    )
    content = b"".join([block(1, b"their.proto"), *messages, block(12, b"proto3")])
    # that of the file is not below 128
    return bytes([10, len(content) % 128 + 128, len(content) // 128]) + content


def main(folder):
    pathlib.Path(folder, "set.binpb").write_bytes(descriptor_set())
    pathlib.Path(folder, "theirs").write_bytes(THEIRS)


if __name__ == "__main__":
    main(sys.argv[1])
