#!/usr/bin/env python3
"""journal explain on streams: which bytes each line has, what it says of them, and where payloads are malformed.

Payloads that are explained without a schema are compared with what `protoc --decode_raw` prints, if protoc is there.
"""
from __future__ import annotations

import collections.abc
import re
import subprocess
import typing

import checks
from programs import Program, go_to_streams

# Where the text of a line begins, without an indentation.
COLUMN = 39
FIELD = re.compile(r"(?P<indentation> *)field (?P<number>\d+)")
RAW_FIELD = re.compile(r"(?P<indentation> *)(?P<number>\d+)(:| \{)")


class Piece(typing.NamedTuple):
    """What is said of a number of bytes, in an indented line."""

    size: int
    depth: int
    said: str


def frame(code: int, payload: bytes) -> bytes:
    """A message."""
    return code.to_bytes(2, "big") + bytes(2) + len(payload).to_bytes(4, "big") + payload


def length(size: int) -> bytes:
    """A length below 16,384, in the fewest bytes."""
    return bytes((size,)) if size < 128 else bytes((size % 128 + 128, size // 128))


def deep(levels: int) -> bytes:
    """The payload of a suspension whose futures are nested so deep."""
    payload = b""
    for _ in range(levels):
        payload = b"\x22" + length(len(payload)) + payload
    return payload


def lines_of(offset: int, data: bytes, pieces: collections.abc.Iterable[Piece]) -> str:
    """The lines of bytes that begin at an offset. Each piece has the bytes after those of the one before."""
    text, at = "", 0
    for size, depth, said in pieces:
        part = data[at:at + size]
        digits = "".join(f"{byte:02x} " for byte in part[:8]) + (".." if size > 8 else "")
        text += f"{offset + at:>10}  {digits:<27}{'  ' * depth}{said}\n"
        at += size
    assert at == len(data), f"the pieces have {at} bytes of {len(data)}"
    return text


def rest(size: int) -> Piece:
    """The bytes after a fault."""
    return Piece(size, 0, "not explained")


STATE, SUSPENSION, CUSTOM = 0x0403, 0x0001, 0xFC00
NAMES = {STATE: "SetStateCommand", SUSPENSION: "Suspension", CUSTOM: "CustomEntry(64512)"}
KEY = Piece(2, 0, "field 1 key, wire type 2, length 3: bytes")

# The code of a message, its payload, and what is said of its bytes. A piece without bytes is a fault.
MESSAGES: tuple[tuple[int, bytes, tuple[Piece, ...]], ...] = (
    (STATE, b"", ()),
    (STATE, b"\x0a\x03abc", (KEY, Piece(3, 1, '"abc"'))),
    # varints, and keys that are none
    (STATE, b"\x0a", (Piece(0, 1, "malformed: key: the varint goes on after the last byte"), rest(1))),
    (STATE, b"\x8a", (Piece(0, 0, "malformed: the varint goes on after the last byte"), rest(1))),
    (STATE, b"\xff" * 10, (Piece(0, 0, "malformed: the varint has more than 64 bits"), rest(10))),
    (STATE, b"\xff\xff\xff\xff\x1f\x01", (Piece(0, 0, "malformed: the key has more than 32 bits"), rest(6))),
    (STATE, b"\x00\x01", (Piece(0, 0, "malformed: the key has the field number 0"), rest(2))),
    (STATE, b"\x0a\x03abc\x0e", (KEY, Piece(3, 1, '"abc"'), Piece(0, 1, "malformed: key: there is no wire type 6"),
                                 rest(1))),
    # values that are cut, and one in a nested message
    (STATE, b"\x0a\x05ab", (Piece(0, 1, "malformed: key: the value has 5 bytes, and fewer are left"), rest(4))),
    (STATE, b"\x49abc", (Piece(0, 1, "malformed: 9: the value has 8 bytes, and fewer are left"), rest(4))),
    (STATE, b"\x1a\x04\x0a\x09ab\x62\x00", (
        Piece(2, 0, "field 3 value, wire type 2, length 4: a message"),
        Piece(0, 2, "malformed: value: content: the value has 9 bytes, and fewer are left"), rest(6))),
    # wire types that are not those of fields, and texts that are none
    (STATE, b"\x08\x01", (Piece(0, 1, "malformed: key: the field is bytes, which has wire type 2"), rest(2))),
    (STATE, b"\x62\x03a\xffb", (Piece(0, 1, "malformed: name: the text is not UTF-8"), rest(5))),
    # fields that the schema does not have: what can be read as a message, texts, bytes and groups
    (STATE, b"\x49abcdefgh\x4dabcd\x50\x96\x01", (
        Piece(9, 0, "field 9, wire type 1: 0x6867666564636261"), Piece(5, 0, "field 9, wire type 5: 0x64636261"),
        Piece(3, 0, "field 10, wire type 0: 150"))),
    (STATE, b"\x52\x03\x08\x96\x01\x5a\x03abc\x5a\x02\xff\xfe\x5a\x00", (
        Piece(2, 0, "field 10, wire type 2, length 3: read as a message"), Piece(3, 1, "field 1, wire type 0: 150"),
        Piece(2, 0, "field 11, wire type 2, length 3: a text"), Piece(3, 1, '"abc"'),
        Piece(2, 0, "field 11, wire type 2, length 2: bytes"), Piece(2, 1, '"\ufffd\ufffd"'),
        Piece(2, 0, "field 11, wire type 2, length 0: a text"))),
    (STATE, b"\x4b\x08\x01\x53\x10\x02\x54\x4c", (
        Piece(1, 0, "field 9, wire type 3: a group"), Piece(2, 1, "field 1, wire type 0: 1"),
        Piece(1, 1, "field 10, wire type 3: a group"), Piece(2, 2, "field 2, wire type 0: 2"),
        Piece(1, 1, "field 10, wire type 4: its end"), Piece(1, 0, "field 9, wire type 4: its end"))),
    (STATE, b"\x4b\x08\x01\x54", (Piece(0, 1, "malformed: 9: group 9 does not end, or is malformed"), rest(4))),
    (STATE, b"\x4c", (Piece(0, 1, "malformed: 9: group 9 ends and did not begin"), rest(1))),
    # numbers of a packed field, and a cut one at its end
    (SUSPENSION, b"\x22\x07\x0a\x03\x01\x96\x01\x08\x05", (
        Piece(2, 0, "field 4 awaitingOn, wire type 2, length 7: a message"),
        Piece(2, 1, "field 1 waitingCompletions, wire type 2, length 3: numbers"), Piece(1, 2, "1"), Piece(2, 2, "150"),
        Piece(2, 1, "field 1 waitingCompletions, wire type 0: 5"))),
    (SUSPENSION, b"\x22\x04\x0a\x02\x01\x96", (
        Piece(2, 0, "field 4 awaitingOn, wire type 2, length 4: a message"),
        Piece(2, 1, "field 1 waitingCompletions, wire type 2, length 2: numbers"), Piece(1, 2, "1"),
        Piece(0, 2, "malformed: awaitingOn: waitingCompletions: the varint goes on after the last byte"), rest(1))),
    # a long value, and one that is escaped
    (STATE, b"\x0a\x3c" + b"x" * 60, (Piece(2, 0, "field 1 key, wire type 2, length 60: bytes"),
                                      Piece(60, 1, f'"{"x" * 40}"..'))),
    (STATE, b"\x0a\x03\x1b[m", (KEY, Piece(3, 1, '"\\u{1b}[m"'))),
    # payloads without a schema
    (CUSTOM, b"opaque", (Piece(6, 0, '"opaque"'),)),
    (CUSTOM, b"\x08\x01", (Piece(2, 0, "field 1, wire type 0: 1"),)),
)


def header(code: int, size: int) -> Piece:
    return Piece(8, 0, f"type 0x{code:x}, length {size}")


def explained() -> tuple[bytes, list[int], list[str]]:
    """The stream of the messages, the offset of each, and its lines."""
    stream, offsets, lines = b"", [], []
    for code, payload, pieces in MESSAGES:
        item = frame(code, payload)
        offsets.append(len(stream))
        lines.append(NAMES[code] + "\n" + lines_of(len(stream), item, (header(code, len(payload)), *pieces)))
        stream += item
    return stream, offsets, lines


def raw_fields(text: str, pattern: re.Pattern[str], skipped: int) -> list[tuple[int, int]]:
    """The fields of lines, each with its depth; the first columns of each line are skipped."""
    found = (pattern.match(line[skipped:]) for line in text.splitlines() if "wire type 4" not in line)
    return [(len(each["indentation"]) // 2, int(each["number"])) for each in found if each]


def main(check: checks.Check) -> None:
    explain = Program(check, "journal")
    stream, offsets, lines = explained()
    deepest = frame(SUSPENSION, deep(101))
    ack = bytes((0, 5, 0x80, 0, 0, 0, 0, 2)) + b"\x08\x01"
    part = frame(STATE, b"\x0a\x03abc")[:-2]
    made = {"made": stream, "deep": deepest, "ack": ack, "part": part, "cut": frame(0x0003, b"") + stream[:3]}
    go_to_streams(check, made)
    explain.ends("explain made", "".join(lines))
    for index in (0, 1, len(lines) - 1):
        explain.ends(f"explain --at {offsets[index] + 7} made", lines[index])
    said = f"journal explain: no byte at {len(stream)}: the stream has {len(stream)}\n"
    explain.ends(f"explain --at {len(stream)} made", "", said, 1)
    ended = explain.run("explain deep").out.decode()
    check.case("a payload that is nested too deep", ended.count("malformed: ") == 1
               and ": messages are nested more than 100 levels deep\n" in ended, ended[-400:])
    explain.ends("explain ack", "ProposeRunCompletion\n" + lines_of(0, ack, (
        Piece(8, 0, "type 0x5, flags 0x8000, acknowledgement requested, length 2"),
        Piece(2, 0, "field 1 resultCompletionId, wire type 0: 1"))))
    cut = "End\n" + lines_of(0, bytes((0, 3, 0, 0, 0, 0, 0, 0)), (header(3, 0),))
    explain.ends("explain cut", cut + "rest\n" + lines_of(8, stream[:3], (Piece(3, 0, "a part of a header"),)))
    explain.ends("explain part", "rest\n" + lines_of(0, part, (
        header(STATE, 5), Piece(0, 1, "malformed: key: the value has 3 bytes, and fewer are left"), rest(3))))
    too_long = "journal explain: SetStateCommand at offset 8: 5 bytes of payload, more than the limit of 4\n"
    explain.ends("explain --max-message 4 made", lines[0], too_long, 1)
    if not check.has("protoc", "payloads beside protoc"):
        return
    for index, (_, payload, _) in enumerate(MESSAGES):
        raw = subprocess.run(["protoc", "--decode_raw"], input=payload, capture_output=True)
        found = explain.run(f"explain --raw --at {offsets[index]} made").out.decode()
        if raw.returncode:
            check.case(f"--raw of item {index}, which is malformed", "malformed: " in found, found)
            continue
        wanted = raw_fields(raw.stdout.decode(), RAW_FIELD, 0)
        check.case(f"--raw of item {index}", raw_fields(found, FIELD, COLUMN) == wanted, f"{found}{raw.stdout!r}")


if __name__ == "__main__":
    checks.perform(main)
