#!/usr/bin/env python3
"""Streams as text, in hexadecimal digits and in base64, by each subcommand of journal that reads a stream.

A text has to do what the bytes do that it means: of each encoding, with blanks anywhere, and however it is split into
reads. What may not come in a text ends the reading, and the offset of it is reported.
"""
from __future__ import annotations

import base64
import random
import re

import checks
from programs import SET, STREAMS, Program, go_to_streams

NAMES = ("recorded", "replay", "cut_short", "unknown_type")

# an End, in either encoding
HEX = b"0003000000000000"
BASE64 = b"AAMAAAAAAAA="

# The bytes of a payload that takes several reads.
LONG = 200_003

# The bytes that are read at a time.
READ = 65_536

# The encoding, a text, and what is wrong with it. The items before that are listed: whether there is the End.
FAULTS = (
    ("hex", HEX + b" g", True, "offset 17: this character is not a digit"),
    ("hex", HEX + b"\n0", True, "offset 18: the text ends within a byte"),
    ("hex", b"\\", False, "offset 1: the text ends within a byte"),
    ("hex", b"\\ x" + HEX, False, "offset 1: this character is not a digit"),
    ("hex", b"\\0" + HEX, False, "offset 1: this character is not a digit"),
    ("hex", b"0x0x", False, "offset 3: this character is not a digit"),
    ("hex", b"x" + HEX, False, "offset 0: this character is not a digit"),
    ("hex", b"00" + b"\\x" + HEX, False, "offset 2: this character is not a digit"),
    ("hex", b"0", False, "offset 1: the text ends within a byte"),
    ("hex", BASE64, False, "offset 2: this character is not a digit"),
    ("base64", BASE64 + b"A", True, "offset 12: this character is not a digit"),
    ("base64", BASE64 + b"=", True, "offset 12: this character is not a digit"),
    ("base64", b"AAMAAAAAAAB=", True, "offset 11: this character is not a digit"),
    ("base64", b"AAMAAAAAAAB", True, "offset 11: the text ends within a byte"),
    ("base64", b"AAMAAAAAAAAA\nA", True, "offset 14: the text ends within a byte"),
    ("base64", b"A===", False, "offset 1: this character is not a digit"),
    ("base64", b"AA=A", False, "offset 3: this character is not a digit"),
    ("base64", b"AA=", False, "offset 3: the text ends within a byte"),
    ("base64", b"=", False, "offset 0: this character is not a digit"),
    ("base64", b"\\x" + HEX, False, "offset 0: this character is not a digit"),
    ("hex", b"0 x" + HEX, False, "offset 2: this character is not a digit"),
    ("hex", HEX + b"=", True, "offset 16: this character is not a digit"),
    ("hex", HEX + b"\0", True, "offset 16: this character is not a digit"),
    ("base64", BASE64 + b"\n" + BASE64, True, "offset 13: this character is not a digit"),
)

# Words, the status, and the line of the standard error, after the name; the standard input is a text in base64.
NO_DIGIT = "offset 10: this character is not a digit"
SAID = (
    ("list --input hex -", 1, f"-: {NO_DIGIT}"),
    ("show --input=hex", 1, f"-: {NO_DIGIT}"),
    ("dump --input hex", 1, f"-: {NO_DIGIT}"),
    ("describe --input hex recorded.base64", 1, f"recorded.base64: {NO_DIGIT}"),
    ("explain --input hex recorded.base64", 1, f"recorded.base64: {NO_DIGIT}"),
    ("get --input hex recorded.base64 0 value", 1, f"recorded.base64: {NO_DIGIT}"),
    ("redact --key k --input hex", 1, f"-: {NO_DIGIT}"),
    ("renumber --schema set --input hex", 1, f"-: {NO_DIGIT}"),
    ("show --schema set --input hex", 1, f"-: {NO_DIGIT}"),
    ("diff --input hex - recorded.hex", 2, f"-: {NO_DIGIT}"),
    ("diff --input hex recorded.hex -", 2, f"-: {NO_DIGIT}"),
    ("cut --input hex recorded.base64", 2, f"recorded.base64: {NO_DIGIT}"),
    ("cat --input base64 recorded.base64 recorded.hex", 2, "recorded.hex: offset 0: this character is not a digit"),
    ("list --protocol auto --input hex recorded.base64", 1, f"recorded.base64: {NO_DIGIT}"),
)

# Words that are invalid.
INVALID = (
    ("dump --input octal", "invalid value 'octal' for '--input <ENCODING>'"),
    ("list --input", "a value is required for '--input <ENCODING>'"),
    ("make --input hex", "unexpected argument '--input'"),
    ("schema --input hex", "unexpected argument '--input'"),
)


def spread(text: bytes, chance: random.Random) -> bytes:
    """A text with blanks anywhere, except within a prefix."""
    front = re.match(rb"(\\x|0[xX])?", text)[0]
    return front + b"".join(bytes((one,)) + chance.choice((b"", b"", b"", b" ", b"\r\n", b"\t")) for one in
                            text[len(front):])


def texts_of(stream: bytes, chance: random.Random) -> list[tuple[str, bytes]]:
    """Texts of a stream, each with its encoding."""
    digits, standard, other = stream.hex().encode(), base64.b64encode(stream), base64.urlsafe_b64encode(stream)
    of_hex = (digits, digits.upper(), b"0x" + digits, b"\\x" + digits + b"\n", b"0X" + digits.upper())
    of_base64 = (standard, other, standard.rstrip(b"="), base64.encodebytes(stream), other.rstrip(b"=") + b"\r\n")
    return [
        (encoding, text)
        for encoding, texts in (("hex", of_hex), ("base64", of_base64))
        for plain in texts
        for text in (plain, spread(plain, chance), b" \n" + plain)
    ]


def written(journal: Program, words: str, given: checks.Given | None = None, status: int = 0) -> checks.Run:
    """The run on bytes, by which those on a text are judged: it ends with this status, and writes something."""
    found = journal.run(words, given)
    journal.check.case(f"{words}, of bytes", found.status == status and bool(found.out), found)
    return found


def whole(journal: Program, chance: random.Random) -> None:
    """Each text of the examples, and a long one, by each subcommand that reads one stream."""
    for name in NAMES:
        stream = (STREAMS / name).read_bytes()
        for subcommand in ("list", "show", "dump", "redact --key k"):
            expected = written(journal, subcommand, stream)
            for encoding, text in texts_of(stream, chance):
                found = journal.run(f"{subcommand} --input {encoding}", text)
                journal.check.case(f"{subcommand} --input {encoding} of {text[:40]!r}", found == expected, found)
    # longer than one read, with an item that has a payload of any bytes
    payload = chance.randbytes(LONG)
    stream = b"\xfc\0\0\0" + len(payload).to_bytes(4, "big") + payload
    expected = written(journal, "dump", stream)
    for encoding, text in texts_of(stream, chance):
        found = journal.run(f"dump --input {encoding}", text)
        journal.check.case(f"dump --input {encoding} of a long text", found == expected)


def in_pieces(journal: Program) -> None:
    """Texts of which whole reads are blanks, and others end within a byte, a group or a prefix."""
    stream = (STREAMS / "recorded").read_bytes()
    expected = written(journal, "list", stream)
    for encoding, text in (("hex", b"\\x" + stream.hex().encode()), ("base64", base64.encodebytes(stream))):
        for front in range(4):
            for before in (READ - 1, READ, 3 * READ):
                # blanks before the text, and after some of its characters
                spread = text[:2] + b"\n" * front + text[2 : 2 + front] + b" " * before + text[2 + front :]
                for given in (spread, b" " * (before - front) + text):
                    found = journal.run(f"list --input {encoding}", given)
                    journal.check.case(f"list --input {encoding} with {before} blanks", found == expected, found)


def of_files(journal: Program) -> None:
    """Two journals in text, and parts of one."""
    diff = written(journal, "diff --all recorded replayed_other_handler", status=1)
    for encoding in ("hex", "base64"):
        found = journal.run(f"diff --all --input {encoding} recorded.{encoding} replayed_other_handler.{encoding}")
        journal.check.case(f"diff --input {encoding}", found == diff, found)
        for words in ("cut --from 0 --to 0", "cut"):
            expected = written(journal, f"{words} replay")
            found = journal.run(f"{words} --input {encoding} replay.{encoding}")
            journal.check.case(f"{words} --input {encoding}", found == expected, found)
        expected = written(journal, "cat replay recorded")
        found = journal.run(f"cat --input {encoding} replay.{encoding} recorded.{encoding}")
        journal.check.case(f"cat --input {encoding}", found == expected, found)


def main(check: checks.Check) -> None:
    journal = Program(check, "journal")
    chance = random.Random(20)
    made = {}
    for name in (*NAMES, "replayed_other_handler"):
        stream = (STREAMS / name).read_bytes()
        made[f"{name}.hex"] = b"\\x" + stream.hex().encode() + b"\n"
        made[f"{name}.base64"] = base64.encodebytes(stream)
    go_to_streams(check, {**made, "set": SET})
    whole(journal, chance)
    in_pieces(journal)
    of_files(journal)
    for encoding, text, has_end, fault in FAULTS:
        journal.ends(f"list --input {encoding}", "End 0\n" if has_end else "",
                     f"journal list: -: {fault}\n", 1, given=text, what=f"of {text!r}")
    text = made["recorded.base64"]
    for words, status, line in SAID:
        found = journal.run(words, text)
        said = f"journal {words.split()[0]}: {line}\n"
        check.case(words, found.status == status and found.err.decode() == said, found)
    for words, said in INVALID:
        found = journal.run(words, text)
        check.case(words, found.status == 2 and said in found.err.decode(), found)


if __name__ == "__main__":
    checks.perform(main)
