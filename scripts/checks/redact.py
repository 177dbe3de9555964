#!/usr/bin/env python3
"""journal redact on the test vectors: what stays, what is replaced and by what, and verdicts on redacted journals.

The streams are those of conformance/, and one for each version of all payloads there, also malformed ones, of custom
entries and of unknown codes. Their listings stay, and their dumps in all but the contents, each of which is what Python
makes of the same digest.
"""
from __future__ import annotations

import base64
import hashlib
import json
import re
import typing

import checks
import made_streams
from programs import STREAMS

KEY = "pendratsoa"

# Journals of examples/streams that are compared with the recorded one.
REPLAYS = ("recorded", "replay", "replayed_other_handler", "replayed_other_payload", "unknown_type")


# What is said of two journals that have no verdict.
MALFORMED = re.compile(rb"journal diff: the (recorded|replayed) command \d+ is malformed\n")


def letters(content: bytes, key: str = KEY) -> bytes:
    """What a content is replaced by."""
    digest = hashlib.sha256(hashlib.sha256(key.encode()).digest() + content).digest()
    return bytes(97 + digest[place % 32] % 26 for place in range(len(content)))


def is_replaced(before: str, after: str) -> bool:
    """Whether a string of a dump is that of a replaced content: a text, or bytes in base64; or a number of 64 bits."""
    if before == after and (not before or before.lstrip("-").isdigit()):
        return True
    if letters(before.encode()) == after.encode():
        return True
    try:
        return letters(base64.b64decode(before, validate=True)) == base64.b64decode(after, validate=True)
    except ValueError:
        return False


def is_alike(before: typing.Any, after: typing.Any, name: str = "") -> bool:
    """Whether the JSON of an item is that of the same item with its contents replaced."""
    if isinstance(before, dict):
        return list(before) == list(after) and all(is_alike(before[key], after[key], key) for key in before)
    if isinstance(before, list):
        return len(before) == len(after) and all(map(is_alike, before, after))
    if isinstance(before, str) and name not in ("type", "header"):
        return is_replaced(before, after)
    return before == after


def is_like(before: dict[str, typing.Any], after: dict[str, typing.Any]) -> bool:
    """The same of a line of a dump. A malformed payload and trailing bytes become zeros."""
    if "malformed" in before or "rest" in before:
        before, after = dict(before), dict(after)
        payloads = [base64.b64decode(line.pop("bytes", "")) for line in (before, after)]
        # a header that is whole stays
        kept = 8 if "rest" in before and len(payloads[0]) >= 8 else 0
        wanted = payloads[0][:kept] + bytes(len(payloads[0]) - kept)
        return before == after and payloads[1] == wanted
    return is_alike(before, after)


def contents(value: typing.Any) -> typing.Iterator[bytes]:
    """The texts of four bytes and more in the JSON of an item, also where they are bytes."""
    if isinstance(value, dict):
        for name, member in value.items():
            if name not in ("type", "header"):
                yield from contents(member)
    elif isinstance(value, list):
        for member in value:
            yield from contents(member)
    elif isinstance(value, str) and len(value) >= 4 and not value.isdigit():
        try:
            value = base64.b64decode(value, validate=True).decode()
        except ValueError:
            pass
        if len(value) >= 4 and value.isprintable():
            yield value.encode()


def strings(value: typing.Any) -> typing.Iterator[bytes]:
    """What the strings in the JSON of an item may stand for: texts, and bytes."""
    if isinstance(value, str):
        yield value.encode()
        try:
            yield base64.b64decode(value, validate=True)
        except ValueError:
            pass
    elif isinstance(value, (dict, list)):
        for member in value.values() if isinstance(value, dict) else value:
            yield from strings(member)


def key_apart(recorded: list[dict[str, typing.Any]], replayed: list[dict[str, typing.Any]]) -> str:
    """A key by which contents that differ between two journals do so when they are replaced: one byte has 26 ways."""
    pairs = [
        (one, other)
        for one in set(strings(recorded))
        for other in set(strings(replayed))
        if one != other and len(one) == len(other)
    ]
    keys = (f"{KEY}{number}" for number in range(1000))
    return next(key for key in keys if all(letters(one, key) != letters(other, key) for one, other in pairs))


class Redactor:
    """The program, and what it makes of streams."""

    def __init__(self, check: checks.Check):
        self.check = check
        self.path = check.program("journal")

    def run(self, *words: str, given: checks.Given = b"") -> checks.Run:
        return checks.run([self.path, *words], given)

    def written(self, *words: str, given: bytes, has_items: bool = True) -> bytes:
        """What a subcommand writes of a stream, which is a journal if it has a whole item."""
        ended = self.run(*words, given=given)
        self.check.case(f"journal {' '.join(words)}", ended.status == (0 if has_items else 1), ended)
        return ended.out

    def redacted(self, stream: bytes, version: int = 8, key: str = KEY) -> bytes:
        """The redaction, which is as long. Bytes that have no whole item are not a journal."""
        has_items = not stream or len(self.lines(stream, version)) > 1
        redacted = self.written("redact", "--key", key, "--protocol", str(version), given=stream, has_items=has_items)
        self.check.case("the length of a redaction", len(redacted) == len(stream), len(redacted))
        return redacted

    def lines(self, stream: bytes, version: int) -> list[dict[str, typing.Any]]:
        dump = self.written("dump", "--protocol", str(version), given=stream)
        return [json.loads(line) for line in dump.splitlines()]

    def stays(self, name: str, stream: bytes, version: int) -> None:
        """A stream and its redaction differ only in contents, and none of these is in the redaction."""
        redacted = self.redacted(stream, version)
        listed = [self.written("list", "--protocol", str(version), given=given) for given in (stream, redacted)]
        self.check.same(f"the listing of {name}", *listed)
        before, after = self.lines(stream, version), self.lines(redacted, version)
        unlike = [pair for pair in zip(before, after) if not is_like(*pair)]
        self.check.case(f"the dump of {name}", not unlike and len(before) == len(after), unlike[:1])
        shown = {content for line in before for content in contents(line) if content in redacted}
        self.check.case(f"the contents of {name}", not shown, shown)

    def verdicts(self, name: str, recorded: bytes, replayed: bytes) -> None:
        """The verdict on two journals is that on their redactions."""
        found = []
        key = key_apart(self.lines(recorded, 8), self.lines(replayed, 8))
        for pair in ((recorded, replayed), (self.redacted(recorded, key=key), self.redacted(replayed, key=key))):
            for side, stream in zip(("recorded", "replayed"), pair):
                (self.check.work / side).write_bytes(stream)
            ended = self.run("diff", "--json", *(str(self.check.work / side) for side in ("recorded", "replayed")))
            verdict = json.loads(ended.out) if ended.out else {}
            has_said = ended.status in (0, 1) if verdict else ended.status == 2 and MALFORMED.fullmatch(ended.err)
            self.check.case(f"{name} has a verdict, or a malformed command", bool(has_said), ended)
            found.append((ended.status, *(verdict.get(name) for name in ("verdict", "index", "commands"))))
        self.check.case(f"the verdict on {name}", found[0] == found[1], found)


def corpus(version: int) -> bytes:
    """A stream of all payloads of the test vectors at a version, of custom entries and of unknown codes."""
    codes = dict(types())
    frames = [made_streams.frame(code, 0, payload) for code, payload in made_streams.messages(version)]
    for words in made_streams.lines_of("payloads.txt"):
        name = words[1].removesuffix("Message")
        if name in codes and words[0] == "payload":
            frames.append(made_streams.frame(codes[name], 0, made_streams.bytes_of(words[2])))
    frames += [made_streams.frame(0xFC00, 0, b"a custom entry"), made_streams.frame(0xFFFF, 0, b"")]
    # of an unknown code nothing follows before V9
    frames.append(made_streams.frame(made_streams.UNKNOWN[0], 0, b"skipped" if version == 9 else b""))
    return b"".join(frames) + made_streams.frame(0x0400, 0, b"this is truncated")[:-4]


def types() -> typing.Iterator[tuple[str, int]]:
    """The names of the types, and their codes."""
    for line in (checks.ROOT / "proto/types.txt").read_text(encoding="utf-8").splitlines():
        if line and not line.startswith("#"):
            code, name = line.split()
            yield name, int(code, 16)


def main(check: checks.Check) -> None:
    redactor = Redactor(check)
    for version in range(5, 10):
        redactor.stays(f"the payloads at version {version}", corpus(version), version)
    for number, (version, stream) in enumerate(made_streams.stored()):
        redactor.stays(f"stream {number}", stream, version)
    recorded = (STREAMS / "recorded").read_bytes()
    for name in REPLAYS:
        redactor.verdicts(name, recorded, (STREAMS / name).read_bytes())
    codes = dict(types())
    for words in made_streams.lines_of("comparisons.txt"):
        pair = [made_streams.frame(codes[words[1]], 0, made_streams.bytes_of(word)) for word in words[2:4]]
        redactor.verdicts(" ".join(words), *pair)
    keyless = [redactor.run("redact", given=recorded) for _ in range(2)]
    is_right = keyless[0].out != keyless[1].out and not any(run.status for run in keyless)
    check.case("without --key, the replacements differ", is_right, keyless[0])


if __name__ == "__main__":
    checks.perform(main)
