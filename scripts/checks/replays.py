#!/usr/bin/env python3
"""replays.py SEED COUNT: replays that are checked item by item, compared with both journals as a whole.

Recordings are made of random items, and replays are edits of them: commands removed, repeated, moved and changed, other
items put between, payloads damaged, both cut anywhere. What the package for Python says of each replay, item by item,
is the verdict of `compare_journals` on the recording and on all items so far: nothing before it, and its kind, its
index and its text where it is said. The fields are the lines of `difference`. The last line is 'N passed, M failed'.
"""
from __future__ import annotations

import random
import sys
import typing

from pendratsoa import Item, Message, Mismatch, Replay, Stream, VerdictKind
from pendratsoa import compare_journals, difference, header, is_well_formed
from pendratsoa.messages import RECORDS, SetStateCommandMessage

# payloads that most commands have a field of, one that is none, and some that are malformed
PAYLOADS = [bytes.fromhex(text) for text in (
    "", "0a0161", "0a0162", "0a01611a030a0131", "0a01611a030a0132", "1a030a0131", "5801", "0a01615801", "62016e",
    "72030a0178", "0a0573767263", "fa0700", "ff", "0a0561", "0a01ff",
)]
SCHEMAS = {code: record.SCHEMA for record in RECORDS for code in [getattr(record, "CODE", -1)] if code >= 0}
COMMANDS = [code for code in SCHEMAS if 0x0400 <= code < 0x8000]
CUSTOM = (0xFC01, 0x3F3F)
UNKNOWN = (0x0008, 0x0301)


# how a replay is that has said nothing yet
GOES_ON = (VerdictKind.SAME, VerdictKind.REPLAYED_ENDED)


class Sent(typing.NamedTuple):
    """An item of a journal: its code and its payload, which an unknown code has not before version 9."""

    code: int
    payload: bytes


def payload(chance: random.Random, code: int) -> bytes:
    """A random payload, which is most often well-formed for its type."""
    found = chance.choice(PAYLOADS)
    while code in SCHEMAS and not is_well_formed(SCHEMAS[code], found) and chance.random() < 0.95:
        found = chance.choice(PAYLOADS)
    return found


def item(chance: random.Random) -> Sent:
    """A random item, which is most often a command."""
    codes: typing.Sequence[int] = chance.choices((COMMANDS, list(SCHEMAS), CUSTOM, UNKNOWN), (12, 3, 1, 1))[0]
    # a state that is set is compared by its key and by its value
    code = SetStateCommandMessage.CODE if chance.random() < 0.2 else chance.choice(codes)
    return Sent(code, payload(chance, code))


def frame(version: int, one: Sent) -> bytes:
    """An item as it is in a stream."""
    if one.code not in UNKNOWN:
        return header(version, one.code, len(one.payload)) + one.payload
    rest = one.payload if version == 9 else b""
    return one.code.to_bytes(2, "big") + bytes(2) + len(rest).to_bytes(4, "big") + rest


def edited(chance: random.Random, items: list[Sent]) -> list[Sent]:
    """A journal with some items removed, added, repeated, moved and changed."""
    found = list(items)
    for _ in range(chance.choice((0, 0, 1, 1, 2, 3))):
        place = chance.randrange(len(found) + 1)
        edit = chance.choice((0, 1, 2, 3, 4, 4, 4))
        if edit == 0 or place == len(found):
            found.insert(place, item(chance))
        elif edit == 1:
            del found[place]
        elif edit == 2:
            found.insert(place, found[place])
        elif edit == 3:
            found.insert(chance.randrange(len(found)), found.pop(place))
        else:
            found[place] = Sent(found[place].code, payload(chance, found[place].code))
    return found


def difference_of(said: Mismatch, recorded: bytes, one: Item) -> str:
    """The difference of an item and of its recorded command, if a mismatch is of two of one type."""
    if said.kind is not VerdictKind.HEADER_MISMATCH or not isinstance(one, Message):
        return ""
    stream = Stream(one.version)
    stream.feed(recorded[said.recorded_offset :])
    command = next(iter(stream))
    return difference(one.code, command.payload, one.payload) if isinstance(command, Message) else "no command"


def fault(version: int, recorded: bytes, replayed: bytes, ignored: bool, cut: typing.Callable[[], int]) -> str:
    """What is wrong with what is said of a replay that comes in chunks of these sizes; nothing if it is right."""
    replay = Replay(version, recorded, ignored)
    stream = Stream(version)
    begin = taken = 0
    said = None
    while begin < len(replayed):
        size = cut()
        stream.feed(replayed[begin : begin + size])
        begin += size
        for one in stream:
            taken += len(one.bytes)
            found = replay.check(one)
            if found is not None and said is not None:
                return "a mismatch is said twice"
            if said is not None:
                continue
            said = found
            verdict = compare_journals(version, recorded, replayed[:taken], ignored)
            if said is None:
                if verdict.kind not in GOES_ON or replay.index != verdict.index:
                    return f"nothing is said after {taken} bytes, and the verdict is {verdict}"
                continue
            if (said.kind, said.index, said.text) != (verdict.kind, verdict.index, verdict.text):
                return f"{said}, and the verdict is {verdict}"
            if said.replayed_offset != one.offset:
                return f"{said}, and the item is at {one.offset}"
            lines = "".join(f"\n   {field.name}: {field.recorded} != {field.replayed}" for field in said.fields)
            if lines != difference_of(said, recorded, one):
                return f"{said}, and the difference is another one"
    left = replay.finish()
    verdict = compare_journals(version, recorded, replayed, ignored)
    last = said or left
    kind = VerdictKind.SAME if last is None else last.kind
    if (kind, replay.index) != (verdict.kind, verdict.index) or (said is not None and left is not None):
        return f"{last} after {replay.index} commands, and the verdict is {verdict}"
    if left is not None and left.replayed_offset != taken:
        return f"{left}, and the replay ends at {taken}"
    return ""


def main(words: list[str]) -> int:
    seed, count = int(words[0]), int(words[1])
    passed = failed = 0
    kinds: dict[VerdictKind, int] = {}
    for number in range(seed, seed + count):
        chance = random.Random(number)
        version = chance.randrange(5, 10)
        items = [item(chance) for _ in range(chance.randrange(12))]
        recorded = b"".join(frame(version, one) for one in items)
        replayed = b"".join(frame(version, one) for one in edited(chance, items))
        if chance.random() < 0.2:
            recorded = recorded[: chance.randrange(len(recorded) + 1)]
        if chance.random() < 0.2:
            replayed = replayed[: chance.randrange(len(replayed) + 1)]
        ignored = chance.random() < 0.3
        verdict = compare_journals(version, recorded, replayed, ignored)
        kinds[verdict.kind] = kinds.get(verdict.kind, 0) + 1
        sizes: tuple[int, ...] = chance.choice(((1,), (1, 7, 8, 9, 30), (1 << 20,)))
        why = fault(version, recorded, replayed, ignored, lambda: chance.choice(sizes))
        passed += not why
        failed += bool(why)
        if why:
            print(f"failed: {number}, version {version}: {recorded.hex() or '-'} {replayed.hex() or '-'}: {why}")
    print("replays.py: " + ", ".join(f"{kinds.get(kind, 0)} {kind}" for kind in VerdictKind))
    # each verdict has to come
    if len(kinds) < len(VerdictKind):
        failed += 1
        print("failed: a verdict never came")
    print(f"{passed} passed, {failed} failed")
    return 1 if failed else 0


if __name__ == "__main__":
    sys.exit(main(sys.argv[1:]))
