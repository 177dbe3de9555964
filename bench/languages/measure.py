"""Measures the package for Python against protobuf's own: measure.py FOLDER, which has journal_pb2, made by protoc.

A line is the record, the work, microseconds here and there, and how many times as fast this package is. Protobuf's has
no streams; it is used with the framing that a user writes, below.
"""

import pathlib
import struct
import sys
import time
import timeit

sys.path.insert(0, sys.argv[1])

import journal_pb2  # noqa: E402
from google.protobuf import json_format  # noqa: E402
from pendratsoa import COMPILED, Replay, Stream, from_json, messages, to_json  # noqa: E402

READS = {
    "SetStateCommandMessage": (lambda one: (one.key, one.value.content), lambda one: (one.key, one.value.content)),
    "CallCommandMessage": (
        lambda one: (one.service_name, one.parameter),
        lambda one: (one.service_name, one.parameter),
    ),
    "CallCompletionNotificationMessage": (
        lambda one: (one.completion_id, one.result.content),
        lambda one: (one.completion_id, one.value.content),
    ),
}
COUNT = 20000
LANGUAGE = "python" if COMPILED else "python-ctypes"

HEADER = struct.Struct(">HHI")

# How many frames a stream has, and how many bytes come at a time.
FRAMES = 1000
CHUNK = 1 << 16


def peer_items(chunks, limit=1 << 24):
    """The messages of a stream that comes in chunks: the code, the flags and the payload of each."""
    rest = b""
    for chunk in chunks:
        rest += chunk
        at = 0
        while len(rest) - at >= HEADER.size:
            code, flags, length = HEADER.unpack_from(rest, at)
            if length > limit:
                raise ValueError(f"a message of type {code:#06x} has {length} bytes")
            begin = at + HEADER.size
            if len(rest) - begin < length:
                break
            at = begin + length
            yield code, flags, rest[begin:at]
        rest = rest[at:]


def peer_check(recorded, chunks, classes):
    """The index of the first command in which a replay that comes in chunks differs, or None."""
    others = peer_items([recorded])
    index = 0
    for index, (code, _, payload) in enumerate(peer_items(chunks), 1):
        other_code, _, other = next(others, (None, 0, b""))
        if other_code != code:
            return index
        # what is not well-formed is an error
        message = classes[code].FromString(payload)
        if payload != other and message != classes[code].FromString(other):
            return index
    return None if next(others, None) is None else index


def peer_frame(code, message):
    """The frame of a message."""
    payload = message.SerializeToString()
    return HEADER.pack(code, 0, len(payload)) + payload


def show(name, work, first, second, count=COUNT, per=1):
    """Measures a work here and there, each in its fastest round of nine. The rounds take turns."""
    least = [float("inf")] * 2
    for _ in range(9):
        for at, one in enumerate((first, second)):
            # of CPU time, since the machine may be busy
            least[at] = min(least[at], timeit.timeit(one, timer=time.process_time, number=count) / count / per * 1e6)
    print(f"{LANGUAGE} {name} {work} {least[0]:.2f} {least[1]:.2f} {least[1] / least[0]:.2f}", flush=True)


def items_of(chunks):
    """The items of a stream that comes in chunks."""
    stream = Stream(8)
    for chunk in chunks:
        stream.feed(chunk)
        yield from stream


def check(recorded, chunks):
    """What is said first of a replay that comes in chunks."""
    replay = Replay(8, recorded)
    for item in items_of(chunks):
        mismatch = replay.check(item)
        if mismatch is not None:
            return mismatch
    return replay.finish()


def streams(name, here, there, ours):
    """Items of a stream, the same with two fields of each read, a replay that is checked, and frames."""
    read_here, read_there = READS[name]
    theirs = there.FromString(ours.encode())
    assert ours.frame(8) == peer_frame(here.CODE, theirs)
    whole = ours.frame(8) * FRAMES
    chunks = [whole[at : at + CHUNK] for at in range(0, len(whole), CHUNK)]
    classes = {here.CODE: there}

    def drain(items):
        for _ in items:
            pass

    def read(items, one):
        for item in items:
            one(item)

    turns = COUNT // FRAMES
    show(name, "items", lambda: drain(items_of(chunks)), lambda: drain(peer_items(chunks)), turns, FRAMES)
    show(
        name,
        "items-read",
        lambda: read(items_of(chunks), lambda item: read_here(item.message)),
        lambda: read(peer_items(chunks), lambda item: read_there(classes[item[0]].FromString(item[2]))),
        turns,
        FRAMES,
    )
    # a replay of notifications has nothing to compare
    if "Command" in name:
        assert check(whole, chunks) is None is peer_check(whole, chunks, classes)
        show(
            name,
            "replay",
            lambda: check(whole, chunks),
            lambda: peer_check(whole, chunks, classes),
            turns,
            FRAMES,
        )
    show(name, "frame", lambda: ours.frame(8), lambda: peer_frame(here.CODE, theirs))


def texts(name, here, there, payload):
    """A payload as JSON, and JSON as a payload."""
    text = to_json(name, payload)
    assert from_json(name, text) == json_format.Parse(text, there()).SerializeToString() == payload
    turns = COUNT // 10
    show(
        name,
        "to-json",
        lambda: to_json(here.SCHEMA, payload),
        lambda: json_format.MessageToJson(there.FromString(payload), indent=None),
        turns,
    )
    show(
        name,
        "from-json",
        lambda: from_json(here.SCHEMA, text),
        lambda: json_format.Parse(text, there()).SerializeToString(),
        turns,
    )


def main():
    for line in pathlib.Path(__file__).with_name("messages.txt").read_text().splitlines():
        if line.startswith("#"):
            continue
        name, digits = line.split()
        payload = bytes.fromhex(digits)
        here, there = getattr(messages, name), getattr(journal_pb2, name)
        read_here, read_there = READS[name]
        ours, theirs = here.decode(payload), there.FromString(payload)
        assert read_here(ours) == read_there(theirs) and ours.encode() == theirs.SerializeToString() == payload
        show(name, "decode", lambda: read_here(here.decode(payload)), lambda: read_there(there.FromString(payload)))
        show(name, "encode", ours.encode, theirs.SerializeToString)
        streams(name, here, there, ours)
        texts(name, here, there, payload)


if __name__ == "__main__":
    main()
