"""Dumps of streams, made again: made_streams.py DUMPER MAKER COUNT [SEED]

The streams are those of conformance/, each with its programs, and COUNT random ones: rows of frames at each version
with the payloads of conformance/json, which are canonical, of custom entries and of unknown codes, with bits of the
header that say nothing, and in half of the streams damaged payloads. A batch of these is dumped at once, one stream
after the other, which is a stream too; trailing bytes are at its end, and after SINGLE further streams, each
of which is dumped by itself.

Each is dumped and made again of the dump. If no payload was damaged, that is the stream, so its dump is the same.
Otherwise what is made has the same dump, except offsets and lengths, and is what is made of its own dump. A dump
with texts says the same, and the same is made of it. Each stream of a batch that fails is tried by itself. The last
line but one has the seed.
"""
import base64
import json
import random
import subprocess
import sys
from pathlib import Path

CONFORMANCE = Path(__file__).resolve().parents[2] / "conformance"
CUSTOM = range(0xFC00, 0x10000)
UNKNOWN = [4, 8, 9, 0x1FF, 0x201, 0x301, 0x3FF]

# How many streams are dumped at once, and how many one by one.
BATCH = 500
SINGLE = 200


def lines_of(path):
    """The words of the test vectors of a file, before what they mean."""
    for line in (CONFORMANCE / path).read_text(encoding="utf-8").splitlines():
        if line and not line.startswith("#"):
            yield line.split(" = ")[0].split(" ")


def bytes_of(word):
    return bytes.fromhex(word.replace("-", ""))


def messages(version):
    """The codes of messages, each with a canonical payload at a version."""
    types = (CONFORMANCE.parent / "proto/types.txt").read_text(encoding="utf-8").splitlines()
    named = [line.split() for line in types if line and not line.startswith("#")]
    codes = {name: int(code, 16) for code, name in named}
    # before V7 a suspension has another schema
    other, its = ("Suspension", "SuspensionMessageV6") if version < 7 else ("SuspensionMessageV6", "SuspensionMessage")
    found = [(words[1], bytes_of(words[2])) for words in lines_of("json/records.txt")]
    found = [
        ("Suspension" if name == its else name.removesuffix("Message"), payload)
        for name, payload in found
        if name.removesuffix("Message") != other
    ]
    return [(codes[name], payload) for name, payload in found if name in codes]


def stored():
    """The versions and the bytes of the streams of conformance/."""
    for path in ("streams.txt", "random_streams.txt", "worked.txt"):
        for words in lines_of(path):
            if words[0] == "stream":
                yield int(words[1]), b"".join(bytes_of(word) for word in words[2:])


def frame(code, bits, payload):
    """A frame, with bits 32 to 47 of its header."""
    return code.to_bytes(2) + bits.to_bytes(2) + len(payload).to_bytes(4) + payload


def damaged(chance, payload):
    """A payload with a byte changed, or without its end."""
    if not payload:
        return b"\xff"
    place = chance.randrange(len(payload))
    if chance.random() < 0.3:
        return payload[:place]
    return payload[:place] + bytes([chance.randrange(256)]) + payload[place + 1:]


def stream_of(chance, corpus, version, is_damaged):
    """A stream of whole items."""
    stream = b""
    for _ in range(chance.randrange(12)):
        kind = chance.random()
        bits = chance.choice([0, 0, 0, 0x8000, 1, chance.randrange(0x10000)])
        if kind < 0.2:
            stream += frame(chance.choice(CUSTOM), bits, chance.randbytes(chance.randrange(20)))
        elif kind < 0.3 and version == 9:
            stream += frame(chance.choice(UNKNOWN), bits, chance.randbytes(chance.randrange(20)))
        elif kind < 0.3:
            # before V9 such a header has no payload, whatever length it has
            stream += frame(chance.choice(UNKNOWN), bits, b"")[:4] + chance.choice([0, 5]).to_bytes(4)
        else:
            code, payload = chance.choice(corpus)
            stream += frame(code, bits, damaged(chance, payload) if is_damaged and kind < 0.5 else payload)
    return stream


def rest_of(chance, corpus):
    """Bytes that are in no item: the beginning of a frame."""
    code, payload = chance.choice(corpus)
    cut = frame(code, 0, payload)
    return cut[:chance.randrange(len(cut))]


def run(program, version, given, *options):
    """What a program writes."""
    ended = subprocess.run([program, "--protocol", str(version), *options], input=given, capture_output=True)
    if ended.returncode:
        raise ValueError(f"status {ended.returncode}: {ended.stderr.decode()}")
    return ended.stdout


def said(dump):
    """The objects of a dump, without what depends on how payloads are encoded."""
    objects = [json.loads(line) for line in dump.splitlines()]
    for found in objects:
        found.pop("offset")
        if "message" in found:
            found.pop("length")
            # a header has the length of the payload too
            if "header" in found:
                found["header"] = base64.b64decode(found["header"])[:4]
    return objects


def is_text(encoded):
    """Whether the bytes that a string of base64 encodes are UTF-8."""
    try:
        base64.b64decode(encoded).decode()
    except UnicodeDecodeError:
        return False
    return True


def says_the_same(plain, texts, name=""):
    """Whether a value of a dump with texts tells what one without them does, where the names tell which are bytes."""
    if isinstance(plain, dict):
        return plain.keys() == texts.keys() and all(says_the_same(plain[key], texts[key], key) for key in plain)
    if isinstance(plain, list):
        return len(plain) == len(texts) and all(map(says_the_same, plain, texts))
    if isinstance(texts, dict):
        return list(texts) == ["text"] and texts["text"].encode() == base64.b64decode(plain)
    return plain == texts and not (name in ("bytes", "content", "id") and is_text(plain))


def fault(dumper, maker, stream, is_canonical, version):
    """What is wrong with the way of a stream to its dump and back, or nothing."""
    try:
        dump = run(dumper, version, stream)
        made = run(maker, version, dump)
        texts = run(dumper, version, stream, "--text")
        if not all(map(says_the_same, map(json.loads, dump.splitlines()), map(json.loads, texts.splitlines()))):
            return "another dump with texts"
        if run(maker, version, texts) != made:
            return "another stream of the dump with texts"
        if is_canonical:
            return "" if made == stream else "another stream"
        again = run(dumper, version, made)
        if said(again) != said(dump):
            return "another dump"
        return "" if run(maker, version, again) == made else "another stream of the dump of what was made"
    except ValueError as error:
        return str(error)


class Checker:
    """Dumps streams and makes them again, and counts those that come back."""

    def __init__(self, dumper, maker):
        self.dumper = dumper
        self.maker = maker
        self.passed = self.failed = 0

    def check(self, version, streams, is_canonical):
        """Streams one after the other; each by itself if that fails."""
        found = fault(self.dumper, self.maker, b"".join(streams), is_canonical, version)
        if not found:
            self.passed += len(streams)
        elif len(streams) == 1:
            self.failed += 1
            print(f"failed: at V{version}, {found.strip()}: {streams[0].hex()}")
        else:
            before = self.failed
            for stream in streams:
                self.check(version, [stream], is_canonical)
            if self.failed == before:
                # only together
                self.failed += 1
                print(f"failed: at V{version}, {found.strip()}: {b''.join(streams).hex()}")


def main():
    dumper, maker, count = sys.argv[1:4]
    seed = int(sys.argv[4]) if len(sys.argv) > 4 else 32
    chance = random.Random(seed)
    corpora = {version: messages(version) for version in range(5, 10)}
    checker = Checker(dumper, maker)
    for version, stream in stored():
        checker.check(version, [stream], False)
    for batch in range((int(count) + BATCH - 1) // BATCH):
        version = 5 + batch // 2 % 5
        is_damaged = batch % 2 == 1
        streams = [
            stream_of(chance, corpora[version], version, is_damaged)
            for _ in range(min(BATCH, int(count) - batch * BATCH))
        ]
        streams[-1] += rest_of(chance, corpora[version])
        checker.check(version, streams, not is_damaged)
    for number in range(SINGLE):
        version = 5 + number % 5
        stream = stream_of(chance, corpora[version], version, number % 2 == 1) + rest_of(chance, corpora[version])
        checker.check(version, [stream], number % 2 == 0)
    print(f"{count} random streams and {SINGLE} alone, of seed {seed}")
    print(f"{checker.passed} passed, {checker.failed} failed")


if __name__ == "__main__":
    main()
