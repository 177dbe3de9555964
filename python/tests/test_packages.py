"""What every package promises beyond the calls: the cases of packages.cases and numberings.cases, which the README of
conformance specifies."""

import asyncio
import dataclasses
import io
import unittest

from pendratsoa import FieldError, Incomplete, JournalError, JsonError, Malformed, Message, NoId, NoResult, Replay
from pendratsoa import MessageTooLong, Numbering, NumberingError, Skipped, Stream, TooLong, Unknown, UnknownCode
from pendratsoa import compare_journals, is_well_formed, messages, type_code, type_name
from support import SET_STATE_COMMAND, TOP



def lines_of(name):
    """The cases of a file."""
    lines = (TOP / "conformance" / name).read_text().splitlines()
    return [line for line in lines if line and not line.startswith("#")]


CASES = lines_of("packages.cases")
NUMBERINGS = lines_of("numberings.cases")

READS = {
    "json": Message.json,
    "canonical": Message.canonical,
    "frame": Message.frame,
    "record": lambda message: message.message,
    "notification": Message.notification,
}
KINDS = {Malformed: "malformed", NoId: "no_id", NoResult: "no_result"}
NUMBERS = {
    "version": Stream,
    "code": type_name,
    "schema": lambda number: is_well_formed(number, b""),
}

# how the word of a field is read, which is otherwise a number, and the members of each oneof
FIELDS = {
    "partial_state": lambda word: word == "true",
    "id": lambda word: bytes_of(word),
    "headers": lambda word: tuple(header_of(*one.split(":")) for one in word.split(",")),
    "void": lambda word: messages.Void(),
    "value": lambda word: messages.Value(bytes_of(word)),
    "failure": lambda word: messages.Failure(code=int(word)),
    **dict.fromkeys(
        ("debug_id", "scope", "target_invocation_id", "name", "entry_name"), lambda word: text_of(word)
    ),
}
ONEOFS = {"signal_id": ("idx", "name"), "result": ("void", "value", "failure")}


def bytes_of(word):
    """The bytes of a word."""
    return b"" if word == "-" else bytes.fromhex(word)


def text_of(word):
    """The text of a word, which may be none of UTF-8."""
    return bytes_of(word).decode(errors="surrogateescape")


def header_of(key, value):
    return messages.Header(text_of(key), text_of(value))


def record_of(record, words):
    """The record of a class that has these fields."""
    attributes = {}
    for word in words:
        name, value = word.split("=")
        oneof = next((one for one, members in ONEOFS.items() if name in members and hasattr(record, one)), name)
        attributes[oneof] = FIELDS.get(name, int)(value)
    return record(**attributes)


def fields_of(record):
    """The fields of a record that are there, which are not those with their default."""
    for field in dataclasses.fields(record):
        value = getattr(record, field.name)
        if value != field.default:
            yield f"{member_of(field.name, value)}={word_of(value)}"


def member_of(name, value):
    """The name of a field, or of a member of a oneof."""
    if name == "signal_id":
        return "name" if isinstance(value, str) else "idx"
    return type(value).__name__.lower() if name == "result" else name


def word_of(value):
    """A value of a field as a word."""
    if isinstance(value, tuple):
        return ",".join(f"{word_of(header.key)}:{word_of(header.value)}" for header in value)
    if isinstance(value, messages.Failure):
        return str(value.code)
    if isinstance(value, int):
        return "true" if value is True else str(int(value))
    data = getattr(value, "content", b"" if value == messages.Void() else value)
    return (data.encode() if isinstance(data, str) else data).hex() or "-"


def name_of(code):
    """The name of a type by its code, or - where there is none."""
    try:
        return "-" if code is None else type_name(code)
    except Unknown:
        return "-"


def raised(call, *arguments):
    """The error of a call, or None."""
    try:
        call(*arguments)
    except JournalError as error:
        return error
    return None


def listing(items, ended, end="whole"):
    """The items of a stream, and how it ended; `end` is without an error."""
    if isinstance(ended, Incomplete):
        end = f"incomplete {ended.offset} {ended.rest} {name_of(ended.code)}"
    elif isinstance(ended, MessageTooLong):
        end = f"too_long {ended.offset} {name_of(ended.code)} {ended.length}"
    elif ended is not None:
        raise ended
    lines = ", ".join(f"{item.offset} {item}" for item in items)
    return f"{lines}; {end}" if lines else end


def items_of(version, word):
    """The items of a stream that is there as a whole."""
    return list(Stream(int(version)).read(io.BytesIO(bytes_of(word))))


class Chunks:
    """A reader that has these chunks, for `read` and `read_async`; an empty one would be its end."""

    def __init__(self, chunks):
        self.left = [chunk for chunk in chunks if chunk]
        self.given = b""

    def next(self):
        chunk = self.left.pop(0) if self.left else b""
        self.given += chunk
        return chunk

    async def read(self, size):
        return self.next()


class TestPackages(unittest.TestCase):
    def setUp(self):
        # the texts of the errors with which cases ended
        self.texts = []

    def test_the_cases(self):
        self.assertGreater(len(CASES), 100)
        for line in CASES:
            question, expected = line.split(" = ")
            kind, *words = question.split()
            with self.subTest(line):
                self.assertEqual(getattr(self, f"{kind}_result")(*words), expected)

    def text_result(self, kind, *words):
        """What the error says with which a case ends, in whatever chunks a stream comes."""
        self.texts = []
        getattr(self, f"{kind}_result")(*words)
        (text,) = set(self.texts)
        return text

    def noted(self, error, result):
        """The result of a case that ends with an error, whose text is noted."""
        self.texts.append(str(error))
        return result

    def items_result(self, version, limit, *words):
        chunks = [bytes_of(word) for word in words]
        given = int(version), None if limit == "-" else int(limit)
        whole = b"".join(chunks)
        found = self.fed(given, chunks)
        for other in (chunks, [whole], [whole[at : at + 1] for at in range(len(whole))]):
            for way in (self.fed, self.read, self.read_async):
                self.assertEqual(way(given, other), found)
        return found

    def not_strict_result(self, version, limit, *words):
        chunks = [bytes_of(word) for word in words]
        given = int(version), None if limit == "-" else int(limit)
        whole = b"".join(chunks)
        found = self.read(given, chunks, False)
        for other in (chunks, [whole], [whole[at : at + 1] for at in range(len(whole))]):
            for way in (self.read, self.read_async):
                self.assertEqual(way(given, other, False), found)
        return found

    def fed(self, given, chunks):
        """The listing of a stream that is fed these chunks."""
        stream = Stream(*given)
        found, came = [], []

        def take():
            for chunk in chunks:
                stream.feed(chunk)
                came.append(chunk)
                for item in stream:
                    found.append(item)
            stream.finish()

        ended = raised(take)
        self.check(stream, b"".join(came), found, ended)
        return self.noted(ended, listing(found, ended))

    def read(self, given, chunks, strict=True):
        """The listing of a stream that reads these chunks."""
        stream = Stream(*given)
        found = []
        reader = Chunks(chunks)
        reader.read = lambda size: reader.next()

        def take():
            for item in stream.read(reader, strict=strict):
                found.append(item)

        ended = raised(take)
        self.check(stream, reader.given, found, ended)
        return self.noted(ended, listing(found, ended, "whole" if strict else f"ended {stream.rest}"))

    def read_async(self, given, chunks, strict=True):
        """The listing of a stream that reads these chunks asynchronously."""
        stream = Stream(*given)
        found = []
        reader = Chunks(chunks)

        async def take():
            async for item in stream.read_async(reader, strict=strict):
                found.append(item)

        ended = raised(lambda: asyncio.run(take()))
        self.check(stream, reader.given, found, ended)
        return self.noted(ended, listing(found, ended, "whole" if strict else f"ended {stream.rest}"))

    def check(self, stream, came, found, ended):
        """The error stays. The items are the first bytes of what came, and `trailing` has the others."""
        if isinstance(ended, MessageTooLong):
            for call in (stream.finish, lambda: next(iter(stream)), lambda: stream.feed(b"x")):
                self.assertIs(raised(call), ended)
        elif ended is not None:
            self.assertEqual(str(raised(stream.finish)), str(ended))
        self.assertEqual(b"".join(map(bytes, found)) + stream.trailing, came)
        self.assertEqual(stream.rest, len(stream.trailing))

    def read_result(self, call, version, word):
        return ", ".join(self.reading(item, READS[call]) for item in items_of(version, word))

    def reading(self, item, call):
        """How a call ends that reads a message."""
        if not isinstance(item, Message):
            return "none"
        try:
            return "none" if call(item) is None else "ok"
        except JournalError as error:
            return self.failure(item, error)

    def failure(self, item, error):
        """An error of a payload, which has the type and the offset of its message."""
        if type(error) is Unknown:
            return self.noted(error, "unknown")
        self.assertEqual((error.code, error.offset), (item.code, item.offset))
        return self.noted(error, f"{KINDS[type(error)]} {name_of(error.code)} {error.offset}")

    def as_result(self, name, version, word):
        return ", ".join(self.narrowed(item, getattr(messages, name)) for item in items_of(version, word))

    def narrowed(self, item, record):
        """The payload of the record of one type."""
        try:
            found = item.record(record)
        except JournalError as error:
            return self.failure(item, error)
        if found is None:
            return "none"
        self.assertIs(type(found), record)
        return found.encode().hex() or "-"

    def compare_result(self, version, ignore, recorded, replayed):
        journals = bytes_of(recorded), bytes_of(replayed)
        verdict = compare_journals(int(version), *journals, ignore_payloads=ignore == "yes")
        return f"{verdict.kind} {verdict.index}"

    def mismatch_result(self, version, ignored, recorded, replayed):
        replay = Replay(int(version), bytes_of(recorded), ignored == "yes", ignored == "ids")
        said = [replay.check(item) for item in items_of(version, replayed)] + [replay.finish()]
        found = [mismatch for mismatch in said if mismatch is not None]
        if not found:
            return "none"
        (mismatch,) = found
        recorded_offset = "-" if mismatch.recorded_offset is None else mismatch.recorded_offset
        words = [mismatch.kind, mismatch.index, recorded_offset, mismatch.replayed_offset, mismatch.text.encode().hex()]
        for field in mismatch.fields:
            words += field.name, field.recorded.encode().hex(), field.replayed.encode().hex()
        return " ".join(str(word) or "-" for word in words)

    def replay_result(self, version, ignored, recorded, replayed):
        replay = Replay(int(version), bytes_of(recorded), ignored == "yes", ignored == "ids")
        steps = [self.step(replay, None)]
        steps += [self.step(replay, replay.check(item)) for item in items_of(version, replayed)]
        left = replay.finish()
        end = "none" if left is None else f"{left.kind} {left.index}"
        return f"{', '.join(steps)}; {end}"

    def step(self, replay, mismatch):
        """What is said of an item, and what comes next."""
        words = ["none" if mismatch is None else mismatch.kind, replay.index]
        expected = replay.expected()
        if expected is not None:
            words += expected.offset, expected.type
        return " ".join(map(str, words))

    def rest_result(self, version, word):
        recorded = bytes_of(word)
        replay = Replay(int(version), recorded)
        rest = replay.recorded_rest
        for item in Stream(int(version)).read(io.BytesIO(recorded), strict=False):
            replay.check(item)
            # wherever the replay is, and also after a mismatch
            self.assertEqual(replay.recorded_rest, rest)
        return str(rest)

    def encode_result(self, version, name, *words):
        try:
            record = record_of(getattr(messages, name), words)
            frame = record.frame(int(version))
            self.assertEqual(Message.of_record(record, int(version)).bytes, frame)
            return frame.hex()
        except Unknown as error:
            return self.noted(error, "unknown")
        except FieldError as error:
            return self.noted(error, f"{error.reason} {error.path}")

    def message_result(self, version, name):
        try:
            return str(Message.of_record(getattr(messages, name)(), int(version)))
        except Unknown as error:
            return self.noted(error, "unknown")

    def new_result(self, version, code, word):
        given = int(version), int(code), bytes_of(word)
        try:
            message = Message.of(given[1], given[2], given[0])
        except Unknown as error:
            return self.noted(error, "unknown")
        self.assertEqual((message.version, message.code, message.payload), given)
        self.assertEqual(items_of(version, message.bytes.hex()), [message])
        return f"{message}, {message.bytes.hex()}"

    def decode_result(self, name, word):
        try:
            return ", ".join(fields_of(getattr(messages, name).decode(bytes_of(word)))) or "-"
        except Malformed as error:
            return self.noted(error, "malformed")

    def json_result(self, version, name, word):
        try:
            message = Message.from_json(name, bytes_of(word), int(version))
        except Unknown as error:
            return self.noted(error, "unknown")
        except JsonError as error:
            where = error.path if error.offset is None else error.offset
            return self.noted(error, f"{error.reason} {where}".rstrip())
        self.assertEqual((message.version, message.type), (int(version), name))
        return message.payload.hex() or "-"

    def number_result(self, what, number):
        error = raised(NUMBERS[what], int(number))
        if error is None:
            return "known"
        self.assertIs(type(error), Unknown)
        return self.noted(error, "unknown")

    def name_result(self, what, name):
        call = type_code if what == "type" else lambda schema: is_well_formed(schema, b"")
        error = raised(call, name)
        if error is None:
            return "known"
        self.assertIs(type(error), Unknown)
        _, asks, meant = str(error).partition("; did you mean ")
        return self.noted(error, f"unknown {meant.strip(chr(34) + '?')}" if asks else "unknown")

    def limit_result(self, number):
        try:
            Stream(8, max_message_size=int(number))
        except (TooLong, ValueError):
            return "out_of_range"
        return "ok"


class TestNumberings(unittest.TestCase):
    def test_the_cases(self):
        self.assertGreater(len(NUMBERINGS), 600)
        sets = {}
        for line in NUMBERINGS:
            question, expected = line.split(" = ")
            kind, *words = question.split()
            with self.subTest(line[:200]):
                self.assertIn(getattr(self, f"{kind}_result")(sets, *words), (expected, None))

    def set_result(self, sets, name, renames, word):
        lines = bytes_of(renames).decode(errors="surrogateescape").splitlines()
        if any("=" not in line for line in lines):
            # a mapping has always two names
            return None
        try:
            sets[name] = Numbering(bytes_of(word), renames=dict(line.split("=") for line in lines))
        except NumberingError as error:
            self.assertEqual(error.argument, {"no_set": "descriptor_set", "no_rename": "renames"}[error.reason])
            self.assertEqual(str(error), f"{error.argument.replace('_', ' ')}: {error.text}")
            return f"{error.reason} {error.text.encode().hex()}"
        return "ok"

    def read_result(self, sets, name, schema, word):
        return self.renumbered(lambda: sets[name].read_payload(schema, bytes_of(word)))

    def write_result(self, sets, name, schema, word):
        return self.renumbered(lambda: sets[name].write_payload(schema, bytes_of(word)))

    def stream_result(self, sets, way, name, version, word):
        number, data = int(version), bytes_of(word)
        found = self.renumbered(lambda: getattr(sets[name], f"{way}_stream")(number, data))
        if way == "read":
            self.assertEqual(self.renumbered(lambda: self.read_by(sets[name], number, data)), found)
        return found

    def read_by(self, numbering, version, data):
        """The messages of a stream that a numbering reads, each after its header with another length."""
        stream = Stream(version, numbering=numbering)
        stream.feed(data)
        parts = []
        for item in stream:
            payload = getattr(item, "payload", None)
            parts.append(item.bytes if payload is None else item.bytes[:4] + len(payload).to_bytes(4, "big") + payload)
        return b"".join(parts) + stream.trailing

    def renumbered(self, call):
        """What a call returns, or its error."""
        try:
            return call().hex() or "-"
        except Malformed:
            return "malformed"
        except Unknown:
            return "unknown"


class TestMadeByHand(unittest.TestCase):
    def test_there_is_no_offset(self):
        message = Message(8, SET_STATE_COMMAND, bytes.fromhex("0a0561"))
        self.assertEqual([item.offset for item in (message, UnknownCode(8, 8, 0), Skipped(9, 8, 0, b""))], [None] * 3)
        with self.assertRaises(Malformed) as error:
            message.json()
        self.assertEqual((error.exception.code, error.exception.offset), (SET_STATE_COMMAND, None))
        self.assertEqual(str(error.exception), "SetStateCommand: payload of 3 bytes is malformed")


if __name__ == "__main__":
    unittest.main()
