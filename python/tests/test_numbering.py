"""Payloads, streams and messages at the field numbers of a descriptor set."""

import base64
import copy
import functools
import io
import json
import pathlib
import pickle
import random
import re
import shutil
import subprocess
import tempfile
import threading
import unittest
from unittest import mock

from pendratsoa import JournalError, Malformed, Message, MessageTooLong, Numbering, NumberingError, NumberingReason
from pendratsoa import OutOfMemory, Replay, SCHEMA_NAMES, Stream, TooLong, Unknown, append_frame, canonical
from pendratsoa import compare_journals, frame
from pendratsoa import _named, messages
from pendratsoa.messages import GetLazyStateCommandMessage, SetStateCommandMessage, SuspensionMessageV6, Value
from descriptors import ALL, SMALL, at_other_numbers, block, field, message, renumbered, set_of
from support import INPUT, RECORDED, REPLAYED, SET_STATE_COMMAND, TOP, replaced, returning

# a state that is set, at the protocol's own numbers and at those of the small set
OURS = bytes.fromhex("0a01611a030a013162016e")
THEIRS = bytes.fromhex("0a016e12031a0131220161")
SCHEMA = SetStateCommandMessage.SCHEMA

# the record vectors: canonical payloads of each schema
PAYLOADS = [
    line.split()[1:3]
    for line in (TOP / "conformance/records.txt").read_text().splitlines()
    if line.startswith("record ")
]

# messages with flags that no encoder sets, a custom entry, eight bytes of no type, and the beginning of a message
HEAD = bytes.fromhex("04031234")
PLAIN = bytes.fromhex("04030000")
OTHERS = bytes.fromhex("fc01ffff00000001ff" "0008a5a500000000")
TRAILING = bytes.fromhex("040000000000000972")


def sized(payload):
    """How many bytes a payload has, as errors show it."""
    return "1 byte" if len(payload) == 1 else f"{len(payload)} bytes"


def framed(payload, head=HEAD):
    """A message of this head."""
    return head + len(payload).to_bytes(4, "big") + payload


class TestPayloads(unittest.TestCase):
    def test_reading_and_writing(self):
        numbering = Numbering(SMALL)
        for schema in (SCHEMA, "SetStateCommandMessage"):
            self.assertEqual(numbering.write_payload(schema, OURS), THEIRS)
            for payload in (THEIRS, bytearray(THEIRS), memoryview(THEIRS)):
                self.assertEqual(numbering.read_payload(schema, payload), OURS)
        self.assertEqual(numbering.read_payload("Value", b"\x1a\x01x"), b"\n\x01x")

    def test_fields_that_only_one_has(self):
        numbering = Numbering(SMALL)
        self.assertEqual(numbering.read_payload(SCHEMA, THEIRS + block(9, b"x") + block(77, 5)), OURS)
        self.assertEqual(numbering.write_payload(SCHEMA, OURS + block(77, b"x")), THEIRS)
        # a message that the set has not
        self.assertEqual(numbering.write_payload("InputCommandMessage", INPUT[8:]), b"")

    def test_all_payloads(self):
        numbering = Numbering(ALL)
        self.assertGreater(len(PAYLOADS), 100)
        for name, word in PAYLOADS:
            payload = b"" if word == "-" else bytes.fromhex(word)
            with self.subTest(name):
                theirs = numbering.write_payload(name, payload)
                self.assertEqual(theirs, at_other_numbers(getattr(messages, name), payload))
                self.assertEqual(numbering.read_payload(name, theirs), payload)

    def test_long_payloads(self):
        numbering = Numbering(SMALL)
        record = SetStateCommandMessage(key=b"k", value=Value(bytes(300_000)))
        theirs = numbering.write_payload(SCHEMA, record.encode())
        self.assertEqual(SetStateCommandMessage.decode(numbering.read_payload(SCHEMA, theirs)), record)

    def test_payloads_that_are_not_canonical(self):
        numbering = Numbering(SMALL)
        # what they mean is the same: the message is in two parts, and lengths are longer than they need to be
        parts = bytes.fromhex("2281006112001a00128300" "1a0131")
        self.assertEqual(canonical(SCHEMA, numbering.read_payload(SCHEMA, parts)), bytes.fromhex("0a01611a030a0131"))

    def test_what_is_no_payload(self):
        numbering = Numbering(SMALL)
        for payload in (b"\n", b"\x22\x05a", b"\x12\x02\x1a\x05", b"\x10\x01", b"\xff"):
            with self.assertRaises(Malformed) as error:
                numbering.read_payload(SCHEMA, payload)
            self.assertEqual(str(error.exception), f"payload of {sized(payload)} is malformed")
            self.assertEqual((error.exception.argument, error.exception.value), ("payload", payload))
        for call in (numbering.read_payload, numbering.write_payload):
            for schema in (len(SCHEMA_NAMES), -1, 1 << 32, "Values"):
                with self.assertRaises(Unknown) as unknown:
                    call(schema, b"")
                self.assertEqual((unknown.exception.argument, unknown.exception.value), ("schema", schema))
            self.assertRaises(TypeError, call, None, b"")
            self.assertRaises(TypeError, call, SCHEMA, "text")

    def test_any_bytes(self):
        numbering = Numbering(ALL)
        choose = random.Random(1)
        kept = 0
        for _ in range(2000):
            name, word = choose.choice(PAYLOADS)
            payload = bytearray(numbering.write_payload(name, b"" if word == "-" else bytes.fromhex(word)))
            for _ in range(choose.randrange(3)):
                payload.insert(choose.randrange(len(payload) + 1), choose.randrange(256))
            for call in (numbering.read_payload, numbering.write_payload):
                try:
                    call(name, payload)
                    kept += 1
                except Malformed:
                    pass
        self.assertGreater(kept, 500)


class TestSets(unittest.TestCase):
    def test_where_a_set_comes_from(self):
        with tempfile.TemporaryDirectory() as folder:
            path = pathlib.Path(folder, "set.binpb")
            path.write_bytes(SMALL)
            with open(path, "rb") as file:
                sources = (path, str(path), file, io.BytesIO(SMALL), SMALL, bytearray(SMALL), memoryview(SMALL))
                for source in sources:
                    self.assertEqual(Numbering.load(source).write_payload(SCHEMA, OURS), THEIRS)
        self.assertRaises(FileNotFoundError, Numbering.load, path)
        for source in (5, None, ["a"]):
            with self.assertRaises(TypeError) as error:
                Numbering.load(source)
            self.assertIn("source must be a path, a file or bytes-like, not ", str(error.exception))
        with self.assertRaises(TypeError) as error:
            Numbering.load(io.StringIO("text"))
        self.assertEqual(str(error.exception), "Numbering: descriptor_set must be bytes-like, not str")

    def test_its_text(self):
        numbering = Numbering(SMALL)
        self.assertEqual(str(numbering), numbering.text)
        lines = numbering.text.splitlines()
        (line,) = [line for line in lines if line.startswith("SetStateCommandMessage.key ")]
        self.assertTrue(line.endswith(" renumbered"), line)
        self.assertIn("Value.content", numbering.text)
        self.assertEqual(repr(numbering), "<Numbering of 4 fields>")

    def test_renames(self):
        fetch = set_of(message("Fetch", field("key", 3, 12), field("result_completion_id", 9, 13)))
        payload = GetLazyStateCommandMessage(key=b"k", result_completion_id=7).encode()
        for name in ("GetLazyStateCommandMessage", "GetLazyStateCommand"):
            numbering = Numbering(fetch, renames={"Fetch": name})
            theirs = numbering.write_payload("GetLazyStateCommandMessage", payload)
            self.assertEqual(theirs, b"\x1a\x01k\x48\x07")
            self.assertEqual(numbering.read_payload("GetLazyStateCommandMessage", theirs), payload)
        for renames in (None, {}):
            with self.assertRaises(NumberingError) as error:
                Numbering.load(fetch, renames=renames)
            self.assertEqual(error.exception.text, "no field of the protocol's messages")

    def test_renames_that_are_none(self):
        for renames in (
            {"Fetch": "SetStateCommandMessage"},
            {"Value": "Fetch"},
            {"": "Value"},
            {"Value": ""},
            {"Value=Value": "Value"},
            {"Value": "Value\nValue=Value"},
            {"\ud800": "Value"},
        ):
            with self.assertRaises(NumberingError) as error:
                Numbering(SMALL, renames=renames)
            found = error.exception
            self.assertEqual((found.reason, found.argument, found.value), ("no_rename", "renames", renames))
            self.assertIs(type(found.reason), NumberingReason)
            self.assertNotEqual(found.text, "")
            self.assertEqual(str(found), f"renames: {found.text}")
        with self.assertRaises(NumberingError) as error:
            Numbering(SMALL, renames={"A=B": "Value"})
        self.assertEqual(error.exception.text, '"A=B" is not the name of a message')
        for renames in (5, ["Value"], "Value=Value", {5: "Value"}, {"Value": b"Value"}):
            self.assertRaises(TypeError, Numbering, SMALL, renames=renames)

    def test_sets_that_are_none(self):
        twice = set_of(message("Value", field("content", 3, 12), field("other", 3, 12)))
        for data in (twice, SMALL[:-1], b'syntax = "proto3";', b"\xff", bytes(100), block(1, block(4, b"\n\x05"))):
            with self.assertRaises(NumberingError) as error:
                Numbering(data)
            found = error.exception
            self.assertIsInstance(found, (JournalError, ValueError))
            self.assertEqual((found.call, found.argument, found.value), ("Numbering", "descriptor_set", data))
            self.assertIs(found.reason, NumberingReason.NO_SET)
            self.assertNotEqual(found.text, "")
            self.assertEqual(str(found), f"descriptor set: {found.text}")
        with self.assertRaises(NumberingError) as error:
            Numbering(twice)
        self.assertEqual(error.exception.text, "a.proto: a.Value.other: number of a later field")

    def test_an_empty_set(self):
        with self.assertRaises(NumberingError) as error:
            Numbering(b"")
        self.assertEqual(error.exception.text, "no field of the protocol's messages")

    def test_any_bytes(self):
        choose = random.Random(2)
        made = 0
        for _ in range(300):
            data = bytearray(SMALL)
            for _ in range(choose.randrange(1, 3)):
                data[choose.randrange(len(data))] = choose.randrange(256)
            try:
                numbering = Numbering(data[: choose.choice((len(data), choose.randrange(len(data))))])
                made += 1
                numbering.read_payload(SCHEMA, numbering.write_payload(SCHEMA, OURS))
            except (NumberingError, Malformed):
                pass
        self.assertGreater(made, 10)

    def test_copies(self):
        numbering = Numbering(SMALL)
        for other in (copy.copy(numbering), copy.deepcopy(numbering), pickle.loads(pickle.dumps(numbering))):
            self.assertEqual((other.text, other.write_payload(SCHEMA, OURS)), (numbering.text, THEIRS))

    def test_any_thread(self):
        numbering = Numbering(SMALL)
        found = []

        def work():
            found.extend(numbering.read_payload(SCHEMA, numbering.write_payload(SCHEMA, OURS)) for _ in range(500))

        threads = [threading.Thread(target=work) for _ in range(4)]
        for thread in threads:
            thread.start()
        for thread in threads:
            thread.join()
        self.assertEqual(found, [OURS] * 2000)

    def test_errors_of_the_library(self):
        for function in ("journal_numbering_text", "journal_numbering", "journal_renumber"):
            with replaced(function, returning(-2)), self.assertRaises(OutOfMemory):
                Numbering(SMALL).read_payload(SCHEMA, b"")
        with replaced("journal_numbering_text", returning(0, 3)), self.assertRaises(JournalError) as error:
            Numbering(SMALL)
        text = "the library returned the kind of numbering 3, which this package does not know"
        self.assertEqual((type(error.exception), str(error.exception)), (JournalError, text))


def at_2000(found):
    """A field of a description at the number that the set of all messages has."""
    return f"{found[1]}{renumbered(int(found[2]))}"


@unittest.skipUnless(shutil.which("protoc"), "not run: there is no protoc")
class TestProtoc(unittest.TestCase):
    def numbering(self, *words):
        """The numbering of the set that protoc writes."""
        command = ["protoc", "--include_imports", "-o", "/dev/stdout", *map(str, words)]
        return Numbering(subprocess.run(command, check=True, stdout=subprocess.PIPE).stdout)

    def test_lists(self):
        for name in ("other", "awkward"):
            numbering = self.numbering(f"--proto_path={TOP / 'tests/adopt'}", f"{name}.proto")
            self.assertEqual(numbering.text, (TOP / f"tests/adopt/{name}.schema").read_text())

    def test_other_numbers(self):
        text = (TOP / "proto/journal.proto").read_text()
        with tempfile.TemporaryDirectory() as folder:
            path = pathlib.Path(folder, "other.proto")
            path.write_text(re.sub(r"(?m)^( +(?:\w+ )?\w+ \w+ = )(\d+)", at_2000, text))
            numbering = self.numbering(f"--proto_path={TOP / 'proto'}", f"--proto_path={folder}", path.name)
        for name, word in PAYLOADS:
            payload = b"" if word == "-" else bytes.fromhex(word)
            theirs = numbering.write_payload(name, payload)
            self.assertEqual(theirs, at_other_numbers(getattr(messages, name), payload))
            self.assertEqual(numbering.read_payload(name, theirs), payload)


class TestStreams(unittest.TestCase):
    def test_whole_streams(self):
        numbering = Numbering(SMALL)
        ours = framed(OURS) + OTHERS + framed(OURS) + TRAILING
        theirs = framed(THEIRS) + OTHERS + framed(THEIRS) + TRAILING
        for stream in (ours, bytearray(ours)):
            self.assertEqual(numbering.write_stream(8, stream), theirs)
        self.assertEqual(numbering.read_stream(8, theirs), ours)
        self.assertEqual(numbering.read_stream(8, b""), b"")
        # a skipped message is copied, with a payload that is none
        skipped = bytes.fromhex("0008000000000002ffff")
        self.assertEqual(numbering.write_stream(9, skipped + framed(OURS)), skipped + framed(THEIRS))

    def test_journals(self):
        numbering = Numbering(ALL)
        streams = TOP / "examples/streams"
        for name in ("recorded", "replay", "replayed_other_handler", "replayed_other_payload"):
            ours = (streams / name).read_bytes()
            theirs = numbering.write_stream(8, ours)
            self.assertNotEqual(theirs, ours)
            self.assertEqual(numbering.read_stream(8, theirs), ours)

    def test_suspensions_of_each_version(self):
        numbering = Numbering(ALL)
        for version, payload in ((6, "0a0401020103"), (7, "22120a010122080a010222030a010122030a0103")):
            ours = framed(bytes.fromhex(payload), bytes.fromhex("00010000"))
            record = Message(version, 1, ours[8:]).message
            theirs = numbering.write_stream(version, ours)
            self.assertEqual(theirs[8:], at_other_numbers(type(record), ours[8:]))
            self.assertEqual(numbering.read_stream(version, theirs), ours)

    def test_errors(self):
        numbering = Numbering(SMALL)
        with self.assertRaises(Malformed) as error:
            numbering.read_stream(8, OTHERS + framed(b"\n"))
        text = "SetStateCommand at offset 17: payload of 1 byte is malformed"
        self.assertEqual(str(error.exception), text)
        self.assertEqual((error.exception.code, error.exception.offset), (SET_STATE_COMMAND, 17))
        for call in (numbering.read_stream, numbering.write_stream):
            for version in (4, 10, -1, 1 << 32):
                with self.assertRaises(Unknown) as unknown:
                    call(version, framed(b""))
                self.assertEqual((unknown.exception.argument, unknown.exception.value), ("version", version))
            self.assertRaises(TypeError, call, 8, "text")

    def test_a_dump(self):
        numbering = Numbering(SMALL)
        payload = block(9, b"x") + THEIRS
        stream = framed(payload, PLAIN) + TRAILING
        lines = [json.loads(line) for line in numbering.dump(8, stream).splitlines()]
        fields = {"extra": "eA==", "key": "YQ==", "name": "n", "value": {"content": "MQ=="}}
        size = len(payload)
        self.assertEqual(
            lines,
            [
                {"offset": 0, "type": "SetStateCommand", "code": 1027, "length": size, "message": fields},
                {"offset": 8 + size, "rest": 9, "bytes": base64.b64encode(TRAILING).decode()},
            ],
        )
        self.assertEqual(json.loads(numbering.dump(9, b"")), {"offset": 0, "rest": 0})
        with self.assertRaises(Unknown) as unknown:
            numbering.dump(4, b"")
        self.assertEqual(str(unknown.exception), "unknown protocol version 4 (5 to 9)")
        self.assertRaises(TypeError, numbering.dump, 8, "text")

    def test_journals_are_compared(self):
        numbering = Numbering(ALL)
        theirs = [numbering.write_stream(8, journal) for journal in (RECORDED, REPLAYED)]
        verdict = compare_journals(8, *(numbering.read_stream(8, journal) for journal in theirs))
        self.assertEqual(verdict, compare_journals(8, RECORDED, REPLAYED))


class TestReaders(unittest.TestCase):
    def items_of(self, stream, data, size):
        for begin in range(0, len(data), size):
            stream.feed(data[begin : begin + size])
            yield from stream

    def test_items(self):
        theirs = framed(THEIRS) + OTHERS + framed(THEIRS) + TRAILING
        numbering = Numbering(SMALL)
        for size in range(1, len(theirs) + 1):
            stream = Stream(8, numbering=numbering)
            items = list(self.items_of(stream, theirs, size))
            self.assertEqual([item.offset for item in items], [0, 19, 28, 36])
            self.assertEqual(b"".join(item.bytes for item in items) + stream.trailing, theirs)
            self.assertEqual([item.payload for item in items if isinstance(item, Message)], [OURS, b"\xff", OURS])
            self.assertEqual(items[3].record(SetStateCommandMessage), SetStateCommandMessage.decode(OURS))
            self.assertEqual(items[3].message, SetStateCommandMessage.decode(OURS))
            self.assertEqual(items[0].json(), {"key": "YQ==", "name": "n", "value": {"content": "MQ=="}})
            self.assertEqual((items[0].word, items[0].requested_ack), (int.from_bytes(theirs[:8], "big"), False))
            self.assertEqual((items[0].canonical(), items[0].frame()), (OURS, framed(OURS, PLAIN)))
            with self.assertRaises(Exception) as ended:
                stream.finish()
            self.assertEqual((ended.exception.rest, ended.exception.offset), (len(TRAILING), len(theirs) - 9))

    def test_other_ways(self):
        theirs = framed(THEIRS) * 3
        found = list(Stream(numbering=Numbering(SMALL)).read(io.BytesIO(theirs), 7))
        self.assertEqual([(item.offset, item.payload) for item in found], [(0, OURS), (19, OURS), (38, OURS)])
        written = io.BytesIO()
        for item in found:
            item.write_to(written)
        self.assertEqual(written.getvalue(), theirs)
        for other in (copy.copy(found[1]), copy.deepcopy(found[1]), pickle.loads(pickle.dumps(found[1]))):
            self.assertEqual((other, other.offset, other.bytes), (found[1], 19, framed(THEIRS)))

    def test_a_limit_is_that_of_the_stream_as_it_came(self):
        numbering = Numbering(SMALL)
        payload = THEIRS + block(9, bytes(50))
        stream = Stream(8, len(payload), numbering)
        stream.feed(framed(payload))
        self.assertEqual([item.payload for item in stream], [OURS])
        stream = Stream(8, len(payload) - 1, numbering)
        stream.feed(framed(THEIRS) + framed(payload))
        items = iter(stream)
        self.assertEqual(next(items).payload, OURS)
        with self.assertRaises(MessageTooLong) as error:
            next(items)
        self.assertEqual((error.exception.length, error.exception.offset), (len(payload), 19))

    def test_a_payload_that_is_none(self):
        stream = Stream(numbering=Numbering(SMALL))
        stream.feed(framed(THEIRS) + framed(b"\n") + framed(THEIRS))
        found = []
        with self.assertRaises(Malformed) as error:
            for item in stream:
                found.append(item.offset)
        text = "SetStateCommand at offset 19: payload of 1 byte is malformed"
        self.assertEqual(str(error.exception), text)
        self.assertEqual((error.exception.code, error.exception.offset, found), (SET_STATE_COMMAND, 19, [0]))
        # the next loop goes on after it
        self.assertEqual([item.offset for item in stream], [28])

    def test_a_call_that_is_repeated(self):
        stream = Stream(numbering=Numbering(SMALL))
        stream.feed(framed(THEIRS) * 2)
        for _ in range(2):
            with replaced("journal_renumber", returning(-2)):
                self.assertRaises(OutOfMemory, list, stream)
            # there is none for what the package makes
            with mock.patch.object(_named.named, "Stream", side_effect=MemoryError):
                self.assertRaises(MemoryError, list, stream)
        self.assertEqual([(item.offset, item.payload) for item in stream], [(0, OURS), (19, OURS)])

    def test_a_replay(self):
        numbering = Numbering(ALL)
        for name in ("recorded", "replayed_other_handler", "replayed_other_payload"):
            ours = (TOP / "examples/streams" / name).read_bytes()
            said = []
            for stream, data in ((Stream(8), ours), (Stream(8, numbering=numbering), numbering.write_stream(8, ours))):
                replay = Replay(8, RECORDED)
                stream.feed(data)
                offsets = []
                for item in stream:
                    mismatch = replay.check(item)
                    if mismatch is not None:
                        self.assertEqual(mismatch.replayed_offset, item.offset)
                        offsets.append((mismatch.kind, mismatch.index, mismatch.recorded_offset, mismatch.fields))
                said.append((offsets, replay.index, replay.finish()))
            self.assertEqual(*said)

    def test_the_end_of_a_replay(self):
        numbering = Numbering(SMALL)
        replay = Replay(8, framed(OURS) * 2)
        stream = Stream(numbering=numbering)
        payload = THEIRS + block(9, b"extra")
        stream.feed(framed(payload))
        self.assertEqual([replay.check(item) for item in stream], [None])
        self.assertEqual(replay.finish().replayed_offset, 8 + len(payload))

    def test_what_is_no_numbering(self):
        for numbering in (5, "set", SMALL, object()):
            with self.assertRaises(TypeError) as error:
                Stream(8, numbering=numbering)
            self.assertEqual(
                str(error.exception), f"Stream: numbering must be a Numbering, not {type(numbering).__name__}"
            )


class TestFrames(unittest.TestCase):
    def test_frames(self):
        numbering = Numbering(SMALL)
        record = SetStateCommandMessage.decode(OURS)
        wanted = framed(THEIRS, PLAIN)
        made = Message.of("SetStateCommand", OURS)
        out, file = bytearray(b"x"), io.BytesIO()
        self.assertEqual(record.frame(8, numbering=numbering), wanted)
        self.assertEqual(made.frame(numbering=numbering), wanted)
        self.assertEqual(made.frame(9, numbering=numbering), wanted)
        self.assertEqual(frame(8, SET_STATE_COMMAND, OURS, numbering=numbering), wanted)
        self.assertEqual(made.append_frame(out, numbering=numbering), len(wanted))
        self.assertEqual(append_frame(out, 8, SET_STATE_COMMAND, OURS, numbering=numbering), len(wanted))
        made.write_frame(file, numbering=numbering)
        self.assertEqual((bytes(out), file.getvalue()), (b"x" + wanted * 2, wanted))
        # a message received at other numbers
        stream = Stream(numbering=numbering)
        stream.feed(framed(THEIRS))
        (item,) = stream
        self.assertEqual((item.frame(), item.frame(numbering=numbering)), (frame(8, item.code, OURS), wanted))

    def test_the_header_is_that_of_the_type(self):
        record = messages.ProposeRunCompletionMessage(result_completion_id=1, result=b"x")
        theirs = record.frame(8, numbering=Numbering(ALL))
        self.assertEqual(theirs[:4], record.frame(8)[:4])
        self.assertEqual(theirs[8:], at_other_numbers(type(record), record.encode()))

    def test_suspensions(self):
        numbering = Numbering(ALL)
        record = SuspensionMessageV6(waiting_completions=(1, 300))
        theirs = record.frame(6, numbering=numbering)
        self.assertEqual(theirs[8:], block(renumbered(1), b"\x01\xac\x02"))
        self.assertEqual(Message(6, 1, record.encode()).frame(5, numbering=numbering), theirs)
        self.assertRaises(Unknown, record.frame, 7, numbering=numbering)

    def test_errors(self):
        numbering = Numbering(SMALL)
        out = bytearray(b"x")
        made = Message.of("SetStateCommand", b"\n")
        self.assertRaises(Malformed, made.append_frame, out, numbering=numbering)
        self.assertRaises(Malformed, append_frame, out, 8, SET_STATE_COMMAND, b"\n", numbering=numbering)
        self.assertEqual(out, b"x")
        record = SetStateCommandMessage()
        for call in (record.frame, Message.of_record(record).frame, functools.partial(frame, 8, 0, b"")):
            with self.assertRaises(TypeError) as error:
                call(numbering=SMALL)
            self.assertEqual(str(error.exception), "frame: numbering must be a Numbering, not bytes")
        with replaced("journal_renumber", returning(-4)):
            self.assertRaises(TooLong, record.frame, numbering=numbering)


if __name__ == "__main__":
    unittest.main()
