"""Items as received, frames with a destination, streams that are read asynchronously, and the end of a stream."""

import asyncio
import copy
import ctypes
import dataclasses
import io
import pickle
import unittest

from pendratsoa import (
    Incomplete,
    Malformed,
    Message,
    Skipped,
    Stream,
    Unknown,
    UnknownCode,
    append_frame,
    header,
)

from support import INPUT, INPUT_COMMAND, INPUT_LENGTH, replaced

# flags that no encoder sets, long lengths of fields, a custom entry, and what is of no type
FAITHFUL = {
    8: "0400123400000009" "72070a05696e707574" "040300000000000b" "0a81000a1a050a82007879"
    "fc01ffff00000001ff" "0008a5a500000000" "0003000000000000",
    9: "0008a5a500000002" "0003" "fc01000000000000",
}


class TestCopies(unittest.TestCase):
    def test_items_as_they_came(self):
        for version, digits in FAITHFUL.items():
            stream = bytes.fromhex(digits)
            for size in (1, 7, len(stream)):
                items = list(Stream(version).read(io.BytesIO(stream), size))
                self.assertEqual(b"".join(item.bytes for item in items), stream)
                self.assertEqual(b"".join(map(bytes, items)), stream)
                out = io.BytesIO()
                for item in items:
                    item.write_to(out)
                self.assertEqual(out.getvalue(), stream)
            for item in items:
                for other in (copy.copy(item), copy.deepcopy(item), pickle.loads(pickle.dumps(item))):
                    self.assertEqual((other, bytes(other), hash(other)), (item, bytes(item), hash(item)))

    def test_a_message_that_is_made(self):
        message = Message.of("ProposeRunCompletion", b"\x08\x81\x00")
        self.assertEqual(bytes(message), bytes.fromhex("0005800000000003088100"))
        self.assertIsNone(message.word)
        stream = Stream()
        stream.feed(bytes(message))
        (came,) = stream
        self.assertEqual((came, came.word), (message, 0x0005_8000_0000_0003))
        self.assertEqual(repr(came), repr(message))
        self.assertRaises(Unknown, bytes, Message(8, 8, b""))
        self.assertEqual(bytes(UnknownCode(8, 8, 2)), bytes(7) + b"\x02")
        self.assertEqual(bytes(Skipped(9, 8, 1, b"\xff")), bytes(7) + b"\x01\xff")

    def test_what_is_replaced_did_not_come(self):
        stream = Stream()
        stream.feed(bytes.fromhex(FAITHFUL[8]))
        message = dataclasses.replace(next(iter(stream)), payload=b"")
        self.assertEqual(bytes(message), header(8, INPUT_COMMAND, 0))


# suspensions received at a version, and their frames at another: the digits, or the error that it has none
V6, V7 = "08010a0202030804", "22120a010122080a010222030a010122030a0103"
SUSPENSIONS = (
    (6, V6, 6, "0001000000000006" "0a0401020304"),
    (6, V6, 5, "0001000000000006" "0a0401020304"),
    (5, V6, 6, "0001000000000006" "0a0401020304"),
    (6, V6, 7, Unknown),
    (5, V6, 9, Unknown),
    (6, V6, 10, Unknown),
    (6, "0a04", 6, Malformed),
    (7, V7, 7, "0001000000000014" + V7),
    (9, V7, 8, "0001000000000014" + V7),
    (9, V7, 6, "0001000000000006" "0a0401020103"),
    (7, V7, 5, "0001000000000006" "0a0401020103"),
)


class TestFrames(unittest.TestCase):
    def test_suspensions_of_each_version(self):
        for came, payload, version, wanted in SUSPENSIONS:
            message = Message(came, 1, bytes.fromhex(payload))
            out = bytearray(b"\xff")
            with self.subTest(came=came, version=version):
                if isinstance(wanted, type):
                    self.assertRaises(wanted, message.frame, version)
                    self.assertRaises(wanted, message.append_frame, out, version)
                    self.assertEqual(out, b"\xff")
                    continue
                frame = bytes.fromhex(wanted)
                self.assertEqual(message.frame(version), frame)
                self.assertEqual(message.append_frame(out, version), len(frame))
                self.assertEqual(out, b"\xff" + frame)
                self.assertEqual(message.message.frame(version), frame)
        text = "^protocol version 8 has no SuspensionMessageV6$"
        self.assertRaisesRegex(Unknown, text, Message(6, 1, b"").frame, 8)
        text = "^append_frame: out must be a bytearray"
        self.assertRaisesRegex(TypeError, text, Message(6, 1, b"").append_frame, b"")

    def test_a_destination(self):
        message = Message.of("InputCommand", INPUT[8:])
        out = bytearray(b"\xff")
        self.assertEqual(message.append_frame(out), len(INPUT))
        self.assertEqual(append_frame(out, 9, INPUT_COMMAND, memoryview(INPUT)[8:]), len(INPUT))
        self.assertEqual(out, b"\xff" + INPUT + INPUT)
        written = io.BytesIO()
        message.write_frame(written, 9)
        self.assertEqual(written.getvalue(), INPUT)

    def test_more_than_the_first_room(self):
        rooms = []

        def function(version, code, payload, length, address, room):
            rooms.append(room)
            if room >= 3000:
                ctypes.memset(address, 7, 3000)
            return 3000

        out = bytearray(b"\xff")
        with replaced("journal_frame", function):
            self.assertEqual(append_frame(out, 8, INPUT_COMMAND, b""), 3000)
        # what is tried first is enough for most, and then what is needed
        self.assertEqual(len(rooms), 2)
        self.assertLess(rooms[0], 3000)
        self.assertIn(rooms[1], (3000, 4096))
        self.assertEqual(out, b"\xff" + b"\x07" * 3000)

    def test_an_error_leaves_it_as_it_was(self):
        out = bytearray(b"\xff")
        for error, *arguments in (
            (Malformed, 8, INPUT_COMMAND, INPUT[8:10]),
            (Unknown, 4, INPUT_COMMAND, b""),
            (Unknown, 8, 8, b""),
            (TypeError, 8, INPUT_COMMAND, "text"),
        ):
            self.assertRaises(error, append_frame, out, *arguments)
            self.assertEqual(out, b"\xff")
        # it can still be resized
        out += b"more"
        self.assertRaises(TypeError, append_frame, b"", 8, INPUT_COMMAND, b"")
        held = memoryview(out)
        self.assertRaises(BufferError, append_frame, out, 8, INPUT_COMMAND, b"")
        self.assertEqual(held, b"\xffmore")


class TestEnd(unittest.TestCase):
    def test_finish(self):
        stream = Stream()
        stream.finish()
        stream.feed(INPUT)
        self.assertEqual(len(list(stream)), 1)
        stream.finish()
        stream.feed(b"\x04")
        with self.assertRaises(Incomplete) as caught:
            stream.finish()
        text = f"the stream ended within an item at offset {len(INPUT)}, after 1 byte of it"
        self.assertEqual(str(caught.exception), text)
        error = caught.exception
        self.assertEqual((error.call, error.rest, error.offset), ("finish", 1, len(INPUT)))
        self.assertIsInstance(caught.exception, EOFError)

    def test_the_code_of_an_item_that_is_cut(self):
        for data, code, name in (
            (INPUT[:1], None, "an item"),
            (INPUT[:2], INPUT_COMMAND, "InputCommand"),
            (INPUT[:7], INPUT_COMMAND, "InputCommand"),
            (b"\x00\x08", 8, "code 0x0008"),
        ):
            stream = Stream()
            for at in range(len(data)):
                stream.feed(data[at : at + 1])
            for items in ([], list(stream)):
                self.assertEqual(items, [])
                with self.assertRaises(Incomplete) as caught:
                    stream.finish()
                self.assertEqual((caught.exception.code, caught.exception.rest), (code, len(data)))
                text = f"the stream ended within {name} at offset 0, after {len(data)} byte"
                self.assertTrue(str(caught.exception).startswith(text), caught.exception)

    def test_finish_before_items_are_taken(self):
        for size in range(1, len(INPUT) + 1):
            stream = Stream()
            for begin in range(0, len(INPUT), size):
                stream.feed(INPUT[begin : begin + size])
            with self.assertRaises(Incomplete) as caught:
                stream.finish()
            text = f"the stream ended within InputCommand at offset 0, after {len(INPUT)} bytes of it"
            self.assertEqual(str(caught.exception), text)
            self.assertEqual((caught.exception.code, caught.exception.rest), (INPUT_COMMAND, len(INPUT)))
            self.assertEqual(len(list(stream)), 1)

    def test_a_file_that_ends_within_an_item(self):
        for strict in ({}, {"strict": True}):
            items = Stream().read(io.BytesIO(INPUT + INPUT[:5]), **strict)
            self.assertEqual(str(next(items)), f"InputCommand {INPUT_LENGTH}")
            text = rf"^the stream ended within InputCommand at offset {len(INPUT)}, after 5 bytes of it$"
            with self.assertRaisesRegex(Incomplete, text):
                next(items)
        self.assertEqual(len(list(Stream().read(io.BytesIO(INPUT)))), 1)

    def test_a_file_that_is_still_being_written(self):
        stream = Stream()
        self.assertEqual(len(list(stream.read(io.BytesIO(INPUT + INPUT[:5]), strict=False))), 1)
        self.assertEqual(stream.trailing, INPUT[:5])
        self.assertEqual(len(list(stream.read(io.BytesIO(INPUT[5:])))), 1)


class TestAsync(unittest.IsolatedAsyncioTestCase):
    async def test_a_reader(self):
        for version, digits in FAITHFUL.items():
            stream = bytes.fromhex(digits)
            for size in (1, 7, 1 << 16):
                reader = asyncio.StreamReader()
                reader.feed_data(stream)
                reader.feed_eof()
                found = [bytes(item) async for item in Stream(version).read_async(reader, size)]
                self.assertEqual(b"".join(found), stream)

    async def test_items_come_before_the_end(self):
        reader = asyncio.StreamReader()
        items = Stream().read_async(reader)
        reader.feed_data(INPUT + INPUT[:5])
        self.assertEqual(str(await items.__anext__()), f"InputCommand {INPUT_LENGTH}")
        waiting = asyncio.ensure_future(items.__anext__())
        # turns of the loop, and no time, in which a machine with much work would take none
        for _ in range(100):
            await asyncio.sleep(0)
        self.assertFalse(waiting.done())
        reader.feed_data(INPUT[5:])
        self.assertEqual(str(await waiting), f"InputCommand {INPUT_LENGTH}")

    async def test_a_reader_that_ends_within_an_item(self):
        for strict in ({}, {"strict": True}):
            reader = asyncio.StreamReader()
            reader.feed_data(INPUT + INPUT[:5])
            reader.feed_eof()
            items = Stream().read_async(reader, **strict)
            self.assertEqual(str(await items.__anext__()), f"InputCommand {INPUT_LENGTH}")
            with self.assertRaisesRegex(Incomplete, "^the stream ended"):
                await items.__anext__()

    async def test_a_reader_of_what_is_still_being_written(self):
        reader = asyncio.StreamReader()
        reader.feed_data(INPUT + INPUT[:5])
        reader.feed_eof()
        stream = Stream()
        self.assertEqual(len([item async for item in stream.read_async(reader, strict=False)]), 1)
        self.assertEqual(stream.trailing, INPUT[:5])

    async def test_a_connection(self):
        async def serve(reader, writer):
            for byte in INPUT + INPUT:
                writer.write(bytes([byte]))
                await writer.drain()
            writer.close()

        server = await asyncio.start_server(serve, "127.0.0.1", 0)
        reader, writer = await asyncio.open_connection(*server.sockets[0].getsockname())
        found = [item.type async for item in Stream().read_async(reader)]
        self.assertEqual(found, ["InputCommand", "InputCommand"])
        writer.close()
        server.close()
        await server.wait_closed()

    async def test_a_reader_of_the_other_kind(self):
        reader = asyncio.StreamReader()
        with self.assertRaisesRegex(TypeError, "read_async"):
            list(Stream().read(reader))
        with self.assertRaises(TypeError):
            [item async for item in Stream().read_async(io.BytesIO(INPUT))]
        self.assertRaises(ValueError, Stream().read_async, reader, 0)


if __name__ == "__main__":
    unittest.main()
