"""Items of streams, however they come."""

import array
import ctypes
import dataclasses
import io
import os
import socket
import sys
import tarfile
import threading
import traceback
import tracemalloc
import unittest
from unittest import mock

from pendratsoa import Incomplete, JournalError, Malformed, Message, MessageTooLong, Skipped, Stream, TooLong
from pendratsoa import UnknownCode, canonical
from pendratsoa._library import library
from pendratsoa._pending import Pending
from support import CALL_COMMAND, INPUT, INPUT_COMMAND, INPUT_LENGTH, RECORDED, STREAM, UNKNOWN_WORD
from support import replaced, returning

EXPECTED = [Message(8, INPUT_COMMAND, INPUT[8:], False), UnknownCode(8, 8, UNKNOWN_WORD)]


class TestFeeding(unittest.TestCase):
    def test_items_are_the_same_however_the_stream_is_split(self):
        for size in range(1, len(STREAM) + 1):
            stream = Stream()
            found = []
            for begin in range(0, len(STREAM), size):
                stream.feed(memoryview(STREAM)[begin : begin + size])
                found += stream
            self.assertEqual(found, EXPECTED)
            self.assertEqual(stream.rest, 8)

    def test_chunks_that_come_before_any_is_read(self):
        for size in range(1, len(STREAM) + 1):
            stream = Stream()
            for begin in range(0, len(STREAM), size):
                stream.feed(STREAM[begin : begin + size])
            self.assertEqual(stream.rest, len(STREAM))
            self.assertEqual((list(stream), stream.rest), (EXPECTED, 8))

    def test_feeding_within_the_loop(self):
        stream = Stream()
        stream.feed(INPUT)
        found = 0
        for _ in stream:
            found += 1
            self.assertEqual(stream.rest, 0)
            if found < 100:
                stream.feed(INPUT[:5])
                stream.feed(b"")
                stream.feed(INPUT[5:])
        self.assertEqual((found, stream.rest), (100, 0))

    def test_a_loop_that_has_ended(self):
        stream = Stream()
        items = iter(stream)
        self.assertEqual(list(items), [])
        stream.feed(INPUT)
        self.assertEqual((list(items), list(stream)), ([], EXPECTED[:1]))

    def test_the_attributes_of_items(self):
        for version in (8, 9):
            stream = Stream(version)
            stream.feed(INPUT + bytes.fromhex("0008000000000000"))
            for item in stream:
                self.assertEqual([*vars(item)], [field.name for field in dataclasses.fields(item)])

    def test_two_loops_at_once_share_the_items(self):
        stream = Stream()
        stream.feed(INPUT * 10)
        self.assertEqual(len(list(zip(stream, stream))), 5)

    def test_what_is_read_is_dropped(self):
        stream = Stream()
        tracemalloc.start()
        found = 0
        for _ in range(200):
            stream.feed(INPUT * 100)
            found += sum(1 for _ in stream)
        _, peak = tracemalloc.get_traced_memory()
        tracemalloc.stop()
        self.assertEqual((found, stream.rest), (20_000, 0))
        # 340 kB came
        self.assertLess(peak, 50_000)

    def test_a_long_message_in_small_chunks_is_joined_once(self):
        length = 1 << 22
        stream = Stream()
        stream.feed(INPUT[:4] + length.to_bytes(4, "big"))
        self.assertEqual(list(stream), [])
        chunk = bytes(1 << 10)
        looks = []

        def looking(name):
            found = getattr(library, name)

            def look(*parameters):
                looks.append(parameters)
                return found(*parameters)

            return replaced(name, look)

        tracemalloc.start()
        # the compiled module looks for one item, and ctypes for many
        with looking("journal_next"), looking("journal_items"):
            for _ in range(length >> 10):
                self.assertEqual(list(stream), [])
                stream.feed(chunk)
            (message,) = stream
        _, peak = tracemalloc.get_traced_memory()
        tracemalloc.stop()
        # for the message, and whether there is another
        self.assertEqual(len(looks), 2)
        self.assertEqual((len(message.payload), stream.rest), (length, 0))
        # the joined bytes and the payload, and the list of chunks
        self.assertLess(peak, 2 * length + (1 << 20))

    def test_any_view_of_bytes(self):
        doubled = bytes(byte for byte in STREAM for _ in range(2))
        for data in (
            bytearray(STREAM),
            memoryview(b"front" + STREAM + b"end")[5:-3],
            memoryview(doubled)[::2],
            array.array("B", STREAM),
        ):
            stream = Stream()
            stream.feed(data)
            self.assertEqual((list(stream), stream.rest), (EXPECTED, 8))

    def test_bytes_that_change_once_they_were_fed(self):
        data = bytearray(STREAM)
        stream = Stream()
        stream.feed(data)
        data[:] = bytes(len(data))
        del data[3:]
        self.assertEqual(list(stream), EXPECTED)

    def test_an_error_that_is_raised_again_holds_no_more(self):
        stream = Stream(8, max_message_size=1)
        stream.feed(INPUT)
        lengths = []
        # assertRaises would clear the frames
        for _ in range(10):
            try:
                list(stream) if not lengths else stream.finish()
            except MessageTooLong as error:
                lengths.append(len(traceback.extract_tb(error.__traceback__)))
        # a loop over what the compiled module took has no frame
        self.assertIn(lengths[0], (2, 3))
        self.assertEqual(lengths[1:], [4] * 9)

    def test_a_call_within_a_call(self):
        pending = Pending(8, None)
        pending.feed(INPUT)
        look, found = pending._look, []

        def looked():
            for call in (pending.take, pending.rest, pending.trailing, pending.head, lambda: pending.feed(INPUT)):
                self.assertRaises(RuntimeError, call)
            return look()

        with mock.patch.object(pending, "_look", looked):
            found.append(pending.take())
        self.assertEqual((found, pending.rest()), (EXPECTED[:1], 0))

    def test_an_error_that_is_kept_locks_nothing(self):
        stream = Stream()
        stream.feed(INPUT)
        data = bytearray(b"\x12")
        kept = []
        # assertRaises would clear the frames
        try:
            canonical(13, data)
        except Malformed as error:
            kept.append(error)
        with replaced("journal_next", returning(-2)), replaced("journal_items", returning(-2)):
            try:
                list(stream)
            except MemoryError as error:
                kept.append(error)
        self.assertEqual(len(kept), 2)
        data += b"\x00"
        stream.feed(data)
        self.assertEqual((list(stream), stream.rest), (EXPECTED[:1], 2))

    def test_an_item_of_another_kind(self):
        stream = Stream()
        stream.feed(STREAM)
        numbers = 3, 0, 0, 0, 17, 8

        def items(version, limit, data, length, table, room):
            (ctypes.c_uint64 * len(numbers)).from_address(table)[:] = numbers
            return 1

        with replaced("journal_next", returning(0, *numbers)), replaced("journal_items", items):
            for _ in range(2):
                with self.assertRaises(JournalError) as later:
                    next(iter(stream))
                self.assertIs(type(later.exception), JournalError)
                text = "the library returned the kind of item 3, which this package does not know"
                self.assertEqual(str(later.exception), text)
        self.assertEqual(list(stream), EXPECTED)

    def test_a_message_that_is_longer_than_the_limit(self):
        endless = bytes.fromhex("00000000ffffffff010203")
        stream = Stream(max_message_size=INPUT_LENGTH)
        stream.feed(INPUT + endless)
        found = []
        for _ in range(2):
            with self.assertRaises(MessageTooLong) as ended:
                for item in stream:
                    found.append(item)
            what = f"a message of type Start (0x0000) at offset {len(INPUT)} has 4294967295 bytes"
            self.assertEqual(str(ended.exception), f"{what}, more than the limit of {INPUT_LENGTH}")
            error = ended.exception
            self.assertEqual((error.argument, error.value), ("max_message_size", INPUT_LENGTH))
            self.assertEqual((error.code, error.length, error.limit), (0, 0xFFFF_FFFF, INPUT_LENGTH))
            self.assertEqual(error.offset, len(INPUT))
            self.assertEqual(stream.rest, len(endless))
        self.assertEqual(found, EXPECTED[:1])
        for call in (lambda: stream.feed(b"x"), stream.finish, lambda: list(stream.read(io.BytesIO()))):
            with self.assertRaises(MessageTooLong):
                call()
        for strict in (False, True):
            with self.assertRaises(MessageTooLong):
                list(Stream(max_message_size=INPUT_LENGTH - 1).read(io.BytesIO(INPUT), strict=strict))
        unlimited = Stream()
        unlimited.feed(endless)
        self.assertEqual((list(unlimited), unlimited.rest), ([], 11))
        with self.assertRaises(ValueError):
            Stream(max_message_size=-1)
        with self.assertRaises(TooLong) as ended:
            Stream(max_message_size=1 << 32)
        self.assertIs(type(ended.exception), TooLong)

    def test_its_version(self):
        self.assertEqual([Stream(version).version for version in range(5, 10)], list(range(5, 10)))
        stream = Stream()
        with self.assertRaises(AttributeError):
            stream.version = 9

    def test_as_a_text(self):
        stream = Stream(9)
        stream.feed(b"123")
        self.assertEqual(repr(stream), "<Stream of version 9, 3 bytes in no item yet>")


class Trickle(io.RawIOBase):
    """A raw file that has one byte at a time, and now and then none yet."""

    def __init__(self, data):
        self.data = data
        self.at = 0
        self.is_ready = True

    def read(self, size):
        self.is_ready = not self.is_ready or self.at % 5 > 0
        if not self.is_ready:
            return None
        self.at += 1
        return self.data[self.at - 1 : self.at]


class TestReading(unittest.TestCase):
    def test_files(self):
        with open(os.path.join(os.path.dirname(__file__), "../../examples/streams/recorded"), "rb") as file:
            stream = Stream()
            found = list(stream.read(file))
        fed = Stream()
        fed.feed(RECORDED)
        self.assertEqual((found, stream.rest), (list(fed), 0))

    def test_every_size_and_what_is_left(self):
        for size in range(1, len(STREAM) + 2):
            stream = Stream()
            self.assertEqual(list(stream.read(io.BytesIO(STREAM), size, strict=False)), EXPECTED)
            self.assertEqual(stream.rest, 8)

    def test_what_was_fed_comes_first(self):
        stream = Stream()
        stream.feed(STREAM[:20])
        self.assertEqual(list(stream.read(io.BytesIO(STREAM[20:]), strict=False)), EXPECTED)
        self.assertEqual(list(stream.read(io.BytesIO(b""), strict=False)), [])
        stream = Stream()
        stream.feed(STREAM)
        self.assertEqual(list(stream.read(io.BytesIO(b""), strict=False)), EXPECTED)

    def test_items_come_before_the_end_of_a_pipe_and_of_a_socket(self):
        reading, writing = os.pipe()
        with open(reading, "rb") as file, open(writing, "wb", buffering=0) as other:
            other.write(INPUT)
            self.assertEqual(next(Stream().read(file)), EXPECTED[0])
        first, second = socket.socketpair()
        with first, second:
            stream = Stream()
            items = stream.read(first, strict=False)
            second.sendall(INPUT)
            self.assertEqual(next(items), EXPECTED[0])
            second.sendall(STREAM[len(INPUT) :])
            second.shutdown(socket.SHUT_WR)
            self.assertEqual((list(items), stream.rest), (EXPECTED[1:], 8))

    def test_a_file_that_has_no_bytes_yet(self):
        stream = Stream()
        file = Trickle(STREAM)
        found = []
        waited = 0
        while True:
            try:
                found += stream.read(file, strict=False)
                break
            except BlockingIOError:
                waited += 1
        self.assertEqual((found, stream.rest), (EXPECTED, 8))
        self.assertGreater(waited, 3)

    def test_a_buffered_file_that_does_not_block(self):
        reading, writing = os.pipe()
        os.set_blocking(reading, False)
        with open(reading, "rb") as file:
            stream = Stream()
            os.write(writing, STREAM[:20])
            self.assertRaises(BlockingIOError, list, stream.read(file))
            os.write(writing, STREAM[20:])
            os.close(writing)
            self.assertEqual((list(stream.read(file, strict=False)), stream.rest), (EXPECTED[1:], 8))

    def test_a_buffered_file_without_a_descriptor(self):
        data = io.BytesIO()
        with tarfile.open(fileobj=data, mode="w") as archive:
            entry = tarfile.TarInfo("journal")
            entry.size = len(STREAM)
            archive.addfile(entry, io.BytesIO(STREAM))
        data.seek(0)
        with tarfile.open(fileobj=data) as archive:
            self.assertEqual(list(Stream().read(archive.extractfile("journal"), strict=False)), EXPECTED)

    def test_what_cannot_be_read(self):
        for file, text in ((b"bytes", "bytes has not"), (None, "NoneType has not")):
            with self.assertRaises(TypeError) as error:
                Stream().read(file)
            self.assertEqual(str(error.exception), f"read: file must have a method read or recv, which {text}")
        with self.assertRaises(TypeError) as error:
            list(Stream().read(io.StringIO("text")))
        self.assertEqual(str(error.exception), "feed: data must be bytes-like, not str")
        for size in (0, -1):
            with self.assertRaises(ValueError):
                Stream().read(io.BytesIO(), size)


class TestTrailing(unittest.TestCase):
    def test_bytes_that_no_item_has(self):
        for size in range(1, len(STREAM) + 1):
            stream = Stream()
            taken = 0
            for begin in range(0, len(STREAM), size):
                stream.feed(memoryview(STREAM)[begin : begin + size])
                # before the items are taken, between two of them, and after the last one
                self.assertEqual(stream.trailing, STREAM[taken : begin + size])
                for item in stream:
                    taken += len(item.bytes)
                    self.assertEqual(stream.trailing, STREAM[taken : begin + size])
                self.assertIs(type(stream.trailing), bytes)
                self.assertEqual(len(stream.trailing), stream.rest)
            self.assertEqual(stream.trailing, STREAM[-8:])

    def test_none(self):
        stream = Stream()
        self.assertEqual(stream.trailing, b"")
        stream.feed(INPUT)
        self.assertEqual((len(list(stream)), stream.trailing), (1, b""))
        with self.assertRaises(AttributeError):
            stream.trailing = b"x"

    def test_chunks_that_are_kept(self):
        stream = Stream()
        data = bytearray(b"\x04\x00")
        for chunk in (data, INPUT[2:5], memoryview(INPUT)[5:6], b""):
            stream.feed(chunk)
        data[:] = b"xx"
        self.assertEqual([stream.trailing for _ in range(3)], [INPUT[:6]] * 3)
        stream.feed(INPUT[6:])
        self.assertEqual((list(stream), stream.trailing), (EXPECTED[:1], b""))

    def test_a_stream_that_ends_within_an_item(self):
        stream = Stream()
        items = stream.read(io.BytesIO(INPUT + INPUT[:12]), size=5)
        self.assertEqual(next(items), EXPECTED[0])
        for call in (lambda: next(items), stream.finish, stream.finish):
            with self.assertRaises(Incomplete) as ended:
                call()
            self.assertEqual((stream.trailing, ended.exception.rest), (INPUT[:12], 12))
        # more may come all the same
        stream.feed(INPUT[12:])
        self.assertEqual((list(stream), stream.trailing), (EXPECTED[:1], b""))

    def test_a_message_that_is_longer_than_the_limit(self):
        for chunks in ([INPUT + INPUT + b"more"], [INPUT, INPUT[:3], INPUT[3:8]]):
            stream = Stream(max_message_size=INPUT_LENGTH - 1)
            for chunk in chunks:
                stream.feed(chunk)
            self.assertEqual(stream.trailing, b"".join(chunks))
            for call in (lambda: list(stream), lambda: stream.feed(b"x"), stream.finish, lambda: list(stream)):
                self.assertRaises(MessageTooLong, call)
                self.assertEqual((stream.trailing, stream.rest), (b"".join(chunks), sum(map(len, chunks))))

    def test_what_is_passed_on_is_the_stream(self):
        for size in range(1, 20):
            stream = Stream()
            items = stream.read(io.BytesIO(STREAM + RECORDED[:-3]), size, strict=False)
            passed = b"".join(item.bytes for item in items)
            self.assertEqual(passed + stream.trailing, STREAM + RECORDED[:-3])


class TestItems(unittest.TestCase):
    def test_version_9_skips_a_message_with_its_payload(self):
        stream = Stream(9)
        stream.feed(bytes.fromhex("00080000000000020003000300000000"))
        self.assertEqual(list(stream), [Skipped(9, 8, UNKNOWN_WORD + 2, bytes.fromhex("0003"))])
        self.assertEqual(stream.rest, 6)

    def test_acknowledgement(self):
        stream = Stream()
        stream.feed(bytes.fromhex("00058000000000050801720178"))
        (message,) = stream
        self.assertTrue(message.requested_ack)
        self.assertEqual(message.type, "ProposeRunCompletion")

    def test_threads_share_a_stream(self):
        stream = Stream()
        found = []
        is_fed = threading.Event()
        self.addCleanup(sys.setswitchinterval, sys.getswitchinterval())
        sys.setswitchinterval(1e-6)

        def feed():
            for _ in range(1000):
                stream.feed(INPUT)

        def read():
            while not is_fed.is_set() or stream.rest > 0:
                found.extend(stream)

        feeding, reading = ([threading.Thread(target=work) for _ in range(4)] for work in (feed, read))
        for thread in feeding + reading:
            thread.start()
        for thread in feeding:
            thread.join()
        is_fed.set()
        for thread in reading:
            thread.join()
        self.assertEqual(found, EXPECTED[:1] * 4000)

    def test_a_call_of_a_recorded_journal(self):
        stream = Stream()
        stream.feed(RECORDED)
        call = next(item for item in stream if item.code == CALL_COMMAND)
        self.assertEqual((call.type, call.is_command), ("CallCommand", True))
        self.assertEqual((call.json()["serviceName"], call.json()["handlerName"]), ("Greeter", "greet"))


if __name__ == "__main__":
    unittest.main()
