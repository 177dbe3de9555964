"""Arguments of wrong kinds, several threads and long loops: errors of Python, no crash and no growth of memory."""

import array
import contextlib
import inspect
import itertools
import os
import sys
import threading
import tracemalloc
import unittest

import pendratsoa
from pendratsoa import JournalError, Message, Numbering, Stream
from pendratsoa.messages import EndMessage, SuspensionMessageV6
from descriptors import ALL
from support import CALL_COMMAND, INPUT, RECORDED, SIGNAL_NOTIFICATION, least_growth

# how often a loop is done that must not take memory
LOOPS = int(os.environ.get("PENDRATSOA_LOOPS", "20000"))

FUNCTIONS = [getattr(pendratsoa, name) for name in pendratsoa.__all__ if inspect.isfunction(getattr(pendratsoa, name))]


def parameters_of(call):
    """The names of what a function has to be given."""
    parameters = inspect.signature(call).parameters.values()
    return [parameter.name for parameter in parameters if parameter.default is parameter.empty]


class LongerThanItIs(bytes):
    """Bytes that say that there are more of them."""

    def __len__(self):
        return 1 << 40


class OtherWhenEncoded(str):
    """A text whose own bytes say that there are more of them."""

    def encode(self, *_):
        return LongerThanItIs(b"SleepCommand")


class NoInteger:
    """What says that it is an integer, and is none."""

    def __index__(self):
        return "8"


def values():
    """Values of all kinds, most of them of none that a call takes."""
    released = memoryview(b"released")
    released.release()
    numbers = (0, 1, 8, -1, 1 << 16, (1 << 16) - 1, 1 << 32, (1 << 32) - 1, 1 << 63, 1 << 64, -(1 << 64), 1 << 100_000)
    texts = ("", "SleepCommand", "EndMessage", "\ud800", "\0", "x" * 100_000, OtherWhenEncoded("SleepCommand"))
    data = (b"", b"\xff" * 1000, bytearray(INPUT), memoryview(INPUT)[::-2], memoryview(b""), LongerThanItIs(INPUT))
    others = (None, True, 1.5, float("nan"), 1j, [], [1], {}, (), object(), NoInteger(), Ellipsis, int, released)
    return (*numbers, *texts, *data, *others, array.array("d", [1.0]), Stream(), Message(8, 0, b""), lambda: None)


class TestArguments(unittest.TestCase):
    def tried(self, call, *arguments, **named):
        """Whether a call rejects these with an error that a caller can expect."""
        try:
            call(*arguments, **named)
        except (JournalError, TypeError, ValueError):
            return True
        return False

    def test_every_kind_in_every_place(self):
        for call in FUNCTIONS:
            names = parameters_of(call)
            known = {"version": 8, "code": 0x0400, "schema": 13, "name": "SleepCommand", "payload_length": 0}
            good = {name: {**known, "json": "{}"}.get(name, b"") for name in names}
            refused = 0
            for name, value in itertools.product(names, values()):
                refused += self.tried(call, **{**good, name: value})
            self.assertTrue(not names or refused > len(values()) // 2, call)

    def test_every_kind_in_all_places_at_once(self):
        for call in FUNCTIONS:
            for value in values():
                self.tried(call, *[value] * len(parameters_of(call)))

    def test_messages_of_every_kind(self):
        for value in values():
            mixed = Message(8, CALL_COMMAND, value), Message(8, value, b""), Message(value, CALL_COMMAND, b"")
            for message in (Message(value, value, value, value), *mixed):
                for name in ("type", "schema", "is_command", "is_notification"):
                    self.tried(getattr, message, name)
                for call in (message.json, message.canonical, message.frame, message.notification, message.__repr__):
                    self.tried(call)
            self.tried(Message.of, value, value, value)
            self.tried(Message.of, "SleepCommand", value)
            self.tried(Message.from_json, value, value, value)
            self.tried(Message.from_json, "SleepCommand", value)

    def test_streams_of_every_kind(self):
        for value in values():
            self.tried(Stream, value)
            stream = Stream(9)
            self.tried(stream.feed, value)
            self.tried(list, stream)
            self.tried(stream.read, value)
            self.tried(stream.read, open, value)
            self.assertEqual(stream.rest, len(stream.trailing))

    def test_what_says_to_be_longer_than_it_is(self):
        self.assertEqual(pendratsoa.canonical(20, LongerThanItIs(INPUT[8:])), INPUT[8:])
        self.assertEqual(pendratsoa.type_name(pendratsoa.type_code(OtherWhenEncoded("CallCommand"))), "CallCommand")
        stream = Stream()
        stream.feed(LongerThanItIs(INPUT))
        self.assertEqual((len(list(stream)), stream.rest), (1, 0))

    def test_texts_of_what_is_of_another_kind(self):
        for call, text in (
            (lambda: pendratsoa.type_name("8"), "type_name: code must be an int, not str"),
            (lambda: pendratsoa.schema(8.0, 0), "schema: version must be an int, not float"),
            (lambda: pendratsoa.type_code(8), "type_code: name must be a str, not int"),
            (lambda: pendratsoa.canonical(0, "text"), "canonical: payload must be bytes-like, not str"),
            (lambda: pendratsoa.canonical(None, b""), "canonical: schema must be an int or a str, not NoneType"),
            (lambda: pendratsoa.merge(0, b"", 5), "merge: second must be bytes-like, not int"),
            (lambda: pendratsoa.from_json(0, 5), "from_json: json must be a str or bytes-like, not int"),
            (lambda: Stream().feed("text"), "feed: data must be bytes-like, not str"),
            (lambda: Stream("8"), "Stream: version must be an int, not str"),
            (lambda: Message.of(8.0), "Message.of: type must be an int or a str, not float"),
            (lambda: Message.of("SleepCommand", 5), "Message.of: payload must be bytes-like, not int"),
            (lambda: Message.of("SleepCommand", b"", "8"), "Message.of: version must be an int, not str"),
            (lambda: Message.from_json(8.0, "{}"), "Message.from_json: type must be an int or a str, not float"),
            (lambda: Message.from_json(0, "{}", "8"), "Message.from_json: version must be an int, not str"),
            (lambda: Message.of_record(EndMessage(), "8"), "Message.of_record: version must be an int, not str"),
            (lambda: SuspensionMessageV6().frame("8"), "frame: version must be an int, not str"),
        ):
            with self.assertRaises(TypeError) as error:
                call()
            self.assertEqual(str(error.exception), text)


class TestThreads(unittest.TestCase):
    def together(self, *work):
        """Runs these at once."""
        threads = [threading.Thread(target=each) for each in work]
        for thread in threads:
            thread.start()
        for thread in threads:
            thread.join()

    def test_calls_at_once(self):
        found = []

        def work():
            found.append([pendratsoa.canonical(13, b"\x12\x03abc" * (1 + at % 7)) for at in range(50)])

        self.together(*[work] * 4)
        self.assertEqual(found, [[b"\x12\x03abc"] * 50] * 4)

    def test_bytes_that_change_while_they_are_read(self):
        data = bytearray(b"\x12\x7f" + b"x" * 127) * 100
        wrong = []
        is_read = threading.Event()
        self.addCleanup(is_read.set)
        self.addCleanup(sys.setswitchinterval, sys.getswitchinterval())
        sys.setswitchinterval(1e-6)

        def change():
            # as long as others read, who may begin late
            for at in itertools.takewhile(lambda _: not is_read.is_set(), itertools.count()):
                data[0] = at % 256
                # while a view copies it, a bytearray cannot grow, which is an error of what lets it grow
                with contextlib.suppress(BufferError):
                    data.append(0)
                    del data[-1]

        def read():
            for _ in range(200):
                try:
                    pendratsoa.canonical(13, data)
                except pendratsoa.Malformed:
                    pass
                except Exception as error:
                    wrong.append(error)

        def read_in_two():
            try:
                self.together(read, read)
            finally:
                is_read.set()

        self.together(change, read_in_two, change)
        self.assertEqual(wrong, [])


class TestMemory(unittest.TestCase):
    def setUp(self):
        self.numbering = Numbering(ALL)

    def work(self):
        """Calls of all kinds, some of which are rejected."""
        stream = Stream()
        stream.feed(RECORDED)
        for item in stream:
            item.json()
            item.frame()
            item.canonical()
            Message.from_json(item.code, item.json())
        for _ in range(2):
            with self.assertRaises(pendratsoa.Malformed):
                pendratsoa.to_json(13, b"\xff" * 1000)
            with self.assertRaises(pendratsoa.JsonError):
                pendratsoa.from_json(13, '{"message":"text","code":"one"}')
            with self.assertRaises(pendratsoa.NoId):
                pendratsoa.notification(SIGNAL_NOTIFICATION, b"")
        theirs = self.numbering.write_stream(8, RECORDED)
        stream = Stream(8, numbering=self.numbering)
        stream.feed(theirs + stream.trailing)
        for item in stream:
            item.frame(numbering=self.numbering)
        with self.assertRaises(pendratsoa.Malformed):
            self.numbering.read_payload("Value", b"\n")

    def test_a_loop_takes_no_memory(self):
        def loop():
            # each turn is some twenty calls
            for _ in range(LOOPS // 20):
                self.work()

        for _ in range(100):
            self.work()
        self.assertLess(least_growth(loop, 1 << 20), 1 << 20)

    def test_a_loop_leaves_no_objects(self):
        for _ in range(10):
            self.work()
        tracemalloc.start()
        before, _ = tracemalloc.get_traced_memory()
        for _ in range(100):
            self.work()
        after, _ = tracemalloc.get_traced_memory()
        tracemalloc.stop()
        self.assertLess(after - before, 20_000)


if __name__ == "__main__":
    unittest.main()
