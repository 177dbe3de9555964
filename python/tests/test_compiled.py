"""The compiled module: what it leaves to Python, its memory and its references. All other tests are run with it too."""

import contextlib
import ctypes
import gc
import itertools
import os
import pathlib
import subprocess
import sys
import threading
import unittest
from unittest import mock

import pendratsoa
from pendratsoa import JournalError, Message, Skipped, Unknown, UnknownCode, _fast, _library, _named
from pendratsoa.messages import (
    RECORDS,
    CallCommandMessage,
    ErrorBehavior,
    ErrorMessage,
    Failure,
    Future,
    Header,
    InputCommandMessage,
    NotificationTemplate,
    NotificationTemplateSignalId,
    OutputCommandMessage,
    ProposeRunCompletionMessage,
    SetStateCommandMessage,
    SleepCommandMessage,
    StateKeys,
    Value,
    Void,
)

from support import CALL_COMMAND, INPUT, INPUT_COMMAND, least_growth, replaced, returning

# records of each kind and shape of field, and of long values
SAMPLES = (
    Void(),
    SetStateCommandMessage(key=b"counter", value=Value(b"1"), name="text"),
    CallCommandMessage(service_name="a", headers=(Header("k", "\u00e9\U0001f600"),) * 70, idempotency_key="b" * 3000),
    ErrorMessage(code=5, message="text", behavior=ErrorBehavior(-7), next_retry_delay=1 << 63),
    Future(waiting_completions=(1, 2), waiting_named_signals=("a", "b"), nested_futures=(Future(), Future())),
    NotificationTemplate(id=NotificationTemplateSignalId(3)),
    ProposeRunCompletionMessage(result=b"bytes"),
    ProposeRunCompletionMessage(result=Failure(500, "text")),
    StateKeys(tuple(b"%d" % number for number in range(500))),
    OutputCommandMessage(result=Value(bytes(70000))),
)

# what no field can have, or what has to be copied first
UNUSUAL = (
    (Value(content=bytearray(b"x")), b"\n\x01x"),
    (Value(content=memoryview(b"x")), b"\n\x01x"),
    (StateKeys(keys=[b"a", bytearray(b"b")]), b"\n\x01a\n\x01b"),
    (StateKeys(keys={b"a": 1, b"b": 2}.keys()), b"\n\x01a\n\x01b"),
    (StateKeys(keys=5), TypeError),
    (Value(content=5), TypeError),
    (SleepCommandMessage(wake_up_time=1 << 64), JournalError),
    (SleepCommandMessage(wake_up_time=True), b"\x08\x01"),
    (InputCommandMessage(headers=(Header(key="\ud800"),)), JournalError),
)


class Bytes(bytes):
    """A class below bytes."""


def _taken(data):
    """The next item of a new stream of these bytes."""
    stream = pendratsoa.Stream()
    stream.feed(data)
    return next(iter(stream))


def ends(work):
    """What a call returns, or the class of its error."""
    try:
        return work()
    except Exception as error:
        return type(error)


@contextlib.contextmanager
def in_python():
    """Without the compiled module."""
    kept = [record._compiled for record in RECORDS]
    for record in RECORDS:
        record._compiled = None
    try:
        yield
    finally:
        for record, compiled in zip(RECORDS, kept):
            record._compiled = compiled


class TestChoice(unittest.TestCase):
    def test_the_variable(self):
        package = str(pathlib.Path(pendratsoa.__file__).parents[1])
        for value, wanted in (("1", False), ("", _fast.native() is not None)):
            environment = {**os.environ, "PYTHONPATH": package, "PENDRATSOA_PURE": value}
            if os.environ.get("PENDRATSOA_PURE") and not value:
                continue
            command = [sys.executable, "-c", "import pendratsoa; print(pendratsoa.COMPILED)"]
            run = subprocess.run(command, env=environment, capture_output=True, text=True)
            self.assertEqual((run.stdout, run.stderr), (f"{wanted}\n", ""))


@unittest.skipUnless(pendratsoa.COMPILED, "the compiled module is not in use")
class TestCompiled(unittest.TestCase):
    def test_samples_are_the_same_in_python(self):
        for record in SAMPLES:
            payload = record.encode()
            self.assertEqual(type(record)._compiled.encode(record), payload)
            made = type(record)._compiled.decode(payload)
            self.assertEqual((made, type(made), repr(made)), (record, type(record), repr(record)))
            with in_python():
                self.assertEqual((record.encode(), type(record).decode(payload)), (payload, record))

    def test_the_unusual_is_left_to_python(self):
        for record, wanted in UNUSUAL:
            with self.subTest(record):
                self.assertIn(type(record)._compiled.encode(record), (None, wanted))
                found = ends(record.encode)
                is_right = found == wanted or (isinstance(found, type) and issubclass(found, wanted))
                self.assertTrue(is_right, found)
        for payload in (bytearray(b"\n\x01x"), Bytes(b"\n\x01x"), b"\n\x81\x00x"):
            self.assertIsNone(Value._compiled.decode(payload))
            self.assertEqual(Value.decode(payload), Value(b"x"))
        for payload in (b"\n", None, "text"):
            self.assertIsNone(Value._compiled.decode(payload))
        lacking = Value()
        del lacking.__dict__["content"]
        for other in (lacking, 5, None):
            self.assertIsNone(Value._compiled.encode(other))

    def test_a_record_that_has_itself(self):
        futures = []
        futures.append(Future(nested_futures=futures))
        self.assertIsNone(Future._compiled.encode(futures[0]))
        self.assertRaises(RecursionError, futures[0].encode)

    def test_tables_of_a_later_library(self):
        entry = (0, 1, 6, 0, 0, 1)
        for schema, count, *table in (
            (Value, 1, (0, 2, 6, 0, 0, 1)),
            (Value, 1, (0, 1 << 63, 6, 0, 0, 1)),
            (Value, 1, (1, 1, 6, 0, 0, 1)),
            (Value, 65, *[entry] * 65),
            (StateKeys, 3, entry, (0, 1, 6, 0, 1, 0), (0, 1, 6, 0, 0, 0)),
            (Value, -99),
        ):

            def function(number, payload, length, entries, room):
                numbers = [number for row in table[:room] for number in row]
                (ctypes.c_uint64 * len(numbers)).from_address(entries or 0)[:] = numbers
                return count

            with self.subTest(table), replaced("journal_fields", function):
                found = ends(lambda: schema.decode(b"x"))
                with in_python():
                    self.assertEqual(found, ends(lambda: schema.decode(b"x")))

    def test_places_that_are_not_in_the_payload(self):
        for place in ((0, 2), (2, 0), (1, (1 << 64) - 1), ((1 << 64) - 1, 2)):

            def function(number, payload, length, entries, room):
                (ctypes.c_uint64 * 6).from_address(entries)[:] = (0, 1, 6, 0, *place)
                return 1

            with self.subTest(place), replaced("journal_fields", function):
                self.assertIsNone(Value._compiled.decode(b"x"))

    def test_what_it_is_made_of(self):
        native = _fast.native()
        addresses = _library.library.addresses()
        whole = {"addresses": addresses, "records": (), "items": (Message, UnknownCode, Skipped), "schemas": {}}
        whole.update(checked=None, refused=None)
        for changed, error in (
            ({"addresses": [*addresses]}, TypeError),
            ({"addresses": addresses[1:]}, TypeError),
            ({"addresses": ("1", *addresses[1:])}, TypeError),
            ({"items": (Message, UnknownCode)}, TypeError),
            ({"items": (Message, UnknownCode, 5)}, TypeError),
            ({"schemas": ()}, TypeError),
            ({"records": []}, TypeError),
            ({"records": (5,)}, TypeError),
            ({"records": ((5, -1, {}, ()),)}, TypeError),
            ({"records": ((Value, "code", {}, ()),)}, TypeError),
            ({"records": ((Value, -1, {}, (5,)),)}, TypeError),
            ({"records": ((Value, -1, {}, ((1, 7, 0, "name", 1, None, None),)),)}, ValueError),
            ({"records": ((Value, -1, {}, ((1, 4, 0, "name", -1, None, None),)),)}, ValueError),
            ({"records": ((Value, -1, {}, ((1, 6, 4, "name", -1, None, None),)),)}, ValueError),
            ({"records": ((Value, -1, {}, ((1, 6, 0, 5, -1, None, None),)),)}, TypeError),
        ):
            with self.subTest(changed):
                self.assertRaises(error, type(native), **{**whole, **changed})
        self.assertRaises(TypeError, type(native))
        for number in (-1, len(RECORDS), 1 << 80):
            self.assertRaises((IndexError, OverflowError), native.of, number)
            self.assertRaises((IndexError, OverflowError), native.call, number, "name")
        self.assertRaises(TypeError, native.call, 0, 5)
        for arguments in ((1 << 32, None), (8, 1 << 32), (-1, None), ("8", None), (8, "1")):
            self.assertRaises((TypeError, OverflowError), native.pending, *arguments)
        pending = native.pending(8, None)
        for made in (native.of(0), native.call(0, "name"), pending, pending.items(None)):
            self.assertRaises(TypeError, type(made))
        used = sys.getrefcount(Value)
        del native, pending, made
        gc.collect()
        self.assertEqual(sys.getrefcount(Value), used - 1)

    def test_calls_that_are_given_otherwise(self):
        native = _fast.native()
        header = native.call(_named.PLACES["header"], "header")
        for given in ((), (8,), (8, INPUT_COMMAND, 0, 0)):
            self.assertRaises(TypeError, header, *given)
        self.assertRaises(TypeError, header, 8, INPUT_COMMAND, payload_length=0)
        self.assertEqual(header(8, INPUT_COMMAND, 9), INPUT[:8])
        with self.assertRaisesRegex(Unknown, "^unknown code 0x040d, ") as unknown:
            native.call(_named.PLACES["notification"], "name")(CALL_COMMAND, b"")
        self.assertEqual(unknown.exception.call, "name")

    def test_what_is_left_of_a_stream(self):
        pending = _fast.native().pending(8, None)
        self.assertRaises(TypeError, pending.feed, bytearray(INPUT))
        pending.feed(INPUT)
        self.assertEqual((pending.rest(), pending.trailing(), pending.offset()), (len(INPUT), INPUT, 0))
        # of a later library, or of none
        for numbers in ((0, 0, 0, 0, len(INPUT) + 1, 8), (0, 0, 0, 0, len(INPUT), 1 << 63)):
            with replaced("journal_next", returning(0, *numbers)):
                self.assertRaises(SystemError, _taken, INPUT)
        self.assertEqual(pending.take().bytes, INPUT)
        self.assertEqual((pending.take(), pending.rest(), pending.offset()), (None, 0, len(INPUT)))

    def test_a_loop_over_what_is_left(self):
        pending, given = _fast.pending_of(8, None), []
        pending.feed(INPUT * 2)
        items = pending.items(given.append)
        self.assertIs(iter(items), items)
        self.assertEqual(next(items).bytes, INPUT)
        # what gives the number to a function that raises nothing
        for number, numbers in ((-2, ()), (0, (3, 0, 0, 0, len(INPUT), 8))):
            with replaced("journal_next", returning(number, *numbers)):
                self.assertRaises(SystemError, next, pending.items(given.append))
        self.assertEqual(given, [-2, 3])
        with replaced("journal_next", returning(-2)):
            self.assertRaises(TypeError, next, pending.items(None))
        self.assertEqual([item.offset for item in items], [len(INPUT)])

    def test_codes_that_have_one_place(self):
        pending = _fast.native().pending(8, None)
        codes = [*range(0xFC00, 0xFD00), *range(0xFC00, 0xFD00), *[0xFCFF] * 2]
        for code in codes:
            pending.feed(pendratsoa.header(8, code, 0))
        self.assertEqual([item.code for item in pending.items(None)], codes)

    def test_long_calls_of_several_threads(self):
        record = OutputCommandMessage(result=Value(bytes(range(256)) * 4000))
        schema, code, payload = record.SCHEMA, record.CODE, record.encode()
        wanted = pendratsoa.header(8, code, len(payload)) + payload

        def work(found):
            for _ in range(5):
                json = pendratsoa.to_json(schema, payload)
                verdict = pendratsoa.compare_journals(8, wanted, wanted)
                found += [
                    pendratsoa.frame(8, code, payload) == record.frame(8) == wanted,
                    # an empty name is left out
                    pendratsoa.canonical(schema, payload + b"\x62\x00") == payload,
                    pendratsoa.from_json(schema, json) == pendratsoa.from_json(schema, json.encode()) == payload,
                    type(record).decode(payload) == record,
                    (verdict.kind, verdict.index) == ("same", 1),
                ]

        results = [[] for _ in range(4)]
        threads = [threading.Thread(target=work, args=(found,)) for found in results]
        for thread in threads:
            thread.start()
        for thread in threads:
            thread.join()
        self.assertEqual(results, [[True] * 25] * 4)

    def test_what_runs_while_memory_is_collected(self):
        stream = pendratsoa.Stream()
        stream.feed(INPUT * 5000)
        found = []

        class Taking:
            """Takes an item where it is freed, which a collection does."""

            def __init__(self):
                self.itself = self

            def __del__(self):
                found.extend(item.offset for item in itertools.islice(stream, 1))

        thresholds = gc.get_threshold()
        self.addCleanup(gc.set_threshold, *thresholds)
        gc.set_threshold(1)
        for item in stream:
            found.append(item.offset)
            if len(found) % 100 == 0:
                Taking()
        gc.set_threshold(*thresholds)
        self.assertEqual(sorted(found), [*range(0, 5000 * len(INPUT), len(INPUT))])

    def test_the_last_item_is_taken_while_memory_is_collected(self):
        pending = _fast.native().pending(8, None)
        take, found, wanted = pending.take, [], [True]

        def collected(phase, _):
            if wanted:
                wanted.clear()
                found.append(take())

        pending.feed(InputCommandMessage(value=Value(bytes(4 << 20))).frame(8))
        # a new dict takes memory, and is none that was freed
        held = [{} for _ in range(500)]
        thresholds = gc.get_threshold()
        gc.callbacks.append(collected)
        gc.set_threshold(1)
        found.append(take())
        gc.set_threshold(*thresholds)
        gc.callbacks.remove(collected)
        del held
        self.assertEqual([item.offset for item in found if item is not None], [0])

    def test_an_interrupt_reaches_the_caller(self):
        payload = ErrorMessage(behavior=7).encode()
        with mock.patch.object(ErrorBehavior, "_missing_", side_effect=KeyboardInterrupt):
            self.assertRaises(KeyboardInterrupt, ErrorMessage._compiled.decode, payload)

    def test_references(self):
        record = ErrorMessage(behavior=ErrorBehavior.PAUSE, message="text")
        payload = SAMPLES[2].encode()
        held = (None, False, Value, Header, Message, ErrorBehavior.PAUSE, b"", "", (), record, payload, record.message)
        # those that are never freed have a count that says nothing
        held = [one for one in held if sys.getrefcount(one) < 1 << 28]

        def work():
            for _ in range(300):
                CallCommandMessage.decode(payload).encode()
                _taken(INPUT)
                ErrorMessage.decode(record.encode())
                ends(Value(content="text").encode)
                ends(lambda: Value.decode(b"\n"))

        work()
        before = [*map(sys.getrefcount, held)]
        work()
        after = [*map(sys.getrefcount, held)]
        for old, new in zip(before, after):
            self.assertLess(abs(new - old), 100)

    @unittest.skipUnless(os.path.exists("/proc/self/statm"), "there is no /proc")
    def test_memory(self):
        def work():
            for record in (*SAMPLES, *(record for record, _ in UNUSUAL)):
                for _ in range(300):
                    payload = ends(record.encode)
                    if isinstance(payload, bytes):
                        type(record).decode(payload)
                        ends(lambda: type(record).decode(payload + b"\xff"))

        def twice():
            work()
            work()

        work()
        self.assertLess(least_growth(twice, 2 << 20), 2 << 20)


if __name__ == "__main__":
    unittest.main()
