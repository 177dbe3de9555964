"""The records of messages: decoded, changed, encoded, and what cannot be."""

import copy
import ctypes
import dataclasses
import pathlib
import pickle
import re
import sys
import threading
import typing
import unittest
from unittest import mock

import pendratsoa
from pendratsoa import FieldError, FieldReason, JournalError, Malformed, Message, Stream, Unknown, messages
from pendratsoa import _items, _library, _records
from pendratsoa.messages import (
    RECORDS,
    CallCompletionNotificationMessage,
    CombinatorType,
    ErrorBehavior,
    ErrorMessage,
    Failure,
    FailureMetadata,
    Future,
    Header,
    InputCommandMessage,
    NotificationTemplate,
    NotificationTemplateCompletionId,
    NotificationTemplateSignalId,
    OutputCommandMessage,
    ProposeRunCompletionMessage,
    SendSignalCommandMessage,
    SetStateCommandMessage,
    SignalNotificationMessage,
    SleepCommandMessage,
    StateKeys,
    SuspensionMessage,
    SuspensionMessageV6,
    Value,
    Void,
)

from test_compiled import in_python
from support import CUSTOM_ENTRY, RECORDED, SUSPENSION, replaced, returning, types

MATCH = """
match record:
    case SleepCommandMessage():
        raise AssertionError
    case SetStateCommandMessage(key=name, value=Value(content=content)):
        pass
"""

COMMAND = SetStateCommandMessage(key=b"counter", value=Value(b"1"))


class TestDecoding(unittest.TestCase):
    def test_the_messages_of_a_stream(self):
        stream = Stream()
        stream.feed(RECORDED)
        found = []
        for item in stream:
            self.assertEqual(item.message.frame(), item.bytes)
            if isinstance(item.message, SetStateCommandMessage):
                found.append((item.message.key, item.message.value.content))
            elif isinstance(item.message, CallCompletionNotificationMessage):
                found.append(item.message.result.content)
        self.assertEqual(found, [(b"counter", b"1"), b"hi"])

    @unittest.skipIf(sys.version_info < (3, 10), "a word of Python 3.10")
    def test_match(self):
        found = {"record": COMMAND}
        exec(MATCH, globals(), found)
        self.assertEqual((found["name"], found["content"]), (b"counter", b"1"))

    def test_each_schema_and_each_type(self):
        self.assertEqual([record.__name__ for record in RECORDS], list(pendratsoa.SCHEMA_NAMES))
        self.assertEqual([record.SCHEMA for record in RECORDS], list(range(len(RECORDS))))
        for code, name in types():
            record = RECORDS[pendratsoa.schema(9, code)]
            self.assertEqual((record.CODE, record.TYPE, record.__name__), (code, name, f"{name}Message"))
            self.assertEqual(Message(9, code, b"").message, record())
        self.assertEqual(list(typing.get_args(messages.TypeName)), [name for _, name in types()])

    def test_another_encoding(self):
        self.assertEqual(Value.decode(b"\n\x81\x00x"), Value(b"x"))
        suspension = SuspensionMessageV6.decode(bytearray(b"\x08\x01\n\x02\x02\x03"))
        self.assertEqual(suspension.waiting_completions, (1, 2, 3))
        self.assertEqual(SetStateCommandMessage.decode(memoryview(b"")), SetStateCommandMessage())

    def test_what_is_malformed(self):
        self.assertRaisesRegex(Malformed, "^payload of 1 byte is malformed$", Value.decode, b"\n")
        self.assertRaises(TypeError, Value.decode, "text")
        self.assertIsNone(Message(8, CUSTOM_ENTRY, b"").message)

    def test_more_fields_than_the_first_room(self):
        keys = StateKeys(tuple(b"%d" % number for number in range(10000)))
        self.assertEqual(StateKeys.decode(keys.encode()), keys)

    def test_what_a_later_library_has(self):
        def one_field(schema, payload, length, table, room):
            ctypes.memset(table, 0, 48)
            return 1

        with replaced("journal_fields", one_field):
            text = "the field 0 of Value, which this package does not know"
            self.assertRaisesRegex(JournalError, text, Value.decode, b"")

        def of_another_kind(*parameters):
            (ctypes.c_uint64 * 2).from_address(parameters[5])[:] = 10, 0
            return 0

        with replaced("journal_payload_of_fields", of_another_kind):
            text = "^the library returned the kind of table 10, which this package does not know$"
            self.assertRaisesRegex(JournalError, text, Value(b"x").encode)
        for kept in (_records.schema_of, _items._class_of):
            kept.cache_clear()
            self.addCleanup(kept.cache_clear)
        with replaced("journal_schema", returning(len(RECORDS))), self.assertRaises(JournalError) as raised:
            Message(8, 0x7FFF, b"").message
        text = f"the library returned the schema {len(RECORDS)}, which this package does not know"
        self.assertEqual(str(raised.exception), text)

    def test_threads(self):
        payload = Future(waiting_signals=tuple(range(60)), nested_futures=(Future(),)).encode()
        found = []

        def decode():
            for _ in range(300):
                found.append(Future.decode(payload).encode())

        threads = [threading.Thread(target=decode) for _ in range(4)]
        for thread in threads:
            thread.start()
        for thread in threads:
            thread.join()
        # an error that ends a thread fails no test, so each result counts
        self.assertEqual(found, [payload] * 1200)

    def test_a_call_within_a_call(self):
        record = SetStateCommandMessage(key=b"counter", value=Value(b"1"), name="one")
        other = SetStateCommandMessage(key=b"another", value=Value(b"22"), name="other")
        payload, another = record.encode(), other.encode()
        # a finalizer, or the handler of a signal, that runs before what the library wrote is read
        for function in ("journal_fields", "journal_payload_of_fields"):
            made, wanted, inner = getattr(_library.library, function), [True], []

            def interrupted(*given):
                result = made(*given)
                if wanted:
                    wanted.clear()
                    inner.append((SetStateCommandMessage.decode(another), other.encode()))
                return result

            with in_python(), mock.patch.object(_library.library, function, interrupted):
                self.assertEqual((SetStateCommandMessage.decode(payload), record.encode()), (record, payload))
            self.assertEqual(inner, [(other, another)])

    def test_a_class_below_that_of_a_record(self):
        class Command(SetStateCommandMessage):
            """A class of a caller."""

        payload = SetStateCommandMessage(name="name").encode()
        found = Command.decode(payload)
        self.assertEqual((type(found), found.name, found.encode()), (Command, "name", payload))


class TestValues(unittest.TestCase):
    def test_they_are_values(self):
        decoded = SetStateCommandMessage.decode(COMMAND.encode())
        self.assertEqual((decoded, hash(decoded), repr(decoded)), (COMMAND, hash(COMMAND), repr(COMMAND)))
        for other in (copy.copy(decoded), copy.deepcopy(decoded), pickle.loads(pickle.dumps(decoded))):
            self.assertEqual(other, COMMAND)
        with self.assertRaises(dataclasses.FrozenInstanceError):
            decoded.key = b""
        self.assertNotEqual(Value(b"a"), Void())

    def test_replace_changes_one_field_alone(self):
        for record in RECORDS:
            for field in dataclasses.fields(record):
                if isinstance(field.default, (int, str, bytes)) and not isinstance(field.default, bool):
                    other = {int: 7, str: "seven", bytes: b"seven"}.get(type(field.default), ErrorBehavior.PAUSE)
                    changed = dataclasses.replace(record(), **{field.name: other})
                    decoded = record.decode(changed.encode())
                    self.assertEqual(decoded, changed)
                    self.assertEqual(dataclasses.replace(decoded, **{field.name: field.default}), record())

    def test_presence(self):
        record = ErrorMessage(related_command_index=0, related_command_name="", next_retry_delay=0)
        self.assertEqual(ErrorMessage.decode(record.encode()), record)
        self.assertEqual(ErrorMessage(code=0, message="", behavior=ErrorBehavior.RETRY).encode(), b"")
        for signal in (None, 0, 5, "", "name"):
            record = SignalNotificationMessage(signal_id=signal, result=Void())
            self.assertEqual(SignalNotificationMessage.decode(record.encode()), record)
        metadata = (FailureMetadata(key="a", value="b"),)
        for result in (None, b"", b"bytes", Failure(), Failure(code=500, message="text", metadata=metadata)):
            record = ProposeRunCompletionMessage(result=result)
            self.assertEqual(ProposeRunCompletionMessage.decode(record.encode()), record)

    def test_members_of_one_class(self):
        for member in (NotificationTemplateCompletionId(5), NotificationTemplateSignalId(5)):
            record = NotificationTemplate(id=member)
            self.assertEqual(NotificationTemplate.decode(record.encode()), record)

    def test_enums_keep_numbers_without_a_name(self):
        for number in (-(1 << 31), -1, 2, (1 << 31) - 1):
            found = ErrorMessage.decode(ErrorMessage(behavior=ErrorBehavior(number)).encode()).behavior
            self.assertEqual((found, type(found)), (number, ErrorBehavior))
        self.assertIs(ErrorMessage.decode(ErrorMessage(behavior=1).encode()).behavior, ErrorBehavior.PAUSE)
        self.assertRaises(ValueError, CombinatorType, 1 << 31)
        for number in (1 << 31, (1 << 63) - 1, 1 << 63, (1 << 64) - (1 << 31), (1 << 64) - 1, 1 << 64):
            with self.assertRaisesRegex(FieldError, "^field behavior: out of range$"):
                ErrorMessage(behavior=number).encode()

    def test_numbers_of_64_bits(self):
        record = SleepCommandMessage(wake_up_time=(1 << 64) - 1)
        self.assertEqual(SleepCommandMessage.decode(record.encode()), record)


class TestFrames(unittest.TestCase):
    def test_a_message_of_a_record(self):
        message = Message.of_record(COMMAND, 9)
        self.assertEqual((message.type, message.version, message.message), ("SetStateCommand", 9, COMMAND))
        self.assertEqual(message.frame(), COMMAND.frame(9))

    def test_a_record_at_each_version(self):
        suspension = SuspensionMessage(awaiting_on=Future(waiting_completions=(7,)))
        for record in (COMMAND, suspension):
            for version in range(5, 10):
                wanted = pendratsoa.frame(version, record.CODE, record.encode())
                self.assertEqual(record.frame(version), wanted)
            for version in (4, 10):
                text = rf"^unknown protocol version {version} \(5 to 9\)$"
                self.assertRaisesRegex(Unknown, text, record.frame, version)

    def test_a_record_of_earlier_versions(self):
        record = SuspensionMessageV6(waiting_completions=(1, 2))
        self.assertEqual(record.frame(6), bytes.fromhex("0001000000000004" "0a020102"))
        self.assertEqual(Message(6, SUSPENSION, record.encode()).message, record)
        self.assertRaisesRegex(Unknown, "^protocol version 7 has no SuspensionMessageV6$", record.frame, 7)
        self.assertRaises(Unknown, record.frame, 4)
        later = SuspensionMessage.decode(b"").frame(6)
        self.assertEqual(later, SuspensionMessageV6().frame(6))


class TestWrongFields(unittest.TestCase):
    def test_the_path(self):
        headers = Header(key="a", value="b"), Header(key="a", value="\ud800")
        for record, path, reason in (
            (Failure(code=-1), "code", FieldReason.OUT_OF_RANGE),
            (Failure(code=1 << 32), "code", FieldReason.OUT_OF_RANGE),
            (Failure(code=1 << 64), "code", FieldReason.OUT_OF_RANGE),
            (SleepCommandMessage(wake_up_time=-1), "wake_up_time", FieldReason.OUT_OF_RANGE),
            (ErrorMessage(behavior=1 << 31), "behavior", FieldReason.OUT_OF_RANGE),
            (ErrorMessage(behavior=-(1 << 65)), "behavior", FieldReason.OUT_OF_RANGE),
            (InputCommandMessage(headers=headers), "headers[1].value", FieldReason.NOT_UTF8),
            (OutputCommandMessage(result=Failure(message="\udfff")), "failure.message", FieldReason.NOT_UTF8),
        ):
            with self.subTest(record), self.assertRaises(FieldError) as caught:
                record.encode()
            self.assertEqual((caught.exception.path, caught.exception.reason), (path, reason))
            why = {FieldReason.OUT_OF_RANGE: "out of range", FieldReason.NOT_UTF8: "not UTF-8"}[reason]
            text = f"field {path}: {why}"
            self.assertEqual((str(caught.exception), caught.exception.call), (text, "encode"))
            self.assertIsInstance(caught.exception, ValueError)

    def test_the_type(self):
        for record, text in (
            (Failure(code="1"), "code must be int, not str"),
            (Failure(code=1.0), "code must be int, not float"),
            (Value(content="text"), "content must be bytes, not str"),
            (Value(content=None), "content must be bytes, not NoneType"),
            (Header(value=b"bytes"), "value must be str, not bytes"),
            (InputCommandMessage(value=Failure()), "value must be Value, not Failure"),
            (InputCommandMessage(headers=(Header(), 5)), r"headers\[1\] must be Header, not int"),
            (SendSignalCommandMessage(result=b""), r"result must be one of \w+, \w+, \w+, not bytes"),
        ):
            with self.subTest(text):
                self.assertRaisesRegex(TypeError, rf"^{type(record).__name__}\.{text}$", record.encode)

    def test_too_deep(self):
        deep = Future()
        for _ in range(100):
            deep = Future(nested_futures=(deep,))
        self.assertEqual(Future.decode(deep.encode()), deep)
        with self.assertRaises(FieldError) as caught:
            Future(nested_futures=(Future(), deep)).encode()
        self.assertEqual(caught.exception.reason, FieldReason.TOO_DEEP)
        self.assertTrue(caught.exception.path.startswith("nested_futures[1].nested_futures[0]."))


class TestComments(unittest.TestCase):
    def test_each_record_and_field_has_that_of_the_description(self):
        proto = (pathlib.Path(__file__).parents[2] / "proto/journal.proto").read_text()
        for record in RECORDS:
            comment = re.search(rf"((?:^// .*\n)+)message {record.__name__} ", proto, re.M)[1]
            self.assertEqual(" ".join(record.__doc__.split()), " ".join(comment.replace("//", " ").split()))


if __name__ == "__main__":
    unittest.main()
