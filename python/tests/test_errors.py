"""What a call rejects: the kind of the error, its text and its fields."""

import pickle
import unittest

import pendratsoa
from pendratsoa import (
    FieldError,
    Incomplete,
    JournalError,
    JsonError,
    Malformed,
    Message,
    NoId,
    NoResult,
    MessageTooLong,
    NoRoom,
    Numbering,
    NumberingError,
    OutOfMemory,
    Stream,
    TooLong,
    Unknown,
    messages,
)
from support import CALL_COMMAND, CUSTOM_ENTRY, INPUT, INPUT_LENGTH, SET_STATE_COMMAND, SIGNAL_NOTIFICATION
from support import replaced, returning

BAD = b"\x12"
# a notification with only a result, and one with only an id
NO_ID, NO_RESULT = b"\x22\x00", b"\x10\x11"
OR_NOT = ", or not of the kind that the call is for"


class TestErrors(unittest.TestCase):
    def test_each_names_the_call_the_argument_and_its_value(self):
        long = b"\xff" * 1000
        for call, kind, argument, value, name, text in (
            (lambda: pendratsoa.type_name(8), Unknown, "code", 8, "type_name", f"unknown code 0x0008{OR_NOT}"),
            (
                lambda: pendratsoa.type_code("Sleep"),
                Unknown,
                "name",
                "Sleep",
                "type_code",
                'unknown type "Sleep"',
            ),
            (
                lambda: pendratsoa.type_code("\ud800"),
                Unknown,
                "name",
                "\ud800",
                "type_code",
                'unknown type "\\ud800"',
            ),
            (lambda: pendratsoa.schema(4, 0), Unknown, "version", 4, "schema", "unknown protocol version 4 (5 to 9)"),
            (lambda: pendratsoa.schema(8, 8), Unknown, "code", 8, "schema", f"unknown code 0x0008{OR_NOT}"),
            (
                lambda: pendratsoa.header(4, 8, 0),
                Unknown,
                "version",
                4,
                "header",
                "unknown protocol version 4 (5 to 9)",
            ),
            (lambda: pendratsoa.header(8, 8, 0), Unknown, "code", 8, "header", f"unknown code 0x0008{OR_NOT}"),
            (
                lambda: pendratsoa.header(8, 0, 1 << 32),
                TooLong,
                "payload_length",
                1 << 32,
                "header",
                "payload of 4294967296 bytes is too long: more than 4,294,967,295 bytes",
            ),
            (
                lambda: pendratsoa.frame(8, CUSTOM_ENTRY, b""),
                Unknown,
                "code",
                CUSTOM_ENTRY,
                "frame",
                f"unknown code 0xfc01{OR_NOT}",
            ),
            (
                lambda: pendratsoa.frame(8, 2, BAD),
                Malformed,
                "payload",
                BAD,
                "frame",
                "payload of 1 byte is malformed",
            ),
            (
                lambda: pendratsoa.canonical(pendratsoa.SCHEMAS, b""),
                Unknown,
                "schema",
                pendratsoa.SCHEMAS,
                "canonical",
                f"unknown schema {pendratsoa.SCHEMAS} (0 to {pendratsoa.SCHEMAS - 1})",
            ),
            (
                lambda: pendratsoa.to_json("Sleep", b""),
                Unknown,
                "schema",
                "Sleep",
                "to_json",
                'unknown schema "Sleep"',
            ),
            (
                lambda: pendratsoa.canonical(13, long),
                Malformed,
                "payload",
                long,
                "canonical",
                "payload of 1000 bytes is malformed",
            ),
            (
                lambda: pendratsoa.merge(13, BAD, b""),
                Malformed,
                "first",
                BAD,
                "merge",
                "first payload of 1 byte is malformed",
            ),
            (
                lambda: pendratsoa.merge("ErrorMessage", b"", BAD),
                Malformed,
                "second",
                BAD,
                "merge",
                "second payload of 1 byte is malformed",
            ),
            (
                lambda: pendratsoa.header_eq(SET_STATE_COMMAND, b"", BAD),
                Malformed,
                "second",
                BAD,
                "header_eq",
                "second payload of 1 byte is malformed",
            ),
            (
                lambda: pendratsoa.difference(SET_STATE_COMMAND, BAD, b""),
                Malformed,
                "first",
                BAD,
                "difference",
                "first payload of 1 byte is malformed",
            ),
            (
                lambda: pendratsoa.difference(2, b"", b""),
                Unknown,
                "code",
                2,
                "difference",
                f"unknown code 0x0002{OR_NOT}",
            ),
            (
                lambda: pendratsoa.notification(CALL_COMMAND, b""),
                Unknown,
                "code",
                CALL_COMMAND,
                "notification",
                f"unknown code 0x040d{OR_NOT}",
            ),
            (
                lambda: pendratsoa.notification(SIGNAL_NOTIFICATION, NO_ID),
                NoId,
                "payload",
                NO_ID,
                "notification",
                "payload of 2 bytes has no id",
            ),
            (
                lambda: pendratsoa.notification(SIGNAL_NOTIFICATION, NO_RESULT),
                NoResult,
                "payload",
                NO_RESULT,
                "notification",
                "payload of 2 bytes has an id, and no result",
            ),
            (
                lambda: pendratsoa.compare_journals(10, b"", b""),
                Unknown,
                "version",
                10,
                "compare_journals",
                "unknown protocol version 10 (5 to 9)",
            ),
            (lambda: Stream(10), Unknown, "version", 10, "Stream", "unknown protocol version 10 (5 to 9)"),
        ):
            with self.subTest(text), self.assertRaises(kind) as raised:
                call()
            error = raised.exception
            self.assertIs(type(error), kind)
            self.assertEqual((str(error), error.argument, error.value), (text, argument, value))
            self.assertEqual(error.call, name)

    def test_the_call_is_the_one_that_was_made(self):
        entry, earlier = Message(8, CUSTOM_ENTRY, b""), messages.SuspensionMessageV6()
        for name, *calls in (
            (
                "Message.of",
                lambda: Message.of("Sleep"),
                lambda: Message.of(8),
                lambda: Message.of("SleepCommand", b"", 4),
            ),
            (
                "Message.from_json",
                lambda: Message.from_json("Sleep", "{}"),
                lambda: Message.from_json(CUSTOM_ENTRY, "{}"),
                lambda: Message.from_json("SleepCommand", "{"),
                lambda: Message.from_json("SleepCommand", "{}", 4),
            ),
            (
                "Message.of_record",
                lambda: Message.of_record(messages.EndMessage(), 4),
                lambda: Message.of_record(earlier, 7),
                lambda: Message.of_record(messages.ErrorMessage(code=-1)),
            ),
            ("frame", entry.frame, lambda: earlier.frame(7), lambda: earlier.frame(4)),
            ("json", entry.json),
            ("canonical", entry.canonical),
        ):
            for call in calls:
                with self.subTest(name), self.assertRaises(JournalError) as raised:
                    call()
                self.assertEqual(raised.exception.call, name)
                self.assertNotIn(name, str(raised.exception))
        for call, value in (
            (lambda: Message.of("Sleep"), "Sleep"),
            (lambda: Message.of(8), 8),
            (lambda: Message.from_json("Sleep", "{}"), "Sleep"),
        ):
            with self.assertRaises(Unknown) as unknown:
                call()
            self.assertEqual((unknown.exception.argument, unknown.exception.value), ("type", value))
        with self.assertRaisesRegex(TypeError, "^Message.from_json: json must be "):
            Message.from_json("SleepCommand", 5)

    def test_no_text_has_bytes_of_a_payload(self):
        bad = b"\x0a\x40a secret"
        stream = Stream()
        stream.feed(pendratsoa.header(8, SET_STATE_COMMAND, len(bad)) + bad)
        (came,) = stream
        for call in (
            lambda: pendratsoa.canonical("Value", bad),
            lambda: pendratsoa.to_json("Value", bytearray(bad)),
            lambda: pendratsoa.merge("Value", bad, b""),
            lambda: pendratsoa.merge("Value", b"", memoryview(bad)),
            lambda: pendratsoa.frame(8, SET_STATE_COMMAND, bad),
            lambda: pendratsoa.notification(SIGNAL_NOTIFICATION, b"\x22\x0a\x0a\x08a secret"),
            lambda: messages.Value.decode(bad),
            lambda: came.message,
            came.json,
            came.canonical,
            came.frame,
            lambda: pendratsoa.from_json("Value", '{"content":"a secret"}'),
            lambda: pendratsoa.from_json("Value", b'{"content":"a secret"'),
            lambda: Message.from_json("SetStateCommand", {"key": "a secret"}),
        ):
            with self.assertRaises(JournalError) as raised:
                call()
            text = r"^(SetStateCommand at offset 0: )?(first |second )?(payload|JSON) of \d+ bytes"
            self.assertRegex(str(raised.exception), text)
            self.assertNotIn("secret", repr(raised.exception))

    def test_controls_of_a_name_are_escaped(self):
        controls = {*range(0x20), *range(0x7F, 0xA0), *range(0x2028, 0x202F), *range(0x2066, 0x206A)}
        for code in (*range(0x2100), 0xD800, 0xDFFF, 0xE000, 0x1F600):
            shown = f"\\u{code:04x}" if code in controls or 0xD800 <= code < 0xE000 else chr(code)
            with self.assertRaises(Unknown) as raised:
                pendratsoa.type_code(chr(code))
            self.assertEqual(str(raised.exception), f'unknown type "{shown}"')

    def test_a_number_that_python_does_not_write(self):
        for number in (1 << 100_000, -1 << 100_000):
            with self.assertRaises(Unknown) as raised:
                pendratsoa.type_name(number)
            self.assertLess(len(str(raised.exception)), 150)
            self.assertEqual(raised.exception.value, number)

    def test_what_fails_without_an_argument(self):
        for number, kind, text in (
            (-2, OutOfMemory, "out of memory"),
            (-3, NoRoom, "not enough room"),
            (-4, TooLong, "payload is too long: more than 4,294,967,295 bytes"),
        ):
            with replaced("journal_canonical", returning(number)), self.assertRaises(kind) as raised:
                pendratsoa.canonical(0, b"")
            self.assertEqual((str(raised.exception), raised.exception.argument), (text, None))

    def test_what_a_later_library_may_return(self):
        unknown = "the library returned {}, which this package does not know"
        for function, found, call, what in (
            ("journal_canonical", returning(-12), lambda: pendratsoa.canonical(0, b""), "the error -12"),
            ("journal_schema", returning(-9), lambda: pendratsoa.schema(8, 0), "the error -9"),
            (
                "journal_notification",
                returning(0, 3, 0, 0, 0),
                lambda: pendratsoa.notification(SIGNAL_NOTIFICATION, b""),
                "the kind of id 3",
            ),
            (
                "journal_notification",
                returning(0, 0, 0, 0, 5),
                lambda: pendratsoa.notification(SIGNAL_NOTIFICATION, b""),
                "the kind of result 5",
            ),
            (
                "journal_payload_of_json",
                returning(0, 9, 0),
                lambda: pendratsoa.from_json(0, "[{}]"),
                "the kind of JSON text 9",
            ),
            (
                "journal_verdict",
                returning(0, 7, 0),
                lambda: pendratsoa.compare_journals(8, b"", b""),
                "the kind of verdict 7",
            ),
        ):
            with replaced(function, found), self.assertRaises(JournalError) as later:
                call()
            self.assertIs(type(later.exception), JournalError)
            self.assertEqual(str(later.exception), unknown.format(what))

    def test_they_are_errors_of_python_too(self):
        for kind, other in (
            (Malformed, ValueError),
            (OutOfMemory, MemoryError),
            (TooLong, OverflowError),
            (MessageTooLong, TooLong),
            (Unknown, LookupError),
            (JsonError, ValueError),
            (NoId, ValueError),
            (NoResult, ValueError),
            (FieldError, ValueError),
            (NumberingError, ValueError),
            (Incomplete, EOFError),
        ):
            self.assertTrue(issubclass(kind, other) and issubclass(kind, JournalError))

    def test_they_can_be_pickled(self):
        malformed = Stream()
        malformed.feed(INPUT + bytes.fromhex("0400000000000001") + BAD)
        limited, ended = Stream(max_message_size=INPUT_LENGTH - 1), Stream()
        limited.feed(INPUT)
        ended.feed(INPUT + INPUT[:3])
        list(ended)
        for call, fields in (
            (lambda: [item.message for item in malformed], ("call", "argument", "value", "code", "offset")),
            (lambda: list(limited), ("call", "argument", "value", "code", "length", "limit", "offset")),
            (ended.finish, ("call", "rest", "offset", "code")),
            (lambda: pendratsoa.from_json(13, "["), ("call", "argument", "value", "reason", "offset", "path")),
            (messages.Failure(code=-1).encode, ("call", "reason", "path")),
            (lambda: Numbering(BAD), ("call", "argument", "value", "reason", "text")),
        ):
            with self.assertRaises(JournalError) as raised:
                call()
            error = pickle.loads(pickle.dumps(raised.exception))
            self.assertEqual((type(error), str(error)), (type(raised.exception), str(raised.exception)))
            values = [getattr(raised.exception, name) for name in fields]
            self.assertEqual([getattr(error, name) for name in fields], values)
            self.assertNotIn(None, values)


if __name__ == "__main__":
    unittest.main()
