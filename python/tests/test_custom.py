"""Custom entries, which have no record: loops over all items of a stream that has some. Where each item begins, which
record it has, and what an error of a payload says of its message."""

import copy
import dataclasses
import io
import pickle
import sys
import unittest

import pendratsoa
from pendratsoa import Malformed, Message, NoId, NoResult, Skipped, Stream, Unknown, UnknownCode, VerdictKind
from pendratsoa.messages import EndMessage, InputCommandMessage, SetStateCommandMessage, Value
from pendratsoa.messages import SuspensionMessage, SuspensionMessageV6
from support import CUSTOM_ENTRY, INPUT, INPUT_COMMAND, SET_STATE_COMMAND, SIGNAL_NOTIFICATION, SUSPENSION

# custom entries whose codes are above all others, that of a command, and that of a notification
CUSTOM = tuple(bytes.fromhex(digits) for digits in ("fc01ffff00000001ff", "0500000000000003707172", "8500000000000000"))
UNKNOWN = bytes.fromhex("0008a5a500000000")
SET = SetStateCommandMessage(b"counter", Value(b"1")).frame()
END = EndMessage().frame()
PARTS = (INPUT, CUSTOM[0], SET, CUSTOM[1], UNKNOWN, SET, CUSTOM[2], END)
RECORDS = [
    InputCommandMessage(value=Value(b"input")),
    None,
    SetStateCommandMessage(b"counter", Value(b"1")),
    None,
    None,
    SetStateCommandMessage(b"counter", Value(b"1")),
    None,
    EndMessage(),
]
MALFORMED = bytes.fromhex("04030000000000010a")

# of Python 3.10 and later
MATCHING = """
def found(item):
    match item:
        case Message(message=SetStateCommandMessage(key=key, value=Value(content=content))):
            return key, content
        case Message(message=None, code=code):
            return code
        case Message(type=type):
            return type
        case UnknownCode(code=code):
            return hex(code)
"""


def items_of(*parts, version=8):
    return list(Stream(version).read(io.BytesIO(b"".join(parts))))


class TestCustomEntries(unittest.TestCase):
    def test_a_loop_over_all_items(self):
        found = [item.message if isinstance(item, Message) else None for item in items_of(*PARTS)]
        self.assertEqual(found, RECORDS)
        self.assertEqual(b"".join(item.bytes for item in items_of(*PARTS)), b"".join(PARTS))

    def test_the_type_of_each_item(self):
        found = [(item.type, item.is_command, item.is_notification) for item in items_of(*PARTS)]
        self.assertEqual(found[0], ("InputCommand", True, False))
        self.assertEqual(found[4], (None, False, False))
        self.assertEqual(found[6], ("CustomEntry(34048)", False, True))
        for item in (UnknownCode(8, 0x0408, 0), Skipped(9, 0x8008, 0, b"")):
            self.assertEqual((item.type, item.is_command, item.is_notification), (None, False, False))

    def test_each_code_that_is_of_no_named_type(self):
        for version in range(pendratsoa.FIRST_VERSION, pendratsoa.LAST_VERSION + 1):
            for code in (0x0400 + 0x1F, 0x0500, 0x3F3F, 0x7FFF, 0x8500, CUSTOM_ENTRY, 0xFFFF):
                self.assertIsNone(Message(version, code, b"\xff").message)
                self.assertIsNone(Message(version, code, b"\xff").record(SetStateCommandMessage))

    def test_what_is_no_type_or_no_version(self):
        for version, code in ((8, 8), (8, 0x03FF), (4, CUSTOM_ENTRY), (10, SET_STATE_COMMAND), (8, 1 << 16)):
            for read in (lambda item: item.message, lambda item: item.record(EndMessage)):
                self.assertRaises(Unknown, read, Message(version, code, b""))

    @unittest.skipIf(sys.version_info < (3, 10), "match is of Python 3.10")
    def test_match(self):
        names = dict(globals())
        exec(MATCHING, names)
        found = [names["found"](item) for item in items_of(*PARTS)]
        state = (b"counter", b"1")
        self.assertEqual(found, ["InputCommand", 0xFC01, state, 0x0500, "0x8", state, 0x8500, "End"])
        with self.assertRaises(Malformed):
            [names["found"](item) for item in items_of(MALFORMED)]

    def test_they_are_not_compared(self):
        verdict = pendratsoa.compare_journals(8, b"".join(PARTS), INPUT + SET + SET + END)
        self.assertEqual((verdict.kind, verdict.index), (VerdictKind.SAME, 3))


class TestRecord(unittest.TestCase):
    def test_a_record_or_none(self):
        for item, wanted in zip(items_of(*PARTS), RECORDS):
            for record in (InputCommandMessage, SetStateCommandMessage, EndMessage):
                self.assertEqual(item.record(record), wanted if type(wanted) is record else None)
        self.assertIsNone(Skipped(9, 8, 0, b"").record(EndMessage))

    def test_the_record_of_its_version(self):
        message = Message(6, SUSPENSION, b"")
        self.assertEqual(message.record(SuspensionMessageV6), SuspensionMessageV6())
        self.assertIsNone(message.record(SuspensionMessage))
        message = Message(7, SUSPENSION, b"")
        self.assertEqual(message.record(SuspensionMessage), SuspensionMessage())
        self.assertIsNone(message.record(SuspensionMessageV6))

    def test_only_what_is_looked_for_is_decoded(self):
        malformed = items_of(MALFORMED)[0]
        self.assertIsNone(malformed.record(InputCommandMessage))
        self.assertRaises(Malformed, malformed.record, SetStateCommandMessage)

    def test_what_is_no_class_of_a_message(self):
        for item in items_of(*PARTS):
            for record in (Value, dict, "EndMessage", EndMessage(), None):
                with self.assertRaises(TypeError) as raised:
                    item.record(record)
                name = record.__name__ if isinstance(record, type) else f"an object of {type(record).__name__}"
                text = f"record: record must be the class of a message's record, not {name}"
                self.assertEqual(str(raised.exception), text)


class TestOffsets(unittest.TestCase):
    def test_where_each_item_begins(self):
        offsets = [sum(map(len, PARTS[:count])) for count in range(len(PARTS))]
        for size in (1, 7, 1000):
            stream = Stream()
            found = list(stream.read(io.BytesIO(b"".join(PARTS)), size))
            self.assertEqual([item.offset for item in found], offsets)
        self.assertEqual([item.offset for item in items_of(UNKNOWN, END, version=9)], [0, 8])

    def test_what_came_in_no_stream_has_none(self):
        came = items_of(*PARTS)
        for item in (Message(8, 0, b""), UnknownCode(8, 8, 0), Skipped(9, 8, 0, b""), Message.of("End")):
            self.assertIsNone(item.offset)
        self.assertIsNone(dataclasses.replace(came[2], payload=b"").offset)
        self.assertEqual(came[2], came[5])
        for item in came:
            for other in (copy.copy(item), copy.deepcopy(item), pickle.loads(pickle.dumps(item))):
                self.assertEqual(other.offset, item.offset)

    def test_errors_of_a_payload(self):
        (_, message) = items_of(INPUT, MALFORMED)
        made = Message(8, SET_STATE_COMMAND, MALFORMED[8:])
        for item, offset, where in ((message, len(INPUT), f" at offset {len(INPUT)}"), (made, None, "")):
            out = bytearray()
            for name, call in (
                ("message", lambda: item.message),
                ("record", lambda: item.record(SetStateCommandMessage)),
                ("json", item.json),
                ("canonical", item.canonical),
                ("frame", item.frame),
                ("append_frame", lambda: item.append_frame(out)),
                ("frame", lambda: item.write_frame(io.BytesIO())),
            ):
                with self.assertRaises(Malformed) as raised:
                    call()
                error = raised.exception
                text = f"SetStateCommand{where}: payload of 1 byte is malformed"
                self.assertEqual((str(error), error.code, error.offset), (text, SET_STATE_COMMAND, offset))
                self.assertEqual((error.call, error.argument, error.value), (name, "payload", b"\n"))
            self.assertEqual(out, b"")

    def test_errors_of_a_notification(self):
        for payload, kind, what in (
            (b"\x22\x00", NoId, "has no id"),
            (b"\x10\x11", NoResult, "has an id, and no result"),
        ):
            header = pendratsoa.header(8, SIGNAL_NOTIFICATION, len(payload))
            (message,) = items_of(header + payload)
            with self.assertRaises(kind) as raised:
                message.notification()
            text = f"SignalNotification at offset 0: payload of 2 bytes {what}"
            error = raised.exception
            self.assertEqual((str(error), error.code, error.offset), (text, SIGNAL_NOTIFICATION, 0))

    def test_an_error_of_an_earlier_suspension(self):
        for call in ("frame", "append_frame"):
            with self.assertRaises(Malformed) as raised:
                getattr(Message(6, SUSPENSION, b"\n"), call)(*([bytearray()] if call == "append_frame" else []))
            self.assertEqual(str(raised.exception), "Suspension: payload of 1 byte is malformed")
            self.assertEqual(raised.exception.call, call)

    def test_a_call_by_itself_knows_no_message(self):
        with self.assertRaises(Malformed) as raised:
            pendratsoa.frame(8, INPUT_COMMAND, b"\n")
        self.assertEqual((raised.exception.code, raised.exception.offset), (None, None))


if __name__ == "__main__":
    unittest.main()
