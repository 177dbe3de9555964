"""Payloads by their schemas, frames, notifications and comparisons."""

import array
import json
import pickle
import sys
import unittest

import pendratsoa
from pendratsoa import IdKind, JsonError, JsonReason, Message, Notification, ResultKind, Verdict, VerdictKind
from support import CALL_COMMAND, CALL_COMPLETION, RECORDED, REPLAYED, SET_STATE_COMMAND, SIGNAL_NOTIFICATION


class TestPayloads(unittest.TestCase):
    def test_canonical(self):
        for schema in (12, "SuspensionMessageV6"):
            found = pendratsoa.canonical(schema, bytes.fromhex("08010a0202030804"))
            self.assertEqual(found, bytes.fromhex("0a0401020304"))

    def test_merge(self):
        for schema in (12, "SuspensionMessageV6"):
            self.assertEqual(pendratsoa.merge(schema, b"\x08\x01", b"\x0a\x02\x02\x03"), bytes.fromhex("0a03010203"))

    def test_well_formed(self):
        for schema in (14, "EndMessage"):
            self.assertIs(pendratsoa.is_well_formed(schema, b""), True)
            self.assertIs(pendratsoa.is_well_formed(schema, b"\x0e\x00"), False)

    def test_every_schema_by_its_name(self):
        for number, name in enumerate(pendratsoa.SCHEMA_NAMES):
            payload = b"\x0a\x00\x10\x01"
            try:
                found = pendratsoa.to_json(number, payload)
            except pendratsoa.Malformed:
                self.assertRaises(pendratsoa.Malformed, pendratsoa.to_json, name, payload)
            else:
                self.assertEqual(pendratsoa.to_json(name, payload), found)

    def test_frame_before_and_from_version_7_on(self):
        payload = bytes.fromhex("22120a010122080a010222030a010122030a0103")
        self.assertEqual(pendratsoa.frame(6, 1, payload), bytes.fromhex("00010000000000060a0401020103"))
        self.assertEqual(pendratsoa.frame(7, 1, payload), pendratsoa.header(7, 1, len(payload)) + payload)

    def test_what_needs_more_than_the_first_room(self):
        # a text of JSON is longer than its payload where it is escaped
        text = "\u0001" * 1000
        payload = b"\x12\xe8\x07" + text.encode()
        self.assertEqual(pendratsoa.canonical(13, payload), payload)
        self.assertEqual(pendratsoa.to_json(13, bytearray(payload)), '{"message":"' + "\\u0001" * 1000 + '"}')

    def test_any_view_of_bytes(self):
        payload = bytes.fromhex("08010a0202030804")
        doubled = bytes(byte for byte in payload for _ in range(2))
        for data in (
            bytearray(payload),
            memoryview(b"front" + payload + b"end")[5:-3],
            memoryview(doubled)[::2],
            memoryview(payload[::-1])[::-1],
            memoryview(payload).cast("B", (2, 4)),
            array.array("I", [int.from_bytes(payload[at : at + 4], sys.byteorder) for at in (0, 4)]),
        ):
            self.assertEqual(pendratsoa.canonical(12, data), bytes.fromhex("0a0401020304"))
            self.assertEqual(pendratsoa.merge(12, b"", data), bytes.fromhex("0a0401020304"))


class TestReading(unittest.TestCase):
    def test_one_value_in_many_forms(self):
        json = ' { "name" : "\\u0078" , "wake_up_time" : 0.5e1 } '
        for text in ('{"wakeUpTime":"5","name":"x"}', json, json.encode(), bytearray(json.encode())):
            found = pendratsoa.from_json("SleepCommandMessage", text)
            self.assertEqual(found, bytes.fromhex("0805620178"))
            self.assertIs(type(found), bytes)
        for schema in range(pendratsoa.SCHEMAS):
            self.assertEqual(pendratsoa.from_json(schema, "{}"), b"")

    def test_a_text_that_is_not_ascii(self):
        text = "a\u00e9\U0001f600" * 1000
        found = pendratsoa.from_json(13, json.dumps({"message": text}))
        self.assertEqual(json.loads(pendratsoa.to_json(13, found)), {"message": text})

    def test_what_is_not_taken(self):
        for schema, text, reason, offset, path, why in (
            ("Value", "", JsonReason.NOT_JSON, 0, "", "not JSON at byte 0"),
            ("Value", b'{"content":"\xff"}', JsonReason.NOT_JSON, 12, "", "not JSON at byte 12"),
            ("ErrorMessage", '{"message":"\u00e9\ud83d"}', JsonReason.NOT_JSON, 14, "", "not JSON at byte 14"),
            ("Value", '{"a":1}', JsonReason.UNKNOWN_MEMBER, None, "a", "a: unknown member"),
            (
                "Value",
                '{"content":"","content":""}',
                JsonReason.REPEATED_MEMBER,
                None,
                "content",
                "content: repeated member",
            ),
            (
                "ProposeRunCompletionMessage",
                '{"value":"","failure":{}}',
                JsonReason.SEVERAL_MEMBERS,
                None,
                "failure",
                "failure: several members of a oneof",
            ),
            ("Value", "[]", JsonReason.WRONG_KIND, None, "", "wrong kind of value"),
            (
                "InputCommandMessage",
                '{"headers":[{},{"key":1}]}',
                JsonReason.WRONG_KIND,
                None,
                "headers[1].key",
                "headers[1].key: wrong kind of value",
            ),
            (
                "SleepCommandMessage",
                '{"wakeUpTime":-1}',
                JsonReason.OUT_OF_RANGE,
                None,
                "wakeUpTime",
                "wakeUpTime: out of range",
            ),
            ("Value", '{"content":"a"}', JsonReason.NOT_BASE64, None, "content", "content: not base64"),
        ):
            with self.subTest(text), self.assertRaises(JsonError) as raised:
                pendratsoa.from_json(schema, text)
            error = raised.exception
            self.assertEqual((error.reason, error.offset, error.path), (reason, offset, path))
            self.assertEqual((error.call, error.argument, error.value), ("from_json", "json", text))
            size = len(text if isinstance(text, bytes) else text.encode("utf-8", "surrogatepass"))
            self.assertEqual(str(error), f"JSON of {size} bytes: {why}")
            again = pickle.loads(pickle.dumps(error))
            self.assertEqual((again.reason, again.offset, again.path), (reason, offset, path))

    def test_too_deep(self):
        for levels, reason in ((101, None), (102, JsonReason.TOO_DEEP), (600, JsonReason.NOT_JSON)):
            text = '{"nestedFutures":[' * (levels - 1) + "{}" + "]}" * (levels - 1)
            try:
                pendratsoa.from_json("Future", text)
            except JsonError as error:
                self.assertEqual(error.reason, reason)
            else:
                self.assertIsNone(reason)


class TestNotifications(unittest.TestCase):
    def test_completion(self):
        self.assertEqual(
            Message(8, CALL_COMPLETION, bytes.fromhex("08022a040a026869")).notification(),
            Notification(IdKind.COMPLETION_ID, 2, ResultKind.VALUE, bytes.fromhex("0a026869")),
        )

    def test_signal_with_a_name(self):
        self.assertEqual(
            pendratsoa.notification(SIGNAL_NOTIFICATION, bytes.fromhex("1a0361c3a92200")),
            Notification(IdKind.SIGNAL_NAME, "a\u00e9", ResultKind.VOID, b""),
        )

    def test_each_id(self):
        for payload, kind, number in (
            ("10112200", IdKind.SIGNAL_ID, 17),
            ("1a002200", IdKind.SIGNAL_NAME, ""),
            ("1a0473746f702200", IdKind.SIGNAL_NAME, "stop"),
            ("08002200", IdKind.COMPLETION_ID, 0),
        ):
            found = pendratsoa.notification(SIGNAL_NOTIFICATION, bytes.fromhex(payload))
            self.assertEqual(found, Notification(kind, number, ResultKind.VOID, b""))
            self.assertIs(type(found.id), type(number))

    def test_each_result(self):
        for kind, result, expected in (
            (ResultKind.VOID, "2200", ""),
            (ResultKind.VALUE, "2a030a0178", "0a0178"),
            (ResultKind.FAILURE, "3203088500", "0805"),
            (ResultKind.INVOCATION_ID, "820103696e76", "696e76"),
            (ResultKind.STATE_KEYS, "8a01030a0161", "0a0161"),
        ):
            for name, digits in (("", "1a00"), ("stop", "1a0473746f70")):
                payload = bytes.fromhex(digits) + bytes.fromhex(result)
                self.assertEqual(
                    pendratsoa.notification(SIGNAL_NOTIFICATION, payload),
                    Notification(IdKind.SIGNAL_NAME, name, kind, bytes.fromhex(expected)),
                )


class TestComparisons(unittest.TestCase):
    FIRST, SECOND = bytes.fromhex("0a01611a030a0131"), bytes.fromhex("0a01611a030a0132")

    def test_commands(self):
        self.assertIs(pendratsoa.header_eq(SET_STATE_COMMAND, self.FIRST, self.FIRST), True)
        self.assertIs(pendratsoa.header_eq(SET_STATE_COMMAND, self.FIRST, self.SECOND), False)
        for flag in (True, 1, 1 << 32, -1):
            self.assertTrue(pendratsoa.header_eq(SET_STATE_COMMAND, self.FIRST, self.SECOND, ignore_payloads=flag))
        self.assertEqual(pendratsoa.difference(SET_STATE_COMMAND, self.FIRST, self.SECOND), "\n   value: '1' != '2'")
        self.assertEqual(pendratsoa.difference(SET_STATE_COMMAND, self.FIRST, self.FIRST), "")

    def test_journals(self):
        verdict = pendratsoa.compare_journals(8, RECORDED, REPLAYED)
        self.assertEqual((verdict.kind, verdict.index), (VerdictKind.HEADER_MISMATCH, 1))
        self.assertIn("value: '1' != '2'", verdict.text)
        self.assertEqual(pendratsoa.compare_journals(8, RECORDED, REPLAYED, True), Verdict(VerdictKind.SAME, 4, ""))

    def test_verdicts(self):
        def command(payload, code=SET_STATE_COMMAND):
            return pendratsoa.header(8, code, len(payload)) + payload

        first, second, bad = command(self.FIRST), command(self.SECOND), command(b"\x0a")
        other = command(b"", CALL_COMMAND)
        for recorded, replayed, kind, index in (
            (b"", b"", VerdictKind.SAME, 0),
            (first, b"", VerdictKind.REPLAYED_ENDED, 0),
            (first, first + second, VerdictKind.RECORDED_ENDED, 1),
            (first + second, first + other, VerdictKind.TYPE_MISMATCH, 1),
            (first + second, first + first, VerdictKind.HEADER_MISMATCH, 1),
            (first + bad, first + first, VerdictKind.BAD_RECORDED, 1),
            (first + first, first + bad, VerdictKind.BAD_REPLAYED, 1),
        ):
            verdict = pendratsoa.compare_journals(8, recorded, bytearray(replayed))
            self.assertEqual((verdict.kind, verdict.index), (kind, index))


if __name__ == "__main__":
    unittest.main()
